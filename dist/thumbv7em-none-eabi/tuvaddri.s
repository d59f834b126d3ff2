/* tuvaddri.s for thumbv7em-none-eabi: assembly of the proved crate tuvaddri_c, by dev/dist. README.md has more. */
	.syntax	unified
	.eabi_attribute	67, "2.09"
	.cpu	cortex-m4
	.eabi_attribute	6, 13
	.eabi_attribute	7, 77
	.eabi_attribute	8, 0
	.eabi_attribute	9, 2
	.eabi_attribute	34, 1
	.eabi_attribute	17, 1
	.eabi_attribute	20, 1
	.eabi_attribute	21, 0
	.eabi_attribute	23, 3
	.eabi_attribute	24, 1
	.eabi_attribute	25, 1
	.eabi_attribute	38, 1
	.eabi_attribute	14, 0
	.file	"rattle"
	.section	".text.end_objects::refusals::server_refusal","ax",%progbits
	.p2align	2
	.type	"end_objects::refusals::server_refusal",%function
	.code	16
	.thumb_func
"end_objects::refusals::server_refusal":
	.fnstart
	.save	{r4, r5, r7, lr}
	push	{r4, r5, r7, lr}
	.pad	#24
	sub	sp, #24
	mov	r4, r0
	movw	r0, :lower16:.Lstatic.0
	movt	r0, :upper16:.Lstatic.0
	movs	r2, #0
	movs	r3, #0
	str	r4, [sp]
	bl	"end_objects::refusals::has_keys"
	cbz	r0, .LBBdc6f5_2
	ldr	r0, [r4, #32]
	ldr	r1, [r4, #36]
	orrs	r0, r1
	clz	r0, r0
	lsrs	r5, r0, #5
	add	r0, sp, #8
	mov	r1, r4
	bl	"end_objects::settings::keyed_kinds"
	ldrd	r0, r1, [sp, #16]
	orrs	r0, r1
	clz	r0, r0
	lsrs	r0, r0, #5
	eors	r5, r0
	b	.LBBdc6f5_3
.LBBdc6f5_2:
	movs	r5, #1
.LBBdc6f5_3:
	mov	r0, r4
	bl	"end_objects::refusals::has_bad_methods"
	mov	r1, r0
	mov	r0, r4
	mov	r2, r5
	add	sp, #24
	pop.w	{r4, r5, r7, lr}
	b	"end_objects::refusals::end_refusal"
.Lfunc_enddc6f5:
	.size	"end_objects::refusals::server_refusal", .Lfunc_enddc6f5-"end_objects::refusals::server_refusal"
	.cantunwind
	.fnend

	.section	".text.end_objects::refusals::has_keys","ax",%progbits
	.p2align	2
	.type	"end_objects::refusals::has_keys",%function
	.code	16
	.thumb_func
"end_objects::refusals::has_keys":
	.fnstart
	.save	{r4, r5, r6, r7, r8, r9, r10, lr}
	push.w	{r4, r5, r6, r7, r8, r9, r10, lr}
	.pad	#88
	sub	sp, #88
	ldr	r7, [sp, #120]
	mov	r6, r0
	add	r0, sp, #40
	mov	r1, r7
	mov	r9, r3
	mov	r8, r2
	bl	"end_objects::settings::keyed_kinds"
	add	r5, sp, #40
	ldm	r5, {r0, r1, r5}
	add	r2, sp, #56
	ldr	r4, [sp, #52]
	stm	r2!, {r0, r1, r5}
	add	r0, sp, #56
	str	r0, [sp, #72]
	mov.w	r10, #0
	add	r0, sp, #28
	add	r1, sp, #72
	str	r4, [sp, #68]
	str	r4, [sp, #84]
	strd	r10, r5, [sp, #76]
	bl	"core::iter::slices::IterIterator::next::<i8>"
	ldrb.w	r0, [sp, #28]
	cmp	r0, #1
	bne	.LBBcafce_9
	ldr	r0, [sp, #36]
	b	.LBBcafce_4
	.p2align	2
.LBBcafce_2:
	subs	r1, #32
	sbc	r0, r0, #0
	rsbs.w	r1, r1, #32
	mov.w	r1, #0
	sbcs.w	r0, r1, r0
	blo	.LBBcafce_8
.LBBcafce_3:
	add	r0, sp, #16
	add	r1, sp, #72
	bl	"core::iter::slices::IterIterator::next::<i8>"
	ldrb.w	r1, [sp, #16]
	ldr	r0, [sp, #24]
	cmp	r1, #1
	bne	.LBBcafce_9
.LBBcafce_4:
	ldrb	r2, [r0]
	movs	r0, #64
	cmp	r2, #47
	it	eq
	moveq	r0, #48
	adds	r3, r7, r0
	ldr	r1, [r7, r0]
	ldr	r0, [r3, #4]
	cmp	r2, #51
	beq	.LBBcafce_2
	cmp	r2, #47
	bne	.LBBcafce_7
	eor	r1, r1, #16
	orrs	r0, r1
	beq	.LBBcafce_3
	b	.LBBcafce_8
	.p2align	2
.LBBcafce_7:
	subs	r1, #65
	sbcs	r0, r0, #0
	blo	.LBBcafce_3
.LBBcafce_8:
	movs	r6, #0
	b	.LBBcafce_12
.LBBcafce_9:
	strd	r6, r10, [sp, #72]
	strd	r8, r9, [sp, #80]
	.p2align	2
.LBBcafce_10:
	add	r0, sp, #4
	add	r1, sp, #72
	bl	"core::iter::slices::IterIterator::next::<i8>"
	ldrb.w	r0, [sp, #4]
	subs	r6, r0, #1
	it	ne
	movne	r6, #1
	cmp	r0, #1
	bne	.LBBcafce_12
	ldr	r0, [sp, #12]
	mov	r2, r5
	ldrb	r1, [r0]
	add	r0, sp, #56
	mov	r3, r4
	str	r1, [sp]
	bl	"octet_lists::kind::is_among"
	cmp	r0, #0
	bne	.LBBcafce_10
.LBBcafce_12:
	mov	r0, r6
	add	sp, #88
	pop.w	{r4, r5, r6, r7, r8, r9, r10, pc}
.Lfunc_endcafce:
	.size	"end_objects::refusals::has_keys", .Lfunc_endcafce-"end_objects::refusals::has_keys"
	.cantunwind
	.fnend

	.section	".text.end_objects::settings::keyed_kinds","ax",%progbits
	.p2align	2
	.type	"end_objects::settings::keyed_kinds",%function
	.code	16
	.thumb_func
"end_objects::settings::keyed_kinds":
	.fnstart
	.save	{r4, lr}
	push	{r4, lr}
	.pad	#32
	sub	sp, #32
	ldr	r3, [r1, #64]
	ldr	r4, [r1, #68]
	ldr	r2, [r1, #48]
	ldr	r1, [r1, #52]
	orrs	r3, r4
	mov	r4, r0
	beq	.LBBab2b5_3
	orrs.w	r0, r2, r1
	beq	.LBBab2b5_5
	movs	r0, #0
	movw	r1, :lower16:.Lstatic.3
	strd	r0, r0, [sp, #24]
	strd	r0, r0, [sp, #16]
	movt	r1, :upper16:.Lstatic.3
	add	r0, sp, #16
	movs	r2, #2
	b	.LBBab2b5_7
.LBBab2b5_3:
	orrs.w	r0, r2, r1
	beq	.LBBab2b5_9
	movw	r1, :lower16:.Lstatic.1
	movs	r0, #0
	movt	r1, :upper16:.Lstatic.1
	strd	r0, r0, [sp, #24]
	strd	r0, r0, [sp, #16]
	b	.LBBab2b5_6
.LBBab2b5_5:
	movs	r0, #0
	movw	r1, :lower16:.Lstatic.2
	strd	r0, r0, [sp, #24]
	strd	r0, r0, [sp, #16]
	movt	r1, :upper16:.Lstatic.2
.LBBab2b5_6:
	add	r0, sp, #16
	movs	r2, #1
.LBBab2b5_7:
	movs	r3, #0
	bl	"octet_lists::octets::Octets::append::<=2>"
	add	r3, sp, #16
	ldr	r2, [sp, #28]
	ldm	r3, {r0, r1, r3}
	str	r2, [sp, #12]
	strd	r1, r3, [sp, #4]
.LBBab2b5_8:
	str	r0, [sp]
	ldr	r2, [sp, #12]
	ldm.w	sp, {r0, r1, r3}
	str	r2, [r4, #12]
	str	r3, [r4, #8]
	str	r1, [r4, #4]
	str	r0, [r4]
	add	sp, #32
	pop	{r4, pc}
.LBBab2b5_9:
	movs	r0, #0
	str	r0, [sp, #12]
	strd	r0, r0, [sp, #4]
	b	.LBBab2b5_8
.Lfunc_endab2b5:
	.size	"end_objects::settings::keyed_kinds", .Lfunc_endab2b5-"end_objects::settings::keyed_kinds"
	.cantunwind
	.fnend

	.section	".text.octet_lists::octets::Octets::append::<=2>","ax",%progbits
	.p2align	2
	.type	"octet_lists::octets::Octets::append::<=2>",%function
	.code	16
	.thumb_func
"octet_lists::octets::Octets::append::<=2>":
	.fnstart
	.save	{r4, r5, r6, r7, r8, r9, r10, r11, lr}
	push.w	{r4, r5, r6, r7, r8, r9, r10, r11, lr}
	.pad	#4
	sub	sp, #4
	ldrd	r9, r8, [r0, #8]
	movs	r7, #0
	rsbs.w	r5, r9, #2
	sbc.w	r4, r7, r8
	subs	r5, r5, r2
	sbcs.w	r5, r4, r3
	blo	.LBB936de_12
	add.w	r12, r0, r9
	subs.w	r5, r12, r1
	sbc	r7, r7, #0
	subs	r5, r5, r2
	sbcs	r7, r3
	bhs	.LBB936de_4
	subs	r7, r2, #4
	sbcs	r7, r3, #0
	and	r5, r2, #3
	bhs	.LBB936de_5
	movs	r4, #0
	b	.LBB936de_8
.LBB936de_4:
	mov	r5, r0
	mov	r0, r12
	mov	r4, r2
	mov	r7, r3
	bl	__aeabi_memmove
	mov	r2, r4
	mov	r0, r5
	mov	r3, r7
	b	.LBB936de_11
.LBB936de_5:
	str	r5, [sp]
	bic	r10, r2, #3
	movs	r4, #0
	movs	r5, #0
	.p2align	2
.LBB936de_6:
	ldrb	r6, [r1, r4]
	strb.w	r6, [r12, r4]
	orr	r6, r4, #1
	ldrb	r7, [r1, r6]
	strb.w	r7, [r12, r6]
	orr	r6, r4, #2
	ldrb	r7, [r1, r6]
	strb.w	r7, [r12, r6]
	orr	r6, r4, #3
	adds	r4, #4
	adc	r5, r5, #0
	ldrb.w	r11, [r1, r6]
	eor.w	r7, r4, r10
	eor.w	lr, r5, r3
	orrs.w	r7, r7, lr
	strb.w	r11, [r12, r6]
	bne	.LBB936de_6
	ldr	r5, [sp]
	cbz	r5, .LBB936de_11
.LBB936de_8:
	ldrb	r7, [r1, r4]
	cmp	r5, #1
	strb.w	r7, [r12, r4]
	beq	.LBB936de_11
	adds	r7, r4, #1
	ldrb	r6, [r1, r7]
	cmp	r5, #2
	strb.w	r6, [r12, r7]
	beq	.LBB936de_11
	adds	r7, r4, #2
	ldrb	r1, [r1, r7]
	strb.w	r1, [r12, r7]
.LBB936de_11:
	adds.w	r1, r9, r2
	adc.w	r2, r8, r3
	strd	r1, r2, [r0, #8]
.LBB936de_12:
	add	sp, #4
	pop.w	{r4, r5, r6, r7, r8, r9, r10, r11, pc}
.Lfunc_end936de:
	.size	"octet_lists::octets::Octets::append::<=2>", .Lfunc_end936de-"octet_lists::octets::Octets::append::<=2>"
	.cantunwind
	.fnend

	.section	".text.core::iter::slices::IterIterator::next::<i8>","ax",%progbits
	.p2align	2
	.type	"core::iter::slices::IterIterator::next::<i8>",%function
	.code	16
	.thumb_func
"core::iter::slices::IterIterator::next::<i8>":
	.fnstart
	.save	{r4, lr}
	push	{r4, lr}
	ldr	r4, [r1, #8]
	ldr	r3, [r1, #12]
	mov.w	r12, #0
	orrs.w	r2, r4, r3
	beq	.LBB623b9_2
	ldr.w	lr, [r1]
	subs	r4, #1
	add.w	r2, lr, #1
	sbc	r3, r3, #0
	str	r2, [r1]
	str.w	r12, [r1, #4]
	str	r4, [r1, #8]
	str	r3, [r1, #12]
	movs	r1, #1
	b	.LBB623b9_3
.LBB623b9_2:
	mov.w	lr, #0
	movs	r1, #0
.LBB623b9_3:
	strd	r12, lr, [r0, #4]
	strh.w	r12, [r0, #2]
	strb.w	r12, [r0, #1]
	strb	r1, [r0]
	pop	{r4, pc}
.Lfunc_end623b9:
	.size	"core::iter::slices::IterIterator::next::<i8>", .Lfunc_end623b9-"core::iter::slices::IterIterator::next::<i8>"
	.cantunwind
	.fnend

	.section	".text.octet_lists::kind::is_among","ax",%progbits
	.p2align	2
	.type	"octet_lists::kind::is_among",%function
	.code	16
	.thumb_func
"octet_lists::kind::is_among":
	.fnstart
	.save	{r4, lr}
	push	{r4, lr}
	.pad	#32
	sub	sp, #32
	ldrb.w	r4, [sp, #40]
	str	r0, [sp, #16]
	movs	r0, #0
	add	r1, sp, #20
	stm	r1!, {r0, r2, r3}
	.p2align	2
.LBBc3bcd_1:
	add	r0, sp, #4
	add	r1, sp, #16
	bl	"core::iter::slices::IterIterator::next::<i8>"
	ldrb.w	r0, [sp, #4]
	cmp	r0, #1
	bne	.LBBc3bcd_3
	ldr	r1, [sp, #12]
	ldrb	r1, [r1]
	cmp	r1, r4
	bne	.LBBc3bcd_1
.LBBc3bcd_3:
	subs	r0, #1
	clz	r0, r0
	lsrs	r0, r0, #5
	add	sp, #32
	pop	{r4, pc}
.Lfunc_endc3bcd:
	.size	"octet_lists::kind::is_among", .Lfunc_endc3bcd-"octet_lists::kind::is_among"
	.cantunwind
	.fnend

	.section	".text.end_objects::refusals::has_bad_methods","ax",%progbits
	.p2align	2
	.type	"end_objects::refusals::has_bad_methods",%function
	.code	16
	.thumb_func
"end_objects::refusals::has_bad_methods":
	.fnstart
	mov	r1, r0
	ldrb.w	r0, [r0, #72]
	cbnz	r0, .LBBdf63d_2
	ldrb.w	r0, [r1, #73]
	cmp	r0, #0
	itt	ne
	movne	r0, #1
	bxne	lr
.LBBdf63d_2:
	.save	{r4, r5, r7, lr}
	push	{r4, r5, r7, lr}
	.pad	#72
	sub	sp, #72
	add	r0, sp, #40
	bl	"end_objects::settings::kinds_of"
	add	r5, sp, #40
	ldm	r5, {r0, r1, r5}
	add	r2, sp, #24
	stm	r2!, {r0, r1, r5}
	add	r0, sp, #24
	ldr	r4, [sp, #52]
	str	r0, [sp, #56]
	movs	r0, #0
	strd	r0, r5, [sp, #60]
	add	r0, sp, #12
	add	r1, sp, #56
	str	r4, [sp, #36]
	str	r4, [sp, #68]
	bl	"core::iter::slices::IterIterator::next::<i8>"
	ldrb.w	r0, [sp, #12]
	cmp	r0, #1
	bne	.LBBdf63d_8
	ldr	r0, [sp, #20]
	b	.LBBdf63d_5
	.p2align	2
.LBBdf63d_4:
	mov	r0, sp
	add	r1, sp, #56
	bl	"core::iter::slices::IterIterator::next::<i8>"
	ldrb.w	r1, [sp]
	ldr	r0, [sp, #8]
	cmp	r1, #1
	bne	.LBBdf63d_8
.LBBdf63d_5:
	ldrb	r0, [r0]
	cmp	r0, #51
	beq	.LBBdf63d_4
	cmp	r0, #47
	beq	.LBBdf63d_4
	movs	r0, #1
	add	sp, #72
	pop	{r4, r5, r7, pc}
.LBBdf63d_8:
	add	r0, sp, #24
	mov	r2, r5
	mov	r3, r4
	bl	"login_setup::soundness::are_distinct"
	eor	r0, r0, #1
	add	sp, #72
	pop	{r4, r5, r7, pc}
.Lfunc_enddf63d:
	.size	"end_objects::refusals::has_bad_methods", .Lfunc_enddf63d-"end_objects::refusals::has_bad_methods"
	.cantunwind
	.fnend

	.section	".text.login_setup::soundness::are_distinct","ax",%progbits
	.p2align	2
	.type	"login_setup::soundness::are_distinct",%function
	.code	16
	.thumb_func
"login_setup::soundness::are_distinct":
	.fnstart
	.save	{r4, r5, r6, r7, lr}
	push	{r4, r5, r6, r7, lr}
	.pad	#4
	sub	sp, #4
	mov	r4, r3
	mov	r5, r2
	mov	r6, r0
	.p2align	2
.LBB99bde_1:
	orrs.w	r7, r5, r4
	beq	.LBB99bde_3
	ldrb	r1, [r6], #1
	subs	r5, #1
	sbc	r4, r4, #0
	mov	r0, r6
	mov	r2, r5
	mov	r3, r4
	str	r1, [sp]
	bl	"octet_lists::kind::is_among"
	cmp	r0, #0
	beq	.LBB99bde_1
.LBB99bde_3:
	clz	r0, r7
	lsrs	r0, r0, #5
	add	sp, #4
	pop	{r4, r5, r6, r7, pc}
.Lfunc_end99bde:
	.size	"login_setup::soundness::are_distinct", .Lfunc_end99bde-"login_setup::soundness::are_distinct"
	.cantunwind
	.fnend

	.section	".text.end_objects::refusals::end_refusal","ax",%progbits
	.p2align	2
	.type	"end_objects::refusals::end_refusal",%function
	.code	16
	.thumb_func
"end_objects::refusals::end_refusal":
	.fnstart
	.save	{r4, r5, r6, r7, r8, lr}
	push.w	{r4, r5, r6, r7, r8, lr}
	.pad	#48
	sub	sp, #48
	ldrd	r3, r7, [r0]
	mov	r4, r0
	mov	r0, r1
	eor	r1, r3, #80
	orr.w	r3, r1, r7
	clz	r1, r3
	lsrs	r1, r1, #5
	cmp	r0, #0
	mov.w	r0, #1
	it	eq
	cmpeq	r3, #0
	beq	.LBB01a42_2
	add	sp, #48
	pop.w	{r4, r5, r6, r7, r8, pc}
.LBB01a42_2:
	ldrb.w	r0, [r4, #74]
	mov	r8, r2
	cbz	r0, .LBB01a42_7
.LBB01a42_3:
	add	r7, sp, #16
	mov	r0, r7
	mov	r1, r4
	bl	"end_objects::settings::suites_of"
	ldrd	r5, r6, [sp, #24]
	orrs.w	r0, r5, r6
	beq	.LBB01a42_11
	movs	r0, #0
	add	r1, sp, #36
	str	r7, [sp, #32]
	stm	r1!, {r0, r5, r6}
	.p2align	2
.LBB01a42_5:
	add	r0, sp, #4
	add	r1, sp, #32
	bl	"core::iter::slices::IterIterator::next::<i8>"
	ldrb.w	r0, [sp, #4]
	cmp	r0, #1
	bne	.LBB01a42_8
	ldr	r0, [sp, #12]
	ldrb	r0, [r0]
	subs	r0, #1
	cmp	r0, #2
	blo	.LBB01a42_5
	b	.LBB01a42_11
.LBB01a42_7:
	ldrb.w	r0, [r4, #75]
	cbnz	r0, .LBB01a42_11
	b	.LBB01a42_3
.LBB01a42_8:
	add	r0, sp, #16
	mov	r2, r5
	mov	r3, r6
	bl	"login_setup::soundness::are_distinct"
	cbz	r0, .LBB01a42_11
	ldr	r0, [r4, #16]
	ldr	r1, [r4, #20]
	subs	r0, #1
	sbc	r2, r1, #0
	rsbs.w	r0, r0, #252
	mov.w	r1, #0
	sbcs.w	r0, r1, r2
	blo	.LBB01a42_12
	ldrd	r0, r2, [r4, #32]
	rsbs.w	r0, r0, #253
	sbcs.w	r0, r1, r2
	it	lo
	movlo	r1, #1
	cmp.w	r8, #0
	orr.w	r0, r8, r1
	it	ne
	movne.w	r8, #5
	cmp	r1, #0
	it	ne
	movne.w	r8, #4
	mov	r1, r8
	add	sp, #48
	pop.w	{r4, r5, r6, r7, r8, pc}
.LBB01a42_11:
	movs	r0, #1
	movs	r1, #2
	add	sp, #48
	pop.w	{r4, r5, r6, r7, r8, pc}
.LBB01a42_12:
	movs	r0, #1
	movs	r1, #3
	add	sp, #48
	pop.w	{r4, r5, r6, r7, r8, pc}
.Lfunc_end01a42:
	.size	"end_objects::refusals::end_refusal", .Lfunc_end01a42-"end_objects::refusals::end_refusal"
	.cantunwind
	.fnend

	.section	".text.end_objects::settings::suites_of","ax",%progbits
	.p2align	2
	.type	"end_objects::settings::suites_of",%function
	.code	16
	.thumb_func
"end_objects::settings::suites_of":
	.fnstart
	.save	{r4, r5, r7, lr}
	push	{r4, r5, r7, lr}
	.pad	#40
	sub	sp, #40
	add	r5, sp, #8
	mov	r4, r0
	adds	r1, #74
	mov	r0, r5
	bl	"end_objects::settings::listed"
	movw	r2, :lower16:.Lstatic.4
	mov.w	r12, #0
	movs	r3, #2
	movt	r2, :upper16:.Lstatic.4
	add	r0, sp, #24
	mov	r1, r5
	strd	r3, r12, [sp]
	bl	"end_objects::settings::or_else"
	add	r3, sp, #24
	ldr	r2, [sp, #36]
	ldm	r3, {r0, r1, r3}
	str	r2, [r4, #12]
	str	r3, [r4, #8]
	str	r1, [r4, #4]
	str	r0, [r4]
	add	sp, #40
	pop	{r4, r5, r7, pc}
.Lfunc_end84f00:
	.size	"end_objects::settings::suites_of", .Lfunc_end84f00-"end_objects::settings::suites_of"
	.cantunwind
	.fnend

	.section	".text.end_objects::settings::listed","ax",%progbits
	.p2align	2
	.type	"end_objects::settings::listed",%function
	.code	16
	.thumb_func
"end_objects::settings::listed":
	.fnstart
	.save	{r4, lr}
	push	{r4, lr}
	.pad	#56
	sub	sp, #56
	ldrb	r2, [r1]
	mov	r4, r0
	cbz	r2, .LBB8c7a1_3
	ldrb	r0, [r1, #1]
	cbz	r0, .LBB8c7a1_4
	strb.w	r0, [sp, #6]
	movs	r0, #0
	strb.w	r2, [sp, #5]
	strd	r0, r0, [sp, #48]
	strd	r0, r0, [sp, #40]
	add	r0, sp, #40
	add.w	r1, sp, #5
	movs	r2, #2
	b	.LBB8c7a1_5
.LBB8c7a1_3:
	movs	r0, #0
	str	r0, [sp, #36]
	strd	r0, r0, [sp, #28]
	b	.LBB8c7a1_6
.LBB8c7a1_4:
	movs	r0, #0
	strb.w	r2, [sp, #7]
	strd	r0, r0, [sp, #48]
	strd	r0, r0, [sp, #40]
	add	r0, sp, #40
	add.w	r1, sp, #7
	movs	r2, #1
.LBB8c7a1_5:
	movs	r3, #0
	bl	"octet_lists::octets::Octets::append::<=2>"
	ldr	r2, [sp, #52]
	add	r3, sp, #40
	ldm	r3, {r0, r1, r3}
	str	r2, [sp, #20]
	add	r2, sp, #8
	stm	r2!, {r0, r1, r3}
	add	r3, sp, #8
	ldr	r2, [sp, #20]
	ldm	r3, {r0, r1, r3}
	str	r2, [sp, #36]
	strd	r1, r3, [sp, #28]
.LBB8c7a1_6:
	str	r0, [sp, #24]
	add	r3, sp, #24
	ldr	r2, [sp, #36]
	ldm	r3, {r0, r1, r3}
	str	r2, [r4, #12]
	str	r3, [r4, #8]
	str	r1, [r4, #4]
	str	r0, [r4]
	add	sp, #56
	pop	{r4, pc}
.Lfunc_end8c7a1:
	.size	"end_objects::settings::listed", .Lfunc_end8c7a1-"end_objects::settings::listed"
	.cantunwind
	.fnend

	.section	".text.end_objects::settings::or_else","ax",%progbits
	.p2align	2
	.type	"end_objects::settings::or_else",%function
	.code	16
	.thumb_func
"end_objects::settings::or_else":
	.fnstart
	.save	{r4, lr}
	push	{r4, lr}
	.pad	#16
	sub	sp, #16
	ldr.w	r12, [r1, #8]
	ldr	r3, [r1, #12]
	orrs.w	r4, r12, r3
	mov	r4, r0
	beq	.LBB711ff_2
	ldr	r0, [r1]
	ldr	r1, [r1, #4]
	b	.LBB711ff_3
.LBB711ff_2:
	ldrd	r12, r3, [sp, #24]
	movs	r0, #0
	strd	r0, r0, [sp, #8]
	strd	r0, r0, [sp]
	mov	r0, sp
	mov	r1, r2
	mov	r2, r12
	bl	"octet_lists::octets::Octets::append::<=2>"
	ldm.w	sp, {r0, r1, r12}
	ldr	r3, [sp, #12]
.LBB711ff_3:
	str	r0, [r4]
	str	r1, [r4, #4]
	str.w	r12, [r4, #8]
	str	r3, [r4, #12]
	add	sp, #16
	pop	{r4, pc}
.Lfunc_end711ff:
	.size	"end_objects::settings::or_else", .Lfunc_end711ff-"end_objects::settings::or_else"
	.cantunwind
	.fnend

	.section	".text.end_objects::settings::kinds_of","ax",%progbits
	.p2align	2
	.type	"end_objects::settings::kinds_of",%function
	.code	16
	.thumb_func
"end_objects::settings::kinds_of":
	.fnstart
	.save	{r4, r5, r7, lr}
	push	{r4, r5, r7, lr}
	.pad	#40
	sub	sp, #40
	add	r5, sp, #8
	mov	r4, r0
	mov	r0, r5
	bl	"end_objects::settings::named_kinds"
	movw	r2, :lower16:.Lstatic.3
	mov.w	r12, #0
	movs	r3, #2
	movt	r2, :upper16:.Lstatic.3
	add	r0, sp, #24
	mov	r1, r5
	strd	r3, r12, [sp]
	bl	"end_objects::settings::or_else"
	add	r3, sp, #24
	ldr	r2, [sp, #36]
	ldm	r3, {r0, r1, r3}
	str	r2, [r4, #12]
	str	r3, [r4, #8]
	str	r1, [r4, #4]
	str	r0, [r4]
	add	sp, #40
	pop	{r4, r5, r7, pc}
.Lfunc_end552cc:
	.size	"end_objects::settings::kinds_of", .Lfunc_end552cc-"end_objects::settings::kinds_of"
	.cantunwind
	.fnend

	.section	".text.end_objects::settings::named_kinds","ax",%progbits
	.p2align	2
	.type	"end_objects::settings::named_kinds",%function
	.code	16
	.thumb_func
"end_objects::settings::named_kinds":
	.fnstart
	.save	{r4, r5, r6, lr}
	push	{r4, r5, r6, lr}
	.pad	#56
	sub	sp, #56
	add	r6, sp, #8
	mov	r4, r0
	mov	r0, r6
	mov	r5, r1
	bl	"end_objects::settings::keyed_kinds"
	ldr	r2, [sp, #20]
	add	r3, sp, #8
	ldm	r3, {r0, r1, r3}
	str	r2, [sp, #36]
	add	r2, sp, #24
	stm	r2!, {r0, r1, r3}
	add.w	r1, r5, #72
	mov	r0, r6
	bl	"end_objects::settings::listed"
	ldrd	r3, r5, [sp, #32]
	add	r0, sp, #40
	add	r2, sp, #24
	mov	r1, r6
	strd	r3, r5, [sp]
	bl	"end_objects::settings::or_else"
	add	r3, sp, #40
	ldr	r2, [sp, #52]
	ldm	r3, {r0, r1, r3}
	str	r2, [r4, #12]
	str	r3, [r4, #8]
	str	r1, [r4, #4]
	str	r0, [r4]
	add	sp, #56
	pop	{r4, r5, r6, pc}
.Lfunc_end3c958:
	.size	"end_objects::settings::named_kinds", .Lfunc_end3c958-"end_objects::settings::named_kinds"
	.cantunwind
	.fnend

	.section	".text.end_objects::constructors::server_objects","ax",%progbits
	.p2align	2
	.type	"end_objects::constructors::server_objects",%function
	.code	16
	.thumb_func
"end_objects::constructors::server_objects":
	.fnstart
	.save	{r4, r5, r6, r7, r8, r9, r10, r11, lr}
	push.w	{r4, r5, r6, r7, r8, r9, r10, r11, lr}
	.pad	#2524
	subw	sp, sp, #2524
	mov	r4, r0
	addw	r0, sp, #2520
	mov	r11, r1
	str.w	r0, [sp, #1288]
	movs	r0, #0
	orrs.w	r1, r2, r3
	str.w	r0, [sp, #1292]
	str.w	r0, [sp, #1296]
	str.w	r0, [sp, #1300]
	str.w	r0, [sp, #1304]
	str.w	r0, [sp, #1308]
	beq	.LBB6b156_10
	add.w	r9, sp, #1288
	mov	r0, r9
	mov	r8, r3
	mov	r6, r2
	bl	"std_alloc::vec::Vec::move_to::<#287f71f1152e3f1f>"
	cmp	r0, #0
	beq.w	.LBB6b156_12
	str	r4, [sp]
	mov	r2, r9
	add.w	lr, sp, #8
	ldm.w	r2, {r0, r1, r3, r4, r5, r7}
	mov	r12, lr
	stm.w	r12, {r0, r1, r3, r4, r5, r7}
	ldm.w	lr, {r1, r2, r3, r4, r5, r7}
	add	r0, sp, #32
	stm	r0!, {r1, r2, r3, r4, r5, r7}
	add.w	r0, r9, #1144
	str	r0, [sp, #4]
	b	.LBB6b156_6
	.p2align	2
.LBB6b156_3:
	mov.w	r1, #1144
	bl	__aeabi_memclr8
	mov.w	r10, #1
.LBB6b156_4:
	add	r0, sp, #56
	add.w	r1, sp, #1288
	mov.w	r2, #1232
	bl	__aeabi_memcpy8
	ldrd	r4, r7, [sp, #40]
	ldrd	r1, r0, [sp, #48]
	eors	r0, r7
	eors	r1, r4
	orrs	r0, r1
	beq	.LBB6b156_8
.LBB6b156_5:
	ldr	r0, [sp, #32]
	mov.w	r1, #1256
	mul	r2, r4, r1
	mla	r5, r4, r1, r0
	str.w	r10, [r0, r2]
	add.w	r10, sp, #56
	mov.w	r9, #0
	add.w	r0, r5, #16
	mov	r1, r10
	mov.w	r2, #1232
	str.w	r9, [r5, #4]
	str.w	r9, [r5, #12]
	str.w	r9, [r5, #8]
	bl	__aeabi_memcpy
	adds	r0, r4, #1
	adc	r1, r7, #0
	strd	r0, r1, [sp, #40]
	subs	r6, #1
	mov	r0, r10
	mov.w	r1, #1232
	strh.w	r9, [r5, #1248]
	sbc	r8, r8, #0
	add.w	r11, r11, #1
	bl	__aeabi_memclr8
	orrs.w	r0, r6, r8
	beq	.LBB6b156_11
.LBB6b156_6:
	ldr	r0, [sp, #4]
	ldrb.w	r4, [r11]
	movs	r1, #88
	bl	__aeabi_memclr8
	add.w	r0, sp, #1288
	cmp	r4, #47
	bne	.LBB6b156_3
	mov.w	r1, #1232
	bl	__aeabi_memclr8
	mov.w	r10, #0
	b	.LBB6b156_4
.LBB6b156_8:
	add	r0, sp, #32
	bl	"std_alloc::vec::Vec::grow_amortized::<#287f71f1152e3f1f>"
	cbz	r0, .LBB6b156_15
	ldrd	r4, r7, [sp, #40]
	b	.LBB6b156_5
.LBB6b156_10:
	str	r4, [sp]
	add.w	r12, sp, #1288
	add	r1, sp, #8
	ldm.w	r12, {r0, r3, r4, r5, r6, r7}
	mov	r2, r1
	stm	r2!, {r0, r3, r4, r5, r6, r7}
	ldm.w	r1, {r2, r3, r4, r5, r6, r7}
	add	r0, sp, #32
	stm	r0!, {r2, r3, r4, r5, r6, r7}
.LBB6b156_11:
	ldr	r0, [sp]
	movs	r1, #0
	strb	r1, [r0], #8
	add	r1, sp, #32
	movs	r2, #24
	bl	__aeabi_memcpy
	addw	sp, sp, #2524
	pop.w	{r4, r5, r6, r7, r8, r9, r10, r11, pc}
.LBB6b156_12:
	ldr.w	r0, [sp, #1304]
	ldr.w	r1, [sp, #1308]
	orrs	r0, r1
	beq	.LBB6b156_14
	ldr.w	r0, [sp, #1288]
	bl	rattle_dealloc
.LBB6b156_14:
	movs	r0, #1
	strb	r0, [r4]
	movs	r0, #0
	str	r0, [r4, #8]
	str	r0, [r4, #12]
	str	r0, [r4, #16]
	str	r0, [r4, #20]
	str	r0, [r4, #24]
	str	r0, [r4, #28]
	addw	sp, sp, #2524
	pop.w	{r4, r5, r6, r7, r8, r9, r10, r11, pc}
.LBB6b156_15:
	ldrd	r0, r1, [sp, #48]
	orrs	r0, r1
	beq	.LBB6b156_17
	ldr	r0, [sp, #32]
	bl	rattle_dealloc
.LBB6b156_17:
	ldr	r1, [sp]
	movs	r0, #1
	strb	r0, [r1]
	movs	r0, #0
	str	r0, [r1, #8]
	str	r0, [r1, #12]
	str	r0, [r1, #16]
	str	r0, [r1, #20]
	str	r0, [r1, #24]
	str	r0, [r1, #28]
	addw	sp, sp, #2524
	pop.w	{r4, r5, r6, r7, r8, r9, r10, r11, pc}
.Lfunc_end6b156:
	.size	"end_objects::constructors::server_objects", .Lfunc_end6b156-"end_objects::constructors::server_objects"
	.cantunwind
	.fnend

	.section	".text.std_alloc::vec::Vec::move_to::<#287f71f1152e3f1f>","ax",%progbits
	.p2align	2
	.type	"std_alloc::vec::Vec::move_to::<#287f71f1152e3f1f>",%function
	.code	16
	.thumb_func
"std_alloc::vec::Vec::move_to::<#287f71f1152e3f1f>":
	.fnstart
	movw	r1, #19202
	movt	r1, #63866
	subs	r1, r2, r1
	movw	r1, #5843
	movt	r1, #26
	sbcs.w	r1, r3, r1
	itt	hs
	movhs	r0, #0
	bxhs	lr
.LBB11dca_1:
	.save	{r4, r5, r6, r7, r8, r9, lr}
	push.w	{r4, r5, r6, r7, r8, r9, lr}
	.pad	#36
	sub	sp, #36
	ldrd	r1, r6, [r0, #16]
	orrs	r1, r6
	beq	.LBB11dca_4
	ldrd	r1, r6, [r0, #8]
	mov.w	r7, #1256
	umull	r12, r4, r1, r7
	mov	r8, r2
	umull	r2, r5, r2, r7
	mov	r9, r0
	ldr	r1, [r0]
	mla	lr, r6, r7, r4
	mla	r0, r3, r7, r5
	mov	r6, r3
	movs	r3, #8
	movs	r4, #0
	strd	r2, r0, [sp]
	str	r3, [sp, #8]
	add	r0, sp, #16
	mov	r2, r12
	mov	r3, lr
	str	r4, [sp, #12]
	bl	tuv_wide_realloc
	ldr	r1, [sp, #16]
	mov	r0, r4
	lsls	r1, r1, #31
	beq	.LBB11dca_6
	ldr	r1, [sp, #24]
	b	.LBB11dca_7
.LBB11dca_4:
	mov.w	r1, #1256
	mov	r9, r0
	mov	r8, r2
	umull	r0, r2, r2, r1
	mla	r1, r3, r1, r2
	mov	r6, r3
	bl	"std_heap::GlobalAllocator::allocate"
	lsls	r0, r0, #24
	beq	.LBB11dca_7
	movs	r0, #0
.LBB11dca_6:
	add	sp, #36
	pop.w	{r4, r5, r6, r7, r8, r9, pc}
.LBB11dca_7:
	str.w	r1, [r9]
	strd	r8, r6, [r9, #16]
	movs	r0, #1
	add	sp, #36
	pop.w	{r4, r5, r6, r7, r8, r9, pc}
.Lfunc_end11dca:
	.size	"std_alloc::vec::Vec::move_to::<#287f71f1152e3f1f>", .Lfunc_end11dca-"std_alloc::vec::Vec::move_to::<#287f71f1152e3f1f>"
	.cantunwind
	.fnend

	.section	".text.std_heap::GlobalAllocator::allocate","ax",%progbits
	.p2align	2
	.type	"std_heap::GlobalAllocator::allocate",%function
	.code	16
	.thumb_func
"std_heap::GlobalAllocator::allocate":
	.fnstart
	.save	{r4, lr}
	push	{r4, lr}
	.pad	#24
	sub	sp, #24
	mov	r3, r1
	movs	r4, #1
	cmp	r1, #0
	mov.w	r1, #0
	bmi	.LBB6621b_2
	mov	r2, r0
	mov.w	r12, #8
	add	r0, sp, #8
	strd	r12, r1, [sp]
	bl	tuv_wide_alloc
	ldr	r0, [sp, #8]
	ldr	r2, [sp, #16]
	ands	r1, r0, #1
	bic.w	r4, r4, r0
	it	ne
	movne	r1, r2
.LBB6621b_2:
	mov	r0, r4
	add	sp, #24
	pop	{r4, pc}
.Lfunc_end6621b:
	.size	"std_heap::GlobalAllocator::allocate", .Lfunc_end6621b-"std_heap::GlobalAllocator::allocate"
	.cantunwind
	.fnend

	.section	".text.unlikely.std_alloc::vec::Vec::grow_amortized::<#287f71f1152e3f1f>","ax",%progbits
	.p2align	2
	.type	"std_alloc::vec::Vec::grow_amortized::<#287f71f1152e3f1f>",%function
	.code	16
	.thumb_func
"std_alloc::vec::Vec::grow_amortized::<#287f71f1152e3f1f>":
	.fnstart
	.save	{r4, lr}
	push	{r4, lr}
	ldrd	r1, r2, [r0, #8]
	adds.w	lr, r1, #1
	adcs	r12, r2, #0
	mov.w	r1, #0
	adc	r2, r1, #0
	cmp	r2, #1
	beq	.LBB73cc5_2
	ldrd	r1, r4, [r0, #16]
	lsls	r2, r4, #1
	orr.w	r3, r2, r1, lsr #31
	rsbs	r2, lr, r1, lsl #1
	sbcs.w	r2, r3, r12
	mov	r2, lr
	ite	lo
	movlo	r3, r12
	lslhs	r2, r1, #1
	cmp.w	r4, #1073741824
	itt	hs
	movhs	r2, lr
	movhs	r3, r12
	bl	"std_alloc::vec::Vec::move_to::<#287f71f1152e3f1f>"
	mov	r1, r0
.LBB73cc5_2:
	mov	r0, r1
	pop	{r4, pc}
.Lfunc_end73cc5:
	.size	"std_alloc::vec::Vec::grow_amortized::<#287f71f1152e3f1f>", .Lfunc_end73cc5-"std_alloc::vec::Vec::grow_amortized::<#287f71f1152e3f1f>"
	.cantunwind
	.fnend

	.section	".text.tuvaddri_c::sent::empty_packet","ax",%progbits
	.p2align	2
	.type	"tuvaddri_c::sent::empty_packet",%function
	.code	16
	.thumb_func
"tuvaddri_c::sent::empty_packet":
	.fnstart
	.save	{r4, r5, r7, lr}
	push	{r4, r5, r7, lr}
	mov.w	r0, #1512
	movs	r1, #0
	movs	r5, #0
	bl	"std_heap::GlobalAllocator::allocate"
	mov	r4, r0
	lsls	r0, r0, #24
	bne	.LBB728b1_2
	mov	r0, r1
	mov	r5, r1
	mov.w	r1, #1512
	bl	__aeabi_memclr
.LBB728b1_2:
	uxtb	r0, r4
	clz	r0, r0
	lsrs	r0, r0, #5
	mov	r1, r5
	pop	{r4, r5, r7, pc}
.Lfunc_end728b1:
	.size	"tuvaddri_c::sent::empty_packet", .Lfunc_end728b1-"tuvaddri_c::sent::empty_packet"
	.cantunwind
	.fnend

	.section	".text.octet_lists::octets::Octets::append::<=253>","ax",%progbits
	.p2align	2
	.type	"octet_lists::octets::Octets::append::<=253>",%function
	.code	16
	.thumb_func
"octet_lists::octets::Octets::append::<=253>":
	.fnstart
	.save	{r4, r5, r6, r7, r8, r9, r10, r11, lr}
	push.w	{r4, r5, r6, r7, r8, r9, r10, r11, lr}
	.pad	#4
	sub	sp, #4
	ldrd	r9, r8, [r0, #256]
	movs	r7, #0
	rsbs.w	r5, r9, #253
	sbc.w	r4, r7, r8
	subs	r5, r5, r2
	sbcs.w	r5, r4, r3
	blo	.LBB94219_12
	add.w	r12, r0, r9
	subs.w	r5, r12, r1
	sbc	r7, r7, #0
	subs	r5, r5, r2
	sbcs	r7, r3
	bhs	.LBB94219_4
	subs	r7, r2, #4
	sbcs	r7, r3, #0
	and	r5, r2, #3
	bhs	.LBB94219_5
	movs	r4, #0
	b	.LBB94219_8
.LBB94219_4:
	mov	r5, r0
	mov	r0, r12
	mov	r4, r2
	mov	r7, r3
	bl	__aeabi_memmove
	mov	r2, r4
	mov	r0, r5
	mov	r3, r7
	b	.LBB94219_11
.LBB94219_5:
	str	r5, [sp]
	bic	r10, r2, #3
	movs	r4, #0
	movs	r5, #0
	.p2align	2
.LBB94219_6:
	ldrb	r6, [r1, r4]
	strb.w	r6, [r12, r4]
	orr	r6, r4, #1
	ldrb	r7, [r1, r6]
	strb.w	r7, [r12, r6]
	orr	r6, r4, #2
	ldrb	r7, [r1, r6]
	strb.w	r7, [r12, r6]
	orr	r6, r4, #3
	adds	r4, #4
	adc	r5, r5, #0
	ldrb.w	r11, [r1, r6]
	eor.w	r7, r4, r10
	eor.w	lr, r5, r3
	orrs.w	r7, r7, lr
	strb.w	r11, [r12, r6]
	bne	.LBB94219_6
	ldr	r5, [sp]
	cbz	r5, .LBB94219_11
.LBB94219_8:
	ldrb	r7, [r1, r4]
	cmp	r5, #1
	strb.w	r7, [r12, r4]
	beq	.LBB94219_11
	adds	r7, r4, #1
	ldrb	r6, [r1, r7]
	cmp	r5, #2
	strb.w	r6, [r12, r7]
	beq	.LBB94219_11
	adds	r7, r4, #2
	ldrb	r1, [r1, r7]
	strb.w	r1, [r12, r7]
.LBB94219_11:
	adds.w	r1, r9, r2
	adc.w	r2, r8, r3
	strd	r1, r2, [r0, #256]
.LBB94219_12:
	add	sp, #4
	pop.w	{r4, r5, r6, r7, r8, r9, r10, r11, pc}
.Lfunc_end94219:
	.size	"octet_lists::octets::Octets::append::<=253>", .Lfunc_end94219-"octet_lists::octets::Octets::append::<=253>"
	.cantunwind
	.fnend

	.section	".text.tuvaddri_c::by_method::add_users::<#93e2819ad231d5c1>","ax",%progbits
	.p2align	2
	.type	"tuvaddri_c::by_method::add_users::<#93e2819ad231d5c1>",%function
	.code	16
	.thumb_func
"tuvaddri_c::by_method::add_users::<#93e2819ad231d5c1>":
	.fnstart
	ldr	r2, [r1, #32]
	ldr	r3, [r1, #36]
	orrs	r2, r3
	it	eq
	bxeq	lr
.LBB56816_1:
	.save	{r4, r5, r6, lr}
	push	{r4, r5, r6, lr}
	.pad	#1056
	sub.w	sp, sp, #1056
	ldr	r6, [r1, #64]
	ldr	r5, [r1, #68]
	ldr	r2, [r1, #48]
	ldr	r3, [r1, #52]
	orrs	r6, r5
	beq	.LBB56816_4
	orrs	r2, r3
	add.w	r4, r0, #1904
	beq	.LBB56816_6
	mov	r5, sp
	mov	r0, r5
	movs	r2, #51
	mov	r6, r1
	bl	"end_objects::settings::user_of"
	mov	r0, r4
	mov	r1, r5
	bl	"login_setup::users::UserList::add::<=2>"
	mov	r0, r5
	mov	r1, r6
	movs	r2, #47
	b	.LBB56816_7
.LBB56816_4:
	orrs	r2, r3
	beq	.LBB56816_9
	add	r4, sp, #704
	mov	r5, r0
	mov	r0, r4
	movs	r2, #47
	bl	"end_objects::settings::user_of"
	add.w	r0, r5, #1904
	mov	r1, r4
	b	.LBB56816_8
.LBB56816_6:
	add	r5, sp, #352
	mov	r0, r5
	movs	r2, #51
.LBB56816_7:
	bl	"end_objects::settings::user_of"
	mov	r0, r4
	mov	r1, r5
.LBB56816_8:
	bl	"login_setup::users::UserList::add::<=2>"
.LBB56816_9:
	add.w	sp, sp, #1056
	pop.w	{r4, r5, r6, lr}
	bx	lr
.Lfunc_end56816:
	.size	"tuvaddri_c::by_method::add_users::<#93e2819ad231d5c1>", .Lfunc_end56816-"tuvaddri_c::by_method::add_users::<#93e2819ad231d5c1>"
	.cantunwind
	.fnend

	.section	".text.end_objects::settings::user_of","ax",%progbits
	.p2align	2
	.type	"end_objects::settings::user_of",%function
	.code	16
	.thumb_func
"end_objects::settings::user_of":
	.fnstart
	.save	{r4, r5, r6, r7, r8, r9, r10, r11, lr}
	push.w	{r4, r5, r6, r7, r8, r9, r10, r11, lr}
	.pad	#684
	sub.w	sp, sp, #684
	mov	r4, r0
	movs	r0, #0
	add.w	r10, sp, #416
	mov	r6, r1
	str.w	r0, [sp, #75]
	ldr	r7, [r1, #24]
	ldr	r5, [r1, #32]
	ldr.w	r9, [r1, #36]
	str	r0, [sp, #72]
	mov	r0, r10
	mov.w	r1, #264
	mov	r8, r2
	uxtb.w	r11, r2
	bl	__aeabi_memclr8
	mov	r0, r10
	mov	r1, r7
	mov	r2, r5
	mov	r3, r9
	bl	"octet_lists::octets::Octets::append::<=253>"
	add.w	r9, sp, #152
	mov	r0, r9
	mov	r1, r10
	mov.w	r2, #264
	bl	__aeabi_memcpy8
	movs	r0, #64
	cmp.w	r11, #47
	it	eq
	moveq	r0, #48
	add.w	r1, r6, r0
	mov.w	r2, #56
	add.w	r11, sp, #416
	it	eq
	moveq	r2, #40
	ldr	r5, [r6, r2]
	ldr	r7, [r6, r0]
	ldr.w	r10, [r1, #4]
	mov	r0, r11
	movs	r1, #72
	bl	__aeabi_memclr8
	mov	r0, r11
	mov	r1, r5
	mov	r2, r7
	mov	r3, r10
	bl	"octet_lists::octets::Octets::append::<=64>"
	mov	r5, sp
	mov	r0, r5
	mov	r1, r11
	movs	r2, #72
	bl	__aeabi_memcpy8
	ldrb.w	r7, [r6, #77]
	add	r6, sp, #72
	adds	r0, r6, #7
	mov	r1, r5
	movs	r2, #72
	cmp	r7, #0
	it	ne
	movne	r7, #1
	bl	__aeabi_memcpy
	mov	r0, r4
	mov	r1, r9
	mov.w	r2, #264
	bl	__aeabi_memcpy
	addw	r0, r4, #265
	mov	r1, r6
	movs	r2, #79
	strb.w	r8, [r4, #264]
	bl	__aeabi_memcpy
	movs	r0, #0
	strb.w	r7, [r4, #344]
	str.w	r0, [r4, #345]
	str.w	r0, [r4, #348]
	add.w	sp, sp, #684
	pop.w	{r4, r5, r6, r7, r8, r9, r10, r11, pc}
.Lfunc_end63b5a:
	.size	"end_objects::settings::user_of", .Lfunc_end63b5a-"end_objects::settings::user_of"
	.cantunwind
	.fnend

	.section	".text.octet_lists::octets::Octets::append::<=64>","ax",%progbits
	.p2align	2
	.type	"octet_lists::octets::Octets::append::<=64>",%function
	.code	16
	.thumb_func
"octet_lists::octets::Octets::append::<=64>":
	.fnstart
	.save	{r4, r5, r6, r7, r8, r9, r10, r11, lr}
	push.w	{r4, r5, r6, r7, r8, r9, r10, r11, lr}
	.pad	#4
	sub	sp, #4
	ldrd	r9, r8, [r0, #64]
	movs	r7, #0
	rsbs.w	r5, r9, #64
	sbc.w	r4, r7, r8
	subs	r5, r5, r2
	sbcs.w	r5, r4, r3
	blo	.LBB28192_12
	add.w	r12, r0, r9
	subs.w	r5, r12, r1
	sbc	r7, r7, #0
	subs	r5, r5, r2
	sbcs	r7, r3
	bhs	.LBB28192_4
	subs	r7, r2, #4
	sbcs	r7, r3, #0
	and	r5, r2, #3
	bhs	.LBB28192_5
	movs	r4, #0
	b	.LBB28192_8
.LBB28192_4:
	mov	r5, r0
	mov	r0, r12
	mov	r4, r2
	mov	r7, r3
	bl	__aeabi_memmove
	mov	r2, r4
	mov	r0, r5
	mov	r3, r7
	b	.LBB28192_11
.LBB28192_5:
	str	r5, [sp]
	bic	r10, r2, #3
	movs	r4, #0
	movs	r5, #0
	.p2align	2
.LBB28192_6:
	ldrb	r6, [r1, r4]
	strb.w	r6, [r12, r4]
	orr	r6, r4, #1
	ldrb	r7, [r1, r6]
	strb.w	r7, [r12, r6]
	orr	r6, r4, #2
	ldrb	r7, [r1, r6]
	strb.w	r7, [r12, r6]
	orr	r6, r4, #3
	adds	r4, #4
	adc	r5, r5, #0
	ldrb.w	r11, [r1, r6]
	eor.w	r7, r4, r10
	eor.w	lr, r5, r3
	orrs.w	r7, r7, lr
	strb.w	r11, [r12, r6]
	bne	.LBB28192_6
	ldr	r5, [sp]
	cbz	r5, .LBB28192_11
.LBB28192_8:
	ldrb	r7, [r1, r4]
	cmp	r5, #1
	strb.w	r7, [r12, r4]
	beq	.LBB28192_11
	adds	r7, r4, #1
	ldrb	r6, [r1, r7]
	cmp	r5, #2
	strb.w	r6, [r12, r7]
	beq	.LBB28192_11
	adds	r7, r4, #2
	ldrb	r1, [r1, r7]
	strb.w	r1, [r12, r7]
.LBB28192_11:
	adds.w	r1, r9, r2
	adc.w	r2, r8, r3
	strd	r1, r2, [r0, #64]
.LBB28192_12:
	add	sp, #4
	pop.w	{r4, r5, r6, r7, r8, r9, r10, r11, pc}
.Lfunc_end28192:
	.size	"octet_lists::octets::Octets::append::<=64>", .Lfunc_end28192-"octet_lists::octets::Octets::append::<=64>"
	.cantunwind
	.fnend

	.section	".text.login_setup::users::UserList::add::<=2>","ax",%progbits
	.p2align	2
	.type	"login_setup::users::UserList::add::<=2>",%function
	.code	16
	.thumb_func
"login_setup::users::UserList::add::<=2>":
	.fnstart
	.save	{r4, r5, r6, r7, lr}
	push	{r4, r5, r6, r7, lr}
	.pad	#364
	sub	sp, #364
	mov	r4, r0
	add	r0, sp, #8
	mov.w	r2, #352
	mov	r5, r1
	bl	__aeabi_memcpy
	ldrd	r7, r6, [r4, #704]
	eor	r0, r7, #2
	orrs	r0, r6
	beq	.LBB864f9_4
	rsbs.w	r0, r7, #15
	mov.w	r0, #0
	sbcs	r0, r6
	blo	.LBB864f9_4
	ldrd	r2, r3, [sp, #264]
	ldrb.w	r12, [sp, #272]
	add	r1, sp, #8
	mov	r0, r4
	str.w	r12, [sp]
	bl	"login_setup::users::UserList::find::<=2>"
	uxtb	r0, r0
	cmp	r0, #1
	beq	.LBB864f9_4
	mov.w	r0, #352
	mla	r0, r7, r0, r4
	mov	r1, r5
	mov.w	r2, #352
	bl	__aeabi_memmove
	adds	r0, r7, #1
	adc	r1, r6, #0
	strd	r0, r1, [r4, #704]
.LBB864f9_4:
	add	sp, #364
	pop	{r4, r5, r6, r7, pc}
.Lfunc_end864f9:
	.size	"login_setup::users::UserList::add::<=2>", .Lfunc_end864f9-"login_setup::users::UserList::add::<=2>"
	.cantunwind
	.fnend

	.section	".text.login_setup::users::UserList::find::<=2>","ax",%progbits
	.p2align	2
	.type	"login_setup::users::UserList::find::<=2>",%function
	.code	16
	.thumb_func
"login_setup::users::UserList::find::<=2>":
	.fnstart
	.save	{r4, r5, r7, lr}
	push	{r4, r5, r7, lr}
	.pad	#32
	sub	sp, #32
	mov	r12, r0
	ldr	r0, [sp, #48]
	ldrd	lr, r4, [r12, #704]
	mov	r5, r1
	strd	r2, r3, [sp, #8]
	str	r0, [sp, #16]
	add	r0, sp, #20
	mov	r1, r12
	mov	r2, lr
	mov	r3, r4
	str	r5, [sp]
	bl	"login_setup::users::find_user"
	ldrb.w	r0, [sp, #20]
	ldr	r1, [sp, #28]
	add	sp, #32
	pop	{r4, r5, r7, pc}
.Lfunc_end527ba:
	.size	"login_setup::users::UserList::find::<=2>", .Lfunc_end527ba-"login_setup::users::UserList::find::<=2>"
	.cantunwind
	.fnend

	.section	".text.login_setup::users::find_user","ax",%progbits
	.p2align	2
	.type	"login_setup::users::find_user",%function
	.code	16
	.thumb_func
"login_setup::users::find_user":
	.fnstart
	.save	{r4, r5, r6, r7, r8, r9, r10, r11, lr}
	push.w	{r4, r5, r6, r7, r8, r9, r10, r11, lr}
	.pad	#20
	sub	sp, #20
	mov	r12, r0
	orrs.w	r0, r2, r3
	mov.w	lr, #0
	beq.w	.LBBe0a61_24
	ldrd	r8, r9, [sp, #64]
	ldr.w	r11, [sp, #56]
	ldrb.w	r10, [sp, #72]
	mov	r6, r3
	mov	r7, r2
	mov	r5, r1
	b	.LBBe0a61_5
.LBBe0a61_2:
	mov	r2, r1
.LBBe0a61_3:
	subs.w	r1, r2, r8
	sbcs.w	r0, r0, r9
	bhs	.LBBe0a61_23
	.p2align	2
.LBBe0a61_4:
	orrs.w	r0, r7, r6
	add.w	r5, r5, #352
	beq	.LBBe0a61_24
.LBBe0a61_5:
	ldrb.w	r0, [r5, #264]
	subs	r7, #1
	sbc	r6, r6, #0
	cmp	r0, r10
	bne	.LBBe0a61_4
	ldrd	r0, r1, [r5, #256]
	eor.w	r1, r1, r9
	eor.w	r0, r0, r8
	orrs	r0, r1
	bne	.LBBe0a61_4
	subs.w	r0, r8, #4
	sbcs	r0, r9, #0
	bhs	.LBBe0a61_18
	orrs.w	r0, r8, r9
	beq	.LBBe0a61_23
	movs	r1, #0
	movs	r0, #0
.LBBe0a61_10:
	ldrb	r2, [r5, r1]
	ldrb.w	r3, [r11, r1]
	cmp	r2, r3
	bne	.LBBe0a61_2
	orr	r2, r1, #1
	subs.w	r3, r2, r8
	sbcs.w	r3, r0, r9
	bhs	.LBBe0a61_23
	ldrb	r3, [r5, r2]
	ldrb.w	r4, [r11, r2]
	cmp	r3, r4
	bne	.LBBe0a61_3
	orr	r2, r1, #2
	subs.w	r3, r2, r8
	sbcs.w	r3, r0, r9
	bhs	.LBBe0a61_23
	ldrb	r3, [r5, r2]
	ldrb.w	r4, [r11, r2]
	cmp	r3, r4
	bne	.LBBe0a61_3
	orr	r2, r1, #3
	subs.w	r3, r2, r8
	sbcs.w	r3, r0, r9
	bhs	.LBBe0a61_23
	ldrb	r3, [r5, r2]
	ldrb.w	r4, [r11, r2]
	cmp	r3, r4
	bne	.LBBe0a61_3
	adds	r1, #4
	adc	r0, r0, #0
	subs.w	r2, r1, r8
	sbcs.w	r2, r0, r9
	blo	.LBBe0a61_10
	b	.LBBe0a61_23
.LBBe0a61_18:
	ldrb	r0, [r5]
	ldrb.w	r1, [r11]
	cmp	r0, r1
	bne	.LBBe0a61_4
	ldrb	r0, [r5, #1]
	ldrb.w	r1, [r11, #1]
	cmp	r0, r1
	bne	.LBBe0a61_4
	ldrb	r0, [r5, #2]
	ldrb.w	r1, [r11, #2]
	cmp	r0, r1
	bne	.LBBe0a61_4
	ldrb	r0, [r5, #3]
	ldrb.w	r1, [r11, #3]
	cmp	r0, r1
	bne	.LBBe0a61_4
	mov	r0, r5
	mov	r2, r8
	mov	r3, r9
	strd	r8, r9, [sp, #8]
	str.w	r11, [sp]
	str.w	r12, [sp, #16]
	mov	r4, lr
	bl	"core::cmp::slices::groups_equal::<i8,31'core::cmp::numbers::U8PartialEq{}>"
	ldr.w	r12, [sp, #16]
	mov	lr, r4
	cmp	r0, #0
	beq.w	.LBBe0a61_4
.LBBe0a61_23:
	movs	r0, #1
	b	.LBBe0a61_25
.LBBe0a61_24:
	movs	r0, #0
	movs	r5, #0
.LBBe0a61_25:
	strd	lr, r5, [r12, #4]
	strh.w	lr, [r12, #2]
	strb.w	lr, [r12, #1]
	strb.w	r0, [r12]
	add	sp, #20
	pop.w	{r4, r5, r6, r7, r8, r9, r10, r11, pc}
.Lfunc_ende0a61:
	.size	"login_setup::users::find_user", .Lfunc_ende0a61-"login_setup::users::find_user"
	.cantunwind
	.fnend

	.section	".text.core::slice::scan::any_in_quarters::<#953750c03e87c3e2>","ax",%progbits
	.p2align	2
	.type	"core::slice::scan::any_in_quarters::<#953750c03e87c3e2>",%function
	.code	16
	.thumb_func
"core::slice::scan::any_in_quarters::<#953750c03e87c3e2>":
	.fnstart
	.save	{r4, r5, r6, r7, r8, r9, r10, r11, lr}
	push.w	{r4, r5, r6, r7, r8, r9, r10, r11, lr}
	.pad	#20
	sub	sp, #20
	ldrd	r1, r5, [sp, #56]
	ldr.w	r9, [r0]
	subs	r7, r1, #4
	ldr.w	lr, [r0, #16]
	sbcs	r7, r5, #0
	mov	r7, r1
	and	r0, r1, #3
	str	r0, [sp, #16]
	bhs	.LBB83603_2
	mov	r10, r0
	mov.w	r12, #0
	movs	r6, #0
	b	.LBB83603_5
.LBB83603_2:
	bic	r8, r7, #3
	bic	r10, r5, #-1073741824
	mov.w	r12, #0
	movs	r6, #0
	movs	r5, #0
	str	r3, [sp, #12]
	.p2align	2
.LBB83603_3:
	ldrb.w	r4, [r9, r6]
	ldrb.w	r7, [lr, r6]
	subs.w	r11, r4, r7
	orr	r7, r6, #1
	ldrb.w	r0, [r9, r7]
	ldrb.w	r7, [lr, r7]
	it	ne
	movne.w	r11, #1
	subs	r7, r0, r7
	orr	r0, r6, #2
	ldrb.w	r1, [r9, r0]
	ldrb.w	r0, [lr, r0]
	it	ne
	movne	r7, #1
	subs	r0, r1, r0
	orr	r1, r6, #3
	ldrb.w	r3, [r9, r1]
	ldrb.w	r1, [lr, r1]
	it	ne
	movne	r0, #1
	subs	r1, r3, r1
	it	ne
	movne	r1, #1
	adds	r6, #4
	adc	r5, r5, #0
	eor.w	r3, r6, r8
	eor.w	r4, r5, r10
	orrs	r3, r4
	orr.w	r3, r12, r11
	orr.w	r3, r3, r7
	orr.w	r0, r0, r3
	orr.w	r12, r0, r1
	bne	.LBB83603_3
	ldr	r0, [sp, #16]
	ldrd	r7, r5, [sp, #56]
	ldr	r3, [sp, #12]
	mov	r10, r0
	cbz	r0, .LBB83603_8
.LBB83603_5:
	ldrb.w	r0, [r9, r6]
	ldrb.w	r1, [lr, r6]
	subs	r0, r0, r1
	it	ne
	movne	r0, #1
	cmp.w	r10, #1
	orr.w	r12, r12, r0
	beq	.LBB83603_8
	adds	r0, r6, #1
	ldrb.w	r1, [r9, r0]
	ldrb.w	r0, [lr, r0]
	subs	r0, r1, r0
	it	ne
	movne	r0, #1
	cmp.w	r10, #2
	orr.w	r12, r12, r0
	beq	.LBB83603_8
	adds	r0, r6, #2
	ldrb.w	r1, [r9, r0]
	ldrb.w	r0, [lr, r0]
	subs	r0, r1, r0
	it	ne
	movne	r0, #1
	orr.w	r12, r12, r0
.LBB83603_8:
	subs	r1, r2, r7
	sbc.w	r6, r3, r5
	subs	r0, r1, r7
	sbcs.w	r0, r6, r5
	mov	r11, r7
	str	r1, [sp, #8]
	it	lo
	movlo	r11, r1
	subs	r0, r7, #4
	sbcs	r0, r5, #0
	str.w	r12, [sp, #12]
	bhs	.LBB83603_10
	mov.w	r8, #0
	movs	r4, #0
	mov	r3, r10
	b	.LBB83603_13
.LBB83603_10:
	str	r6, [sp, #4]
	bic	r12, r7, #3
	bic	r6, r5, #-1073741824
	mov.w	r8, #0
	movs	r4, #0
	movs	r2, #0
	.p2align	2
.LBB83603_11:
	add.w	r0, r11, r4
	ldrb.w	r1, [r9, r0]
	ldrb.w	r3, [lr, r0]
	adds	r7, r0, #2
	subs	r1, r1, r3
	add.w	r3, r0, #1
	it	ne
	movne	r1, #1
	ldrb.w	r10, [r9, r3]
	ldrb.w	r3, [lr, r3]
	orr.w	r1, r1, r8
	subs.w	r3, r10, r3
	it	ne
	movne	r3, #1
	ldrb.w	r5, [r9, r7]
	ldrb.w	r7, [lr, r7]
	orrs	r1, r3
	subs	r3, r5, r7
	add.w	r0, r0, #3
	it	ne
	movne	r3, #1
	ldrb.w	r5, [r9, r0]
	ldrb.w	r0, [lr, r0]
	orrs	r1, r3
	subs	r0, r5, r0
	it	ne
	movne	r0, #1
	adds	r4, #4
	adc	r2, r2, #0
	eor.w	r3, r4, r12
	eor.w	r5, r2, r6
	orrs	r3, r5
	orr.w	r8, r1, r0
	bne	.LBB83603_11
	ldr	r3, [sp, #16]
	ldr.w	r12, [sp, #12]
	ldrd	r7, r5, [sp, #56]
	ldr	r6, [sp, #4]
	cbz	r3, .LBB83603_16
.LBB83603_13:
	add.w	r2, r4, r11
	ldrb.w	r0, [r9, r2]
	ldrb.w	r1, [lr, r2]
	subs	r0, r0, r1
	it	ne
	movne	r0, #1
	cmp	r3, #1
	orr.w	r8, r8, r0
	beq	.LBB83603_16
	adds	r0, r2, #1
	ldrb.w	r1, [r9, r0]
	ldrb.w	r0, [lr, r0]
	subs	r0, r1, r0
	it	ne
	movne	r0, #1
	cmp	r3, #2
	orr.w	r8, r8, r0
	beq	.LBB83603_16
	adds	r0, r2, #2
	ldrb.w	r1, [r9, r0]
	ldrb.w	r0, [lr, r0]
	subs	r0, r1, r0
	it	ne
	movne	r0, #1
	orr.w	r8, r8, r0
.LBB83603_16:
	ldr.w	r11, [sp, #8]
	lsls	r0, r5, #1
	orr.w	r0, r0, r7, lsr #31
	subs.w	r1, r11, r7, lsl #1
	sbcs.w	r0, r6, r0
	mov	r10, r11
	it	hs
	lslhs.w	r10, r7, #1
	subs	r0, r7, #4
	sbcs	r0, r5, #0
	bhs	.LBB83603_18
	movs	r6, #0
	movs	r4, #0
	b	.LBB83603_21
.LBB83603_18:
	bic	r12, r7, #3
	bic	r2, r5, #-1073741824
	movs	r6, #0
	movs	r4, #0
	movs	r7, #0
	.p2align	2
.LBB83603_19:
	add.w	r0, r10, r4
	ldrb.w	r1, [r9, r0]
	ldrb.w	r3, [lr, r0]
	subs	r1, r1, r3
	add.w	r3, r0, #1
	it	ne
	movne	r1, #1
	ldrb.w	r5, [r9, r3]
	ldrb.w	r3, [lr, r3]
	orrs	r1, r6
	subs	r3, r5, r3
	add.w	r5, r0, #2
	it	ne
	movne	r3, #1
	ldrb.w	r6, [r9, r5]
	ldrb.w	r5, [lr, r5]
	orrs	r1, r3
	subs	r3, r6, r5
	add.w	r0, r0, #3
	it	ne
	movne	r3, #1
	ldrb.w	r5, [r9, r0]
	ldrb.w	r0, [lr, r0]
	orrs	r1, r3
	subs	r0, r5, r0
	it	ne
	movne	r0, #1
	adds	r4, #4
	adc	r7, r7, #0
	eor.w	r3, r4, r12
	eor.w	r5, r7, r2
	orrs	r3, r5
	orr.w	r6, r1, r0
	bne	.LBB83603_19
	ldr	r3, [sp, #16]
	ldr.w	r12, [sp, #12]
	ldrd	r7, r5, [sp, #56]
	cbz	r3, .LBB83603_24
.LBB83603_21:
	add.w	r2, r4, r10
	ldrb.w	r0, [r9, r2]
	ldrb.w	r1, [lr, r2]
	subs	r0, r0, r1
	it	ne
	movne	r0, #1
	cmp	r3, #1
	orr.w	r6, r6, r0
	beq	.LBB83603_24
	adds	r0, r2, #1
	ldrb.w	r1, [r9, r0]
	ldrb.w	r0, [lr, r0]
	subs	r0, r1, r0
	it	ne
	movne	r0, #1
	cmp	r3, #2
	orr.w	r6, r6, r0
	beq	.LBB83603_24
	adds	r0, r2, #2
	ldrb.w	r1, [r9, r0]
	ldrb.w	r0, [lr, r0]
	subs	r0, r1, r0
	it	ne
	movne	r0, #1
	orrs	r6, r0
.LBB83603_24:
	subs	r0, r7, #4
	sbcs	r0, r5, #0
	bhs	.LBB83603_26
	movs	r4, #0
	movs	r5, #0
	b	.LBB83603_29
.LBB83603_26:
	bic	r12, r7, #3
	bic	r10, r5, #-1073741824
	movs	r4, #0
	movs	r5, #0
	movs	r3, #0
	.p2align	2
.LBB83603_27:
	add.w	r0, r11, r5
	ldrb.w	r1, [r9, r0]
	ldrb.w	r7, [lr, r0]
	subs	r1, r1, r7
	add.w	r7, r0, #1
	it	ne
	movne	r1, #1
	ldrb.w	r2, [r9, r7]
	ldrb.w	r7, [lr, r7]
	orrs	r1, r4
	subs	r2, r2, r7
	add.w	r4, r0, #2
	it	ne
	movne	r2, #1
	ldrb.w	r7, [r9, r4]
	ldrb.w	r4, [lr, r4]
	orrs	r1, r2
	subs	r2, r7, r4
	add.w	r0, r0, #3
	it	ne
	movne	r2, #1
	ldrb.w	r4, [r9, r0]
	ldrb.w	r0, [lr, r0]
	orrs	r1, r2
	subs	r0, r4, r0
	it	ne
	movne	r0, #1
	adds	r5, #4
	adc	r3, r3, #0
	eor.w	r2, r5, r12
	eor.w	r4, r3, r10
	orrs	r2, r4
	orr.w	r4, r1, r0
	bne	.LBB83603_27
	ldr	r3, [sp, #16]
	ldr.w	r12, [sp, #12]
	cbz	r3, .LBB83603_32
.LBB83603_29:
	add.w	r2, r5, r11
	ldrb.w	r0, [r9, r2]
	ldrb.w	r1, [lr, r2]
	subs	r0, r0, r1
	it	ne
	movne	r0, #1
	cmp	r3, #1
	orr.w	r4, r4, r0
	beq	.LBB83603_32
	adds	r0, r2, #1
	ldrb.w	r1, [r9, r0]
	ldrb.w	r0, [lr, r0]
	subs	r0, r1, r0
	it	ne
	movne	r0, #1
	cmp	r3, #2
	orr.w	r4, r4, r0
	beq	.LBB83603_32
	adds	r0, r2, #2
	ldrb.w	r1, [r9, r0]
	ldrb.w	r0, [lr, r0]
	subs	r0, r1, r0
	it	ne
	movne	r0, #1
	orrs	r4, r0
.LBB83603_32:
	orr.w	r0, r12, r8
	orrs	r0, r6
	orrs	r0, r4
	and	r0, r0, #1
	add	sp, #20
	pop.w	{r4, r5, r6, r7, r8, r9, r10, r11, pc}
.Lfunc_end83603:
	.size	"core::slice::scan::any_in_quarters::<#953750c03e87c3e2>", .Lfunc_end83603-"core::slice::scan::any_in_quarters::<#953750c03e87c3e2>"
	.cantunwind
	.fnend

	.section	".text.core::slice::scan::any_in_ends::<#953750c03e87c3e2>","ax",%progbits
	.p2align	2
	.type	"core::slice::scan::any_in_ends::<#953750c03e87c3e2>",%function
	.code	16
	.thumb_func
"core::slice::scan::any_in_ends::<#953750c03e87c3e2>":
	.fnstart
	.save	{r4, r5, r6, r7, r8, r9, r10, r11, lr}
	push.w	{r4, r5, r6, r7, r8, r9, r10, r11, lr}
	.pad	#12
	sub	sp, #12
	ldrd	r4, lr, [sp, #48]
	ldr.w	r8, [r0]
	ldr.w	r11, [r0, #16]
	subs	r3, r4, #4
	sbcs	r3, lr, #0
	and	r9, r4, #3
	bhs	.LBB9125c_2
	mov.w	r10, #0
	movs	r5, #0
	b	.LBB9125c_5
.LBB9125c_2:
	strd	r2, r9, [sp, #4]
	bic	r9, r4, #3
	mov.w	r10, #0
	movs	r5, #0
	movs	r7, #0
	.p2align	2
.LBB9125c_3:
	ldrb.w	r4, [r8, r5]
	ldrb.w	r6, [r11, r5]
	subs	r4, r4, r6
	orr	r6, r5, #1
	ldrb.w	r3, [r8, r6]
	ldrb.w	r6, [r11, r6]
	it	ne
	movne	r4, #1
	subs	r6, r3, r6
	orr	r3, r5, #2
	ldrb.w	r0, [r8, r3]
	ldrb.w	r3, [r11, r3]
	it	ne
	movne	r6, #1
	subs	r0, r0, r3
	orr	r3, r5, #3
	ldrb.w	r12, [r8, r3]
	ldrb.w	r3, [r11, r3]
	it	ne
	movne	r0, #1
	subs.w	r3, r12, r3
	it	ne
	movne	r3, #1
	adds	r5, #4
	adc	r7, r7, #0
	eor.w	r1, r5, r9
	eor.w	r2, r7, lr
	orrs	r1, r2
	orr.w	r1, r10, r4
	orr.w	r1, r1, r6
	orr.w	r0, r0, r1
	orr.w	r10, r0, r3
	bne	.LBB9125c_3
	ldr.w	r9, [sp, #8]
	ldr	r4, [sp, #48]
	ldr	r2, [sp, #4]
	cmp.w	r9, #0
	beq	.LBB9125c_8
.LBB9125c_5:
	ldrb.w	r0, [r8, r5]
	ldrb.w	r1, [r11, r5]
	subs	r0, r0, r1
	it	ne
	movne	r0, #1
	cmp.w	r9, #1
	orr.w	r10, r10, r0
	beq	.LBB9125c_8
	adds	r0, r5, #1
	ldrb.w	r1, [r8, r0]
	ldrb.w	r0, [r11, r0]
	subs	r0, r1, r0
	it	ne
	movne	r0, #1
	cmp.w	r9, #2
	orr.w	r10, r10, r0
	beq	.LBB9125c_8
	adds	r0, r5, #2
	ldrb.w	r1, [r8, r0]
	ldrb.w	r0, [r11, r0]
	subs	r0, r1, r0
	it	ne
	movne	r0, #1
	orr.w	r10, r10, r0
.LBB9125c_8:
	subs.w	r12, r2, r4
	subs	r0, r4, #4
	sbcs	r0, lr, #0
	bhs	.LBB9125c_10
	movs	r2, #0
	movs	r4, #0
	b	.LBB9125c_13
.LBB9125c_10:
	bic	r6, r4, #3
	movs	r2, #0
	movs	r4, #0
	movs	r7, #0
	.p2align	2
.LBB9125c_11:
	add.w	r0, r12, r4
	ldrb.w	r1, [r8, r0]
	ldrb.w	r3, [r11, r0]
	subs	r1, r1, r3
	add.w	r3, r0, #1
	it	ne
	movne	r1, #1
	ldrb.w	r5, [r8, r3]
	ldrb.w	r3, [r11, r3]
	orrs	r1, r2
	subs	r2, r5, r3
	add.w	r3, r0, #2
	it	ne
	movne	r2, #1
	ldrb.w	r5, [r8, r3]
	ldrb.w	r3, [r11, r3]
	orrs	r1, r2
	subs	r2, r5, r3
	add.w	r0, r0, #3
	it	ne
	movne	r2, #1
	ldrb.w	r3, [r8, r0]
	ldrb.w	r0, [r11, r0]
	orrs	r1, r2
	subs	r0, r3, r0
	it	ne
	movne	r0, #1
	adds	r4, #4
	adc	r7, r7, #0
	eor.w	r2, r4, r6
	eor.w	r3, r7, lr
	orrs	r2, r3
	orr.w	r2, r1, r0
	bne	.LBB9125c_11
	cmp.w	r9, #0
	beq	.LBB9125c_16
.LBB9125c_13:
	add.w	r7, r12, r4
	ldrb.w	r0, [r8, r7]
	ldrb.w	r1, [r11, r7]
	subs	r0, r0, r1
	it	ne
	movne	r0, #1
	cmp.w	r9, #1
	orr.w	r2, r2, r0
	beq	.LBB9125c_16
	adds	r0, r7, #1
	ldrb.w	r1, [r8, r0]
	ldrb.w	r0, [r11, r0]
	subs	r0, r1, r0
	it	ne
	movne	r0, #1
	cmp.w	r9, #2
	orr.w	r2, r2, r0
	beq	.LBB9125c_16
	adds	r0, r7, #2
	ldrb.w	r1, [r8, r0]
	ldrb.w	r0, [r11, r0]
	subs	r0, r1, r0
	it	ne
	movne	r0, #1
	orrs	r2, r0
.LBB9125c_16:
	orr.w	r0, r10, r2
	and	r0, r0, #1
	add	sp, #12
	pop.w	{r4, r5, r6, r7, r8, r9, r10, r11, pc}
.Lfunc_end9125c:
	.size	"core::slice::scan::any_in_ends::<#953750c03e87c3e2>", .Lfunc_end9125c-"core::slice::scan::any_in_ends::<#953750c03e87c3e2>"
	.cantunwind
	.fnend

	.section	".text.core::slice::scan::skip_groups::<#953750c03e87c3e2>","ax",%progbits
	.p2align	2
	.type	"core::slice::scan::skip_groups::<#953750c03e87c3e2>",%function
	.code	16
	.thumb_func
"core::slice::scan::skip_groups::<#953750c03e87c3e2>":
	.fnstart
	.save	{r4, r5, r6, r7, r8, r9, r10, r11, lr}
	push.w	{r4, r5, r6, r7, r8, r9, r10, r11, lr}
	.pad	#12
	sub	sp, #12
	ldrd	r5, r12, [sp, #56]
	ldrd	r8, lr, [sp, #48]
	mov	r10, r2
	subs.w	r9, r5, #1
	sbc	r2, r12, #0
	subs.w	r7, r8, r10
	sbc.w	r6, lr, r3
	subs.w	r7, r9, r7
	mov	r1, r3
	sbcs.w	r7, r2, r6
	str	r2, [sp, #4]
	bhs.w	.LBB8560b_12
	movs	r2, #1
	ldr	r7, [r0]
	ldr	r0, [r0, #16]
	cmp	r5, #1
	mov.w	r6, #1
	it	hi
	movhi	r2, r5
	cmp.w	r12, #0
	ite	ne
	movne	r6, r5
	moveq	r6, r2
	and	r2, r6, #3
	bic	r11, r6, #3
	str	r2, [sp, #8]
	str.w	r9, [sp]
	.p2align	2
.LBB8560b_2:
	subs	r6, r5, #4
	sbcs	r6, r12, #0
	bhs	.LBB8560b_4
	movs	r6, #0
	movs	r4, #0
	b	.LBB8560b_7
	.p2align	2
.LBB8560b_4:
	movs	r6, #0
	movs	r4, #0
	mov.w	lr, #0
	.p2align	2
.LBB8560b_5:
	add.w	r8, r10, r4
	mov	r2, r12
	ldrb.w	r12, [r7, r8]
	ldrb.w	r9, [r0, r8]
	add.w	r5, r8, #1
	subs.w	r3, r12, r9
	mov	r12, r2
	it	ne
	movne	r3, #1
	ldrb	r2, [r7, r5]
	ldrb	r5, [r0, r5]
	orrs	r3, r6
	subs	r2, r2, r5
	add.w	r6, r8, #2
	it	ne
	movne	r2, #1
	ldrb	r5, [r7, r6]
	ldrb	r6, [r0, r6]
	orrs	r2, r3
	subs	r3, r5, r6
	add.w	r6, r8, #3
	it	ne
	movne	r3, #1
	ldrb	r5, [r7, r6]
	ldrb	r6, [r0, r6]
	orrs	r2, r3
	subs	r3, r5, r6
	it	ne
	movne	r3, #1
	adds	r4, #4
	adc	lr, lr, #0
	eor.w	r6, r4, r11
	eor.w	r5, lr, r12
	orrs	r6, r5
	orr.w	r6, r2, r3
	bne	.LBB8560b_5
	ldr	r2, [sp, #8]
	ldr	r5, [sp, #56]
	ldrd	r8, lr, [sp, #48]
	ldr.w	r9, [sp]
	cbz	r2, .LBB8560b_10
.LBB8560b_7:
	add	r4, r10
	ldrb	r2, [r7, r4]
	ldrb	r3, [r0, r4]
	subs	r2, r2, r3
	it	ne
	movne	r2, #1
	ldr	r3, [sp, #8]
	orrs	r6, r2
	cmp	r3, #1
	beq	.LBB8560b_10
	adds	r2, r4, #1
	ldrb	r3, [r7, r2]
	ldrb	r2, [r0, r2]
	subs	r2, r3, r2
	it	ne
	movne	r2, #1
	ldr	r3, [sp, #8]
	orrs	r6, r2
	cmp	r3, #2
	beq	.LBB8560b_10
	adds	r2, r4, #2
	ldrb	r3, [r7, r2]
	ldrb	r2, [r0, r2]
	subs	r2, r3, r2
	it	ne
	movne	r2, #1
	orrs	r6, r2
.LBB8560b_10:
	lsls	r2, r6, #31
	bne	.LBB8560b_12
	adds.w	r10, r10, r5
	adc.w	r1, r1, r12
	subs.w	r2, r8, r10
	sbc.w	r3, lr, r1
	subs.w	r2, r9, r2
	ldr	r2, [sp, #4]
	sbcs	r2, r3
	blo	.LBB8560b_2
.LBB8560b_12:
	mov	r0, r10
	add	sp, #12
	pop.w	{r4, r5, r6, r7, r8, r9, r10, r11, pc}
.Lfunc_end8560b:
	.size	"core::slice::scan::skip_groups::<#953750c03e87c3e2>", .Lfunc_end8560b-"core::slice::scan::skip_groups::<#953750c03e87c3e2>"
	.cantunwind
	.fnend

	.section	".text.core::cmp::slices::groups_equal::<i8,31'core::cmp::numbers::U8PartialEq{}>","ax",%progbits
	.p2align	2
	.type	"core::cmp::slices::groups_equal::<i8,31'core::cmp::numbers::U8PartialEq{}>",%function
	.code	16
	.thumb_func
"core::cmp::slices::groups_equal::<i8,31'core::cmp::numbers::U8PartialEq{}>":
	.fnstart
	.save	{r4, r5, r6, r7, r8, r9, r10, lr}
	push.w	{r4, r5, r6, r7, r8, r9, r10, lr}
	.pad	#48
	sub	sp, #48
	ldrd	r7, r6, [sp, #88]
	ldr.w	r10, [sp, #80]
	movs	r1, #0
	str	r6, [sp, #44]
	rsbs.w	r6, r2, #8
	add.w	r12, sp, #20
	sbcs.w	r6, r1, r3
	str	r0, [sp, #16]
	stm.w	r12, {r1, r2, r3, r10}
	str	r1, [sp, #36]
	str	r7, [sp, #40]
	blo	.LBBb5d67_2
	movs	r7, #4
	add	r0, sp, #16
	strd	r7, r1, [sp]
	bl	"core::slice::scan::any_in_ends::<#953750c03e87c3e2>"
	b	.LBBb5d67_10
.LBBb5d67_2:
	rsbs.w	r7, r2, #32
	sbcs	r1, r3
	blo	.LBBb5d67_4
	movs	r1, #0
	movs	r7, #8
	add	r0, sp, #16
	strd	r7, r1, [sp]
	bl	"core::slice::scan::any_in_quarters::<#953750c03e87c3e2>"
	b	.LBBb5d67_10
.LBBb5d67_4:
	rsbs.w	r1, r2, #64
	mov.w	r6, #0
	sbcs.w	r1, r6, r3
	blo	.LBBb5d67_6
	movs	r1, #32
	add	r0, sp, #16
	strd	r1, r6, [sp]
	bl	"core::slice::scan::any_in_ends::<#953750c03e87c3e2>"
	b	.LBBb5d67_10
.LBBb5d67_6:
	mov	r8, r0
	movs	r0, #64
	add.w	r9, sp, #16
	strd	r2, r3, [sp]
	str	r0, [sp, #8]
	mov	r0, r9
	mov	r7, r2
	movs	r2, #0
	mov	r4, r3
	movs	r3, #0
	str	r6, [sp, #12]
	bl	"core::slice::scan::skip_groups::<#953750c03e87c3e2>"
	mov	r2, r0
	movs	r0, #32
	str	r0, [sp, #8]
	mov	r0, r9
	mov	r3, r1
	strd	r7, r4, [sp]
	str	r6, [sp, #12]
	bl	"core::slice::scan::skip_groups::<#953750c03e87c3e2>"
	subs	r0, r7, r0
	sbc.w	r1, r4, r1
	rsbs.w	r0, r0, #31
	sbcs.w	r0, r6, r1
	bhs	.LBBb5d67_8
	movs	r0, #1
	b	.LBBb5d67_10
.LBBb5d67_8:
	subs.w	r12, r7, #32
	movs	r0, #0
	movs	r2, #0
	mov.w	lr, #0
	mov	r3, r8
	.p2align	2
.LBBb5d67_9:
	add.w	r6, r12, r2
	ldrb	r7, [r3, r6]
	ldrb.w	r1, [r10, r6]
	mov	r4, lr
	subs	r1, r7, r1
	add.w	r7, r6, #1
	it	ne
	movne	r1, #1
	ldrb	r5, [r3, r7]
	ldrb.w	r7, [r10, r7]
	orrs	r0, r1
	subs	r1, r5, r7
	add.w	r7, r6, #2
	it	ne
	movne	r1, #1
	ldrb	r5, [r3, r7]
	ldrb.w	r7, [r10, r7]
	orrs	r0, r1
	subs	r1, r5, r7
	add.w	r7, r6, #3
	it	ne
	movne	r1, #1
	ldrb	r5, [r3, r7]
	ldrb.w	r7, [r10, r7]
	orrs	r0, r1
	subs	r1, r5, r7
	add.w	r7, r6, #4
	it	ne
	movne	r1, #1
	ldrb	r5, [r3, r7]
	ldrb.w	r7, [r10, r7]
	orrs	r0, r1
	subs	r1, r5, r7
	add.w	r7, r6, #5
	it	ne
	movne	r1, #1
	ldrb	r5, [r3, r7]
	ldrb.w	r7, [r10, r7]
	orrs	r0, r1
	subs	r1, r5, r7
	add.w	r7, r6, #6
	it	ne
	movne	r1, #1
	ldrb	r6, [r3, r7]
	ldrb.w	r7, [r10, r7]
	orrs	r0, r1
	subs	r1, r6, r7
	it	ne
	movne	r1, #1
	orrs	r0, r1
	orr	r1, r2, #7
	add.w	r7, r12, r1
	ldrb	r6, [r3, r7]
	ldrb.w	r7, [r10, r7]
	subs	r5, r6, r7
	it	ne
	movne	r5, #1
	adds	r2, #8
	adc	lr, lr, #0
	subs	r1, #31
	sbcs	r1, r4, #0
	orr.w	r0, r0, r5
	blo	.LBBb5d67_9
.LBBb5d67_10:
	movs	r1, #1
	bic.w	r0, r1, r0
	add	sp, #48
	pop.w	{r4, r5, r6, r7, r8, r9, r10, pc}
.Lfunc_endb5d67:
	.size	"core::cmp::slices::groups_equal::<i8,31'core::cmp::numbers::U8PartialEq{}>", .Lfunc_endb5d67-"core::cmp::slices::groups_equal::<i8,31'core::cmp::numbers::U8PartialEq{}>"
	.cantunwind
	.fnend

	.section	".text.server_machine::machine::SizedServer::make_again::<#575f94f35bca5e04>","ax",%progbits
	.p2align	2
	.type	"server_machine::machine::SizedServer::make_again::<#575f94f35bca5e04>",%function
	.code	16
	.thumb_func
"server_machine::machine::SizedServer::make_again::<#575f94f35bca5e04>":
	.fnstart
	.save	{r4, r5, r6, lr}
	push	{r4, r5, r6, lr}
	.pad	#8
	sub	sp, #8
	mov	r4, r0
	add.w	r5, r0, #1568
	add.w	r0, r0, #1864
	movs	r2, #32
	bl	__aeabi_memmove
	ldr	r0, [r4]
	ldrd	r2, r3, [r4, #8]
	str	r5, [sp]
	bl	"eap_method::server_objects::start_each::<#575f94f35bca5e04>"
	mov.w	r0, #256
	strh.w	r0, [r4, #31]
	ldr.w	r1, [r4, #1560]
	ldr.w	r0, [r4, #1564]
	movs	r5, #0
	orrs	r0, r1
	str.w	r5, [r4, #27]
	strb.w	r5, [r4, #33]
	beq	.LBBe0efc_2
	add.w	r0, r4, #56
	add.w	r6, r4, #1560
	bl	__aeabi_memclr
	strd	r5, r5, [r6]
.LBBe0efc_2:
	ldrd	r1, r0, [r4, #48]
	orrs	r0, r1
	beq	.LBBe0efc_4
	add.w	r0, r4, #40
	bl	__aeabi_memclr
	movs	r0, #0
	strd	r0, r0, [r4, #48]
.LBBe0efc_4:
	add	sp, #8
	pop	{r4, r5, r6, pc}
.Lfunc_ende0efc:
	.size	"server_machine::machine::SizedServer::make_again::<#575f94f35bca5e04>", .Lfunc_ende0efc-"server_machine::machine::SizedServer::make_again::<#575f94f35bca5e04>"
	.cantunwind
	.fnend

	.section	".text.eap_method::server_objects::start_each::<#575f94f35bca5e04>","ax",%progbits
	.p2align	2
	.type	"eap_method::server_objects::start_each::<#575f94f35bca5e04>",%function
	.code	16
	.thumb_func
"eap_method::server_objects::start_each::<#575f94f35bca5e04>":
	.fnstart
	orrs.w	r1, r2, r3
	it	eq
	bxeq	lr
.LBB29995_1:
	.save	{r4, r5, r6, r7, r8, r9, lr}
	push.w	{r4, r5, r6, r7, r8, r9, lr}
	.pad	#292
	sub	sp, #292
	ldr	r4, [sp, #320]
	subs	r6, r2, #1
	ldrb	r1, [r0]
	sbc	r7, r3, #0
	ldrd	r2, r3, [r4, #272]
	add.w	r5, r0, #1256
	mov	r8, r0
	add.w	r0, r4, #264
	cmp	r1, #0
	mov.w	r1, #51
	it	eq
	moveq	r1, #47
	str	r1, [sp]
	bl	"octet_lists::kind::is_among"
	cbz	r0, .LBB29995_3
	add.w	r9, sp, #8
	mov	r0, r9
	mov	r1, r4
	bl	"eap_method::server_objects::side_of::<=2>"
	add.w	r2, r4, #296
	mov	r0, r8
	mov	r1, r9
	bl	"end_objects::objects::ServerObjectServerMethod::begin"
.LBB29995_3:
	mov	r0, r5
	mov	r2, r6
	mov	r3, r7
	str	r4, [sp]
	bl	"eap_method::server_objects::start_each::<#575f94f35bca5e04>"
	add	sp, #292
	pop.w	{r4, r5, r6, r7, r8, r9, lr}
	bx	lr
.Lfunc_end29995:
	.size	"eap_method::server_objects::start_each::<#575f94f35bca5e04>", .Lfunc_end29995-"eap_method::server_objects::start_each::<#575f94f35bca5e04>"
	.cantunwind
	.fnend

	.section	".text.eap_method::server_objects::side_of::<=2>","ax",%progbits
	.p2align	2
	.type	"eap_method::server_objects::side_of::<=2>",%function
	.code	16
	.thumb_func
"eap_method::server_objects::side_of::<=2>":
	.fnstart
	.save	{r4, r5, r6, r7, r8, lr}
	push.w	{r4, r5, r6, r7, r8, lr}
	.pad	#544
	sub.w	sp, sp, #544
	add	r4, sp, #280
	mov	r6, r1
	ldrd	r5, r7, [r1, #256]
	mov	r8, r0
	mov	r0, r4
	mov.w	r1, #264
	bl	__aeabi_memclr8
	mov	r0, r4
	mov	r1, r6
	mov	r2, r5
	mov	r3, r7
	bl	"octet_lists::octets::Octets::append::<=253>"
	mov	r5, sp
	mov	r0, r5
	mov	r1, r4
	mov.w	r2, #264
	bl	__aeabi_memcpy8
	ldrd	r2, r3, [r6, #288]
	movs	r0, #0
	add.w	r1, r6, #280
	strd	r0, r0, [sp, #288]
	strd	r0, r0, [sp, #280]
	add	r0, sp, #280
	bl	"octet_lists::octets::Octets::append::<=2>"
	ldr	r2, [sp, #292]
	add	r3, sp, #280
	ldm	r3, {r0, r1, r3}
	str	r2, [sp, #276]
	add	r2, sp, #264
	stm	r2!, {r0, r1, r3}
	mov	r0, r8
	mov	r1, r5
	mov.w	r2, #280
	bl	__aeabi_memcpy
	add.w	sp, sp, #544
	pop.w	{r4, r5, r6, r7, r8, pc}
.Lfunc_enda5079:
	.size	"eap_method::server_objects::side_of::<=2>", .Lfunc_enda5079-"eap_method::server_objects::side_of::<=2>"
	.cantunwind
	.fnend

	.section	".text.end_objects::objects::ServerObjectServerMethod::begin","ax",%progbits
	.p2align	2
	.type	"end_objects::objects::ServerObjectServerMethod::begin",%function
	.code	16
	.thumb_func
"end_objects::objects::ServerObjectServerMethod::begin":
	.fnstart
	.save	{r4, r5, r6, lr}
	push	{r4, r5, r6, lr}
	.pad	#312
	sub	sp, #312
	mov	r4, r0
	ldrb	r3, [r0], #8
	mov	r5, r2
	cbz	r3, .LBBd8d8c_2
	ldrd	r2, r3, [r1, #256]
	mov	r6, r1
	bl	"octet_lists::octets::Octets::set::<=253>"
	ldrd	r2, r3, [r6, #272]
	add.w	r0, r4, #272
	add.w	r1, r6, #264
	bl	"octet_lists::octets::Octets::set::<=2>"
	add.w	r0, r4, #288
	mov	r1, r5
	movs	r2, #32
	bl	__aeabi_memmove
	movs	r0, #1
	strh.w	r0, [r4, #320]
	add.w	r0, r4, #328
	movw	r1, #826
	b	.LBBd8d8c_3
.LBBd8d8c_2:
	mov	r6, sp
	mov	r0, r6
	bl	"eap_method::values::ServerSide::copy"
	add.w	r0, r6, #280
	mov	r1, r5
	movs	r2, #32
	bl	__aeabi_memcpy
	movs	r0, #0
	str	r0, [r4, #12]
	movs	r0, #1
	str	r0, [r4, #8]
	add.w	r0, r4, #16
	mov	r1, r6
	mov.w	r2, #312
	bl	__aeabi_memcpy
	add.w	r0, r4, #328
	movw	r1, #922
.LBBd8d8c_3:
	bl	__aeabi_memclr
	add	sp, #312
	pop	{r4, r5, r6, pc}
.Lfunc_endd8d8c:
	.size	"end_objects::objects::ServerObjectServerMethod::begin", .Lfunc_endd8d8c-"end_objects::objects::ServerObjectServerMethod::begin"
	.cantunwind
	.fnend

	.section	".text.eap_method::values::ServerSide::copy","ax",%progbits
	.p2align	2
	.type	"eap_method::values::ServerSide::copy",%function
	.code	16
	.thumb_func
"eap_method::values::ServerSide::copy":
	.fnstart
	.save	{r4, r5, r6, r7, r8, lr}
	push.w	{r4, r5, r6, r7, r8, lr}
	.pad	#544
	sub.w	sp, sp, #544
	add	r4, sp, #280
	mov	r6, r1
	ldrd	r5, r7, [r1, #256]
	mov	r8, r0
	mov	r0, r4
	mov.w	r1, #264
	bl	__aeabi_memclr8
	mov	r0, r4
	mov	r1, r6
	mov	r2, r5
	mov	r3, r7
	bl	"octet_lists::octets::Octets::append::<=253>"
	mov	r5, sp
	mov	r0, r5
	mov	r1, r4
	mov.w	r2, #264
	bl	__aeabi_memcpy8
	ldrd	r2, r3, [r6, #272]
	movs	r0, #0
	add.w	r1, r6, #264
	strd	r0, r0, [sp, #288]
	strd	r0, r0, [sp, #280]
	add	r0, sp, #280
	bl	"octet_lists::octets::Octets::append::<=2>"
	ldr	r2, [sp, #292]
	add	r3, sp, #280
	ldm	r3, {r0, r1, r3}
	str	r2, [sp, #276]
	add	r2, sp, #264
	stm	r2!, {r0, r1, r3}
	mov	r0, r8
	mov	r1, r5
	mov.w	r2, #280
	bl	__aeabi_memcpy
	add.w	sp, sp, #544
	pop.w	{r4, r5, r6, r7, r8, pc}
.Lfunc_end3a882:
	.size	"eap_method::values::ServerSide::copy", .Lfunc_end3a882-"eap_method::values::ServerSide::copy"
	.cantunwind
	.fnend

	.section	".text.octet_lists::octets::Octets::set::<=253>","ax",%progbits
	.p2align	2
	.type	"octet_lists::octets::Octets::set::<=253>",%function
	.code	16
	.thumb_func
"octet_lists::octets::Octets::set::<=253>":
	.fnstart
	.save	{r4, r5, r6, r7, lr}
	push	{r4, r5, r6, r7, lr}
	.pad	#4
	sub	sp, #4
	ldrd	r12, r7, [r0, #256]
	orrs.w	r7, r7, r12
	beq	.LBB7ac3e_2
	mov	r5, r1
	mov	r1, r12
	mov	r4, r0
	mov	r6, r3
	mov	r7, r2
	bl	__aeabi_memclr
	mov	r1, r5
	mov	r2, r7
	mov	r0, r4
	mov	r3, r6
	movs	r7, #0
	strd	r7, r7, [r4, #256]
.LBB7ac3e_2:
	add	sp, #4
	pop.w	{r4, r5, r6, r7, lr}
	b	"octet_lists::octets::Octets::append::<=253>"
.Lfunc_end7ac3e:
	.size	"octet_lists::octets::Octets::set::<=253>", .Lfunc_end7ac3e-"octet_lists::octets::Octets::set::<=253>"
	.cantunwind
	.fnend

	.section	".text.octet_lists::octets::Octets::set::<=2>","ax",%progbits
	.p2align	2
	.type	"octet_lists::octets::Octets::set::<=2>",%function
	.code	16
	.thumb_func
"octet_lists::octets::Octets::set::<=2>":
	.fnstart
	.save	{r4, r5, r6, r7, lr}
	push	{r4, r5, r6, r7, lr}
	.pad	#4
	sub	sp, #4
	ldrd	r12, r7, [r0, #8]
	orrs.w	r7, r7, r12
	beq	.LBB66596_2
	mov	r5, r1
	mov	r1, r12
	mov	r4, r0
	mov	r6, r3
	mov	r7, r2
	bl	__aeabi_memclr
	mov	r1, r5
	mov	r2, r7
	mov	r0, r4
	mov	r3, r6
	movs	r7, #0
	strd	r7, r7, [r4, #8]
.LBB66596_2:
	add	sp, #4
	pop.w	{r4, r5, r6, r7, lr}
	b	"octet_lists::octets::Octets::append::<=2>"
.Lfunc_end66596:
	.size	"octet_lists::octets::Octets::set::<=2>", .Lfunc_end66596-"octet_lists::octets::Octets::set::<=2>"
	.cantunwind
	.fnend

	.section	".text.tuvaddri_c::deliver::deliver_to_peer","ax",%progbits
	.p2align	2
	.type	"tuvaddri_c::deliver::deliver_to_peer",%function
	.code	16
	.thumb_func
"tuvaddri_c::deliver::deliver_to_peer":
	.fnstart
	.save	{r4, r5, r6, r7, r8, r9, r10, lr}
	push.w	{r4, r5, r6, r7, r8, r9, r10, lr}
	.pad	#1568
	sub.w	sp, sp, #1568
	mov	r5, r1
	ldrb	r1, [r1]
	mov	r4, r0
	cmp	r1, #3
	bne	.LBBb1941_3
	add	r7, sp, #32
	ldr.w	r9, [sp, #1604]
	ldr.w	r10, [sp, #1600]
	mov	r0, r7
	mov.w	r1, #1512
	mov	r6, r2
	add.w	r8, r5, #8
	bl	__aeabi_memclr8
	ldrb.w	r0, [r5, #768]
	cmp	r0, #1
	mov.w	r0, #0
	str.w	r0, [sp, #1564]
	str.w	r0, [sp, #1560]
	str.w	r0, [sp, #1556]
	str.w	r0, [sp, #1552]
	str.w	r0, [sp, #1548]
	str.w	r0, [sp, #1544]
	strd	r0, r0, [sp, #16]
	strd	r0, r0, [sp, #24]
	add	r0, sp, #16
	bne	.LBBb1941_4
	strd	r7, r0, [sp, #8]
	add.w	r0, sp, #1544
	mov	r1, r8
	mov	r2, r6
	str.w	r10, [sp]
	str.w	r9, [sp, #4]
	bl	"peer_machine::machine::PeerMachine::read::<#b05093cacc003912>"
	b	.LBBb1941_5
.LBBb1941_3:
	movs	r0, #0
	movs	r7, #1
	movs	r1, #0
	movs	r2, #0
	movs	r3, #0
	strb.w	r0, [r5, #2632]
	b	.LBBb1941_6
.LBBb1941_4:
	strd	r7, r0, [sp, #8]
	add.w	r0, sp, #1544
	mov	r1, r8
	mov	r2, r6
	str.w	r10, [sp]
	str.w	r9, [sp, #4]
	bl	"peer_machine::machine::PeerMachine::receive_octets::<#b05093cacc003912>"
.LBBb1941_5:
	ldrb.w	r1, [sp, #1560]
	ldrb.w	r0, [sp, #1562]
	ldrb.w	r2, [sp, #1561]
	ldrb.w	r3, [r5, #776]
	strb.w	r0, [r5, #2632]
	cmp	r1, #0
	it	eq
	moveq	r2, r1
	movs	r7, #0
.LBBb1941_6:
	strb	r0, [r4]
	strb	r1, [r4, #1]
	strb	r7, [r4, #2]
	strb	r2, [r4, #3]
	strb	r3, [r4, #4]
	add.w	sp, sp, #1568
	pop.w	{r4, r5, r6, r7, r8, r9, r10, pc}
.Lfunc_endb1941:
	.size	"tuvaddri_c::deliver::deliver_to_peer", .Lfunc_endb1941-"tuvaddri_c::deliver::deliver_to_peer"
	.cantunwind
	.fnend

	.section	".text.peer_machine::machine::PeerMachine::read::<#b05093cacc003912>","ax",%progbits
	.p2align	2
	.type	"peer_machine::machine::PeerMachine::read::<#b05093cacc003912>",%function
	.code	16
	.thumb_func
"peer_machine::machine::PeerMachine::read::<#b05093cacc003912>":
	.fnstart
	.save	{r4, r5, r6, r7, r8, r9, r10, r11, lr}
	push.w	{r4, r5, r6, r7, r8, r9, r10, r11, lr}
	.pad	#180
	sub	sp, #180
	add	r7, sp, #40
	mov	r5, r1
	ldrd	r10, r9, [sp, #216]
	ldrd	r8, r11, [sp, #224]
	mov	r4, r0
	mov	r0, r7
	movs	r1, #48
	mov	r6, r2
	bl	__aeabi_memclr8
	movs	r0, #0
	strd	r0, r0, [sp, #32]
	strd	r0, r0, [sp, #24]
	strd	r0, r0, [sp, #16]
	mov	r0, r7
	mov	r1, r6
	mov	r2, r10
	mov	r3, r9
	bl	"eap_packet::packet::decode"
	ldrb.w	r0, [sp, #48]
	ldrb.w	r1, [sp, #40]
	uxtb	r0, r0
	orrs	r0, r1
	bne	.LBBbe1e5_2
	ldrb.w	r0, [r5, #768]
	bl	"eap_method::step::has_ended"
	cbz	r0, .LBBbe1e5_3
.LBBbe1e5_2:
	add	r0, sp, #16
	mov	r1, r5
	mov	r2, r6
	strd	r10, r9, [sp]
	str.w	r8, [sp, #8]
	str.w	r11, [sp, #12]
	bl	"peer_machine::machine::PeerMachine::receive_octets::<#b05093cacc003912>"
	ldrb.w	r0, [sp, #32]
	ldrb.w	r1, [sp, #33]
	ldrb.w	r6, [sp, #34]
	b	.LBBbe1e5_15
.LBBbe1e5_3:
	add.w	r1, r7, #9
	add	r7, sp, #88
	mov.w	r8, #0
	adds	r0, r7, #1
	movs	r2, #39
	strb.w	r8, [sp, #88]
	bl	__aeabi_memcpy
	mov	r0, r7
	strd	r8, r8, [sp, #144]
	strd	r8, r8, [sp, #136]
	strd	r8, r8, [sp, #128]
	bl	"eap_packet::expanded::is_bad_expanded"
	cbz	r0, .LBBbe1e5_5
	movw	r2, #2306
	movt	r2, #1
	movs	r3, #3
	movs	r1, #8
	movs	r0, #1
	movs	r7, #0
	movs	r6, #0
	b	.LBBbe1e5_14
.LBBbe1e5_5:
	ldrb.w	r0, [sp, #90]
	cmp	r0, #254
	bne	.LBBbe1e5_12
	ldrb.w	r0, [r5, #773]
	ldr.w	r8, [sp, #224]
	movs	r7, #0
	cmp	r0, #1
	str	r7, [sp, #172]
	str	r7, [sp, #168]
	bne	.LBBbe1e5_8
	ldrb.w	r0, [sp, #89]
	ldrb.w	r1, [r5, #774]
	subs	r0, r1, r0
	clz	r0, r0
	lsrs	r7, r0, #5
.LBBbe1e5_8:
	add	r0, sp, #152
	add	r2, sp, #88
	mov	r1, r5
	mov	r3, r6
	strd	r10, r9, [sp]
	str.w	r11, [sp, #12]
	str.w	r8, [sp, #8]
	bl	"peer_machine::machine::PeerMachine::receive_plain::<#b05093cacc003912>"
	ldrb.w	r6, [sp, #170]
	cbnz	r7, .LBBbe1e5_11
	cbz	r6, .LBBbe1e5_11
	mov	r0, r5
	mov	r1, r8
	bl	"peer_machine::machine::express"
.LBBbe1e5_11:
	add	r7, sp, #152
	ldm	r7, {r2, r3, r7}
	ldr	r5, [sp, #164]
	ldrb.w	r0, [sp, #168]
	ldrb.w	r1, [sp, #169]
	add.w	r12, sp, #128
	stm.w	r12, {r2, r3, r7}
	str	r5, [sp, #140]
	b	.LBBbe1e5_13
.LBBbe1e5_12:
	ldr	r0, [sp, #224]
	mov	r1, r5
	str	r0, [sp, #8]
	add	r0, sp, #128
	mov	r2, r6
	strd	r10, r9, [sp]
	str.w	r11, [sp, #12]
	bl	"peer_machine::machine::PeerMachine::receive_octets::<#b05093cacc003912>"
	ldrb.w	r0, [sp, #144]
	ldrb.w	r1, [sp, #145]
	ldrb.w	r6, [sp, #146]
.LBBbe1e5_13:
	ldrd	r2, r7, [sp, #128]
	ldrd	r3, r8, [sp, #136]
.LBBbe1e5_14:
	strd	r2, r7, [sp, #16]
	strd	r3, r8, [sp, #24]
.LBBbe1e5_15:
	add	r7, sp, #16
	ldm	r7, {r2, r3, r5, r7}
	str	r7, [r4, #12]
	str	r5, [r4, #8]
	str	r3, [r4, #4]
	str	r2, [r4]
	strb	r0, [r4, #16]
	strb	r1, [r4, #17]
	strb	r6, [r4, #18]
	add	sp, #180
	pop.w	{r4, r5, r6, r7, r8, r9, r10, r11, pc}
.Lfunc_endbe1e5:
	.size	"peer_machine::machine::PeerMachine::read::<#b05093cacc003912>", .Lfunc_endbe1e5-"peer_machine::machine::PeerMachine::read::<#b05093cacc003912>"
	.cantunwind
	.fnend

	.section	".text.eap_packet::packet::decode","ax",%progbits
	.p2align	2
	.type	"eap_packet::packet::decode",%function
	.code	16
	.thumb_func
"eap_packet::packet::decode":
	.fnstart
	.save	{r4, r5, r6, r7, r8, r9, lr}
	push.w	{r4, r5, r6, r7, r8, r9, lr}
	.pad	#24
	sub	sp, #24
	subs	r7, r2, #4
	mov.w	r12, #0
	sbcs	r7, r3, #0
	strb.w	r12, [sp, #12]
	str.w	r12, [sp, #8]
	bhs	.LBB47dfc_3
	movs	r2, #1
	mov.w	lr, #0
	mov.w	r8, #0
	mov.w	r9, #0
	movs	r5, #0
	movs	r6, #0
	movs	r7, #0
	movs	r1, #0
	movs	r4, #0
.LBB47dfc_2:
	movs	r3, #0
	b	.LBB47dfc_12
.LBB47dfc_3:
	ldrb	r5, [r1]
	mov.w	lr, #0
	subs	r7, r5, #5
	cmn.w	r7, #4
	bhs	.LBB47dfc_5
	movs	r2, #1
	mov.w	r8, #0
	mov.w	r9, #0
	movs	r5, #0
	movs	r6, #0
	movs	r7, #0
	movs	r1, #0
	movs	r4, #0
	movs	r3, #1
	b	.LBB47dfc_12
.LBB47dfc_5:
	ldrh	r4, [r1, #2]
	movs	r6, #0
	rev16	r4, r4
	cmp	r4, #5
	it	lo
	movlo	r6, #1
	subs	r7, r4, #4
	it	ne
	movne	r7, #1
	cmp	r5, #3
	it	lo
	movlo	r7, r6
	cbz	r7, .LBB47dfc_7
	movs	r3, #2
	b	.LBB47dfc_11
.LBB47dfc_7:
	subs	r2, r2, r4
	sbcs	r2, r3, #0
	bhs	.LBB47dfc_9
	movs	r3, #3
	b	.LBB47dfc_11
.LBB47dfc_9:
	movw	r2, #1500
	cmp	r4, r2
	bls	.LBB47dfc_13
	movs	r3, #4
.LBB47dfc_11:
	movs	r2, #1
	mov.w	r8, #0
	mov.w	r9, #0
	movs	r5, #0
	movs	r6, #0
	movs	r7, #0
	movs	r1, #0
	movs	r4, #0
.LBB47dfc_12:
	strb	r2, [r0]
	strb	r3, [r0, #1]
	ldr	r2, [sp, #8]
	ldrb.w	r3, [sp, #12]
	strb.w	lr, [r0, #8]
	strb.w	r8, [r0, #9]
	strb.w	r9, [r0, #10]
	str.w	r2, [r0, #11]
	strb	r3, [r0, #15]
	str	r5, [r0, #16]
	str.w	r12, [r0, #20]
	str	r6, [r0, #24]
	str	r7, [r0, #28]
	str	r1, [r0, #32]
	str.w	r12, [r0, #36]
	str.w	r12, [r0, #44]
	str	r4, [r0, #40]
	add	sp, #24
	pop.w	{r4, r5, r6, r7, r8, r9, pc}
.LBB47dfc_13:
	cmp	r5, #2
	beq	.LBB47dfc_17
	cmp	r5, #1
	bne	.LBB47dfc_20
	ldrb	r2, [r1, #4]
	cmp	r2, #3
	bne	.LBB47dfc_21
	movs	r3, #5
	b	.LBB47dfc_11
.LBB47dfc_17:
	cmp	r4, #5
	bne	.LBB47dfc_22
	ldrb	r2, [r1, #4]
	cmp	r2, #3
	bne	.LBB47dfc_22
	movs	r3, #6
	b	.LBB47dfc_11
.LBB47dfc_20:
	ldrb.w	r8, [r1, #1]
	cmp	r5, #3
	movw	r5, :lower16:.Lstatic.0
	mov.w	r9, #0
	mov.w	lr, #3
	mov.w	r4, #4
	movt	r5, :upper16:.Lstatic.0
	mov.w	r6, #0
	mov.w	r7, #0
	str.w	r9, [sp, #16]
	strb.w	r9, [sp, #20]
	it	eq
	moveq.w	lr, #2
	b	.LBB47dfc_23
.LBB47dfc_21:
	ldrb.w	r8, [r1, #1]
	ldrb.w	r9, [r1, #4]
	subs	r6, r4, #5
	add.w	r5, r1, #5
	sbc	r7, lr, #0
	str.w	lr, [sp, #16]
	strb.w	lr, [sp, #20]
	b	.LBB47dfc_23
.LBB47dfc_22:
	ldrb.w	r8, [r1, #1]
	ldrb.w	r9, [r1, #4]
	subs	r6, r4, #5
	add.w	r5, r1, #5
	sbc	r7, lr, #0
	str.w	lr, [sp, #16]
	strb.w	lr, [sp, #20]
	mov.w	lr, #1
.LBB47dfc_23:
	ldrb.w	r2, [sp, #20]
	ldr	r3, [sp, #16]
	strb.w	r2, [sp, #4]
	strb.w	r2, [sp, #12]
	movs	r2, #0
	str	r3, [sp]
	str	r3, [sp, #8]
	b	.LBB47dfc_2
.Lfunc_end47dfc:
	.size	"eap_packet::packet::decode", .Lfunc_end47dfc-"eap_packet::packet::decode"
	.cantunwind
	.fnend

	.section	".text.eap_method::step::has_ended","ax",%progbits
	.p2align	2
	.type	"eap_method::step::has_ended",%function
	.code	16
	.thumb_func
"eap_method::step::has_ended":
	.fnstart
	uxtb	r1, r0
	movs	r0, #1
.LCPIdf5ea_0:
	tbb	[pc, r1]
.LJTIdf5ea_0:
	.byte	(.LBBdf5ea_2-(.LCPIdf5ea_0+4))/2
	.byte	(.LBBdf5ea_2-(.LCPIdf5ea_0+4))/2
	.byte	(.LBBdf5ea_2-(.LCPIdf5ea_0+4))/2
	.byte	(.LBBdf5ea_2-(.LCPIdf5ea_0+4))/2
	.byte	(.LBBdf5ea_2-(.LCPIdf5ea_0+4))/2
	.byte	(.LBBdf5ea_2-(.LCPIdf5ea_0+4))/2
	.byte	(.LBBdf5ea_2-(.LCPIdf5ea_0+4))/2
	.byte	(.LBBdf5ea_2-(.LCPIdf5ea_0+4))/2
	.byte	(.LBBdf5ea_2-(.LCPIdf5ea_0+4))/2
	.byte	(.LBBdf5ea_2-(.LCPIdf5ea_0+4))/2
	.byte	(.LBBdf5ea_3-(.LCPIdf5ea_0+4))/2
	.byte	(.LBBdf5ea_3-(.LCPIdf5ea_0+4))/2
	.byte	(.LBBdf5ea_2-(.LCPIdf5ea_0+4))/2
	.byte	(.LBBdf5ea_2-(.LCPIdf5ea_0+4))/2
	.byte	(.LBBdf5ea_2-(.LCPIdf5ea_0+4))/2
	.byte	(.LBBdf5ea_2-(.LCPIdf5ea_0+4))/2
	.byte	(.LBBdf5ea_2-(.LCPIdf5ea_0+4))/2
	.byte	(.LBBdf5ea_2-(.LCPIdf5ea_0+4))/2
	.byte	(.LBBdf5ea_2-(.LCPIdf5ea_0+4))/2
	.byte	(.LBBdf5ea_3-(.LCPIdf5ea_0+4))/2
	.byte	(.LBBdf5ea_2-(.LCPIdf5ea_0+4))/2
	.byte	(.LBBdf5ea_2-(.LCPIdf5ea_0+4))/2
	.byte	(.LBBdf5ea_2-(.LCPIdf5ea_0+4))/2
	.byte	(.LBBdf5ea_2-(.LCPIdf5ea_0+4))/2
	.byte	(.LBBdf5ea_2-(.LCPIdf5ea_0+4))/2
	.byte	(.LBBdf5ea_2-(.LCPIdf5ea_0+4))/2
	.byte	(.LBBdf5ea_2-(.LCPIdf5ea_0+4))/2
	.byte	(.LBBdf5ea_2-(.LCPIdf5ea_0+4))/2
	.byte	(.LBBdf5ea_2-(.LCPIdf5ea_0+4))/2
	.byte	(.LBBdf5ea_2-(.LCPIdf5ea_0+4))/2
	.byte	(.LBBdf5ea_2-(.LCPIdf5ea_0+4))/2
	.byte	(.LBBdf5ea_2-(.LCPIdf5ea_0+4))/2
	.byte	(.LBBdf5ea_2-(.LCPIdf5ea_0+4))/2
	.p2align	1
.LBBdf5ea_2:
	movs	r0, #0
.LBBdf5ea_3:
	bx	lr
.Lfunc_enddf5ea:
	.size	"eap_method::step::has_ended", .Lfunc_enddf5ea-"eap_method::step::has_ended"
	.cantunwind
	.fnend

	.section	".text.eap_packet::expanded::is_bad_expanded","ax",%progbits
	.p2align	2
	.type	"eap_packet::expanded::is_bad_expanded",%function
	.code	16
	.thumb_func
"eap_packet::expanded::is_bad_expanded":
	.fnstart
	.save	{r7, lr}
	push	{r7, lr}
	ldrb	r1, [r0]
	subs	r2, r1, #2
	cmp	r2, #2
	bhs	.LBBbf835_2
.LBBbf835_1:
	movs	r0, #0
	pop	{r7, pc}
.LBBbf835_2:
	cmp	r1, #1
	bne	.LBBbf835_5
	ldrb	r1, [r0, #2]
	cmp	r1, #254
	bne	.LBBbf835_1
	ldr	r1, [r0, #8]
	ldr	r2, [r0, #16]
	ldr	r3, [r0, #20]
	movs	r0, #0
	bl	"eap_packet::expanded::is_bad_body"
	pop	{r7, pc}
.LBBbf835_5:
	ldrb	r1, [r0, #2]
	cmp	r1, #254
	bne	.LBBbf835_1
	ldr	r1, [r0, #8]
	ldr	r2, [r0, #16]
	ldr	r3, [r0, #20]
	movs	r0, #1
	bl	"eap_packet::expanded::is_bad_body"
	pop	{r7, pc}
.Lfunc_endbf835:
	.size	"eap_packet::expanded::is_bad_expanded", .Lfunc_endbf835-"eap_packet::expanded::is_bad_expanded"
	.cantunwind
	.fnend

	.section	".text.eap_packet::expanded::is_bad_body","ax",%progbits
	.p2align	2
	.type	"eap_packet::expanded::is_bad_body",%function
	.code	16
	.thumb_func
"eap_packet::expanded::is_bad_body":
	.fnstart
	.save	{r4, r5, r6, r7, lr}
	push	{r4, r5, r6, r7, lr}
	.pad	#4
	sub	sp, #4
	mov	r4, r1
	subs	r1, r2, #7
	sbcs	r1, r3, #0
	bhs	.LBB77549_2
.LBB77549_1:
	movs	r0, #1
	add	sp, #4
	pop	{r4, r5, r6, r7, pc}
.LBB77549_2:
	mov	r5, r0
	mov	r0, r4
	mov	r7, r2
	mov	r6, r3
	bl	"eap_packet::expanded::is_ietf"
	cmp	r0, #0
	beq	.LBB77549_16
	ldrb	r1, [r4, #6]
	cmp	r5, #0
	sub.w	r0, r1, #3
	clz	r0, r0
	lsr.w	r0, r0, #5
	and.w	r0, r0, r5
	it	eq
	cmpeq	r1, #3
	beq	.LBB77549_5
.LBB77549_4:
	add	sp, #4
	pop	{r4, r5, r6, r7, pc}
.LBB77549_5:
	subs	r1, r7, #7
	sbc	r2, r6, #0
	orrs.w	r0, r1, r2
	mov.w	r0, #1
	beq	.LBB77549_4
	ands	r3, r1, #7
	bne	.LBB77549_4
	adds	r3, r4, #7
.LBB77549_8:
	subs.w	r0, r1, #8
	sbcs	r0, r2, #0
	blo	.LBB77549_16
	ldrb	r0, [r3]
	cmp	r0, #254
	bne	.LBB77549_1
	eor	r0, r1, #8
	orrs	r0, r2
	beq	.LBB77549_16
	ldrb	r0, [r3, #8]
	cmp	r0, #254
	bne	.LBB77549_1
	eor	r0, r1, #16
	orrs	r0, r2
	beq	.LBB77549_16
	ldrb	r0, [r3, #16]
	cmp	r0, #254
	bne	.LBB77549_1
	eor	r0, r1, #24
	orrs	r0, r2
	beq	.LBB77549_16
	ldrb	r7, [r3, #24]
	subs	r1, #32
	add.w	r3, r3, #32
	sbc	r2, r2, #0
	movs	r0, #1
	cmp	r7, #254
	beq	.LBB77549_8
	b	.LBB77549_4
.LBB77549_16:
	movs	r0, #0
	add	sp, #4
	pop	{r4, r5, r6, r7, pc}
.Lfunc_end77549:
	.size	"eap_packet::expanded::is_bad_body", .Lfunc_end77549-"eap_packet::expanded::is_bad_body"
	.cantunwind
	.fnend

	.section	".text.eap_packet::expanded::is_ietf","ax",%progbits
	.p2align	2
	.type	"eap_packet::expanded::is_ietf",%function
	.code	16
	.thumb_func
"eap_packet::expanded::is_ietf":
	.fnstart
	subs	r1, r2, #7
	sbcs	r1, r3, #0
	itt	lo
	movlo	r0, #0
	bxlo	lr
.LBBbd03d_1:
	ldrb.w	r12, [r0]
	ldrb	r2, [r0, #1]
	ldrb	r3, [r0, #2]
	ldrb	r1, [r0, #3]
	orr.w	r2, r2, r12
	orrs	r2, r3
	orrs	r1, r2
	mov.w	r1, #0
	beq	.LBBbd03d_3
	mov	r0, r1
	bx	lr
.LBBbd03d_3:
	.save	{r7, lr}
	push	{r7, lr}
	.pad	#16
	sub	sp, #16
	movs	r2, #6
	strd	r2, r1, [sp, #8]
	movw	r1, :lower16:.Lstatic.6
	movt	r1, :upper16:.Lstatic.6
	movs	r3, #0
	str	r1, [sp]
	bl	"core::cmp::slices::groups_equal::<i8,31'core::cmp::numbers::U8PartialEq{}>"
	mov	r1, r0
	add	sp, #16
	pop.w	{r7, lr}
	mov	r0, r1
	bx	lr
.Lfunc_endbd03d:
	.size	"eap_packet::expanded::is_ietf", .Lfunc_endbd03d-"eap_packet::expanded::is_ietf"
	.cantunwind
	.fnend

	.section	".text.peer_machine::machine::PeerMachine::receive_plain::<#b05093cacc003912>","ax",%progbits
	.p2align	2
	.type	"peer_machine::machine::PeerMachine::receive_plain::<#b05093cacc003912>",%function
	.code	16
	.thumb_func
"peer_machine::machine::PeerMachine::receive_plain::<#b05093cacc003912>":
	.fnstart
	.save	{r4, r5, r6, r7, r8, r9, r10, lr}
	push.w	{r4, r5, r6, r7, r8, r9, r10, lr}
	.pad	#1552
	sub.w	sp, sp, #1552
	mov	r4, r0
	movs	r0, #0
	add	r6, sp, #40
	mov	r5, r1
	ldr.w	r9, [sp, #1596]
	ldr.w	r10, [sp, #1592]
	strd	r0, r0, [sp, #32]
	strd	r0, r0, [sp, #24]
	strd	r0, r0, [sp, #16]
	mov	r0, r6
	mov.w	r1, #1512
	mov	r8, r3
	mov	r7, r2
	bl	__aeabi_memclr8
	mov	r0, r7
	mov	r1, r6
	bl	"eap_packet::expanded::write_plain"
	cbz	r0, .LBBad255_2
	ldr.w	r0, [sp, #1544]
	ldr.w	r1, [sp, #1548]
	stm.w	sp, {r0, r1, r10}
	add	r0, sp, #16
	add	r2, sp, #40
	mov	r1, r5
	b	.LBBad255_3
.LBBad255_2:
	ldr.w	r0, [sp, #1588]
	ldr.w	r1, [sp, #1584]
	mov	r2, r8
	strd	r1, r0, [sp]
	add	r0, sp, #16
	mov	r1, r5
	str.w	r10, [sp, #8]
.LBBad255_3:
	str.w	r9, [sp, #12]
	bl	"peer_machine::machine::PeerMachine::receive_octets::<#b05093cacc003912>"
	add	r7, sp, #16
	ldrh.w	r0, [sp, #32]
	ldrb.w	r1, [sp, #34]
	ldm	r7, {r2, r3, r7}
	ldr	r6, [sp, #28]
	str	r2, [r4]
	str	r3, [r4, #4]
	str	r7, [r4, #8]
	str	r6, [r4, #12]
	strh	r0, [r4, #16]
	strb	r1, [r4, #18]
	add.w	sp, sp, #1552
	pop.w	{r4, r5, r6, r7, r8, r9, r10, pc}
.Lfunc_endad255:
	.size	"peer_machine::machine::PeerMachine::receive_plain::<#b05093cacc003912>", .Lfunc_endad255-"peer_machine::machine::PeerMachine::receive_plain::<#b05093cacc003912>"
	.cantunwind
	.fnend

	.section	".text.eap_packet::expanded::write_plain","ax",%progbits
	.p2align	2
	.type	"eap_packet::expanded::write_plain",%function
	.code	16
	.thumb_func
"eap_packet::expanded::write_plain":
	.fnstart
	.save	{r4, r5, r6, r7, r8, r9, lr}
	push.w	{r4, r5, r6, r7, r8, r9, lr}
	.pad	#12
	sub	sp, #12
	ldrb	r6, [r0]
	mov	r5, r0
	subs	r0, r6, #2
	cmp	r0, #2
	blo	.LBBf0239_3
	ldr.w	r9, [r5, #8]
	ldr	r7, [r5, #20]
	ldr	r4, [r5, #16]
	ldrb	r0, [r5, #2]
	mov	r8, r1
	mov	r1, r9
	mov	r2, r4
	mov	r3, r7
	cmp	r6, #1
	bl	"eap_packet::expanded::is_wrapped"
	cbz	r0, .LBBf0239_3
	subs	r4, #7
	ldrb.w	r3, [r9, #6]
	ldrb	r2, [r5, #1]
	sbc	r7, r7, #0
	mov	r0, r8
	mov	r1, r6
	strd	r4, r7, [sp]
	bl	"eap_packet::packet::init_into"
	ldr	r2, [r5, #16]
	ldr	r0, [r5, #8]
	ldr	r3, [r5, #20]
	subs	r2, #7
	add.w	r1, r0, #7
	sbc	r3, r3, #0
	mov	r0, r8
	bl	"octet_lists::octets::Octets::append::<=1500>"
	movs	r0, #1
	add	sp, #12
	pop.w	{r4, r5, r6, r7, r8, r9, pc}
.LBBf0239_3:
	movs	r0, #0
	add	sp, #12
	pop.w	{r4, r5, r6, r7, r8, r9, pc}
.Lfunc_endf0239:
	.size	"eap_packet::expanded::write_plain", .Lfunc_endf0239-"eap_packet::expanded::write_plain"
	.cantunwind
	.fnend

	.section	".text.eap_packet::expanded::is_wrapped","ax",%progbits
	.p2align	2
	.type	"eap_packet::expanded::is_wrapped",%function
	.code	16
	.thumb_func
"eap_packet::expanded::is_wrapped":
	.fnstart
	uxtb	r0, r0
	cmp	r0, #254
	itt	ne
	movne	r0, #0
	bxne	lr
.LBB19976_1:
	.save	{r4, lr}
	push	{r4, lr}
	mov	r0, r1
	mov	r4, r1
	bl	"eap_packet::expanded::is_ietf"
	cmp	r0, #0
	itt	eq
	moveq	r0, #0
	popeq	{r4, pc}
.LBB19976_2:
	ldrb	r0, [r4, #6]
	cmp	r0, #0
	mov	r1, r0
	it	ne
	movne	r1, #1
	subs	r2, r0, #3
	it	ne
	movne	r2, #1
	subs	r0, #254
	and.w	r1, r1, r2
	it	ne
	movne	r0, #1
	ands	r0, r1
	pop	{r4, pc}
.Lfunc_end19976:
	.size	"eap_packet::expanded::is_wrapped", .Lfunc_end19976-"eap_packet::expanded::is_wrapped"
	.cantunwind
	.fnend

	.section	".text.eap_packet::packet::init_into","ax",%progbits
	.p2align	2
	.type	"eap_packet::packet::init_into",%function
	.code	16
	.thumb_func
"eap_packet::packet::init_into":
	.fnstart
	.save	{r4, r5, r6, lr}
	push	{r4, r5, r6, lr}
	.pad	#24
	sub	sp, #24
	mov	r6, r3
	mov	r4, r0
	ldrd	r0, r3, [sp, #40]
	adds	r5, r0, #5
	adc	r3, r3, #0
	add	r0, sp, #20
	strd	r5, r3, [sp]
	bl	"eap_packet::packet::header"
	ldr	r0, [sp, #20]
	add	r1, sp, #16
	str	r0, [sp, #16]
	mov	r0, r4
	movs	r2, #4
	movs	r3, #0
	bl	"octet_lists::octets::Octets::set::<=1500>"
	add.w	r1, sp, #15
	mov	r0, r4
	movs	r2, #1
	movs	r3, #0
	strb.w	r6, [sp, #15]
	bl	"octet_lists::octets::Octets::append::<=1500>"
	add	sp, #24
	pop	{r4, r5, r6, pc}
.Lfunc_end1737d:
	.size	"eap_packet::packet::init_into", .Lfunc_end1737d-"eap_packet::packet::init_into"
	.cantunwind
	.fnend

	.section	".text.eap_packet::packet::header","ax",%progbits
	.p2align	2
	.type	"eap_packet::packet::header",%function
	.code	16
	.thumb_func
"eap_packet::packet::header":
	.fnstart
	.save	{r7, lr}
	push	{r7, lr}
	.pad	#8
	sub	sp, #8
	mov.w	lr, #0
	adds	r1, #1
	str.w	lr, [sp]
	strb.w	r1, [sp]
	mov	r1, sp
	adds	r1, #2
	add.w	r3, sp, #6
	ldr.w	r12, [sp, #16]
	subs	r1, r1, r3
	sbc	r3, lr, #0
	rsbs.w	r1, r1, #1
	strb.w	r2, [sp, #1]
	rev.w	r2, r12
	sbcs.w	r1, lr, r3
	lsr.w	r1, r2, #16
	strh.w	r1, [sp, #2]
	ldr	r1, [sp]
	str	r1, [r0]
	add	sp, #8
	pop	{r7, pc}
.Lfunc_end4b70e:
	.size	"eap_packet::packet::header", .Lfunc_end4b70e-"eap_packet::packet::header"
	.cantunwind
	.fnend

	.section	".text.octet_lists::octets::Octets::set::<=1500>","ax",%progbits
	.p2align	2
	.type	"octet_lists::octets::Octets::set::<=1500>",%function
	.code	16
	.thumb_func
"octet_lists::octets::Octets::set::<=1500>":
	.fnstart
	.save	{r4, r5, r6, r7, r8, lr}
	push.w	{r4, r5, r6, r7, r8, lr}
	ldr.w	r12, [r0, #1504]
	ldr.w	r7, [r0, #1508]
	orrs.w	r7, r7, r12
	beq	.LBBe64ee_2
	mov	r5, r1
	mov	r1, r12
	add.w	r8, r0, #1504
	mov	r4, r0
	mov	r6, r3
	mov	r7, r2
	bl	__aeabi_memclr
	mov	r1, r5
	mov	r2, r7
	mov	r0, r4
	mov	r3, r6
	movs	r7, #0
	strd	r7, r7, [r8]
.LBBe64ee_2:
	pop.w	{r4, r5, r6, r7, r8, lr}
	b	"octet_lists::octets::Octets::append::<=1500>"
.Lfunc_ende64ee:
	.size	"octet_lists::octets::Octets::set::<=1500>", .Lfunc_ende64ee-"octet_lists::octets::Octets::set::<=1500>"
	.cantunwind
	.fnend

	.section	".text.octet_lists::octets::Octets::append::<=1500>","ax",%progbits
	.p2align	2
	.type	"octet_lists::octets::Octets::append::<=1500>",%function
	.code	16
	.thumb_func
"octet_lists::octets::Octets::append::<=1500>":
	.fnstart
	.save	{r4, r5, r6, r7, r8, r9, r10, r11, lr}
	push.w	{r4, r5, r6, r7, r8, r9, r10, r11, lr}
	.pad	#4
	sub	sp, #4
	ldr.w	r10, [r0, #1504]
	ldr.w	r9, [r0, #1508]
	movw	r7, #1500
	subs.w	r6, r7, r10
	mov.w	r7, #0
	sbc.w	r4, r7, r9
	subs	r6, r6, r2
	sbcs.w	r6, r4, r3
	blo	.LBB93b33_12
	mov	r6, r0
	add	r0, r10
	subs	r4, r0, r1
	sbc	r7, r7, #0
	subs	r4, r4, r2
	sbcs	r7, r3
	add.w	r8, r6, #1504
	bhs	.LBB93b33_4
	subs	r7, r2, #4
	sbcs	r7, r3, #0
	and	r5, r2, #3
	bhs	.LBB93b33_5
	movs	r4, #0
	b	.LBB93b33_8
.LBB93b33_4:
	mov	r4, r2
	mov	r6, r3
	bl	__aeabi_memmove
	mov	r2, r4
	mov	r3, r6
	b	.LBB93b33_11
.LBB93b33_5:
	bic	lr, r2, #3
	movs	r4, #0
	movs	r6, #0
	str	r5, [sp]
	.p2align	2
.LBB93b33_6:
	ldrb	r5, [r1, r4]
	strb	r5, [r0, r4]
	orr	r5, r4, #1
	ldrb	r7, [r1, r5]
	strb	r7, [r0, r5]
	orr	r5, r4, #2
	ldrb	r7, [r1, r5]
	strb	r7, [r0, r5]
	orr	r5, r4, #3
	adds	r4, #4
	adc	r6, r6, #0
	ldrb.w	r11, [r1, r5]
	eor.w	r7, r4, lr
	eor.w	r12, r6, r3
	orrs.w	r7, r7, r12
	strb.w	r11, [r0, r5]
	bne	.LBB93b33_6
	ldr	r5, [sp]
	cbz	r5, .LBB93b33_11
.LBB93b33_8:
	ldrb	r7, [r1, r4]
	cmp	r5, #1
	strb	r7, [r0, r4]
	beq	.LBB93b33_11
	adds	r7, r4, #1
	ldrb	r6, [r1, r7]
	cmp	r5, #2
	strb	r6, [r0, r7]
	beq	.LBB93b33_11
	adds	r7, r4, #2
	ldrb	r1, [r1, r7]
	strb	r1, [r0, r7]
.LBB93b33_11:
	adds.w	r0, r10, r2
	adc.w	r1, r9, r3
	strd	r0, r1, [r8]
.LBB93b33_12:
	add	sp, #4
	pop.w	{r4, r5, r6, r7, r8, r9, r10, r11, pc}
.Lfunc_end93b33:
	.size	"octet_lists::octets::Octets::append::<=1500>", .Lfunc_end93b33-"octet_lists::octets::Octets::append::<=1500>"
	.cantunwind
	.fnend

	.section	".text.peer_machine::machine::express","ax",%progbits
	.p2align	2
	.type	"peer_machine::machine::express",%function
	.code	16
	.thumb_func
"peer_machine::machine::express":
	.fnstart
	.save	{r4, r5, r6, r7, r8, r9, r10, r11, lr}
	push.w	{r4, r5, r6, r7, r8, r9, r10, r11, lr}
	.pad	#108
	sub	sp, #108
	mov	r11, r1
	ldrb	r1, [r1, #4]
	mov	r10, r0
	cmp	r1, #3
	bne	.LBBab94b_5
	add.w	r9, sp, #64
	ldrb.w	r8, [r11, #1]
	mov	r0, r9
	mov	r1, r10
	bl	"login_policy::policy::nak_list"
	ldrd	r6, r5, [sp, #72]
	movs	r0, #0
	orrs.w	r1, r6, r5
	strd	r0, r0, [sp, #96]
	strd	r0, r0, [sp, #88]
	str	r0, [sp, #84]
	str	r0, [sp, #80]
	beq	.LBBab94b_4
	movs	r4, #0
	movs	r7, #0
	.p2align	2
.LBBab94b_3:
	ldrb.w	r0, [r9, r4]
	movs	r1, #254
	lsls	r0, r0, #24
	strd	r1, r0, [sp, #56]
	add	r0, sp, #80
	add	r1, sp, #56
	movs	r2, #8
	movs	r3, #0
	bl	"octet_lists::octets::Octets::put::<=16>"
	adds	r4, #1
	adc	r7, r7, #0
	subs	r0, r4, r6
	sbcs.w	r0, r7, r5
	blo	.LBBab94b_3
.LBBab94b_4:
	add.w	r12, sp, #80
	add	r1, sp, #32
	ldm.w	r12, {r0, r3, r4, r5, r6, r7}
	mov	r2, r1
	stm	r2!, {r0, r3, r4, r5, r6, r7}
	add.w	r9, sp, #8
	ldm.w	r1, {r2, r3, r4, r5, r6, r7}
	mov	r0, r9
	stm	r0!, {r2, r3, r4, r5, r6, r7}
	ldrd	r6, r7, [sp, #24]
	mov	r0, r11
	adds	r5, r6, #7
	adc	r4, r7, #0
	movs	r1, #1
	mov	r2, r8
	movs	r3, #254
	strd	r5, r4, [sp]
	bl	"eap_packet::packet::init_into"
	movw	r1, :lower16:.Lstatic.6
	movt	r1, :upper16:.Lstatic.6
	mov	r0, r11
	movs	r2, #6
	movs	r3, #0
	bl	"octet_lists::octets::Octets::append::<=1500>"
	movw	r1, :lower16:.Lstatic.8
	movt	r1, :upper16:.Lstatic.8
	mov	r0, r11
	movs	r2, #1
	movs	r3, #0
	bl	"octet_lists::octets::Octets::append::<=1500>"
	mov	r0, r11
	mov	r1, r9
	mov	r2, r6
	mov	r3, r7
	bl	"octet_lists::octets::Octets::append::<=1500>"
	b	.LBBab94b_6
.LBBab94b_5:
	mov	r0, r11
	bl	"eap_packet::expanded::wrap_in_place"
.LBBab94b_6:
	ldr.w	r2, [r11, #1504]
	ldr.w	r3, [r11, #1508]
	add.w	r0, r10, #776
	mov	r1, r11
	bl	"octet_lists::octets::Octets::set::<=1500>"
	add	sp, #108
	pop.w	{r4, r5, r6, r7, r8, r9, r10, r11, pc}
.Lfunc_endab94b:
	.size	"peer_machine::machine::express", .Lfunc_endab94b-"peer_machine::machine::express"
	.cantunwind
	.fnend

	.section	".text.login_policy::policy::nak_list","ax",%progbits
	.p2align	2
	.type	"login_policy::policy::nak_list",%function
	.code	16
	.thumb_func
"login_policy::policy::nak_list":
	.fnstart
	.save	{r4, lr}
	push	{r4, lr}
	.pad	#32
	sub	sp, #32
	ldrd	r2, r3, [r1, #544]
	orrs.w	r4, r2, r3
	mov	r4, r0
	beq	.LBBba36c_2
	movs	r0, #0
	add.w	r1, r1, #536
	strd	r0, r0, [sp, #24]
	strd	r0, r0, [sp, #16]
	add	r0, sp, #16
	b	.LBBba36c_3
.LBBba36c_2:
	movs	r0, #0
	movw	r1, :lower16:.Lstatic.5
	strd	r0, r0, [sp, #24]
	strd	r0, r0, [sp, #16]
	movt	r1, :upper16:.Lstatic.5
	add	r0, sp, #16
	movs	r2, #1
	movs	r3, #0
.LBBba36c_3:
	bl	"octet_lists::octets::Octets::append::<=2>"
	add	r3, sp, #16
	ldr	r2, [sp, #28]
	ldm	r3, {r0, r1, r3}
	str	r2, [sp, #12]
	stm.w	sp, {r0, r1, r3}
	ldr	r2, [sp, #12]
	ldm.w	sp, {r0, r1, r3}
	str	r2, [r4, #12]
	str	r3, [r4, #8]
	str	r1, [r4, #4]
	str	r0, [r4]
	add	sp, #32
	pop	{r4, pc}
.Lfunc_endba36c:
	.size	"login_policy::policy::nak_list", .Lfunc_endba36c-"login_policy::policy::nak_list"
	.cantunwind
	.fnend

	.section	".text.octet_lists::octets::Octets::put::<=16>","ax",%progbits
	.p2align	2
	.type	"octet_lists::octets::Octets::put::<=16>",%function
	.code	16
	.thumb_func
"octet_lists::octets::Octets::put::<=16>":
	.fnstart
	.save	{r4, r5, r6, r7, r8, r9, r10, r11, lr}
	push.w	{r4, r5, r6, r7, r8, r9, r10, r11, lr}
	.pad	#4
	sub	sp, #4
	ldrd	r9, r8, [r0, #16]
	movs	r7, #0
	rsbs.w	r5, r9, #16
	sbc.w	r4, r7, r8
	subs	r5, r5, r2
	sbcs.w	r5, r4, r3
	blo	.LBB49d7e_12
	add.w	r12, r0, r9
	subs.w	r5, r12, r1
	sbc	r7, r7, #0
	subs	r5, r5, r2
	sbcs	r7, r3
	bhs	.LBB49d7e_4
	subs	r7, r2, #4
	sbcs	r7, r3, #0
	and	r5, r2, #3
	bhs	.LBB49d7e_5
	movs	r4, #0
	b	.LBB49d7e_8
.LBB49d7e_4:
	mov	r5, r0
	mov	r0, r12
	mov	r4, r2
	mov	r7, r3
	bl	__aeabi_memmove
	mov	r2, r4
	mov	r0, r5
	mov	r3, r7
	b	.LBB49d7e_11
.LBB49d7e_5:
	str	r5, [sp]
	bic	r10, r2, #3
	movs	r4, #0
	movs	r5, #0
	.p2align	2
.LBB49d7e_6:
	ldrb	r6, [r1, r4]
	strb.w	r6, [r12, r4]
	orr	r6, r4, #1
	ldrb	r7, [r1, r6]
	strb.w	r7, [r12, r6]
	orr	r6, r4, #2
	ldrb	r7, [r1, r6]
	strb.w	r7, [r12, r6]
	orr	r6, r4, #3
	adds	r4, #4
	adc	r5, r5, #0
	ldrb.w	r11, [r1, r6]
	eor.w	r7, r4, r10
	eor.w	lr, r5, r3
	orrs.w	r7, r7, lr
	strb.w	r11, [r12, r6]
	bne	.LBB49d7e_6
	ldr	r5, [sp]
	cbz	r5, .LBB49d7e_11
.LBB49d7e_8:
	ldrb	r7, [r1, r4]
	cmp	r5, #1
	strb.w	r7, [r12, r4]
	beq	.LBB49d7e_11
	adds	r7, r4, #1
	ldrb	r6, [r1, r7]
	cmp	r5, #2
	strb.w	r6, [r12, r7]
	beq	.LBB49d7e_11
	adds	r7, r4, #2
	ldrb	r1, [r1, r7]
	strb.w	r1, [r12, r7]
.LBB49d7e_11:
	adds.w	r1, r9, r2
	adc.w	r2, r8, r3
	strd	r1, r2, [r0, #16]
.LBB49d7e_12:
	add	sp, #4
	pop.w	{r4, r5, r6, r7, r8, r9, r10, r11, pc}
.Lfunc_end49d7e:
	.size	"octet_lists::octets::Octets::put::<=16>", .Lfunc_end49d7e-"octet_lists::octets::Octets::put::<=16>"
	.cantunwind
	.fnend

	.section	".text.eap_packet::expanded::wrap_in_place","ax",%progbits
	.p2align	2
	.type	"eap_packet::expanded::wrap_in_place",%function
	.code	16
	.thumb_func
"eap_packet::expanded::wrap_in_place":
	.fnstart
	.save	{r4, r5, r6, r7, r8, lr}
	push.w	{r4, r5, r6, r7, r8, lr}
	.pad	#3056
	sub.w	sp, sp, #3056
	add.w	r8, sp, #1536
	mov	r4, r0
	movs	r7, #0
	ldr.w	r5, [r0, #1504]
	ldr.w	r6, [r0, #1508]
	mov	r0, r8
	mov.w	r1, #1512
	str.w	r7, [sp, #19]
	str	r7, [sp, #16]
	str	r7, [sp, #12]
	bl	__aeabi_memclr8
	mov	r0, r8
	mov	r1, r4
	mov	r2, r5
	mov	r3, r6
	bl	"octet_lists::octets::Octets::append::<=1500>"
	add	r5, sp, #24
	mov	r0, r5
	mov	r1, r8
	mov.w	r2, #1512
	bl	__aeabi_memcpy8
	ldrh.w	r0, [sp, #26]
	ldrh.w	r1, [sp, #24]
	rev	r0, r0
	movs	r2, #7
	strh.w	r1, [sp, #1536]
	movs	r1, #254
	lsrs	r6, r0, #16
	add.w	r0, r2, r0, lsr #16
	add.w	r2, r8, #2
	strb.w	r1, [sp, #1540]
	addw	r1, sp, #3054
	rev	r0, r0
	subs	r1, r2, r1
	sbc	r2, r7, #0
	rsbs.w	r1, r1, #1
	lsr.w	r0, r0, #16
	str.w	r7, [sp, #1541]
	strh.w	r7, [sp, #1545]
	sbcs.w	r1, r7, r2
	strh.w	r0, [sp, #1538]
	ldr.w	r0, [sp, #1536]
	ldr.w	r1, [sp, #1543]
	ldr.w	r2, [sp, #1540]
	str.w	r1, [sp, #19]
	strd	r0, r2, [sp, #12]
	str	r0, [sp]
	ldr	r0, [sp, #16]
	ldr.w	r1, [sp, #19]
	str	r0, [sp, #4]
	str.w	r1, [sp, #7]
	mov	r1, sp
	mov	r0, r4
	mov.w	r2, #11
	mov.w	r3, #0
	mov.w	r7, #0
	bl	"octet_lists::octets::Octets::set::<=1500>"
	subs	r2, r6, #4
	add.w	r1, r5, #4
	sbc	r3, r7, #0
	mov	r0, r4
	bl	"octet_lists::octets::Octets::append::<=1500>"
	add.w	sp, sp, #3056
	pop.w	{r4, r5, r6, r7, r8, pc}
.Lfunc_endb851d:
	.size	"eap_packet::expanded::wrap_in_place", .Lfunc_endb851d-"eap_packet::expanded::wrap_in_place"
	.cantunwind
	.fnend

	.section	".text.peer_machine::machine::PeerMachine::receive_octets::<#b05093cacc003912>","ax",%progbits
	.p2align	2
	.type	"peer_machine::machine::PeerMachine::receive_octets::<#b05093cacc003912>",%function
	.code	16
	.thumb_func
"peer_machine::machine::PeerMachine::receive_octets::<#b05093cacc003912>":
	.fnstart
	.save	{r4, r5, r6, r7, r8, r9, r10, r11, lr}
	push.w	{r4, r5, r6, r7, r8, r9, r10, r11, lr}
	.pad	#276
	sub	sp, #276
	mov	r5, r1
	mov	r4, r0
	add	r0, sp, #40
	movs	r1, #48
	mov	r6, r2
	bl	__aeabi_memclr8
	ldrb.w	r0, [r5, #768]
	bl	"eap_method::step::has_ended"
	cbz	r0, .LBBbba59_2
	movs	r0, #0
	movw	r1, #4609
	str	r0, [r4, #12]
	str	r0, [r4, #8]
	str	r0, [r4, #4]
	str	r0, [r4]
	strh	r1, [r4, #16]
	strb	r0, [r4, #18]
	add	sp, #276
	pop.w	{r4, r5, r6, r7, r8, r9, r10, r11, pc}
.LBBbba59_2:
	ldrd	r2, r3, [sp, #312]
	add	r0, sp, #40
	mov	r1, r6
	bl	"eap_packet::packet::decode"
	ldrb.w	r0, [sp, #40]
	cmp	r0, #1
	bne	.LBBbba59_5
	movw	r12, #2306
	ldrb.w	lr, [sp, #41]
	movs	r1, #0
	movs	r7, #3
	movt	r12, #1
	movs	r0, #1
	movs	r6, #0
	movs	r3, #0
.LBBbba59_4:
	str.w	r12, [r4]
	str	r1, [r4, #4]
	str	r7, [r4, #8]
	str	r6, [r4, #12]
	strb	r0, [r4, #16]
	strb.w	lr, [r4, #17]
	strb	r3, [r4, #18]
	add	sp, #276
	pop.w	{r4, r5, r6, r7, r8, r9, r10, r11, pc}
.LBBbba59_5:
	ldr	r1, [sp, #72]
	ldrb.w	r0, [sp, #48]
	str	r1, [sp, #32]
	ldr	r1, [sp, #84]
	ldrb.w	r9, [sp, #49]
	str	r1, [sp, #36]
	ldr	r1, [sp, #80]
	ldrb.w	r8, [sp, #50]
	str	r1, [sp, #28]
	ldrb.w	r1, [r5, #773]
	mov.w	r10, #0
	cmp	r1, #1
	strd	r10, r10, [sp, #152]
	strd	r10, r10, [sp, #128]
	str.w	r10, [sp, #108]
	str.w	r10, [sp, #104]
	bne	.LBBbba59_7
	ldrb.w	r1, [r5, #774]
	sub.w	r1, r1, r9
	clz	r1, r1
	lsr.w	r10, r1, #5
.LBBbba59_7:
	ldr	r2, [sp, #320]
	movw	r12, #2306
	movs	r6, #0
	movt	r12, #1
	movs	r7, #3
	mov.w	lr, #7
	movs	r1, #0
	movs	r3, #0
.LCPIbba59_0:
	tbb	[pc, r0]
.LJTIbba59_0:
	.byte	(.LBBbba59_10-(.LCPIbba59_0+4))/2
	.byte	(.LBBbba59_9-(.LCPIbba59_0+4))/2
	.byte	(.LBBbba59_12-(.LCPIbba59_0+4))/2
	.byte	(.LBBbba59_14-(.LCPIbba59_0+4))/2
	.p2align	1
.LBBbba59_9:
	b	.LBBbba59_4
.LBBbba59_10:
	cmp.w	r10, #0
	beq	.LBBbba59_17
	add	r0, sp, #136
	mov	r1, r5
	bl	"peer_machine::machine::retransmit"
	ldrd	r12, r1, [sp, #136]
	ldrd	r7, r6, [sp, #144]
	ldrb.w	r0, [sp, #152]
	ldrb.w	lr, [sp, #153]
	ldrb.w	r3, [sp, #154]
	b	.LBBbba59_4
.LBBbba59_12:
	cmp.w	r10, #0
	beq	.LBBbba59_16
	add	r0, sp, #112
	mov	r1, r5
	bl	"peer_machine::machine::PeerMachine::success::<#807681be332d694b>"
	ldrd	r12, r1, [sp, #112]
	ldrd	r7, r6, [sp, #120]
	ldrb.w	r0, [sp, #128]
	ldrb.w	lr, [sp, #129]
	ldrb.w	r3, [sp, #130]
	b	.LBBbba59_4
.LBBbba59_14:
	cmp.w	r10, #0
	beq	.LBBbba59_16
	add	r0, sp, #88
	mov	r1, r5
	bl	"peer_machine::machine::PeerMachine::failure::<#807681be332d694b>"
	ldrd	r12, r1, [sp, #88]
	ldrd	r7, r6, [sp, #96]
	ldrb.w	r0, [sp, #104]
	ldrb.w	lr, [sp, #105]
	ldrb.w	r3, [sp, #106]
	b	.LBBbba59_4
.LBBbba59_16:
	mov.w	lr, #12
	movs	r0, #1
	b	.LBBbba59_4
.LBBbba59_17:
	ldrb.w	r1, [r5, #769]
	movs	r0, #0
	str	r0, [sp, #180]
	str	r0, [sp, #176]
	cbz	r1, .LBBbba59_20
	cmp.w	r8, #2
	bne	.LBBbba59_23
	mov.w	lr, #9
	b	.LBBbba59_27
.LBBbba59_20:
	cmp.w	r8, #2
	strd	r0, r0, [sp, #248]
	strd	r0, r0, [sp, #256]
	strd	r0, r0, [sp, #264]
	strd	r0, r0, [sp, #224]
	strd	r0, r0, [sp, #232]
	strd	r0, r0, [sp, #240]
	strd	r0, r0, [sp, #200]
	strd	r0, r0, [sp, #208]
	str	r0, [sp, #216]
	str	r0, [sp, #220]
	beq	.LBBbba59_28
	cmp.w	r8, #1
	bne	.LBBbba59_29
	ldrd	r0, r1, [r5, #256]
	mov	r6, r2
	strd	r0, r1, [sp, #8]
	mov	r0, r2
	movs	r1, #1
	mov	r2, r9
	movs	r3, #1
	str	r5, [sp]
	bl	"eap_packet::packet::encode_into"
	add	r0, sp, #248
	mov	r1, r5
	movs	r2, #5
	mov	r3, r9
	str	r6, [sp]
	bl	"peer_machine::machine::respond"
	ldrb.w	r0, [sp, #264]
	ldrb.w	lr, [sp, #265]
	ldrb.w	r3, [sp, #266]
	b	.LBBbba59_35
.LBBbba59_23:
	ldrb.w	r0, [r5, #770]
	cmp	r8, r0
	bne	.LBBbba59_26
	ldrb.w	r0, [r5, #771]
	cmp	r0, #4
	bne	.LBBbba59_31
	mov.w	lr, #10
	b	.LBBbba59_27
.LBBbba59_26:
	mov.w	lr, #11
.LBBbba59_27:
	movs	r0, #1
	movs	r1, #0
	b	.LBBbba59_4
.LBBbba59_28:
	movw	r7, :lower16:.Lstatic.0
	strd	r0, r0, [sp, #8]
	movt	r7, :upper16:.Lstatic.0
	mov	r0, r2
	movs	r1, #1
	mov	r6, r2
	mov	r2, r9
	movs	r3, #2
	str	r7, [sp]
	bl	"eap_packet::packet::encode_into"
	add	r0, sp, #224
	mov	r1, r5
	movs	r2, #6
	mov	r3, r9
	str	r6, [sp]
	bl	"peer_machine::machine::respond"
	ldrb.w	r0, [sp, #240]
	ldrb.w	lr, [sp, #241]
	ldrb.w	r3, [sp, #242]
	b	.LBBbba59_34
.LBBbba59_29:
	mov	r7, r2
	ldrd	r2, r3, [r5, #544]
	add.w	r0, r5, #536
	str.w	r8, [sp]
	bl	"octet_lists::kind::is_among"
	cbz	r0, .LBBbba59_32
	ldr	r0, [sp, #32]
	mov	r1, r5
	str	r0, [sp, #4]
	ldr	r0, [sp, #28]
	movs	r2, #1
	str	r0, [sp, #8]
	ldr	r0, [sp, #36]
	mov	r3, r8
	strd	r0, r7, [sp, #12]
	ldr	r7, [sp, #324]
	add	r0, sp, #200
	str.w	r9, [sp]
	str	r7, [sp, #20]
	bl	"peer_machine::machine::PeerMachine::method::<#b05093cacc003912>"
	b	.LBBbba59_33
.LBBbba59_31:
	ldr	r0, [sp, #32]
	ldr	r7, [sp, #324]
	str	r0, [sp, #4]
	ldr	r0, [sp, #28]
	mov	r1, r5
	str	r0, [sp, #8]
	ldr	r0, [sp, #36]
	mov	r3, r8
	strd	r0, r2, [sp, #12]
	add	r0, sp, #160
	movs	r2, #0
	str.w	r9, [sp]
	str	r7, [sp, #20]
	bl	"peer_machine::machine::PeerMachine::method::<#b05093cacc003912>"
	ldrd	r12, r1, [sp, #160]
	ldrd	r7, r6, [sp, #168]
	ldrb.w	r0, [sp, #176]
	ldrb.w	lr, [sp, #177]
	ldrb.w	r3, [sp, #178]
	b	.LBBbba59_4
.LBBbba59_32:
	add.w	r8, sp, #184
	mov	r0, r8
	mov	r1, r5
	bl	"login_policy::policy::nak_list"
	ldrd	r0, r1, [sp, #192]
	mov	r2, r9
	strd	r0, r1, [sp, #8]
	mov	r0, r7
	movs	r1, #1
	movs	r3, #3
	str.w	r8, [sp]
	bl	"eap_packet::packet::encode_into"
	add	r0, sp, #200
	mov	r1, r5
	movs	r2, #3
	mov	r3, r9
	str	r7, [sp]
	bl	"peer_machine::machine::respond"
.LBBbba59_33:
	ldrd	r1, r0, [sp, #200]
	ldrd	r3, r2, [sp, #208]
	ldrb.w	lr, [sp, #217]
	strd	r0, r3, [sp, #228]
	ldrb.w	r0, [sp, #216]
	ldrb.w	r3, [sp, #218]
	str	r2, [sp, #236]
	str	r1, [sp, #224]
.LBBbba59_34:
	add	r7, sp, #224
	ldm	r7, {r1, r2, r6, r7}
	add.w	r12, sp, #248
	stm.w	r12, {r1, r2, r6, r7}
.LBBbba59_35:
	ldrd	r12, r1, [sp, #248]
	ldrd	r7, r6, [sp, #256]
	b	.LBBbba59_4
.Lfunc_endbba59:
	.size	"peer_machine::machine::PeerMachine::receive_octets::<#b05093cacc003912>", .Lfunc_endbba59-"peer_machine::machine::PeerMachine::receive_octets::<#b05093cacc003912>"
	.cantunwind
	.fnend

	.section	".text.peer_machine::machine::retransmit","ax",%progbits
	.p2align	2
	.type	"peer_machine::machine::retransmit",%function
	.code	16
	.thumb_func
"peer_machine::machine::retransmit":
	.fnstart
	.save	{r4, lr}
	push	{r4, lr}
	.pad	#32
	sub	sp, #32
	mov	r4, r0
	movs	r0, #0
	strd	r0, r0, [sp, #24]
	strd	r0, r0, [sp, #16]
	strd	r0, r0, [sp, #8]
	movw	r0, #1794
	mov	r12, r2
	movt	r0, #264
	ldr.w	r2, [r1, #2280]
	ldr.w	r3, [r1, #2284]
	str	r0, [sp, #4]
	add.w	r1, r1, #776
	mov	r0, r12
	bl	"octet_lists::octets::Octets::set::<=1500>"
	add	r0, sp, #8
	add	r1, sp, #4
	movs	r2, #4
	movs	r3, #0
	bl	"eap_method::step::Step::sending"
	ldr	r2, [sp, #20]
	add	r3, sp, #8
	ldm	r3, {r0, r1, r3}
	str	r2, [r4, #12]
	ldrb.w	r2, [sp, #24]
	str	r1, [r4, #4]
	ldrh.w	r1, [sp, #25]
	str	r3, [r4, #8]
	strb	r2, [r4, #16]
	str	r0, [r4]
	strh.w	r1, [r4, #17]
	add	sp, #32
	pop	{r4, pc}
.Lfunc_endd12a1:
	.size	"peer_machine::machine::retransmit", .Lfunc_endd12a1-"peer_machine::machine::retransmit"
	.cantunwind
	.fnend

	.section	".text.eap_method::step::Step::sending","ax",%progbits
	.p2align	2
	.type	"eap_method::step::Step::sending",%function
	.code	16
	.thumb_func
"eap_method::step::Step::sending":
	.fnstart
	.save	{r4, r5, r6, lr}
	push	{r4, r5, r6, lr}
	.pad	#32
	sub	sp, #32
	ldrb	r4, [r1]
	mov.w	r12, #0
	str.w	r12, [sp, #16]
	strb.w	r4, [sp, #16]
	subs	r4, r2, #2
	mov.w	lr, #1
	sbcs	r4, r3, #0
	str.w	r12, [sp, #28]
	str.w	r12, [sp, #20]
	str.w	lr, [sp, #24]
	blo	.LBB25775_7
	ldrb	r4, [r1, #1]
	eor	r5, r2, #2
	strb.w	r4, [sp, #17]
	movs	r4, #2
	orrs	r5, r3
	str.w	r12, [sp, #28]
	str	r4, [sp, #24]
	beq	.LBB25775_7
	ldrb	r4, [r1, #2]
	subs	r6, r2, #4
	strb.w	r4, [sp, #18]
	mov.w	r4, #0
	mov.w	r5, #3
	sbcs	r6, r3, #0
	str	r4, [sp, #28]
	str	r5, [sp, #24]
	blo	.LBB25775_7
	ldrb	r5, [r1, #3]
	str	r4, [sp, #28]
	strb.w	r5, [sp, #19]
	eor	r5, r2, #4
	movs	r4, #4
	orrs	r5, r3
	str	r4, [sp, #24]
	beq	.LBB25775_7
	ldrb	r4, [r1, #4]
	subs	r6, r2, #6
	strb.w	r4, [sp, #20]
	mov.w	r4, #0
	mov.w	r5, #5
	sbcs	r6, r3, #0
	str	r4, [sp, #28]
	str	r5, [sp, #24]
	blo	.LBB25775_7
	ldrb	r5, [r1, #5]
	eor	r2, r2, #6
	str	r4, [sp, #28]
	movs	r4, #6
	orrs	r2, r3
	strb.w	r5, [sp, #21]
	str	r4, [sp, #24]
	beq	.LBB25775_7
	ldrb	r1, [r1, #6]
	strb.w	r1, [sp, #22]
	movs	r1, #0
	str	r1, [sp, #28]
	movs	r1, #7
	str	r1, [sp, #24]
.LBB25775_7:
	add	r4, sp, #16
	ldr	r3, [sp, #28]
	ldm	r4, {r1, r2, r4}
	str	r3, [sp, #12]
	stm.w	sp, {r1, r2, r4}
	str	r3, [r0, #12]
	str	r4, [r0, #8]
	str	r2, [r0, #4]
	str	r1, [r0]
	strh.w	r12, [r0, #16]
	strb.w	lr, [r0, #18]
	add	sp, #32
	pop	{r4, r5, r6, pc}
.Lfunc_end25775:
	.size	"eap_method::step::Step::sending", .Lfunc_end25775-"eap_method::step::Step::sending"
	.cantunwind
	.fnend

	.section	".text.eap_packet::packet::encode_into","ax",%progbits
	.p2align	2
	.type	"eap_packet::packet::encode_into",%function
	.code	16
	.thumb_func
"eap_packet::packet::encode_into":
	.fnstart
	.save	{r4, r5, r6, r7, lr}
	push	{r4, r5, r6, r7, lr}
	.pad	#12
	sub	sp, #12
	ldrd	r5, r6, [sp, #40]
	ldr	r4, [sp, #32]
	mov	r7, r0
	strd	r5, r6, [sp]
	bl	"eap_packet::packet::init_into"
	mov	r0, r7
	mov	r1, r4
	mov	r2, r5
	mov	r3, r6
	add	sp, #12
	pop.w	{r4, r5, r6, r7, lr}
	b	"octet_lists::octets::Octets::append::<=1500>"
.Lfunc_endbe04e:
	.size	"eap_packet::packet::encode_into", .Lfunc_endbe04e-"eap_packet::packet::encode_into"
	.cantunwind
	.fnend

	.section	".text.peer_machine::machine::respond","ax",%progbits
	.p2align	2
	.type	"peer_machine::machine::respond",%function
	.code	16
	.thumb_func
"peer_machine::machine::respond":
	.fnstart
	.save	{r4, r5, r6, lr}
	push	{r4, r5, r6, lr}
	.pad	#32
	sub	sp, #32
	mov	r4, r0
	movs	r0, #0
	strd	r0, r0, [sp, #24]
	strd	r0, r0, [sp, #16]
	strd	r0, r0, [sp, #8]
	movs	r0, #2
	movt	r0, #264
	ldr	r5, [sp, #48]
	str	r0, [sp, #4]
	movs	r0, #1
	strb.w	r0, [r1, #773]
	strb.w	r3, [r1, #774]
	mov	r6, r2
	ldr.w	r2, [r5, #1504]
	ldr.w	r3, [r5, #1508]
	add.w	r0, r1, #776
	mov	r1, r5
	bl	"octet_lists::octets::Octets::set::<=1500>"
	add	r0, sp, #8
	add	r1, sp, #4
	movs	r2, #4
	movs	r3, #0
	strb.w	r6, [sp, #5]
	bl	"eap_method::step::Step::sending"
	ldr	r2, [sp, #20]
	add	r3, sp, #8
	ldm	r3, {r0, r1, r3}
	str	r2, [r4, #12]
	ldrb.w	r2, [sp, #24]
	str	r1, [r4, #4]
	ldrh.w	r1, [sp, #25]
	str	r3, [r4, #8]
	strb	r2, [r4, #16]
	str	r0, [r4]
	strh.w	r1, [r4, #17]
	add	sp, #32
	pop	{r4, r5, r6, pc}
.Lfunc_end0d411:
	.size	"peer_machine::machine::respond", .Lfunc_end0d411-"peer_machine::machine::respond"
	.cantunwind
	.fnend

	.section	".text.peer_machine::machine::PeerMachine::method::<#b05093cacc003912>","ax",%progbits
	.p2align	2
	.type	"peer_machine::machine::PeerMachine::method::<#b05093cacc003912>",%function
	.code	16
	.thumb_func
"peer_machine::machine::PeerMachine::method::<#b05093cacc003912>":
	.fnstart
	.save	{r4, r5, r6, r7, r8, r9, r10, r11, lr}
	push.w	{r4, r5, r6, r7, r8, r9, r10, r11, lr}
	.pad	#60
	sub	sp, #60
	mov	r7, r1
	mov	r5, r3
	mov	r6, r2
	mov	r4, r0
	ldrd	r8, r10, [sp, #112]
	movs	r0, #0
	ldr.w	r1, [r1, #2288]
	ldr.w	r2, [r7, #2296]
	ldr.w	r3, [r7, #2300]
	add.w	lr, sp, #96
	str	r0, [sp, #52]
	str	r0, [sp, #48]
	add.w	r0, sp, #57
	ldm.w	lr, {r9, r11, r12, lr}
	stm.w	sp, {r5, r11, r12, lr}
	str.w	r8, [sp, #16]
	str.w	r10, [sp, #20]
	bl	"eap_method::peer_objects::call_peer_method::<#254f2c9f7e768b02>"
	ldrb.w	r0, [sp, #57]
	ldrh.w	r1, [sp, #58]
	strb.w	r0, [sp, #29]
	add.w	r0, sp, #29
	strh.w	r1, [sp, #30]
	strd	r9, r0, [sp]
	add	r0, sp, #32
	mov	r1, r7
	mov	r2, r6
	mov	r3, r5
	str.w	r8, [sp, #8]
	bl	"peer_machine::machine::settle"
	ldr	r2, [sp, #44]
	add	r3, sp, #32
	ldm	r3, {r0, r1, r3}
	str	r2, [r4, #12]
	ldrb.w	r2, [sp, #48]
	str	r1, [r4, #4]
	ldrh.w	r1, [sp, #49]
	str	r3, [r4, #8]
	strb	r2, [r4, #16]
	str	r0, [r4]
	strh.w	r1, [r4, #17]
	add	sp, #60
	pop.w	{r4, r5, r6, r7, r8, r9, r10, r11, pc}
.Lfunc_end9b16b:
	.size	"peer_machine::machine::PeerMachine::method::<#b05093cacc003912>", .Lfunc_end9b16b-"peer_machine::machine::PeerMachine::method::<#b05093cacc003912>"
	.cantunwind
	.fnend

	.section	".text.eap_method::peer_objects::call_peer_method::<#254f2c9f7e768b02>","ax",%progbits
	.p2align	2
	.type	"eap_method::peer_objects::call_peer_method::<#254f2c9f7e768b02>",%function
	.code	16
	.thumb_func
"eap_method::peer_objects::call_peer_method::<#254f2c9f7e768b02>":
	.fnstart
	.save	{r4, r5, r6, r7, r8, r9, lr}
	push.w	{r4, r5, r6, r7, r8, r9, lr}
	.pad	#36
	sub	sp, #36
	ldr.w	r12, [sp, #84]
	mov	r4, r2
	orrs	r2, r3
	mov	r5, r0
	beq	.LBBbbf34_3
	ldrb	r0, [r1]
	ldr	r7, [sp, #64]
	ldrd	r8, lr, [sp, #76]
	ldrd	r2, r9, [sp, #68]
	cmp	r0, #0
	mov.w	r0, #51
	uxtb	r6, r7
	it	eq
	moveq	r0, #47
	cmp	r0, r6
	bne	.LBBbbf34_4
	add.w	r0, sp, #33
	strd	r9, r8, [sp]
	str.w	lr, [sp, #8]
	str.w	r12, [sp, #12]
	bl	"end_objects::objects::PeerObjectPeerMethod::handle_unrecorded"
	ldrb.w	r0, [sp, #33]
	ldrb.w	r1, [sp, #34]
	ldrb.w	r2, [sp, #35]
	b	.LBBbbf34_5
.LBBbbf34_3:
	movs	r0, #0
	strd	r0, r0, [r12]
	strd	r0, r0, [r12, #8]
	movs	r1, #22
	movs	r2, #0
	b	.LBBbbf34_5
.LBBbbf34_4:
	subs	r4, #1
	sbc	r3, r3, #0
	add.w	r1, r1, #1248
	strd	r7, r2, [sp]
	add.w	r0, sp, #30
	mov	r2, r4
	strd	r9, r8, [sp, #8]
	str.w	lr, [sp, #16]
	str.w	r12, [sp, #20]
	bl	"eap_method::peer_objects::call_peer_method::<#254f2c9f7e768b02>"
	ldrb.w	r0, [sp, #30]
	ldrb.w	r1, [sp, #31]
	ldrb.w	r2, [sp, #32]
.LBBbbf34_5:
	strb	r0, [r5]
	strb	r1, [r5, #1]
	strb	r2, [r5, #2]
	add	sp, #36
	pop.w	{r4, r5, r6, r7, r8, r9, pc}
.Lfunc_endbbf34:
	.size	"eap_method::peer_objects::call_peer_method::<#254f2c9f7e768b02>", .Lfunc_endbbf34-"eap_method::peer_objects::call_peer_method::<#254f2c9f7e768b02>"
	.cantunwind
	.fnend

	.section	".text.end_objects::objects::PeerObjectPeerMethod::handle_unrecorded","ax",%progbits
	.p2align	2
	.type	"end_objects::objects::PeerObjectPeerMethod::handle_unrecorded",%function
	.code	16
	.thumb_func
"end_objects::objects::PeerObjectPeerMethod::handle_unrecorded":
	.fnstart
	.save	{r4, r5, r7, lr}
	push	{r4, r5, r7, lr}
	.pad	#24
	sub	sp, #24
	ldrb	r4, [r1], #8
	ldrd	r3, lr, [sp, #40]
	ldr.w	r12, [sp, #52]
	ldr	r5, [sp, #48]
	cmp	r4, #0
	mov	r4, r0
	mov.w	r0, #0
	beq	.LBB5243e_2
	strb.w	r0, [sp, #22]
	strh.w	r0, [sp, #20]
	add	r0, sp, #20
	strd	r3, lr, [sp]
	str	r5, [sp, #8]
	str.w	r12, [sp, #12]
	bl	"gpsk_ends::peer::GpskPeer::handle_step::<#e0641de541981142>"
	ldrb.w	r0, [sp, #20]
	ldrb.w	r1, [sp, #21]
	ldrb.w	r2, [sp, #22]
	b	.LBB5243e_3
.LBB5243e_2:
	strb.w	r0, [sp, #18]
	strh.w	r0, [sp, #16]
	add	r0, sp, #16
	strd	r3, lr, [sp]
	str	r5, [sp, #8]
	str.w	r12, [sp, #12]
	bl	"psk_ends::peer::PskPeer::handle_step::<#becd8de5e2060522>"
	ldrb.w	r0, [sp, #16]
	ldrb.w	r1, [sp, #17]
	ldrb.w	r2, [sp, #18]
.LBB5243e_3:
	strb	r0, [r4]
	strb	r1, [r4, #1]
	strb	r2, [r4, #2]
	add	sp, #24
	pop	{r4, r5, r7, pc}
.Lfunc_end5243e:
	.size	"end_objects::objects::PeerObjectPeerMethod::handle_unrecorded", .Lfunc_end5243e-"end_objects::objects::PeerObjectPeerMethod::handle_unrecorded"
	.cantunwind
	.fnend

	.section	".text.psk_ends::peer::PskPeer::handle_step::<#becd8de5e2060522>","ax",%progbits
	.p2align	2
	.type	"psk_ends::peer::PskPeer::handle_step::<#becd8de5e2060522>",%function
	.code	16
	.thumb_func
"psk_ends::peer::PskPeer::handle_step::<#becd8de5e2060522>":
	.fnstart
	.save	{r4, r5, r6, r7, r8, r9, r10, r11, lr}
	push.w	{r4, r5, r6, r7, r8, r9, r10, r11, lr}
	.pad	#916
	sub.w	sp, sp, #916
	mov	r5, r2
	ldrb.w	r2, [r1, #656]
	ldr	r4, [sp, #964]
	cmp	r2, #0
	mov	r9, r0
	beq	.LBBea434_7
	ldrd	r8, r7, [sp, #952]
	cmp	r2, #2
	bne	.LBBea434_4
	movs	r0, #0
	str	r0, [sp, #676]
	str	r0, [sp, #668]
	strd	r1, r0, [sp, #656]
	ldrb.w	r0, [r1, #1233]
	addw	r10, r1, #657
	add.w	r2, r1, #624
	str	r2, [sp, #664]
	str.w	r10, [sp, #672]
	cbz	r0, .LBBea434_8
	mov	r0, r5
	mov	r2, r8
	mov	r3, r7
	bl	"psk_ends::octets::idle_cause"
	mov	r11, r0
	movs	r0, #0
	b	.LBBea434_25
.LBBea434_4:
	add.w	r0, r1, #656
	add	r6, sp, #752
	str	r1, [sp, #32]
	str	r0, [sp, #24]
	mov	r0, r6
	movs	r1, #80
	mov	r10, r4
	bl	__aeabi_memclr8
	subs.w	r2, r8, #5
	add.w	r1, r5, #5
	sbc	r3, r7, #0
	mov	r0, r6
	str	r5, [sp, #28]
	bl	"psk_messages::reading::read_psk_message"
	ldrb.w	r1, [sp, #752]
	add.w	r2, r6, #12
	ldrb.w	r11, [sp, #753]
	ldrb.w	r0, [sp, #760]
	cmp	r1, #1
	ldm.w	r2, {r1, r4, r5, r6, r7}
	add	r3, sp, #684
	stm	r3!, {r1, r4, r5, r6, r7}
	bne	.LBBea434_6
	mov	r4, r10
	b	.LBBea434_26
.LBBea434_6:
	cmp	r0, #0
	mov	r4, r10
	beq	.LBBea434_13
.LBBea434_7:
	mov.w	r11, #22
	b	.LBBea434_26
.LBBea434_8:
	add	r6, sp, #752
	str	r1, [sp, #32]
	mov	r0, r6
	movs	r1, #80
	str	r2, [sp, #24]
	bl	__aeabi_memclr8
	subs.w	r2, r8, #5
	add.w	r1, r5, #5
	sbc	r3, r7, #0
	mov	r0, r6
	bl	"psk_messages::reading::read_psk_message"
	add.w	r1, r6, #12
	add	r6, sp, #684
	ldrb.w	r7, [sp, #752]
	ldrb.w	r11, [sp, #753]
	ldrb.w	r4, [sp, #760]
	mov	r0, r6
	movs	r2, #68
	bl	__aeabi_memcpy4
	cmp	r7, #1
	bne	.LBBea434_10
.LBBea434_9:
	movs	r0, #0
	b	.LBBea434_24
.LBBea434_10:
	movs	r0, #0
	cmp	r4, #2
	mov.w	r11, #22
	bne.w	.LBBea434_24
	add.w	r12, sp, #752
	ldm	r6!, {r2, r3, r4, r7}
	mov	r1, r12
	stm	r1!, {r2, r3, r4, r7}
	str	r5, [sp, #28]
	ldm	r6!, {r2, r3, r4, r5, r7}
	cmp.w	r8, #22
	stm	r1!, {r2, r3, r4, r5, r7}
	ldm.w	r6, {r2, r3, r4, r5, r7}
	stm	r1!, {r2, r3, r4, r5, r7}
	ldr	r1, [sp, #956]
	it	hs
	movhs	r8, r11
	cmp	r1, #0
	it	ne
	movne	r8, r11
	ldr	r1, [sp, #28]
	strd	r12, r0, [sp, #848]
	ldrb.w	r11, [r1, #1]
	movs	r1, #16
	str	r0, [sp, #860]
	str	r1, [sp, #856]
	strd	r10, r0, [sp, #832]
	strd	r1, r0, [sp, #840]
	add	r0, sp, #848
	add	r1, sp, #832
	mov	r4, r12
	bl	"core::cmp::PartialEq::ne::<#4f69ed2539eb7fe9>"
	cmp	r0, #0
	beq	.LBBea434_16
	mov.w	r11, #25
	b	.LBBea434_9
.LBBea434_13:
	ldrd	r5, r8, [sp, #784]
	ldrd	r6, r7, [sp, #792]
	ldr	r0, [sp, #32]
	mov	r1, r5
	mov	r2, r6
	mov	r3, r7
	bl	"eap_method::peer_side::PeerSide::allows"
	cbz	r0, .LBBea434_15
	add	r3, sp, #688
	ldm	r3, {r0, r1, r3}
	ldr	r2, [sp, #700]
	add.w	r12, sp, #624
	ldr.w	r10, [sp, #32]
	str	r0, [sp, #48]
	stm.w	r12, {r0, r1, r3}
	add	r0, sp, #636
	stm.w	r0, {r2, r5, r8}
	strd	r6, r7, [sp, #648]
	add.w	r5, r10, #624
	add	r6, sp, #64
	str	r2, [sp, #60]
	str	r1, [sp, #52]
	add.w	r1, r10, #552
	mov	r0, r6
	mov	r2, r5
	str	r3, [sp, #56]
	bl	"psk_ends::peer::login::Keys::of"
	ldr	r0, [sp, #28]
	add	r1, sp, #624
	ldrb	r0, [r0, #1]
	ldr	r3, [sp, #24]
	str	r0, [sp, #8]
	ldr	r0, [sp, #960]
	strd	r1, r6, [sp]
	str	r0, [sp, #12]
	add.w	r0, sp, #39
	mov	r1, r10
	mov	r2, r5
	str	r4, [sp, #16]
	bl	"psk_ends::peer::turns::log_in::<#becd8de5e2060522>"
	ldrb.w	r0, [sp, #39]
	ldrb.w	r11, [sp, #40]
	ldrb.w	r5, [sp, #41]
	cmp	r0, #0
	bne	.LBBea434_27
	b	.LBBea434_26
.LBBea434_15:
	mov.w	r11, #23
	b	.LBBea434_26
.LBBea434_16:
	ldr	r0, [sp, #784]
	cbz	r0, .LBBea434_18
	mov.w	r11, #27
	b	.LBBea434_9
.LBBea434_18:
	ldr	r0, [sp, #24]
	add	r2, sp, #900
	subs	r2, r2, r0
	mov.w	r7, #0
	sbc	r6, r7, #0
	rsbs.w	r2, r2, #15
	sbcs.w	r2, r7, r6
	ldr	r2, [r0]
	ldr	r7, [r0, #4]
	ldr	r6, [r0, #12]
	ldr	r5, [r0, #8]
	strd	r2, r7, [sp, #900]
	ldr	r1, [sp, #32]
	strd	r5, r6, [sp, #908]
	ldrd	r7, r6, [sp, #900]
	ldrd	r0, r5, [sp, #908]
	ldrd	r3, r12, [r1, #520]
	strd	r7, r6, [sp, #884]
	add	r6, sp, #868
	add.w	r2, r1, #264
	addw	r1, r1, #673
	strd	r0, r5, [sp, #892]
	add	r7, sp, #884
	mov	r0, r6
	strd	r3, r12, [sp]
	str	r7, [sp, #8]
	bl	"eap_method::psk_macs::mac_s"
	mov.w	r0, #0
	mov.w	r2, #16
	add.w	r1, r4, #16
	strd	r2, r0, [sp, #8]
	mov	r0, r6
	mov.w	r3, #0
	str	r1, [sp]
	bl	"octet_lists::comparison::equal_in_full"
	cbz	r0, .LBBea434_23
	ldr	r0, [sp, #32]
	ldr	r1, [sp, #28]
	add.w	r7, r4, #32
	addw	r0, r0, #1025
	mov	r2, r8
	movs	r3, #0
	str	r7, [sp]
	bl	"psk_ends::channel::open"
	lsls	r0, r0, #24
	beq	.LBBea434_23
	mov	r0, r1
	mov	r4, r11
	bl	"psk_ends::channel::check_result"
	uxtb	r0, r0
	sxtb.w	r11, r1
	cmp	r0, #1
	mov.w	r0, #0
	beq	.LBBea434_24
	ldr	r3, [sp, #964]
	movs	r2, #2
	mov	r1, r3
	str	r0, [r1, #8]!
	cmn.w	r11, #65
	str	r0, [r3, #12]
	strd	r2, r0, [r3]
	bgt	.LBBea434_28
	ldr	r3, [sp, #960]
	str	r1, [sp]
	add	r0, sp, #656
	mov	r1, r4
	movs	r5, #2
	bl	"psk_ends::peer::psk4::psk4::<#becd8de5e2060522>"
	mov.w	r11, #4
	movs	r1, #1
	b	.LBBea434_29
.LBBea434_23:
	movs	r0, #0
	mov.w	r11, #28
.LBBea434_24:
	ldr	r4, [sp, #964]
.LBBea434_25:
	movs	r5, #0
	cbnz	r0, .LBBea434_27
.LBBea434_26:
	movs	r0, #0
	movs	r5, #0
	strd	r0, r0, [r4]
	strd	r0, r0, [r4, #8]
.LBBea434_27:
	strb.w	r0, [r9]
	strb.w	r11, [r9, #1]
	strb.w	r5, [r9, #2]
	add.w	sp, sp, #916
	pop.w	{r4, r5, r6, r7, r8, r9, r10, r11, pc}
.LBBea434_28:
	ldr	r3, [sp, #960]
	str	r1, [sp]
	add	r0, sp, #656
	mov	r1, r4
	movs	r2, #3
	mov.w	r11, #3
	bl	"psk_ends::peer::psk4::psk4::<#becd8de5e2060522>"
	movs	r1, #0
	movs	r5, #0
.LBBea434_29:
	ldr	r2, [sp, #32]
	movs	r0, #1
	ldr	r4, [sp, #964]
	strb.w	r0, [r2, #1233]
	strb.w	r1, [r2, #1234]
	cmp	r0, #0
	bne	.LBBea434_27
	b	.LBBea434_26
.Lfunc_endea434:
	.size	"psk_ends::peer::PskPeer::handle_step::<#becd8de5e2060522>", .Lfunc_endea434-"psk_ends::peer::PskPeer::handle_step::<#becd8de5e2060522>"
	.cantunwind
	.fnend

	.section	".text.psk_messages::reading::read_psk_message","ax",%progbits
	.p2align	2
	.type	"psk_messages::reading::read_psk_message",%function
	.code	16
	.thumb_func
"psk_messages::reading::read_psk_message":
	.fnstart
	.save	{r4, r5, r6, r7, r8, r9, r10, r11, lr}
	push.w	{r4, r5, r6, r7, r8, r9, r10, r11, lr}
	.pad	#140
	sub	sp, #140
	movs	r6, #0
	orrs.w	r7, r2, r3
	strd	r6, r6, [sp, #80]
	str	r6, [sp, #88]
	strd	r6, r6, [sp, #68]
	str	r6, [sp, #76]
	beq	.LBBb48b4_5
	ldrb	r5, [r1]
	subs	r7, r2, #1
	lsr.w	r9, r5, #6
	sbc	r4, r3, #0
.LCPIb48b4_0:
	tbb	[pc, r9]
.LJTIb48b4_0:
	.byte	(.LBBb48b4_3-(.LCPIb48b4_0+4))/2
	.byte	(.LBBb48b4_11-(.LCPIb48b4_0+4))/2
	.byte	(.LBBb48b4_6-(.LCPIb48b4_0+4))/2
	.byte	(.LBBb48b4_8-(.LCPIb48b4_0+4))/2
	.p2align	1
.LBBb48b4_3:
	subs	r2, #17
	sbc	r3, r3, #0
	mov.w	r12, #0
	str	r2, [sp, #28]
	rsbs.w	r2, r2, #253
	sbcs.w	r2, r12, r3
	blo.w	.LBBb48b4_14
	str	r3, [sp, #20]
	adds	r2, r1, #1
	add	r3, sp, #116
	subs	r3, r3, r2
	sbc	r7, r12, #0
	rsbs.w	r3, r3, #15
	sbcs.w	r3, r12, r7
	ldr	r3, [r2]
	ldr	r7, [r2, #4]
	ldr	r6, [r2, #12]
	ldr	r2, [r2, #8]
	strd	r3, r7, [sp, #116]
	strd	r2, r6, [sp, #124]
	add.w	r1, r1, #17
	add	r7, sp, #116
	str	r1, [sp, #36]
	ldm	r7, {r1, r2, r3, r7}
	add.w	r12, sp, #104
	stm.w	r12, {r1, r2, r3}
	mov.w	r1, #0
	str.w	r9, [sp, #24]
	str	r7, [sp, #40]
	strd	r1, r1, [sp, #92]
	str	r1, [sp, #8]
	str	r1, [sp, #100]
	str	r1, [sp, #16]
	str	r1, [sp, #32]
	mov.w	r4, #0
	mov.w	r10, #0
	str	r1, [sp, #12]
	b	.LBBb48b4_13
.LBBb48b4_5:
	movs	r3, #1
	movs	r2, #21
	mov.w	r12, #0
	b	.LBBb48b4_15
.LBBb48b4_6:
	eor	r2, r7, #53
	orrs	r2, r4
	mov.w	r12, #0
	bne.w	.LBBb48b4_14
	adds	r3, r1, #1
	add	r2, sp, #116
	subs	r7, r2, r3
	sbc	r5, r12, #0
	rsbs.w	r7, r7, #15
	sbcs.w	r7, r12, r5
	ldr	r7, [r3]
	ldr	r6, [r3, #4]
	ldr	r5, [r3, #12]
	ldr	r3, [r3, #8]
	strd	r7, r6, [sp, #116]
	strd	r3, r5, [sp, #124]
	ldrd	r6, r7, [sp, #116]
	ldrd	r5, r4, [sp, #124]
	add.w	r3, r1, #17
	strd	r7, r5, [sp, #104]
	subs	r2, r2, r3
	mov.w	r7, #0
	sbc	r5, r7, #0
	rsbs.w	r2, r2, #15
	str	r0, [sp, #4]
	ldr	r0, [r3]
	sbcs.w	r2, r7, r5
	add.w	r12, sp, #116
	ldr	r2, [r3, #4]
	ldr	r7, [r3, #12]
	ldr	r3, [r3, #8]
	stm.w	r12, {r0, r2, r3, r7}
	ldr	r0, [sp, #116]
	add.w	r1, r1, #33
	str	r0, [sp, #40]
	ldr	r0, [sp, #120]
	str	r4, [sp, #112]
	str	r0, [sp, #36]
	ldr	r0, [sp, #124]
	str.w	r9, [sp, #24]
	str	r0, [sp, #32]
	ldr	r0, [sp, #128]
	str	r6, [sp, #16]
	str	r0, [sp, #28]
	add	r0, sp, #116
	bl	"psk_messages::reading::split_channel"
	ldr	r0, [sp, #116]
	ldr	r4, [sp, #136]
	str	r0, [sp, #20]
	ldr	r0, [sp, #120]
	mov.w	r10, #0
	str	r0, [sp, #8]
	ldrd	r0, r2, [sp, #124]
	str	r0, [sp, #92]
	ldr	r0, [sp, #132]
	strd	r2, r0, [sp, #96]
	mov.w	r0, #0
	b	.LBBb48b4_10
.LBBb48b4_8:
	eor	r2, r7, #37
	orrs	r2, r4
	mov.w	r12, #0
	bne.w	.LBBb48b4_14
	adds	r2, r1, #1
	add	r3, sp, #116
	subs	r3, r3, r2
	sbc	r7, r12, #0
	rsbs.w	r3, r3, #15
	sbcs.w	r3, r12, r7
	str	r0, [sp, #4]
	ldr	r0, [r2]
	ldr	r3, [r2, #4]
	ldr	r7, [r2, #12]
	ldr	r2, [r2, #8]
	strd	r0, r3, [sp, #116]
	ldr	r0, [sp, #116]
	strd	r2, r7, [sp, #124]
	add	r3, sp, #120
	str	r0, [sp, #16]
	ldm	r3, {r0, r2, r3}
	add.w	r12, sp, #104
	add.w	r1, r1, #17
	stm.w	r12, {r0, r2, r3}
	add	r0, sp, #116
	str.w	r9, [sp, #24]
	bl	"psk_messages::reading::split_channel"
	ldr	r0, [sp, #116]
	mov.w	r10, #0
	str	r0, [sp, #40]
	ldr	r0, [sp, #120]
	str	r0, [sp, #36]
	ldr	r0, [sp, #124]
	str	r0, [sp, #32]
	ldr	r0, [sp, #128]
	str	r0, [sp, #28]
	ldr	r0, [sp, #132]
	str	r0, [sp, #20]
	ldr	r0, [sp, #136]
	str	r0, [sp, #8]
	mov.w	r0, #0
	mov	r4, r0
	strd	r0, r0, [sp, #92]
	str	r0, [sp, #100]
.LBBb48b4_10:
	str	r0, [sp, #12]
	ldr	r0, [sp, #4]
	b	.LBBb48b4_13
.LBBb48b4_11:
	subs.w	r10, r2, #49
	sbc	r3, r3, #0
	subs.w	r2, r10, #254
	sbcs	r2, r3, #0
	mov.w	r12, #0
	bhs	.LBBb48b4_14
	str	r3, [sp, #12]
	adds	r3, r1, #1
	add.w	lr, sp, #116
	subs.w	r7, lr, r3
	sbc	r5, r12, #0
	rsbs.w	r7, r7, #15
	sbcs.w	r7, r12, r5
	ldr	r7, [r3]
	ldr	r6, [r3, #4]
	ldr	r5, [r3, #12]
	ldr	r3, [r3, #8]
	strd	r7, r6, [sp, #116]
	strd	r3, r5, [sp, #124]
	ldr	r6, [sp, #124]
	ldrd	r7, r5, [sp, #116]
	add.w	r3, r1, #17
	strd	r5, r6, [sp, #108]
	subs.w	r6, lr, r3
	mov.w	r5, #0
	sbc	r2, r5, #0
	rsbs.w	r6, r6, #15
	ldr	r6, [sp, #128]
	sbcs.w	r2, r5, r2
	str	r6, [sp, #40]
	str	r7, [sp, #104]
	ldr	r2, [r3]
	ldr	r7, [r3, #4]
	ldr	r6, [r3, #12]
	ldr	r3, [r3, #8]
	strd	r2, r7, [sp, #116]
	strd	r3, r6, [sp, #124]
	ldr	r2, [sp, #124]
	add.w	r3, r1, #33
	str	r2, [sp, #28]
	ldr	r2, [sp, #128]
	ldrd	r7, r5, [sp, #116]
	str	r2, [sp, #20]
	subs.w	r2, lr, r3
	sbc	r6, r12, #0
	rsbs.w	r2, r2, #15
	sbcs.w	r2, r12, r6
	strd	r5, r7, [sp, #32]
	ldr	r2, [r3]
	ldr	r5, [r3, #4]
	ldr	r6, [r3, #12]
	ldr	r3, [r3, #8]
	strd	r2, r5, [sp, #116]
	strd	r3, r6, [sp, #124]
	add.w	r4, r1, #49
	ldr	r1, [sp, #116]
	add	r6, sp, #120
	ldm	r6, {r2, r3, r6}
	str	r1, [sp, #8]
	add	r1, sp, #92
	strd	r12, r12, [sp, #96]
	str.w	r12, [sp, #92]
	stm	r1!, {r2, r3, r6}
	mov.w	r1, #0
	str.w	r9, [sp, #24]
	str	r1, [sp, #16]
.LBBb48b4_13:
	ldr	r3, [sp, #112]
	ldrd	r2, r9, [sp, #104]
	add	r7, sp, #92
	str	r3, [sp, #88]
	strd	r2, r9, [sp, #80]
	ldm	r7, {r2, r3, r7}
	add	r1, sp, #68
	stm	r1!, {r2, r3, r7}
	ldrd	r1, r5, [sp, #24]
	ldrd	r12, r11, [sp, #16]
	ldrd	r8, lr, [sp, #8]
	movs	r2, #0
	movs	r3, #0
	movs	r6, #0
	mov	r9, r4
	b	.LBBb48b4_16
.LBBb48b4_14:
	movs	r3, #1
	movs	r2, #21
.LBBb48b4_15:
	movs	r1, #0
	str	r1, [sp, #40]
	strd	r1, r1, [sp, #32]
	movs	r5, #0
	mov.w	r11, #0
	mov.w	r8, #0
	mov.w	r9, #0
	mov.w	r10, #0
	mov.w	lr, #0
.LBBb48b4_16:
	ldrd	r4, r7, [sp, #84]
	str	r1, [r0, #8]
	strd	r4, r7, [sp, #60]
	ldr	r4, [sp, #80]
	ldr	r1, [sp, #40]
	ldr	r7, [sp, #68]
	str	r4, [sp, #56]
	strb	r3, [r0]
	strb	r2, [r0, #1]
	ldrd	r2, r3, [sp, #56]
	str	r1, [r0, #28]
	ldr	r1, [sp, #36]
	str	r7, [sp, #44]
	ldrd	r4, r7, [sp, #72]
	str	r2, [r0, #16]
	ldr	r2, [sp, #64]
	str	r1, [r0, #32]
	ldr	r1, [sp, #32]
	strd	r4, r7, [sp, #48]
	str	r2, [r0, #24]
	str	r1, [r0, #36]
	ldrd	r1, r2, [sp, #44]
	str.w	r12, [r0, #12]
	str	r1, [r0, #52]
	ldr	r1, [sp, #52]
	str	r3, [r0, #20]
	str.w	r11, [r0, #44]
	str	r5, [r0, #40]
	str.w	r8, [r0, #48]
	str	r2, [r0, #56]
	str	r1, [r0, #60]
	str.w	r9, [r0, #64]
	str	r6, [r0, #68]
	str.w	lr, [r0, #76]
	str.w	r10, [r0, #72]
	add	sp, #140
	pop.w	{r4, r5, r6, r7, r8, r9, r10, r11, pc}
.Lfunc_endb48b4:
	.size	"psk_messages::reading::read_psk_message", .Lfunc_endb48b4-"psk_messages::reading::read_psk_message"
	.cantunwind
	.fnend

	.section	".text.psk_messages::reading::split_channel","ax",%progbits
	.p2align	2
	.type	"psk_messages::reading::split_channel",%function
	.code	16
	.thumb_func
"psk_messages::reading::split_channel":
	.fnstart
	.save	{r4, lr}
	push	{r4, lr}
	.pad	#32
	sub	sp, #32
	add.w	lr, r1, #4
	add	r3, sp, #16
	subs.w	r3, r3, lr
	mov.w	r12, #0
	sbc	r2, r12, #0
	rsbs.w	r3, r3, #15
	sbcs.w	r2, r12, r2
	blo	.LBB3c983_2
	ldr.w	r4, [lr, #4]
	ldr.w	r2, [lr, #12]
	ldr.w	r3, [lr, #8]
	ldr.w	r12, [lr]
	str	r2, [sp, #28]
	strd	r4, r3, [sp, #20]
	b	.LBB3c983_3
.LBB3c983_2:
	ldr.w	r12, [lr]
	ldr.w	r3, [lr, #4]
	ldr.w	r4, [lr, #12]
	ldr.w	r2, [lr, #8]
	str	r4, [sp, #28]
	strd	r3, r2, [sp, #20]
.LBB3c983_3:
	str.w	r12, [sp, #16]
	ldr.w	lr, [r1]
	ldrb	r1, [r1, #20]
	ldrd	r12, r3, [sp, #16]
	ldrd	r2, r4, [sp, #24]
	rev.w	lr, lr
	strb	r1, [r0, #20]
	movs	r1, #0
	str	r4, [sp, #12]
	strd	r3, r2, [sp, #4]
	str.w	r12, [sp]
	str.w	lr, [r0]
	str.w	r12, [r0, #4]
	str	r3, [r0, #8]
	str	r2, [r0, #12]
	str	r4, [r0, #16]
	strh.w	r1, [r0, #21]
	strb	r1, [r0, #23]
	add	sp, #32
	pop	{r4, pc}
.Lfunc_end3c983:
	.size	"psk_messages::reading::split_channel", .Lfunc_end3c983-"psk_messages::reading::split_channel"
	.cantunwind
	.fnend

	.section	".text.eap_method::peer_side::PeerSide::allows","ax",%progbits
	.p2align	2
	.type	"eap_method::peer_side::PeerSide::allows",%function
	.code	16
	.thumb_func
"eap_method::peer_side::PeerSide::allows":
	.fnstart
	.save	{r4, r5, r6, lr}
	push	{r4, r5, r6, lr}
	.pad	#16
	sub	sp, #16
	mov	lr, r0
	ldrb.w	r0, [r0, #528]
	cmp	r0, #1
	bne	.LBB328aa_14
	ldrd	r0, r4, [lr, #520]
	eors	r4, r3
	eors	r0, r2
	orrs	r0, r4
	bne	.LBB328aa_15
	subs	r0, r2, #4
	sbcs	r0, r3, #0
	add.w	r0, lr, #264
	bhs	.LBB328aa_16
	orrs.w	r5, r2, r3
	beq	.LBB328aa_14
	movs	r4, #0
	mov.w	r12, #0
.LBB328aa_5:
	ldrb.w	lr, [r0, r4]
	ldrb	r5, [r1, r4]
	cmp	lr, r5
	bne	.LBB328aa_21
	orr	lr, r4, #1
	subs.w	r5, lr, r2
	sbcs.w	r5, r12, r3
	bhs	.LBB328aa_13
	ldrb.w	r5, [r0, lr]
	ldrb.w	r6, [r1, lr]
	cmp	r5, r6
	bne	.LBB328aa_22
	orr	lr, r4, #2
	subs.w	r5, lr, r2
	sbcs.w	r5, r12, r3
	bhs	.LBB328aa_13
	ldrb.w	r5, [r0, lr]
	ldrb.w	r6, [r1, lr]
	cmp	r5, r6
	bne	.LBB328aa_22
	orr	lr, r4, #3
	subs.w	r5, lr, r2
	sbcs.w	r5, r12, r3
	bhs	.LBB328aa_13
	ldrb.w	r5, [r0, lr]
	ldrb.w	r6, [r1, lr]
	cmp	r5, r6
	bne	.LBB328aa_22
	adds	r4, #4
	adc	r12, r12, #0
	subs	r6, r4, r2
	sbcs.w	r6, r12, r3
	blo	.LBB328aa_5
.LBB328aa_13:
	mov	lr, r2
	mov	r12, r3
	b	.LBB328aa_22
.LBB328aa_14:
	mov.w	r12, #1
	b	.LBB328aa_23
.LBB328aa_15:
	mov.w	r12, #0
	b	.LBB328aa_23
.LBB328aa_16:
	ldrb.w	r12, [lr, #264]
	ldrb	r4, [r1]
	cmp	r12, r4
	mov.w	r12, #0
	bne	.LBB328aa_23
	ldrb.w	r4, [lr, #265]
	ldrb	r5, [r1, #1]
	cmp	r4, r5
	bne	.LBB328aa_23
	ldrb.w	r4, [lr, #266]
	ldrb	r5, [r1, #2]
	cmp	r4, r5
	bne	.LBB328aa_23
	ldrb.w	r5, [lr, #267]
	ldrb	r4, [r1, #3]
	cmp	r5, r4
	bne	.LBB328aa_23
	strd	r2, r3, [sp, #8]
	str	r1, [sp]
	bl	"core::cmp::slices::groups_equal::<i8,31'core::cmp::numbers::U8PartialEq{}>"
	mov	r12, r0
	b	.LBB328aa_23
.LBB328aa_21:
	mov	lr, r4
.LBB328aa_22:
	subs.w	r0, lr, r2
	sbcs.w	r0, r12, r3
	mov.w	r12, #0
	it	hs
	movhs.w	r12, #1
.LBB328aa_23:
	mov	r0, r12
	add	sp, #16
	pop	{r4, r5, r6, pc}
.Lfunc_end328aa:
	.size	"eap_method::peer_side::PeerSide::allows", .Lfunc_end328aa-"eap_method::peer_side::PeerSide::allows"
	.cantunwind
	.fnend

	.section	".text.psk_ends::peer::login::Keys::of","ax",%progbits
	.p2align	2
	.type	"psk_ends::peer::login::Keys::of",%function
	.code	16
	.thumb_func
"psk_ends::peer::login::Keys::of":
	.fnstart
	.save	{r4, r5, r6, r7, r8, lr}
	push.w	{r4, r5, r6, r7, r8, lr}
	.pad	#1184
	sub.w	sp, sp, #1184
	add	r5, sp, #576
	mov	r8, r0
	mov	r0, r5
	mov	r6, r2
	bl	"psk_ends::keys::long_keys"
	add.w	r0, sp, #1168
	subs	r0, r0, r6
	mov.w	r1, #0
	sbc	r2, r1, #0
	rsbs.w	r0, r0, #15
	sbcs.w	r0, r1, r2
	ldr	r2, [r6, #12]
	ldr	r0, [r6]
	ldr	r3, [r6, #8]
	str.w	r2, [sp, #1180]
	add.w	r2, sp, #1168
	ldr	r1, [r6, #4]
	stm	r2!, {r0, r1, r3}
	ldr.w	r3, [sp, #1180]
	add.w	r7, sp, #1168
	ldm	r7, {r0, r2, r7}
	str	r3, [sp, #428]
	add	r3, sp, #416
	add	r6, sp, #432
	add.w	r1, r5, #16
	stm	r3!, {r0, r2, r7}
	add	r2, sp, #416
	mov	r0, r6
	bl	"login_keys::psk::psk_session"
	add	r7, sp, #208
	mov	r0, r7
	mov	r1, r5
	bl	"cmac_mac::key::CmacKey::new"
	mov	r5, sp
	mov	r0, r5
	mov	r1, r6
	bl	"cmac_mac::key::CmacKey::new"
	add	r4, sp, #608
	mov	r0, r4
	mov	r1, r7
	mov.w	r2, #208
	bl	__aeabi_memcpy4
	add.w	r0, r4, #208
	mov	r1, r6
	mov.w	r2, #144
	bl	__aeabi_memcpy4
	add.w	r0, r4, #352
	mov	r1, r5
	mov.w	r2, #208
	bl	__aeabi_memcpy4
	mov	r0, r8
	mov	r1, r4
	mov.w	r2, #560
	bl	__aeabi_memcpy
	add.w	sp, sp, #1184
	pop.w	{r4, r5, r6, r7, r8, pc}
.Lfunc_enda884f:
	.size	"psk_ends::peer::login::Keys::of", .Lfunc_enda884f-"psk_ends::peer::login::Keys::of"
	.cantunwind
	.fnend

	.section	".text.psk_ends::keys::long_keys","ax",%progbits
	.p2align	2
	.type	"psk_ends::keys::long_keys",%function
	.code	16
	.thumb_func
"psk_ends::keys::long_keys":
	.fnstart
	.save	{r4, r5, r6, r7, r8, lr}
	push.w	{r4, r5, r6, r7, r8, lr}
	.setfp	r7, sp, #12
	add	r7, sp, #12
	.pad	#296
	sub	sp, #296
	mov	r4, sp
	bfc	r4, #0, #4
	mov	sp, r4
	mov	r8, r0
	ldrd	r2, r0, [r1, #64]
	add	r3, sp, #64
	subs	r3, r3, r1
	mov.w	r6, #0
	sbc	r5, r6, #0
	subs	r3, r3, r2
	sbcs.w	r0, r5, r0
	add	r0, sp, #64
	strd	r6, r6, [sp, #72]
	strd	r6, r6, [sp, #64]
	bl	__aeabi_memcpy
	add	r3, sp, #64
	ldm	r3, {r0, r1, r3}
	ldr	r2, [sp, #76]
	add	r5, sp, #64
	stm.w	sp, {r0, r1, r3}
	mov	r0, r5
	mov.w	r1, #176
	str	r2, [sp, #12]
	bl	__aeabi_memclr4
	mov	r1, sp
	mov	r0, r5
	bl	"aes_block::Aes128::new"
	mov.w	r0, #0
	add	r6, sp, #240
	strd	r0, r0, [sp, #240]
	strd	r0, r0, [sp, #248]
	strd	r0, r0, [sp, #272]
	strd	r0, r0, [sp, #280]
	add	r2, sp, #272
	mov	r0, r6
	mov	r1, r5
	bl	"aes_block::Aes128::encrypt_block"
	add	r3, sp, #240
	ldm	r3, {r0, r1, r2, r3}
	add.w	r12, sp, #48
	stm.w	r12, {r0, r1, r2, r3}
	add.w	r12, sp, #272
	add	r4, sp, #272
	stm.w	r12, {r0, r1, r2, r3}
	add	r0, sp, #48
	mov	r1, r5
	mov	r2, r4
	mov.w	r3, #1
	bl	"login_keys::psk::counter_block"
	add.w	r0, r6, #16
	mov	r1, r5
	mov	r2, r4
	mov.w	r3, #2
	bl	"login_keys::psk::counter_block"
	ldr	r2, [sp, #60]
	add	r3, sp, #48
	ldm	r3, {r0, r1, r3}
	str	r2, [sp, #252]
	add	r2, sp, #240
	stm	r2!, {r0, r1, r3}
	add	r1, sp, #16
	ldm	r6!, {r2, r3, r4, r5}
	mov	r0, r1
	stm	r0!, {r2, r3, r4, r5}
	ldm.w	r6, {r2, r3, r4, r5}
	stm	r0!, {r2, r3, r4, r5}
	mov	r0, r8
	mov.w	r2, #32
	bl	__aeabi_memcpy
	sub.w	r4, r7, #12
	mov	sp, r4
	pop.w	{r4, r5, r6, r7, r8, pc}
.Lfunc_end7bd40:
	.size	"psk_ends::keys::long_keys", .Lfunc_end7bd40-"psk_ends::keys::long_keys"
	.cantunwind
	.fnend

	.section	".text.aes_block::Aes128::new","ax",%progbits
	.p2align	2
	.type	"aes_block::Aes128::new",%function
	.code	16
	.thumb_func
"aes_block::Aes128::new":
	.fnstart
	.save	{r4, r5, r6, r7, r8, r9, r10, r11, lr}
	push.w	{r4, r5, r6, r7, r8, r9, r10, r11, lr}
	.pad	#596
	sub.w	sp, sp, #596
	mov	r4, r1
	mov	r8, r0
	add	r0, sp, #116
	movs	r1, #144
	bl	__aeabi_memclr4
	ldr	r5, [r4]
	ldr.w	r9, [r4, #4]
	ldr	r6, [r4, #8]
	ldr	r4, [r4, #12]
	add	r0, sp, #260
	movs	r1, #144
	bl	__aeabi_memclr4
	add.w	r10, sp, #452
	mov	r0, r10
	movs	r1, #144
	bl	__aeabi_memclr4
	strd	r4, r6, [sp, #104]
	strd	r6, r4, [sp, #444]
	movs	r7, #0
	movs	r4, #0
	str	r5, [sp, #112]
	strd	r5, r9, [sp, #436]
	.p2align	2
.LBB06db0_1:
	add.w	r11, sp, #420
	add	r1, sp, #436
	mov	r0, r11
	mov	r2, r7
	mov	r3, r4
	str	r1, [sp]
	bl	"aes_block::sliced_schedule::next_columns"
	add	r3, sp, #420
	ldr	r2, [sp, #432]
	ldm	r3, {r0, r1, r3}
	lsls	r6, r7, #4
	lsrs	r5, r2, #24
	strb.w	r0, [r10, r6]
	add.w	r6, r10, r7, lsl #4
	strb	r5, [r6, #15]
	lsrs	r5, r2, #16
	strb	r5, [r6, #14]
	lsrs	r5, r2, #8
	strb	r5, [r6, #13]
	lsrs	r5, r3, #24
	strb	r5, [r6, #11]
	lsrs	r5, r3, #16
	strb	r5, [r6, #10]
	lsrs	r5, r3, #8
	strb	r5, [r6, #9]
	lsrs	r5, r1, #24
	strb	r5, [r6, #7]
	lsrs	r5, r1, #16
	strb	r5, [r6, #6]
	lsrs	r5, r1, #8
	strb	r5, [r6, #5]
	lsrs	r5, r0, #24
	strb	r5, [r6, #3]
	lsrs	r5, r0, #16
	add.w	r12, sp, #436
	strb	r5, [r6, #2]
	lsrs	r5, r0, #8
	stm.w	r12, {r0, r1, r3}
	adds	r0, r7, #1
	strb	r2, [r6, #12]
	strb	r1, [r6, #4]
	str	r2, [sp, #448]
	adc	r1, r4, #0
	subs.w	r2, r7, #8
	sbcs	r2, r4, #0
	mov	r7, r0
	mov	r4, r1
	strb	r5, [r6, #1]
	strb	r3, [r6, #8]
	blo	.LBB06db0_1
	ldr	r6, [sp, #104]
	ldr	r4, [sp, #108]
	lsrs	r0, r6, #24
	str	r0, [sp, #44]
	lsrs	r0, r6, #16
	str	r0, [sp, #40]
	lsrs	r0, r6, #8
	str	r0, [sp, #36]
	lsrs	r0, r4, #24
	str	r0, [sp, #56]
	lsrs	r0, r4, #16
	str	r0, [sp, #52]
	lsrs	r0, r4, #8
	str	r0, [sp, #48]
	lsr.w	r0, r9, #24
	str	r0, [sp, #72]
	lsr.w	r0, r9, #16
	str	r0, [sp, #68]
	lsr.w	r0, r9, #8
	str.w	r9, [sp, #76]
	ldr.w	r9, [sp, #112]
	str	r0, [sp, #64]
	lsr.w	r0, r9, #24
	str	r0, [sp, #88]
	lsr.w	r0, r9, #16
	str	r0, [sp, #84]
	lsr.w	r0, r9, #8
	str	r0, [sp, #80]
	add	r0, sp, #404
	movs	r2, #9
	movs	r3, #0
	str.w	r11, [sp]
	bl	"aes_block::sliced_schedule::next_columns"
	ldrd	r11, r7, [sp, #404]
	ldrd	r5, r10, [sp, #412]
	lsr.w	r0, r11, #8
	str	r0, [sp, #100]
	lsr.w	r0, r11, #16
	str	r0, [sp, #96]
	lsr.w	r0, r11, #24
	str	r0, [sp, #92]
	lsrs	r0, r7, #8
	str	r0, [sp, #60]
	lsrs	r0, r7, #16
	str	r0, [sp, #32]
	lsrs	r0, r7, #24
	str	r0, [sp, #28]
	lsrs	r0, r5, #8
	str	r0, [sp, #24]
	lsrs	r0, r5, #16
	str	r0, [sp, #20]
	lsrs	r0, r5, #24
	str	r0, [sp, #16]
	lsr.w	r0, r10, #8
	str	r0, [sp, #12]
	lsr.w	r0, r10, #16
	str	r0, [sp, #8]
	lsr.w	r0, r10, #24
	str	r0, [sp, #4]
	add	r0, sp, #260
	add	r1, sp, #452
	movs	r2, #144
	bl	__aeabi_memcpy4
	add	r0, sp, #116
	add	r1, sp, #260
	movs	r2, #144
	bl	__aeabi_memcpy4
	ldr	r0, [sp, #44]
	strb.w	r6, [r8, #12]
	strb.w	r0, [r8, #15]
	ldr	r0, [sp, #40]
	strb.w	r4, [r8, #8]
	strb.w	r0, [r8, #14]
	ldr	r0, [sp, #36]
	add	r1, sp, #116
	strb.w	r0, [r8, #13]
	ldr	r0, [sp, #56]
	movs	r2, #144
	strb.w	r0, [r8, #11]
	ldr	r0, [sp, #52]
	strb.w	r0, [r8, #10]
	ldr	r0, [sp, #48]
	strb.w	r0, [r8, #9]
	ldr	r0, [sp, #72]
	strb.w	r0, [r8, #7]
	ldr	r0, [sp, #68]
	strb.w	r0, [r8, #6]
	ldr	r0, [sp, #64]
	strb.w	r0, [r8, #5]
	ldr	r0, [sp, #76]
	strb.w	r0, [r8, #4]
	ldr	r0, [sp, #88]
	strb.w	r0, [r8, #3]
	ldr	r0, [sp, #84]
	strb.w	r0, [r8, #2]
	ldr	r0, [sp, #80]
	strb.w	r0, [r8, #1]
	strb	r9, [r8], #16
	mov	r0, r8
	bl	__aeabi_memcpy
	ldr	r0, [sp, #4]
	strb.w	r10, [r8, #156]
	strb.w	r0, [r8, #159]
	ldr	r0, [sp, #8]
	strb.w	r5, [r8, #152]
	strb.w	r0, [r8, #158]
	ldr	r0, [sp, #12]
	strb.w	r7, [r8, #148]
	strb.w	r0, [r8, #157]
	ldr	r0, [sp, #16]
	strb.w	r11, [r8, #144]
	strb.w	r0, [r8, #155]
	ldr	r0, [sp, #20]
	strb.w	r0, [r8, #154]
	ldr	r0, [sp, #24]
	strb.w	r0, [r8, #153]
	ldr	r0, [sp, #28]
	strb.w	r0, [r8, #151]
	ldr	r0, [sp, #32]
	strb.w	r0, [r8, #150]
	ldr	r0, [sp, #60]
	strb.w	r0, [r8, #149]
	ldr	r0, [sp, #92]
	strb.w	r0, [r8, #147]
	ldr	r0, [sp, #96]
	strb.w	r0, [r8, #146]
	ldr	r0, [sp, #100]
	strb.w	r0, [r8, #145]
	add.w	sp, sp, #596
	pop.w	{r4, r5, r6, r7, r8, r9, r10, r11, pc}
.Lfunc_end06db0:
	.size	"aes_block::Aes128::new", .Lfunc_end06db0-"aes_block::Aes128::new"
	.cantunwind
	.fnend

	.section	".text.aes_block::sliced_schedule::next_columns","ax",%progbits
	.p2align	2
	.type	"aes_block::sliced_schedule::next_columns",%function
	.code	16
	.thumb_func
"aes_block::sliced_schedule::next_columns":
	.fnstart
	.save	{r4, r5, r6, r7, r8, r9, r10, r11, lr}
	push.w	{r4, r5, r6, r7, r8, r9, r10, r11, lr}
	.pad	#132
	sub	sp, #132
	ldr	r1, [sp, #168]
	mov	r4, r0
	ldr	r5, [r1, #12]
	movs	r0, #0
	add	r6, sp, #36
	ldr.w	r8, [r1]
	ldr.w	r9, [r1, #4]
	ldr.w	r11, [r1, #8]
	strd	r0, r0, [sp, #8]
	strd	r0, r0, [sp, #16]
	strd	r0, r0, [sp, #24]
	str	r0, [sp, #32]
	add	r1, sp, #4
	mov	r0, r6
	mov	r10, r2
	str	r5, [sp, #4]
	bl	"aes_block::slices::transpose"
	add	r7, sp, #68
	mov	r0, r7
	mov	r1, r6
	bl	"aes_block::sliced_box::substitute"
	add	r0, sp, #100
	mov	r1, r7
	bl	"aes_block::slices::transpose"
	movw	r1, :lower16:.Lstatic.11
	ldr	r0, [sp, #100]
	movt	r1, :upper16:.Lstatic.11
	ldrb.w	r1, [r1, r10]
	ubfx	r2, r0, #8, #8
	eors	r1, r2
	mvn	r2, #255
	and.w	r0, r2, r0, ror #8
	add	r0, r1
	eor.w	r0, r0, r8
	eor.w	r1, r0, r9
	eor.w	r2, r1, r11
	eor.w	r3, r2, r5
	str	r0, [r4]
	str	r1, [r4, #4]
	str	r2, [r4, #8]
	str	r3, [r4, #12]
	add	sp, #132
	pop.w	{r4, r5, r6, r7, r8, r9, r10, r11, pc}
.Lfunc_end2c7c4:
	.size	"aes_block::sliced_schedule::next_columns", .Lfunc_end2c7c4-"aes_block::sliced_schedule::next_columns"
	.cantunwind
	.fnend

	.section	".text.aes_block::sliced_box::substitute","ax",%progbits
	.p2align	2
	.type	"aes_block::sliced_box::substitute",%function
	.code	16
	.thumb_func
"aes_block::sliced_box::substitute":
	.fnstart
	.save	{r4, r5, r6, r7, r8, r9, r10, r11, lr}
	push.w	{r4, r5, r6, r7, r8, r9, r10, r11, lr}
	.pad	#64
	sub	sp, #64
	ldr	r7, [r1, #4]
	ldr	r2, [r1, #8]
	ldr	r3, [r1, #16]
	ldr.w	r8, [r1, #28]
	ldr	r5, [r1, #20]
	ldr	r6, [r1, #24]
	ldr.w	r12, [r1, #12]
	eor.w	r9, r3, r2
	eor.w	r4, r8, r7
	eor.w	lr, r6, r5
	eor.w	r5, r4, r9
	str	r7, [sp, #24]
	str	r3, [sp, #28]
	eor.w	r7, r8, r3
	eor.w	r3, r5, r12
	eor.w	r10, r8, r2
	eors	r2, r3
	eor.w	r11, r3, r6
	eor.w	r12, r2, lr
	eor.w	r6, r11, r7
	str	r5, [sp, #60]
	eor.w	r5, r12, r6
	str.w	r9, [sp, #48]
	and.w	r3, r5, r9
	ldr.w	r9, [r1]
	str	r0, [sp, #52]
	mov	r0, lr
	str	r7, [sp, #40]
	ands	r7, r6
	and.w	r1, r12, r10
	str.w	lr, [sp, #4]
	eor.w	lr, r3, r7
	eors	r1, r7
	eor.w	r7, r0, r9
	ldr	r0, [sp, #24]
	str	r5, [sp, #44]
	eor.w	r5, r7, r0
	str	r1, [sp]
	eor.w	r0, r5, r10
	eor.w	r1, r2, r9
	str	r4, [sp, #56]
	str	r0, [sp, #24]
	str	r1, [sp, #20]
	and.w	r4, r1, r0
	ldr	r0, [sp, #28]
	ldr	r1, [sp, #60]
	mov	r3, r2
	str	r2, [sp, #16]
	eor.w	r2, r11, r4
	eor.w	r4, r7, r0
	ands	r1, r3
	eor.w	r0, r2, r1
	and.w	r2, r4, r9
	eor.w	r2, r2, r10
	eor.w	r2, r2, r12
	str.w	r10, [sp, #36]
	eor.w	r10, r2, r1
	ldr	r1, [sp, #4]
	ldr	r2, [sp, #56]
	str	r4, [sp, #28]
	eor.w	r3, r6, r1
	and.w	r4, r5, r7
	eor.w	r1, r0, lr
	eors	r4, r3
	and.w	r0, r3, r2
	eors	r4, r0
	eors	r4, r2
	eor.w	r11, r7, r8
	eor.w	r2, r6, r9
	str	r5, [sp, #12]
	and.w	r5, r2, r11
	str	r2, [sp, #4]
	eors	r5, r3
	ldr	r2, [sp]
	eors	r0, r5
	eor.w	r4, r4, lr
	eor.w	r0, r0, r8
	eor.w	r5, r10, r2
	str.w	r12, [sp, #32]
	str	r6, [sp, #8]
	eor.w	r6, r0, r2
	eor.w	r12, r1, r5
	ands	r1, r4
	eor.w	r10, r6, r1
	and.w	r0, r10, r12
	eor.w	r2, r0, r5
	eors	r5, r1
	eor.w	r8, r6, r4
	and.w	r5, r5, r8
	eor.w	r8, r5, r1
	eor.w	r1, r5, r6
	and.w	r5, r8, r6
	eors	r4, r5
	eor.w	r5, r5, r10
	ands	r5, r2
	eor.w	r5, r5, r12
	ldr	r0, [sp, #56]
	eor.w	r6, r5, r2
	ands	r0, r6
	str	r0, [sp, #56]
	ldr	r0, [sp, #16]
	and.w	lr, r6, r3
	ands	r0, r4
	str	r0, [sp, #16]
	ldr	r0, [sp, #60]
	ands	r7, r5
	and.w	r10, r4, r0
	ldr	r0, [sp, #20]
	eors	r4, r1
	ands	r0, r4
	str	r0, [sp, #60]
	ldr	r0, [sp, #24]
	eor.w	r8, r5, r4
	and.w	r6, r4, r0
	ldr	r0, [sp, #12]
	ldr	r4, [sp, #48]
	ands	r0, r5
	str	r0, [sp, #24]
	ldr	r0, [sp, #28]
	and.w	r5, r1, r9
	and.w	r12, r1, r0
	eor.w	r0, r2, r1
	ldr	r1, [sp, #4]
	and.w	r3, r2, r1
	and.w	r1, r2, r11
	str	r1, [sp, #28]
	ldr	r1, [sp, #8]
	and.w	r11, r0, r1
	ldr	r1, [sp, #40]
	and.w	r2, r0, r1
	eor.w	r0, r0, r8
	ldr	r1, [sp, #44]
	and.w	r9, r0, r4
	ldr	r4, [sp, #36]
	ands	r1, r0
	ldr	r0, [sp, #32]
	and.w	r4, r4, r8
	str	r4, [sp, #48]
	ldr	r4, [sp, #16]
	and.w	r0, r0, r8
	eor.w	r8, r6, r12
	eor.w	r12, r10, r6
	eor.w	r6, lr, r11
	eor.w	r2, r2, r9
	eor.w	r10, lr, r4
	eors	r0, r1
	eor.w	lr, r6, r1
	eor.w	r6, r2, r7
	eor.w	r1, r0, r6
	eor.w	r0, r12, r6
	ldr	r6, [sp, #24]
	ldr	r4, [sp, #56]
	eors	r6, r3
	eor.w	r12, r5, r3
	eors	r5, r4
	ldr	r3, [sp, #28]
	eor.w	r5, r5, r10
	eors	r3, r5
	eors	r5, r6
	eor.w	r11, r5, r2
	ldr	r2, [sp, #60]
	eor.w	r5, r6, r4
	eors	r3, r1
	eors	r1, r5
	eor.w	r5, r0, r2
	ldr	r2, [sp, #48]
	eor.w	r7, r7, lr
	eor.w	r6, r5, r10
	eor.w	r12, r12, r5
	eor.w	r4, r7, r2
	ldr	r5, [sp, #52]
	eor.w	r4, r4, r9
	mvns	r1, r1
	eor.w	r2, r8, r3
	eors	r3, r4
	str	r1, [r5, #4]
	eor.w	r1, r7, r6
	eor.w	r0, r0, lr
	mvn.w	r4, r11
	str	r2, [r5, #8]
	mvns	r2, r3
	mvns	r1, r1
	str	r4, [r5]
	str.w	r12, [r5, #12]
	str	r6, [r5, #16]
	str	r2, [r5, #20]
	str	r1, [r5, #24]
	str	r0, [r5, #28]
	add	sp, #64
	pop.w	{r4, r5, r6, r7, r8, r9, r10, r11, pc}
.Lfunc_endd8124:
	.size	"aes_block::sliced_box::substitute", .Lfunc_endd8124-"aes_block::sliced_box::substitute"
	.cantunwind
	.fnend

	.section	".text.aes_block::slices::transpose","ax",%progbits
	.p2align	2
	.type	"aes_block::slices::transpose",%function
	.code	16
	.thumb_func
"aes_block::slices::transpose":
	.fnstart
	.save	{r4, r5, r6, r7, r8, r9, lr}
	push.w	{r4, r5, r6, r7, r8, r9, lr}
	ldr	r2, [r1]
	ldr	r3, [r1, #4]
	ldr.w	r12, [r1, #8]
	ldr.w	lr, [r1, #12]
	eor.w	r7, r3, r2, lsr #1
	ldr	r4, [r1, #16]
	ldr	r5, [r1, #20]
	bic	r7, r7, #-1431655766
	eor.w	r2, r2, r7, lsl #1
	eor.w	r8, r7, r3
	eor.w	r7, lr, r12, lsr #1
	ldr	r6, [r1, #24]
	ldr.w	r9, [r1, #28]
	bic	r7, r7, #-1431655766
	eor.w	r1, r5, r4, lsr #1
	eor.w	r3, r12, r7, lsl #1
	bic	r1, r1, #-1431655766
	eor.w	r4, r4, r1, lsl #1
	eor.w	r12, r1, r5
	eor.w	r1, r3, r2, lsr #2
	eor.w	r7, r7, lr
	eor.w	r5, r9, r6, lsr #1
	bic	r1, r1, #-858993460
	bic	r5, r5, #-1431655766
	eor.w	lr, r1, r3
	eor.w	r3, r7, r8, lsr #2
	eor.w	r6, r6, r5, lsl #1
	bic	r3, r3, #-858993460
	eor.w	r2, r2, r1, lsl #2
	eor.w	r1, r8, r3, lsl #2
	eor.w	r8, r3, r7
	eor.w	r7, r6, r4, lsr #2
	eor.w	r5, r5, r9
	bic	r7, r7, #-858993460
	eor.w	r4, r4, r7, lsl #2
	eors	r6, r7
	eor.w	r7, r5, r12, lsr #2
	bic	r7, r7, #-858993460
	eor.w	r3, r12, r7, lsl #2
	eors	r7, r5
	eor.w	r5, r4, r2, lsr #4
	bic	r5, r5, #-252645136
	eor.w	r12, r5, r4
	eor.w	r4, r3, r1, lsr #4
	bic	r4, r4, #-252645136
	eor.w	r1, r1, r4, lsl #4
	eors	r3, r4
	eor.w	r4, r6, lr, lsr #4
	bic	r4, r4, #-252645136
	eor.w	r9, r2, r5, lsl #4
	eor.w	r5, lr, r4, lsl #4
	eors	r6, r4
	eor.w	r4, r7, r8, lsr #4
	bic	r4, r4, #-252645136
	eor.w	r2, r8, r4, lsl #4
	eors	r7, r4
	str.w	r9, [r0]
	str	r1, [r0, #4]
	str	r5, [r0, #8]
	str	r2, [r0, #12]
	str.w	r12, [r0, #16]
	str	r3, [r0, #20]
	str	r6, [r0, #24]
	str	r7, [r0, #28]
	pop.w	{r4, r5, r6, r7, r8, r9, pc}
.Lfunc_end528fc:
	.size	"aes_block::slices::transpose", .Lfunc_end528fc-"aes_block::slices::transpose"
	.cantunwind
	.fnend

	.section	".text.aes_block::Aes128::encrypt_block","ax",%progbits
	.p2align	2
	.type	"aes_block::Aes128::encrypt_block",%function
	.code	16
	.thumb_func
"aes_block::Aes128::encrypt_block":
	.fnstart
	.save	{r4, r5, r6, r7, r8, r9, r10, r11, lr}
	push.w	{r4, r5, r6, r7, r8, r9, r10, r11, lr}
	.setfp	r7, sp, #12
	add	r7, sp, #12
	.pad	#380
	sub	sp, #380
	mov	r4, sp
	bfc	r4, #0, #4
	mov	sp, r4
	str	r0, [sp, #68]
	ldr	r5, [r2]
	ldr	r6, [r2, #4]
	ldr	r3, [r2, #8]
	ldr	r0, [r2, #12]
	ldr	r2, [r1, #12]
	strd	r0, r0, [sp, #372]
	str	r2, [sp, #156]
	ldrb.w	r2, [r1, #172]
	ldrb.w	r0, [r1, #165]
	str	r2, [sp, #52]
	ldrb.w	r2, [r1, #171]
	str	r0, [sp, #24]
	ldrb.w	r0, [r1, #164]
	str	r2, [sp, #48]
	ldrb.w	r2, [r1, #170]
	add.w	r4, r1, #16
	str	r0, [sp, #20]
	ldrb.w	r0, [r1, #163]
	str	r4, [sp, #72]
	ldrb.w	r4, [r1, #175]
	str	r2, [sp, #44]
	ldrb.w	r2, [r1, #169]
	str	r0, [sp, #16]
	ldrb.w	r0, [r1, #162]
	str	r4, [sp, #64]
	ldrb.w	r4, [r1, #174]
	str	r2, [sp, #40]
	ldrb.w	r2, [r1, #168]
	str	r0, [sp, #12]
	ldrb.w	r0, [r1, #161]
	str	r4, [sp, #60]
	ldrb.w	r4, [r1, #173]
	str	r2, [sp, #36]
	ldrb.w	r2, [r1, #167]
	str	r0, [sp, #4]
	ldrb.w	r0, [r1, #160]
	ldr.w	r12, [r1]
	ldr.w	lr, [r1, #4]
	ldr.w	r8, [r1, #8]
	str	r4, [sp, #56]
	str	r2, [sp, #32]
	ldrb.w	r2, [r1, #166]
	add	r4, sp, #160
	str	r0, [sp, #8]
	mov.w	r11, #0
	add	r1, sp, #348
	mov	r0, r4
	str.w	r8, [sp, #152]
	str.w	lr, [sp, #148]
	str.w	r12, [sp, #144]
	strd	r5, r5, [sp, #348]
	strd	r6, r6, [sp, #356]
	strd	r3, r3, [sp, #364]
	str	r2, [sp, #28]
	strd	r11, r11, [sp, #80]
	strd	r11, r11, [sp, #88]
	strd	r11, r11, [sp, #96]
	strd	r11, r11, [sp, #104]
	bl	"aes_block::slices::transpose"
	add	r0, sp, #112
	add	r2, sp, #144
	mov	r1, r4
	bl	"aes_block::sliced_rounds::add_round_key"
	movs	r0, #0
	.p2align	2
.LBB13069_1:
	ldr	r2, [sp, #72]
	str	r0, [sp, #76]
	lsl.w	r0, r11, #4
	add.w	r1, r2, r11, lsl #4
	ldr	r0, [r2, r0]
	ldr	r2, [r1, #4]
	ldr	r3, [r1, #12]
	ldr	r1, [r1, #8]
	add.w	r10, sp, #348
	strd	r1, r3, [sp, #264]
	strd	r0, r2, [sp, #256]
	mov	r0, r10
	add	r1, sp, #112
	mov	r8, r11
	bl	"aes_block::sliced_box::substitute"
	mov	r2, r10
	add	r1, sp, #192
	ldm	r2!, {r3, r4, r5, r6}
	mov	r0, r1
	stm	r0!, {r3, r4, r5, r6}
	ldm.w	r2, {r3, r4, r5, r6}
	stm	r0!, {r3, r4, r5, r6}
	add	r0, sp, #224
	bl	"aes_block::sliced_rounds::shift_rows"
	ldrd	r6, r5, [sp, #224]
	ldrd	r0, r4, [sp, #232]
	eor.w	r1, r6, r6, ror #8
	ror.w	r2, r1, #16
	eor.w	r12, r2, r6, ror #8
	eor.w	r2, r5, r5, ror #8
	eor.w	r1, r1, r2, ror #16
	eor.w	r1, r1, r5, ror #8
	ror.w	r5, r0, #8
	eor.w	r0, r0, r0, ror #8
	add.w	lr, sp, #240
	eor.w	r5, r5, r0, ror #16
	ldm.w	lr, {r3, r9, r11, lr}
	eor.w	r6, r5, r2
	eor.w	r2, r4, r4, ror #8
	eor.w	r0, r0, r2, ror #16
	eor.w	r0, r0, r4, ror #8
	eor.w	r4, r3, r3, ror #8
	eor.w	r2, r2, r4, ror #16
	eor.w	r2, r2, r3, ror #8
	ror.w	r3, r9, #8
	eor.w	r5, r9, r9, ror #8
	eor.w	r3, r3, r5, ror #16
	eor.w	r9, r3, r4
	ror.w	r4, r11, #8
	eor.w	r3, r11, r11, ror #8
	eor.w	r4, r4, r3, ror #16
	eor.w	r11, r4, r5
	eor.w	r4, lr, lr, ror #8
	ror.w	r5, lr, #8
	eors	r0, r4
	eor.w	r12, r12, r4
	eors	r1, r4
	eors	r2, r4
	eor.w	r5, r5, r4, ror #16
	strd	r6, r0, [sp, #292]
	add	r0, sp, #300
	eors	r3, r5
	strd	r12, r1, [sp, #284]
	stm.w	r0, {r2, r9, r11}
	add	r1, sp, #284
	add	r2, sp, #256
	mov	r0, r10
	str	r3, [sp, #312]
	bl	"aes_block::sliced_rounds::add_round_key"
	add	r1, sp, #80
	ldm.w	r10!, {r3, r4, r5, r6}
	mov	r0, r1
	stm	r0!, {r3, r4, r5, r6}
	ldm.w	r10, {r3, r4, r5, r6}
	adds.w	r11, r8, #1
	stm	r0!, {r3, r4, r5, r6}
	ldr.w	r12, [sp, #76]
	ldm	r1!, {r3, r4, r5, r6}
	adc	r0, r12, #0
	subs.w	r2, r8, #8
	add	r2, sp, #112
	stm	r2!, {r3, r4, r5, r6}
	sbcs	r3, r12, #0
	ldm.w	r1, {r3, r4, r5, r6}
	stm	r2!, {r3, r4, r5, r6}
	blo.w	.LBB13069_1
	ldr	r0, [sp, #4]
	add	r4, sp, #316
	strb.w	r0, [sp, #225]
	ldr	r0, [sp, #8]
	add	r1, sp, #80
	strb.w	r0, [sp, #224]
	ldr	r0, [sp, #12]
	strb.w	r0, [sp, #226]
	ldr	r0, [sp, #16]
	strb.w	r0, [sp, #227]
	ldr	r0, [sp, #20]
	strb.w	r0, [sp, #228]
	ldr	r0, [sp, #24]
	strb.w	r0, [sp, #229]
	ldr	r0, [sp, #28]
	strb.w	r0, [sp, #230]
	ldr	r0, [sp, #32]
	strb.w	r0, [sp, #231]
	ldr	r0, [sp, #36]
	strb.w	r0, [sp, #232]
	ldr	r0, [sp, #40]
	strb.w	r0, [sp, #233]
	ldr	r0, [sp, #44]
	strb.w	r0, [sp, #234]
	ldr	r0, [sp, #48]
	strb.w	r0, [sp, #235]
	ldr	r0, [sp, #52]
	strb.w	r0, [sp, #236]
	ldr	r0, [sp, #56]
	strb.w	r0, [sp, #237]
	ldr	r0, [sp, #60]
	strb.w	r0, [sp, #238]
	ldr	r0, [sp, #64]
	strb.w	r0, [sp, #239]
	mov	r0, r4
	bl	"aes_block::sliced_box::substitute"
	add	r5, sp, #284
	mov	r0, r5
	mov	r1, r4
	bl	"aes_block::sliced_rounds::shift_rows"
	add	r4, sp, #348
	add	r2, sp, #224
	mov	r0, r4
	mov	r1, r5
	bl	"aes_block::sliced_rounds::add_round_key"
	add	r1, sp, #160
	ldm	r4!, {r2, r3, r5, r6}
	mov	r0, r1
	stm	r0!, {r2, r3, r5, r6}
	ldm.w	r4, {r2, r3, r5, r6}
	stm	r0!, {r2, r3, r5, r6}
	add	r0, sp, #348
	bl	"aes_block::slices::transpose"
	ldr	r0, [sp, #372]
	ldr	r2, [sp, #68]
	lsrs	r1, r0, #24
	strb	r1, [r2, #15]
	lsrs	r1, r0, #16
	strb	r1, [r2, #14]
	lsrs	r1, r0, #8
	strb	r1, [r2, #13]
	ldr	r1, [sp, #364]
	strb	r0, [r2, #12]
	lsrs	r0, r1, #24
	strb	r0, [r2, #11]
	lsrs	r0, r1, #16
	strb	r0, [r2, #10]
	lsrs	r0, r1, #8
	strb	r0, [r2, #9]
	ldr	r0, [sp, #356]
	strb	r1, [r2, #8]
	lsrs	r1, r0, #24
	strb	r1, [r2, #7]
	lsrs	r1, r0, #16
	strb	r1, [r2, #6]
	lsrs	r1, r0, #8
	strb	r1, [r2, #5]
	ldr	r1, [sp, #348]
	strb	r0, [r2, #4]
	lsrs	r0, r1, #24
	strb	r0, [r2, #3]
	lsrs	r0, r1, #16
	strb	r0, [r2, #2]
	lsrs	r0, r1, #8
	sub.w	r4, r7, #12
	strb	r0, [r2, #1]
	strb	r1, [r2]
	mov	sp, r4
	pop.w	{r4, r5, r6, r7, r8, r9, r10, r11, pc}
.Lfunc_end13069:
	.size	"aes_block::Aes128::encrypt_block", .Lfunc_end13069-"aes_block::Aes128::encrypt_block"
	.cantunwind
	.fnend

	.section	".text.aes_block::sliced_rounds::add_round_key","ax",%progbits
	.p2align	2
	.type	"aes_block::sliced_rounds::add_round_key",%function
	.code	16
	.thumb_func
"aes_block::sliced_rounds::add_round_key":
	.fnstart
	.save	{r4, r5, r6, r7, r8, r9, r10, r11, lr}
	push.w	{r4, r5, r6, r7, r8, r9, r10, r11, lr}
	.pad	#68
	sub	sp, #68
	mov	r4, r0
	ldr	r0, [r1, #24]
	ldr.w	r8, [r1]
	ldr	r5, [r1, #4]
	ldr	r7, [r1, #8]
	ldr	r6, [r1, #12]
	ldr.w	r11, [r1, #16]
	ldr.w	r10, [r1, #20]
	str	r0, [sp]
	ldr.w	r9, [r1, #28]
	ldr	r0, [r2]
	ldr	r1, [r2, #4]
	ldr	r3, [r2, #8]
	ldr	r2, [r2, #12]
	strd	r0, r0, [sp, #4]
	strd	r1, r1, [sp, #12]
	add	r0, sp, #36
	add	r1, sp, #4
	strd	r3, r3, [sp, #20]
	strd	r2, r2, [sp, #28]
	bl	"aes_block::slices::transpose"
	ldrd	r0, r1, [sp, #36]
	ldr	r2, [sp, #44]
	ldr	r3, [sp, #48]
	eor.w	r12, r0, r8
	eor.w	lr, r1, r5
	eors	r2, r7
	ldr	r7, [sp, #52]
	eors	r3, r6
	ldr	r6, [sp, #56]
	ldr	r5, [sp, #60]
	ldr	r0, [sp, #64]
	ldr	r1, [sp]
	eor.w	r7, r7, r11
	eor.w	r6, r6, r10
	eors	r5, r1
	eor.w	r0, r0, r9
	str.w	r12, [r4]
	str.w	lr, [r4, #4]
	str	r2, [r4, #8]
	str	r3, [r4, #12]
	str	r7, [r4, #16]
	str	r6, [r4, #20]
	str	r5, [r4, #24]
	str	r0, [r4, #28]
	add	sp, #68
	pop.w	{r4, r5, r6, r7, r8, r9, r10, r11, pc}
.Lfunc_endd5a48:
	.size	"aes_block::sliced_rounds::add_round_key", .Lfunc_endd5a48-"aes_block::sliced_rounds::add_round_key"
	.cantunwind
	.fnend

	.section	".text.aes_block::sliced_rounds::shift_rows","ax",%progbits
	.p2align	2
	.type	"aes_block::sliced_rounds::shift_rows",%function
	.code	16
	.thumb_func
"aes_block::sliced_rounds::shift_rows":
	.fnstart
	.save	{r4, r5, r6, r7, r8, r9, r10, r11, lr}
	push.w	{r4, r5, r6, r7, r8, r9, r10, r11, lr}
	.pad	#20
	sub	sp, #20
	ldr	r2, [r1]
	ldr	r5, [r1, #4]
	ldr	r7, [r1, #8]
	ldr	r6, [r1, #12]
	ldr.w	r8, [r1, #16]
	ldr.w	r11, [r1, #20]
	ldr	r3, [r1, #24]
	ldr	r1, [r1, #28]
	mov	r4, r0
	mov	r0, r2
	str	r3, [sp, #8]
	str	r1, [sp, #16]
	bl	"aes_block::sliced_rounds::shift_slice"
	str	r0, [sp, #12]
	mov	r0, r5
	bl	"aes_block::sliced_rounds::shift_slice"
	str	r0, [sp, #4]
	mov	r0, r7
	bl	"aes_block::sliced_rounds::shift_slice"
	mov	r10, r0
	mov	r0, r6
	bl	"aes_block::sliced_rounds::shift_slice"
	mov	r9, r0
	mov	r0, r8
	bl	"aes_block::sliced_rounds::shift_slice"
	mov	r5, r0
	mov	r0, r11
	bl	"aes_block::sliced_rounds::shift_slice"
	mov	r7, r0
	ldr	r0, [sp, #8]
	bl	"aes_block::sliced_rounds::shift_slice"
	mov	r6, r0
	ldr	r0, [sp, #16]
	bl	"aes_block::sliced_rounds::shift_slice"
	ldr	r1, [sp, #12]
	str.w	r10, [r4, #8]
	str	r1, [r4]
	ldr	r1, [sp, #4]
	str.w	r9, [r4, #12]
	str	r1, [r4, #4]
	str	r5, [r4, #16]
	str	r7, [r4, #20]
	str	r6, [r4, #24]
	str	r0, [r4, #28]
	add	sp, #20
	pop.w	{r4, r5, r6, r7, r8, r9, r10, r11, pc}
.Lfunc_end58ffa:
	.size	"aes_block::sliced_rounds::shift_rows", .Lfunc_end58ffa-"aes_block::sliced_rounds::shift_rows"
	.cantunwind
	.fnend

	.section	".text.aes_block::sliced_rounds::shift_slice","ax",%progbits
	.p2align	2
	.type	"aes_block::sliced_rounds::shift_slice",%function
	.code	16
	.thumb_func
"aes_block::sliced_rounds::shift_slice":
	.fnstart
	lsrs	r1, r0, #10
	lsrs	r2, r0, #2
	bfi	r2, r1, #0, #6
	lsrs	r1, r0, #20
	lsrs	r3, r0, #12
	bfi	r3, r1, #0, #4
	mvn	r1, #3
	and.w	r1, r1, r0, lsr #22
	orr.w	r1, r1, r0, lsr #30
	lsls	r1, r1, #24
	uxtb	r3, r3
	orr.w	r1, r1, r3, lsl #16
	uxtb	r2, r2
	orr.w	r1, r1, r2, lsl #8
	uxtb	r0, r0
	add	r0, r1
	bx	lr
.Lfunc_end98ff5:
	.size	"aes_block::sliced_rounds::shift_slice", .Lfunc_end98ff5-"aes_block::sliced_rounds::shift_slice"
	.cantunwind
	.fnend

	.section	".text.login_keys::psk::counter_block","ax",%progbits
	.p2align	2
	.type	"login_keys::psk::counter_block",%function
	.code	16
	.thumb_func
"login_keys::psk::counter_block":
	.fnstart
	.save	{r4, r5, r6, r7, r8, r9, lr}
	push.w	{r4, r5, r6, r7, r8, r9, lr}
	.setfp	r7, sp, #12
	add	r7, sp, #12
	.pad	#68
	sub	sp, #68
	mov	r4, sp
	bfc	r4, #0, #4
	mov	sp, r4
	mov	r4, r0
	mov	r0, r2
	mov	r9, r3
	mov	r8, r1
	bl	"core::int::u128::from_be_bytes"
	mov	r5, r2
	uxtb.w	r2, r9
	mov	r6, r3
	eors	r2, r0
	add	r0, sp, #16
	mov	r3, r1
	strd	r5, r6, [sp]
	bl	"core::int::u128::to_be_bytes"
	ldr	r0, [sp, #16]
	ldr	r1, [sp, #20]
	ldr	r2, [sp, #24]
	add.w	r12, sp, #32
	ldr	r3, [sp, #28]
	movs	r6, #0
	stm.w	r12, {r0, r1, r2, r3, r6}
	add	r0, sp, #48
	add	r2, sp, #32
	mov	r1, r8
	strd	r6, r6, [sp, #52]
	str	r6, [sp, #60]
	bl	"aes_block::Aes128::encrypt_block"
	add	r3, sp, #48
	ldm	r3, {r0, r1, r2, r3}
	str	r1, [r4, #4]
	str	r0, [r4]
	str	r2, [r4, #8]
	str	r3, [r4, #12]
	sub.w	r4, r7, #12
	mov	sp, r4
	pop.w	{r4, r5, r6, r7, r8, r9, pc}
.Lfunc_enddf94e:
	.size	"login_keys::psk::counter_block", .Lfunc_enddf94e-"login_keys::psk::counter_block"
	.cantunwind
	.fnend

	.section	".text.core::int::u128::from_be_bytes","ax",%progbits
	.p2align	2
	.type	"core::int::u128::from_be_bytes",%function
	.code	16
	.thumb_func
"core::int::u128::from_be_bytes":
	.fnstart
	.save	{r4, r5, r6, r7, r8, lr}
	push.w	{r4, r5, r6, r7, r8, lr}
	.pad	#8
	sub	sp, #8
	ldr	r1, [r0]
	ldr	r2, [r0, #4]
	mov	r8, sp
	ldr	r7, [r0, #8]
	ldr	r4, [r0, #12]
	mov	r0, r8
	str	r1, [sp]
	str	r2, [sp, #4]
	bl	"core::int::u64::from_be_bytes"
	mov	r5, r0
	mov	r0, r8
	mov	r6, r1
	str	r7, [sp]
	str	r4, [sp, #4]
	bl	"core::int::u64::from_be_bytes"
	mov	r2, r5
	mov	r3, r6
	add	sp, #8
	pop.w	{r4, r5, r6, r7, r8, pc}
.Lfunc_endda797:
	.size	"core::int::u128::from_be_bytes", .Lfunc_endda797-"core::int::u128::from_be_bytes"
	.cantunwind
	.fnend

	.section	".text.core::int::u64::from_be_bytes","ax",%progbits
	.p2align	2
	.type	"core::int::u64::from_be_bytes",%function
	.code	16
	.thumb_func
"core::int::u64::from_be_bytes":
	.fnstart
	ldr	r1, [r0]
	ldr	r0, [r0, #4]
	rev	r1, r1
	rev	r0, r0
	bx	lr
.Lfunc_ende40ba:
	.size	"core::int::u64::from_be_bytes", .Lfunc_ende40ba-"core::int::u64::from_be_bytes"
	.cantunwind
	.fnend

	.section	".text.core::int::u128::to_be_bytes","ax",%progbits
	.p2align	2
	.type	"core::int::u128::to_be_bytes",%function
	.code	16
	.thumb_func
"core::int::u128::to_be_bytes":
	.fnstart
	.save	{r7, lr}
	push	{r7, lr}
	ldr.w	r12, [sp, #12]
	ldr.w	lr, [sp, #8]
	lsr.w	r1, r12, #24
	strb	r1, [r0]
	lsr.w	r1, r12, #16
	strb	r1, [r0, #1]
	lsr.w	r1, r12, #8
	strb	r1, [r0, #2]
	lsr.w	r1, lr, #24
	strb	r1, [r0, #4]
	lsr.w	r1, lr, #16
	strb	r1, [r0, #5]
	lsr.w	r1, lr, #8
	strb	r1, [r0, #6]
	lsrs	r1, r3, #24
	strb	r1, [r0, #8]
	lsrs	r1, r3, #16
	strb	r1, [r0, #9]
	lsrs	r1, r3, #8
	strb	r1, [r0, #10]
	lsrs	r1, r2, #24
	strb	r1, [r0, #12]
	lsrs	r1, r2, #16
	strb	r1, [r0, #13]
	lsrs	r1, r2, #8
	strb.w	r12, [r0, #3]
	strb.w	lr, [r0, #7]
	strb	r3, [r0, #11]
	strb	r1, [r0, #14]
	strb	r2, [r0, #15]
	pop	{r7, pc}
.Lfunc_end65020:
	.size	"core::int::u128::to_be_bytes", .Lfunc_end65020-"core::int::u128::to_be_bytes"
	.cantunwind
	.fnend

	.section	".text.login_keys::psk::psk_session","ax",%progbits
	.p2align	2
	.type	"login_keys::psk::psk_session",%function
	.code	16
	.thumb_func
"login_keys::psk::psk_session":
	.fnstart
	.save	{r4, r5, r6, r7, r8, r9, r10, r11, lr}
	push.w	{r4, r5, r6, r7, r8, r9, r10, r11, lr}
	.setfp	r7, sp, #12
	add	r7, sp, #12
	.pad	#524
	sub.w	sp, sp, #524
	mov	r4, sp
	bfc	r4, #0, #4
	mov	sp, r4
	add.w	r9, sp, #144
	mov	r6, r1
	mov	r8, r0
	mov	r0, r9
	movs	r1, #176
	mov	r4, r2
	bl	__aeabi_memclr4
	mov	r0, r9
	mov	r1, r6
	bl	"aes_block::Aes128::new"
	movs	r0, #0
	strd	r0, r0, [sp, #496]
	strd	r0, r0, [sp, #504]
	ldr	r0, [r4]
	ldr	r1, [r4, #4]
	ldr	r2, [r4, #8]
	add.w	r12, sp, #480
	ldr	r3, [r4, #12]
	stm.w	r12, {r0, r1, r2, r3}
	add	r0, sp, #496
	add	r2, sp, #480
	mov	r1, r9
	bl	"aes_block::Aes128::encrypt_block"
	add	r3, sp, #496
	ldm	r3, {r0, r1, r2, r3}
	add.w	r12, sp, #128
	stm.w	r12, {r0, r1, r2, r3}
	add.w	r12, sp, #320
	add	r5, sp, #320
	stm.w	r12, {r0, r1, r2, r3}
	add	r0, sp, #128
	mov	r1, r9
	mov	r2, r5
	movs	r3, #1
	bl	"login_keys::psk::counter_block"
	add.w	r11, sp, #64
	mov	r0, r11
	mov	r1, r9
	mov	r2, r5
	movs	r3, #2
	bl	"login_keys::psk::four_blocks"
	mov	r10, sp
	mov	r0, r10
	mov	r1, r9
	mov	r2, r5
	movs	r3, #6
	bl	"login_keys::psk::four_blocks"
	ldr	r2, [sp, #140]
	add	r3, sp, #128
	ldm	r3, {r0, r1, r3}
	str	r2, [sp, #348]
	add	r2, sp, #336
	stm	r2!, {r0, r1, r3}
	add	r1, sp, #336
	ldm.w	r11!, {r2, r3, r4, r5, r6}
	add.w	r0, r1, #16
	stm	r0!, {r2, r3, r4, r5, r6}
	ldm.w	r11!, {r2, r3, r4, r5, r6}
	stm	r0!, {r2, r3, r4, r5, r6}
	ldm.w	r11, {r2, r3, r4, r5, r6, r12}
	stm.w	r0, {r2, r3, r4, r5, r6, r12}
	ldm.w	r10!, {r2, r3, r4, r5, r6}
	add.w	r0, r1, #80
	stm	r0!, {r2, r3, r4, r5, r6}
	ldm.w	r10!, {r2, r3, r4, r5, r6}
	stm	r0!, {r2, r3, r4, r5, r6}
	ldm.w	r10, {r2, r3, r4, r5, r6, r12}
	stm.w	r0, {r2, r3, r4, r5, r6, r12}
	mov	r0, r8
	movs	r2, #144
	bl	__aeabi_memcpy
	sub.w	r4, r7, #12
	mov	sp, r4
	pop.w	{r4, r5, r6, r7, r8, r9, r10, r11, pc}
.Lfunc_end3bdb9:
	.size	"login_keys::psk::psk_session", .Lfunc_end3bdb9-"login_keys::psk::psk_session"
	.cantunwind
	.fnend

	.section	".text.login_keys::psk::four_blocks","ax",%progbits
	.p2align	2
	.type	"login_keys::psk::four_blocks",%function
	.code	16
	.thumb_func
"login_keys::psk::four_blocks":
	.fnstart
	.save	{r4, r5, r6, r7, r8, r9, r10, r11, lr}
	push.w	{r4, r5, r6, r7, r8, r9, r10, r11, lr}
	.pad	#236
	sub	sp, #236
	add.w	r9, sp, #108
	mov	r4, r1
	mov	r8, r0
	mov	r0, r9
	movs	r1, #64
	mov	r5, r3
	mov	r7, r2
	bl	__aeabi_memclr4
	add	r6, sp, #32
	mov	r0, r6
	movs	r1, #72
	bl	__aeabi_memclr8
	add.w	r10, sp, #16
	mov	r0, r10
	mov	r1, r4
	mov	r2, r7
	mov	r3, r5
	bl	"login_keys::psk::counter_block"
	add	r3, sp, #16
	ldr	r2, [sp, #28]
	ldm	r3, {r0, r1, r3}
	mov	r11, sp
	str	r2, [sp, #12]
	stm.w	sp, {r0, r1, r3}
	mov	r0, r6
	mov	r1, r11
	movs	r2, #16
	movs	r3, #0
	bl	"octet_lists::octets::Octets::append::<=64>"
	adds	r3, r5, #1
	mov	r0, r10
	mov	r1, r4
	mov	r2, r7
	bl	"login_keys::psk::counter_block"
	add	r3, sp, #16
	ldr	r2, [sp, #28]
	ldm	r3, {r0, r1, r3}
	str	r2, [sp, #12]
	stm.w	sp, {r0, r1, r3}
	mov	r0, r6
	mov	r1, r11
	movs	r2, #16
	movs	r3, #0
	bl	"octet_lists::octets::Octets::append::<=64>"
	adds	r3, r5, #2
	mov	r0, r10
	mov	r1, r4
	mov	r2, r7
	bl	"login_keys::psk::counter_block"
	add	r3, sp, #16
	ldr	r2, [sp, #28]
	ldm	r3, {r0, r1, r3}
	str	r2, [sp, #12]
	stm.w	sp, {r0, r1, r3}
	mov	r0, r6
	mov	r1, r11
	movs	r2, #16
	movs	r3, #0
	bl	"octet_lists::octets::Octets::append::<=64>"
	adds	r3, r5, #3
	mov	r0, r10
	mov	r1, r4
	mov	r2, r7
	bl	"login_keys::psk::counter_block"
	add	r3, sp, #16
	ldr	r2, [sp, #28]
	ldm	r3, {r0, r1, r3}
	str	r2, [sp, #12]
	stm.w	sp, {r0, r1, r3}
	mov	r0, r6
	mov	r1, r11
	movs	r2, #16
	movs	r3, #0
	bl	"octet_lists::octets::Octets::append::<=64>"
	add	r4, sp, #172
	subs	r6, r4, r6
	mov.w	r0, #0
	ldrd	r5, r10, [sp, #96]
	sbc	r7, r0, #0
	mov	r0, r4
	movs	r1, #64
	bl	__aeabi_memclr4
	subs	r0, r6, r5
	sbcs.w	r0, r7, r10
	add	r0, sp, #172
	add	r1, sp, #32
	mov	r2, r5
	bl	__aeabi_memcpy4
	ldm	r4!, {r1, r2, r3, r6, r7}
	mov	r0, r9
	stm	r0!, {r1, r2, r3, r6, r7}
	ldm	r4!, {r1, r2, r3, r6, r7}
	stm	r0!, {r1, r2, r3, r6, r7}
	ldm.w	r4, {r1, r2, r3, r5, r6, r7}
	stm	r0!, {r1, r2, r3, r5, r6, r7}
	mov	r0, r8
	mov	r1, r9
	mov.w	r2, #64
	bl	__aeabi_memcpy
	add	sp, #236
	pop.w	{r4, r5, r6, r7, r8, r9, r10, r11, pc}
.Lfunc_end6aab6:
	.size	"login_keys::psk::four_blocks", .Lfunc_end6aab6-"login_keys::psk::four_blocks"
	.cantunwind
	.fnend

	.section	".text.cmac_mac::key::CmacKey::new","ax",%progbits
	.p2align	2
	.type	"cmac_mac::key::CmacKey::new",%function
	.code	16
	.thumb_func
"cmac_mac::key::CmacKey::new":
	.fnstart
	.save	{r4, r5, r6, r7, r8, lr}
	push.w	{r4, r5, r6, r7, r8, lr}
	.setfp	r7, sp, #12
	add	r7, sp, #12
	.pad	#456
	sub	sp, #456
	mov	r4, sp
	bfc	r4, #0, #4
	mov	sp, r4
	add	r5, sp, #16
	mov	r6, r1
	mov	r8, r0
	mov	r0, r5
	movs	r1, #176
	bl	__aeabi_memclr4
	mov	r0, r5
	mov	r1, r6
	bl	"aes_block::Aes128::new"
	movs	r0, #0
	strd	r0, r0, [sp, #432]
	strd	r0, r0, [sp, #440]
	strd	r0, r0, [sp, #416]
	strd	r0, r0, [sp, #424]
	add	r0, sp, #432
	add	r2, sp, #416
	mov	r1, r5
	bl	"aes_block::Aes128::encrypt_block"
	add	r3, sp, #432
	ldm	r3, {r0, r1, r2, r3}
	add	r6, sp, #192
	mov	r4, sp
	stm.w	sp, {r0, r1, r2, r3}
	mov	r0, r6
	mov	r1, r4
	bl	"cmac_mac::blocks::double"
	mov	r0, r4
	mov	r1, r6
	bl	"cmac_mac::blocks::double"
	add	r4, sp, #208
	mov	r0, r4
	mov	r1, r5
	movs	r2, #176
	bl	__aeabi_memcpy4
	ldr	r2, [sp, #204]
	add	r3, sp, #192
	ldm	r3, {r0, r1, r3}
	str	r2, [sp, #396]
	add	r2, sp, #384
	stm	r2!, {r0, r1, r3}
	ldm.w	sp, {r0, r1, r2, r3}
	add.w	r12, sp, #400
	stm.w	r12, {r0, r1, r2, r3}
	mov	r0, r8
	mov	r1, r4
	movs	r2, #208
	bl	__aeabi_memcpy
	sub.w	r4, r7, #12
	mov	sp, r4
	pop.w	{r4, r5, r6, r7, r8, pc}
.Lfunc_end0abac:
	.size	"cmac_mac::key::CmacKey::new", .Lfunc_end0abac-"cmac_mac::key::CmacKey::new"
	.cantunwind
	.fnend

	.section	".text.cmac_mac::blocks::double","ax",%progbits
	.p2align	2
	.type	"cmac_mac::blocks::double",%function
	.code	16
	.thumb_func
"cmac_mac::blocks::double":
	.fnstart
	.save	{r4, r5, r7, lr}
	push	{r4, r5, r7, lr}
	.pad	#24
	sub	sp, #24
	mov	r5, r0
	mov	r0, r1
	bl	"core::int::u128::from_be_bytes"
	lsls	r4, r1, #1
	orr.w	r12, r4, r0, lsr #31
	lsls	r4, r2, #1
	orr.w	r1, r4, r1, lsr #31
	lsls	r4, r3, #1
	orr.w	r4, r4, r2, lsr #31
	movs	r2, #135
	and.w	r2, r2, r3, asr #31
	eor.w	r2, r2, r0, lsl #1
	add	r0, sp, #8
	mov	r3, r12
	strd	r1, r4, [sp]
	bl	"core::int::u128::to_be_bytes"
	add	r3, sp, #8
	ldr	r2, [sp, #20]
	ldm	r3, {r0, r1, r3}
	str	r2, [r5, #12]
	str	r3, [r5, #8]
	str	r1, [r5, #4]
	str	r0, [r5]
	add	sp, #24
	pop	{r4, r5, r7, pc}
.Lfunc_endd6a08:
	.size	"cmac_mac::blocks::double", .Lfunc_endd6a08-"cmac_mac::blocks::double"
	.cantunwind
	.fnend

	.section	".text.psk_ends::peer::turns::log_in::<#becd8de5e2060522>","ax",%progbits
	.p2align	2
	.type	"psk_ends::peer::turns::log_in::<#becd8de5e2060522>",%function
	.code	16
	.thumb_func
"psk_ends::peer::turns::log_in::<#becd8de5e2060522>":
	.fnstart
	.save	{r4, r5, r6, r7, r8, r9, r10, r11, lr}
	push.w	{r4, r5, r6, r7, r8, r9, r10, r11, lr}
	.pad	#1332
	subw	sp, sp, #1332
	mov	r8, r1
	ldr.w	r1, [sp, #1372]
	mov	r7, r2
	ldr.w	r5, [sp, #1368]
	str	r0, [sp, #36]
	add	r0, sp, #616
	mov.w	r2, #560
	mov	r11, r3
	bl	__aeabi_memcpy
	ldrb.w	r0, [r8, #528]
	cbnz	r0, .LBBa7a0e_2
	ldr	r1, [r5, #16]
	ldr	r2, [r5, #24]
	ldr	r3, [r5, #28]
	add.w	r0, r8, #264
	bl	"octet_lists::octets::Octets::set::<=253>"
.LBBa7a0e_2:
	ldr	r2, [r5, #12]
	ldr	r0, [r5]
	add	r6, sp, #40
	ldr	r1, [r5, #4]
	ldr	r3, [r5, #8]
	str	r2, [sp, #52]
	add	r2, sp, #40
	add.w	r5, r6, #16
	stm	r2!, {r0, r1, r3}
	add	r1, sp, #616
	mov	r0, r5
	mov.w	r2, #560
	bl	__aeabi_memcpy4
	add.w	r0, sp, #1240
	subs	r0, r0, r7
	mov.w	r1, #0
	sbc	r2, r1, #0
	rsbs.w	r0, r0, #15
	sbcs.w	r0, r1, r2
	ldr	r2, [r7, #12]
	ldr	r0, [r7]
	ldr	r3, [r7, #8]
	str.w	r2, [sp, #1252]
	add.w	r2, sp, #1240
	ldr	r1, [r7, #4]
	stm	r2!, {r0, r1, r3}
	ldr.w	r2, [sp, #1252]
	add.w	r3, sp, #1240
	ldm	r3, {r0, r1, r3}
	str.w	r2, [sp, #1204]
	add.w	r2, sp, #1192
	stm	r2!, {r0, r1, r3}
	ldrd	r0, r1, [r8, #256]
	ldrd	r2, r3, [r8, #520]
	add.w	r12, sp, #16
	ldr.w	r9, [sp, #1384]
	add.w	r4, r8, #264
	add.w	r10, sp, #1192
	stm.w	r12, {r2, r3, r6, r10}
	strd	r0, r1, [sp]
	add.w	r0, sp, #1176
	mov	r1, r5
	mov	r2, r8
	str	r4, [sp, #8]
	bl	"eap_method::psk_macs::mac_p"
	addw	r1, sp, #1316
	mov.w	r0, #0
	subs	r1, r1, r7
	sbc	r2, r0, #0
	rsbs.w	r1, r1, #15
	str.w	r0, [sp, #1244]
	sbcs	r0, r2
	ldr	r2, [r7, #12]
	ldr	r0, [r7]
	mov.w	r1, #1
	ldr	r3, [r7, #8]
	str.w	r2, [sp, #1328]
	str.w	r1, [sp, #1240]
	ldr	r1, [r7, #4]
	str.w	r0, [sp, #1316]
	ldr.w	r2, [sp, #1328]
	str.w	r3, [sp, #1324]
	ldr.w	r0, [sp, #1316]
	str.w	r1, [sp, #1320]
	ldr.w	r3, [sp, #1324]
	str.w	r2, [sp, #1220]
	add.w	r2, sp, #1208
	add	r7, sp, #40
	ldr.w	r1, [sp, #1320]
	stm	r2!, {r0, r1, r3}
	ldm	r7, {r2, r3, r7}
	ldr	r5, [sp, #52]
	add.w	r0, sp, #1192
	stm	r0!, {r2, r3, r7}
	add.w	r7, sp, #1176
	str.w	r5, [sp, #1204]
	ldm	r7, {r2, r3, r5, r7}
	add.w	r0, sp, #1224
	stm	r0!, {r2, r3, r5, r7}
	ldrd	r12, lr, [r8, #256]
	add.w	r1, sp, #1240
	ldm.w	r10!, {r0, r3, r4, r5, r6, r7}
	add.w	r2, r1, #8
	stm	r2!, {r0, r3, r4, r5, r6, r7}
	ldm.w	r10, {r0, r3, r4, r5, r6, r7}
	stm	r2!, {r0, r3, r4, r5, r6, r7}
	ldr.w	r0, [sp, #1380]
	ldr.w	r3, [sp, #1376]
	mov.w	r5, #0
	mov.w	r2, #1
	str.w	r8, [sp, #1296]
	str.w	r5, [sp, #1300]
	str.w	lr, [sp, #1308]
	str.w	r12, [sp, #1304]
	mov.w	r4, #1
	bl	"psk_messages::writing::write_psk_into"
	mov.w	r0, #2
	strd	r5, r5, [r9]
	strd	r4, r5, [r9, #8]
	strb	r0, [r11], #1
	add	r1, sp, #40
	mov	r0, r11
	mov.w	r2, #576
	bl	__aeabi_memcpy
	ldr	r1, [sp, #36]
	movw	r0, #513
	strh.w	r5, [r11, #576]
	strh	r0, [r1]
	strb	r5, [r1, #2]
	addw	sp, sp, #1332
	pop.w	{r4, r5, r6, r7, r8, r9, r10, r11, pc}
.Lfunc_enda7a0e:
	.size	"psk_ends::peer::turns::log_in::<#becd8de5e2060522>", .Lfunc_enda7a0e-"psk_ends::peer::turns::log_in::<#becd8de5e2060522>"
	.cantunwind
	.fnend

	.section	".text.eap_method::psk_macs::mac_p","ax",%progbits
	.p2align	2
	.type	"eap_method::psk_macs::mac_p",%function
	.code	16
	.thumb_func
"eap_method::psk_macs::mac_p":
	.fnstart
	.save	{r4, r5, r6, r7, r8, lr}
	push.w	{r4, r5, r6, r7, r8, lr}
	.pad	#88
	sub	sp, #88
	mov	r4, r0
	ldrd	r0, r8, [sp, #136]
	movs	r3, #0
	strd	r0, r3, [sp, #40]
	movs	r0, #16
	str	r0, [sp, #48]
	strd	r0, r3, [sp, #64]
	movs	r0, #3
	ldrd	lr, r12, [sp, #112]
	ldrd	r5, r6, [sp, #128]
	ldr	r7, [sp, #120]
	strd	r0, r3, [sp, #16]
	add	r0, sp, #24
	str	r0, [sp, #8]
	add	r0, sp, #72
	strd	r3, r3, [sp, #80]
	strd	r3, r3, [sp, #72]
	strd	r7, r3, [sp, #24]
	strd	r5, r6, [sp, #32]
	str	r3, [sp, #52]
	strd	r8, r3, [sp, #56]
	str.w	lr, [sp]
	str.w	r12, [sp, #4]
	bl	"cmac_mac::key::CmacKey::tag"
	add	r3, sp, #72
	ldr	r2, [sp, #84]
	ldm	r3, {r0, r1, r3}
	str	r2, [r4, #12]
	str	r3, [r4, #8]
	str	r1, [r4, #4]
	str	r0, [r4]
	add	sp, #88
	pop.w	{r4, r5, r6, r7, r8, pc}
.Lfunc_end0faeb:
	.size	"eap_method::psk_macs::mac_p", .Lfunc_end0faeb-"eap_method::psk_macs::mac_p"
	.cantunwind
	.fnend

	.section	".text.cmac_mac::key::CmacKey::tag","ax",%progbits
	.p2align	2
	.type	"cmac_mac::key::CmacKey::tag",%function
	.code	16
	.thumb_func
"cmac_mac::key::CmacKey::tag":
	.fnstart
	.save	{r4, r5, r6, r7, r8, r9, r10, r11, lr}
	push.w	{r4, r5, r6, r7, r8, r9, r10, r11, lr}
	.setfp	r7, sp, #12
	add	r7, sp, #12
	.pad	#140
	sub	sp, #140
	mov	r4, sp
	bfc	r4, #0, #4
	mov	sp, r4
	add	r4, sp, #24
	mov	r8, r1
	ldrd	r5, r10, [r7, #40]
	ldrd	r11, r9, [r7, #24]
	str	r0, [sp, #20]
	mov	r0, r4
	movs	r1, #40
	mov	r6, r2
	bl	__aeabi_memclr8
	mov	r0, r4
	mov	r1, r8
	mov	r2, r6
	strd	r11, r9, [sp]
	bl	"cmac_mac::taken::ChainState::update"
	orrs.w	r0, r5, r10
	beq	.LBB25efa_8
	ldr.w	r9, [r7, #32]
	add	r0, sp, #24
	ldr.w	r2, [r9]
	ldrd	r3, r4, [r9, #8]
	mov	r1, r8
	strd	r3, r4, [sp]
	bl	"cmac_mac::taken::ChainState::update"
	eor	r0, r5, #1
	orrs.w	r0, r0, r10
	beq	.LBB25efa_8
	ldr.w	r2, [r9, #16]
	ldrd	r3, r4, [r9, #24]
	add	r0, sp, #24
	mov	r1, r8
	strd	r3, r4, [sp]
	bl	"cmac_mac::taken::ChainState::update"
	subs	r0, r5, #3
	sbcs	r0, r10, #0
	blo	.LBB25efa_8
	ldr.w	r2, [r9, #32]
	ldrd	r3, r4, [r9, #40]
	add	r0, sp, #24
	mov	r1, r8
	strd	r3, r4, [sp]
	bl	"cmac_mac::taken::ChainState::update"
	eor	r0, r5, #3
	orrs.w	r0, r0, r10
	beq	.LBB25efa_8
	ldr.w	r2, [r9, #48]
	ldrd	r3, r4, [r9, #56]
	add	r0, sp, #24
	mov	r1, r8
	strd	r3, r4, [sp]
	bl	"cmac_mac::taken::ChainState::update"
	subs	r0, r5, #5
	sbcs	r0, r10, #0
	blo	.LBB25efa_8
	ldr.w	r2, [r9, #64]
	ldrd	r3, r4, [r9, #72]
	add	r0, sp, #24
	mov	r1, r8
	strd	r3, r4, [sp]
	bl	"cmac_mac::taken::ChainState::update"
	eor	r0, r5, #5
	orrs.w	r0, r0, r10
	beq	.LBB25efa_8
	ldr.w	r2, [r9, #80]
	ldrd	r3, r4, [r9, #88]
	add	r0, sp, #24
	mov	r1, r8
	strd	r3, r4, [sp]
	bl	"cmac_mac::taken::ChainState::update"
	eor	r0, r5, #7
	orrs.w	r0, r0, r10
	bne	.LBB25efa_8
	ldr.w	r2, [r9, #96]
	ldrd	r3, r6, [r9, #104]
	add	r0, sp, #24
	mov	r1, r8
	strd	r3, r6, [sp]
	bl	"cmac_mac::taken::ChainState::update"
.LBB25efa_8:
	ldrd	r3, r4, [sp, #56]
	add	r5, sp, #24
	add	r6, sp, #64
	add.w	r2, r5, #16
	mov	r0, r6
	mov	r1, r8
	strd	r3, r4, [sp]
	bl	"cmac_mac::key::CmacKey::last_block"
	ldr	r2, [sp, #76]
	add	r3, sp, #64
	ldm	r3, {r0, r1, r3}
	str	r2, [sp, #92]
	add	r2, sp, #80
	stm	r2!, {r0, r1, r3}
	add	r2, sp, #80
	mov	r0, r6
	mov	r1, r5
	bl	"cmac_mac::blocks::xor_blocks"
	add	r3, sp, #64
	ldm	r3, {r0, r1, r2, r3}
	add.w	r12, sp, #96
	movs	r6, #0
	stm.w	r12, {r0, r1, r2, r3, r6}
	add	r0, sp, #112
	add	r2, sp, #96
	mov	r1, r8
	strd	r6, r6, [sp, #116]
	str	r6, [sp, #124]
	bl	"aes_block::Aes128::encrypt_block"
	add	r3, sp, #112
	ldm	r3, {r0, r1, r2, r3}
	ldr	r6, [sp, #20]
	sub.w	r4, r7, #12
	str	r0, [r6]
	str	r1, [r6, #4]
	str	r2, [r6, #8]
	str	r3, [r6, #12]
	mov	sp, r4
	pop.w	{r4, r5, r6, r7, r8, r9, r10, r11, pc}
.Lfunc_end25efa:
	.size	"cmac_mac::key::CmacKey::tag", .Lfunc_end25efa-"cmac_mac::key::CmacKey::tag"
	.cantunwind
	.fnend

	.section	".text.cmac_mac::taken::ChainState::update","ax",%progbits
	.p2align	2
	.type	"cmac_mac::taken::ChainState::update",%function
	.code	16
	.thumb_func
"cmac_mac::taken::ChainState::update":
	.fnstart
	.save	{r4, r5, r6, r7, r8, r9, r10, r11, lr}
	push.w	{r4, r5, r6, r7, r8, r9, r10, r11, lr}
	.setfp	r7, sp, #12
	add	r7, sp, #12
	.pad	#92
	sub	sp, #92
	mov	r4, sp
	bfc	r4, #0, #4
	mov	sp, r4
	mov	r12, r2
	ldrd	r2, r5, [r0, #32]
	ldr	r6, [r7, #24]
	ldr	r3, [r7, #28]
	rsbs.w	r2, r2, #16
	mov.w	r8, #0
	sbc.w	r5, r8, r5
	subs	r4, r2, r6
	sbcs.w	r4, r5, r3
	bhs	.LBB56ef3_2
	subs	r6, r6, r2
	sbc.w	r9, r3, r5
	mov	r10, r1
	mov	r1, r12
	mov	r3, r5
	add.w	r11, r12, r2
	mov	r4, r0
	bl	"cmac_mac::taken::ChainState::append"
	subs	r0, r6, #1
	bic	r2, r0, #15
	sbc	r1, r9, #0
	subs	r6, r6, r2
	add.w	r3, r11, r2
	sbc.w	r2, r9, r1
	lsrs	r0, r0, #4
	str	r3, [sp, #12]
	str	r2, [sp, #8]
	orr.w	r5, r0, r1, lsl #28
	lsr.w	r9, r1, #4
	add.w	r2, r4, #16
	add	r0, sp, #32
	mov	r1, r4
	strd	r8, r8, [sp, #24]
	strd	r8, r8, [sp, #16]
	bl	"cmac_mac::blocks::xor_blocks"
	ldr	r0, [sp, #32]
	ldr	r1, [sp, #36]
	ldr	r2, [sp, #40]
	add.w	r12, sp, #48
	ldr	r3, [sp, #44]
	stm.w	r12, {r0, r1, r2, r3, r8}
	add	r0, sp, #64
	add	r2, sp, #48
	mov	r1, r10
	strd	r8, r8, [sp, #68]
	str.w	r8, [sp, #76]
	bl	"aes_block::Aes128::encrypt_block"
	add	r3, sp, #64
	ldm	r3, {r0, r1, r2, r3}
	str	r1, [sp, #68]
	str	r0, [sp, #64]
	str	r2, [sp, #72]
	str	r3, [sp, #76]
	add	r0, sp, #16
	add	r2, sp, #64
	mov	r1, r10
	mov	r3, r11
	strd	r5, r9, [sp]
	bl	"cmac_mac::taken::chain_blocks"
	ldrd	r2, r1, [sp, #24]
	ldrd	r5, r0, [sp, #16]
	str	r1, [r4, #12]
	ldr	r1, [sp, #12]
	ldr	r3, [sp, #8]
	str	r2, [r4, #8]
	str	r0, [r4, #4]
	str.w	r8, [r4, #16]
	str.w	r8, [r4, #20]
	str.w	r8, [r4, #24]
	str.w	r8, [r4, #28]
	str.w	r8, [r4, #32]
	str.w	r8, [r4, #36]
	mov	r0, r4
	mov	r2, r6
	str	r5, [r4]
	b	.LBB56ef3_3
.LBB56ef3_2:
	mov	r1, r12
	mov	r2, r6
.LBB56ef3_3:
	sub.w	r4, r7, #12
	mov	sp, r4
	pop.w	{r4, r5, r6, r7, r8, r9, r10, r11, lr}
	b	"cmac_mac::taken::ChainState::append"
.Lfunc_end56ef3:
	.size	"cmac_mac::taken::ChainState::update", .Lfunc_end56ef3-"cmac_mac::taken::ChainState::update"
	.cantunwind
	.fnend

	.section	".text.cmac_mac::taken::ChainState::append","ax",%progbits
	.p2align	2
	.type	"cmac_mac::taken::ChainState::append",%function
	.code	16
	.thumb_func
"cmac_mac::taken::ChainState::append":
	.fnstart
	.save	{r4, r5, r6, r7, r8, r9, r10, r11, lr}
	push.w	{r4, r5, r6, r7, r8, r9, r10, r11, lr}
	.pad	#4
	sub	sp, #4
	ldrd	r9, r4, [r0, #32]
	mov	r10, r0
	add	r0, r9
	adds	r0, #16
	mov	r8, r3
	mov	r11, r2
	subs	r2, r0, r1
	mov.w	r3, #0
	sbc	r3, r3, #0
	subs.w	r2, r2, r11
	sbcs.w	r2, r3, r8
	bhs	.LBB08d56_3
	subs.w	r2, r11, #4
	sbcs	r2, r8, #0
	and	r12, r11, #3
	bhs	.LBB08d56_4
	movs	r3, #0
	b	.LBB08d56_7
.LBB08d56_3:
	mov	r2, r11
	bl	__aeabi_memmove
	b	.LBB08d56_10
.LBB08d56_4:
	bic	lr, r11, #3
	movs	r3, #0
	movs	r7, #0
	str	r4, [sp]
	.p2align	2
.LBB08d56_5:
	ldrb	r5, [r1, r3]
	strb	r5, [r0, r3]
	orr	r5, r3, #1
	ldrb	r6, [r1, r5]
	strb	r6, [r0, r5]
	orr	r6, r3, #2
	ldrb	r5, [r1, r6]
	strb	r5, [r0, r6]
	orr	r6, r3, #3
	adds	r3, #4
	adc	r7, r7, #0
	ldrb	r5, [r1, r6]
	eor.w	r4, r3, lr
	eor.w	r2, r7, r8
	orrs	r2, r4
	strb	r5, [r0, r6]
	bne	.LBB08d56_5
	ldr	r4, [sp]
	cmp.w	r12, #0
	beq	.LBB08d56_10
.LBB08d56_7:
	ldrb	r2, [r1, r3]
	cmp.w	r12, #1
	strb	r2, [r0, r3]
	beq	.LBB08d56_10
	adds	r2, r3, #1
	ldrb	r7, [r1, r2]
	cmp.w	r12, #2
	strb	r7, [r0, r2]
	beq	.LBB08d56_10
	adds	r2, r3, #2
	ldrb	r1, [r1, r2]
	strb	r1, [r0, r2]
.LBB08d56_10:
	adds.w	r0, r9, r11
	adc.w	r1, r4, r8
	strd	r0, r1, [r10, #32]
	add	sp, #4
	pop.w	{r4, r5, r6, r7, r8, r9, r10, r11, pc}
.Lfunc_end08d56:
	.size	"cmac_mac::taken::ChainState::append", .Lfunc_end08d56-"cmac_mac::taken::ChainState::append"
	.cantunwind
	.fnend

	.section	".text.cmac_mac::blocks::xor_blocks","ax",%progbits
	.p2align	2
	.type	"cmac_mac::blocks::xor_blocks",%function
	.code	16
	.thumb_func
"cmac_mac::blocks::xor_blocks":
	.fnstart
	.save	{r4, r5, r6, r7, r8, r9, r10, r11, lr}
	push.w	{r4, r5, r6, r7, r8, r9, r10, r11, lr}
	.pad	#24
	sub	sp, #24
	ldrb	r3, [r1, #6]
	ldrb.w	lr, [r1, #14]
	str	r3, [sp, #12]
	ldrb.w	r12, [r1, #15]
	ldrb	r7, [r2, #15]
	ldrb	r3, [r2, #14]
	eor.w	r7, r7, r12
	eor.w	r3, r3, lr
	ldrb	r6, [r1, #12]
	ldrb.w	r9, [r1, #13]
	str	r7, [sp, #20]
	ldrb	r7, [r2, #13]
	str	r3, [sp, #16]
	ldrb	r3, [r2, #12]
	eor.w	r7, r7, r9
	eors	r3, r6
	ldrb	r5, [r1, #10]
	ldrb	r4, [r1, #11]
	str	r7, [sp, #8]
	ldrb	r7, [r2, #11]
	str	r3, [sp, #4]
	ldrb	r3, [r2, #10]
	ldrb.w	r11, [r1, #8]
	ldrb.w	r8, [r1, #9]
	eors	r7, r4
	ldrb	r4, [r2, #9]
	eor.w	r9, r3, r5
	ldrb	r3, [r2, #8]
	ldrb.w	r10, [r1, #7]
	eor.w	r8, r8, r4
	ldrb	r4, [r2, #7]
	eor.w	r11, r11, r3
	ldrb	r3, [r2, #6]
	ldr	r6, [sp, #12]
	str	r7, [sp]
	eor.w	r10, r10, r4
	ldrb	r7, [r1, #4]
	eors	r6, r3
	ldrb	r4, [r1, #5]
	ldrb	r3, [r2, #5]
	ldrb.w	r12, [r2, #4]
	eor.w	r5, r3, r4
	eor.w	lr, r12, r7
	ldrb	r4, [r1, #2]
	ldrb	r7, [r1, #3]
	ldrb	r3, [r2, #3]
	ldrb.w	r12, [r2, #2]
	eors	r3, r7
	eor.w	r12, r12, r4
	ldrb	r4, [r1]
	ldrb	r1, [r1, #1]
	ldrb	r7, [r2, #1]
	ldrb	r2, [r2]
	eors	r1, r7
	strb	r1, [r0, #1]
	ldr	r1, [sp]
	eors	r2, r4
	strb	r1, [r0, #11]
	ldr	r1, [sp, #4]
	strb	r2, [r0]
	strb	r1, [r0, #12]
	ldr	r1, [sp, #8]
	strb.w	r12, [r0, #2]
	strb	r1, [r0, #13]
	ldr	r1, [sp, #16]
	strb	r3, [r0, #3]
	strb	r1, [r0, #14]
	ldr	r1, [sp, #20]
	strb.w	lr, [r0, #4]
	strb	r5, [r0, #5]
	strb	r6, [r0, #6]
	strb.w	r10, [r0, #7]
	strb.w	r11, [r0, #8]
	strb.w	r8, [r0, #9]
	strb.w	r9, [r0, #10]
	strb	r1, [r0, #15]
	add	sp, #24
	pop.w	{r4, r5, r6, r7, r8, r9, r10, r11, pc}
.Lfunc_end2500f:
	.size	"cmac_mac::blocks::xor_blocks", .Lfunc_end2500f-"cmac_mac::blocks::xor_blocks"
	.cantunwind
	.fnend

	.section	".text.cmac_mac::taken::chain_blocks","ax",%progbits
	.p2align	2
	.type	"cmac_mac::taken::chain_blocks",%function
	.code	16
	.thumb_func
"cmac_mac::taken::chain_blocks":
	.fnstart
	.save	{r4, r5, r6, r7, r8, r9, r10, r11, lr}
	push.w	{r4, r5, r6, r7, r8, r9, r10, r11, lr}
	.setfp	r7, sp, #12
	add	r7, sp, #12
	.pad	#92
	sub	sp, #92
	mov	r4, sp
	bfc	r4, #0, #4
	mov	sp, r4
	mov	r6, r1
	ldrd	r10, r9, [r7, #24]
	ldr	r1, [r2, #4]
	str	r0, [sp, #12]
	ldr	r0, [r2]
	add.w	r12, sp, #20
	mov	r11, r3
	ldr	r3, [r2, #12]
	ldr	r2, [r2, #8]
	stm.w	r12, {r1, r2, r3}
	orrs.w	r1, r10, r9
	str	r0, [sp, #16]
	beq	.LBBff9c4_3
	movs	r4, #0
	movs	r5, #0
	mov.w	r8, #0
	.p2align	2
.LBBff9c4_2:
	add.w	r2, r11, r5, lsl #4
	add	r0, sp, #32
	add	r1, sp, #16
	bl	"cmac_mac::blocks::xor_blocks"
	ldr	r0, [sp, #32]
	ldr	r1, [sp, #36]
	ldr	r2, [sp, #40]
	add.w	r12, sp, #48
	ldr	r3, [sp, #44]
	stm.w	r12, {r0, r1, r2, r3, r4}
	add	r0, sp, #64
	add	r2, sp, #48
	mov	r1, r6
	strd	r4, r4, [sp, #68]
	str	r4, [sp, #76]
	bl	"aes_block::Aes128::encrypt_block"
	add	r3, sp, #64
	ldm	r3, {r0, r1, r2, r3}
	add.w	r12, sp, #16
	adds	r5, #1
	stm.w	r12, {r0, r1, r2}
	adc	r8, r8, #0
	subs.w	r0, r5, r10
	sbcs.w	r0, r8, r9
	str	r3, [sp, #28]
	blo	.LBBff9c4_2
.LBBff9c4_3:
	ldr	r2, [sp, #28]
	ldrd	r1, r3, [sp, #20]
	ldrd	r6, r0, [sp, #12]
	sub.w	r4, r7, #12
	str	r2, [r6, #12]
	str	r3, [r6, #8]
	str	r1, [r6, #4]
	str	r0, [r6]
	mov	sp, r4
	pop.w	{r4, r5, r6, r7, r8, r9, r10, r11, pc}
.Lfunc_endff9c4:
	.size	"cmac_mac::taken::chain_blocks", .Lfunc_endff9c4-"cmac_mac::taken::chain_blocks"
	.cantunwind
	.fnend

	.section	".text.cmac_mac::key::CmacKey::last_block","ax",%progbits
	.p2align	2
	.type	"cmac_mac::key::CmacKey::last_block",%function
	.code	16
	.thumb_func
"cmac_mac::key::CmacKey::last_block":
	.fnstart
	.save	{r4, lr}
	push	{r4, lr}
	.pad	#32
	sub	sp, #32
	ldrd	r12, lr, [sp, #40]
	mov	r4, r0
	movs	r0, #0
	rsbs.w	r3, r12, #15
	sbcs.w	r3, r0, lr
	str	r0, [sp, #12]
	strd	r0, r0, [sp, #4]
	str	r0, [sp]
	blo	.LBB44ce0_2
	ldr.w	lr, [r2]
	ldr	r3, [r2, #4]
	ldr	r0, [r2, #12]
	ldr	r2, [r2, #8]
	strd	lr, r3, [sp, #16]
	strd	r2, r0, [sp, #24]
	add	r3, sp, #16
	movs	r0, #128
	strb.w	r0, [r3, r12]
	add.w	r2, r1, #192
	mov	r0, sp
	mov	r1, r3
	b	.LBB44ce0_3
.LBB44ce0_2:
	add.w	r3, r1, #176
	mov	r0, sp
	mov	r1, r2
	mov	r2, r3
.LBB44ce0_3:
	bl	"cmac_mac::blocks::xor_blocks"
	ldr	r2, [sp, #12]
	ldm.w	sp, {r0, r1, r3}
	str	r2, [r4, #12]
	str	r3, [r4, #8]
	str	r1, [r4, #4]
	str	r0, [r4]
	add	sp, #32
	pop	{r4, pc}
.Lfunc_end44ce0:
	.size	"cmac_mac::key::CmacKey::last_block", .Lfunc_end44ce0-"cmac_mac::key::CmacKey::last_block"
	.cantunwind
	.fnend

	.section	".text.psk_messages::writing::write_psk_into","ax",%progbits
	.p2align	2
	.type	"psk_messages::writing::write_psk_into",%function
	.code	16
	.thumb_func
"psk_messages::writing::write_psk_into":
	.fnstart
	.save	{r4, r5, r6, r7, lr}
	push	{r4, r5, r6, r7, lr}
	.pad	#12
	sub	sp, #12
	mov	r7, r0
	ldrb	r0, [r1]
	mov	r5, r1
	movs	r4, #0
	movs	r6, #54
.LCPI3700c_0:
	tbb	[pc, r0]
.LJTI3700c_0:
	.byte	(.LBB3700c_2-(.LCPI3700c_0+4))/2
	.byte	(.LBB3700c_3-(.LCPI3700c_0+4))/2
	.byte	(.LBB3700c_5-(.LCPI3700c_0+4))/2
	.byte	(.LBB3700c_4-(.LCPI3700c_0+4))/2
	.p2align	1
.LBB3700c_2:
	ldrd	r0, r1, [r5, #32]
	adds.w	r6, r0, #17
	adc	r4, r1, #0
	b	.LBB3700c_5
.LBB3700c_3:
	ldrd	r0, r1, [r5, #64]
	adds.w	r6, r0, #49
	adc	r4, r1, #0
	b	.LBB3700c_5
.LBB3700c_4:
	movs	r6, #38
.LBB3700c_5:
	mov	r0, r7
	mov	r1, r2
	mov	r2, r3
	movs	r3, #47
	strd	r6, r4, [sp]
	bl	"eap_packet::packet::init_into"
	ldrb	r0, [r5]
	add.w	r1, sp, #11
	lsls	r0, r0, #6
	strb.w	r0, [sp, #11]
	mov	r0, r7
	movs	r2, #1
	movs	r3, #0
	bl	"octet_lists::octets::Octets::append::<=1500>"
	ldrb	r0, [r5]
.LCPI3700c_1:
	tbb	[pc, r0]
.LJTI3700c_1:
	.byte	(.LBB3700c_7-(.LCPI3700c_1+4))/2
	.byte	(.LBB3700c_11-(.LCPI3700c_1+4))/2
	.byte	(.LBB3700c_8-(.LCPI3700c_1+4))/2
	.byte	(.LBB3700c_9-(.LCPI3700c_1+4))/2
	.p2align	1
.LBB3700c_7:
	add.w	r1, r5, #8
	mov	r0, r7
	movs	r2, #16
	movs	r3, #0
	bl	"octet_lists::octets::Octets::append::<=1500>"
	ldr	r1, [r5, #24]
	ldr	r2, [r5, #32]
	ldr	r3, [r5, #36]
	b	.LBB3700c_12
.LBB3700c_8:
	adds	r1, r5, #4
	mov	r0, r7
	movs	r2, #16
	movs	r3, #0
	bl	"octet_lists::octets::Octets::append::<=1500>"
	add.w	r1, r5, #20
	mov	r0, r7
	movs	r2, #16
	movs	r3, #0
	bl	"octet_lists::octets::Octets::append::<=1500>"
	add.w	r1, r5, #36
	b	.LBB3700c_10
.LBB3700c_9:
	adds	r1, r5, #4
	mov	r0, r7
	movs	r2, #16
	movs	r3, #0
	bl	"octet_lists::octets::Octets::append::<=1500>"
	add.w	r1, r5, #20
.LBB3700c_10:
	mov	r0, r7
	bl	"psk_messages::writing::put_channel"
	add	sp, #12
	pop	{r4, r5, r6, r7, pc}
.LBB3700c_11:
	add.w	r1, r5, #8
	mov	r0, r7
	movs	r2, #16
	movs	r3, #0
	bl	"octet_lists::octets::Octets::append::<=1500>"
	add.w	r1, r5, #24
	mov	r0, r7
	movs	r2, #16
	movs	r3, #0
	bl	"octet_lists::octets::Octets::append::<=1500>"
	add.w	r1, r5, #40
	mov	r0, r7
	movs	r2, #16
	movs	r3, #0
	bl	"octet_lists::octets::Octets::append::<=1500>"
	ldr	r1, [r5, #56]
	ldr	r2, [r5, #64]
	ldr	r3, [r5, #68]
.LBB3700c_12:
	mov	r0, r7
	bl	"octet_lists::octets::Octets::append::<=1500>"
	add	sp, #12
	pop	{r4, r5, r6, r7, pc}
.Lfunc_end3700c:
	.size	"psk_messages::writing::write_psk_into", .Lfunc_end3700c-"psk_messages::writing::write_psk_into"
	.cantunwind
	.fnend

	.section	".text.psk_messages::writing::put_channel","ax",%progbits
	.p2align	2
	.type	"psk_messages::writing::put_channel",%function
	.code	16
	.thumb_func
"psk_messages::writing::put_channel":
	.fnstart
	.save	{r4, r5, r7, lr}
	push	{r4, r5, r7, lr}
	.pad	#8
	sub	sp, #8
	mov	r4, r1
	ldr	r1, [r1]
	mov	r5, r0
	rev	r0, r1
	str	r0, [sp, #4]
	add	r1, sp, #4
	mov	r0, r5
	movs	r2, #4
	movs	r3, #0
	bl	"octet_lists::octets::Octets::append::<=1500>"
	adds	r1, r4, #4
	mov	r0, r5
	movs	r2, #16
	movs	r3, #0
	bl	"octet_lists::octets::Octets::append::<=1500>"
	ldrb	r0, [r4, #20]
	add.w	r1, sp, #3
	strb.w	r0, [sp, #3]
	mov	r0, r5
	movs	r2, #1
	movs	r3, #0
	bl	"octet_lists::octets::Octets::append::<=1500>"
	add	sp, #8
	pop	{r4, r5, r7, pc}
.Lfunc_end2c8fb:
	.size	"psk_messages::writing::put_channel", .Lfunc_end2c8fb-"psk_messages::writing::put_channel"
	.cantunwind
	.fnend

	.section	".text.core::cmp::PartialEq::ne::<#4f69ed2539eb7fe9>","ax",%progbits
	.p2align	2
	.type	"core::cmp::PartialEq::ne::<#4f69ed2539eb7fe9>",%function
	.code	16
	.thumb_func
"core::cmp::PartialEq::ne::<#4f69ed2539eb7fe9>":
	.fnstart
	.save	{r4, r5, r6, lr}
	push	{r4, r5, r6, lr}
	.pad	#16
	sub	sp, #16
	ldr	r2, [r0, #8]
	ldr	r3, [r0, #12]
	ldr	r4, [r1, #12]
	ldr.w	r12, [r1, #8]
	eor.w	lr, r3, r4
	eor.w	r4, r2, r12
	orrs.w	r4, r4, lr
	bne	.LBB9cb3e_13
	ldr	r0, [r0]
	ldr.w	r12, [r1]
	subs	r1, r2, #4
	sbcs	r1, r3, #0
	bhs	.LBB9cb3e_14
	orrs.w	r1, r2, r3
	beq	.LBB9cb3e_19
	movs	r4, #0
	mov.w	lr, #0
.LBB9cb3e_4:
	ldrb	r1, [r0, r4]
	ldrb.w	r5, [r12, r4]
	cmp	r1, r5
	bne	.LBB9cb3e_20
	orr	r1, r4, #1
	subs	r5, r1, r2
	sbcs.w	r5, lr, r3
	bhs	.LBB9cb3e_12
	ldrb	r5, [r0, r1]
	ldrb.w	r6, [r12, r1]
	cmp	r5, r6
	bne	.LBB9cb3e_21
	orr	r1, r4, #2
	subs	r5, r1, r2
	sbcs.w	r5, lr, r3
	bhs	.LBB9cb3e_12
	ldrb	r5, [r0, r1]
	ldrb.w	r6, [r12, r1]
	cmp	r5, r6
	bne	.LBB9cb3e_21
	orr	r1, r4, #3
	subs	r5, r1, r2
	sbcs.w	r5, lr, r3
	bhs	.LBB9cb3e_12
	ldrb	r5, [r0, r1]
	ldrb.w	r6, [r12, r1]
	cmp	r5, r6
	bne	.LBB9cb3e_21
	adds	r4, #4
	adc	lr, lr, #0
	subs	r1, r4, r2
	sbcs.w	r1, lr, r3
	blo	.LBB9cb3e_4
.LBB9cb3e_12:
	mov	r1, r2
	mov	lr, r3
	b	.LBB9cb3e_21
.LBB9cb3e_13:
	movs	r1, #0
	b	.LBB9cb3e_22
.LBB9cb3e_14:
	ldrb	r1, [r0]
	ldrb.w	r4, [r12]
	cmp	r1, r4
	mov.w	r1, #0
	bne	.LBB9cb3e_22
	ldrb.w	lr, [r0, #1]
	ldrb.w	r4, [r12, #1]
	cmp	lr, r4
	bne	.LBB9cb3e_22
	ldrb.w	lr, [r0, #2]
	ldrb.w	r4, [r12, #2]
	cmp	lr, r4
	bne	.LBB9cb3e_22
	ldrb.w	lr, [r0, #3]
	ldrb.w	r4, [r12, #3]
	cmp	lr, r4
	bne	.LBB9cb3e_22
	strd	r2, r3, [sp, #8]
	str.w	r12, [sp]
	bl	"core::cmp::slices::groups_equal::<i8,31'core::cmp::numbers::U8PartialEq{}>"
	mov	r1, r0
	b	.LBB9cb3e_22
.LBB9cb3e_19:
	movs	r1, #1
	b	.LBB9cb3e_22
.LBB9cb3e_20:
	mov	r1, r4
.LBB9cb3e_21:
	subs	r0, r1, r2
	mov.w	r1, #0
	sbcs.w	r0, lr, r3
	it	hs
	movhs	r1, #1
.LBB9cb3e_22:
	eor	r0, r1, #1
	add	sp, #16
	pop	{r4, r5, r6, pc}
.Lfunc_end9cb3e:
	.size	"core::cmp::PartialEq::ne::<#4f69ed2539eb7fe9>", .Lfunc_end9cb3e-"core::cmp::PartialEq::ne::<#4f69ed2539eb7fe9>"
	.cantunwind
	.fnend

	.section	".text.eap_method::psk_macs::mac_s","ax",%progbits
	.p2align	2
	.type	"eap_method::psk_macs::mac_s",%function
	.code	16
	.thumb_func
"eap_method::psk_macs::mac_s":
	.fnstart
	.save	{r4, lr}
	push	{r4, lr}
	.pad	#56
	sub	sp, #56
	ldr	r3, [sp, #72]
	mov	r4, r0
	movs	r0, #0
	strd	r3, r0, [sp, #24]
	movs	r3, #16
	str	r3, [sp, #32]
	movs	r3, #1
	ldrd	lr, r12, [sp, #64]
	str	r0, [sp, #52]
	strd	r0, r0, [sp, #44]
	strd	r0, r0, [sp, #36]
	strd	r3, r0, [sp, #16]
	add	r0, sp, #24
	str	r0, [sp, #8]
	add	r0, sp, #40
	str.w	lr, [sp]
	str.w	r12, [sp, #4]
	bl	"cmac_mac::key::CmacKey::tag"
	add	r3, sp, #40
	ldr	r2, [sp, #52]
	ldm	r3, {r0, r1, r3}
	str	r2, [r4, #12]
	str	r3, [r4, #8]
	str	r1, [r4, #4]
	str	r0, [r4]
	add	sp, #56
	pop	{r4, pc}
.Lfunc_end2a71e:
	.size	"eap_method::psk_macs::mac_s", .Lfunc_end2a71e-"eap_method::psk_macs::mac_s"
	.cantunwind
	.fnend

	.section	".text.octet_lists::comparison::equal_in_full","ax",%progbits
	.p2align	2
	.type	"octet_lists::comparison::equal_in_full",%function
	.code	16
	.thumb_func
"octet_lists::comparison::equal_in_full":
	.fnstart
	.save	{r4, r5, r6, r7, r8, r9, r10, r11, lr}
	push.w	{r4, r5, r6, r7, r8, r9, r10, r11, lr}
	.pad	#4
	sub	sp, #4
	ldrd	r5, r1, [sp, #48]
	eors	r1, r3
	eors	r5, r2
	orrs	r1, r5
	bne	.LBB48f2f_4
	orrs.w	r1, r2, r3
	beq	.LBB48f2f_5
	ldr.w	lr, [sp, #40]
	subs	r1, r2, #4
	sbcs	r1, r3, #0
	and	r7, r2, #3
	bhs	.LBB48f2f_6
	mov.w	r9, #0
	movs	r1, #0
	b	.LBB48f2f_9
.LBB48f2f_4:
	movs	r0, #0
	add	sp, #4
	pop.w	{r4, r5, r6, r7, r8, r9, r10, r11, pc}
.LBB48f2f_5:
	movs	r0, #1
	add	sp, #4
	pop.w	{r4, r5, r6, r7, r8, r9, r10, r11, pc}
.LBB48f2f_6:
	bic	r8, r2, #3
	mov.w	r9, #0
	movs	r1, #0
	movs	r5, #0
	str	r7, [sp]
	.p2align	2
.LBB48f2f_7:
	ldrb.w	r10, [r0, r1]
	ldrb.w	r11, [lr, r1]
	orr	r4, r1, #1
	orr	r2, r1, #2
	orr	r6, r1, #3
	adds	r1, #4
	adc	r5, r5, #0
	eor.w	r7, r1, r8
	eor.w	r12, r5, r3
	orrs.w	r7, r7, r12
	eor.w	r7, r11, r10
	ldrb.w	r12, [r0, r4]
	ldrb.w	r4, [lr, r4]
	orr.w	r9, r9, r7
	ldrb	r7, [r0, r2]
	ldrb.w	r2, [lr, r2]
	eor.w	r4, r4, r12
	eor.w	r2, r2, r7
	ldrb	r7, [r0, r6]
	ldrb.w	r6, [lr, r6]
	orr.w	r4, r4, r9
	orr.w	r2, r2, r4
	eor.w	r7, r7, r6
	orr.w	r9, r7, r2
	bne	.LBB48f2f_7
	ldr	r7, [sp]
	cbz	r7, .LBB48f2f_12
.LBB48f2f_9:
	ldrb	r2, [r0, r1]
	ldrb.w	r3, [lr, r1]
	cmp	r7, #1
	eor.w	r2, r2, r3
	orr.w	r9, r9, r2
	beq	.LBB48f2f_12
	adds	r2, r1, #1
	ldrb	r3, [r0, r2]
	ldrb.w	r2, [lr, r2]
	cmp	r7, #2
	eor.w	r2, r2, r3
	orr.w	r9, r9, r2
	beq	.LBB48f2f_12
	adds	r1, #2
	ldrb	r0, [r0, r1]
	ldrb.w	r1, [lr, r1]
	eors	r0, r1
	orr.w	r9, r9, r0
.LBB48f2f_12:
	clz	r0, r9
	lsrs	r0, r0, #5
	add	sp, #4
	pop.w	{r4, r5, r6, r7, r8, r9, r10, r11, pc}
.Lfunc_end48f2f:
	.size	"octet_lists::comparison::equal_in_full", .Lfunc_end48f2f-"octet_lists::comparison::equal_in_full"
	.cantunwind
	.fnend

	.section	".text.psk_ends::channel::open","ax",%progbits
	.p2align	2
	.type	"psk_ends::channel::open",%function
	.code	16
	.thumb_func
"psk_ends::channel::open":
	.fnstart
	.save	{r4, r5, r6, r7, r8, r9, r10, r11, lr}
	push.w	{r4, r5, r6, r7, r8, r9, r10, r11, lr}
	.pad	#76
	sub	sp, #76
	mov	r11, r2
	ldr	r2, [sp, #112]
	mov	r4, r0
	ldr	r0, [r2]
	mov	r8, r1
	rev	r0, r0
	ldrb	r1, [r2, #20]
	movs	r6, #0
	str	r0, [sp, #36]
	movs	r0, #16
	strd	r0, r6, [sp, #16]
	add	r0, sp, #24
	add	r5, sp, #44
	mov	r9, r3
	strb.w	r1, [sp, #43]
	add.w	r10, r2, #4
	str	r0, [sp, #8]
	mov	r0, r5
	mov	r1, r4
	movs	r2, #0
	movs	r3, #0
	strd	r6, r6, [sp, #24]
	str	r6, [sp, #32]
	str	r6, [sp]
	str	r6, [sp, #4]
	bl	"eax_mode::omac"
	ldr	r2, [sp, #56]
	add	r3, sp, #44
	ldm	r3, {r0, r1, r3}
	str	r2, [sp, #72]
	add	r2, sp, #60
	stm	r2!, {r0, r1, r3}
	add.w	r7, sp, #43
	add	r2, sp, #60
	mov	r0, r5
	mov	r1, r4
	mov	r3, r8
	strd	r11, r9, [sp]
	mov	r8, r7
	str	r7, [sp, #8]
	bl	"eax_mode::tag_over"
	movs	r0, #16
	strd	r0, r6, [sp, #8]
	mov	r0, r5
	movs	r2, #16
	movs	r3, #0
	str.w	r10, [sp]
	bl	"octet_lists::comparison::equal_in_full"
	cbz	r0, .LBB26b27_2
	add	r1, sp, #60
	mov	r5, r0
	mov	r0, r1
	bl	"core::int::u128::from_be_bytes"
	mov	r7, r0
	strd	r2, r3, [sp]
	mov	r0, r4
	mov	r2, r7
	mov	r3, r1
	str.w	r8, [sp, #8]
	bl	"eax_mode::apply_key_stream"
	mov	r0, r5
.LBB26b27_2:
	ldrb.w	r1, [sp, #43]
	cmp	r0, #0
	it	eq
	moveq	r1, r0
	add	sp, #76
	pop.w	{r4, r5, r6, r7, r8, r9, r10, r11, pc}
.Lfunc_end26b27:
	.size	"psk_ends::channel::open", .Lfunc_end26b27-"psk_ends::channel::open"
	.cantunwind
	.fnend

	.section	".text.eax_mode::omac","ax",%progbits
	.p2align	2
	.type	"eax_mode::omac",%function
	.code	16
	.thumb_func
"eax_mode::omac":
	.fnstart
	.save	{r4, r5, r6, r7, r8, r9, r10, lr}
	push.w	{r4, r5, r6, r7, r8, r9, r10, lr}
	.pad	#88
	sub	sp, #88
	add.w	r10, sp, #120
	mov	r5, r1
	ldm.w	r10, {r1, r7, r10}
	mov	r4, r0
	ldrd	r8, r9, [sp, #136]
	movs	r6, #0
	add	r0, sp, #56
	strd	r6, r6, [sp, #80]
	strd	r6, r6, [sp, #72]
	strd	r1, r7, [sp]
	bl	"core::int::u128::to_be_bytes"
	ldr	r2, [sp, #68]
	add	r3, sp, #56
	ldm	r3, {r0, r1, r3}
	str	r2, [sp, #52]
	add	r2, sp, #40
	stm	r2!, {r0, r1, r3}
	movs	r0, #1
	strd	r0, r6, [sp, #16]
	movs	r0, #16
	add	r3, sp, #24
	strd	r0, r6, [sp]
	add	r0, sp, #72
	add	r2, sp, #40
	mov	r1, r5
	strd	r10, r6, [sp, #24]
	strd	r8, r9, [sp, #32]
	str	r3, [sp, #8]
	bl	"cmac_mac::key::CmacKey::tag"
	add	r3, sp, #72
	ldr	r2, [sp, #84]
	ldm	r3, {r0, r1, r3}
	str	r2, [r4, #12]
	str	r3, [r4, #8]
	str	r1, [r4, #4]
	str	r0, [r4]
	add	sp, #88
	pop.w	{r4, r5, r6, r7, r8, r9, r10, pc}
.Lfunc_endf3e5e:
	.size	"eax_mode::omac", .Lfunc_endf3e5e-"eax_mode::omac"
	.cantunwind
	.fnend

	.section	".text.eax_mode::tag_over","ax",%progbits
	.p2align	2
	.type	"eax_mode::tag_over",%function
	.code	16
	.thumb_func
"eax_mode::tag_over":
	.fnstart
	.save	{r4, r5, r6, r7, r8, r9, r10, r11, lr}
	push.w	{r4, r5, r6, r7, r8, r9, r10, r11, lr}
	.pad	#100
	sub	sp, #100
	ldr.w	r11, [r2]
	ldr.w	r10, [r2, #4]
	ldr	r6, [r2, #8]
	ldr	r7, [r2, #12]
	strd	r11, r10, [sp, #84]
	strd	r6, r7, [sp, #92]
	ldrb.w	r2, [sp, #87]
	ldrd	r12, lr, [sp, #136]
	str	r2, [sp, #64]
	ldrb.w	r2, [sp, #89]
	ldrb.w	r5, [sp, #85]
	str	r2, [sp, #60]
	ldrb.w	r2, [sp, #90]
	ldrb.w	r9, [sp, #86]
	str	r2, [sp, #56]
	ldrb.w	r2, [sp, #91]
	mov	r4, r0
	str	r2, [sp, #52]
	ldrb.w	r2, [sp, #93]
	mov.w	r8, #0
	str	r2, [sp, #48]
	ldrb.w	r2, [sp, #94]
	str	r3, [sp, #8]
	str	r2, [sp, #44]
	ldrb.w	r2, [sp, #95]
	add	r0, sp, #84
	str	r2, [sp, #40]
	ldrb.w	r2, [sp, #97]
	movs	r3, #0
	str	r2, [sp, #72]
	ldrb.w	r2, [sp, #98]
	str	r1, [sp, #32]
	str	r2, [sp, #80]
	ldrb.w	r2, [sp, #99]
	strd	r12, lr, [sp, #16]
	str	r2, [sp, #76]
	movs	r2, #1
	strd	r8, r8, [sp]
	bl	"eax_mode::omac"
	ldrb.w	r0, [sp, #84]
	ldrb.w	r1, [sp, #85]
	eor.w	r11, r11, r0
	ldrb.w	r0, [sp, #86]
	eors	r5, r1
	eor.w	r0, r0, r9
	ldrb.w	r1, [sp, #87]
	str	r0, [sp, #68]
	ldr	r0, [sp, #64]
	ldr	r2, [sp, #56]
	eors	r0, r1
	str	r0, [sp, #64]
	ldrb.w	r0, [sp, #88]
	ldrb.w	r1, [sp, #89]
	eor.w	r10, r10, r0
	ldr	r0, [sp, #60]
	movs	r3, #0
	eors	r0, r1
	str	r0, [sp, #60]
	ldrb.w	r0, [sp, #90]
	ldrb.w	r1, [sp, #91]
	eors	r0, r2
	str	r0, [sp, #56]
	ldr	r0, [sp, #52]
	ldr	r2, [sp, #44]
	eors	r0, r1
	str	r0, [sp, #52]
	ldrb.w	r0, [sp, #92]
	ldrb.w	r1, [sp, #93]
	eor.w	r9, r6, r0
	ldr	r0, [sp, #48]
	strd	r8, r8, [sp]
	eors	r0, r1
	str	r0, [sp, #48]
	ldrb.w	r0, [sp, #94]
	ldrb.w	r1, [sp, #95]
	eors	r0, r2
	str	r0, [sp, #44]
	ldr	r0, [sp, #40]
	ldr	r2, [sp, #80]
	eors	r0, r1
	str	r0, [sp, #40]
	ldrb.w	r0, [sp, #96]
	ldrb.w	r1, [sp, #97]
	eors	r0, r7
	str	r0, [sp, #36]
	ldr	r0, [sp, #72]
	ldr	r7, [sp, #144]
	eors	r0, r1
	str	r0, [sp, #72]
	ldrb.w	r0, [sp, #98]
	ldrb.w	r1, [sp, #99]
	eors	r0, r2
	str	r0, [sp, #80]
	ldr	r0, [sp, #76]
	movs	r2, #2
	eors	r0, r1
	str	r0, [sp, #76]
	movs	r0, #1
	ldr	r1, [sp, #32]
	strd	r0, r8, [sp, #16]
	add	r0, sp, #84
	str	r7, [sp, #8]
	bl	"eax_mode::omac"
	ldrb.w	r0, [sp, #84]
	ldrb.w	r1, [sp, #85]
	eor.w	r0, r0, r11
	str	r0, [sp, #32]
	eor.w	r0, r5, r1
	str	r0, [sp, #28]
	ldrb.w	r2, [sp, #86]
	ldr	r0, [sp, #68]
	ldrb.w	r3, [sp, #87]
	eors	r0, r2
	str	r0, [sp, #68]
	ldr	r0, [sp, #64]
	ldrb.w	r6, [sp, #89]
	eors	r0, r3
	str	r0, [sp, #64]
	ldr	r0, [sp, #60]
	ldrb.w	r7, [sp, #90]
	ldr	r1, [sp, #56]
	eors	r0, r6
	str	r0, [sp, #60]
	ldrb.w	r0, [sp, #91]
	eors	r7, r1
	ldr	r1, [sp, #52]
	ldrb.w	r5, [sp, #88]
	eor.w	r8, r1, r0
	ldrb.w	r2, [sp, #93]
	ldr	r0, [sp, #48]
	eor.w	r10, r10, r5
	ldrb.w	r1, [sp, #92]
	eor.w	lr, r0, r2
	ldrb.w	r5, [sp, #94]
	ldr	r0, [sp, #44]
	eor.w	r9, r9, r1
	ldrb.w	r1, [sp, #95]
	eors	r5, r0
	ldr	r0, [sp, #40]
	ldr	r2, [sp, #36]
	eor.w	r12, r0, r1
	ldrb.w	r0, [sp, #96]
	ldrb.w	r1, [sp, #97]
	eors	r2, r0
	ldr	r0, [sp, #72]
	ldr	r6, [sp, #76]
	eor.w	r3, r0, r1
	ldrb.w	r1, [sp, #99]
	ldrb.w	r0, [sp, #98]
	eors	r1, r6
	ldr	r6, [sp, #32]
	ldr.w	r11, [sp, #80]
	strb	r6, [r4]
	ldr	r6, [sp, #28]
	eor.w	r0, r0, r11
	strb	r6, [r4, #1]
	ldr	r6, [sp, #68]
	strb.w	r10, [r4, #4]
	strb	r6, [r4, #2]
	ldr	r6, [sp, #64]
	strb	r7, [r4, #6]
	strb	r6, [r4, #3]
	ldr	r6, [sp, #60]
	strb.w	r8, [r4, #7]
	strb	r6, [r4, #5]
	strb.w	r9, [r4, #8]
	strb.w	lr, [r4, #9]
	strb	r5, [r4, #10]
	strb.w	r12, [r4, #11]
	strb	r2, [r4, #12]
	strb	r3, [r4, #13]
	strb	r0, [r4, #14]
	strb	r1, [r4, #15]
	add	sp, #100
	pop.w	{r4, r5, r6, r7, r8, r9, r10, r11, pc}
.Lfunc_end880d9:
	.size	"eax_mode::tag_over", .Lfunc_end880d9-"eax_mode::tag_over"
	.cantunwind
	.fnend

	.section	".text.eax_mode::apply_key_stream","ax",%progbits
	.p2align	2
	.type	"eax_mode::apply_key_stream",%function
	.code	16
	.thumb_func
"eax_mode::apply_key_stream":
	.fnstart
	.save	{r4, r5, r6, r7, lr}
	push	{r4, r5, r6, r7, lr}
	.setfp	r7, sp, #12
	add	r7, sp, #12
	.pad	#76
	sub	sp, #76
	mov	r4, sp
	bfc	r4, #0, #4
	mov	sp, r4
	add.w	r6, r7, #8
	ldm	r6, {r1, r5, r6}
	mov	r4, r0
	add	r0, sp, #16
	strd	r1, r5, [sp]
	bl	"core::int::u128::to_be_bytes"
	ldr	r0, [sp, #16]
	ldr	r1, [sp, #20]
	ldr	r2, [sp, #24]
	add.w	r12, sp, #32
	ldr	r3, [sp, #28]
	movs	r5, #0
	stm.w	r12, {r0, r1, r2, r3, r5}
	add	r0, sp, #48
	add	r2, sp, #32
	mov	r1, r4
	strd	r5, r5, [sp, #52]
	str	r5, [sp, #60]
	bl	"aes_block::Aes128::encrypt_block"
	ldrb.w	r0, [sp, #48]
	ldrb	r1, [r6]
	sub.w	r4, r7, #12
	eors	r0, r1
	strb	r0, [r6]
	mov	sp, r4
	pop	{r4, r5, r6, r7, pc}
.Lfunc_end78833:
	.size	"eax_mode::apply_key_stream", .Lfunc_end78833-"eax_mode::apply_key_stream"
	.cantunwind
	.fnend

	.section	".text.psk_ends::channel::check_result","ax",%progbits
	.p2align	2
	.type	"psk_ends::channel::check_result",%function
	.code	16
	.thumb_func
"psk_ends::channel::check_result":
	.fnstart
	ubfx	r2, r0, #6, #2
	cbz	r2, .LBBaf9d3_2
	mov	r1, r0
	ubfx	r0, r0, #5, #1
	subs	r2, #1
	tst.w	r1, #32
	clz	r2, r2
	it	eq
	lsreq	r0, r2, #5
	cmp	r0, #0
	it	ne
	movne	r1, #30
	bx	lr
.LBBaf9d3_2:
	movs	r0, #1
	movs	r1, #29
	bx	lr
.Lfunc_endaf9d3:
	.size	"psk_ends::channel::check_result", .Lfunc_endaf9d3-"psk_ends::channel::check_result"
	.cantunwind
	.fnend

	.section	".text.psk_ends::peer::psk4::psk4::<#becd8de5e2060522>","ax",%progbits
	.p2align	2
	.type	"psk_ends::peer::psk4::psk4::<#becd8de5e2060522>",%function
	.code	16
	.thumb_func
"psk_ends::peer::psk4::psk4::<#becd8de5e2060522>":
	.fnstart
	.save	{r4, r5, r6, r7, r8, r9, lr}
	push.w	{r4, r5, r6, r7, r8, r9, lr}
	.pad	#84
	sub	sp, #84
	mov	r6, r0
	mov	r5, r3
	mov	r3, r1
	movs	r0, #0
	ldr	r1, [r6, #16]
	str	r0, [sp, #76]
	strd	r0, r0, [sp, #68]
	strd	r0, r0, [sp, #60]
	strd	r0, r0, [sp, #52]
	str	r0, [sp, #48]
	mov	r9, r2
	ldr	r2, [r1]
	ldr	r7, [r1, #4]
	ldr	r4, [r1, #8]
	ldr	r1, [r1, #12]
	strd	r0, r0, [sp, #32]
	strd	r0, r0, [sp, #40]
	movs	r0, #3
	str	r0, [sp, #8]
	movs	r0, #1
	ldr.w	r8, [sp, #112]
	str	r2, [sp, #12]
	str	r1, [sp, #24]
	str	r0, [sp, #28]
	add	r1, sp, #8
	mov	r0, r5
	movs	r2, #1
	str	r7, [sp, #16]
	str	r4, [sp, #20]
	bl	"psk_messages::writing::write_psk_into"
	ldr	r0, [r6, #16]
	movs	r2, #1
	add.w	r1, r0, #368
	mov	r0, r5
	mov	r3, r9
	str.w	r8, [sp]
	bl	"psk_ends::channel::seal_in::<#becd8de5e2060522>"
	add	sp, #84
	pop.w	{r4, r5, r6, r7, r8, r9, pc}
.Lfunc_ende81a3:
	.size	"psk_ends::peer::psk4::psk4::<#becd8de5e2060522>", .Lfunc_ende81a3-"psk_ends::peer::psk4::psk4::<#becd8de5e2060522>"
	.cantunwind
	.fnend

	.section	".text.psk_ends::channel::seal_in::<#becd8de5e2060522>","ax",%progbits
	.p2align	2
	.type	"psk_ends::channel::seal_in::<#becd8de5e2060522>",%function
	.code	16
	.thumb_func
"psk_ends::channel::seal_in::<#becd8de5e2060522>":
	.fnstart
	.save	{r4, r5, r6, r7, r8, r9, r10, r11, lr}
	push.w	{r4, r5, r6, r7, r8, r9, r10, r11, lr}
	.pad	#84
	sub	sp, #84
	ldr.w	r10, [r0, #1504]
	mov	r4, r0
	ldr.w	r0, [r0, #1508]
	cmp.w	r10, #22
	mov	r6, r1
	mov.w	r1, #22
	it	hs
	movhs	r10, r1
	cmp	r0, #0
	lsl.w	r0, r3, #6
	it	ne
	movne	r10, r1
	strb.w	r0, [sp, #67]
	movs	r5, #0
	movs	r0, #16
	strd	r0, r5, [sp, #16]
	add	r0, sp, #48
	add.w	r11, sp, #68
	mov	r8, r2
	strb.w	r2, [sp, #63]
	str	r0, [sp, #8]
	mov	r0, r11
	mov	r1, r6
	movs	r2, #0
	movs	r3, #0
	strd	r5, r5, [sp, #48]
	str	r5, [sp, #56]
	str.w	r5, [sp, #59]
	str	r5, [sp]
	str	r5, [sp, #4]
	bl	"eax_mode::omac"
	mov	r0, r11
	bl	"core::int::u128::from_be_bytes"
	mov	r7, r0
	add.w	r9, sp, #67
	strd	r2, r3, [sp]
	mov	r0, r6
	mov	r2, r7
	mov	r3, r1
	str.w	r9, [sp, #8]
	bl	"eax_mode::apply_key_stream"
	add	r0, sp, #24
	adds	r7, r0, #4
	mov	r0, r7
	mov	r1, r6
	mov	r2, r11
	mov	r3, r4
	strd	r10, r5, [sp]
	str.w	r9, [sp, #8]
	bl	"eax_mode::tag_over"
	ldr	r3, [sp, #120]
	ldrb.w	r0, [sp, #67]
	str.w	r8, [sp, #24]
	strb.w	r0, [sp, #44]
	ldrd	r1, r0, [r3]
	strh.w	r5, [sp, #45]
	rsbs.w	r2, r1, #1
	sbcs.w	r2, r5, r0
	strb.w	r5, [sp, #47]
	blo	.LBB3b561_2
	adds	r1, #1
	adc	r0, r0, #0
	strd	r1, r0, [r3]
.LBB3b561_2:
	add.w	r5, r4, #1504
	ldrd	r1, r0, [r5]
	subs.w	r2, r1, #17
	sbcs	r2, r0, #0
	blo	.LBB3b561_4
	subs	r1, #17
	sbc	r0, r0, #0
	adds	r2, r4, r1
	movs	r3, #0
	str	r3, [r4, r1]
	strb	r3, [r2, #16]
	str	r3, [r2, #12]
	str	r3, [r2, #8]
	str	r3, [r2, #4]
	strd	r1, r0, [r5]
.LBB3b561_4:
	mov	r0, r4
	mov	r1, r7
	movs	r2, #16
	movs	r3, #0
	bl	"octet_lists::octets::Octets::append::<=1500>"
	ldrd	r1, r0, [r5]
	movw	r2, #1500
	eors	r2, r1
	orrs	r2, r0
	beq	.LBB3b561_6
	ldrb.w	r2, [sp, #44]
	strb	r2, [r4, r1]
	adds	r1, #1
	adc	r0, r0, #0
	strd	r1, r0, [r5]
.LBB3b561_6:
	add	sp, #84
	pop.w	{r4, r5, r6, r7, r8, r9, r10, r11, pc}
.Lfunc_end3b561:
	.size	"psk_ends::channel::seal_in::<#becd8de5e2060522>", .Lfunc_end3b561-"psk_ends::channel::seal_in::<#becd8de5e2060522>"
	.cantunwind
	.fnend

	.section	".text.psk_ends::octets::idle_cause","ax",%progbits
	.p2align	2
	.type	"psk_ends::octets::idle_cause",%function
	.code	16
	.thumb_func
"psk_ends::octets::idle_cause":
	.fnstart
	.save	{r4, r5, r6, r7, lr}
	push	{r4, r5, r6, r7, lr}
	.pad	#84
	sub	sp, #84
	mov	r7, sp
	mov	r6, r0
	mov	r0, r7
	movs	r1, #80
	mov	r4, r3
	mov	r5, r2
	bl	__aeabi_memclr8
	subs	r2, r5, #5
	add.w	r1, r6, #5
	sbc	r3, r4, #0
	mov	r0, r7
	bl	"psk_messages::reading::read_psk_message"
	ldrb.w	r1, [sp]
	ldrb.w	r0, [sp, #1]
	cmp	r1, #1
	it	ne
	movne	r0, #22
	add	sp, #84
	pop	{r4, r5, r6, r7, pc}
.Lfunc_endd0a2b:
	.size	"psk_ends::octets::idle_cause", .Lfunc_endd0a2b-"psk_ends::octets::idle_cause"
	.cantunwind
	.fnend

	.section	".text.gpsk_ends::peer::GpskPeer::handle_step::<#e0641de541981142>","ax",%progbits
	.p2align	2
	.type	"gpsk_ends::peer::GpskPeer::handle_step::<#e0641de541981142>",%function
	.code	16
	.thumb_func
"gpsk_ends::peer::GpskPeer::handle_step::<#e0641de541981142>":
	.fnstart
	.save	{r4, r5, r6, r7, r8, r9, r10, r11, lr}
	push.w	{r4, r5, r6, r7, r8, r9, r10, r11, lr}
	.pad	#444
	sub	sp, #444
	mov	r5, r1
	ldrb.w	r3, [r5, #656]
	mov	r4, r0
	ldrd	r1, r0, [sp, #480]
	ldrd	r12, r10, [sp, #488]
	movs	r7, #0
	cmp	r3, #2
	strb.w	r7, [sp, #52]
	strh.w	r7, [sp, #50]
	beq	.LBB6e120_4
	cmp	r3, #1
	bne	.LBB6e120_5
	subs	r6, r1, #5
	sbc	r8, r0, #0
	ldrb	r0, [r2, #1]
	add.w	r9, sp, #56
	str	r0, [sp, #44]
	mov	r0, r9
	movs	r1, #80
	adds	r7, r2, #5
	bl	__aeabi_memclr8
	mov	r0, r9
	mov	r1, r5
	mov	r2, r7
	strd	r6, r8, [sp]
	bl	"gpsk_ends::peer::gpsk1::fresh_reads"
	ldrb.w	r0, [sp, #56]
	cmp	r0, #1
	bne	.LBB6e120_8
	ldrb.w	r0, [sp, #57]
	movs	r2, #0
	movs	r1, #0
	cbnz	r1, .LBB6e120_7
	b	.LBB6e120_6
.LBB6e120_4:
	add.w	r6, r5, #1152
	add.w	r7, r5, #624
	add.w	r3, r5, #664
	strd	r6, r2, [sp]
	strd	r1, r0, [sp, #8]
	add.w	r0, sp, #50
	mov	r1, r5
	mov	r2, r7
	str.w	r12, [sp, #16]
	str.w	r10, [sp, #20]
	bl	"gpsk_ends::peer::turns::known_reads::<#e0641de541981142>"
	ldrb.w	r1, [sp, #50]
	ldrb.w	r0, [sp, #51]
	ldrb.w	r2, [sp, #52]
	cbnz	r1, .LBB6e120_7
	b	.LBB6e120_6
.LBB6e120_5:
	movs	r0, #22
.LBB6e120_6:
	movs	r1, #0
	movs	r2, #0
	strd	r1, r1, [r10]
	strd	r1, r1, [r10, #8]
.LBB6e120_7:
	strb	r1, [r4]
	strb	r0, [r4, #1]
	strb	r2, [r4, #2]
	add	sp, #444
	pop.w	{r4, r5, r6, r7, r8, r9, r10, r11, pc}
.LBB6e120_8:
	add.w	r0, r5, #656
	add.w	r1, r9, #8
	add.w	r9, sp, #368
	str	r0, [sp, #40]
	mov	r0, r9
	movs	r2, #72
	add.w	r8, r5, #624
	bl	__aeabi_memcpy8
	ldrd	r6, r7, [r5, #616]
	ldrd	r0, lr, [r5, #256]
	ldr.w	r12, [sp, #368]
	ldrd	r3, r11, [sp, #376]
	ldrb.w	r1, [sp, #432]
	add.w	r2, r9, #16
	stm.w	sp, {r6, r7, r8}
	add	r6, sp, #136
	strd	r5, r0, [sp, #12]
	strd	lr, r2, [sp, #20]
	mov	r0, r6
	add.w	r2, r5, #552
	strd	r3, r11, [sp, #32]
	str.w	r12, [sp, #28]
	bl	"login_keys::gpsk::gpsk_keys"
	ldr	r0, [sp, #44]
	ldr	r3, [sp, #40]
	str	r0, [sp, #8]
	ldr	r0, [sp, #488]
	mov	r1, r5
	str	r0, [sp, #12]
	add.w	r0, sp, #53
	mov	r2, r8
	strd	r9, r6, [sp]
	str.w	r10, [sp, #16]
	bl	"gpsk_ends::peer::turns::expand::<#e0641de541981142>"
	ldrb.w	r1, [sp, #53]
	ldrb.w	r0, [sp, #54]
	ldrb.w	r2, [sp, #55]
	cmp	r1, #0
	bne	.LBB6e120_7
	b	.LBB6e120_6
.Lfunc_end6e120:
	.size	"gpsk_ends::peer::GpskPeer::handle_step::<#e0641de541981142>", .Lfunc_end6e120-"gpsk_ends::peer::GpskPeer::handle_step::<#e0641de541981142>"
	.cantunwind
	.fnend

	.section	".text.gpsk_ends::peer::gpsk1::fresh_reads","ax",%progbits
	.p2align	2
	.type	"gpsk_ends::peer::gpsk1::fresh_reads",%function
	.code	16
	.thumb_func
"gpsk_ends::peer::gpsk1::fresh_reads":
	.fnstart
	.save	{r4, r5, r6, r7, r8, r9, r10, r11, lr}
	push.w	{r4, r5, r6, r7, r8, r9, r10, r11, lr}
	.pad	#324
	sub	sp, #324
	add	r5, sp, #152
	str	r1, [sp, #28]
	mov	r4, r0
	ldrd	r7, r8, [sp, #360]
	mov.w	r9, #0
	mov	r0, r5
	movs	r1, #168
	mov	r6, r2
	strd	r9, r9, [sp, #112]
	strd	r9, r9, [sp, #104]
	strd	r9, r9, [sp, #96]
	strd	r9, r9, [sp, #88]
	str.w	r9, [sp, #80]
	str.w	r9, [sp, #83]
	strd	r9, r9, [sp, #48]
	strd	r9, r9, [sp, #56]
	strd	r9, r9, [sp, #64]
	strd	r9, r9, [sp, #72]
	str.w	r9, [sp, #43]
	str.w	r9, [sp, #40]
	bl	__aeabi_memclr8
	mov	r0, r5
	mov	r1, r6
	mov	r2, r7
	mov	r3, r8
	str.w	r9, [sp]
	str.w	r9, [sp, #4]
	bl	"gpsk_messages::reading::read_gpsk_message"
	ldr	r0, [sp, #180]
	add.w	r3, r5, #32
	str	r0, [sp, #36]
	ldr	r0, [sp, #176]
	ldrb.w	r2, [sp, #152]
	str	r0, [sp, #32]
	ldrb.w	r12, [sp, #153]
	ldrb.w	lr, [sp, #160]
	ldrd	r10, r11, [sp, #168]
	ldm	r3!, {r0, r1, r5, r6}
	add	r7, sp, #120
	stm	r7!, {r0, r1, r5, r6}
	cmp	r2, #1
	ldm.w	r3, {r0, r1, r2, r5}
	stm	r7!, {r0, r1, r2, r5}
	bne	.LBB88bce_2
	mov.w	lr, #1
	mov.w	r10, #0
	mov.w	r11, #0
	movs	r1, #0
	movs	r0, #0
	b	.LBB88bce_4
.LBB88bce_2:
	cmp.w	lr, #0
	beq	.LBB88bce_6
	mov.w	r10, #0
	mov.w	r12, #22
	mov.w	lr, #1
	mov.w	r11, #0
	movs	r1, #0
	movs	r0, #0
	mov.w	r9, #0
.LBB88bce_4:
	movs	r5, #0
	movs	r6, #0
	movs	r7, #0
	mov.w	r8, #0
.LBB88bce_5:
	str	r1, [r4, #16]
	str	r0, [r4, #20]
	add.w	r0, r4, #24
	add	r1, sp, #88
	movs	r2, #32
	strb.w	lr, [r4]
	strb.w	r12, [r4, #1]
	str.w	r10, [r4, #8]
	str.w	r11, [r4, #12]
	bl	__aeabi_memcpy
	ldr	r0, [sp, #80]
	ldr.w	r1, [sp, #83]
	str.w	r9, [r4, #56]
	str	r5, [r4, #60]
	str	r7, [r4, #68]
	str	r6, [r4, #64]
	strb.w	r8, [r4, #72]
	str.w	r0, [r4, #73]
	str	r1, [r4, #76]
	add	sp, #324
	pop.w	{r4, r5, r6, r7, r8, r9, r10, r11, pc}
.LBB88bce_6:
	ldrd	r6, r0, [sp, #224]
	ldr	r7, [sp, #28]
	ldrd	r2, r3, [sp, #32]
	ldrd	r9, r5, [sp, #216]
	str	r0, [sp, #24]
	mov	r0, r7
	mov	r1, r10
	bl	"eap_method::peer_side::PeerSide::allows"
	mov.w	r8, #0
	cbz	r0, .LBB88bce_11
	strd	r11, r10, [sp, #12]
	ldr.w	r11, [sp, #24]
	mov	r10, r6
	add.w	r6, r7, #536
	mov	r7, r9
	str	r5, [sp, #20]
	strd	r8, r8, [sp, #176]
	strd	r8, r8, [sp, #168]
	strd	r8, r8, [sp, #160]
	strd	r8, r8, [sp, #152]
	str.w	r10, [sp, #28]
	.p2align	2
.LBB88bce_8:
	subs.w	r0, r10, #6
	sbcs	r0, r11, #0
	mov.w	r5, #0
	blo	.LBB88bce_12
	mov	r0, r6
	mov	r1, r7
	movs	r2, #6
	movs	r3, #0
	str	r5, [sp]
	bl	"login_policy::policy::is_allowed"
	cbnz	r0, .LBB88bce_13
	subs.w	r10, r10, #6
	mov.w	r8, #1
	mov	r0, r6
	mov	r1, r7
	mov.w	r2, #6
	mov.w	r3, #0
	sbc	r11, r11, #0
	adds	r5, r7, #6
	str.w	r8, [sp]
	bl	"login_policy::policy::is_allowed"
	cmp	r0, #0
	mov	r7, r5
	beq	.LBB88bce_8
	b	.LBB88bce_14
.LBB88bce_11:
	movs	r0, #0
	mov.w	r12, #23
	mov.w	lr, #1
	mov.w	r10, #0
	mov.w	r11, #0
	movs	r1, #0
	str	r0, [sp, #36]
	mov.w	r9, #0
	str	r0, [sp, #28]
	strd	r0, r0, [sp, #20]
	b	.LBB88bce_16
.LBB88bce_12:
	movs	r0, #0
	mov.w	r12, #24
	mov.w	lr, #1
	mov.w	r10, #0
	mov.w	r11, #0
	movs	r1, #0
	str	r0, [sp, #36]
	mov.w	r9, #0
	str	r0, [sp, #28]
	strd	r0, r0, [sp, #20]
	mov.w	r8, #0
	add	r5, sp, #152
	b	.LBB88bce_15
.LBB88bce_13:
	mov.w	r8, #0
.LBB88bce_14:
	add	r6, sp, #120
	add	r5, sp, #152
	ldm	r6!, {r1, r2, r3, r7}
	mov	r0, r5
	stm	r0!, {r1, r2, r3, r7}
	ldm.w	r6, {r1, r2, r3, r7}
	mov.w	lr, #0
	stm	r0!, {r1, r2, r3, r7}
	ldrd	r11, r10, [sp, #12]
	ldr	r1, [sp, #32]
	mov.w	r12, #0
.LBB88bce_15:
	ldm	r5!, {r2, r3, r6, r7}
	add	r0, sp, #48
	stm	r0!, {r2, r3, r6, r7}
	ldm.w	r5, {r2, r3, r6, r7}
	stm	r0!, {r2, r3, r6, r7}
	movs	r0, #0
	str.w	r0, [sp, #43]
	str	r0, [sp, #40]
.LBB88bce_16:
	add	r0, sp, #48
	ldm	r0!, {r3, r5, r6, r7}
	add	r2, sp, #88
	stm	r2!, {r3, r5, r6, r7}
	ldm.w	r0, {r3, r5, r6, r7}
	stm	r2!, {r3, r5, r6, r7}
	ldr.w	r0, [sp, #43]
	ldr	r2, [sp, #40]
	str.w	r0, [sp, #83]
	ldr	r0, [sp, #36]
	ldr	r6, [sp, #28]
	ldrd	r5, r7, [sp, #20]
	str	r2, [sp, #80]
	b	.LBB88bce_5
.Lfunc_end88bce:
	.size	"gpsk_ends::peer::gpsk1::fresh_reads", .Lfunc_end88bce-"gpsk_ends::peer::gpsk1::fresh_reads"
	.cantunwind
	.fnend

	.section	".text.gpsk_ends::receiving::receive","ax",%progbits
	.p2align	2
	.type	"gpsk_ends::receiving::receive",%function
	.code	16
	.thumb_func
"gpsk_ends::receiving::receive":
	.fnstart
	.save	{r4, r5, r6, r7, r8, r9, r10, lr}
	push.w	{r4, r5, r6, r7, r8, r9, r10, lr}
	.pad	#176
	sub	sp, #176
	add.w	r8, sp, #8
	mov	r5, r1
	ldr.w	r9, [sp, #208]
	mov	r4, r0
	mov	r0, r8
	movs	r1, #168
	mov	r10, r3
	mov	r7, r2
	bl	__aeabi_memclr8
	lsls.w	r0, r9, #31
	beq	.LBBfec7b_2
	ldr	r0, [sp, #212]
	mov.w	r12, #1
	lsls	r0, r0, #24
	mov.w	r6, #32
	add	r0, sp, #8
	mov	r1, r5
	mov	r2, r7
	mov	r3, r10
	it	eq
	moveq	r6, #16
	strd	r12, r6, [sp]
	b	.LBBfec7b_3
.LBBfec7b_2:
	mov.w	r12, #0
	str.w	r12, [sp]
	add	r0, sp, #8
	mov	r1, r5
	mov	r2, r7
	mov	r3, r10
	str.w	r12, [sp, #4]
.LBBfec7b_3:
	bl	"gpsk_messages::reading::read_gpsk_message"
	ldrh.w	r0, [sp, #8]
	ldrb.w	r2, [sp, #16]
	ldr	r3, [sp, #20]
	add.w	r1, r8, #16
	strh	r0, [r4]
	str	r2, [r4, #8]
	add.w	r0, r4, #16
	movs	r2, #152
	str	r3, [r4, #12]
	bl	__aeabi_memcpy
	add	sp, #176
	pop.w	{r4, r5, r6, r7, r8, r9, r10, pc}
.Lfunc_endfec7b:
	.size	"gpsk_ends::receiving::receive", .Lfunc_endfec7b-"gpsk_ends::receiving::receive"
	.cantunwind
	.fnend

	.section	".text.gpsk_messages::reading::read_gpsk_message","ax",%progbits
	.p2align	2
	.type	"gpsk_messages::reading::read_gpsk_message",%function
	.code	16
	.thumb_func
"gpsk_messages::reading::read_gpsk_message":
	.fnstart
	.save	{r4, r5, r6, r7, r8, r9, r10, r11, lr}
	push.w	{r4, r5, r6, r7, r8, r9, r10, r11, lr}
	.pad	#588
	sub.w	sp, sp, #588
	movs	r6, #0
	orrs.w	r7, r2, r3
	strd	r6, r6, [sp, #152]
	strd	r6, r6, [sp, #144]
	strd	r6, r6, [sp, #128]
	strd	r6, r6, [sp, #136]
	str	r6, [sp, #120]
	str.w	r6, [sp, #123]
	strd	r6, r6, [sp, #104]
	strd	r6, r6, [sp, #112]
	strd	r6, r6, [sp, #312]
	strd	r6, r6, [sp, #320]
	strd	r6, r6, [sp, #296]
	strd	r6, r6, [sp, #304]
	str	r6, [sp, #288]
	str.w	r6, [sp, #291]
	strd	r6, r6, [sp, #280]
	strd	r6, r6, [sp, #272]
	strd	r6, r6, [sp, #264]
	strd	r6, r6, [sp, #256]
	strd	r6, r6, [sp, #248]
	strd	r6, r6, [sp, #240]
	str.w	r6, [sp, #235]
	str	r6, [sp, #232]
	strd	r6, r6, [sp, #224]
	strd	r6, r6, [sp, #216]
	strd	r6, r6, [sp, #208]
	strd	r6, r6, [sp, #200]
	strd	r6, r6, [sp, #192]
	strd	r6, r6, [sp, #184]
	str.w	r6, [sp, #179]
	str	r6, [sp, #176]
	strd	r6, r6, [sp, #168]
	strd	r6, r6, [sp, #160]
	strd	r6, r6, [sp, #368]
	strd	r6, r6, [sp, #376]
	strd	r6, r6, [sp, #352]
	strd	r6, r6, [sp, #360]
	str	r6, [sp, #344]
	str.w	r6, [sp, #347]
	strd	r6, r6, [sp, #328]
	str	r6, [sp, #336]
	str	r6, [sp, #340]
	beq.w	.LBB5c95d_33
	ldrb	r7, [r1]
	subs	r5, r7, #1
	cmp	r5, #5
	bhi.w	.LBB5c95d_33
	ldrd	r6, r7, [sp, #624]
.LCPI5c95d_0:
	tbh	[pc, r5, lsl #1]
.LJTI5c95d_0:
	.short	(.LBB5c95d_4-(.LCPI5c95d_0+4))/2
	.short	(.LBB5c95d_22-(.LCPI5c95d_0+4))/2
	.short	(.LBB5c95d_11-(.LCPI5c95d_0+4))/2
	.short	(.LBB5c95d_18-(.LCPI5c95d_0+4))/2
	.short	(.LBB5c95d_9-(.LCPI5c95d_0+4))/2
	.short	(.LBB5c95d_31-(.LCPI5c95d_0+4))/2
	.p2align	1
.LBB5c95d_4:
	subs	r2, #1
	mov	r5, r0
	add.w	r1, r1, #1
	sbc	r3, r3, #0
	movs	r6, #0
	add	r0, sp, #472
	strd	r6, r6, [sp, #440]
	strd	r6, r6, [sp, #448]
	strd	r6, r6, [sp, #568]
	strd	r6, r6, [sp, #576]
	str	r6, [sp, #408]
	str.w	r6, [sp, #411]
	strd	r6, r6, [sp, #424]
	strd	r6, r6, [sp, #432]
	bl	"gpsk_messages::fields::identity_field"
	ldrb.w	r0, [sp, #472]
	cmp	r0, #1
	bne.w	.LBB5c95d_55
	ldrd	r8, r0, [sp, #480]
	ldr	r1, [sp, #496]
	str	r0, [sp, #28]
	ldrd	r4, r0, [sp, #488]
	ldrd	r2, r3, [sp, #504]
	str	r0, [sp, #36]
	add	r0, sp, #512
	bl	"gpsk_messages::fields::rand_field"
	ldrb.w	r0, [sp, #512]
	cmp	r0, #1
	bne.w	.LBB5c95d_54
	ldr	r1, [sp, #552]
	ldrd	r2, r3, [sp, #560]
	add	r0, sp, #472
	bl	"gpsk_messages::fields::suites_field"
	ldrb.w	r0, [sp, #472]
	cmp	r0, #1
	bne.w	.LBB5c95d_54
	ldrd	r0, r1, [sp, #504]
	movs	r6, #0
	orrs	r0, r1
	beq.w	.LBB5c95d_63
	movs	r0, #0
	movs	r3, #0
	movs	r1, #0
	movs	r2, #0
	mov.w	r8, #0
	str	r0, [sp, #28]
	movs	r4, #0
	strd	r0, r0, [sp, #32]
	str	r0, [sp, #12]
	str	r0, [sp, #44]
	mov.w	r10, #0
	mov.w	lr, #0
	b.w	.LBB5c95d_64
.LBB5c95d_9:
	eor	r2, r2, #5
	orrs	r2, r3
	bne.w	.LBB5c95d_32
	ldr.w	r1, [r1, #1]
	movs	r6, #0
	rev	r1, r1
	str	r1, [sp, #20]
	movs	r1, #4
	str	r1, [sp, #48]
	movs	r1, #0
	mov.w	lr, #1
	str	r1, [sp, #92]
	movs	r3, #0
	str	r1, [sp, #80]
	strd	r1, r1, [sp, #96]
	mov.w	r8, #0
	str	r1, [sp, #76]
	b	.LBB5c95d_34
.LBB5c95d_11:
	subs	r2, #1
	add.w	r8, sp, #512
	mov	r7, r0
	add.w	r1, r1, #1
	sbc	r3, r3, #0
	movs	r6, #0
	mov	r0, r8
	strd	r6, r6, [sp, #424]
	strd	r6, r6, [sp, #432]
	strd	r6, r6, [sp, #408]
	strd	r6, r6, [sp, #416]
	str	r6, [sp, #400]
	str.w	r6, [sp, #403]
	strd	r6, r6, [sp, #384]
	strd	r6, r6, [sp, #392]
	bl	"gpsk_messages::fields::rand_field"
	ldrb.w	r0, [sp, #512]
	cmp	r0, #1
	bne.w	.LBB5c95d_52
	ldr	r0, [sp, #520]
	ldr	r1, [sp, #552]
	str	r0, [sp, #72]
	ldr	r0, [sp, #540]
	ldrd	r2, r3, [sp, #560]
	str	r0, [sp, #12]
	ldr	r0, [sp, #536]
	ldrd	r4, r10, [sp, #524]
	str	r0, [sp, #32]
	ldr	r0, [sp, #548]
	ldr	r5, [sp, #532]
	str	r0, [sp, #16]
	ldr.w	r9, [sp, #544]
	mov	r0, r8
	bl	"gpsk_messages::fields::rand_field"
	ldrb.w	r0, [sp, #512]
	cmp	r0, #1
	bne.w	.LBB5c95d_51
	ldr	r1, [sp, #552]
	ldrd	r2, r3, [sp, #560]
	add	r0, sp, #472
	bl	"gpsk_messages::fields::identity_field"
	ldrb.w	r0, [sp, #472]
	cmp	r0, #1
	bne.w	.LBB5c95d_51
	ldrd	r0, r6, [sp, #480]
	str	r5, [sp, #36]
	str	r4, [sp, #28]
	ldr	r1, [sp, #496]
	ldrd	r2, r3, [sp, #504]
	ldrd	r5, r4, [sp, #488]
	strd	r0, r6, [sp, #568]
	add	r0, sp, #440
	strd	r5, r4, [sp, #576]
	bl	"gpsk_messages::fields::suite_field"
	ldrb.w	r0, [sp, #440]
	cmp	r0, #1
	bne.w	.LBB5c95d_51
	ldrd	r1, r3, [sp, #464]
	subs	r0, r1, #2
	sbcs	r0, r3, #0
	mov	r0, r7
	blo	.LBB5c95d_17
	ldr	r2, [sp, #456]
	subs	r1, #2
	ldrh	r7, [r2]
	sbc	r5, r3, #0
	rev	r7, r7
	subs.w	r6, r1, r7, lsr #16
	sbcs	r6, r5, #0
	bhs.w	.LBB5c95d_65
.LBB5c95d_17:
	movs	r6, #0
	movs	r1, #0
	movs	r2, #0
	movs	r7, #0
	movs	r5, #0
	strd	r6, r6, [sp, #376]
	strd	r6, r6, [sp, #368]
	strd	r6, r6, [sp, #352]
	strd	r6, r6, [sp, #360]
	str	r6, [sp, #344]
	str.w	r6, [sp, #347]
	strd	r6, r6, [sp, #328]
	strd	r6, r6, [sp, #336]
	str	r1, [sp, #92]
	movs	r3, #0
	strd	r1, r1, [sp, #96]
	str	r1, [sp, #52]
	str	r1, [sp, #76]
	mov.w	lr, #0
	str	r1, [sp, #48]
	mov.w	r12, #0
	mov.w	r10, #0
	str	r7, [sp, #36]
	movs	r4, #0
	mov.w	r11, #0
	mov.w	r9, #0
	str	r5, [sp, #16]
	mov	r5, r2
	str	r7, [sp, #68]
	strd	r7, r7, [sp, #84]
	b	.LBB5c95d_53
.LBB5c95d_18:
	subs	r5, r2, #3
	sbcs	r5, r3, #0
	blo.w	.LBB5c95d_32
	ldrh.w	r5, [r1, #1]
	subs	r2, #3
	rev	r5, r5
	sbc	r3, r3, #0
	subs.w	r4, r2, r5, lsr #16
	sbcs	r4, r3, #0
	blo.w	.LBB5c95d_32
	lsrs	r5, r5, #16
	subs.w	r9, r2, r5
	sbc	r10, r3, #0
	lsls	r2, r6, #31
	beq.w	.LBB5c95d_59
	uxtb	r2, r7
	eor.w	r2, r2, r9
	b	.LBB5c95d_61
.LBB5c95d_22:
	subs	r2, #1
	add	r7, sp, #472
	mov	r8, r0
	add.w	r1, r1, #1
	sbc	r3, r3, #0
	movs	r6, #0
	mov	r0, r7
	strd	r6, r6, [sp, #424]
	strd	r6, r6, [sp, #432]
	strd	r6, r6, [sp, #408]
	strd	r6, r6, [sp, #416]
	str	r6, [sp, #400]
	str.w	r6, [sp, #403]
	strd	r6, r6, [sp, #384]
	strd	r6, r6, [sp, #392]
	bl	"gpsk_messages::fields::identity_field"
	ldrb.w	r0, [sp, #472]
	cmp	r0, #1
	bne.w	.LBB5c95d_49
	ldr	r0, [sp, #480]
	ldr	r1, [sp, #496]
	ldrd	r2, r3, [sp, #504]
	str	r0, [sp, #72]
	ldrd	r9, r4, [sp, #484]
	ldr	r5, [sp, #492]
	mov	r0, r7
	bl	"gpsk_messages::fields::identity_field"
	ldrb.w	r0, [sp, #472]
	cmp	r0, #1
	bne.w	.LBB5c95d_48
	ldr	r0, [sp, #480]
	ldr	r1, [sp, #496]
	str	r0, [sp, #32]
	ldr	r0, [sp, #484]
	ldrd	r2, r3, [sp, #504]
	str	r0, [sp, #12]
	ldr	r0, [sp, #488]
	add.w	r11, sp, #512
	str	r0, [sp, #44]
	ldr.w	r10, [sp, #492]
	mov	r0, r11
	bl	"gpsk_messages::fields::rand_field"
	ldrb.w	r0, [sp, #512]
	cmp	r0, #1
	bne.w	.LBB5c95d_48
	add.w	r12, sp, #520
	str	r5, [sp, #36]
	ldm.w	r12, {r0, r5, r6, r12}
	add.w	lr, sp, #568
	stm.w	lr, {r0, r5, r6}
	ldr	r0, [sp, #540]
	ldr	r1, [sp, #552]
	str	r0, [sp, #92]
	ldr	r0, [sp, #548]
	ldrd	r2, r3, [sp, #560]
	str.w	r9, [sp, #28]
	ldr	r6, [sp, #536]
	str	r0, [sp, #100]
	ldr.w	r9, [sp, #544]
	mov	r0, r11
	str.w	r12, [sp, #580]
	bl	"gpsk_messages::fields::rand_field"
	ldrb.w	r0, [sp, #512]
	cmp	r0, #1
	bne.w	.LBB5c95d_48
	ldr	r1, [sp, #552]
	ldrd	r2, r3, [sp, #560]
	add	r0, sp, #472
	bl	"gpsk_messages::fields::suites_field"
	ldrb.w	r0, [sp, #472]
	cmp	r0, #1
	bne.w	.LBB5c95d_48
	ldr	r0, [sp, #480]
	ldr	r1, [sp, #496]
	str	r0, [sp, #52]
	ldr	r0, [sp, #492]
	ldrd	r2, r3, [sp, #504]
	ldrd	r11, r5, [sp, #484]
	str	r0, [sp, #88]
	add	r0, sp, #440
	bl	"gpsk_messages::fields::suite_field"
	ldrb.w	r0, [sp, #440]
	cmp	r0, #1
	bne.w	.LBB5c95d_48
	ldrd	r2, r1, [sp, #464]
	str	r5, [sp, #84]
	subs	r0, r2, #2
	sbcs	r0, r1, #0
	mov	r0, r8
	blo	.LBB5c95d_30
	ldr	r3, [sp, #456]
	subs.w	r12, r2, #2
	ldrh	r5, [r3]
	sbc	r2, r1, #0
	rev	r1, r5
	subs.w	r5, r12, r1, lsr #16
	sbcs	r5, r2, #0
	bhs.w	.LBB5c95d_69
.LBB5c95d_30:
	movs	r6, #0
	movs	r1, #0
	movs	r3, #0
	strd	r6, r6, [sp, #376]
	strd	r6, r6, [sp, #368]
	strd	r6, r6, [sp, #352]
	strd	r6, r6, [sp, #360]
	str	r6, [sp, #344]
	str.w	r6, [sp, #347]
	strd	r6, r6, [sp, #328]
	strd	r6, r6, [sp, #336]
	str	r1, [sp, #92]
	movs	r7, #0
	strd	r1, r1, [sp, #96]
	str	r1, [sp, #52]
	strd	r1, r1, [sp, #76]
	mov.w	lr, #0
	mov.w	r12, #0
	mov.w	r9, #0
	movs	r4, #0
	str	r1, [sp, #36]
	mov.w	r11, #0
	str	r3, [sp, #44]
	mov.w	r10, #0
	str	r3, [sp, #68]
	strd	r3, r3, [sp, #84]
	movs	r2, #0
	str	r3, [sp, #64]
	str	r3, [sp, #24]
	strd	r3, r3, [sp, #56]
	b	.LBB5c95d_50
.LBB5c95d_31:
	subs	r5, r2, #5
	sbcs	r5, r3, #0
	bhs.w	.LBB5c95d_46
.LBB5c95d_32:
	movs	r6, #0
.LBB5c95d_33:
	movs	r1, #0
	movs	r3, #0
	mov.w	r8, #0
	mov.w	lr, #0
	str	r1, [sp, #92]
	str	r1, [sp, #80]
	strd	r1, r1, [sp, #96]
	str	r1, [sp, #76]
	str	r1, [sp, #48]
	str	r1, [sp, #20]
.LBB5c95d_34:
	mov.w	r12, #0
	str	r1, [sp, #28]
	str	r1, [sp, #72]
	str	r1, [sp, #36]
.LBB5c95d_35:
	mov.w	r11, #0
	mov.w	r9, #0
	mov.w	r10, #0
	str	r1, [sp, #32]
.LBB5c95d_36:
	movs	r2, #0
	str	r1, [sp, #68]
	strd	r1, r1, [sp, #84]
	str	r1, [sp, #64]
	str	r1, [sp, #24]
.LBB5c95d_37:
	strd	r1, r1, [sp, #56]
.LBB5c95d_38:
	ldrd	r4, r7, [sp, #376]
	ldrd	r1, r5, [sp, #368]
	strd	r4, r7, [sp, #320]
	add	r7, sp, #352
	strd	r1, r5, [sp, #312]
	ldm	r7, {r1, r4, r5, r7}
	str	r4, [sp, #300]
	str	r1, [sp, #296]
	ldr	r1, [sp, #344]
	ldr.w	r4, [sp, #347]
	str	r5, [sp, #304]
	str	r7, [sp, #308]
	ldr	r5, [sp, #340]
	add	r7, sp, #328
	str	r1, [sp, #288]
	str.w	r4, [sp, #291]
	ldm	r7, {r1, r4, r7}
	str	r5, [sp, #284]
	add	r5, sp, #272
	cmp.w	lr, #0
	stm	r5!, {r1, r4, r7}
	beq	.LBB5c95d_43
	ldr	r7, [sp, #48]
	ldrd	r4, r5, [sp, #96]
	subs	r1, r7, #2
	cmp	r1, #4
	blo	.LBB5c95d_41
	cmp	r7, #0
	mov	r1, r4
	mov	r7, r5
	it	ne
	ldrdne	r1, r7, [sp, #84]
	mov.w	lr, #0
	rsbs.w	r1, r1, #120
	sbcs.w	r1, lr, r7
	blo.w	.LBB5c95d_45
.LBB5c95d_41:
	mov	r7, r5
	mov	lr, r4
	ldrd	r5, r4, [sp, #312]
	str	r3, [sp, #44]
	uxtb	r1, r2
	ldrd	r3, r2, [sp, #320]
	strd	r5, r4, [sp, #200]
	add	r5, sp, #296
	strd	r3, r2, [sp, #208]
	ldm	r5, {r2, r3, r4, r5}
	strd	r11, r10, [sp, #12]
	add.w	r10, sp, #184
	stm.w	r10, {r2, r3, r4, r5}
	ldr	r2, [sp, #288]
	ldr.w	r3, [sp, #291]
	ldr	r4, [sp, #284]
	add	r5, sp, #272
	str.w	r8, [sp, #52]
	mov	r8, r9
	ldr.w	r9, [sp, #92]
	str	r2, [sp, #176]
	str.w	r3, [sp, #179]
	ldm	r5, {r2, r3, r5}
	str	r1, [sp, #40]
	movs	r1, #0
	str	r4, [sp, #172]
	add	r4, sp, #160
	str	r1, [sp, #8]
	stm	r4!, {r2, r3, r5}
	str	r1, [sp, #4]
.LBB5c95d_42:
	add	r5, sp, #200
	ldm	r5, {r2, r3, r5}
	ldr	r4, [sp, #212]
	add	r1, sp, #256
	stm	r1!, {r2, r3, r5}
	add	r5, sp, #184
	str	r4, [sp, #268]
	ldm	r5, {r2, r3, r4, r5}
	add	r1, sp, #240
	stm	r1!, {r2, r3, r4, r5}
	ldr	r2, [sp, #176]
	ldr.w	r3, [sp, #179]
	add	r5, sp, #160
	str	r2, [sp, #232]
	str.w	r3, [sp, #235]
	ldr	r4, [sp, #172]
	ldm	r5, {r2, r3, r5}
	add	r1, sp, #216
	add.w	r11, sp, #12
	str	r7, [sp, #100]
	strd	r9, lr, [sp, #92]
	str	r4, [sp, #228]
	stm	r1!, {r2, r3, r5}
	ldrd	r5, r4, [sp, #32]
	ldr.w	r9, [sp, #48]
	ldrd	r3, r10, [sp, #24]
	ldm.w	r11, {r1, r7, r11}
	ldrd	lr, r2, [sp, #4]
	b	.LBB5c95d_44
.LBB5c95d_43:
	movs	r1, #0
	movs	r3, #0
	mov.w	r9, #0
	mov.w	lr, #19
	movs	r2, #1
	movs	r6, #0
	str	r1, [sp, #92]
	str	r1, [sp, #44]
	str	r1, [sp, #80]
	mov.w	r12, #0
	mov.w	r10, #0
	str	r1, [sp, #72]
	movs	r4, #0
	movs	r5, #0
	mov.w	r8, #0
	movs	r7, #0
	strd	r3, r3, [sp, #96]
	str	r3, [sp, #68]
	str	r3, [sp, #52]
	str	r3, [sp, #76]
	strd	r3, r3, [sp, #84]
	str	r3, [sp, #40]
	strd	r3, r3, [sp, #60]
	str	r3, [sp, #56]
	mov	r3, r9
	mov.w	r11, #0
.LBB5c95d_44:
	str	r1, [r0, #36]
	ldr	r1, [sp, #92]
	strb	r2, [r0]
	str	r1, [r0, #68]
	ldr	r1, [sp, #100]
	ldr	r2, [sp, #72]
	str	r1, [r0, #76]
	ldr	r1, [sp, #96]
	str	r2, [r0, #24]
	str	r1, [r0, #72]
	ldr	r1, [sp, #68]
	strb.w	lr, [r0, #1]
	strb.w	r1, [r0, #96]
	ldr	r1, [sp, #80]
	str.w	r9, [r0, #8]
	str	r1, [r0, #108]
	ldr	r1, [sp, #44]
	str.w	r11, [r0, #12]
	str	r1, [r0, #104]
	ldr	r1, [sp, #76]
	str.w	r12, [r0, #16]
	str	r1, [r0, #116]
	ldr	r1, [sp, #52]
	str.w	r10, [r0, #20]
	str	r1, [r0, #112]
	ldr	r1, [sp, #88]
	str	r4, [r0, #28]
	str	r1, [r0, #124]
	ldr	r1, [sp, #84]
	str	r5, [r0, #32]
	str	r1, [r0, #120]
	movs	r1, #0
	str.w	r1, [r0, #132]
	ldr	r1, [sp, #40]
	str	r7, [r0, #44]
	str.w	r1, [r0, #128]
	ldrd	r2, r1, [sp, #264]
	str.w	r8, [r0, #40]
	str	r1, [sp, #156]
	ldr	r1, [sp, #260]
	str	r2, [sp, #152]
	ldr	r2, [sp, #256]
	str	r6, [r0, #64]
	strd	r2, r1, [sp, #144]
	ldrd	r1, r2, [sp, #240]
	str.w	r3, [r0, #160]
	str	r1, [sp, #128]
	ldr	r1, [sp, #248]
	str	r2, [sp, #132]
	ldr	r2, [sp, #252]
	strd	r1, r2, [sp, #136]
	ldr	r1, [sp, #232]
	ldr.w	r2, [sp, #235]
	str	r1, [sp, #120]
	str.w	r2, [sp, #123]
	ldrd	r2, r1, [sp, #224]
	str	r1, [sp, #116]
	ldr	r1, [sp, #220]
	str	r2, [sp, #112]
	ldr	r2, [sp, #216]
	strd	r2, r1, [sp, #104]
	ldrd	r1, r2, [sp, #144]
	str	r1, [r0, #48]
	ldr	r1, [sp, #152]
	str	r2, [r0, #52]
	ldr	r2, [sp, #156]
	str	r1, [r0, #56]
	str	r2, [r0, #60]
	ldrd	r2, r1, [sp, #136]
	str	r1, [r0, #92]
	ldr	r1, [sp, #132]
	str	r2, [r0, #88]
	ldr	r2, [sp, #128]
	str	r1, [r0, #84]
	str	r2, [r0, #80]
	ldr.w	r1, [sp, #123]
	ldr	r2, [sp, #120]
	str	r1, [r0, #100]
	str.w	r2, [r0, #97]
	ldrd	r2, r1, [sp, #112]
	str.w	r1, [r0, #148]
	ldr	r1, [sp, #108]
	str.w	r2, [r0, #144]
	str.w	r1, [r0, #140]
	ldr	r1, [sp, #60]
	ldr	r2, [sp, #104]
	str.w	r1, [r0, #156]
	ldr	r1, [sp, #64]
	str.w	r2, [r0, #136]
	str.w	r1, [r0, #152]
	ldr	r1, [sp, #56]
	str.w	r1, [r0, #164]
	add.w	sp, sp, #588
	pop.w	{r4, r5, r6, r7, r8, r9, r10, r11, pc}
.LBB5c95d_45:
	movs	r1, #0
	str	r1, [sp, #40]
	movs	r1, #20
	str	r1, [sp, #4]
	movs	r1, #1
	str	r1, [sp, #8]
	movs	r1, #0
	movs	r2, #0
	movs	r6, #0
	mov.w	r9, #0
	str	r1, [sp, #44]
	str	r1, [sp, #80]
	mov.w	r12, #0
	str	r2, [sp, #72]
	str	r2, [sp, #36]
	strd	r2, r2, [sp, #28]
	str	r1, [sp, #12]
	mov.w	r8, #0
	str	r1, [sp, #16]
	movs	r7, #0
	str	r1, [sp, #76]
	strd	r1, r1, [sp, #84]
	strd	r1, r1, [sp, #64]
	strd	r1, r1, [sp, #56]
	strd	r1, r1, [sp, #48]
	strd	r1, r1, [sp, #20]
	b	.LBB5c95d_42
.LBB5c95d_46:
	subs	r4, r2, #5
	ldr.w	lr, [r1, #1]
	sbc	r5, r3, #0
	lsls	r6, r6, #31
	str	r5, [sp, #36]
	beq.w	.LBB5c95d_57
	uxtb	r2, r7
	eors	r2, r4
	orrs	r2, r5
	bne.w	.LBB5c95d_32
	b	.LBB5c95d_58
.LBB5c95d_48:
	movs	r6, #0
.LBB5c95d_49:
	movs	r0, #0
	strd	r6, r6, [sp, #376]
	strd	r6, r6, [sp, #368]
	strd	r6, r6, [sp, #352]
	strd	r6, r6, [sp, #360]
	str	r6, [sp, #344]
	str.w	r6, [sp, #347]
	strd	r6, r6, [sp, #328]
	strd	r6, r6, [sp, #336]
	str	r0, [sp, #92]
	movs	r7, #0
	strd	r0, r0, [sp, #96]
	str	r0, [sp, #52]
	strd	r0, r0, [sp, #76]
	mov.w	lr, #0
	mov.w	r12, #0
	mov.w	r9, #0
	movs	r4, #0
	str	r0, [sp, #36]
	movs	r1, #0
	mov.w	r11, #0
	str	r0, [sp, #44]
	mov.w	r10, #0
	str	r0, [sp, #68]
	strd	r0, r0, [sp, #84]
	movs	r2, #0
	str	r0, [sp, #64]
	str	r0, [sp, #24]
	strd	r0, r0, [sp, #56]
	mov	r0, r8
.LBB5c95d_50:
	strd	r9, r1, [sp, #28]
	movs	r1, #0
	ldr.w	r9, [sp, #44]
	ldr.w	r8, [sp, #52]
	str	r4, [sp, #72]
	str	r1, [sp, #20]
	str.w	lr, [sp, #48]
	mov	r3, r7
	b	.LBB5c95d_38
.LBB5c95d_51:
	movs	r6, #0
.LBB5c95d_52:
	movs	r0, #0
	strd	r6, r6, [sp, #376]
	strd	r6, r6, [sp, #368]
	strd	r6, r6, [sp, #352]
	strd	r6, r6, [sp, #360]
	str	r6, [sp, #344]
	str.w	r6, [sp, #347]
	strd	r6, r6, [sp, #328]
	strd	r6, r6, [sp, #336]
	str	r0, [sp, #92]
	movs	r3, #0
	movs	r5, #0
	strd	r0, r0, [sp, #96]
	str	r0, [sp, #52]
	str	r0, [sp, #76]
	mov.w	lr, #0
	str	r0, [sp, #48]
	mov.w	r12, #0
	movs	r1, #0
	mov.w	r10, #0
	str	r0, [sp, #36]
	movs	r4, #0
	mov.w	r11, #0
	mov.w	r9, #0
	str	r0, [sp, #16]
	str	r0, [sp, #68]
	strd	r0, r0, [sp, #84]
	movs	r2, #0
	mov	r0, r7
.LBB5c95d_53:
	strd	r1, r4, [sp, #28]
	str.w	r10, [sp, #72]
	movs	r1, #0
	ldr.w	r8, [sp, #52]
	ldr.w	r10, [sp, #16]
	str	r5, [sp, #80]
	str	r1, [sp, #64]
	strd	r1, r1, [sp, #20]
	b	.LBB5c95d_37
.LBB5c95d_54:
	movs	r6, #0
.LBB5c95d_55:
	movs	r0, #0
	strd	r6, r6, [sp, #376]
	strd	r6, r6, [sp, #368]
	strd	r6, r6, [sp, #352]
	strd	r6, r6, [sp, #360]
	str	r6, [sp, #344]
	str.w	r6, [sp, #347]
	strd	r6, r6, [sp, #328]
	strd	r6, r6, [sp, #336]
	strd	r0, r0, [sp, #92]
	str	r0, [sp, #100]
	mov.w	lr, #0
	mov.w	r12, #0
	str	r0, [sp, #28]
	movs	r4, #0
	strd	r0, r0, [sp, #32]
	mov.w	r11, #0
	mov.w	r9, #0
	mov.w	r10, #0
	mov	r0, r5
.LBB5c95d_56:
	movs	r1, #0
	str	r4, [sp, #72]
	movs	r3, #0
	str	r1, [sp, #80]
	mov.w	r8, #0
	str	r1, [sp, #76]
	str	r1, [sp, #48]
	str	r1, [sp, #20]
	b	.LBB5c95d_36
.LBB5c95d_57:
	eor	r7, r2, #37
	orrs	r7, r3
	itt	ne
	eorne	r2, r2, #21
	orrsne.w	r2, r2, r3
	bne.w	.LBB5c95d_32
.LBB5c95d_58:
	add.w	r12, r1, #5
	rev.w	r1, lr
	str	r1, [sp, #20]
	movs	r1, #5
	movs	r6, #0
	str	r1, [sp, #48]
	mov.w	lr, #1
	movs	r1, #0
	movs	r3, #0
	mov.w	r8, #0
	str	r4, [sp, #72]
	str	r1, [sp, #92]
	str	r1, [sp, #80]
	strd	r1, r1, [sp, #96]
	str	r1, [sp, #76]
	str	r1, [sp, #28]
	b	.LBB5c95d_35
.LBB5c95d_59:
	eor	r2, r9, #32
	orrs.w	r2, r2, r10
	beq	.LBB5c95d_62
	eor	r2, r9, #16
.LBB5c95d_61:
	orrs.w	r2, r2, r10
	bne.w	.LBB5c95d_32
.LBB5c95d_62:
	add.w	r12, r1, #3
	add.w	r1, r12, r5
	str	r1, [sp, #32]
	movs	r1, #3
	str	r1, [sp, #48]
	movs	r1, #0
	str	r5, [sp, #72]
	movs	r6, #0
	mov.w	lr, #1
	str	r1, [sp, #92]
	movs	r3, #0
	str	r1, [sp, #80]
	strd	r1, r1, [sp, #96]
	mov.w	r8, #0
	str	r1, [sp, #76]
	str	r1, [sp, #20]
	str	r1, [sp, #28]
	str	r1, [sp, #36]
	mov.w	r11, #0
	b	.LBB5c95d_36
.LBB5c95d_63:
	ldr	r0, [sp, #520]
	ldr	r1, [sp, #540]
	str	r0, [sp, #32]
	ldr	r0, [sp, #524]
	strd	r6, r6, [sp, #568]
	str	r0, [sp, #12]
	ldr	r0, [sp, #528]
	strd	r6, r6, [sp, #576]
	str	r0, [sp, #44]
	ldrd	r10, r0, [sp, #532]
	str.w	r6, [sp, #411]
	strd	r0, r1, [sp, #440]
	ldrd	r0, r1, [sp, #544]
	str	r6, [sp, #408]
	strd	r0, r1, [sp, #448]
	strd	r6, r6, [sp, #432]
	strd	r6, r6, [sp, #424]
	ldrd	r6, r3, [sp, #480]
	ldrd	r1, r2, [sp, #488]
	mov.w	lr, #1
.LBB5c95d_64:
	strd	r3, r1, [sp, #92]
	ldr	r3, [sp, #452]
	add	r7, sp, #440
	str	r2, [sp, #100]
	ldm	r7, {r1, r2, r7}
	str	r3, [sp, #380]
	add	r3, sp, #368
	stm	r3!, {r1, r2, r7}
	add	r7, sp, #568
	ldm	r7, {r1, r2, r3, r7}
	add.w	r12, sp, #352
	stm.w	r12, {r1, r2, r3, r7}
	ldr	r1, [sp, #408]
	ldr.w	r2, [sp, #411]
	ldr	r3, [sp, #436]
	add	r7, sp, #424
	str	r1, [sp, #344]
	str.w	r2, [sp, #347]
	ldm	r7, {r1, r2, r7}
	ldr.w	r9, [sp, #44]
	ldr.w	r11, [sp, #12]
	mov	r0, r5
	str	r3, [sp, #340]
	add	r3, sp, #328
	mov	r12, r8
	stm	r3!, {r1, r2, r7}
	b	.LBB5c95d_56
.LBB5c95d_65:
	ldrb.w	r4, [sp, #448]
	lsrs	r6, r7, #16
	adds	r2, #2
	adds	r7, r2, r6
	str	r6, [sp, #52]
	subs	r1, r1, r6
	str	r2, [sp, #480]
	mov.w	r6, #0
	mov.w	r2, #32
	sbc	r5, r5, #0
	str	r6, [sp, #484]
	str	r7, [sp, #496]
	cmp	r4, #0
	it	eq
	moveq	r2, #16
	eors	r2, r1
	str	r1, [sp, #40]
	orrs.w	r1, r2, r5
	str	r6, [sp, #500]
	bne	.LBB5c95d_67
	movs	r2, #0
	str	r2, [sp, #76]
	ldr	r2, [sp, #496]
	add.w	r1, r8, #8
	str	r2, [sp, #84]
	ldr	r2, [sp, #500]
	str	r6, [sp, #400]
	str	r2, [sp, #88]
	ldm.w	r1, {r2, r5, r7}
	ldr	r1, [r1, #12]
	str.w	r6, [sp, #403]
	str	r1, [sp, #436]
	strd	r6, r6, [sp, #384]
	strd	r6, r6, [sp, #392]
	ldrd	r6, r1, [sp, #536]
	add	r3, sp, #424
	str	r1, [sp, #92]
	ldr	r1, [sp, #544]
	stm	r3!, {r2, r5, r7}
	str	r1, [sp, #96]
	ldr	r1, [sp, #548]
	ldrd	r2, r7, [sp, #576]
	str	r1, [sp, #100]
	ldrd	r1, r5, [sp, #568]
	strd	r2, r7, [sp, #416]
	strd	r1, r5, [sp, #408]
	ldrd	r3, r1, [sp, #480]
	ldr.w	r12, [sp, #72]
	ldr.w	r11, [sp, #12]
	ldr	r2, [sp, #40]
	str	r1, [sp, #80]
	movs	r1, #2
	mov.w	lr, #1
	str	r4, [sp, #68]
	b	.LBB5c95d_68
.LBB5c95d_67:
	movs	r1, #0
	str	r1, [sp, #92]
	movs	r3, #0
	strd	r1, r1, [sp, #96]
	str	r1, [sp, #52]
	strd	r1, r1, [sp, #76]
	mov.w	r12, #0
	str	r1, [sp, #28]
	mov.w	r10, #0
	strd	r1, r1, [sp, #32]
	mov.w	r11, #0
	mov.w	r9, #0
	str	r1, [sp, #16]
	str	r1, [sp, #68]
	strd	r1, r1, [sp, #84]
	movs	r2, #0
	mov.w	lr, #0
.LBB5c95d_68:
	str	r1, [sp, #48]
	add	r7, sp, #424
	ldm	r7, {r1, r4, r5, r7}
	add.w	r8, sp, #368
	stm.w	r8, {r1, r4, r5, r7}
	add	r7, sp, #408
	ldm	r7, {r1, r4, r7}
	add.w	r8, sp, #352
	stm.w	r8, {r1, r4, r7}
	ldr	r1, [sp, #400]
	ldr.w	r7, [sp, #403]
	ldr	r5, [sp, #420]
	str	r1, [sp, #344]
	str.w	r7, [sp, #347]
	add	r7, sp, #384
	str	r5, [sp, #364]
	ldm	r7, {r1, r4, r5, r7}
	add.w	r8, sp, #328
	stm.w	r8, {r1, r4, r5, r7}
	ldrd	r1, r4, [sp, #28]
	ldr	r5, [sp, #80]
	b	.LBB5c95d_53
.LBB5c95d_69:
	lsrs	r1, r1, #16
	adds	r3, #2
	ldrb.w	r5, [sp, #448]
	add.w	lr, r3, r1
	str	r3, [sp, #480]
	movs	r3, #0
	subs.w	r12, r12, r1
	strd	r3, r1, [sp, #484]
	mov.w	r1, #32
	str.w	r11, [sp, #76]
	sbc	r2, r2, #0
	strd	r3, lr, [sp, #492]
	str	r5, [sp, #40]
	cmp	r5, #0
	it	eq
	moveq	r1, #16
	eor.w	r1, r1, r12
	orrs	r1, r2
	str	r3, [sp, #500]
	bne	.LBB5c95d_71
	str	r2, [sp, #56]
	ldr	r2, [sp, #496]
	add.w	lr, sp, #568
	str	r2, [sp, #64]
	ldr	r2, [sp, #500]
	str.w	r12, [sp, #24]
	add	r1, sp, #512
	str	r2, [sp, #60]
	ldm.w	lr, {r2, r5, r12, lr}
	add.w	r3, r7, #8
	adds	r1, #8
	add	r7, sp, #424
	stm.w	r7, {r2, r5, r12, lr}
	ldm.w	r1, {r2, r5, r12}
	ldr	r1, [r1, #12]
	add.w	lr, sp, #408
	str	r1, [sp, #420]
	ldrb.w	r1, [sp, #536]
	stm.w	lr, {r2, r5, r12}
	str	r1, [sp, #68]
	ldr.w	r1, [sp, #537]
	ldr	r2, [sp, #540]
	ldrd	r7, r5, [sp, #544]
	str.w	r2, [sp, #403]
	str	r5, [sp, #80]
	str	r1, [sp, #400]
	ldm.w	r3, {r1, r2, r5}
	add.w	r12, sp, #384
	ldr	r3, [r3, #12]
	stm.w	r12, {r1, r2, r5}
	ldr.w	r11, [sp, #12]
	ldr	r2, [sp, #40]
	mov.w	lr, #1
	str	r3, [sp, #396]
	str.w	r9, [sp, #96]
	b	.LBB5c95d_72
.LBB5c95d_71:
	movs	r1, #0
	movs	r7, #0
	movs	r6, #0
	strd	r1, r1, [sp, #92]
	str	r1, [sp, #100]
	str	r1, [sp, #80]
	str	r1, [sp, #52]
	strd	r1, r1, [sp, #72]
	str	r1, [sp, #28]
	movs	r4, #0
	strd	r1, r1, [sp, #32]
	mov.w	r11, #0
	str	r1, [sp, #44]
	mov.w	r10, #0
	str	r1, [sp, #68]
	strd	r1, r1, [sp, #84]
	movs	r2, #0
	str	r1, [sp, #64]
	str	r1, [sp, #24]
	strd	r1, r1, [sp, #56]
	mov.w	lr, #0
.LBB5c95d_72:
	ldrd	r12, r3, [sp, #424]
	ldrd	r1, r5, [sp, #432]
	strd	r12, r3, [sp, #368]
	add.w	r12, sp, #408
	strd	r1, r5, [sp, #376]
	ldm.w	r12, {r1, r3, r5, r12}
	add.w	r8, sp, #352
	stm.w	r8, {r1, r3, r5, r12}
	ldr	r1, [sp, #400]
	ldr.w	r3, [sp, #403]
	str	r1, [sp, #344]
	str.w	r3, [sp, #347]
	ldrd	r12, r3, [sp, #384]
	ldrd	r1, r5, [sp, #392]
	strd	r12, r3, [sp, #328]
	strd	r1, r5, [sp, #336]
	ldr.w	r12, [sp, #72]
	ldrd	r9, r1, [sp, #28]
	b	.LBB5c95d_50
.Lfunc_end5c95d:
	.size	"gpsk_messages::reading::read_gpsk_message", .Lfunc_end5c95d-"gpsk_messages::reading::read_gpsk_message"
	.cantunwind
	.fnend

	.section	".text.gpsk_messages::fields::identity_field","ax",%progbits
	.p2align	2
	.type	"gpsk_messages::fields::identity_field",%function
	.code	16
	.thumb_func
"gpsk_messages::fields::identity_field":
	.fnstart
	.save	{r4, r5, r6, lr}
	push	{r4, r5, r6, lr}
	subs	r6, r2, #2
	sbcs	r6, r3, #0
	blo	.LBB66a45_2
	ldrh	r6, [r1]
	subs	r2, #2
	sbc	r5, r3, #0
	rev	r3, r6
	subs.w	r3, r2, r3, lsr #16
	sbcs	r3, r5, #0
	bhs	.LBB66a45_3
.LBB66a45_2:
	movs	r1, #40
	bl	__aeabi_memclr
	pop	{r4, r5, r6, pc}
.LBB66a45_3:
	rev16	r3, r6
	cmp	r3, #254
	mov.w	r6, #0
	bhs	.LBB66a45_5
	adds	r4, r1, #2
	subs.w	r12, r2, r3
	sbc	lr, r5, #0
	adds	r1, r4, r3
	movs	r2, #1
	b	.LBB66a45_6
.LBB66a45_5:
	movs	r1, #0
	mov.w	r12, #0
	mov.w	lr, #0
	movs	r4, #0
	movs	r3, #0
	movs	r2, #0
.LBB66a45_6:
	str	r6, [r0, #4]
	str	r2, [r0]
	str	r6, [r0, #12]
	str	r4, [r0, #8]
	str	r6, [r0, #20]
	str	r3, [r0, #16]
	str	r1, [r0, #24]
	str	r6, [r0, #28]
	str.w	r12, [r0, #32]
	str.w	lr, [r0, #36]
	pop	{r4, r5, r6, pc}
.Lfunc_end66a45:
	.size	"gpsk_messages::fields::identity_field", .Lfunc_end66a45-"gpsk_messages::fields::identity_field"
	.cantunwind
	.fnend

	.section	".text.gpsk_messages::fields::rand_field","ax",%progbits
	.p2align	2
	.type	"gpsk_messages::fields::rand_field",%function
	.code	16
	.thumb_func
"gpsk_messages::fields::rand_field":
	.fnstart
	.save	{r4, r5, r6, r7, r8, r9, r10, lr}
	push.w	{r4, r5, r6, r7, r8, r9, r10, lr}
	.pad	#64
	sub	sp, #64
	subs.w	r7, r2, #32
	sbcs	r7, r3, #0
	mov	r4, r0
	bhs	.LBB5fd05_2
	mov	r0, r4
	movs	r1, #56
	bl	__aeabi_memclr
	add	sp, #64
	pop.w	{r4, r5, r6, r7, r8, r9, r10, pc}
.LBB5fd05_2:
	subs.w	r8, r2, #32
	add	r5, sp, #32
	sbc	r9, r3, #0
	subs	r0, r5, r1
	mov.w	r2, #0
	sbc	r3, r2, #0
	rsbs.w	r0, r0, #31
	sbcs.w	r0, r2, r3
	add	r0, sp, #32
	mov.w	r2, #32
	add.w	r10, r1, #32
	bl	__aeabi_memcpy
	mov	r1, sp
	ldm	r5!, {r2, r3, r6, r7}
	mov	r0, r1
	stm	r0!, {r2, r3, r6, r7}
	ldm.w	r5, {r2, r3, r6, r7}
	mov.w	r5, #0
	stm	r0!, {r2, r3, r6, r7}
	mov.w	r0, #1
	str	r0, [r4]
	add.w	r0, r4, #8
	mov.w	r2, #32
	str	r5, [r4, #4]
	bl	__aeabi_memcpy
	str.w	r10, [r4, #40]
	str	r5, [r4, #44]
	str.w	r9, [r4, #52]
	str.w	r8, [r4, #48]
	add	sp, #64
	pop.w	{r4, r5, r6, r7, r8, r9, r10, pc}
.Lfunc_end5fd05:
	.size	"gpsk_messages::fields::rand_field", .Lfunc_end5fd05-"gpsk_messages::fields::rand_field"
	.cantunwind
	.fnend

	.section	".text.gpsk_messages::fields::suites_field","ax",%progbits
	.p2align	2
	.type	"gpsk_messages::fields::suites_field",%function
	.code	16
	.thumb_func
"gpsk_messages::fields::suites_field":
	.fnstart
	.save	{r4, r5, r6, r7, r8, r9, lr}
	push.w	{r4, r5, r6, r7, r8, r9, lr}
	.pad	#4
	sub	sp, #4
	subs	r7, r2, #2
	sbcs	r7, r3, #0
	blo	.LBB378ed_2
	subs	r6, r2, #2
	ldrh	r2, [r1]
	sbc	r7, r3, #0
	rev	r3, r2
	subs.w	r3, r6, r3, lsr #16
	sbcs	r3, r7, #0
	bhs	.LBB378ed_3
.LBB378ed_2:
	movs	r1, #40
	bl	__aeabi_memclr
	add	sp, #4
	pop.w	{r4, r5, r6, r7, r8, r9, pc}
.LBB378ed_3:
	rev16	r4, r2
	mov.w	r12, #0
	cbz	r4, .LBB378ed_6
	movw	r2, #43691
	movt	r2, #10922
	umull	r2, r3, r4, r2
	add.w	r2, r3, r3, lsl #1
	sub.w	r2, r4, r2, lsl #1
	cmp	r2, #0
	mov.w	r9, #0
	mov.w	lr, #0
	mov.w	r8, #0
	mov.w	r5, #0
	mov.w	r3, #0
	mov.w	r2, #0
	bne	.LBB378ed_7
	adds	r5, r1, #2
	subs.w	lr, r6, r4
	sbc	r8, r7, #0
	add.w	r9, r5, r4
	movs	r2, #1
	mov	r3, r4
	b	.LBB378ed_7
.LBB378ed_6:
	mov.w	r9, #0
	mov.w	lr, #0
	mov.w	r8, #0
	movs	r5, #0
	movs	r3, #0
	movs	r2, #0
.LBB378ed_7:
	str.w	r12, [r0, #4]
	str	r2, [r0]
	str.w	r12, [r0, #12]
	str	r5, [r0, #8]
	str.w	r12, [r0, #20]
	str	r3, [r0, #16]
	str.w	r9, [r0, #24]
	str.w	r12, [r0, #28]
	str.w	lr, [r0, #32]
	str.w	r8, [r0, #36]
	add	sp, #4
	pop.w	{r4, r5, r6, r7, r8, r9, pc}
.Lfunc_end378ed:
	.size	"gpsk_messages::fields::suites_field", .Lfunc_end378ed-"gpsk_messages::fields::suites_field"
	.cantunwind
	.fnend

	.section	".text.gpsk_messages::fields::suite_field","ax",%progbits
	.p2align	2
	.type	"gpsk_messages::fields::suite_field",%function
	.code	16
	.thumb_func
"gpsk_messages::fields::suite_field":
	.fnstart
	.save	{r4, r5, r7, lr}
	push	{r4, r5, r7, lr}
	.pad	#8
	sub	sp, #8
	subs	r4, r2, #6
	mov.w	r12, #0
	sbcs	r4, r3, #0
	str.w	r12, [sp, #3]
	str.w	r12, [sp]
	blo	.LBB4b980_6
	ldrb	r4, [r1]
	cbnz	r4, .LBB4b980_6
	ldrb	r4, [r1, #1]
	cbnz	r4, .LBB4b980_6
	ldrb	r4, [r1, #2]
	cbnz	r4, .LBB4b980_6
	ldrb	r4, [r1, #3]
	cbnz	r4, .LBB4b980_6
	ldrb	r4, [r1, #4]
	cbz	r4, .LBB4b980_8
.LBB4b980_6:
	mov.w	lr, #0
	movs	r1, #0
	movs	r5, #0
	movs	r3, #0
	movs	r4, #0
.LBB4b980_7:
	str	r1, [r0]
	ldr	r1, [sp]
	ldr.w	r2, [sp, #3]
	str.w	r12, [r0, #4]
	strb.w	lr, [r0, #8]
	str.w	r1, [r0, #9]
	str	r2, [r0, #12]
	str	r4, [r0, #16]
	str.w	r12, [r0, #20]
	str	r5, [r0, #24]
	str	r3, [r0, #28]
	add	sp, #8
	pop	{r4, r5, r7, pc}
.LBB4b980_8:
	ldrb	r4, [r1, #5]
	cmp	r4, #1
	beq	.LBB4b980_11
	cmp	r4, #2
	bne	.LBB4b980_13
	mov.w	lr, #1
	b	.LBB4b980_12
.LBB4b980_11:
	mov.w	lr, #0
.LBB4b980_12:
	subs	r5, r2, #6
	sbc	r3, r3, #0
	adds	r4, r1, #6
	movs	r1, #1
	b	.LBB4b980_7
.LBB4b980_13:
	movs	r1, #0
	str	r1, [r0, #28]
	str	r1, [r0, #24]
	str	r1, [r0, #20]
	str	r1, [r0, #16]
	str	r1, [r0, #12]
	str	r1, [r0, #8]
	str	r1, [r0, #4]
	str	r1, [r0]
	add	sp, #8
	pop	{r4, r5, r7, pc}
.Lfunc_end4b980:
	.size	"gpsk_messages::fields::suite_field", .Lfunc_end4b980-"gpsk_messages::fields::suite_field"
	.cantunwind
	.fnend

	.section	".text.login_policy::policy::is_allowed","ax",%progbits
	.p2align	2
	.type	"login_policy::policy::is_allowed",%function
	.code	16
	.thumb_func
"login_policy::policy::is_allowed":
	.fnstart
	.save	{r4, r5, r6, lr}
	push	{r4, r5, r6, lr}
	.pad	#24
	sub	sp, #24
	ldrb.w	r5, [sp, #40]
	movs	r4, #2
	cmp	r5, #0
	eor	r2, r2, #6
	mov	r12, r0
	it	eq
	moveq	r4, #1
	movs	r0, #0
	orrs	r2, r3
	strb.w	r0, [sp, #20]
	str	r0, [sp, #16]
	strb.w	r4, [sp, #21]
	bne	.LBB1dc16_7
	ldrb	r0, [r1]
	ldrb.w	r2, [sp, #16]
	cmp	r0, r2
	mov.w	r0, #0
	bne	.LBB1dc16_7
	ldrb	r2, [r1, #1]
	ldrb.w	r3, [sp, #17]
	cmp	r2, r3
	bne	.LBB1dc16_7
	ldrb	r2, [r1, #2]
	ldrb.w	r3, [sp, #18]
	cmp	r2, r3
	bne	.LBB1dc16_7
	ldrb	r2, [r1, #3]
	ldrb.w	r3, [sp, #19]
	cmp	r2, r3
	bne	.LBB1dc16_7
	movs	r6, #0
	movs	r0, #6
	strd	r0, r6, [sp, #8]
	add.w	lr, sp, #16
	mov	r0, r1
	movs	r2, #6
	movs	r3, #0
	mov	r5, r12
	str.w	lr, [sp]
	bl	"core::cmp::slices::groups_equal::<i8,31'core::cmp::numbers::U8PartialEq{}>"
	mov	r2, r0
	mov	r0, r6
	cbz	r2, .LBB1dc16_7
	ldrd	r2, r3, [r5, #8]
	mov	r0, r5
	str	r4, [sp]
	bl	"octet_lists::kind::is_among"
.LBB1dc16_7:
	add	sp, #24
	pop	{r4, r5, r6, pc}
.Lfunc_end1dc16:
	.size	"login_policy::policy::is_allowed", .Lfunc_end1dc16-"login_policy::policy::is_allowed"
	.cantunwind
	.fnend

	.section	".text.login_keys::gpsk::gpsk_keys","ax",%progbits
	.p2align	2
	.type	"login_keys::gpsk::gpsk_keys",%function
	.code	16
	.thumb_func
"login_keys::gpsk::gpsk_keys":
	.fnstart
	.save	{r4, r5, r6, r7, r8, r9, r10, r11, lr}
	push.w	{r4, r5, r6, r7, r8, r9, r10, r11, lr}
	.pad	#1436
	subw	sp, sp, #1436
	mov	r9, r1
	str	r0, [sp, #28]
	add.w	r0, sp, #1192
	movs	r1, #232
	mov	r4, r2
	bl	__aeabi_memclr8
	add	r0, sp, #504
	movs	r1, #40
	bl	__aeabi_memclr8
	add	r0, sp, #288
	movs	r1, #216
	bl	__aeabi_memclr8
	add	r0, sp, #248
	movs	r1, #40
	bl	__aeabi_memclr8
	add	r0, sp, #32
	movs	r1, #216
	bl	__aeabi_memclr8
	add	r7, sp, #548
	mov	r0, r7
	mov.w	r1, #644
	bl	__aeabi_memclr4
	addw	r0, sp, #1434
	add.w	r1, sp, #1432
	movs	r2, #0
	subs	r3, r1, r0
	sbc	r6, r2, #0
	rsbs.w	r3, r3, #1
	sbcs.w	r3, r2, r6
	addw	r6, sp, #1430
	strh.w	r2, [sp, #1428]
	str.w	r2, [sp, #1424]
	mov.w	r3, #256
	it	hs
	strhhs.w	r3, [sp, #1432]
	subs	r6, r7, r6
	sbc	r5, r2, #0
	rsbs.w	r6, r6, #1
	sbcs	r2, r5
	ldr.w	r11, [sp, #1472]
	subs	r1, r1, r0
	mov.w	r2, #0
	sbc	r6, r2, #0
	rsbs.w	r1, r1, #1
	strh.w	r3, [sp, #548]
	rev.w	r3, r11
	sbcs.w	r1, r2, r6
	lsr.w	r1, r3, #16
	add.w	r3, r7, #2
	it	hs
	strhhs.w	r1, [sp, #1432]
	subs	r0, r3, r0
	sbc	r3, r2, #0
	rsbs.w	r0, r0, #1
	sbcs.w	r0, r2, r3
	add.w	r0, r7, #4
	strh.w	r1, [sp, #550]
	subs	r1, r0, r4
	sbc	r2, r2, #0
	subs.w	r1, r1, r11
	ldr.w	r1, [sp, #1476]
	str	r4, [sp, #20]
	sbcs.w	r1, r2, r1
	mov	r1, r4
	mov	r2, r11
	bl	__aeabi_memcpy
	lsls.w	r0, r9, #24
	add.w	r2, r7, r11
	mov.w	r3, #2
	add.w	r0, r2, #4
	add.w	r1, sp, #1424
	it	eq
	moveq	r3, #1
	movs	r6, #0
	subs	r1, r0, r1
	sbc	r5, r6, #0
	rsbs.w	r1, r1, #5
	strb.w	r6, [sp, #1428]
	str.w	r6, [sp, #1424]
	sbcs	r6, r5
	strb.w	r3, [sp, #1429]
	ldrh.w	r3, [sp, #1428]
	ldr.w	r6, [sp, #1424]
	ldr.w	r1, [sp, #1480]
	strh	r3, [r0, #4]
	str	r6, [r0]
	add.w	r0, r2, #10
	subs	r3, r0, r1
	mov.w	r6, #0
	str.w	r9, [sp, #24]
	ldr.w	r7, [sp, #1492]
	ldr.w	r9, [sp, #1488]
	ldr.w	r4, [sp, #1484]
	sbc	r5, r6, #0
	rsbs.w	r3, r3, #31
	sbcs.w	r3, r6, r5
	blo	.LBB8df2d_2
	ldrb	r0, [r1]
	ldr.w	r3, [r1, #1]
	strb	r0, [r2, #10]
	ldr.w	r0, [r1, #5]
	str.w	r3, [r2, #11]
	ldr.w	r3, [r1, #9]
	str.w	r0, [r2, #15]
	ldr.w	r0, [r1, #13]
	str.w	r3, [r2, #19]
	ldr.w	r3, [r1, #17]
	str.w	r0, [r2, #23]
	ldr.w	r0, [r1, #21]
	str.w	r3, [r2, #27]
	ldrh.w	r3, [r1, #25]
	str.w	r0, [r2, #31]
	ldrb	r0, [r1, #27]
	ldr	r1, [r1, #28]
	strh.w	r3, [r2, #35]
	strb.w	r0, [r2, #37]
	str.w	r1, [r2, #38]
	b	.LBB8df2d_3
.LBB8df2d_2:
	movs	r2, #32
	bl	__aeabi_memcpy
.LBB8df2d_3:
	ldr.w	r0, [sp, #1476]
	adds.w	r5, r11, #42
	adc	r6, r0, #0
	add	r0, sp, #548
	add	r0, r5
	subs	r1, r0, r4
	mov.w	r2, #0
	sbc	r2, r2, #0
	subs.w	r1, r1, r9
	sbcs.w	r1, r2, r7
	ldr.w	r10, [sp, #1496]
	mov	r1, r4
	mov	r2, r9
	bl	__aeabi_memcpy
	adds.w	r5, r5, r9
	adc.w	r4, r7, r6
	add	r6, sp, #548
	adds	r0, r6, r5
	subs.w	r1, r0, r10
	mov.w	r2, #0
	ldr.w	r11, [sp, #1504]
	ldr.w	r8, [sp, #1500]
	sbc	r3, r2, #0
	rsbs.w	r1, r1, #31
	sbcs.w	r1, r2, r3
	blo	.LBB8df2d_5
	ldrb.w	r1, [r10]
	ldr.w	r2, [r10, #1]
	strb	r1, [r0]
	str.w	r2, [r0, #1]
	ldr.w	r1, [r10, #5]
	ldr.w	r2, [r10, #9]
	str.w	r1, [r0, #5]
	str.w	r2, [r0, #9]
	ldr.w	r1, [r10, #13]
	ldr.w	r2, [r10, #17]
	str.w	r1, [r0, #13]
	str.w	r2, [r0, #17]
	ldr.w	r1, [r10, #21]
	ldrh.w	r2, [r10, #25]
	str.w	r1, [r0, #21]
	strh.w	r2, [r0, #25]
	ldrb.w	r1, [r10, #27]
	ldr.w	r2, [r10, #28]
	strb	r1, [r0, #27]
	str	r2, [r0, #28]
	b	.LBB8df2d_6
.LBB8df2d_5:
	mov	r1, r10
	movs	r2, #32
	bl	__aeabi_memcpy
.LBB8df2d_6:
	adds	r5, #32
	add.w	r0, r6, r5
	adc	r4, r4, #0
	subs.w	r1, r0, r8
	mov.w	r2, #0
	ldr.w	r6, [sp, #1508]
	sbc	r2, r2, #0
	subs.w	r1, r1, r11
	sbcs.w	r1, r2, r6
	mov	r1, r8
	mov	r2, r11
	bl	__aeabi_memcpy
	adds.w	r10, r11, r5
	ldr	r5, [sp, #24]
	adc.w	r9, r6, r4
	add	r4, sp, #248
	ldr	r2, [sp, #20]
	mov	r0, r4
	mov	r1, r5
	add	r3, sp, #548
	strd	r10, r9, [sp]
	bl	"login_keys::gpsk::master_key"
	mov	r1, r4
	add.w	r8, sp, #504
	ldm	r1!, {r2, r3, r4, r6, r7}
	mov	r0, r8
	stm	r0!, {r2, r3, r4, r6, r7}
	ldm.w	r1, {r2, r3, r4, r6, r7}
	mov	r1, r5
	stm	r0!, {r2, r3, r4, r6, r7}
	ldrd	r3, r7, [sp, #536]
	add	r4, sp, #32
	mov	r0, r4
	mov	r2, r8
	strd	r3, r7, [sp]
	bl	"login_keys::gpsk::mac_key::MacKey::new"
	ldrb.w	r0, [sp, #32]
	add.w	r11, sp, #288
	strb.w	r0, [sp, #288]
	add.w	r0, r11, #1
	adds	r1, r4, #1
	movs	r2, #215
	bl	__aeabi_memcpy
	add	r2, sp, #248
	ldm.w	r8!, {r1, r3, r4, r6, r7}
	mov	r0, r2
	stm	r0!, {r1, r3, r4, r6, r7}
	ldm.w	r8, {r1, r3, r4, r6, r7}
	stm	r0!, {r1, r3, r4, r6, r7}
	ldr.w	r0, [sp, #1472]
	ldr.w	r1, [sp, #1476]
	adds	r0, #8
	add	r3, sp, #548
	adc	r1, r1, #0
	adds	r7, r3, r0
	subs.w	r0, r10, r0
	sbc.w	r1, r9, r1
	add.w	r4, sp, #1192
	strd	r0, r1, [sp, #8]
	mov	r0, r4
	mov	r1, r5
	mov	r3, r11
	str	r7, [sp]
	bl	"login_keys::gpsk::derive_keys"
	ldr	r0, [sp, #28]
	mov	r1, r4
	movs	r2, #232
	bl	__aeabi_memcpy
	addw	sp, sp, #1436
	pop.w	{r4, r5, r6, r7, r8, r9, r10, r11, pc}
.Lfunc_end8df2d:
	.size	"login_keys::gpsk::gpsk_keys", .Lfunc_end8df2d-"login_keys::gpsk::gpsk_keys"
	.cantunwind
	.fnend

	.section	".text.login_keys::gpsk::master_key","ax",%progbits
	.p2align	2
	.type	"login_keys::gpsk::master_key",%function
	.code	16
	.thumb_func
"login_keys::gpsk::master_key":
	.fnstart
	.save	{r4, r5, r6, r7, r8, r9, r10, r11, lr}
	push.w	{r4, r5, r6, r7, r8, r9, r10, r11, lr}
	.pad	#380
	sub	sp, #380
	add.w	r11, sp, #8
	mov	r7, r1
	ldrd	r10, r9, [sp, #416]
	mov	r8, r0
	mov	r0, r11
	movs	r1, #40
	mov	r6, r3
	mov	r4, r2
	bl	__aeabi_memclr8
	lsls	r0, r7, #24
	beq	.LBB2eb57_2
	add	r7, sp, #168
	mov	r0, r7
	mov	r1, r4
	movs	r2, #32
	movs	r3, #0
	movs	r5, #0
	bl	"hmac_mac::HmacKey::new"
	add	r4, sp, #80
	mov	r0, r4
	mov	r1, r7
	mov	r2, r6
	strd	r10, r9, [sp]
	bl	"hmac_mac::HmacKey::tag_whole"
	add	r0, sp, #48
	subs	r0, r7, r0
	sbc	r1, r5, #0
	rsbs.w	r0, r0, #31
	sbcs.w	r0, r5, r1
	ldm	r4!, {r1, r2, r3, r6}
	mov	r0, r7
	stm	r0!, {r1, r2, r3, r6}
	ldm.w	r4, {r1, r2, r3, r6}
	stm	r0!, {r1, r2, r3, r6}
	mov.w	r0, #0
	str	r0, [sp, #204]
	mov.w	r0, #32
	str	r0, [sp, #200]
	ldm	r7!, {r1, r2, r3, r5, r6}
	add	r0, sp, #128
	stm	r0!, {r1, r2, r3, r5, r6}
	ldm.w	r7, {r1, r2, r3, r5, r6}
	stm	r0!, {r1, r2, r3, r5, r6}
	b	.LBB2eb57_3
.LBB2eb57_2:
	add	r0, sp, #168
	subs	r0, r0, r4
	mov.w	r1, #0
	sbc	r2, r1, #0
	rsbs.w	r0, r0, #15
	sbcs.w	r0, r1, r2
	ldr	r2, [r4, #12]
	ldr	r0, [r4]
	ldr	r3, [r4, #8]
	str	r2, [sp, #180]
	add	r2, sp, #168
	ldr	r1, [r4, #4]
	stm	r2!, {r0, r1, r3}
	ldr	r2, [sp, #180]
	add	r3, sp, #168
	ldm	r3, {r0, r1, r3}
	str	r2, [sp, #60]
	add	r2, sp, #48
	add	r7, sp, #168
	stm	r2!, {r0, r1, r3}
	add	r1, sp, #48
	mov	r0, r7
	bl	"cmac_mac::key::CmacKey::new"
	add	r0, sp, #80
	mov	r1, r7
	mov	r2, r6
	strd	r10, r9, [sp]
	bl	"cmac_mac::key::CmacKey::tag_whole"
	add	r1, sp, #112
	mov.w	r0, #0
	subs	r1, r7, r1
	sbc	r2, r0, #0
	rsbs.w	r1, r1, #15
	sbcs.w	r1, r0, r2
	ldr	r2, [sp, #92]
	add	r3, sp, #80
	str	r0, [sp, #196]
	strd	r0, r0, [sp, #188]
	strd	r0, r0, [sp, #180]
	strd	r0, r0, [sp, #172]
	str	r0, [sp, #168]
	ldm	r3, {r0, r1, r3}
	str	r2, [sp, #180]
	add	r2, sp, #168
	stm	r2!, {r0, r1, r3}
	mov.w	r0, #0
	str	r0, [sp, #204]
	mov.w	r0, #16
	str	r0, [sp, #200]
	ldm	r7!, {r1, r2, r3, r4, r6}
	add	r0, sp, #128
	stm	r0!, {r1, r2, r3, r4, r6}
	ldm.w	r7, {r1, r2, r3, r4, r6}
	stm	r0!, {r1, r2, r3, r4, r6}
.LBB2eb57_3:
	add	r0, sp, #128
	ldm	r0!, {r2, r3, r5, r6, r7}
	mov	r1, r11
	stm	r1!, {r2, r3, r5, r6, r7}
	ldm.w	r0, {r2, r3, r5, r6, r7}
	mov	r0, r8
	stm	r1!, {r2, r3, r5, r6, r7}
	mov	r1, r11
	movs	r2, #40
	bl	__aeabi_memcpy
	add	sp, #380
	pop.w	{r4, r5, r6, r7, r8, r9, r10, r11, pc}
.Lfunc_end2eb57:
	.size	"login_keys::gpsk::master_key", .Lfunc_end2eb57-"login_keys::gpsk::master_key"
	.cantunwind
	.fnend

	.section	".text.cmac_mac::key::CmacKey::tag_whole","ax",%progbits
	.p2align	2
	.type	"cmac_mac::key::CmacKey::tag_whole",%function
	.code	16
	.thumb_func
"cmac_mac::key::CmacKey::tag_whole":
	.fnstart
	.save	{r4, r5, r6, r7, r8, r9, r10, r11, lr}
	push.w	{r4, r5, r6, r7, r8, r9, r10, r11, lr}
	.setfp	r7, sp, #12
	add	r7, sp, #12
	.pad	#124
	sub	sp, #124
	mov	r4, sp
	bfc	r4, #0, #4
	mov	sp, r4
	mov	r10, r0
	ldrd	r0, r12, [r7, #24]
	mov	r3, r2
	movs	r4, #0
	orrs.w	r2, r0, r12
	strd	r4, r4, [sp, #40]
	strd	r4, r4, [sp, #32]
	it	ne
	movne	r2, #1
	subs	r2, r0, r2
	bic	r6, r2, #15
	sbc	r5, r12, #0
	subs.w	r8, r0, r6
	lsr.w	r0, r2, #4
	add.w	r11, r3, r6
	sbc.w	r9, r12, r5
	orr.w	r6, r0, r5, lsl #28
	lsrs	r5, r5, #4
	add	r0, sp, #32
	add	r2, sp, #16
	strd	r4, r4, [sp, #16]
	strd	r4, r4, [sp, #24]
	str	r1, [sp, #12]
	strd	r6, r5, [sp]
	bl	"cmac_mac::taken::chain_blocks"
	ldr	r2, [sp, #44]
	add	r3, sp, #32
	ldm	r3, {r0, r1, r3}
	str	r2, [sp, #76]
	add	r2, sp, #64
	stm	r2!, {r0, r1, r3}
	add	r0, sp, #96
	subs.w	r0, r0, r11
	sbc	r1, r4, #0
	subs.w	r0, r0, r8
	sbcs.w	r0, r1, r9
	add	r0, sp, #96
	mov	r1, r11
	mov	r2, r8
	strd	r4, r4, [sp, #104]
	strd	r4, r4, [sp, #96]
	bl	__aeabi_memcpy
	ldr	r2, [sp, #108]
	add	r3, sp, #96
	ldm	r3, {r0, r1, r3}
	ldr	r4, [sp, #12]
	str	r2, [sp, #28]
	add	r2, sp, #16
	add	r5, sp, #32
	stm	r2!, {r0, r1, r3}
	add	r2, sp, #16
	mov	r0, r5
	mov	r1, r4
	strd	r8, r9, [sp]
	bl	"cmac_mac::key::CmacKey::last_block"
	ldr	r2, [sp, #44]
	add	r3, sp, #32
	ldm	r3, {r0, r1, r3}
	str	r2, [sp, #60]
	add	r2, sp, #48
	stm	r2!, {r0, r1, r3}
	add	r1, sp, #64
	add	r2, sp, #48
	mov	r0, r5
	bl	"cmac_mac::blocks::xor_blocks"
	add	r3, sp, #32
	ldm	r3, {r0, r1, r2, r3}
	add.w	r12, sp, #80
	mov.w	r6, #0
	stm.w	r12, {r0, r1, r2, r3, r6}
	add	r0, sp, #96
	add	r2, sp, #80
	mov	r1, r4
	strd	r6, r6, [sp, #100]
	str	r6, [sp, #108]
	bl	"aes_block::Aes128::encrypt_block"
	add	r3, sp, #96
	ldm	r3, {r0, r1, r2, r3}
	sub.w	r4, r7, #12
	str.w	r0, [r10]
	str.w	r1, [r10, #4]
	str.w	r2, [r10, #8]
	str.w	r3, [r10, #12]
	mov	sp, r4
	pop.w	{r4, r5, r6, r7, r8, r9, r10, r11, pc}
.Lfunc_end5f7ec:
	.size	"cmac_mac::key::CmacKey::tag_whole", .Lfunc_end5f7ec-"cmac_mac::key::CmacKey::tag_whole"
	.cantunwind
	.fnend

	.section	".text.hmac_mac::HmacKey::new","ax",%progbits
	.p2align	2
	.type	"hmac_mac::HmacKey::new",%function
	.code	16
	.thumb_func
"hmac_mac::HmacKey::new":
	.fnstart
	.save	{r4, r5, r6, r7, r8, r9, lr}
	push.w	{r4, r5, r6, r7, r8, r9, lr}
	.pad	#548
	sub.w	sp, sp, #548
	add	r5, sp, #208
	mov	r8, r0
	mov	r0, r5
	bl	"hmac_mac::key_block"
	add.w	r9, sp, #272
	ldm	r5!, {r1, r2, r3, r4, r7}
	mov	r0, r9
	stm	r0!, {r1, r2, r3, r4, r7}
	ldm	r5!, {r1, r2, r3, r4, r7}
	stm	r0!, {r1, r2, r3, r4, r7}
	ldm.w	r5, {r1, r2, r3, r4, r6, r7}
	add	r5, sp, #104
	stm	r0!, {r1, r2, r3, r4, r6, r7}
	mov	r0, r5
	mov	r1, r9
	movs	r2, #54
	bl	"hmac_mac::keyed_hash"
	mov	r7, sp
	mov	r0, r7
	mov	r1, r9
	movs	r2, #92
	bl	"hmac_mac::keyed_hash"
	add	r6, sp, #336
	mov	r0, r6
	mov	r1, r5
	movs	r2, #104
	bl	__aeabi_memcpy8
	add.w	r0, r6, #104
	mov	r1, r7
	movs	r2, #104
	bl	__aeabi_memcpy8
	mov	r0, r8
	mov	r1, r6
	movs	r2, #208
	bl	__aeabi_memcpy
	add.w	sp, sp, #548
	pop.w	{r4, r5, r6, r7, r8, r9, pc}
.Lfunc_end58242:
	.size	"hmac_mac::HmacKey::new", .Lfunc_end58242-"hmac_mac::HmacKey::new"
	.cantunwind
	.fnend

	.section	".text.hmac_mac::key_block","ax",%progbits
	.p2align	2
	.type	"hmac_mac::key_block",%function
	.code	16
	.thumb_func
"hmac_mac::key_block":
	.fnstart
	.save	{r4, r5, r6, r7, r8, r9, r10, r11, lr}
	push.w	{r4, r5, r6, r7, r8, r9, r10, r11, lr}
	.pad	#236
	sub	sp, #236
	rsbs.w	r7, r2, #64
	mov.w	r11, #0
	sbcs.w	r6, r11, r3
	mov	r8, r0
	add	r5, sp, #128
	blo	.LBBd927e_2
	mov	r9, r1
	subs.w	r10, r5, r1
	mov	r0, r5
	mov.w	r1, #64
	sbc	r6, r11, #0
	mov	r7, r2
	mov	r4, r3
	bl	__aeabi_memclr4
	subs.w	r0, r10, r7
	sbcs.w	r0, r6, r4
	mov	r2, r7
	add	r0, sp, #128
	mov	r1, r9
	bl	__aeabi_memcpy
	b	.LBBd927e_3
.LBBd927e_2:
	mov	r0, r5
	bl	"sha2::Digest::new_with_prefix::<#5e0519c8a4bcd43a>"
	mov	r6, sp
	mov	r0, r6
	mov	r1, r5
	bl	"sha2::Sha256Digest::finalize"
	add	r0, sp, #96
	subs	r4, r5, r0
	mov	r0, r5
	mov.w	r1, #64
	sbc	r7, r11, #0
	bl	__aeabi_memclr4
	rsbs.w	r0, r4, #31
	sbcs.w	r0, r11, r7
	ldm	r6!, {r1, r2, r3, r7}
	mov	r0, r5
	stm	r0!, {r1, r2, r3, r7}
	ldm.w	r6, {r1, r2, r3, r7}
	stm	r0!, {r1, r2, r3, r7}
.LBBd927e_3:
	ldm	r5!, {r1, r2, r3, r6, r7}
	add	r0, sp, #32
	stm	r0!, {r1, r2, r3, r6, r7}
	ldm	r5!, {r1, r2, r3, r6, r7}
	stm	r0!, {r1, r2, r3, r6, r7}
	ldm.w	r5, {r1, r2, r3, r4, r6, r7}
	stm	r0!, {r1, r2, r3, r4, r6, r7}
	add	r1, sp, #32
	mov	r0, r8
	movs	r2, #64
	bl	__aeabi_memcpy
	add	sp, #236
	pop.w	{r4, r5, r6, r7, r8, r9, r10, r11, pc}
.Lfunc_endd927e:
	.size	"hmac_mac::key_block", .Lfunc_endd927e-"hmac_mac::key_block"
	.cantunwind
	.fnend

	.section	".text.sha2::Digest::new_with_prefix::<#5e0519c8a4bcd43a>","ax",%progbits
	.p2align	2
	.type	"sha2::Digest::new_with_prefix::<#5e0519c8a4bcd43a>",%function
	.code	16
	.thumb_func
"sha2::Digest::new_with_prefix::<#5e0519c8a4bcd43a>":
	.fnstart
	.save	{r4, r5, r6, r7, r8, lr}
	push.w	{r4, r5, r6, r7, r8, lr}
	.pad	#104
	sub	sp, #104
	mov	r5, sp
	mov	r4, r1
	mov	r8, r0
	add.w	r0, r5, #32
	movs	r1, #72
	mov	r6, r3
	mov	r7, r2
	bl	__aeabi_memclr8
	movw	r0, #58983
	movt	r0, #27145
	str	r0, [sp]
	movw	r0, #44677
	movt	r0, #47975
	str	r0, [sp, #4]
	movw	r0, #62322
	movt	r0, #15470
	str	r0, [sp, #8]
	movw	r0, #62778
	movt	r0, #42319
	str	r0, [sp, #12]
	movw	r0, #21119
	movt	r0, #20750
	str	r0, [sp, #16]
	movw	r0, #26764
	movt	r0, #39685
	str	r0, [sp, #20]
	movw	r0, #55723
	movt	r0, #8067
	str	r0, [sp, #24]
	movw	r0, #52505
	movt	r0, #23520
	str	r0, [sp, #28]
	mov	r0, r5
	mov	r1, r4
	mov	r2, r7
	mov	r3, r6
	bl	"sha2::block256::Core256::update"
	mov	r0, r8
	mov	r1, r5
	movs	r2, #104
	bl	__aeabi_memcpy
	add	sp, #104
	pop.w	{r4, r5, r6, r7, r8, pc}
.Lfunc_endfa087:
	.size	"sha2::Digest::new_with_prefix::<#5e0519c8a4bcd43a>", .Lfunc_endfa087-"sha2::Digest::new_with_prefix::<#5e0519c8a4bcd43a>"
	.cantunwind
	.fnend

	.section	".text.sha2::block256::Core256::update","ax",%progbits
	.p2align	2
	.type	"sha2::block256::Core256::update",%function
	.code	16
	.thumb_func
"sha2::block256::Core256::update":
	.fnstart
	.save	{r4, r5, r6, r7, r8, r9, r10, r11, lr}
	push.w	{r4, r5, r6, r7, r8, r9, r10, r11, lr}
	.pad	#12
	sub	sp, #12
	mov	r8, r3
	mov	r7, r0
	ldrd	r0, r3, [r0, #96]
	mov	r10, r2
	mov	r4, r1
	and	r1, r0, #63
	adds.w	r0, r0, r10
	mov.w	r2, #0
	adc.w	r3, r3, r8
	strd	r0, r3, [r7, #96]
	cbz	r1, .LBB42bd9_5
	add.w	r9, r7, #32
	add.w	r0, r9, r1
	rsb.w	r11, r1, #64
	subs	r3, r0, r4
	sbc	r2, r2, #0
	subs.w	r5, r10, r11
	sbcs	r5, r8, #0
	bhs	.LBB42bd9_6
	subs.w	r1, r3, r10
	sbcs.w	r1, r2, r8
	bhs	.LBB42bd9_9
	subs.w	r1, r10, #4
	sbcs	r1, r8, #0
	and	r12, r10, #3
	bhs	.LBB42bd9_11
	movs	r2, #0
	b	.LBB42bd9_14
.LBB42bd9_5:
	mov.w	r11, #0
	b	.LBB42bd9_24
.LBB42bd9_6:
	subs.w	r3, r3, r11
	sbcs	r2, r2, #0
	bhs	.LBB42bd9_10
	eor	r1, r1, #63
	cmp	r1, #3
	and	r12, r11, #3
	bhs	.LBB42bd9_17
	movs	r2, #0
	b	.LBB42bd9_20
.LBB42bd9_9:
	mov	r1, r4
	mov	r2, r10
	b	.LBB42bd9_35
.LBB42bd9_10:
	mov	r1, r4
	mov	r2, r11
	bl	__aeabi_memmove
	b	.LBB42bd9_23
.LBB42bd9_11:
	bic	lr, r10, #3
	movs	r2, #0
	movs	r7, #0
	.p2align	2
.LBB42bd9_12:
	ldrb	r6, [r4, r2]
	strb	r6, [r0, r2]
	orr	r6, r2, #1
	ldrb	r5, [r4, r6]
	strb	r5, [r0, r6]
	orr	r6, r2, #2
	ldrb	r5, [r4, r6]
	strb	r5, [r0, r6]
	orr	r6, r2, #3
	adds	r2, #4
	adc	r7, r7, #0
	ldrb	r5, [r4, r6]
	eor.w	r1, r2, lr
	eor.w	r3, r7, r8
	orrs	r1, r3
	strb	r5, [r0, r6]
	bne	.LBB42bd9_12
	cmp.w	r12, #0
	beq.w	.LBB42bd9_34
.LBB42bd9_14:
	ldrb	r3, [r4, r2]
	cmp.w	r12, #1
	strb	r3, [r0, r2]
	beq.w	.LBB42bd9_34
	adds	r3, r2, #1
	ldrb	r7, [r4, r3]
	cmp.w	r12, #2
	strb	r7, [r0, r3]
	beq.w	.LBB42bd9_34
	adds	r1, r2, #2
	ldrb	r2, [r4, r1]
	strb	r2, [r0, r1]
	add	sp, #12
	pop.w	{r4, r5, r6, r7, r8, r9, r10, r11, pc}
.LBB42bd9_17:
	and	lr, r11, #124
	movs	r2, #0
	movs	r5, #0
	.p2align	2
.LBB42bd9_18:
	ldrb	r1, [r4, r2]
	strb	r1, [r0, r2]
	orr	r1, r2, #1
	ldrb	r3, [r4, r1]
	strb	r3, [r0, r1]
	orr	r1, r2, #2
	ldrb	r3, [r4, r1]
	strb	r3, [r0, r1]
	orr	r1, r2, #3
	adds	r2, #4
	ldrb	r3, [r4, r1]
	adc	r5, r5, #0
	eor.w	r6, r2, lr
	orrs	r6, r5
	strb	r3, [r0, r1]
	bne	.LBB42bd9_18
	cmp.w	r12, #0
	beq	.LBB42bd9_23
.LBB42bd9_20:
	ldrb	r1, [r4, r2]
	cmp.w	r12, #1
	strb	r1, [r0, r2]
	beq	.LBB42bd9_23
	adds	r1, r2, #1
	ldrb	r3, [r4, r1]
	cmp.w	r12, #2
	strb	r3, [r0, r1]
	beq	.LBB42bd9_23
	adds	r1, r2, #2
	ldrb	r2, [r4, r1]
	strb	r2, [r0, r1]
.LBB42bd9_23:
	mov	r0, r7
	mov	r1, r9
	bl	"sha2::block256::compress"
.LBB42bd9_24:
	subs.w	r0, r10, r11
	sbc	r6, r8, #0
	str	r0, [sp]
	lsrs	r0, r0, #6
	orr.w	r5, r0, r6, lsl #26
	orrs.w	r0, r5, r6, lsr #6
	str.w	r10, [sp, #4]
	str.w	r8, [sp, #8]
	beq	.LBB42bd9_27
	lsr.w	r8, r6, #6
	mov.w	r10, #0
	mov.w	r9, #0
	.p2align	2
.LBB42bd9_26:
	add.w	r0, r11, r10, lsl #6
	adds	r1, r4, r0
	mov	r0, r7
	bl	"sha2::block256::compress"
	adds.w	r10, r10, #1
	adc	r9, r9, #0
	subs.w	r0, r10, r5
	sbcs.w	r0, r9, r8
	blo	.LBB42bd9_26
.LBB42bd9_27:
	ldr	r0, [sp]
	ldr.w	r8, [sp, #4]
	bic	r12, r0, #63
	adds.w	r0, r12, r11
	add.w	r1, r4, r0
	ldr	r4, [sp, #8]
	adc	r3, r6, #0
	subs.w	r2, r8, r0
	add.w	r0, r7, #32
	sbc.w	lr, r4, r3
	subs	r7, r0, r1
	mov.w	r3, #0
	sbc	r5, r3, #0
	subs	r7, r7, r2
	sbcs.w	r7, r5, lr
	bhs	.LBB42bd9_35
	subs.w	r7, r11, r8
	sbc.w	r5, r3, r4
	adds.w	r7, r7, r12
	adcs	r6, r5
	mvn	r5, #3
	subs	r7, r5, r7
	mov.w	r7, #-1
	sbcs	r7, r6
	and	r12, r2, #3
	blo	.LBB42bd9_32
	bic	r8, r2, #3
	movs	r6, #0
	.p2align	2
.LBB42bd9_30:
	ldrb	r5, [r1, r3]
	strb	r5, [r0, r3]
	orr	r5, r3, #1
	ldrb	r7, [r1, r5]
	strb	r7, [r0, r5]
	orr	r7, r3, #2
	ldrb	r5, [r1, r7]
	strb	r5, [r0, r7]
	orr	r7, r3, #3
	adds	r3, #4
	adc	r6, r6, #0
	ldrb	r5, [r1, r7]
	eor.w	r4, r3, r8
	eor.w	r2, r6, lr
	orrs	r2, r4
	strb	r5, [r0, r7]
	bne	.LBB42bd9_30
	cmp.w	r12, #0
	beq	.LBB42bd9_34
.LBB42bd9_32:
	ldrb	r2, [r1, r3]
	cmp.w	r12, #1
	strb	r2, [r0, r3]
	beq	.LBB42bd9_34
	adds	r2, r3, #1
	ldrb	r6, [r1, r2]
	cmp.w	r12, #2
	strb	r6, [r0, r2]
	bne	.LBB42bd9_36
.LBB42bd9_34:
	add	sp, #12
	pop.w	{r4, r5, r6, r7, r8, r9, r10, r11, pc}
.LBB42bd9_35:
	bl	__aeabi_memmove
	add	sp, #12
	pop.w	{r4, r5, r6, r7, r8, r9, r10, r11, pc}
.LBB42bd9_36:
	adds	r2, r3, #2
	ldrb	r1, [r1, r2]
	strb	r1, [r0, r2]
	add	sp, #12
	pop.w	{r4, r5, r6, r7, r8, r9, r10, r11, pc}
.Lfunc_end42bd9:
	.size	"sha2::block256::Core256::update", .Lfunc_end42bd9-"sha2::block256::Core256::update"
	.cantunwind
	.fnend

	.section	".text.sha2::block256::compress","ax",%progbits
	.p2align	2
	.type	"sha2::block256::compress",%function
	.code	16
	.thumb_func
"sha2::block256::compress":
	.fnstart
	.save	{r4, r5, r6, r7, r8, r9, r10, r11, lr}
	push.w	{r4, r5, r6, r7, r8, r9, r10, r11, lr}
	.pad	#136
	sub	sp, #136
	ldr	r2, [r1]
	ldr.w	r11, [r0, #16]
	ldr	r5, [r0, #20]
	ldr	r4, [r0, #24]
	ldr	r6, [r0, #28]
	str	r1, [sp, #112]
	ldr.w	lr, [r1, #4]
	rev.w	r12, r2
	eor.w	r1, r11, r11, ror #14
	bic.w	r2, r4, r11
	and.w	r3, r5, r11
	eor.w	r1, r11, r1, ror #5
	add	r2, r3
	add.w	r3, r6, r12
	add.w	r1, r3, r1, ror #6
	ldr.w	r10, [r0]
	ldr	r7, [r0, #4]
	add	r1, r2
	movw	r2, #12184
	ldr.w	r8, [r0, #8]
	movt	r2, #17034
	add	r1, r2
	mov	r2, r7
	str	r7, [sp, #32]
	eor.w	r7, r7, r10
	bics	r2, r7
	and.w	r3, r8, r7
	add	r2, r3
	eor.w	r3, r10, r10, ror #9
	eor.w	r3, r10, r3, ror #11
	str	r0, [sp, #28]
	ldr	r0, [r0, #12]
	add.w	r2, r2, r3, ror #2
	add.w	r9, r2, r1
	adds	r2, r1, r0
	str	r6, [sp, #4]
	str	r0, [sp]
	bic.w	r1, r5, r2
	and.w	r6, r11, r2
	rev.w	r0, lr
	add	r1, r6
	str	r0, [sp, #104]
	add	r0, r4
	add	r0, r1
	eor.w	r1, r2, r2, ror #14
	eor.w	r1, r2, r1, ror #5
	add.w	r0, r0, r1, ror #6
	movw	r1, #17553
	str.w	r12, [sp, #116]
	movt	r1, #28983
	eor.w	r12, r9, r10
	add	r1, r0
	eor.w	r0, r9, r9, ror #9
	and.w	r7, r7, r12
	eor.w	r0, r9, r0, ror #11
	eor.w	r7, r7, r10
	ldr	r3, [sp, #112]
	add.w	r0, r7, r0, ror #2
	add.w	lr, r0, r1
	add.w	r6, r1, r8
	ldr	r1, [r3, #8]
	str	r4, [sp, #8]
	bic.w	r7, r11, r6
	and.w	r4, r2, r6
	rev	r0, r1
	add	r7, r4
	adds	r1, r5, r0
	add	r1, r7
	eor.w	r7, r6, r6, ror #14
	eor.w	r7, r6, r7, ror #5
	add.w	r1, r1, r7, ror #6
	movw	r7, #64463
	movt	r7, #46528
	eor.w	r4, lr, r9
	str	r5, [sp, #12]
	add	r7, r1
	eor.w	r1, lr, lr, ror #9
	and.w	r5, r4, r12
	str	r0, [sp, #100]
	eor.w	r1, lr, r1, ror #11
	eor.w	r5, r5, r9
	ldr	r0, [sp, #32]
	add.w	r1, r5, r1, ror #2
	str.w	r8, [sp, #20]
	add.w	r8, r1, r7
	adds	r5, r7, r0
	ldr	r7, [r3, #12]
	bic.w	r0, r2, r5
	and.w	r1, r6, r5
	add	r0, r1
	rev	r1, r7
	str	r1, [sp, #96]
	add	r1, r11
	add	r0, r1
	eor.w	r1, r5, r5, ror #14
	eor.w	r1, r5, r1, ror #5
	add.w	r0, r0, r1, ror #6
	movw	r1, #56229
	str.w	r11, [sp, #16]
	movt	r1, #59829
	eor.w	r11, r8, lr
	add	r0, r1
	eor.w	r1, r8, r8, ror #9
	and.w	r4, r4, r11
	eor.w	r1, r8, r1, ror #11
	eor.w	r4, r4, lr
	add.w	r1, r4, r1, ror #2
	add.w	r12, r1, r0
	add.w	r4, r0, r10
	ldr	r0, [r3, #16]
	mov	r7, r3
	bic.w	r1, r6, r4
	and.w	r3, r5, r4
	rev	r0, r0
	add	r1, r3
	str	r0, [sp, #80]
	add	r0, r2
	add	r0, r1
	eor.w	r1, r4, r4, ror #14
	eor.w	r1, r4, r1, ror #5
	add.w	r0, r0, r1, ror #6
	movw	r1, #49755
	movt	r1, #14678
	eor.w	r2, r12, r8
	add	r0, r1
	eor.w	r1, r12, r12, ror #9
	and.w	r3, r2, r11
	eor.w	r1, r12, r1, ror #11
	eor.w	r3, r3, r8
	add.w	r1, r3, r1, ror #2
	str.w	r10, [sp, #24]
	add.w	r10, r1, r0
	add.w	r3, r0, r9
	ldr	r0, [r7, #20]
	mov	r11, r7
	bic.w	r1, r5, r3
	and.w	r7, r4, r3
	rev	r0, r0
	add	r1, r7
	str	r0, [sp, #92]
	add	r0, r6
	add	r0, r1
	eor.w	r1, r3, r3, ror #14
	eor.w	r1, r3, r1, ror #5
	add.w	r0, r0, r1, ror #6
	movw	r1, #4593
	movt	r1, #23025
	eor.w	r7, r10, r12
	add	r0, r1
	eor.w	r1, r10, r10, ror #9
	ands	r2, r7
	eor.w	r1, r10, r1, ror #11
	eor.w	r2, r2, r12
	add.w	r1, r2, r1, ror #2
	add.w	r9, r1, r0
	ldr.w	r1, [r11, #24]
	add	r0, lr
	bic.w	r2, r4, r0
	and.w	r6, r3, r0
	rev	r1, r1
	add	r2, r6
	str	r1, [sp, #76]
	add	r1, r5
	add	r1, r2
	eor.w	r2, r0, r0, ror #14
	eor.w	r2, r0, r2, ror #5
	add.w	r1, r1, r2, ror #6
	movw	r2, #33444
	movt	r2, #37439
	eor.w	r5, r9, r10
	add	r1, r2
	eor.w	r2, r9, r9, ror #9
	ands	r7, r5
	eor.w	r2, r9, r2, ror #11
	eor.w	r7, r7, r10
	add.w	r2, r7, r2, ror #2
	add.w	lr, r2, r1
	add.w	r2, r1, r8
	ldr.w	r1, [r11, #28]
	bic.w	r6, r3, r2
	and.w	r7, r0, r2
	rev	r1, r1
	add	r6, r7
	str	r1, [sp, #88]
	add	r1, r4
	eor.w	r4, r2, r2, ror #14
	add	r1, r6
	eor.w	r4, r2, r4, ror #5
	add.w	r1, r1, r4, ror #6
	movw	r4, #24277
	movt	r4, #43804
	eor.w	r6, lr, r9
	add	r1, r4
	eor.w	r4, lr, lr, ror #9
	ands	r5, r6
	eor.w	r4, lr, r4, ror #11
	eor.w	r5, r5, r9
	add.w	r4, r5, r4, ror #2
	add.w	r8, r4, r1
	add.w	r4, r1, r12
	ldr.w	r1, [r11, #32]
	bic.w	r7, r0, r4
	and.w	r5, r2, r4
	rev	r1, r1
	add	r7, r5
	str	r1, [sp, #84]
	add	r1, r3
	eor.w	r3, r4, r4, ror #14
	add	r1, r7
	eor.w	r3, r4, r3, ror #5
	add.w	r1, r1, r3, ror #6
	movw	r3, #43672
	movt	r3, #55303
	eor.w	r5, r8, lr
	add	r1, r3
	eor.w	r3, r8, r8, ror #9
	and.w	r7, r5, r6
	eor.w	r3, r8, r3, ror #11
	eor.w	r7, r7, lr
	mov	r12, r11
	add.w	r3, r7, r3, ror #2
	add.w	r11, r3, r1
	add.w	r7, r1, r10
	ldr.w	r1, [r12, #36]
	bic.w	r6, r2, r7
	and.w	r3, r4, r7
	rev	r1, r1
	add	r3, r6
	str	r1, [sp, #128]
	add	r0, r1
	eor.w	r1, r7, r7, ror #14
	add	r0, r3
	eor.w	r1, r7, r1, ror #5
	add.w	r0, r0, r1, ror #6
	movw	r1, #23297
	movt	r1, #4739
	eor.w	r3, r11, r8
	add	r1, r0
	eor.w	r0, r11, r11, ror #9
	and.w	r6, r3, r5
	eor.w	r0, r11, r0, ror #11
	eor.w	r6, r6, r8
	add.w	r0, r6, r0, ror #2
	ldr.w	r6, [r12, #40]
	add.w	r10, r0, r1
	add	r1, r9
	bic.w	r5, r4, r1
	and.w	r0, r7, r1
	rev	r6, r6
	add	r0, r5
	add	r2, r6
	add	r0, r2
	eor.w	r2, r1, r1, ror #14
	eor.w	r2, r1, r2, ror #5
	add.w	r0, r0, r2, ror #6
	movw	r2, #34238
	movt	r2, #9265
	eor.w	r5, r10, r11
	add	r0, r2
	eor.w	r2, r10, r10, ror #9
	ands	r3, r5
	str	r6, [sp, #72]
	eor.w	r2, r10, r2, ror #11
	eor.w	r3, r3, r11
	ldr	r6, [sp, #112]
	add.w	r2, r3, r2, ror #2
	add.w	r12, r2, r0
	add.w	r9, r0, lr
	ldr	r0, [r6, #44]
	bic.w	r2, r7, r9
	and.w	r3, r1, r9
	rev	r0, r0
	add	r2, r3
	str	r0, [sp, #124]
	add	r0, r4
	add	r0, r2
	eor.w	r2, r9, r9, ror #14
	eor.w	r2, r9, r2, ror #5
	add.w	r0, r0, r2, ror #6
	movw	r2, #32195
	movt	r2, #21772
	eor.w	r3, r12, r10
	add	r0, r2
	eor.w	r2, r12, r12, ror #9
	ands	r5, r3
	eor.w	r2, r12, r2, ror #11
	eor.w	r5, r5, r10
	add.w	r2, r5, r2, ror #2
	add.w	lr, r2, r0
	add	r8, r0
	ldr	r0, [r6, #48]
	bic.w	r5, r1, r8
	and.w	r2, r9, r8
	rev	r0, r0
	add	r2, r5
	str	r0, [sp, #120]
	add	r0, r7
	add	r0, r2
	eor.w	r2, r8, r8, ror #14
	eor.w	r2, r8, r2, ror #5
	add.w	r0, r0, r2, ror #6
	movw	r2, #23924
	movt	r2, #29374
	eor.w	r5, lr, r12
	add	r0, r2
	eor.w	r2, lr, lr, ror #9
	ands	r3, r5
	eor.w	r2, lr, r2, ror #11
	eor.w	r3, r3, r12
	add.w	r2, r3, r2, ror #2
	adds	r7, r2, r0
	add.w	r4, r0, r11
	ldr	r0, [r6, #52]
	mov	r2, r6
	bic.w	r6, r9, r4
	and.w	r3, r8, r4
	rev	r0, r0
	add	r3, r6
	str	r0, [sp, #68]
	add	r0, r1
	eor.w	r1, r4, r4, ror #14
	add	r0, r3
	eor.w	r1, r4, r1, ror #5
	add.w	r0, r0, r1, ror #6
	movw	r1, #45566
	movt	r1, #32990
	eor.w	r11, r7, lr
	add	r0, r1
	eor.w	r1, r7, r7, ror #9
	and.w	r3, r11, r5
	eor.w	r1, r7, r1, ror #11
	eor.w	r3, r3, lr
	add.w	r1, r3, r1, ror #2
	str.w	lr, [sp, #64]
	add.w	lr, r1, r0
	add.w	r6, r0, r10
	ldr	r0, [r2, #56]
	bic.w	r1, r8, r6
	and.w	r3, r4, r6
	rev	r0, r0
	add	r1, r3
	str	r0, [sp, #132]
	add	r0, r9
	add	r0, r1
	eor.w	r1, r6, r6, ror #14
	eor.w	r1, r6, r1, ror #5
	add.w	r0, r0, r1, ror #6
	movw	r1, #1703
	movt	r1, #39900
	eor.w	r5, lr, r7
	mov	r10, r2
	add	r0, r1
	eor.w	r1, lr, lr, ror #9
	and.w	r2, r5, r11
	eor.w	r1, lr, r1, ror #11
	eors	r2, r7
	add.w	r1, r2, r1, ror #2
	adds	r3, r1, r0
	add	r12, r0
	ldr.w	r0, [r10, #60]
	bic.w	r1, r4, r12
	str	r6, [sp, #48]
	and.w	r2, r6, r12
	rev	r6, r0
	add	r1, r2
	add.w	r0, r6, r8
	add	r0, r1
	eor.w	r1, r12, r12, ror #14
	eor.w	r1, r12, r1, ror #5
	add.w	r0, r0, r1, ror #6
	movw	r1, #61812
	movt	r1, #49563
	add	r0, r1
	and.w	r1, r3, r5
	bic.w	r2, lr, r5
	add	r1, r2
	eor.w	r2, r3, r3, ror #9
	eor.w	r2, r3, r2, ror #11
	add.w	r1, r1, r2, ror #2
	add.w	r9, r1, r0
	ldr	r1, [sp, #64]
	str	r7, [sp, #52]
	str	r4, [sp, #112]
	mov	r11, lr
	adds	r4, r0, r1
	movs	r0, #0
	movs	r7, #1
	str	r3, [sp, #108]
	str	r0, [sp, #44]
	.p2align	2
.LBBb0cdf_1:
	ldr	r0, [sp, #132]
	ldr	r2, [sp, #128]
	eor.w	r1, r0, r0, ror #2
	ror.w	r1, r1, #17
	eor.w	r1, r1, r0, lsr #10
	ldr	r0, [sp, #116]
	mov	r10, r6
	ldr	r6, [sp, #104]
	add	r2, r0
	add	r1, r2
	eor.w	r2, r6, r6, ror #11
	ror.w	r2, r2, #7
	eor.w	r2, r2, r6, lsr #3
	ldr.w	r8, [sp, #48]
	adds	r3, r1, r2
	eor.w	r1, r4, r4, ror #14
	eor.w	r1, r4, r1, ror #5
	ldr	r0, [sp, #112]
	bic.w	r2, r8, r4
	str	r4, [sp, #56]
	and.w	r4, r4, r12
	add	r2, r4
	movw	r4, :lower16:.Lstatic.12
	add.w	r1, r0, r1, ror #6
	lsls	r0, r7, #6
	movt	r4, :upper16:.Lstatic.12
	ldr	r0, [r4, r0]
	add	r1, r2
	add	r0, r1
	ldr	r1, [sp, #108]
	str.w	r11, [sp, #60]
	eor.w	r2, r1, r9
	bics	r1, r2
	and.w	r5, r11, r2
	add	r1, r5
	eor.w	r5, r9, r9, ror #9
	eor.w	r5, r9, r5, ror #11
	add.w	r1, r1, r5, ror #2
	adds	r5, r0, r3
	ldr	r0, [sp, #52]
	add.w	r11, r1, r5
	add.w	lr, r5, r0
	ldr	r0, [sp, #72]
	eor.w	r5, r10, r10, ror #2
	ror.w	r5, r5, #17
	add	r6, r0
	ldr	r0, [sp, #100]
	eor.w	r5, r5, r10, lsr #10
	add	r5, r6
	eor.w	r6, r0, r0, ror #11
	ror.w	r6, r6, #7
	eor.w	r6, r6, r0, lsr #3
	str.w	r10, [sp, #64]
	mov	r10, r12
	add.w	r12, r5, r6
	add.w	r6, r4, r7, lsl #6
	ldr	r1, [sp, #56]
	str	r7, [sp, #40]
	ldr	r7, [r6, #4]
	bic.w	r4, r10, lr
	and.w	r5, r1, lr
	add	r4, r5
	add	r7, r8
	add	r7, r4
	eor.w	r5, lr, lr, ror #14
	eor.w	r5, lr, r5, ror #5
	add	r7, r12
	add.w	r4, r7, r5, ror #6
	eor.w	r5, r11, r9
	eor.w	r7, r11, r11, ror #9
	ands	r2, r5
	eor.w	r7, r11, r7, ror #11
	eor.w	r2, r2, r9
	str	r3, [sp, #116]
	add.w	r2, r2, r7, ror #2
	str.w	r12, [sp, #104]
	add.w	r12, r2, r4
	ldr	r2, [sp, #60]
	ldr.w	r8, [sp, #116]
	ldr	r3, [sp, #124]
	add	r4, r2
	eor.w	r2, r8, r8, ror #2
	ror.w	r2, r2, #17
	adds	r7, r3, r0
	ldr	r0, [sp, #96]
	eor.w	r2, r2, r8, lsr #10
	add	r2, r7
	eor.w	r7, r0, r0, ror #11
	ror.w	r7, r7, #7
	eor.w	r7, r7, r0, lsr #3
	adds	r3, r2, r7
	ldr	r2, [r6, #8]
	str	r6, [sp, #112]
	bic.w	r7, r1, r4
	and.w	r6, lr, r4
	add	r2, r10
	add	r6, r7
	add	r2, r3
	eor.w	r7, r4, r4, ror #14
	add	r2, r6
	eor.w	r7, r4, r7, ror #5
	add.w	r2, r2, r7, ror #6
	eor.w	r7, r12, r12, ror #9
	eor.w	r6, r12, r7, ror #11
	eor.w	r7, r12, r11
	ands	r5, r7
	str	r3, [sp, #100]
	eor.w	r5, r5, r11
	ldr	r3, [sp, #108]
	add.w	r6, r5, r6, ror #2
	mov	r10, r12
	add.w	r8, r6, r2
	add.w	r12, r2, r3
	ldr	r2, [sp, #104]
	ldr	r1, [sp, #80]
	eor.w	r5, r2, r2, ror #2
	ror.w	r5, r5, #17
	eor.w	r5, r5, r2, lsr #10
	ldr	r2, [sp, #120]
	and.w	r3, r4, r12
	adds	r6, r2, r0
	add	r5, r6
	eor.w	r6, r1, r1, ror #11
	ror.w	r6, r6, #7
	eor.w	r6, r6, r1, lsr #3
	ldr	r2, [sp, #112]
	adds	r0, r5, r6
	bic.w	r6, lr, r12
	ldr	r5, [r2, #12]
	add	r3, r6
	ldr	r6, [sp, #56]
	str.w	r8, [sp, #60]
	add	r5, r6
	add	r5, r0
	add	r3, r5
	eor.w	r5, r12, r12, ror #14
	eor.w	r5, r12, r5, ror #5
	add.w	r3, r3, r5, ror #6
	eor.w	r5, r8, r8, ror #9
	eor.w	r6, r8, r5, ror #11
	eor.w	r5, r8, r10
	ands	r7, r5
	eor.w	r7, r7, r10
	ldr.w	r8, [sp, #100]
	add.w	r6, r7, r6, ror #2
	str.w	r10, [sp, #52]
	add.w	r10, r6, r3
	add.w	r7, r3, r9
	eor.w	r3, r8, r8, ror #2
	ldr	r6, [sp, #68]
	ror.w	r3, r3, #17
	ldr.w	r9, [sp, #92]
	eor.w	r3, r3, r8, lsr #10
	add	r6, r1
	add	r3, r6
	eor.w	r6, r9, r9, ror #11
	ror.w	r6, r6, #7
	ldr	r1, [r2, #16]
	eor.w	r6, r6, r9, lsr #3
	str	r0, [sp, #96]
	add	r3, r6
	bic.w	r6, r4, r7
	and.w	r0, r12, r7
	add	r1, lr
	add	r0, r6
	add	r1, r3
	add	r0, r1
	eor.w	r1, r7, r7, ror #14
	eor.w	r1, r7, r1, ror #5
	ldr	r6, [sp, #60]
	add.w	r0, r0, r1, ror #6
	eor.w	r1, r10, r10, ror #9
	mov	lr, r3
	eor.w	r3, r10, r1, ror #11
	eor.w	r1, r10, r6
	ands	r5, r1
	eors	r5, r6
	add.w	r3, r5, r3, ror #2
	ldr	r5, [sp, #96]
	add.w	r8, r3, r0
	eor.w	r3, r5, r5, ror #2
	ror.w	r3, r3, #17
	eor.w	r3, r3, r5, lsr #10
	ldr	r5, [sp, #132]
	str.w	r10, [sp, #108]
	add.w	r10, r0, r11
	ldr.w	r11, [sp, #76]
	add	r5, r9
	add	r3, r5
	eor.w	r5, r11, r11, ror #11
	ror.w	r5, r5, #7
	eor.w	r5, r5, r11, lsr #3
	adds	r0, r3, r5
	ldr	r3, [r2, #20]
	bic.w	r5, r12, r10
	and.w	r6, r7, r10
	add	r3, r4
	add	r5, r6
	add	r3, r0
	eor.w	r4, r10, r10, ror #14
	str	r0, [sp, #92]
	add	r3, r5
	eor.w	r4, r10, r4, ror #5
	ldr	r0, [sp, #108]
	add.w	r4, r3, r4, ror #6
	eor.w	r3, r8, r8, ror #9
	eor.w	r5, r8, r3, ror #11
	eor.w	r3, r8, r0
	ands	r1, r3
	eors	r1, r0
	add.w	r1, r1, r5, ror #2
	ldr	r5, [sp, #64]
	eor.w	r6, lr, lr, ror #2
	ror.w	r6, r6, #17
	add	r5, r11
	ldr.w	r11, [sp, #88]
	eor.w	r6, r6, lr, lsr #10
	add	r6, r5
	eor.w	r5, r11, r11, ror #11
	ror.w	r5, r5, #7
	ldr	r0, [sp, #52]
	eor.w	r5, r5, r11, lsr #3
	str.w	lr, [sp, #80]
	add.w	lr, r6, r5
	ldr	r6, [r2, #24]
	add.w	r9, r1, r4
	adds	r1, r4, r0
	mov	r0, r2
	bic.w	r5, r7, r1
	and.w	r4, r10, r1
	add.w	r2, r12, r6
	str.w	r8, [sp, #48]
	add	r5, r4
	add	r2, lr
	add	r2, r5
	ldr	r5, [sp, #48]
	eor.w	r6, r1, r1, ror #14
	eor.w	r6, r1, r6, ror #5
	eor.w	r4, r9, r5
	add.w	r2, r2, r6, ror #6
	eor.w	r6, r9, r9, ror #9
	ands	r3, r4
	eor.w	r6, r9, r6, ror #11
	eors	r3, r5
	add.w	r3, r3, r6, ror #2
	add.w	r12, r3, r2
	ldr	r3, [sp, #60]
	str.w	r12, [sp, #52]
	add.w	r8, r2, r3
	ldr	r2, [sp, #92]
	and.w	r5, r1, r8
	eor.w	r3, r2, r2, ror #2
	ror.w	r3, r3, #17
	eor.w	r3, r3, r2, lsr #10
	ldr	r2, [sp, #116]
	str.w	lr, [sp, #76]
	add.w	r6, r11, r2
	ldr	r2, [sp, #84]
	add	r3, r6
	eor.w	r6, r2, r2, ror #11
	ror.w	r6, r6, #7
	eor.w	r6, r6, r2, lsr #3
	add	r6, r3
	ldr	r3, [r0, #28]
	bic.w	r0, r10, r8
	add	r3, r6
	add	r0, r5
	add	r3, r7
	eor.w	r7, r8, r8, ror #14
	add	r3, r0
	eor.w	r7, r8, r7, ror #5
	eor.w	r5, r12, r9
	str	r6, [sp, #88]
	add.w	r3, r3, r7, ror #6
	eor.w	r7, r12, r12, ror #9
	and.w	r6, r5, r4
	eor.w	r7, r12, r7, ror #11
	eor.w	r6, r6, r9
	ldr	r0, [sp, #108]
	add.w	r7, r6, r7, ror #2
	add.w	r11, r7, r3
	add	r3, r0
	ldr	r0, [sp, #128]
	ldr	r7, [sp, #104]
	eor.w	r6, r0, r0, ror #11
	ror.w	r6, r6, #7
	eor.w	r6, r6, r0, lsr #3
	add	r6, r7
	eor.w	r4, lr, lr, ror #2
	add	r6, r2
	ror.w	r4, r4, #17
	ldr	r2, [sp, #112]
	eor.w	r4, r4, lr, lsr #10
	adds	r0, r6, r4
	ldr	r6, [r2, #32]
	bic.w	r4, r1, r3
	and.w	r7, r8, r3
	add	r6, r0
	str	r0, [sp, #84]
	add	r7, r4
	add.w	r0, r6, r10
	add	r0, r7
	eor.w	r7, r3, r3, ror #14
	eor.w	r7, r3, r7, ror #5
	add.w	r0, r0, r7, ror #6
	eor.w	r7, r11, r11, ror #9
	eor.w	r12, r11, r7, ror #11
	ldr	r7, [sp, #52]
	eor.w	r4, r11, r7
	and.w	r6, r4, r5
	eors	r6, r7
	add.w	r7, r6, r12, ror #2
	add.w	r10, r7, r0
	ldr	r7, [sp, #48]
	ldr.w	r12, [sp, #72]
	add.w	lr, r0, r7
	eor.w	r7, r12, r12, ror #11
	ror.w	r7, r7, #7
	ldr	r0, [sp, #128]
	eor.w	r7, r7, r12, lsr #3
	add	r7, r0
	ldr	r0, [sp, #88]
	and.w	r5, r3, lr
	eor.w	r6, r0, r0, ror #2
	ror.w	r6, r6, #17
	eor.w	r6, r6, r0, lsr #10
	ldr	r0, [sp, #100]
	str.w	r10, [sp, #56]
	add	r7, r0
	adds	r0, r7, r6
	ldr	r7, [r2, #36]
	bic.w	r6, r8, lr
	add	r7, r0
	add	r6, r5
	add	r1, r7
	eor.w	r7, lr, lr, ror #14
	add	r1, r6
	eor.w	r7, lr, r7, ror #5
	add.w	r7, r1, r7, ror #6
	eor.w	r1, r10, r10, ror #9
	eor.w	r6, r10, r1, ror #11
	eor.w	r1, r10, r11
	and.w	r5, r1, r4
	eor.w	r5, r5, r11
	add.w	r6, r5, r6, ror #2
	adds	r2, r6, r7
	str	r2, [sp, #108]
	ldr	r2, [sp, #124]
	add.w	r10, r7, r9
	eor.w	r7, r2, r2, ror #11
	ror.w	r7, r7, #7
	eor.w	r7, r7, r2, lsr #3
	ldr	r2, [sp, #84]
	add	r7, r12
	eor.w	r6, r2, r2, ror #2
	ror.w	r6, r6, #17
	eor.w	r6, r6, r2, lsr #10
	ldr	r2, [sp, #96]
	ldr	r4, [sp, #112]
	add	r7, r2
	add.w	r12, r7, r6
	ldr	r7, [r4, #40]
	bic.w	r6, r3, r10
	and.w	r5, lr, r10
	add	r7, r12
	add	r6, r5
	add.w	r2, r7, r8
	eor.w	r7, r10, r10, ror #14
	add	r2, r6
	eor.w	r7, r10, r7, ror #5
	ldr	r6, [sp, #108]
	add.w	r5, r2, r7, ror #6
	ldr	r7, [sp, #56]
	eor.w	r2, r6, r6, ror #9
	eor.w	r8, r6, r2, ror #11
	eor.w	r2, r6, r7
	ands	r1, r2
	eors	r1, r7
	add.w	r1, r1, r8, ror #2
	add.w	r9, r1, r5
	ldr	r1, [sp, #52]
	ldr	r6, [sp, #120]
	add	r5, r1
	eor.w	r1, r6, r6, ror #11
	ror.w	r1, r1, #7
	eor.w	r7, r0, r0, ror #2
	eor.w	r1, r1, r6, lsr #3
	ldr	r6, [sp, #124]
	ror.w	r7, r7, #17
	str	r0, [sp, #128]
	eor.w	r7, r7, r0, lsr #10
	ldr	r0, [sp, #80]
	add	r1, r6
	add	r1, r0
	add.w	r8, r1, r7
	ldr	r1, [r4, #44]
	bic.w	r7, lr, r5
	and.w	r6, r10, r5
	add	r1, r8
	add	r7, r6
	add	r1, r3
	eor.w	r3, r5, r5, ror #14
	add	r1, r7
	eor.w	r3, r5, r3, ror #5
	ldr	r0, [sp, #108]
	add.w	r1, r1, r3, ror #6
	eor.w	r3, r9, r9, ror #9
	eor.w	r7, r9, r3, ror #11
	eor.w	r3, r9, r0
	ands	r2, r3
	eors	r2, r0
	add.w	r2, r2, r7, ror #2
	adds	r0, r2, r1
	add	r1, r11
	ldr.w	r11, [sp, #68]
	str	r0, [sp, #60]
	eor.w	r7, r11, r11, ror #11
	ror.w	r7, r7, #7
	ldr	r0, [sp, #120]
	eor.w	r7, r7, r11, lsr #3
	add	r7, r0
	eor.w	r6, r12, r12, ror #2
	ldr	r0, [sp, #92]
	ror.w	r6, r6, #17
	eor.w	r6, r6, r12, lsr #10
	add	r7, r0
	adds	r0, r7, r6
	ldr	r7, [r4, #48]
	bic.w	r6, r10, r1
	and.w	r2, r5, r1
	add	r7, r0
	add	r2, r6
	mov	r4, r0
	add.w	r0, r7, lr
	add	r0, r2
	eor.w	r2, r1, r1, ror #14
	ldr.w	lr, [sp, #60]
	eor.w	r2, r1, r2, ror #5
	add.w	r2, r0, r2, ror #6
	eor.w	r0, lr, lr, ror #9
	eor.w	r7, lr, r0, ror #11
	eor.w	r0, lr, r9
	ands	r3, r0
	eor.w	r3, r3, r9
	add.w	r3, r3, r7, ror #2
	str.w	r12, [sp, #72]
	mov	r6, r1
	add.w	r12, r3, r2
	ldr	r1, [sp, #56]
	ldr	r3, [sp, #132]
	add	r1, r2
	eor.w	r2, r3, r3, ror #11
	ror.w	r2, r2, #7
	eor.w	r2, r2, r3, lsr #3
	eor.w	r3, r8, r8, ror #2
	ldr	r7, [sp, #76]
	add	r2, r11
	ror.w	r3, r3, #17
	ldr.w	r11, [sp, #112]
	eor.w	r3, r3, r8, lsr #10
	add	r2, r7
	str.w	r9, [sp, #48]
	add.w	r9, r2, r3
	ldr.w	r2, [r11, #52]
	str	r5, [sp, #52]
	bic.w	r3, r5, r1
	mov	r5, r6
	str	r6, [sp, #36]
	ands	r6, r1
	add	r2, r9
	add	r3, r6
	add	r2, r10
	add	r2, r3
	eor.w	r3, r1, r1, ror #14
	eor.w	r3, r1, r3, ror #5
	add.w	r2, r2, r3, ror #6
	eor.w	r3, r12, r12, ror #9
	eor.w	r6, r12, r3, ror #11
	eor.w	r3, r12, lr
	ands	r0, r3
	eor.w	r0, r0, lr
	add.w	r0, r0, r6, ror #2
	adds	r7, r0, r2
	ldr	r0, [sp, #108]
	ldr.w	r10, [sp, #64]
	add.w	lr, r2, r0
	eor.w	r0, r10, r10, ror #11
	ror.w	r0, r0, #7
	ldr	r2, [sp, #132]
	eor.w	r0, r0, r10, lsr #3
	add	r0, r2
	eor.w	r2, r4, r4, ror #2
	ror.w	r2, r2, #17
	str	r4, [sp, #120]
	eor.w	r2, r2, r4, lsr #10
	ldr	r4, [sp, #88]
	str.w	r8, [sp, #124]
	add	r0, r4
	adds	r6, r0, r2
	ldr.w	r0, [r11, #56]
	bic.w	r2, r5, lr
	and.w	r4, r1, lr
	add	r2, r4
	ldr	r4, [sp, #52]
	add	r0, r6
	add	r0, r4
	add	r0, r2
	eor.w	r2, lr, lr, ror #14
	eor.w	r2, lr, r2, ror #5
	add.w	r2, r0, r2, ror #6
	eor.w	r0, r7, r7, ror #9
	eor.w	r4, r7, r0, ror #11
	eor.w	r0, r7, r12
	ands	r3, r0
	ldr.w	r8, [sp, #116]
	str	r6, [sp, #132]
	eor.w	r3, r3, r12
	ldr	r6, [sp, #48]
	add.w	r3, r3, r4, ror #2
	str.w	r12, [sp, #52]
	add	r3, r2
	add.w	r12, r2, r6
	eor.w	r2, r8, r8, ror #11
	ror.w	r2, r2, #7
	eor.w	r2, r2, r8, lsr #3
	eor.w	r4, r9, r9, ror #2
	ldr	r5, [sp, #84]
	add	r2, r10
	ror.w	r4, r4, #17
	eor.w	r4, r4, r9, lsr #10
	add	r2, r5
	adds	r6, r2, r4
	ldr.w	r2, [r11, #60]
	str	r1, [sp, #112]
	bic.w	r4, r1, r12
	ldr	r1, [sp, #36]
	and.w	r5, lr, r12
	add	r2, r6
	add	r4, r5
	add	r1, r2
	eor.w	r2, r12, r12, ror #14
	add	r1, r4
	eor.w	r2, r12, r2, ror #5
	add.w	r1, r1, r2, ror #6
	and.w	r2, r3, r0
	bic.w	r0, r7, r0
	add	r0, r2
	eor.w	r2, r3, r3, ror #9
	eor.w	r2, r3, r2, ror #11
	add.w	r2, r0, r2, ror #2
	ldrd	r0, r4, [sp, #40]
	mov	r11, r7
	adds	r7, r0, #1
	adc	r5, r4, #0
	str	r5, [sp, #44]
	subs	r5, r0, #3
	ldr	r0, [sp, #60]
	sbcs	r4, r4, #0
	str.w	r9, [sp, #68]
	add.w	r9, r2, r1
	add.w	r4, r1, r0
	str.w	lr, [sp, #48]
	str	r3, [sp, #108]
	blo.w	.LBBb0cdf_1
	ldr	r0, [sp, #24]
	ldr	r1, [sp, #108]
	add.w	lr, r9, r0
	ldr	r0, [sp, #32]
	ldr	r3, [sp, #52]
	add	r1, r0
	ldr	r0, [sp, #20]
	ldr	r7, [sp, #48]
	add.w	r2, r11, r0
	ldr	r0, [sp]
	add	r3, r0
	ldr	r0, [sp, #16]
	add	r4, r0
	ldr	r0, [sp, #12]
	add	r12, r0
	ldr	r0, [sp, #8]
	adds	r6, r7, r0
	ldr	r0, [sp, #4]
	ldr	r7, [sp, #112]
	adds	r5, r7, r0
	ldr	r0, [sp, #28]
	strd	lr, r1, [r0]
	add.w	r1, r0, #8
	stm.w	r1, {r2, r3, r4, r12}
	strd	r6, r5, [r0, #24]
	add	sp, #136
	pop.w	{r4, r5, r6, r7, r8, r9, r10, r11, pc}
.Lfunc_endb0cdf:
	.size	"sha2::block256::compress", .Lfunc_endb0cdf-"sha2::block256::compress"
	.cantunwind
	.fnend

	.section	".text.sha2::Sha256Digest::finalize","ax",%progbits
	.p2align	2
	.type	"sha2::Sha256Digest::finalize",%function
	.code	16
	.thumb_func
"sha2::Sha256Digest::finalize":
	.fnstart
	.save	{r4, r5, r6, r7, lr}
	push	{r4, r5, r6, r7, lr}
	.pad	#116
	sub	sp, #116
	add	r5, sp, #8
	mov	r4, r0
	mov	r0, r5
	movs	r2, #104
	bl	__aeabi_memcpy
	ldrd	r6, r7, [sp, #104]
	movw	r1, :lower16:.Lstatic.13
	rsb.w	r0, r6, #55
	and	r0, r0, #63
	adds	r2, r0, #1
	movt	r1, :upper16:.Lstatic.13
	mov	r0, r5
	movs	r3, #0
	bl	"sha2::block256::Core256::update"
	lsls	r1, r6, #11
	uxtb16	r1, r1
	mov.w	r2, #65280
	orr.w	r1, r1, r6, lsl #27
	and.w	r3, r2, r6, lsr #5
	add	r1, r3
	ubfx	r3, r6, #21, #8
	add	r1, r3
	lsrs	r3, r6, #5
	orr.w	r3, r3, r7, lsl #27
	and	r3, r3, #-16777216
	and	r6, r7, #8160
	and.w	r2, r2, r7, lsr #5
	orr.w	r3, r3, r6, lsl #11
	ubfx	r0, r7, #21, #8
	add	r2, r3
	add	r0, r2
	strd	r0, r1, [sp]
	mov	r1, sp
	mov	r0, r5
	movs	r2, #8
	movs	r3, #0
	bl	"sha2::block256::Core256::update"
	add	r7, sp, #8
	ldm	r7, {r0, r1, r2, r3, r7}
	ldrd	r6, r5, [sp, #28]
	ldr.w	r12, [sp, #36]
	rev	r0, r0
	rev	r1, r1
	rev	r2, r2
	rev	r3, r3
	rev	r7, r7
	rev	r6, r6
	rev	r5, r5
	rev.w	r12, r12
	str	r0, [r4]
	str	r1, [r4, #4]
	str	r2, [r4, #8]
	str	r3, [r4, #12]
	str	r7, [r4, #16]
	str	r6, [r4, #20]
	str	r5, [r4, #24]
	str.w	r12, [r4, #28]
	add	sp, #116
	pop	{r4, r5, r6, r7, pc}
.Lfunc_end22a8e:
	.size	"sha2::Sha256Digest::finalize", .Lfunc_end22a8e-"sha2::Sha256Digest::finalize"
	.cantunwind
	.fnend

	.section	".text.hmac_mac::keyed_hash","ax",%progbits
	.p2align	2
	.type	"hmac_mac::keyed_hash",%function
	.code	16
	.thumb_func
"hmac_mac::keyed_hash":
	.fnstart
	.save	{r4, r5, r6, r7, r8, r9, r10, r11, lr}
	push.w	{r4, r5, r6, r7, r8, r9, r10, r11, lr}
	.pad	#380
	sub	sp, #380
	str	r0, [sp, #204]
	ldrb.w	r0, [r1, #58]
	ldrb.w	r11, [r1, #57]
	ldrb.w	r10, [r1, #56]
	eors	r0, r2
	ldrb.w	r9, [r1, #55]
	str	r0, [sp, #180]
	eor.w	r0, r11, r2
	ldrb.w	r8, [r1, #54]
	str	r0, [sp, #176]
	eor.w	r0, r10, r2
	ldrb.w	lr, [r1, #53]
	str	r0, [sp, #172]
	eor.w	r0, r9, r2
	ldrb.w	r12, [r1, #52]
	str	r0, [sp, #168]
	eor.w	r0, r8, r2
	ldrb.w	r3, [r1, #59]
	str	r0, [sp, #164]
	eor.w	r0, lr, r2
	str	r0, [sp, #160]
	eor.w	r0, r12, r2
	eors	r3, r2
	str	r0, [sp, #156]
	ldrb.w	r0, [r1, #51]
	str	r3, [sp, #184]
	ldrb.w	r3, [r1, #50]
	eors	r0, r2
	str	r0, [sp, #152]
	eor.w	r0, r3, r2
	str	r0, [sp, #148]
	ldrb.w	r0, [r1, #49]
	ldrb.w	r3, [r1, #48]
	eors	r0, r2
	str	r0, [sp, #144]
	eor.w	r0, r3, r2
	str	r0, [sp, #140]
	ldrb.w	r0, [r1, #47]
	ldrb.w	r3, [r1, #46]
	eors	r0, r2
	str	r0, [sp, #136]
	eor.w	r0, r3, r2
	str	r0, [sp, #132]
	ldrb.w	r0, [r1, #45]
	ldrb.w	r3, [r1, #44]
	eors	r0, r2
	str	r0, [sp, #128]
	eor.w	r0, r3, r2
	str	r0, [sp, #124]
	ldrb.w	r0, [r1, #43]
	ldrb.w	r3, [r1, #42]
	eors	r0, r2
	str	r0, [sp, #120]
	eor.w	r0, r3, r2
	str	r0, [sp, #116]
	ldrb.w	r0, [r1, #41]
	ldrb.w	r3, [r1, #40]
	eors	r0, r2
	str	r0, [sp, #112]
	eor.w	r0, r3, r2
	str	r0, [sp, #108]
	ldrb.w	r0, [r1, #39]
	ldrb.w	r3, [r1, #38]
	eors	r0, r2
	str	r0, [sp, #104]
	eor.w	r0, r3, r2
	str	r0, [sp, #100]
	ldrb.w	r0, [r1, #37]
	ldrb.w	r3, [r1, #36]
	eors	r0, r2
	str	r0, [sp, #96]
	eor.w	r0, r3, r2
	str	r0, [sp, #92]
	ldrb.w	r0, [r1, #35]
	ldrb.w	r3, [r1, #34]
	eors	r0, r2
	str	r0, [sp, #88]
	eor.w	r0, r3, r2
	str	r0, [sp, #84]
	ldrb.w	r0, [r1, #33]
	ldrb.w	r3, [r1, #32]
	eors	r0, r2
	str	r0, [sp, #80]
	eor.w	r0, r3, r2
	str	r0, [sp, #76]
	ldrb	r0, [r1, #31]
	ldrb	r3, [r1, #30]
	eors	r0, r2
	str	r0, [sp, #72]
	eor.w	r0, r3, r2
	str	r0, [sp, #68]
	ldrb	r0, [r1, #29]
	ldrb	r3, [r1, #28]
	eors	r0, r2
	str	r0, [sp, #64]
	eor.w	r0, r3, r2
	str	r0, [sp, #60]
	ldrb	r0, [r1, #27]
	ldrb	r3, [r1, #26]
	eors	r0, r2
	str	r0, [sp, #56]
	eor.w	r0, r3, r2
	str	r0, [sp, #52]
	ldrb	r0, [r1, #25]
	ldrb	r3, [r1, #24]
	eors	r0, r2
	str	r0, [sp, #48]
	eor.w	r0, r3, r2
	str	r0, [sp, #44]
	ldrb	r0, [r1, #23]
	ldrb	r3, [r1, #22]
	eors	r0, r2
	str	r0, [sp, #40]
	eor.w	r0, r3, r2
	str	r0, [sp, #36]
	ldrb	r0, [r1, #21]
	ldrb	r3, [r1, #20]
	eors	r0, r2
	str	r0, [sp, #32]
	eor.w	r0, r3, r2
	str	r0, [sp, #28]
	ldrb	r0, [r1, #19]
	ldrb	r3, [r1, #18]
	eors	r0, r2
	str	r0, [sp, #24]
	eor.w	r0, r3, r2
	str	r0, [sp, #20]
	ldrb	r0, [r1, #17]
	ldrb	r3, [r1, #16]
	eors	r0, r2
	str	r0, [sp, #16]
	eor.w	r0, r3, r2
	str	r0, [sp, #12]
	ldrb	r0, [r1, #15]
	ldrb	r3, [r1, #14]
	eors	r0, r2
	str	r0, [sp, #8]
	eor.w	r0, r3, r2
	str	r0, [sp, #4]
	ldrb	r0, [r1, #13]
	ldrb.w	r4, [r1, #62]
	eors	r0, r2
	str	r0, [sp]
	ldrb	r0, [r1, #11]
	ldrb.w	r6, [r1, #61]
	ldrb.w	r7, [r1, #60]
	eors	r4, r2
	eor.w	r10, r0, r2
	ldrb	r0, [r1, #8]
	str	r4, [sp, #196]
	eor.w	r4, r6, r2
	str	r4, [sp, #192]
	eor.w	r4, r7, r2
	eor.w	r7, r0, r2
	ldrb	r0, [r1, #7]
	str	r4, [sp, #188]
	eor.w	r6, r0, r2
	ldrb	r0, [r1, #5]
	ldrb	r3, [r1, #12]
	eor.w	r4, r0, r2
	ldrb	r0, [r1, #3]
	eor.w	r11, r3, r2
	eor.w	r12, r0, r2
	ldrb	r0, [r1, #1]
	ldrb	r3, [r1, #10]
	eors	r0, r2
	strb.w	r0, [sp, #209]
	ldr	r0, [sp]
	eor.w	r9, r3, r2
	strb.w	r0, [sp, #221]
	ldr	r0, [sp, #4]
	ldrb	r3, [r1, #9]
	strb.w	r0, [sp, #222]
	ldr	r0, [sp, #8]
	ldrb.w	r5, [r1, #63]
	strb.w	r0, [sp, #223]
	ldr	r0, [sp, #12]
	eor.w	r8, r3, r2
	strb.w	r0, [sp, #224]
	ldr	r0, [sp, #16]
	ldrb	r3, [r1, #6]
	strb.w	r0, [sp, #225]
	ldr	r0, [sp, #20]
	eors	r5, r2
	strb.w	r0, [sp, #226]
	ldr	r0, [sp, #24]
	str	r5, [sp, #200]
	strb.w	r0, [sp, #227]
	ldr	r0, [sp, #28]
	eor.w	r5, r3, r2
	strb.w	r0, [sp, #228]
	ldr	r0, [sp, #32]
	ldrb	r3, [r1, #4]
	strb.w	r0, [sp, #229]
	ldr	r0, [sp, #36]
	eor.w	lr, r3, r2
	strb.w	r0, [sp, #230]
	ldr	r0, [sp, #40]
	ldrb	r3, [r1, #2]
	strb.w	r0, [sp, #231]
	ldr	r0, [sp, #44]
	ldrb	r1, [r1]
	strb.w	r0, [sp, #232]
	ldr	r0, [sp, #48]
	eors	r3, r2
	strb.w	r0, [sp, #233]
	ldr	r0, [sp, #52]
	eors	r1, r2
	strb.w	r0, [sp, #234]
	ldr	r0, [sp, #56]
	strb.w	r5, [sp, #214]
	strb.w	r0, [sp, #235]
	ldr	r0, [sp, #60]
	add	r5, sp, #272
	strb.w	r0, [sp, #236]
	ldr	r0, [sp, #64]
	strb.w	r1, [sp, #208]
	strb.w	r0, [sp, #237]
	ldr	r0, [sp, #68]
	strb.w	r3, [sp, #210]
	strb.w	r0, [sp, #238]
	ldr	r0, [sp, #72]
	add	r1, sp, #208
	strb.w	r0, [sp, #239]
	ldr	r0, [sp, #76]
	movs	r2, #64
	strb.w	r0, [sp, #240]
	ldr	r0, [sp, #80]
	movs	r3, #0
	strb.w	r0, [sp, #241]
	ldr	r0, [sp, #84]
	strb.w	r12, [sp, #211]
	strb.w	r0, [sp, #242]
	ldr	r0, [sp, #88]
	strb.w	lr, [sp, #212]
	strb.w	r0, [sp, #243]
	ldr	r0, [sp, #92]
	strb.w	r4, [sp, #213]
	strb.w	r0, [sp, #244]
	ldr	r0, [sp, #96]
	strb.w	r6, [sp, #215]
	strb.w	r0, [sp, #245]
	ldr	r0, [sp, #100]
	strb.w	r7, [sp, #216]
	strb.w	r0, [sp, #246]
	ldr	r0, [sp, #104]
	strb.w	r8, [sp, #217]
	strb.w	r0, [sp, #247]
	ldr	r0, [sp, #108]
	strb.w	r9, [sp, #218]
	strb.w	r0, [sp, #248]
	ldr	r0, [sp, #112]
	strb.w	r10, [sp, #219]
	strb.w	r0, [sp, #249]
	ldr	r0, [sp, #116]
	strb.w	r11, [sp, #220]
	strb.w	r0, [sp, #250]
	ldr	r0, [sp, #120]
	strb.w	r0, [sp, #251]
	ldr	r0, [sp, #124]
	strb.w	r0, [sp, #252]
	ldr	r0, [sp, #128]
	strb.w	r0, [sp, #253]
	ldr	r0, [sp, #132]
	strb.w	r0, [sp, #254]
	ldr	r0, [sp, #136]
	strb.w	r0, [sp, #255]
	ldr	r0, [sp, #140]
	strb.w	r0, [sp, #256]
	ldr	r0, [sp, #144]
	strb.w	r0, [sp, #257]
	ldr	r0, [sp, #148]
	strb.w	r0, [sp, #258]
	ldr	r0, [sp, #152]
	strb.w	r0, [sp, #259]
	ldr	r0, [sp, #156]
	strb.w	r0, [sp, #260]
	ldr	r0, [sp, #160]
	strb.w	r0, [sp, #261]
	ldr	r0, [sp, #164]
	strb.w	r0, [sp, #262]
	ldr	r0, [sp, #168]
	strb.w	r0, [sp, #263]
	ldr	r0, [sp, #172]
	strb.w	r0, [sp, #264]
	ldr	r0, [sp, #176]
	strb.w	r0, [sp, #265]
	ldr	r0, [sp, #180]
	strb.w	r0, [sp, #266]
	ldr	r0, [sp, #184]
	strb.w	r0, [sp, #267]
	ldr	r0, [sp, #188]
	strb.w	r0, [sp, #268]
	ldr	r0, [sp, #192]
	strb.w	r0, [sp, #269]
	ldr	r0, [sp, #196]
	strb.w	r0, [sp, #270]
	ldr	r0, [sp, #200]
	strb.w	r0, [sp, #271]
	mov	r0, r5
	bl	"sha2::Digest::new_with_prefix::<#5e0519c8a4bcd43a>"
	ldr	r0, [sp, #204]
	mov	r1, r5
	movs	r2, #104
	bl	__aeabi_memcpy
	add	sp, #380
	pop.w	{r4, r5, r6, r7, r8, r9, r10, r11, pc}
.Lfunc_endd0636:
	.size	"hmac_mac::keyed_hash", .Lfunc_endd0636-"hmac_mac::keyed_hash"
	.cantunwind
	.fnend

	.section	".text.hmac_mac::HmacKey::tag_whole","ax",%progbits
	.p2align	2
	.type	"hmac_mac::HmacKey::tag_whole",%function
	.code	16
	.thumb_func
"hmac_mac::HmacKey::tag_whole":
	.fnstart
	.save	{r4, r5, r6, r7, r8, lr}
	push.w	{r4, r5, r6, r7, r8, lr}
	.pad	#104
	sub	sp, #104
	ldrd	r12, r3, [sp, #128]
	add	r6, sp, #40
	mov	r8, r0
	mov	r0, r6
	add.w	r5, r1, #104
	strd	r12, r3, [sp]
	bl	"hmac_mac::digest_after"
	add	r2, sp, #8
	ldm	r6!, {r1, r3, r4, r7}
	mov	r0, r2
	stm	r0!, {r1, r3, r4, r7}
	ldm.w	r6, {r1, r3, r4, r7}
	add	r6, sp, #72
	stm	r0!, {r1, r3, r4, r7}
	movs	r3, #0
	movs	r7, #32
	mov	r0, r6
	mov	r1, r5
	strd	r7, r3, [sp]
	bl	"hmac_mac::digest_after"
	mov	r0, r8
	mov	r1, r6
	movs	r2, #32
	bl	__aeabi_memcpy
	add	sp, #104
	pop.w	{r4, r5, r6, r7, r8, pc}
.Lfunc_ende651d:
	.size	"hmac_mac::HmacKey::tag_whole", .Lfunc_ende651d-"hmac_mac::HmacKey::tag_whole"
	.cantunwind
	.fnend

	.section	".text.hmac_mac::digest_after","ax",%progbits
	.p2align	2
	.type	"hmac_mac::digest_after",%function
	.code	16
	.thumb_func
"hmac_mac::digest_after":
	.fnstart
	.save	{r4, r5, r6, r7, r8, r9, r10, r11, lr}
	push.w	{r4, r5, r6, r7, r8, r9, r10, r11, lr}
	.pad	#436
	sub	sp, #436
	add	r7, sp, #336
	mov	r11, r2
	ldrd	r8, r9, [sp, #472]
	mov	r10, r0
	mov	r0, r7
	movs	r2, #32
	mov	r6, r1
	bl	__aeabi_memcpy
	add.w	r1, r6, #32
	add.w	r0, r7, #32
	movs	r2, #64
	bl	__aeabi_memcpy
	add.w	r0, sp, #233
	ldrd	r4, r5, [r6, #96]
	adds	r6, r0, #7
	mov	r0, r6
	mov	r1, r7
	movs	r2, #96
	bl	__aeabi_memcpy
	add	r7, sp, #32
	mov	r0, r7
	mov	r1, r6
	movs	r2, #96
	bl	__aeabi_memcpy
	add	r6, sp, #128
	mov	r0, r6
	mov	r1, r7
	movs	r2, #96
	bl	__aeabi_memcpy4
	mov	r0, r6
	mov	r1, r11
	mov	r2, r8
	mov	r3, r9
	strd	r4, r5, [sp, #224]
	bl	"sha2::block256::Core256::update"
	mov	r5, sp
	mov	r0, r5
	mov	r1, r6
	bl	"sha2::Sha256Digest::finalize"
	mov	r0, r10
	mov	r1, r5
	movs	r2, #32
	bl	__aeabi_memcpy
	add	sp, #436
	pop.w	{r4, r5, r6, r7, r8, r9, r10, r11, pc}
.Lfunc_end39535:
	.size	"hmac_mac::digest_after", .Lfunc_end39535-"hmac_mac::digest_after"
	.cantunwind
	.fnend

	.section	".text.login_keys::gpsk::mac_key::MacKey::new","ax",%progbits
	.p2align	2
	.type	"login_keys::gpsk::mac_key::MacKey::new",%function
	.code	16
	.thumb_func
"login_keys::gpsk::mac_key::MacKey::new":
	.fnstart
	.save	{r4, r5, r6, r7, r8, r9, r10, lr}
	push.w	{r4, r5, r6, r7, r8, r9, r10, lr}
	.pad	#664
	sub.w	sp, sp, #664
	add	r7, sp, #432
	mov	r10, r1
	ldrd	r8, r9, [sp, #696]
	mov	r5, r0
	mov	r0, r7
	movs	r1, #215
	mov	r6, r2
	bl	__aeabi_memclr4
	lsls.w	r0, r10, #24
	beq	.LBB9432f_2
	mov	r4, sp
	mov	r0, r4
	mov	r1, r6
	mov	r2, r8
	mov	r3, r9
	bl	"hmac_mac::HmacKey::new"
	adds	r0, r7, #7
	mov	r1, r4
	movs	r2, #208
	bl	__aeabi_memcpy
	b	.LBB9432f_3
.LBB9432f_2:
	add	r0, sp, #648
	subs	r0, r0, r6
	mov.w	r1, #0
	sbc	r2, r1, #0
	subs.w	r0, r0, r8
	sbcs.w	r0, r2, r9
	strd	r1, r1, [sp, #656]
	strd	r1, r1, [sp, #648]
	add	r0, sp, #648
	mov	r1, r6
	mov	r2, r8
	bl	__aeabi_memcpy
	ldr	r2, [sp, #660]
	add	r3, sp, #648
	ldm	r3, {r0, r1, r3}
	str	r2, [sp, #220]
	add	r2, sp, #208
	add	r6, sp, #224
	stm	r2!, {r0, r1, r3}
	add	r1, sp, #208
	mov	r0, r6
	bl	"cmac_mac::key::CmacKey::new"
	add	r0, sp, #432
	mov	r1, r6
	mov.w	r2, #208
	bl	__aeabi_memcpy4
.LBB9432f_3:
	strb	r10, [r5], #1
	add	r1, sp, #432
	mov	r0, r5
	movs	r2, #215
	bl	__aeabi_memcpy
	add.w	sp, sp, #664
	pop.w	{r4, r5, r6, r7, r8, r9, r10, pc}
.Lfunc_end9432f:
	.size	"login_keys::gpsk::mac_key::MacKey::new", .Lfunc_end9432f-"login_keys::gpsk::mac_key::MacKey::new"
	.cantunwind
	.fnend

	.section	".text.login_keys::gpsk::derive_keys","ax",%progbits
	.p2align	2
	.type	"login_keys::gpsk::derive_keys",%function
	.code	16
	.thumb_func
"login_keys::gpsk::derive_keys":
	.fnstart
	.save	{r4, r5, r6, r7, r8, r9, r10, r11, lr}
	push.w	{r4, r5, r6, r7, r8, r9, r10, r11, lr}
	.pad	#516
	sub.w	sp, sp, #516
	add.w	r8, sp, #240
	mov	r5, r1
	ldr	r7, [sp, #552]
	ldrd	r11, r4, [sp, #560]
	mov	r9, r0
	mov	r0, r8
	mov	r1, r2
	movs	r2, #40
	mov	r6, r3
	bl	__aeabi_memcpy
	add.w	r10, sp, #40
	mov	r0, r10
	movs	r1, #200
	bl	__aeabi_memclr8
	movs	r0, #0
	strd	r0, r0, [sp, #24]
	add	r0, sp, #512
	str	r0, [sp, #16]
	mov	r0, r5
	movs	r2, #160
	movs	r3, #0
	str.w	r10, [sp, #32]
	stm.w	sp, {r6, r7, r11}
	str	r4, [sp, #12]
	bl	"login_keys::gpsk::derivation::derive"
	ldrd	r4, r7, [sp, #232]
	add	r6, sp, #280
	mov	r0, r6
	mov	r1, r5
	mov	r2, r8
	mov	r3, r10
	strd	r4, r7, [sp]
	bl	"login_keys::gpsk::cut_keys"
	mov	r0, r9
	mov	r1, r6
	movs	r2, #232
	bl	__aeabi_memcpy
	add.w	sp, sp, #516
	pop.w	{r4, r5, r6, r7, r8, r9, r10, r11, pc}
.Lfunc_end29a3e:
	.size	"login_keys::gpsk::derive_keys", .Lfunc_end29a3e-"login_keys::gpsk::derive_keys"
	.cantunwind
	.fnend

	.section	".text.login_keys::gpsk::derivation::derive","ax",%progbits
	.p2align	2
	.type	"login_keys::gpsk::derivation::derive",%function
	.code	16
	.thumb_func
"login_keys::gpsk::derivation::derive":
	.fnstart
	.save	{r4, r5, r6, r7, r8, r9, r10, r11, lr}
	push.w	{r4, r5, r6, r7, r8, r9, r10, r11, lr}
	.pad	#324
	sub	sp, #324
	ldr	r6, [sp, #392]
	mov	r4, r0
	add	r0, sp, #104
	movs	r1, #40
	str	r3, [sp, #28]
	mov	r5, r2
	bl	__aeabi_memclr8
	lsls	r1, r4, #24
	uxtb	r0, r5
	mov.w	r1, #5
	it	eq
	moveq	r1, #4
	lsr.w	r10, r0, r1
	mov.w	r0, #31
	it	eq
	moveq	r0, #15
	tst	r0, r5
	str	r5, [sp, #24]
	it	ne
	addne.w	r10, r10, #1
	cmp.w	r10, #0
	beq.w	.LBBfae6a_11
	ldrd	r1, r2, [sp, #360]
	add	r3, sp, #280
	subs	r0, r2, r3
	mov.w	r7, #0
	str	r0, [sp, #60]
	sbc	r0, r7, #0
	str	r0, [sp, #56]
	add.w	r0, r1, #8
	str	r0, [sp, #52]
	add	r0, sp, #144
	subs	r0, r3, r0
	str	r0, [sp, #48]
	sbc	r0, r7, #0
	str	r0, [sp, #44]
	add	r0, sp, #208
	subs	r0, r3, r0
	str	r0, [sp, #40]
	add.w	r0, r1, #1
	str	r0, [sp, #36]
	sbc	r0, r7, #0
	mov.w	r9, #0
	mov.w	r11, #0
	str	r0, [sp, #32]
	b	.LBBfae6a_3
	.p2align	2
.LBBfae6a_2:
	adds.w	r9, r9, #1
	ldr	r2, [sp, #364]
	adc	r11, r11, #0
	subs.w	r0, r9, r10
	sbcs	r0, r11, #0
	bhs.w	.LBBfae6a_12
.LBBfae6a_3:
	ldr	r0, [sp, #60]
	ldr	r1, [sp, #56]
	rsbs.w	r0, r0, #1
	mov.w	r0, #0
	sbcs	r0, r1
	add.w	r0, r9, #1
	rev	r0, r0
	lsr.w	r0, r0, #16
	strh	r0, [r2]
	ldrd	r1, r0, [sp, #384]
	add	r6, sp, #104
	orrs	r0, r1
	mov.w	r0, #0
	strd	r0, r0, [sp, #176]
	strd	r0, r0, [sp, #184]
	strd	r0, r0, [sp, #192]
	strd	r0, r0, [sp, #200]
	beq	.LBBfae6a_6
	ldr	r0, [sp, #360]
	ldrb	r0, [r0]
	cbz	r0, .LBBfae6a_7
	ldr	r0, [sp, #388]
	add	r5, sp, #176
	strd	r1, r0, [sp, #16]
	ldr	r0, [sp, #368]
	ldr	r1, [sp, #52]
	str	r0, [sp]
	ldr	r0, [sp, #372]
	ldr	r3, [sp, #376]
	str	r0, [sp, #4]
	mov	r0, r5
	str	r3, [sp, #8]
	bl	"login_keys::gpsk::mac_key::hmac_tag"
	ldr	r0, [sp, #48]
	ldr	r1, [sp, #44]
	rsbs.w	r0, r0, #31
	mov.w	r0, #0
	sbcs	r0, r1
	add	r4, sp, #280
	ldm	r5!, {r1, r2, r3, r7}
	mov	r0, r4
	stm	r0!, {r1, r2, r3, r7}
	ldm.w	r5, {r1, r2, r3, r7}
	stm	r0!, {r1, r2, r3, r7}
	mov.w	r0, #0
	str	r0, [sp, #316]
	mov.w	r0, #32
	str	r0, [sp, #312]
	add	r0, sp, #240
	mov	r1, r4
	b	.LBBfae6a_8
	.p2align	2
.LBBfae6a_6:
	ldr	r1, [sp, #360]
	ldrd	r7, r3, [sp, #368]
	add	r0, sp, #64
	strd	r7, r3, [sp]
	bl	"login_keys::gpsk::mac_key::MacKey::tag_whole"
	b	.LBBfae6a_9
	.p2align	2
.LBBfae6a_7:
	ldr	r0, [sp, #388]
	ldr	r3, [sp, #376]
	strd	r1, r0, [sp, #16]
	ldr	r0, [sp, #368]
	ldr	r1, [sp, #36]
	str	r0, [sp]
	ldr	r0, [sp, #372]
	str	r3, [sp, #8]
	str	r0, [sp, #4]
	add	r0, sp, #224
	bl	"login_keys::gpsk::mac_key::cmac_tag"
	ldr	r0, [sp, #40]
	ldr	r1, [sp, #32]
	rsbs.w	r0, r0, #15
	mov.w	r0, #0
	sbcs.w	r1, r0, r1
	ldr	r2, [sp, #236]
	add	r3, sp, #224
	strd	r0, r0, [sp, #304]
	strd	r0, r0, [sp, #296]
	strd	r0, r0, [sp, #288]
	strd	r0, r0, [sp, #280]
	ldm	r3, {r0, r1, r3}
	str	r2, [sp, #292]
	add	r2, sp, #280
	stm	r2!, {r0, r1, r3}
	mov.w	r0, #0
	add	r7, sp, #280
	str	r0, [sp, #316]
	mov.w	r0, #16
	str	r0, [sp, #312]
	add	r0, sp, #240
	mov	r1, r7
.LBBfae6a_8:
	ldm	r1!, {r2, r3, r4, r5, r7}
	stm	r0!, {r2, r3, r4, r5, r7}
	ldm.w	r1, {r2, r3, r4, r5, r7}
	add	r1, sp, #64
	stm	r0!, {r2, r3, r4, r5, r7}
	add	r0, sp, #240
	ldm	r0!, {r2, r3, r4, r5, r7}
	stm	r1!, {r2, r3, r4, r5, r7}
	ldm.w	r0, {r2, r3, r4, r5, r7}
	stm	r1!, {r2, r3, r4, r5, r7}
.LBBfae6a_9:
	add	r0, sp, #64
	ldm	r0!, {r2, r3, r4, r5, r7}
	mov	r1, r6
	stm	r1!, {r2, r3, r4, r5, r7}
	ldm.w	r0, {r2, r3, r4, r5, r7}
	stm	r1!, {r2, r3, r4, r5, r7}
	ldr	r3, [sp, #392]
	ldr	r5, [sp, #136]
	ldrd	r8, r7, [r3, #192]
	ldr	r4, [sp, #140]
	rsbs.w	r0, r8, #192
	mov.w	r1, #0
	sbc.w	r2, r1, r7
	subs	r0, r0, r5
	sbcs.w	r0, r2, r4
	blo.w	.LBBfae6a_2
	add.w	r0, r3, r8
	subs	r2, r0, r6
	sbc	r1, r1, #0
	subs	r2, r2, r5
	sbcs	r1, r4
	add	r1, sp, #104
	mov	r2, r5
	bl	__aeabi_memcpy
	adds.w	r8, r8, r5
	ldr	r3, [sp, #392]
	adcs	r7, r4
	strd	r8, r7, [r3, #192]
	b	.LBBfae6a_2
.LBBfae6a_11:
	ldrd	r8, r7, [r6, #192]
	mov	r3, r6
.LBBfae6a_12:
	ldr	r5, [sp, #24]
	ldr	r4, [sp, #28]
	subs.w	r0, r5, r8
	sbcs.w	r0, r4, r7
	bhs	.LBBfae6a_14
	adds	r0, r3, r5
	sub.w	r1, r8, r5
	mov	r6, r3
	bl	__aeabi_memclr
	strd	r5, r4, [r6, #192]
.LBBfae6a_14:
	add	sp, #324
	pop.w	{r4, r5, r6, r7, r8, r9, r10, r11, pc}
.Lfunc_endfae6a:
	.size	"login_keys::gpsk::derivation::derive", .Lfunc_endfae6a-"login_keys::gpsk::derivation::derive"
	.cantunwind
	.fnend

	.section	".text.login_keys::gpsk::mac_key::MacKey::tag_whole","ax",%progbits
	.p2align	2
	.type	"login_keys::gpsk::mac_key::MacKey::tag_whole",%function
	.code	16
	.thumb_func
"login_keys::gpsk::mac_key::MacKey::tag_whole":
	.fnstart
	.save	{r4, r5, r6, r7, lr}
	push	{r4, r5, r6, r7, lr}
	.pad	#188
	sub	sp, #188
	ldrb	r6, [r1]
	ldr	r3, [sp, #212]
	ldr	r4, [sp, #208]
	mov	r7, r0
	cbz	r6, .LBBf82e2_2
	add	r5, sp, #40
	adds	r1, #8
	mov	r0, r5
	strd	r4, r3, [sp]
	bl	"hmac_mac::HmacKey::tag_whole"
	add	r2, sp, #8
	add	r0, sp, #144
	movs	r1, #0
	subs	r2, r0, r2
	sbc	r3, r1, #0
	rsbs.w	r2, r2, #31
	str	r1, [sp, #172]
	strd	r1, r1, [sp, #164]
	strd	r1, r1, [sp, #156]
	strd	r1, r1, [sp, #148]
	sbcs.w	r2, r1, r3
	str	r1, [sp, #144]
	ldm	r5!, {r2, r3, r4, r6}
	mov	r1, r0
	stm	r1!, {r2, r3, r4, r6}
	ldm.w	r5, {r2, r3, r4, r6}
	stm	r1!, {r2, r3, r4, r6}
	mov.w	r1, #0
	str	r1, [sp, #180]
	mov.w	r1, #32
	b	.LBBf82e2_3
.LBBf82e2_2:
	adds	r1, #1
	add	r0, sp, #88
	strd	r4, r3, [sp]
	bl	"cmac_mac::key::CmacKey::tag_whole"
	add	r2, sp, #72
	add	r0, sp, #144
	movs	r1, #0
	subs	r2, r0, r2
	sbc	r3, r1, #0
	rsbs.w	r2, r2, #15
	sbcs.w	r2, r1, r3
	ldr	r3, [sp, #100]
	add	r5, sp, #88
	str	r1, [sp, #172]
	strd	r1, r1, [sp, #164]
	strd	r1, r1, [sp, #156]
	strd	r1, r1, [sp, #148]
	str	r1, [sp, #144]
	ldm	r5, {r1, r2, r5}
	str	r3, [sp, #156]
	add	r3, sp, #144
	stm	r3!, {r1, r2, r5}
	mov.w	r1, #0
	str	r1, [sp, #180]
	mov.w	r1, #16
.LBBf82e2_3:
	str	r1, [sp, #176]
	ldm	r0!, {r2, r3, r4, r5, r6}
	add	r1, sp, #104
	stm	r1!, {r2, r3, r4, r5, r6}
	ldm.w	r0, {r2, r3, r4, r5, r6}
	mov	r0, r7
	stm	r1!, {r2, r3, r4, r5, r6}
	add	r1, sp, #104
	movs	r2, #40
	bl	__aeabi_memcpy
	add	sp, #188
	pop	{r4, r5, r6, r7, pc}
.Lfunc_endf82e2:
	.size	"login_keys::gpsk::mac_key::MacKey::tag_whole", .Lfunc_endf82e2-"login_keys::gpsk::mac_key::MacKey::tag_whole"
	.cantunwind
	.fnend

	.section	".text.login_keys::gpsk::mac_key::cmac_tag","ax",%progbits
	.p2align	2
	.type	"login_keys::gpsk::mac_key::cmac_tag",%function
	.code	16
	.thumb_func
"login_keys::gpsk::mac_key::cmac_tag":
	.fnstart
	.save	{r4, r5, r6, lr}
	push	{r4, r5, r6, lr}
	.pad	#40
	sub	sp, #40
	mov	r4, r0
	ldrd	r0, r5, [sp, #72]
	ldrd	lr, r3, [sp, #56]
	ldr.w	r12, [sp, #64]
	movs	r6, #0
	strd	r0, r5, [sp, #16]
	add	r0, sp, #24
	strd	r6, r6, [sp, #32]
	strd	r6, r6, [sp, #24]
	strd	lr, r3, [sp]
	str.w	r12, [sp, #8]
	bl	"cmac_mac::key::CmacKey::tag"
	add	r3, sp, #24
	ldr	r2, [sp, #36]
	ldm	r3, {r0, r1, r3}
	str	r2, [r4, #12]
	str	r3, [r4, #8]
	str	r1, [r4, #4]
	str	r0, [r4]
	add	sp, #40
	pop	{r4, r5, r6, pc}
.Lfunc_end76b1f:
	.size	"login_keys::gpsk::mac_key::cmac_tag", .Lfunc_end76b1f-"login_keys::gpsk::mac_key::cmac_tag"
	.cantunwind
	.fnend

	.section	".text.login_keys::gpsk::mac_key::hmac_tag","ax",%progbits
	.p2align	2
	.type	"login_keys::gpsk::mac_key::hmac_tag",%function
	.code	16
	.thumb_func
"login_keys::gpsk::mac_key::hmac_tag":
	.fnstart
	.save	{r4, r5, r6, r7, r8, r9, r10, r11, lr}
	push.w	{r4, r5, r6, r7, r8, r9, r10, r11, lr}
	.pad	#684
	sub.w	sp, sp, #684
	str	r0, [sp, #4]
	movs	r0, #0
	add	r4, sp, #472
	str	r2, [sp]
	strd	r0, r0, [sp, #432]
	strd	r0, r0, [sp, #424]
	strd	r0, r0, [sp, #416]
	strd	r0, r0, [sp, #408]
	mov	r0, r4
	movs	r2, #32
	mov	r5, r1
	bl	__aeabi_memcpy
	add.w	r9, r4, #32
	add.w	r1, r5, #32
	mov	r0, r9
	movs	r2, #64
	bl	__aeabi_memcpy
	add	r0, sp, #576
	adds	r7, r0, #7
	ldrd	r10, r11, [r5, #96]
	mov	r0, r7
	mov	r1, r4
	movs	r2, #96
	bl	__aeabi_memcpy
	adds	r6, r4, #7
	mov	r0, r6
	mov	r1, r7
	movs	r2, #96
	bl	__aeabi_memcpy
	add.w	r8, sp, #104
	mov	r0, r8
	mov	r1, r6
	movs	r2, #96
	bl	__aeabi_memcpy
	add.w	r1, r5, #104
	mov	r0, r4
	movs	r2, #32
	bl	__aeabi_memcpy
	add.w	r1, r5, #136
	mov	r0, r9
	movs	r2, #64
	bl	__aeabi_memcpy
	ldrd	r9, r5, [r5, #200]
	mov	r0, r7
	mov	r1, r4
	movs	r2, #96
	bl	__aeabi_memcpy
	mov	r0, r6
	mov	r1, r7
	movs	r2, #96
	bl	__aeabi_memcpy
	add	r4, sp, #8
	mov	r0, r4
	mov	r1, r6
	movs	r2, #96
	bl	__aeabi_memcpy
	add	r6, sp, #200
	mov	r0, r6
	mov	r1, r8
	movs	r2, #96
	bl	__aeabi_memcpy8
	add.w	r8, r6, #104
	mov	r0, r8
	mov	r1, r4
	movs	r2, #96
	strd	r10, r11, [sp, #296]
	bl	__aeabi_memcpy8
	ldr	r1, [sp]
	ldrd	r2, r3, [sp, #720]
	str	r5, [sp, #404]
	ldr	r5, [sp, #740]
	mov	r0, r6
	ldr	r6, [sp, #736]
	str.w	r9, [sp, #400]
	bl	"sha2::block256::Core256::update"
	orrs.w	r0, r6, r5
	beq	.LBBdcd8c_8
	ldr	r4, [sp, #728]
	add	r0, sp, #200
	ldr	r1, [r4]
	ldrd	r2, r3, [r4, #8]
	bl	"sha2::block256::Core256::update"
	eor	r0, r6, #1
	orrs	r0, r5
	beq	.LBBdcd8c_8
	ldr	r1, [r4, #16]
	ldrd	r2, r3, [r4, #24]
	add	r0, sp, #200
	bl	"sha2::block256::Core256::update"
	subs	r0, r6, #3
	sbcs	r0, r5, #0
	blo	.LBBdcd8c_8
	ldr	r1, [r4, #32]
	ldrd	r2, r3, [r4, #40]
	add	r0, sp, #200
	bl	"sha2::block256::Core256::update"
	eor	r0, r6, #3
	orrs	r0, r5
	beq	.LBBdcd8c_8
	ldr	r1, [r4, #48]
	ldrd	r2, r3, [r4, #56]
	add	r0, sp, #200
	bl	"sha2::block256::Core256::update"
	subs	r0, r6, #5
	sbcs	r0, r5, #0
	blo	.LBBdcd8c_8
	ldr	r1, [r4, #64]
	ldrd	r2, r3, [r4, #72]
	add	r0, sp, #200
	bl	"sha2::block256::Core256::update"
	eor	r0, r6, #5
	orrs	r0, r5
	beq	.LBBdcd8c_8
	ldr	r1, [r4, #80]
	ldrd	r2, r3, [r4, #88]
	add	r0, sp, #200
	bl	"sha2::block256::Core256::update"
	eor	r0, r6, #7
	orrs	r0, r5
	bne	.LBBdcd8c_8
	ldr	r1, [r4, #96]
	ldrd	r2, r3, [r4, #104]
	add	r0, sp, #200
	bl	"sha2::block256::Core256::update"
.LBBdcd8c_8:
	add.w	r9, sp, #576
	ldrd	r5, r6, [sp, #296]
	ldrd	r7, r4, [sp, #400]
	add	r1, sp, #200
	mov	r0, r9
	movs	r2, #96
	bl	__aeabi_memcpy8
	strd	r5, r6, [sp, #672]
	add	r6, sp, #472
	mov	r0, r6
	mov	r1, r8
	movs	r2, #96
	bl	__aeabi_memcpy8
	add	r5, sp, #440
	mov	r0, r5
	mov	r1, r9
	strd	r7, r4, [sp, #568]
	bl	"sha2::Sha256Digest::finalize"
	mov	r0, r6
	mov	r1, r5
	movs	r2, #32
	movs	r3, #0
	bl	"sha2::block256::Core256::update"
	add	r4, sp, #408
	mov	r0, r4
	mov	r1, r6
	bl	"sha2::Sha256Digest::finalize"
	ldr	r0, [sp, #4]
	mov	r1, r4
	movs	r2, #32
	bl	__aeabi_memcpy
	add.w	sp, sp, #684
	pop.w	{r4, r5, r6, r7, r8, r9, r10, r11, pc}
.Lfunc_enddcd8c:
	.size	"login_keys::gpsk::mac_key::hmac_tag", .Lfunc_enddcd8c-"login_keys::gpsk::mac_key::hmac_tag"
	.cantunwind
	.fnend

	.section	".text.login_keys::gpsk::cut_keys","ax",%progbits
	.p2align	2
	.type	"login_keys::gpsk::cut_keys",%function
	.code	16
	.thumb_func
"login_keys::gpsk::cut_keys":
	.fnstart
	.save	{r4, r5, r6, r7, r8, r9, r10, r11, lr}
	push.w	{r4, r5, r6, r7, r8, r9, r10, r11, lr}
	.pad	#540
	sub.w	sp, sp, #540
	mov	r4, r1
	str	r0, [sp]
	add	r0, sp, #200
	mov	r1, r2
	movs	r2, #40
	mov	r5, r3
	bl	__aeabi_memcpy
	add	r0, sp, #240
	movs	r1, #232
	bl	__aeabi_memclr8
	add	r0, sp, #72
	movs	r1, #64
	bl	__aeabi_memclr4
	add	r0, sp, #32
	movs	r1, #40
	bl	__aeabi_memclr8
	movs	r0, #0
	lsls	r1, r4, #24
	mov.w	r11, #32
	add.w	r9, sp, #472
	str	r0, [sp, #28]
	strd	r0, r0, [sp, #20]
	strd	r0, r0, [sp, #12]
	it	eq
	moveq.w	r11, #16
	subs.w	r1, r9, r5
	sbc	r2, r0, #0
	rsbs.w	r1, r1, #63
	sbcs.w	r1, r0, r2
	str	r0, [sp, #8]
	add	r0, sp, #472
	mov	r1, r5
	mov.w	r2, #64
	mov	r4, r5
	bl	__aeabi_memcpy
	mov	r2, r9
	add.w	r10, sp, #136
	ldm	r2!, {r1, r3, r5, r6, r7}
	mov	r8, r10
	stm.w	r8!, {r1, r3, r5, r6, r7}
	add.w	r1, r4, #64
	subs.w	r3, r9, r1
	mov.w	r12, #0
	str	r4, [sp, #4]
	sbc	lr, r12, #0
	rsbs.w	r3, r3, #63
	ldm	r2!, {r3, r4, r5, r6, r7}
	stm.w	r8!, {r3, r4, r5, r6, r7}
	sbcs.w	r3, r12, lr
	ldm.w	r2, {r0, r3, r4, r5, r6, r7}
	mov.w	r2, #64
	stm.w	r8, {r0, r3, r4, r5, r6, r7}
	add	r0, sp, #472
	bl	__aeabi_memcpy
	mov	r0, r9
	add.w	r8, sp, #72
	ldm	r0!, {r2, r3, r5, r6, r7}
	mov	r1, r8
	stm	r1!, {r2, r3, r5, r6, r7}
	ldm	r0!, {r2, r3, r5, r6, r7}
	stm	r1!, {r2, r3, r5, r6, r7}
	ldm.w	r0, {r2, r3, r4, r5, r6, r7}
	stm	r1!, {r2, r3, r4, r5, r6, r7}
	ldr	r0, [sp, #4]
	mov	r4, r11
	add.w	r1, r0, #128
	mov.w	r0, #0
	subs.w	r2, r9, r1
	sbc	r3, r0, #0
	subs.w	r2, r2, r11
	sbcs	r2, r3, #0
	str	r0, [sp, #500]
	strd	r0, r0, [sp, #492]
	strd	r0, r0, [sp, #484]
	strd	r0, r0, [sp, #476]
	str	r0, [sp, #472]
	add	r0, sp, #472
	mov	r2, r11
	bl	__aeabi_memcpy
	mov.w	r12, #0
	strd	r11, r12, [sp, #504]
	mov	r2, r9
	add.w	r11, sp, #32
	mov	r0, r4
	ldm	r2!, {r3, r4, r5, r6, r7}
	mov	r1, r11
	stm	r1!, {r3, r4, r5, r6, r7}
	add.w	r3, r0, #128
	ldm.w	r2, {r0, r4, r5, r6, r7}
	stm	r1!, {r0, r4, r5, r6, r7}
	ldr	r0, [sp, #4]
	strd	r12, r12, [sp, #488]
	add.w	r1, r0, r3
	ldr	r0, [sp, #576]
	strd	r12, r12, [sp, #480]
	subs	r2, r0, r3
	ldr	r0, [sp, #580]
	strd	r12, r12, [sp, #472]
	sbc	r3, r0, #0
	mov	r0, r9
	bl	"octet_lists::octets::Octets::put::<=16>"
	add.w	r12, sp, #8
	ldm.w	r9, {r2, r3, r4, r5, r6, r7}
	mov	r1, r12
	stm	r1!, {r2, r3, r4, r5, r6, r7}
	add	r0, sp, #200
	add	r1, sp, #240
	ldm	r0!, {r2, r3, r5, r6, r7}
	mov	r4, r1
	stm	r4!, {r2, r3, r5, r6, r7}
	ldm.w	r0, {r2, r3, r5, r6, r7}
	add.w	r0, r1, #40
	stm	r4!, {r2, r3, r5, r6, r7}
	ldm.w	r10!, {r2, r3, r5, r6, r7}
	stm	r0!, {r2, r3, r5, r6, r7}
	ldm.w	r10!, {r2, r3, r5, r6, r7}
	stm	r0!, {r2, r3, r5, r6, r7}
	ldm.w	r10, {r2, r3, r4, r5, r6, r7}
	stm	r0!, {r2, r3, r4, r5, r6, r7}
	ldm.w	r8!, {r2, r3, r5, r6, r7}
	add.w	r0, r1, #104
	stm	r0!, {r2, r3, r5, r6, r7}
	ldm.w	r8!, {r2, r3, r5, r6, r7}
	stm	r0!, {r2, r3, r5, r6, r7}
	ldm.w	r8, {r2, r3, r4, r5, r6, r7}
	stm	r0!, {r2, r3, r4, r5, r6, r7}
	ldm.w	r11!, {r2, r3, r5, r6, r7}
	add.w	r0, r1, #168
	stm	r0!, {r2, r3, r5, r6, r7}
	ldm.w	r11, {r2, r3, r5, r6, r7}
	stm	r0!, {r2, r3, r5, r6, r7}
	ldm.w	r12, {r2, r3, r4, r5, r6, r7}
	add.w	r0, r1, #208
	stm	r0!, {r2, r3, r4, r5, r6, r7}
	ldr	r0, [sp]
	movs	r2, #232
	bl	__aeabi_memcpy
	add.w	sp, sp, #540
	pop.w	{r4, r5, r6, r7, r8, r9, r10, r11, pc}
.Lfunc_endd2c6a:
	.size	"login_keys::gpsk::cut_keys", .Lfunc_endd2c6a-"login_keys::gpsk::cut_keys"
	.cantunwind
	.fnend

	.section	".text.gpsk_ends::peer::turns::expand::<#e0641de541981142>","ax",%progbits
	.p2align	2
	.type	"gpsk_ends::peer::turns::expand::<#e0641de541981142>",%function
	.code	16
	.thumb_func
"gpsk_ends::peer::turns::expand::<#e0641de541981142>":
	.fnstart
	.save	{r4, r5, r6, r7, r8, r9, r10, r11, lr}
	push.w	{r4, r5, r6, r7, r8, r9, r10, r11, lr}
	.pad	#708
	sub.w	sp, sp, #708
	mov	r10, r1
	ldrd	r11, r1, [sp, #744]
	add	r4, sp, #472
	mov	r9, r2
	mov	r5, r0
	mov	r0, r4
	movs	r2, #232
	mov	r8, r3
	bl	__aeabi_memcpy
	ldrd	r3, r7, [sp, #672]
	ldrb.w	r1, [r11, #64]
	add	r6, sp, #256
	add.w	r2, r4, #168
	mov	r0, r6
	strd	r3, r7, [sp]
	bl	"login_keys::gpsk::mac_key::MacKey::new"
	add	r7, sp, #24
	mov	r0, r7
	mov	r1, r4
	movs	r2, #232
	bl	__aeabi_memcpy8
	ldr	r0, [sp, #752]
	strd	r11, r7, [sp]
	str	r0, [sp, #12]
	ldr	r0, [sp, #756]
	ldr	r7, [sp, #760]
	str	r0, [sp, #16]
	addw	r0, sp, #705
	mov	r1, r10
	mov	r2, r9
	mov	r3, r8
	str	r6, [sp, #8]
	str	r7, [sp, #20]
	bl	"gpsk_ends::peer::turns::log_in::<#e0641de541981142>"
	ldrb.w	r0, [sp, #705]
	ldrh.w	r1, [sp, #706]
	strb	r0, [r5]
	strh.w	r1, [r5, #1]
	add.w	sp, sp, #708
	pop.w	{r4, r5, r6, r7, r8, r9, r10, r11, pc}
.Lfunc_end7999b:
	.size	"gpsk_ends::peer::turns::expand::<#e0641de541981142>", .Lfunc_end7999b-"gpsk_ends::peer::turns::expand::<#e0641de541981142>"
	.cantunwind
	.fnend

	.section	".text.gpsk_ends::peer::turns::log_in::<#e0641de541981142>","ax",%progbits
	.p2align	2
	.type	"gpsk_ends::peer::turns::log_in::<#e0641de541981142>",%function
	.code	16
	.thumb_func
"gpsk_ends::peer::turns::log_in::<#e0641de541981142>":
	.fnstart
	.save	{r4, r5, r6, r7, r8, r9, r10, r11, lr}
	push.w	{r4, r5, r6, r7, r8, r9, r10, r11, lr}
	.pad	#1156
	subw	sp, sp, #1156
	str	r2, [sp, #36]
	ldr.w	r2, [sp, #1196]
	strd	r3, r0, [sp, #48]
	ldr.w	r5, [sp, #1212]
	ldr.w	r10, [sp, #1192]
	ldr.w	r4, [sp, #1200]
	mov	r7, r1
	add	r0, sp, #760
	mov	r1, r2
	movs	r2, #232
	bl	__aeabi_memcpy
	ldrb	r6, [r4], #1
	add	r0, sp, #544
	mov	r1, r4
	movs	r2, #215
	bl	__aeabi_memcpy
	ldrb.w	r0, [r7, #528]
	mov.w	r8, #0
	str.w	r8, [sp, #92]
	str.w	r8, [sp, #88]
	cbnz	r0, .LBBe23de_2
	ldr.w	r1, [r10]
	ldr.w	r2, [r10, #8]
	ldr.w	r3, [r10, #12]
	add.w	r0, r7, #264
	bl	"octet_lists::octets::Octets::set::<=253>"
.LBBe23de_2:
	add	r4, sp, #56
	ldrb.w	r11, [r10, #64]
	add.w	r1, r10, #16
	mov	r0, r4
	movs	r2, #32
	bl	__aeabi_memcpy
	add.w	r0, r4, #32
	str	r0, [sp, #44]
	add.w	r0, r4, #40
	add	r1, sp, #760
	movs	r2, #232
	strb.w	r11, [sp, #88]
	bl	__aeabi_memcpy8
	addw	r0, r4, #273
	add	r1, sp, #544
	movs	r2, #215
	strb.w	r6, [sp, #328]
	bl	__aeabi_memcpy
	ldr.w	r0, [r10, #48]
	add	r6, sp, #992
	str	r0, [sp, #28]
	ldr.w	r0, [r10, #56]
	movs	r1, #128
	str	r0, [sp, #32]
	ldr.w	r0, [r10, #60]
	strd	r8, r8, [r5]
	str	r0, [sp, #24]
	add.w	r0, r5, #8
	str	r0, [sp, #40]
	mov	r0, r6
	bl	__aeabi_memclr8
	add.w	r0, r7, #264
	str	r0, [sp, #20]
	ldrd	r0, r1, [r7, #520]
	ldrd	r9, r10, [r7, #256]
	strd	r1, r0, [sp, #12]
	ldr	r1, [sp, #36]
	add.w	r0, r6, #40
	movs	r2, #32
	bl	__aeabi_memcpy
	mov	r5, r4
	add.w	r0, r6, #72
	mov	r1, r6
	ldm	r5!, {r2, r3, r4, r6}
	cmp.w	r11, #0
	stm	r0!, {r2, r3, r4, r6}
	ldm.w	r5, {r2, r3, r4, r6}
	stm	r0!, {r2, r3, r4, r6}
	movw	r0, :lower16:.Lstatic.10
	movw	r3, :lower16:.Lstatic.14
	movt	r0, :upper16:.Lstatic.10
	movt	r3, :upper16:.Lstatic.14
	mov.w	r2, #32
	itt	eq
	moveq	r2, #16
	moveq	r3, r0
	movs	r0, #1
	str	r0, [sp, #992]
	ldr	r0, [sp, #20]
	str	r7, [sp, #1000]
	str	r0, [sp, #1016]
	ldr	r0, [sp, #12]
	str.w	r3, [sp, #1136]
	str.w	r0, [sp, #1028]
	ldr	r0, [sp, #16]
	ldr.w	r3, [sp, #1204]
	str.w	r0, [sp, #1024]
	ldr	r0, [sp, #28]
	ldr.w	r7, [sp, #1208]
	str.w	r0, [sp, #1096]
	ldr	r0, [sp, #24]
	ldr	r6, [sp, #40]
	str.w	r0, [sp, #1108]
	ldr	r0, [sp, #32]
	str.w	r2, [sp, #1144]
	str.w	r0, [sp, #1104]
	movw	r0, :lower16:.Lstatic.0
	movt	r0, :upper16:.Lstatic.0
	str.w	r0, [sp, #1120]
	ldr	r0, [sp, #44]
	movs	r2, #1
	strd	r9, r10, [sp, #1008]
	strb.w	r11, [sp, #1112]
	str.w	r8, [sp, #1124]
	str.w	r8, [sp, #1132]
	str.w	r8, [sp, #1128]
	str.w	r8, [sp, #1140]
	str.w	r8, [sp, #1148]
	strd	r7, r6, [sp]
	bl	"gpsk_ends::keys::Keys::seal::<#e0641de541981142>"
	ldr	r4, [sp, #48]
	movs	r0, #2
	str	r0, [r4]
	add.w	r0, r4, #8
	add	r1, sp, #56
	mov.w	r2, #488
	str.w	r8, [r4, #4]
	bl	__aeabi_memcpy
	ldr	r1, [sp, #52]
	movw	r0, #513
	strh.w	r8, [r4, #496]
	strh	r0, [r1]
	strb.w	r8, [r1, #2]
	addw	sp, sp, #1156
	pop.w	{r4, r5, r6, r7, r8, r9, r10, r11, pc}
.Lfunc_ende23de:
	.size	"gpsk_ends::peer::turns::log_in::<#e0641de541981142>", .Lfunc_ende23de-"gpsk_ends::peer::turns::log_in::<#e0641de541981142>"
	.cantunwind
	.fnend

	.section	".text.gpsk_ends::keys::Keys::seal::<#e0641de541981142>","ax",%progbits
	.p2align	2
	.type	"gpsk_ends::keys::Keys::seal::<#e0641de541981142>",%function
	.code	16
	.thumb_func
"gpsk_ends::keys::Keys::seal::<#e0641de541981142>":
	.fnstart
	.save	{r4, r5, r6, r7, r8, r9, r10, r11, lr}
	push.w	{r4, r5, r6, r7, r8, r9, r10, r11, lr}
	.pad	#92
	sub	sp, #92
	ldrd	r11, r8, [sp, #128]
	mov	r5, r0
	ldrb	r6, [r0]
	mov	r0, r11
	bl	"gpsk_messages::writing::write_gpsk_into"
	ldr.w	r1, [r11, #1504]
	ldr.w	r0, [r11, #1508]
	mvn	r2, #31
	cmp	r6, #0
	it	eq
	addeq	r2, #16
	adds	r6, r1, r2
	sbcs	r7, r0, #0
	mov.w	r9, #0
	adc	r2, r9, #0
	cmp	r2, #1
	bne	.LBBe92e4_2
	add.w	r0, r11, r6
	subs	r1, r1, r6
	add.w	r10, r11, #1504
	bl	__aeabi_memclr
	mov	r1, r6
	mov	r0, r7
	strd	r6, r7, [r10]
.LBBe92e4_2:
	subs	r3, r1, #6
	add.w	r1, r5, #240
	add	r5, sp, #8
	add.w	r2, r11, #6
	sbc	r7, r0, #0
	mov	r0, r5
	strd	r3, r7, [sp]
	bl	"login_keys::gpsk::mac_key::MacKey::tag_whole"
	add	r1, sp, #48
	ldm	r5!, {r2, r3, r4, r6, r7}
	mov	r0, r1
	stm	r0!, {r2, r3, r4, r6, r7}
	ldm.w	r5, {r2, r3, r4, r6, r7}
	stm	r0!, {r2, r3, r4, r6, r7}
	ldrd	r2, r3, [sp, #80]
	movs	r0, #1
	strd	r0, r9, [r8]
	mov	r0, r11
	bl	"octet_lists::octets::Octets::append::<=1500>"
	add	sp, #92
	pop.w	{r4, r5, r6, r7, r8, r9, r10, r11, pc}
.Lfunc_ende92e4:
	.size	"gpsk_ends::keys::Keys::seal::<#e0641de541981142>", .Lfunc_ende92e4-"gpsk_ends::keys::Keys::seal::<#e0641de541981142>"
	.cantunwind
	.fnend

	.section	".text.gpsk_messages::writing::write_gpsk_into","ax",%progbits
	.p2align	2
	.type	"gpsk_messages::writing::write_gpsk_into",%function
	.code	16
	.thumb_func
"gpsk_messages::writing::write_gpsk_into":
	.fnstart
	.save	{r4, r5, r6, r7, r8, r9, r10, r11, lr}
	push.w	{r4, r5, r6, r7, r8, r9, r10, r11, lr}
	.pad	#36
	sub	sp, #36
	mov	r7, r0
	ldrb	r0, [r1]
	mov	r5, r1
	movs	r6, #0
	movs	r4, #5
.LCPI6b812_0:
	tbb	[pc, r0]
.LJTI6b812_0:
	.byte	(.LBB6b812_2-(.LCPI6b812_0+4))/2
	.byte	(.LBB6b812_4-(.LCPI6b812_0+4))/2
	.byte	(.LBB6b812_5-(.LCPI6b812_0+4))/2
	.byte	(.LBB6b812_3-(.LCPI6b812_0+4))/2
	.byte	(.LBB6b812_8-(.LCPI6b812_0+4))/2
	.byte	(.LBB6b812_6-(.LCPI6b812_0+4))/2
	.p2align	1
.LBB6b812_2:
	ldrd	r0, r1, [r5, #16]
	ldrd	r6, r4, [r5, #64]
	adds	r0, r0, r6
	adcs	r1, r4
	adds.w	r4, r0, #37
	b	.LBB6b812_7
.LBB6b812_3:
	ldrd	r0, r1, [r5, #16]
	ldrd	r6, r4, [r5, #32]
	adds	r0, r0, r6
	adcs	r1, r4
	adds	r4, r0, #3
	b	.LBB6b812_7
.LBB6b812_4:
	ldrd	r0, lr, [r5, #16]
	ldrd	r6, r4, [r5, #32]
	ldrd	r1, r12, [r5, #112]
	ldrd	r9, r8, [r5, #136]
	adds	r0, r0, r6
	ldrd	r11, r10, [r5, #152]
	adc.w	r6, lr, r4
	adds	r0, r0, r1
	adc.w	r1, r6, r12
	adds.w	r0, r0, r9
	adc.w	r1, r1, r8
	adds.w	r0, r0, r11
	adc.w	r1, r1, r10
	adds.w	r4, r0, #79
	b	.LBB6b812_7
.LBB6b812_5:
	ldrd	r0, r12, [r5, #80]
	ldrd	r6, r4, [r5, #104]
	adds	r0, r0, r6
	ldrd	r6, r1, [r5, #120]
	adc.w	r4, r4, r12
	adds	r0, r0, r6
	adcs	r1, r4
	adds.w	r4, r0, #75
	b	.LBB6b812_7
.LBB6b812_6:
	ldrd	r0, r1, [r5, #16]
	adds	r4, r0, #5
.LBB6b812_7:
	adc	r6, r1, #0
.LBB6b812_8:
	mov	r0, r7
	mov	r1, r2
	mov	r2, r3
	movs	r3, #51
	strd	r4, r6, [sp]
	bl	"eap_packet::packet::init_into"
	ldrb	r0, [r5]
	add.w	r1, sp, #27
	adds	r0, #1
	strb.w	r0, [sp, #27]
	mov	r0, r7
	movs	r2, #1
	movs	r3, #0
	bl	"octet_lists::octets::Octets::append::<=1500>"
	ldrb	r0, [r5]
.LCPI6b812_1:
	tbb	[pc, r0]
.LJTI6b812_1:
	.byte	(.LBB6b812_10-(.LCPI6b812_1+4))/2
	.byte	(.LBB6b812_14-(.LCPI6b812_1+4))/2
	.byte	(.LBB6b812_12-(.LCPI6b812_1+4))/2
	.byte	(.LBB6b812_13-(.LCPI6b812_1+4))/2
	.byte	(.LBB6b812_11-(.LCPI6b812_1+4))/2
	.byte	(.LBB6b812_16-(.LCPI6b812_1+4))/2
	.p2align	1
.LBB6b812_10:
	ldr	r1, [r5, #8]
	ldr	r2, [r5, #16]
	ldr	r3, [r5, #20]
	mov	r0, r7
	bl	"gpsk_messages::writing::put_sized"
	add.w	r1, r5, #24
	mov	r0, r7
	movs	r2, #32
	movs	r3, #0
	bl	"octet_lists::octets::Octets::append::<=1500>"
	ldr	r1, [r5, #56]
	ldr	r2, [r5, #64]
	ldr	r3, [r5, #68]
	mov	r0, r7
	bl	"gpsk_messages::writing::put_sized"
	add	sp, #36
	pop.w	{r4, r5, r6, r7, r8, r9, r10, r11, pc}
.LBB6b812_11:
	ldr	r0, [r5, #4]
	add	r1, sp, #28
	rev	r0, r0
	str	r0, [sp, #28]
	mov	r0, r7
	movs	r2, #4
	movs	r3, #0
	b	.LBB6b812_18
.LBB6b812_12:
	add.w	r1, r5, #8
	add.w	r2, r5, #40
	mov	r0, r7
	bl	"gpsk_messages::writing::put_rands"
	ldr	r1, [r5, #72]
	ldr	r2, [r5, #80]
	ldr	r3, [r5, #84]
	mov	r0, r7
	bl	"gpsk_messages::writing::put_sized"
	ldr	r2, [r5, #96]
	ldr	r0, [r5, #104]
	ldr	r3, [r5, #108]
	ldr.w	r12, [r5, #112]
	ldr	r4, [r5, #120]
	ldr	r6, [r5, #124]
	ldrb.w	r1, [r5, #88]
	b	.LBB6b812_15
.LBB6b812_13:
	ldr	r1, [r5, #8]
	ldr	r2, [r5, #16]
	ldr	r3, [r5, #20]
	mov	r0, r7
	bl	"gpsk_messages::writing::put_sized"
	ldr	r1, [r5, #24]
	ldr	r2, [r5, #32]
	ldr	r3, [r5, #36]
	b	.LBB6b812_17
.LBB6b812_14:
	ldr	r1, [r5, #8]
	ldr	r2, [r5, #16]
	ldr	r3, [r5, #20]
	mov	r0, r7
	bl	"gpsk_messages::writing::put_sized"
	ldr	r1, [r5, #24]
	ldr	r2, [r5, #32]
	ldr	r3, [r5, #36]
	mov	r0, r7
	bl	"gpsk_messages::writing::put_sized"
	add.w	r1, r5, #40
	add.w	r2, r5, #72
	mov	r0, r7
	bl	"gpsk_messages::writing::put_rands"
	ldr	r1, [r5, #104]
	ldr	r2, [r5, #112]
	ldr	r3, [r5, #116]
	mov	r0, r7
	bl	"gpsk_messages::writing::put_sized"
	ldr.w	r2, [r5, #128]
	ldr.w	r0, [r5, #136]
	ldr.w	r3, [r5, #140]
	ldr.w	r12, [r5, #144]
	ldr.w	r4, [r5, #152]
	ldr.w	r6, [r5, #156]
	ldrb.w	r1, [r5, #120]
.LBB6b812_15:
	strd	r0, r3, [sp]
	mov	r0, r7
	strd	r4, r6, [sp, #16]
	str.w	r12, [sp, #8]
	bl	"gpsk_messages::writing::put_sealed"
	add	sp, #36
	pop.w	{r4, r5, r6, r7, r8, r9, r10, r11, pc}
.LBB6b812_16:
	ldr	r0, [r5, #4]
	add	r1, sp, #32
	rev	r0, r0
	str	r0, [sp, #32]
	mov	r0, r7
	movs	r2, #4
	movs	r3, #0
	bl	"octet_lists::octets::Octets::append::<=1500>"
	ldr	r1, [r5, #8]
	ldrd	r2, r3, [r5, #16]
.LBB6b812_17:
	mov	r0, r7
.LBB6b812_18:
	bl	"octet_lists::octets::Octets::append::<=1500>"
	add	sp, #36
	pop.w	{r4, r5, r6, r7, r8, r9, r10, r11, pc}
.Lfunc_end6b812:
	.size	"gpsk_messages::writing::write_gpsk_into", .Lfunc_end6b812-"gpsk_messages::writing::write_gpsk_into"
	.cantunwind
	.fnend

	.section	".text.gpsk_messages::writing::put_rands","ax",%progbits
	.p2align	2
	.type	"gpsk_messages::writing::put_rands",%function
	.code	16
	.thumb_func
"gpsk_messages::writing::put_rands":
	.fnstart
	.save	{r4, r5, r7, lr}
	push	{r4, r5, r7, lr}
	mov	r4, r2
	movs	r2, #32
	movs	r3, #0
	mov	r5, r0
	bl	"octet_lists::octets::Octets::append::<=1500>"
	mov	r0, r5
	mov	r1, r4
	movs	r2, #32
	movs	r3, #0
	pop.w	{r4, r5, r7, lr}
	b	"octet_lists::octets::Octets::append::<=1500>"
.Lfunc_enda1ad0:
	.size	"gpsk_messages::writing::put_rands", .Lfunc_enda1ad0-"gpsk_messages::writing::put_rands"
	.cantunwind
	.fnend

	.section	".text.gpsk_messages::writing::put_sealed","ax",%progbits
	.p2align	2
	.type	"gpsk_messages::writing::put_sealed",%function
	.code	16
	.thumb_func
"gpsk_messages::writing::put_sealed":
	.fnstart
	.save	{r4, r5, r6, r7, r8, r9, r10, lr}
	push.w	{r4, r5, r6, r7, r8, r9, r10, lr}
	.pad	#8
	sub	sp, #8
	mov	r4, r0
	lsls	r0, r1, #24
	mov.w	r0, #2
	add.w	r8, sp, #40
	it	eq
	moveq	r0, #1
	movs	r1, #0
	mov	r5, r2
	ldrd	r9, r10, [sp, #56]
	ldm.w	r8, {r6, r7, r8}
	strb.w	r1, [sp, #4]
	str	r1, [sp]
	strb.w	r0, [sp, #5]
	mov	r1, sp
	mov	r0, r4
	movs	r2, #6
	movs	r3, #0
	bl	"octet_lists::octets::Octets::append::<=1500>"
	mov	r0, r4
	mov	r1, r5
	mov	r2, r6
	mov	r3, r7
	bl	"gpsk_messages::writing::put_sized"
	mov	r0, r4
	mov	r1, r8
	mov	r2, r9
	mov	r3, r10
	bl	"octet_lists::octets::Octets::append::<=1500>"
	add	sp, #8
	pop.w	{r4, r5, r6, r7, r8, r9, r10, pc}
.Lfunc_endb87ee:
	.size	"gpsk_messages::writing::put_sealed", .Lfunc_endb87ee-"gpsk_messages::writing::put_sealed"
	.cantunwind
	.fnend

	.section	".text.gpsk_messages::writing::put_sized","ax",%progbits
	.p2align	2
	.type	"gpsk_messages::writing::put_sized",%function
	.code	16
	.thumb_func
"gpsk_messages::writing::put_sized":
	.fnstart
	.save	{r4, r5, r6, r7, lr}
	push	{r4, r5, r6, r7, lr}
	.pad	#4
	sub	sp, #4
	mov	r4, r3
	mov	r5, r2
	mov	r6, r1
	rev	r1, r2
	add.w	r2, sp, #2
	mov	r3, sp
	subs	r2, r3, r2
	mov.w	r3, #0
	sbc	r7, r3, #0
	rsbs.w	r2, r2, #1
	sbcs.w	r2, r3, r7
	lsr.w	r1, r1, #16
	strh.w	r1, [sp]
	mov	r1, sp
	mov.w	r2, #2
	mov	r7, r0
	bl	"octet_lists::octets::Octets::append::<=1500>"
	mov	r0, r7
	mov	r1, r6
	mov	r2, r5
	mov	r3, r4
	bl	"octet_lists::octets::Octets::append::<=1500>"
	add	sp, #4
	pop	{r4, r5, r6, r7, pc}
.Lfunc_end7495d:
	.size	"gpsk_messages::writing::put_sized", .Lfunc_end7495d-"gpsk_messages::writing::put_sized"
	.cantunwind
	.fnend

	.section	".text.gpsk_ends::peer::turns::known_reads::<#e0641de541981142>","ax",%progbits
	.p2align	2
	.type	"gpsk_ends::peer::turns::known_reads::<#e0641de541981142>",%function
	.code	16
	.thumb_func
"gpsk_ends::peer::turns::known_reads::<#e0641de541981142>":
	.fnstart
	.save	{r4, r5, r6, r7, r8, r9, r10, r11, lr}
	push.w	{r4, r5, r6, r7, r8, r9, r10, r11, lr}
	.pad	#572
	sub.w	sp, sp, #572
	mov	r4, r0
	ldrd	r7, r0, [sp, #616]
	mov	r10, r2
	ldrd	r12, r2, [sp, #608]
	subs	r5, r7, #5
	sbc	r6, r0, #0
	ldrb.w	r0, [r12]
	ldrb.w	r8, [r2, #1]
	mov	r9, r3
	movs	r3, #0
	add.w	r11, r2, #5
	str	r3, [sp, #76]
	str	r3, [sp, #68]
	str	r3, [sp, #60]
	str	r1, [sp, #56]
	str.w	r10, [sp, #64]
	str.w	r9, [sp, #72]
	cbz	r0, .LBBfa406_2
	add.w	r8, sp, #400
	mov	r0, r8
	movs	r1, #168
	bl	__aeabi_memclr8
	ldrb.w	r7, [r9, #32]
	mov.w	r12, #1
	mov	r0, r8
	mov	r1, r11
	mov	r2, r5
	mov	r3, r6
	strd	r12, r7, [sp]
	bl	"gpsk_ends::receiving::receive"
	ldrb.w	r0, [sp, #400]
	ldrb.w	r1, [sp, #401]
	movs	r6, #0
	movs	r5, #0
	cmp	r0, #1
	it	ne
	movne	r1, #22
	b	.LBBfa406_27
.LBBfa406_2:
	add	r7, sp, #400
	str	r1, [sp, #44]
	mov	r0, r7
	movs	r1, #168
	str	r4, [sp, #52]
	bl	__aeabi_memclr8
	str.w	r9, [sp, #48]
	ldrb	r4, [r9, #32]!
	mov.w	r12, #1
	mov	r0, r7
	mov	r1, r11
	mov	r2, r5
	mov	r3, r6
	strd	r12, r4, [sp]
	bl	"gpsk_ends::receiving::receive"
	ldrb.w	r0, [sp, #400]
	cmp	r0, #1
	bne	.LBBfa406_6
	ldrb.w	r1, [sp, #401]
.LBBfa406_4:
	movs	r5, #0
.LBBfa406_5:
	ldr	r4, [sp, #52]
	movs	r6, #0
	b	.LBBfa406_27
.LBBfa406_6:
	ldr	r0, [sp, #412]
	add	r4, sp, #80
	strd	r6, r11, [sp, #28]
	strd	r5, r8, [sp, #36]
	ldrb.w	r11, [sp, #408]
	mov	r8, r0
	str	r0, [sp, #84]
	add.w	r7, r4, #8
	add	r0, sp, #400
	add.w	r1, r0, #16
	mov	r0, r7
	movs	r2, #152
	str.w	r11, [sp, #80]
	bl	__aeabi_memcpy8
	movs	r1, #22
	movs	r5, #0
	movs	r6, #0
.LCPIfa406_0:
	tbb	[pc, r11]
.LJTIfa406_0:
	.byte	(.LBBfa406_26-(.LCPIfa406_0+4))/2
	.byte	(.LBBfa406_26-(.LCPIfa406_0+4))/2
	.byte	(.LBBfa406_8-(.LCPIfa406_0+4))/2
	.byte	(.LBBfa406_26-(.LCPIfa406_0+4))/2
	.byte	(.LBBfa406_24-(.LCPIfa406_0+4))/2
	.byte	(.LBBfa406_22-(.LCPIfa406_0+4))/2
	.p2align	1
.LBBfa406_8:
	mov	r0, r7
	mov	r1, r10
	bl	"core::cmp::arrays::ArrayPartialEq::eq::<i8,=32,31'core::cmp::numbers::U8PartialEq{}>"
	cmp	r0, #0
	beq.w	.LBBfa406_39
	ldr.w	r11, [sp, #48]
	add.w	r0, r4, #40
	mov	r1, r11
	bl	"core::cmp::arrays::ArrayPartialEq::eq::<i8,=32,31'core::cmp::numbers::U8PartialEq{}>"
	cmp	r0, #0
	beq.w	.LBBfa406_39
	ldr	r7, [sp, #44]
	ldrd	r1, r0, [sp, #160]
	ldrd	r2, r3, [r7, #520]
	eors	r0, r3
	eors	r1, r2
	orrs	r0, r1
	bne.w	.LBBfa406_39
	ldr	r0, [sp, #152]
	subs	r1, r2, #4
	sbcs	r1, r3, #0
	add.w	r12, r7, #264
	bhs.w	.LBBfa406_29
	ldrd	r10, r4, [sp, #32]
	orrs.w	r1, r2, r3
	beq.w	.LBBfa406_36
	movs	r5, #0
	mov.w	r8, #0
.LBBfa406_14:
	ldrb.w	lr, [r0, r5]
	ldrb.w	r6, [r12, r5]
	cmp	lr, r6
	bne.w	.LBBfa406_34
	orr	r6, r5, #1
	subs	r1, r6, r2
	sbcs.w	r1, r8, r3
	bhs.w	.LBBfa406_36
	ldrb.w	lr, [r0, r6]
	ldrb.w	r1, [r12, r6]
	cmp	lr, r1
	bne.w	.LBBfa406_35
	orr	r6, r5, #2
	subs	r1, r6, r2
	sbcs.w	r1, r8, r3
	bhs.w	.LBBfa406_36
	ldrb.w	lr, [r0, r6]
	ldrb.w	r1, [r12, r6]
	cmp	lr, r1
	bne.w	.LBBfa406_35
	orr	r6, r5, #3
	subs	r1, r6, r2
	sbcs.w	r1, r8, r3
	bhs.w	.LBBfa406_36
	ldrb.w	lr, [r0, r6]
	ldrb.w	r1, [r12, r6]
	cmp	lr, r1
	bne.w	.LBBfa406_35
	adds	r5, #4
	adc	r8, r8, #0
	subs	r1, r5, r2
	sbcs.w	r1, r8, r3
	blo	.LBBfa406_14
	b	.LBBfa406_36
.LBBfa406_22:
	ldr	r0, [sp, #48]
	ldr	r3, [sp, #36]
	ldrd	r6, r2, [sp, #28]
	add.w	r0, r0, #272
	add	r1, sp, #80
	strd	r3, r6, [sp]
	bl	"gpsk_ends::keys::is_tagged"
	cmp	r0, #0
	mov.w	r5, #0
	beq	.LBBfa406_28
	ldr	r0, [sp, #628]
	movs	r6, #1
	add	r7, sp, #240
	strd	r6, r5, [r0]
	add.w	r10, r0, #8
	add.w	r0, r7, #24
	movs	r1, #136
	bl	__aeabi_memclr8
	ldrb.w	r0, [r9]
	movw	r1, :lower16:.Lstatic.10
	movw	r2, :lower16:.Lstatic.14
	movt	r1, :upper16:.Lstatic.10
	movt	r2, :upper16:.Lstatic.14
	cmp	r0, #0
	it	eq
	moveq	r2, r1
	mov.w	r0, #32
	mov.w	r1, #5
	it	eq
	moveq	r0, #16
	strd	r1, r8, [sp, #240]
	mov	r1, r7
	ldr	r3, [sp, #40]
	ldr	r7, [sp, #624]
	strd	r2, r5, [sp, #248]
	strd	r0, r5, [sp, #256]
	mov	r0, r9
	movs	r2, #1
	strd	r7, r10, [sp]
	bl	"gpsk_ends::keys::Keys::seal::<#e0641de541981142>"
	b	.LBBfa406_25
.LBBfa406_24:
	movs	r0, #4
	add	r5, sp, #240
	strd	r0, r8, [sp, #240]
	add.w	r0, r5, #8
	movs	r1, #152
	bl	__aeabi_memclr8
	ldr	r0, [sp, #624]
	ldr	r3, [sp, #40]
	mov	r1, r5
	movs	r2, #1
	movs	r6, #1
	bl	"gpsk_messages::writing::write_gpsk_into"
	ldr	r0, [sp, #628]
	movs	r5, #0
	strd	r5, r5, [r0]
	strd	r5, r5, [r0, #8]
.LBBfa406_25:
	ldr	r0, [sp, #608]
	movs	r1, #3
	strh	r6, [r0]
.LBBfa406_26:
	ldr	r4, [sp, #52]
.LBBfa406_27:
	strb	r6, [r4]
	strb	r1, [r4, #1]
	strb	r5, [r4, #2]
	add.w	sp, sp, #572
	pop.w	{r4, r5, r6, r7, r8, r9, r10, r11, pc}
.LBBfa406_28:
	movs	r1, #28
	b	.LBBfa406_5
.LBBfa406_29:
	ldrb	r6, [r0]
	ldrb.w	r5, [r7, #264]
	movs	r1, #25
	cmp	r6, r5
	mov.w	r5, #0
	bne.w	.LBBfa406_5
	ldrb.w	lr, [r0, #1]
	ldrb.w	r6, [r7, #265]
	cmp	lr, r6
	bne.w	.LBBfa406_5
	ldrb.w	lr, [r0, #2]
	ldrb.w	r6, [r7, #266]
	cmp	lr, r6
	bne.w	.LBBfa406_5
	ldrb.w	lr, [r0, #3]
	ldrb.w	r6, [r7, #267]
	cmp	lr, r6
	mov.w	r6, #0
	bne	.LBBfa406_26
	strd	r2, r3, [sp, #8]
	str.w	r12, [sp]
	bl	"core::cmp::slices::groups_equal::<i8,31'core::cmp::numbers::U8PartialEq{}>"
	ldrd	r10, r4, [sp, #32]
	ldr.w	r11, [sp, #48]
	cbnz	r0, .LBBfa406_36
	b	.LBBfa406_39
.LBBfa406_34:
	mov	r6, r5
.LBBfa406_35:
	subs	r0, r6, r2
	sbcs.w	r0, r8, r3
	blo	.LBBfa406_39
.LBBfa406_36:
	ldrb.w	r1, [r9]
	ldrb.w	r0, [sp, #168]
	clz	r1, r1
	cmp	r0, #0
	lsr.w	r1, r1, #5
	it	ne
	movne	r0, #1
	cmp	r0, r1
	beq	.LBBfa406_39
	add	r7, sp, #80
	ldr	r6, [sp, #28]
	ldr	r5, [sp, #624]
	add.w	r0, r11, #272
	mov	r1, r7
	mov	r2, r10
	strd	r4, r6, [sp]
	bl	"gpsk_ends::keys::is_tagged"
	cbz	r0, .LBBfa406_40
	strd	r7, r10, [sp]
	ldr	r2, [sp, #608]
	ldr	r3, [sp, #40]
	ldr	r7, [sp, #628]
	add	r0, sp, #240
	add	r1, sp, #56
	strd	r4, r6, [sp, #8]
	str	r5, [sp, #16]
	str	r7, [sp, #20]
	bl	"gpsk_ends::peer::turns::confirm_again::<#e0641de541981142>"
	ldrb.w	r6, [sp, #240]
	ldrb.w	r1, [sp, #241]
	ldrb.w	r5, [sp, #242]
	b	.LBBfa406_26
.LBBfa406_39:
	movs	r1, #25
	b	.LBBfa406_4
.LBBfa406_40:
	ldr	r4, [sp, #52]
	movs	r1, #28
	movs	r6, #0
	movs	r5, #0
	b	.LBBfa406_27
.Lfunc_endfa406:
	.size	"gpsk_ends::peer::turns::known_reads::<#e0641de541981142>", .Lfunc_endfa406-"gpsk_ends::peer::turns::known_reads::<#e0641de541981142>"
	.cantunwind
	.fnend

	.section	".text.core::cmp::arrays::ArrayPartialEq::eq::<i8,=32,31'core::cmp::numbers::U8PartialEq{}>","ax",%progbits
	.p2align	2
	.type	"core::cmp::arrays::ArrayPartialEq::eq::<i8,=32,31'core::cmp::numbers::U8PartialEq{}>",%function
	.code	16
	.thumb_func
"core::cmp::arrays::ArrayPartialEq::eq::<i8,=32,31'core::cmp::numbers::U8PartialEq{}>":
	.fnstart
	.save	{r7, lr}
	push	{r7, lr}
	.pad	#40
	sub	sp, #40
	str	r0, [sp, #8]
	mov.w	r12, #0
	movs	r0, #32
	str	r0, [sp, #16]
	strd	r1, r12, [sp, #24]
	strd	r0, r12, [sp, #32]
	movs	r1, #8
	add	r0, sp, #8
	movs	r2, #32
	movs	r3, #0
	str.w	r12, [sp, #12]
	str.w	r12, [sp, #20]
	strd	r1, r12, [sp]
	bl	"core::slice::scan::any_in_quarters::<#953750c03e87c3e2>"
	eor	r0, r0, #1
	add	sp, #40
	pop	{r7, pc}
.Lfunc_endeca2a:
	.size	"core::cmp::arrays::ArrayPartialEq::eq::<i8,=32,31'core::cmp::numbers::U8PartialEq{}>", .Lfunc_endeca2a-"core::cmp::arrays::ArrayPartialEq::eq::<i8,=32,31'core::cmp::numbers::U8PartialEq{}>"
	.cantunwind
	.fnend

	.section	".text.gpsk_ends::keys::is_tagged","ax",%progbits
	.p2align	2
	.type	"gpsk_ends::keys::is_tagged",%function
	.code	16
	.thumb_func
"gpsk_ends::keys::is_tagged":
	.fnstart
	.save	{r4, r5, r6, r7, r8, lr}
	push.w	{r4, r5, r6, r7, r8, lr}
	.pad	#56
	sub	sp, #56
	ldrd	r7, r8, [sp, #80]
	mov	r6, r0
	mov	r0, r1
	mov	r5, r2
	mov	r4, r1
	bl	"gpsk_messages::parts::mac_part"
	mvns	r1, r1
	mvns	r0, r2
	adds	r7, r7, r1
	add.w	r3, r5, #1
	adc.w	r5, r8, r0
	add.w	r8, sp, #16
	mov	r0, r8
	mov	r1, r6
	mov	r2, r3
	strd	r7, r5, [sp]
	bl	"login_keys::gpsk::mac_key::MacKey::tag_whole"
	ldrd	r6, r7, [sp, #48]
	mov	r0, r4
	bl	"gpsk_messages::parts::mac_part"
	mov	r4, r0
	strd	r1, r2, [sp, #8]
	mov	r0, r8
	mov	r2, r6
	mov	r3, r7
	str	r4, [sp]
	bl	"octet_lists::comparison::equal_in_full"
	add	sp, #56
	pop.w	{r4, r5, r6, r7, r8, pc}
.Lfunc_endab795:
	.size	"gpsk_ends::keys::is_tagged", .Lfunc_endab795-"gpsk_ends::keys::is_tagged"
	.cantunwind
	.fnend

	.section	".text.gpsk_messages::parts::mac_part","ax",%progbits
	.p2align	2
	.type	"gpsk_messages::parts::mac_part",%function
	.code	16
	.thumb_func
"gpsk_messages::parts::mac_part":
	.fnstart
	mov	r12, r0
	ldrb	r3, [r0]
	movw	r0, :lower16:.Lstatic.0
	movs	r1, #0
	movt	r0, :upper16:.Lstatic.0
	.save	{r7, lr}
	push	{r7, lr}
	movs	r2, #0
.LCPIe9c4d_0:
	tbb	[pc, r3]
.LJTIe9c4d_0:
	.byte	(.LBBe9c4d_2-(.LCPIe9c4d_0+4))/2
	.byte	(.LBBe9c4d_4-(.LCPIe9c4d_0+4))/2
	.byte	(.LBBe9c4d_3-(.LCPIe9c4d_0+4))/2
	.byte	(.LBBe9c4d_6-(.LCPIe9c4d_0+4))/2
	.byte	(.LBBe9c4d_2-(.LCPIe9c4d_0+4))/2
	.byte	(.LBBe9c4d_5-(.LCPIe9c4d_0+4))/2
	.p2align	1
.LBBe9c4d_2:
	pop	{r7, pc}
.LBBe9c4d_3:
	ldr.w	r0, [r12, #112]
	ldr.w	r1, [r12, #120]
	ldr.w	r2, [r12, #124]
	pop	{r7, pc}
.LBBe9c4d_4:
	ldr.w	r0, [r12, #144]
	ldr.w	r1, [r12, #152]
	ldr.w	r2, [r12, #156]
	pop	{r7, pc}
.LBBe9c4d_5:
	ldr.w	r0, [r12, #8]
	ldrd	r1, r2, [r12, #16]
	pop	{r7, pc}
.LBBe9c4d_6:
	ldr.w	r0, [r12, #24]
	ldr.w	r1, [r12, #32]
	ldr.w	r2, [r12, #36]
	pop	{r7, pc}
.Lfunc_ende9c4d:
	.size	"gpsk_messages::parts::mac_part", .Lfunc_ende9c4d-"gpsk_messages::parts::mac_part"
	.cantunwind
	.fnend

	.section	".text.gpsk_ends::peer::turns::confirm_again::<#e0641de541981142>","ax",%progbits
	.p2align	2
	.type	"gpsk_ends::peer::turns::confirm_again::<#e0641de541981142>",%function
	.code	16
	.thumb_func
"gpsk_ends::peer::turns::confirm_again::<#e0641de541981142>":
	.fnstart
	.save	{r4, r5, r6, r7, r8, r9, r10, r11, lr}
	push.w	{r4, r5, r6, r7, r8, r9, r10, r11, lr}
	.pad	#172
	sub	sp, #172
	mov	r7, r1
	mov	r11, r3
	mov	r4, r0
	add	r3, sp, #208
	ldr	r0, [r7, #16]
	mov	r9, r2
	ldm	r3, {r1, r2, r3}
	ldr	r6, [sp, #220]
	add.w	r0, r0, #272
	strd	r3, r6, [sp]
	bl	"gpsk_ends::keys::is_tagged"
	mov.w	r5, #0
	cbz	r0, .LBB22a18_2
	ldrd	r10, r0, [sp, #224]
	movs	r1, #1
	add.w	r8, sp, #8
	strd	r1, r5, [r0]
	add.w	r6, r0, #8
	mov	r0, r8
	movs	r1, #160
	bl	__aeabi_memclr8
	ldr	r0, [r7, #16]
	movw	r2, :lower16:.Lstatic.10
	ldrb	r1, [r0, #32]!
	movw	r3, :lower16:.Lstatic.14
	movt	r2, :upper16:.Lstatic.10
	movt	r3, :upper16:.Lstatic.14
	cmp	r1, #0
	it	eq
	moveq	r3, r2
	mov.w	r1, #32
	mov.w	r2, #3
	it	eq
	moveq	r1, #16
	str	r2, [sp, #8]
	movw	r2, :lower16:.Lstatic.0
	movt	r2, :upper16:.Lstatic.0
	str	r2, [sp, #16]
	str	r3, [sp, #32]
	strd	r1, r5, [sp, #40]
	mov	r1, r8
	movs	r2, #1
	mov	r3, r11
	strd	r10, r6, [sp]
	bl	"gpsk_ends::keys::Keys::seal::<#e0641de541981142>"
	movw	r0, #257
	strh.w	r0, [r9]
	movs	r0, #4
	movs	r5, #1
	b	.LBB22a18_3
.LBB22a18_2:
	movs	r0, #28
.LBB22a18_3:
	strb	r5, [r4]
	strb	r0, [r4, #1]
	strb	r5, [r4, #2]
	add	sp, #172
	pop.w	{r4, r5, r6, r7, r8, r9, r10, r11, pc}
.Lfunc_end22a18:
	.size	"gpsk_ends::peer::turns::confirm_again::<#e0641de541981142>", .Lfunc_end22a18-"gpsk_ends::peer::turns::confirm_again::<#e0641de541981142>"
	.cantunwind
	.fnend

	.section	".text.peer_machine::machine::settle","ax",%progbits
	.p2align	2
	.type	"peer_machine::machine::settle",%function
	.code	16
	.thumb_func
"peer_machine::machine::settle":
	.fnstart
	.save	{r4, r5, r6, r7, r8, lr}
	push.w	{r4, r5, r6, r7, r8, lr}
	.pad	#88
	sub	sp, #88
	ldr	r7, [sp, #116]
	mov	r5, r2
	ldrb	r2, [r7]
	mov	r4, r0
	cmp	r2, #0
	ldrb	r2, [r7, #1]
	beq	.LBB13c23_3
	ldrb	r0, [r7, #2]
	movs	r7, #1
	cmp	r2, #4
	strb.w	r7, [r1, #769]
	strb.w	r3, [r1, #770]
	strb.w	r2, [r1, #771]
	strb.w	r0, [r1, #772]
	it	eq
	cmpeq	r0, #0
	beq	.LBB13c23_4
	ldr	r0, [sp, #112]
	ldr	r6, [sp, #120]
	strb.w	r7, [r1, #773]
	strb.w	r0, [r1, #774]
	ldr.w	r2, [r6, #1504]
	ldr.w	r3, [r6, #1508]
	add.w	r0, r1, #776
	mov	r1, r6
	bl	"octet_lists::octets::Octets::set::<=1500>"
	movw	r1, :lower16:.Lstatic.19
	add.w	r8, sp, #40
	movs	r6, #0
	movt	r1, :upper16:.Lstatic.19
	mov	r0, r8
	movs	r2, #3
	movs	r3, #0
	strd	r6, r6, [sp, #64]
	strd	r6, r6, [sp, #72]
	strd	r6, r6, [sp, #80]
	strd	r6, r6, [sp, #40]
	strd	r6, r6, [sp, #48]
	strd	r6, r6, [sp, #56]
	bl	"eap_method::step::Step::sending"
	movw	r0, :lower16:.Lstatic.16
	movw	r2, :lower16:.Lstatic.17
	movt	r0, :upper16:.Lstatic.16
	movt	r2, :upper16:.Lstatic.17
	cmp	r5, #0
	it	ne
	movne	r7, #2
	it	ne
	movne	r2, r0
	add	r0, sp, #64
	mov	r1, r8
	strd	r7, r6, [sp]
	b	.LBB13c23_5
.LBB13c23_3:
	movw	r0, #2308
	movt	r0, #1
	movs	r3, #0
	movs	r7, #1
	str	r0, [sp, #40]
	movs	r0, #3
	strd	r7, r3, [sp, #56]
	str	r0, [sp, #48]
	strb.w	r2, [sp, #57]
	movw	r0, :lower16:.Lstatic.16
	movw	r2, :lower16:.Lstatic.17
	movt	r0, :upper16:.Lstatic.16
	movt	r2, :upper16:.Lstatic.17
	strd	r3, r3, [sp, #64]
	strd	r3, r3, [sp, #72]
	strd	r3, r3, [sp, #80]
	str	r3, [sp, #44]
	str	r3, [sp, #52]
	cmp	r5, #0
	it	ne
	movne	r7, #2
	it	ne
	movne	r2, r0
	add	r0, sp, #64
	add	r1, sp, #40
	strd	r7, r3, [sp]
	bl	"eap_method::step::Step::after"
	ldrd	r3, r0, [sp, #64]
	ldrd	r2, r1, [sp, #72]
	str	r1, [sp, #36]
	strd	r0, r2, [sp, #28]
	ldrb.w	r0, [sp, #80]
	ldrb.w	r1, [sp, #81]
	ldrb.w	r2, [sp, #82]
	b	.LBB13c23_6
.LBB13c23_4:
	movs	r0, #11
	strb.w	r0, [r1, #768]
	movw	r1, :lower16:.Lstatic.18
	add	r6, sp, #40
	movs	r7, #0
	movt	r1, :upper16:.Lstatic.18
	mov	r0, r6
	movs	r2, #2
	movs	r3, #0
	strd	r7, r7, [sp, #64]
	strd	r7, r7, [sp, #72]
	strd	r7, r7, [sp, #80]
	strd	r7, r7, [sp, #40]
	strd	r7, r7, [sp, #48]
	strd	r7, r7, [sp, #56]
	bl	"eap_method::step::Step::entering"
	movw	r0, :lower16:.Lstatic.16
	movw	r2, :lower16:.Lstatic.17
	movs	r3, #1
	movt	r0, :upper16:.Lstatic.16
	movt	r2, :upper16:.Lstatic.17
	cmp	r5, #0
	it	ne
	movne	r3, #2
	it	ne
	movne	r2, r0
	add	r0, sp, #64
	mov	r1, r6
	strd	r3, r7, [sp]
.LBB13c23_5:
	bl	"eap_method::step::Step::after"
	ldrd	r3, r0, [sp, #64]
	ldrd	r2, r1, [sp, #72]
	str	r3, [sp, #8]
	str	r1, [sp, #20]
	strd	r0, r2, [sp, #12]
	ldrb.w	r0, [sp, #80]
	ldrb.w	r1, [sp, #81]
	ldrb.w	r2, [sp, #82]
	ldrd	r3, r7, [sp, #8]
	ldrd	r5, r6, [sp, #16]
	str	r6, [sp, #36]
	strd	r7, r5, [sp, #28]
.LBB13c23_6:
	str	r3, [sp, #24]
	ldrd	r3, r7, [sp, #24]
	ldrd	r5, r6, [sp, #32]
	str	r7, [r4, #4]
	str	r6, [r4, #12]
	str	r5, [r4, #8]
	str	r3, [r4]
	strb	r0, [r4, #16]
	strb	r1, [r4, #17]
	strb	r2, [r4, #18]
	add	sp, #88
	pop.w	{r4, r5, r6, r7, r8, pc}
.Lfunc_end13c23:
	.size	"peer_machine::machine::settle", .Lfunc_end13c23-"peer_machine::machine::settle"
	.cantunwind
	.fnend

	.section	".text.eap_method::step::Step::after","ax",%progbits
	.p2align	2
	.type	"eap_method::step::Step::after",%function
	.code	16
	.thumb_func
"eap_method::step::Step::after":
	.fnstart
	.save	{r4, r5, r6, r7, r8, r9, lr}
	push.w	{r4, r5, r6, r7, r8, r9, lr}
	.pad	#84
	sub	sp, #84
	ldrb.w	r12, [r1, #16]
	ldrb.w	lr, [r1, #17]
	ldrb	r3, [r1, #18]
	ldr	r7, [r1]
	ldr	r4, [r1, #4]
	ldr	r5, [r1, #8]
	ldr	r1, [r1, #12]
	ldrd	r9, r8, [sp, #112]
	strd	r5, r1, [sp, #48]
	ldrb	r1, [r2]
	movs	r6, #0
	strd	r7, r4, [sp, #40]
	subs.w	r4, r9, #2
	str	r6, [sp, #64]
	strb.w	r1, [sp, #64]
	mov.w	r1, #1
	sbcs	r4, r8, #0
	strd	r6, r6, [sp, #32]
	strd	r6, r6, [sp, #56]
	strb.w	r12, [sp, #56]
	strb.w	lr, [sp, #57]
	strb.w	r3, [sp, #58]
	str	r6, [sp, #76]
	str	r6, [sp, #68]
	str	r1, [sp, #72]
	blo	.LBBc3bcb_4
	ldrb	r1, [r2, #1]
	eor	r4, r9, #2
	strb.w	r1, [sp, #65]
	movs	r1, #2
	orrs.w	r4, r4, r8
	str	r6, [sp, #76]
	str	r1, [sp, #72]
	beq	.LBBc3bcb_4
	ldrb	r1, [r2, #2]
	subs.w	r5, r9, #4
	strb.w	r1, [sp, #66]
	mov.w	r1, #0
	mov.w	r4, #3
	sbcs	r5, r8, #0
	str	r1, [sp, #76]
	str	r4, [sp, #72]
	blo	.LBBc3bcb_4
	ldrb	r2, [r2, #3]
	str	r1, [sp, #76]
	movs	r1, #4
	strb.w	r2, [sp, #67]
	str	r1, [sp, #72]
.LBBc3bcb_4:
	add	r5, sp, #64
	and	r1, r3, #1
	ldr	r4, [sp, #76]
	ldm	r5, {r2, r3, r5}
	strd	r3, r5, [sp, #20]
	stm.w	sp, {r2, r3, r5}
	strd	r4, r2, [sp, #12]
	ldrd	r2, r3, [sp, #48]
	str	r4, [sp, #28]
	orrs.w	r4, r2, r3
	strb.w	r12, [sp, #32]
	strb.w	lr, [sp, #33]
	strb.w	r1, [sp, #34]
	beq.w	.LBBc3bcb_31
	ldrd	r5, r4, [sp, #24]
	subs	r1, r2, #4
	sbcs	r1, r3, #0
	and	r12, r2, #3
	bhs	.LBBc3bcb_7
	movs	r1, #0
	b	.LBBc3bcb_22
.LBBc3bcb_7:
	bic	lr, r2, #3
	movs	r1, #0
	movs	r2, #0
	b	.LBBc3bcb_10
	.p2align	2
.LBBc3bcb_8:
	movs	r4, #0
	movs	r5, #8
.LBBc3bcb_9:
	adds	r1, #4
	adc	r2, r2, #0
	eor.w	r6, r1, lr
	eor.w	r7, r2, r3
	orrs	r6, r7
	beq	.LBBc3bcb_21
.LBBc3bcb_10:
	eor	r6, r5, #8
	orrs	r6, r4
	bne	.LBBc3bcb_12
	movs	r4, #0
	movs	r5, #8
	b	.LBBc3bcb_13
	.p2align	2
.LBBc3bcb_12:
	add	r6, sp, #40
	ldrb	r6, [r6, r1]
	add	r7, sp, #16
	strb	r6, [r7, r5]
	adds	r5, #1
	adc	r4, r4, #0
	strd	r5, r4, [sp, #24]
.LBBc3bcb_13:
	eor	r6, r5, #8
	orrs	r6, r4
	bne	.LBBc3bcb_15
	movs	r4, #0
	movs	r5, #8
	b	.LBBc3bcb_16
	.p2align	2
.LBBc3bcb_15:
	add	r6, sp, #40
	add	r6, r1
	ldrb	r6, [r6, #1]
	add	r7, sp, #16
	strb	r6, [r7, r5]
	adds	r5, #1
	adc	r4, r4, #0
	strd	r5, r4, [sp, #24]
.LBBc3bcb_16:
	eor	r6, r5, #8
	orrs	r6, r4
	bne	.LBBc3bcb_18
	movs	r4, #0
	movs	r5, #8
	b	.LBBc3bcb_19
	.p2align	2
.LBBc3bcb_18:
	add	r6, sp, #40
	add	r6, r1
	ldrb	r6, [r6, #2]
	add	r7, sp, #16
	strb	r6, [r7, r5]
	adds	r5, #1
	adc	r4, r4, #0
	strd	r5, r4, [sp, #24]
.LBBc3bcb_19:
	eor	r6, r5, #8
	orrs	r6, r4
	beq	.LBBc3bcb_8
	add	r6, sp, #40
	add	r6, r1
	ldrb	r6, [r6, #3]
	add	r7, sp, #16
	strb	r6, [r7, r5]
	adds	r5, #1
	adc	r4, r4, #0
	strd	r5, r4, [sp, #24]
	b	.LBBc3bcb_9
.LBBc3bcb_21:
	cmp.w	r12, #0
	beq	.LBBc3bcb_30
.LBBc3bcb_22:
	eor	r2, r5, #8
	orrs	r2, r4
	bne	.LBBc3bcb_24
	movs	r2, #0
	movs	r3, #8
	cmp.w	r12, #1
	bne	.LBBc3bcb_25
	b	.LBBc3bcb_30
.LBBc3bcb_24:
	add	r2, sp, #40
	ldrb	r2, [r2, r1]
	add	r3, sp, #16
	strb	r2, [r3, r5]
	adds	r3, r5, #1
	adc	r2, r4, #0
	strd	r3, r2, [sp, #24]
	cmp.w	r12, #1
	beq	.LBBc3bcb_30
.LBBc3bcb_25:
	eor	r7, r3, #8
	orrs	r7, r2
	bne	.LBBc3bcb_27
	movs	r2, #0
	movs	r3, #8
	b	.LBBc3bcb_28
.LBBc3bcb_27:
	add	r7, sp, #40
	add	r7, r1
	ldrb	r7, [r7, #1]
	add	r6, sp, #16
	strb	r7, [r6, r3]
	adds	r3, #1
	adc	r2, r2, #0
	strd	r3, r2, [sp, #24]
.LBBc3bcb_28:
	cmp.w	r12, #2
	itt	ne
	eorne	r7, r3, #8
	orrsne.w	r7, r7, r2
	beq	.LBBc3bcb_30
	add	r7, sp, #40
	add	r1, r7
	ldrb	r1, [r1, #2]
	add	r7, sp, #16
	strb	r1, [r7, r3]
	adds	r1, r3, #1
	adc	r2, r2, #0
	strd	r1, r2, [sp, #24]
.LBBc3bcb_30:
	ldrb.w	r12, [sp, #32]
	ldrb.w	lr, [sp, #33]
	ldrb.w	r1, [sp, #34]
.LBBc3bcb_31:
	add	r5, sp, #16
	ldr	r4, [sp, #28]
	ldm	r5, {r2, r3, r5}
	str	r4, [r0, #12]
	str	r5, [r0, #8]
	str	r3, [r0, #4]
	str	r2, [r0]
	strb.w	r12, [r0, #16]
	strb.w	lr, [r0, #17]
	strb	r1, [r0, #18]
	add	sp, #84
	pop.w	{r4, r5, r6, r7, r8, r9, pc}
.Lfunc_endc3bcb:
	.size	"eap_method::step::Step::after", .Lfunc_endc3bcb-"eap_method::step::Step::after"
	.cantunwind
	.fnend

	.section	".text.eap_method::step::Step::entering","ax",%progbits
	.p2align	2
	.type	"eap_method::step::Step::entering",%function
	.code	16
	.thumb_func
"eap_method::step::Step::entering":
	.fnstart
	.save	{r7, lr}
	push	{r7, lr}
	.pad	#32
	sub	sp, #32
	mov.w	r12, #0
	orrs.w	lr, r2, r3
	str.w	r12, [sp, #28]
	strd	r12, r12, [sp, #20]
	str.w	r12, [sp, #16]
	beq	.LBB78301_3
	ldrb.w	lr, [r1]
	eor	r2, r2, #1
	strb.w	lr, [sp, #16]
	mov.w	lr, #1
	orrs	r2, r3
	str.w	r12, [sp, #28]
	str.w	lr, [sp, #24]
	beq	.LBB78301_3
	ldrb	r1, [r1, #1]
	strb.w	r1, [sp, #17]
	movs	r1, #0
	str	r1, [sp, #28]
	movs	r1, #2
	str	r1, [sp, #24]
.LBB78301_3:
	ldrd	lr, r2, [sp, #16]
	ldrd	r1, r3, [sp, #24]
	strd	lr, r2, [sp]
	strd	r1, r3, [sp, #8]
	str	r3, [r0, #12]
	str	r1, [r0, #8]
	str	r2, [r0, #4]
	str.w	lr, [r0]
	strh.w	r12, [r0, #16]
	strb.w	r12, [r0, #18]
	add	sp, #32
	pop	{r7, pc}
.Lfunc_end78301:
	.size	"eap_method::step::Step::entering", .Lfunc_end78301-"eap_method::step::Step::entering"
	.cantunwind
	.fnend

	.section	".text.peer_machine::machine::PeerMachine::success::<#807681be332d694b>","ax",%progbits
	.p2align	2
	.type	"peer_machine::machine::PeerMachine::success::<#807681be332d694b>",%function
	.code	16
	.thumb_func
"peer_machine::machine::PeerMachine::success::<#807681be332d694b>":
	.fnstart
	.save	{r4, r5, r6, r7, lr}
	push	{r4, r5, r6, r7, lr}
	.pad	#52
	sub	sp, #52
	ldrb.w	r2, [r1, #772]
	mov	r4, r0
	mov.w	r0, #0
	strd	r0, r0, [sp, #40]
	strd	r0, r0, [sp, #32]
	strd	r0, r0, [sp, #24]
	strd	r0, r0, [sp]
	strd	r0, r0, [sp, #8]
	strd	r0, r0, [sp, #16]
	cbz	r2, .LBBb6587_2
	add	r0, sp, #24
	movs	r2, #10
	bl	"peer_machine::machine::end_received"
	ldrb.w	r7, [sp, #40]
	ldrb.w	r2, [sp, #41]
	ldrb.w	r0, [sp, #42]
	b	.LBBb6587_6
.LBBb6587_2:
	ldrb.w	r0, [r1, #771]
	cmp	r0, #2
	bne	.LBBb6587_4
	movw	r1, #2306
	movt	r1, #1
	movs	r0, #0
	str	r1, [sp]
	movs	r1, #3
	str	r0, [sp, #4]
	str	r0, [sp, #12]
	str	r1, [sp, #8]
	movs	r7, #1
	movs	r2, #13
	b	.LBBb6587_5
.LBBb6587_4:
	mov	r0, sp
	movs	r2, #11
	bl	"peer_machine::machine::end_received"
	ldrb.w	r7, [sp, #16]
	ldrb.w	r2, [sp, #17]
	ldrb.w	r0, [sp, #18]
.LBBb6587_5:
	ldrd	r12, lr, [sp]
	ldrd	r5, r3, [sp, #8]
	strd	r12, lr, [sp, #24]
	strd	r5, r3, [sp, #32]
.LBBb6587_6:
	add	r6, sp, #24
	ldr	r1, [sp, #36]
	ldm	r6, {r3, r5, r6}
	str	r1, [r4, #12]
	str	r6, [r4, #8]
	str	r5, [r4, #4]
	str	r3, [r4]
	strb	r7, [r4, #16]
	strb	r2, [r4, #17]
	strb	r0, [r4, #18]
	add	sp, #52
	pop	{r4, r5, r6, r7, pc}
.Lfunc_endb6587:
	.size	"peer_machine::machine::PeerMachine::success::<#807681be332d694b>", .Lfunc_endb6587-"peer_machine::machine::PeerMachine::success::<#807681be332d694b>"
	.cantunwind
	.fnend

	.section	".text.peer_machine::machine::end_received","ax",%progbits
	.p2align	2
	.type	"peer_machine::machine::end_received",%function
	.code	16
	.thumb_func
"peer_machine::machine::end_received":
	.fnstart
	.save	{r4, lr}
	push	{r4, lr}
	.pad	#32
	sub	sp, #32
	mov	r4, r0
	movs	r0, #0
	strd	r0, r0, [sp, #24]
	strd	r0, r0, [sp, #16]
	strd	r0, r0, [sp, #8]
	movs	r0, #2
	strh.w	r0, [sp, #6]
	strb.w	r2, [r1, #768]
	strb.w	r2, [sp, #7]
	add	r0, sp, #8
	add.w	r1, sp, #6
	movs	r2, #2
	movs	r3, #0
	bl	"eap_method::step::Step::entering"
	ldr	r2, [sp, #20]
	add	r3, sp, #8
	ldm	r3, {r0, r1, r3}
	str	r2, [r4, #12]
	ldrb.w	r2, [sp, #24]
	str	r1, [r4, #4]
	ldrh.w	r1, [sp, #25]
	str	r3, [r4, #8]
	strb	r2, [r4, #16]
	str	r0, [r4]
	strh.w	r1, [r4, #17]
	add	sp, #32
	pop	{r4, pc}
.Lfunc_end8e0a7:
	.size	"peer_machine::machine::end_received", .Lfunc_end8e0a7-"peer_machine::machine::end_received"
	.cantunwind
	.fnend

	.section	".text.peer_machine::machine::PeerMachine::failure::<#807681be332d694b>","ax",%progbits
	.p2align	2
	.type	"peer_machine::machine::PeerMachine::failure::<#807681be332d694b>",%function
	.code	16
	.thumb_func
"peer_machine::machine::PeerMachine::failure::<#807681be332d694b>":
	.fnstart
	.save	{r4, r5, r7, lr}
	push	{r4, r5, r7, lr}
	.pad	#24
	sub	sp, #24
	ldrb.w	r3, [r1, #772]
	movs	r2, #0
	cmp	r3, #2
	str	r2, [sp, #20]
	str	r2, [sp, #16]
	bne	.LBBe35db_2
	movw	r12, #2306
	movt	r12, #1
	mov.w	lr, #3
	movs	r1, #14
	b	.LBBe35db_4
.LBBe35db_2:
	ldrb.w	r2, [r1, #771]
	cmp	r2, #2
	bne	.LBBe35db_5
	movw	r12, #2306
	movs	r2, #0
	movt	r12, #1
	mov.w	lr, #3
	movs	r1, #15
.LBBe35db_4:
	movs	r3, #1
	movs	r4, #0
	movs	r5, #0
	b	.LBBe35db_6
.LBBe35db_5:
	mov	r2, sp
	mov	r4, r0
	mov	r0, r2
	movs	r2, #11
	bl	"peer_machine::machine::end_received"
	mov	r0, r4
	ldrd	r12, r4, [sp]
	ldrd	lr, r2, [sp, #8]
	ldrb.w	r3, [sp, #16]
	ldrb.w	r1, [sp, #17]
	ldrb.w	r5, [sp, #18]
.LBBe35db_6:
	str.w	r12, [r0]
	str	r4, [r0, #4]
	str.w	lr, [r0, #8]
	str	r2, [r0, #12]
	strb	r3, [r0, #16]
	strb	r1, [r0, #17]
	strb	r5, [r0, #18]
	add	sp, #24
	pop	{r4, r5, r7, pc}
.Lfunc_ende35db:
	.size	"peer_machine::machine::PeerMachine::failure::<#807681be332d694b>", .Lfunc_ende35db-"peer_machine::machine::PeerMachine::failure::<#807681be332d694b>"
	.cantunwind
	.fnend

	.section	".text.tuvaddri_c::deliver::deliver_to_server","ax",%progbits
	.p2align	2
	.type	"tuvaddri_c::deliver::deliver_to_server",%function
	.code	16
	.thumb_func
"tuvaddri_c::deliver::deliver_to_server":
	.fnstart
	.save	{r4, r5, r6, r7, r8, r9, r10, lr}
	push.w	{r4, r5, r6, r7, r8, r9, r10, lr}
	.pad	#1592
	sub.w	sp, sp, #1592
	add	r7, sp, #56
	mov	r5, r1
	mov	r4, r0
	ldr.w	r8, [sp, #1628]
	ldr.w	r9, [sp, #1624]
	movs	r6, #0
	mov	r0, r7
	mov.w	r1, #1512
	mov	r10, r2
	strd	r6, r6, [sp, #32]
	bl	__aeabi_memclr8
	ldrb	r0, [r5]
	movs	r1, #1
	lsls	r1, r0
	movw	r2, #463
	tst	r1, r2
	str	r6, [sp, #52]
	strd	r6, r6, [sp, #44]
	str	r6, [sp, #40]
	beq	.LBB9b861_2
.LBB9b861_1:
	movs	r6, #0
	movs	r0, #1
	mov.w	r8, #0
	movs	r7, #0
	mov.w	r9, #0
	strb.w	r6, [r5, #2632]
	b	.LBB9b861_10
.LBB9b861_2:
	cmp	r0, #4
	bne	.LBB9b861_6
	ldrb.w	r0, [r5, #32]
	cmp	r0, #1
	beq	.LBB9b861_5
	ldrb.w	r0, [r5, #35]
	cmp	r0, #0
	beq	.LBB9b861_1
.LBB9b861_5:
	add	r0, sp, #40
	add.w	r1, r5, #8
	strd	r7, r0, [sp, #8]
	add	r0, sp, #16
	mov	r2, r10
	str.w	r9, [sp]
	str.w	r8, [sp, #4]
	bl	"server_machine::machine::SizedServer::deliver_step::<#8eedcce04f265703>"
	ldrb.w	r8, [sp, #32]
	ldrb.w	r7, [sp, #33]
	ldrb.w	r6, [sp, #34]
	b	.LBB9b861_7
.LBB9b861_6:
	movs	r0, #0
	str.w	r0, [sp, #1588]
	str.w	r0, [sp, #1584]
	add	r0, sp, #40
	add.w	r1, r5, #8
	strd	r7, r0, [sp, #8]
	add.w	r0, sp, #1568
	mov	r2, r10
	str.w	r9, [sp]
	str.w	r8, [sp, #4]
	bl	"server_machine::machine::SizedServer::deliver_step::<#8eedcce04f265703>"
	ldrb.w	r8, [sp, #1584]
	ldrb.w	r7, [sp, #1585]
	ldrb.w	r6, [sp, #1586]
.LBB9b861_7:
	ldr.w	r2, [sp, #1560]
	ldr.w	r3, [sp, #1564]
	ldrb.w	r9, [r5, #35]
	ldr.w	r0, [r5, #2624]
	lsls	r1, r6, #31
	strb.w	r6, [r5, #2632]
	beq	.LBB9b861_9
	add	r1, sp, #56
	bl	"octet_lists::octets::Octets::set::<=1500>"
.LBB9b861_9:
	cmp.w	r8, #0
	it	eq
	moveq	r7, r8
	movs	r0, #0
.LBB9b861_10:
	strb	r6, [r4]
	strb.w	r8, [r4, #1]
	strb	r0, [r4, #2]
	strb	r7, [r4, #3]
	strb.w	r9, [r4, #4]
	add.w	sp, sp, #1592
	pop.w	{r4, r5, r6, r7, r8, r9, r10, pc}
.Lfunc_end9b861:
	.size	"tuvaddri_c::deliver::deliver_to_server", .Lfunc_end9b861-"tuvaddri_c::deliver::deliver_to_server"
	.cantunwind
	.fnend

	.section	".text.server_machine::machine::SizedServer::deliver_step::<#8eedcce04f265703>","ax",%progbits
	.p2align	2
	.type	"server_machine::machine::SizedServer::deliver_step::<#8eedcce04f265703>",%function
	.code	16
	.thumb_func
"server_machine::machine::SizedServer::deliver_step::<#8eedcce04f265703>":
	.fnstart
	.save	{r4, r5, r6, r7, r8, r9, r10, lr}
	push.w	{r4, r5, r6, r7, r8, r9, r10, lr}
	.pad	#40
	sub	sp, #40
	mov	r4, r0
	ldrb.w	r0, [r1, #1896]
	ldrd	r10, r9, [sp, #72]
	ldr.w	r8, [sp, #84]
	ldr	r5, [sp, #80]
	cmp	r0, #1
	mov.w	r0, #0
	strd	r0, r0, [sp, #32]
	strd	r0, r0, [sp, #24]
	strd	r0, r0, [sp, #16]
	bne	.LBB46654_2
	ldrb	r0, [r1, #27]
	mov	r6, r2
	mov	r7, r1
	bl	"eap_method::step::has_ended"
	mov	r1, r7
	mov	r2, r6
	cbz	r0, .LBB46654_3
.LBB46654_2:
	add	r0, sp, #16
	strd	r10, r9, [sp]
	str	r5, [sp, #8]
	str.w	r8, [sp, #12]
	bl	"server_machine::machine::SizedServer::deliver_plain::<#8eedcce04f265703>"
	b	.LBB46654_4
.LBB46654_3:
	add	r0, sp, #16
	strd	r10, r9, [sp]
	str	r5, [sp, #8]
	str.w	r8, [sp, #12]
	bl	"server_machine::machine::SizedServer::read::<#8eedcce04f265703>"
.LBB46654_4:
	add	r7, sp, #16
	ldrh.w	r0, [sp, #32]
	ldrb.w	r1, [sp, #34]
	ldm	r7, {r2, r3, r7}
	ldr	r6, [sp, #28]
	str	r2, [r4]
	str	r3, [r4, #4]
	str	r7, [r4, #8]
	str	r6, [r4, #12]
	strh	r0, [r4, #16]
	strb	r1, [r4, #18]
	add	sp, #40
	pop.w	{r4, r5, r6, r7, r8, r9, r10, pc}
.Lfunc_end46654:
	.size	"server_machine::machine::SizedServer::deliver_step::<#8eedcce04f265703>", .Lfunc_end46654-"server_machine::machine::SizedServer::deliver_step::<#8eedcce04f265703>"
	.cantunwind
	.fnend

	.section	".text.server_machine::machine::SizedServer::read::<#8eedcce04f265703>","ax",%progbits
	.p2align	2
	.type	"server_machine::machine::SizedServer::read::<#8eedcce04f265703>",%function
	.code	16
	.thumb_func
"server_machine::machine::SizedServer::read::<#8eedcce04f265703>":
	.fnstart
	.save	{r4, r5, r6, r7, r8, r9, r10, r11, lr}
	push.w	{r4, r5, r6, r7, r8, r9, r10, r11, lr}
	.pad	#1764
	subw	sp, sp, #1764
	add	r7, sp, #80
	mov	r5, r1
	ldr.w	r9, [sp, #1804]
	ldr.w	r10, [sp, #1800]
	ldr.w	r11, [sp, #1812]
	ldr.w	r6, [sp, #1808]
	mov	r4, r0
	mov	r0, r7
	movs	r1, #48
	mov	r8, r2
	bl	__aeabi_memclr8
	movs	r0, #0
	strd	r0, r0, [sp, #72]
	strd	r0, r0, [sp, #64]
	strd	r0, r0, [sp, #56]
	strd	r0, r0, [sp, #32]
	strd	r0, r0, [sp, #40]
	strd	r0, r0, [sp, #48]
	mov	r0, r7
	mov	r1, r8
	mov	r2, r10
	mov	r3, r9
	bl	"eap_packet::packet::decode"
	ldrb.w	r0, [sp, #80]
	cmp	r0, #1
	bne	.LBB455d5_2
	add	r0, sp, #56
	mov	r1, r5
	mov	r2, r8
	strd	r10, r9, [sp]
	str	r6, [sp, #8]
	str.w	r11, [sp, #12]
	bl	"server_machine::machine::SizedServer::deliver_plain::<#8eedcce04f265703>"
	ldrb.w	r1, [sp, #72]
	ldrb.w	r0, [sp, #73]
	ldrb.w	r5, [sp, #74]
	b	.LBB455d5_26
.LBB455d5_2:
	add.w	r11, r7, #8
	str	r5, [sp, #28]
	mov	r1, r11
	ldm	r1!, {r2, r3, r5, r6, r7}
	add	r0, sp, #128
	stm	r0!, {r2, r3, r5, r6, r7}
	ldm.w	r1, {r2, r3, r5, r6, r7}
	stm	r0!, {r2, r3, r5, r6, r7}
	ldrb.w	r0, [sp, #128]
	cmp	r0, #1
	bne	.LBB455d5_8
	movs	r7, #0
	add	r0, sp, #128
	strd	r7, r7, [sp, #184]
	strd	r7, r7, [sp, #176]
	strd	r7, r7, [sp, #168]
	bl	"eap_packet::expanded::is_bad_expanded"
	ldr	r5, [sp, #28]
	add.w	r6, r5, #24
	cbz	r0, .LBB455d5_9
	ldr.w	r0, [sp, #1812]
	strd	r7, r7, [r0]
	strd	r7, r7, [r0, #8]
	ldrb	r0, [r6]
	cmp	r0, #1
	bne	.LBB455d5_6
	ldrb	r0, [r5, #27]
	cmp	r0, #0
	beq.w	.LBB455d5_27
.LBB455d5_6:
	movw	r7, #2306
	movs	r3, #0
	movt	r7, #1
	movs	r2, #3
	movs	r0, #8
	movs	r1, #1
.LBB455d5_7:
	movs	r6, #0
	movs	r5, #0
	b	.LBB455d5_24
.LBB455d5_8:
	ldr.w	r0, [sp, #1808]
	ldr	r1, [sp, #28]
	ldr.w	r3, [sp, #1812]
	str	r0, [sp, #8]
	add	r0, sp, #32
	mov	r2, r8
	strd	r10, r9, [sp]
	str	r3, [sp, #12]
	bl	"server_machine::machine::SizedServer::deliver_plain::<#8eedcce04f265703>"
	ldrb.w	r1, [sp, #48]
	ldrb.w	r0, [sp, #49]
	ldrb.w	r5, [sp, #50]
	b	.LBB455d5_25
.LBB455d5_9:
	add	r0, sp, #192
	mov.w	r1, #1512
	bl	__aeabi_memclr8
	ldrb.w	r0, [sp, #130]
	str	r6, [sp, #24]
	cmp	r0, #254
	bne.w	.LBB455d5_21
	ldrd	lr, r7, [sp, #144]
	subs.w	r0, lr, #7
	sbcs	r0, r7, #0
	blo.w	.LBB455d5_21
	ldr	r0, [sp, #136]
	ldrb.w	r12, [r0]
	ldrb	r1, [r0, #1]
	ldrb	r2, [r0, #2]
	ldrb	r3, [r0, #3]
	orr.w	r1, r1, r12
	orrs	r1, r2
	orrs	r1, r3
	bne	.LBB455d5_21
	movs	r2, #0
	movs	r1, #6
	strd	r1, r2, [sp, #8]
	movw	r1, :lower16:.Lstatic.6
	movt	r1, :upper16:.Lstatic.6
	movs	r2, #6
	movs	r3, #0
	str	r1, [sp]
	strd	r0, lr, [sp, #16]
	bl	"core::cmp::slices::groups_equal::<i8,31'core::cmp::numbers::U8PartialEq{}>"
	ldrd	r3, r2, [sp, #16]
	cmp	r0, #0
	beq	.LBB455d5_21
	ldrb	r0, [r3, #6]
	cmp	r0, #3
	bne	.LBB455d5_21
	ldrb	r0, [r6]
	mov	r1, r7
	cmp	r0, #1
	bne	.LBB455d5_16
	ldrb	r0, [r5, #27]
	cbz	r0, .LBB455d5_18
.LBB455d5_16:
	ldr.w	r0, [r5, #1560]
	ldr.w	r7, [r5, #1564]
	subs	r0, #5
	sbcs	r0, r7, #0
	blo	.LBB455d5_21
	ldrb.w	r0, [r5, #60]
	cmp	r0, #254
	bne	.LBB455d5_21
.LBB455d5_18:
	subs.w	r11, r2, #7
	ldrb.w	r8, [sp, #129]
	sbc	r5, r1, #0
	subs.w	r1, r11, #8
	movw	r9, :lower16:.Lstatic.6
	mov.w	r0, #0
	sbcs	r1, r5, #0
	movt	r9, :upper16:.Lstatic.6
	str.w	r0, [sp, #1720]
	str.w	r0, [sp, #1724]
	str.w	r0, [sp, #1728]
	str.w	r0, [sp, #1732]
	str.w	r0, [sp, #1704]
	str.w	r0, [sp, #1708]
	str.w	r0, [sp, #1712]
	str.w	r0, [sp, #1716]
	strb.w	r0, [sp, #1743]
	str.w	r0, [sp, #1744]
	str.w	r0, [sp, #1748]
	str.w	r0, [sp, #1752]
	str.w	r0, [sp, #1756]
	bhs	.LBB455d5_28
.LBB455d5_19:
	ldr.w	r2, [sp, #1744]
	ldr.w	r0, [sp, #1756]
	ldr.w	r1, [sp, #1752]
	ldr.w	r3, [sp, #1748]
	str.w	r2, [sp, #1704]
	str.w	r2, [sp, #1720]
	orrs.w	r2, r1, r0
	str.w	r0, [sp, #1716]
	str.w	r1, [sp, #1712]
	str.w	r3, [sp, #1708]
	str.w	r1, [sp, #1728]
	str.w	r3, [sp, #1724]
	str.w	r0, [sp, #1732]
	beq.w	.LBB455d5_36
	strd	r1, r0, [sp, #8]
	add.w	r7, sp, #1720
	add	r0, sp, #192
	movs	r1, #1
	b	.LBB455d5_37
.LBB455d5_21:
	add	r1, sp, #192
	mov	r0, r11
	bl	"eap_packet::expanded::write_plain"
	ldr.w	r3, [sp, #1812]
	ldr.w	r6, [sp, #1808]
	cbz	r0, .LBB455d5_23
.LBB455d5_22:
	ldr.w	r10, [sp, #1696]
	ldr.w	r9, [sp, #1700]
	add.w	r8, sp, #192
.LBB455d5_23:
	add	r0, sp, #168
	mov	r1, r5
	mov	r2, r8
	strd	r10, r9, [sp]
	str	r6, [sp, #8]
	str	r3, [sp, #12]
	bl	"server_machine::machine::SizedServer::deliver_plain::<#8eedcce04f265703>"
	ldrb.w	r5, [sp, #186]
	ldr	r0, [sp, #24]
	mov	r1, r5
	mov	r2, r6
	bl	"server_machine::expanded::wrap_sent::<=2>"
	ldrd	r7, r6, [sp, #168]
	ldrd	r2, r3, [sp, #176]
	ldrb.w	r1, [sp, #184]
	ldrb.w	r0, [sp, #185]
.LBB455d5_24:
	strd	r7, r6, [sp, #32]
	strd	r2, r3, [sp, #40]
.LBB455d5_25:
	add	r7, sp, #32
	ldm	r7, {r2, r3, r6, r7}
	add.w	r12, sp, #56
	stm.w	r12, {r2, r3, r6, r7}
.LBB455d5_26:
	add	r7, sp, #56
	ldm	r7, {r2, r3, r6, r7}
	str	r7, [r4, #12]
	str	r6, [r4, #8]
	str	r3, [r4, #4]
	str	r2, [r4]
	strb	r1, [r4, #16]
	strb	r0, [r4, #17]
	strb	r5, [r4, #18]
	addw	sp, sp, #1764
	pop.w	{r4, r5, r6, r7, r8, r9, r10, r11, pc}
.LBB455d5_27:
	movs	r2, #0
	movs	r0, #8
	movs	r1, #1
	movs	r3, #0
	movs	r7, #0
	b	.LBB455d5_7
.LBB455d5_28:
	add.w	r6, r3, #8
	b	.LBB455d5_30
.LBB455d5_29:
	rsbs.w	r0, r11, #7
	mov.w	r0, #0
	sbcs	r0, r5
	add.w	r6, r6, #8
	bhs	.LBB455d5_19
.LBB455d5_30:
	ldrb	r0, [r6]
	ldrb	r1, [r6, #1]
	ldrb	r2, [r6, #2]
	ldrb	r3, [r6, #3]
	orrs	r0, r1
	subs.w	r11, r11, #8
	orr.w	r0, r0, r2
	sbc	r5, r5, #0
	orrs	r0, r3
	bne	.LBB455d5_29
	movs	r0, #0
	movs	r1, #6
	strd	r1, r0, [sp, #8]
	mov	r0, r6
	movs	r2, #6
	movs	r3, #0
	str.w	r9, [sp]
	bl	"core::cmp::slices::groups_equal::<i8,31'core::cmp::numbers::U8PartialEq{}>"
	cmp	r0, #0
	beq	.LBB455d5_29
	ldrb	r7, [r6, #6]
	cmp	r7, #51
	beq	.LBB455d5_34
	cmp	r7, #47
	bne	.LBB455d5_29
.LBB455d5_34:
	ldr.w	r2, [sp, #1752]
	ldr.w	r3, [sp, #1756]
	add.w	r0, sp, #1744
	str	r7, [sp]
	bl	"octet_lists::kind::is_among"
	cmp	r0, #0
	bne	.LBB455d5_29
	add.w	r0, sp, #1744
	addw	r1, sp, #1743
	movs	r2, #1
	movs	r3, #0
	strb.w	r7, [sp, #1743]
	bl	"octet_lists::octets::Octets::append::<=2>"
	b	.LBB455d5_29
.LBB455d5_36:
	movs	r0, #0
	movs	r1, #1
	movw	r7, :lower16:.Lstatic.5
	strd	r1, r0, [sp, #8]
	movt	r7, :upper16:.Lstatic.5
	add	r0, sp, #192
.LBB455d5_37:
	mov	r2, r8
	movs	r3, #3
	str	r7, [sp]
	bl	"eap_packet::packet::encode_into"
	ldr	r5, [sp, #28]
	ldr.w	r3, [sp, #1812]
	ldr.w	r6, [sp, #1808]
	b	.LBB455d5_22
.Lfunc_end455d5:
	.size	"server_machine::machine::SizedServer::read::<#8eedcce04f265703>", .Lfunc_end455d5-"server_machine::machine::SizedServer::read::<#8eedcce04f265703>"
	.cantunwind
	.fnend

	.section	".text.server_machine::expanded::wrap_sent::<=2>","ax",%progbits
	.p2align	2
	.type	"server_machine::expanded::wrap_sent::<=2>",%function
	.code	16
	.thumb_func
"server_machine::expanded::wrap_sent::<=2>":
	.fnstart
	cbz	r1, .LBBfcc03_4
	ldr.w	r1, [r2, #1504]
	ldr.w	r3, [r2, #1508]
	orrs	r1, r3
	it	eq
	bxeq	lr
.LBBfcc03_2:
	ldrb	r1, [r2]
	cmp	r1, #1
	bne	.LBBfcc03_4
	.save	{r4, r5, r6, lr}
	push	{r4, r5, r6, lr}
	mov	r6, r0
	mov	r0, r2
	add.w	r5, r2, #1504
	mov	r4, r2
	bl	"eap_packet::expanded::wrap_in_place"
	ldrd	r2, r3, [r5]
	add.w	r0, r6, #32
	mov	r1, r4
	pop.w	{r4, r5, r6, lr}
	b	"octet_lists::octets::Octets::set::<=1500>"
.LBBfcc03_4:
	bx	lr
.Lfunc_endfcc03:
	.size	"server_machine::expanded::wrap_sent::<=2>", .Lfunc_endfcc03-"server_machine::expanded::wrap_sent::<=2>"
	.cantunwind
	.fnend

	.section	".text.server_machine::machine::SizedServer::deliver_plain::<#8eedcce04f265703>","ax",%progbits
	.p2align	2
	.type	"server_machine::machine::SizedServer::deliver_plain::<#8eedcce04f265703>",%function
	.code	16
	.thumb_func
"server_machine::machine::SizedServer::deliver_plain::<#8eedcce04f265703>":
	.fnstart
	.save	{r4, r5, r6, r7, r8, r9, r10, r11, lr}
	push.w	{r4, r5, r6, r7, r8, r9, r10, r11, lr}
	.pad	#228
	sub	sp, #228
	mov	r9, r1
	ldr	r7, [sp, #276]
	mov	r8, r0
	add	r0, sp, #56
	movs	r1, #48
	mov	r6, r2
	bl	__aeabi_memclr8
	movs	r4, #0
	strd	r4, r4, [r7]
	strd	r4, r4, [r7, #8]
	ldrb.w	r5, [r9, #27]
	mov	r0, r5
	bl	"eap_method::step::has_ended"
	cbz	r0, .LBB119f3_2
	movw	r0, #4609
	str.w	r4, [r8, #12]
	str.w	r4, [r8, #8]
	str.w	r4, [r8, #4]
	str.w	r4, [r8]
	strh.w	r0, [r8, #16]
	strb.w	r4, [r8, #18]
	add	sp, #228
	pop.w	{r4, r5, r6, r7, r8, r9, r10, r11, pc}
.LBB119f3_2:
	mov	r10, r9
	ldrb	r0, [r10, #24]!
	ldr	r3, [sp, #268]
	eor	r0, r0, #1
	orrs	r0, r5
	ldr	r2, [sp, #264]
	clz	r0, r0
	lsrs	r5, r0, #5
	add	r0, sp, #56
	mov	r1, r6
	bl	"eap_packet::packet::decode"
	ldrb.w	r0, [sp, #56]
	cmp	r0, #1
	bne	.LBB119f3_5
	ldrb.w	r1, [sp, #57]
	cmp	r5, #0
	beq	.LBB119f3_10
	movs	r2, #0
	b	.LBB119f3_21
.LBB119f3_5:
	ldr.w	r11, [sp, #272]
	ldrb.w	r2, [sp, #64]
	ldrb.w	r3, [sp, #65]
	ldrb.w	r1, [sp, #66]
	ldr	r0, [sp, #72]
	ldrd	r6, r12, [sp, #80]
	cmp	r5, #0
	beq	.LBB119f3_11
	cmp	r2, #1
	mov.w	r2, #0
	bne.w	.LBB119f3_20
	strd	r2, r2, [sp, #200]
	strd	r2, r2, [sp, #208]
	strd	r2, r2, [sp, #216]
	strd	r2, r2, [sp, #152]
	strd	r2, r2, [sp, #160]
	strd	r2, r2, [sp, #168]
	strd	r2, r2, [sp, #136]
	strd	r2, r2, [sp, #144]
	strd	r2, r2, [sp, #112]
	strd	r2, r2, [sp, #120]
	movw	r2, #257
	cmp	r1, #1
	strh.w	r2, [r9, #27]
	strb.w	r3, [r9, #29]
	beq.w	.LBB119f3_29
	cmp	r1, #3
	bne.w	.LBB119f3_30
	movs	r2, #1
	movs	r1, #0
	str	r2, [sp, #176]
	add	r2, sp, #184
	str	r1, [sp, #180]
	stm.w	r2, {r0, r1, r6, r12}
	add	r7, sp, #176
	add	r0, sp, #200
	mov	r1, r9
	movs	r2, #3
	strd	r7, r11, [sp]
	bl	"server_machine::machine::SizedServer::propose::<#575f94f35bca5e04>"
	ldrb.w	r0, [sp, #216]
	ldrb.w	r1, [sp, #217]
	ldrb.w	r3, [sp, #218]
	b	.LBB119f3_32
.LBB119f3_10:
	movw	r2, #2306
	movs	r5, #0
	movs	r7, #3
	movt	r2, #1
	b	.LBB119f3_25
.LBB119f3_11:
	cmp	r2, #1
	bne	.LBB119f3_22
	ldrb.w	r2, [r9, #28]
	cmp	r2, #1
	bne	.LBB119f3_23
	ldrb.w	r2, [r9, #29]
	movs	r5, #0
	cmp	r2, r3
	bne	.LBB119f3_24
	ldr	r4, [sp, #88]
	ldr	r2, [sp, #76]
	str	r4, [sp, #48]
	ldr	r4, [sp, #100]
	ldr.w	lr, [sp, #96]
	cmp	r1, #3
	str	r4, [sp, #52]
	strd	r5, r5, [sp, #152]
	strd	r5, r5, [sp, #160]
	strd	r5, r5, [sp, #168]
	strd	r5, r5, [sp, #128]
	strd	r5, r5, [sp, #136]
	strd	r5, r5, [sp, #144]
	strd	r5, r5, [sp, #112]
	str	r5, [sp, #120]
	str	r5, [sp, #124]
	bne	.LBB119f3_16
	ldrb.w	r5, [r9, #32]
	cmp	r5, #0
	beq	.LBB119f3_34
.LBB119f3_16:
	ldrb.w	r0, [r9, #30]
	cmp	r0, #1
	bne	.LBB119f3_33
	ldrb.w	r0, [r9, #31]
	cmp	r0, r1
	bne	.LBB119f3_33
	cmp	r1, #1
	bne.w	.LBB119f3_35
	movs	r0, #2
	strb.w	r0, [r9, #32]
	movs	r0, #0
	strd	r0, r0, [sp, #104]
	add	r7, sp, #104
	add	r0, sp, #128
	mov	r1, r9
	movs	r2, #0
	strd	r7, r11, [sp]
	bl	"server_machine::machine::SizedServer::propose::<#575f94f35bca5e04>"
	ldrb.w	r0, [sp, #144]
	ldrb.w	r1, [sp, #145]
	ldrb.w	r3, [sp, #146]
	b	.LBB119f3_44
.LBB119f3_20:
	movs	r1, #7
.LBB119f3_21:
	movs	r0, #1
	movs	r5, #0
	movs	r7, #0
	b	.LBB119f3_26
.LBB119f3_22:
	movw	r2, #2306
	movs	r5, #0
	movs	r7, #3
	movt	r2, #1
	movs	r1, #7
	b	.LBB119f3_25
.LBB119f3_23:
	movs	r5, #0
.LBB119f3_24:
	movw	r2, #2306
	movs	r7, #3
	movt	r2, #1
	movs	r1, #12
.LBB119f3_25:
	movs	r0, #1
.LBB119f3_26:
	movs	r6, #0
.LBB119f3_27:
	movs	r3, #0
.LBB119f3_28:
	str.w	r2, [r8]
	str.w	r5, [r8, #4]
	str.w	r7, [r8, #8]
	str.w	r6, [r8, #12]
	strb.w	r0, [r8, #16]
	strb.w	r1, [r8, #17]
	strb.w	r3, [r8, #18]
	add	sp, #228
	pop.w	{r4, r5, r6, r7, r8, r9, r10, r11, pc}
.LBB119f3_29:
	movs	r0, #2
	strb.w	r0, [r9, #32]
	movs	r0, #0
	strd	r0, r0, [sp, #128]
	add	r7, sp, #128
	add	r0, sp, #152
	mov	r1, r9
	movs	r2, #2
	b	.LBB119f3_31
.LBB119f3_30:
	movs	r0, #0
	strd	r0, r0, [sp, #104]
	add	r7, sp, #104
	add	r0, sp, #152
	mov	r1, r9
	movs	r2, #4
.LBB119f3_31:
	strd	r7, r11, [sp]
	bl	"server_machine::machine::SizedServer::propose::<#575f94f35bca5e04>"
	ldrd	r2, r0, [sp, #152]
	ldrd	r3, r1, [sp, #160]
	str	r2, [sp, #200]
	str	r1, [sp, #212]
	strd	r0, r3, [sp, #204]
	ldrb.w	r0, [sp, #168]
	ldrb.w	r1, [sp, #169]
	ldrb.w	r3, [sp, #170]
.LBB119f3_32:
	add	r7, sp, #200
	ldm	r7, {r2, r5, r7}
	ldr	r6, [sp, #212]
	b	.LBB119f3_28
.LBB119f3_33:
	movw	r2, #2306
	movs	r6, #0
	movt	r2, #1
	movs	r7, #3
	movs	r0, #1
	movs	r1, #16
	movs	r5, #0
	b	.LBB119f3_27
.LBB119f3_34:
	movs	r1, #0
	str	r1, [sp, #204]
	movs	r1, #1
	str	r1, [sp, #200]
	add	r1, sp, #208
	stm.w	r1, {r0, r2, r6, r12}
	add	r7, sp, #200
	add	r0, sp, #152
	mov	r1, r9
	movs	r2, #1
	strd	r7, r11, [sp]
	bl	"server_machine::machine::SizedServer::propose::<#575f94f35bca5e04>"
	add	r7, sp, #152
	ldrb.w	r0, [sp, #168]
	ldrb.w	r1, [sp, #169]
	ldrb.w	r3, [sp, #170]
	ldm	r7, {r2, r5, r7}
	ldr	r6, [sp, #164]
	b	.LBB119f3_28
.LBB119f3_35:
	ldr.w	r0, [r9]
	ldrd	r6, r12, [r9, #8]
	str	r3, [sp, #44]
	adds	r4, r3, #1
	ldr.w	r3, [r9, #2608]
	ldr.w	r5, [r9, #2612]
	str	r1, [sp]
	ldr	r1, [sp, #48]
	add.w	r2, r9, #1904
	strd	r1, lr, [sp, #4]
	ldr	r1, [sp, #52]
	strd	r2, r3, [sp, #20]
	mov	r2, r6
	mov	r3, r12
	strd	r11, r7, [sp, #32]
	strd	r1, r4, [sp, #12]
	str	r5, [sp, #28]
	bl	"eap_method::server_objects::call_server_method::<#80187fcbb1ba111c>"
	uxtb	r0, r0
	movs	r2, #0
	cmp	r0, #2
	str	r2, [sp, #196]
	strd	r2, r2, [sp, #188]
	strd	r2, r2, [sp, #180]
	str	r2, [sp, #176]
	beq	.LBB119f3_38
	cmp	r0, #1
	bne	.LBB119f3_40
	mov	r0, r10
	mov	r1, r11
	bl	"server_machine::outcome::send_request::<=2>"
	movs	r0, #1
	strb.w	r0, [r9, #32]
	movw	r0, #4354
	movt	r0, #3602
	str	r0, [sp, #200]
	movw	r0, #271
	strh.w	r0, [sp, #204]
	add	r0, sp, #176
	add	r1, sp, #200
	movs	r2, #6
	movs	r3, #0
	bl	"eap_method::step::Step::sending"
	ldrb.w	r0, [sp, #192]
	ldrb.w	r1, [sp, #193]
	ldrb.w	r3, [sp, #194]
	b	.LBB119f3_43
.LBB119f3_38:
	movs	r0, #2
	strb.w	r0, [r9, #32]
	lsls	r0, r1, #31
	str	r2, [sp, #220]
	strd	r2, r2, [sp, #212]
	strd	r2, r2, [sp, #204]
	str	r2, [sp, #200]
	beq	.LBB119f3_41
	movs	r0, #10
	ldr	r2, [sp, #44]
	strb.w	r0, [r9, #27]
	mov	r0, r11
	movs	r1, #2
	bl	"eap_packet::packet::encode_end_into"
	add	r0, sp, #200
	movs	r1, #0
	movs	r2, #10
	b	.LBB119f3_42
.LBB119f3_40:
	movw	r0, #4354
	movt	r0, #265
	movs	r3, #0
	str	r0, [sp, #176]
	movs	r0, #4
	str	r3, [sp, #180]
	str	r3, [sp, #188]
	str	r0, [sp, #184]
	movs	r0, #1
	b	.LBB119f3_43
.LBB119f3_41:
	movs	r0, #11
	ldr	r2, [sp, #44]
	strb.w	r0, [r9, #27]
	mov	r0, r11
	movs	r1, #3
	bl	"eap_packet::packet::encode_end_into"
	add	r0, sp, #200
	movs	r1, #0
	movs	r2, #11
.LBB119f3_42:
	bl	"server_machine::outcome::ending"
	ldrb.w	r0, [sp, #216]
	ldrb.w	r1, [sp, #217]
	ldrb.w	r3, [sp, #218]
	ldrd	r2, r7, [sp, #200]
	ldrd	r6, r5, [sp, #208]
	strd	r2, r7, [sp, #176]
	strd	r6, r5, [sp, #184]
.LBB119f3_43:
	ldrd	r2, r7, [sp, #176]
	ldrd	r5, r6, [sp, #184]
	strd	r2, r7, [sp, #128]
	strd	r5, r6, [sp, #136]
.LBB119f3_44:
	add	r7, sp, #128
	ldm	r7, {r2, r5, r7}
	ldr	r6, [sp, #140]
	b	.LBB119f3_28
.Lfunc_end119f3:
	.size	"server_machine::machine::SizedServer::deliver_plain::<#8eedcce04f265703>", .Lfunc_end119f3-"server_machine::machine::SizedServer::deliver_plain::<#8eedcce04f265703>"
	.cantunwind
	.fnend

	.section	".text.server_machine::machine::SizedServer::propose::<#575f94f35bca5e04>","ax",%progbits
	.p2align	2
	.type	"server_machine::machine::SizedServer::propose::<#575f94f35bca5e04>",%function
	.code	16
	.thumb_func
"server_machine::machine::SizedServer::propose::<#575f94f35bca5e04>":
	.fnstart
	.save	{r4, r5, r6, r7, r8, r9, r10, r11, lr}
	push.w	{r4, r5, r6, r7, r8, r9, r10, r11, lr}
	.pad	#412
	sub	sp, #412
	mov	r11, r2
	mov	r4, r0
	ldrd	r0, r6, [sp, #448]
	add.w	r2, r1, #24
	str	r2, [sp, #24]
	add.w	r2, r1, #40
	str	r3, [sp, #12]
	ldrb.w	r10, [r0]
	ldr.w	r8, [r0, #8]
	ldr.w	r9, [r0, #20]
	ldr	r5, [r0, #16]
	movs	r0, #0
	add.w	r7, r1, #1832
	str	r2, [sp, #8]
	ldr.w	r2, [r1, #1840]
	ldr.w	r3, [r1, #1844]
	strd	r0, r0, [sp, #56]
	strd	r0, r0, [sp, #64]
	strd	r0, r0, [sp, #72]
	str	r1, [sp, #28]
	strd	r7, r0, [sp, #80]
	add	r0, sp, #44
	add	r1, sp, #80
	strd	r2, r3, [sp, #88]
	bl	"core::iter::slices::IterIterator::next::<i8>"
	ldrb.w	r0, [sp, #44]
	strd	r11, r4, [sp, #16]
	cmp	r0, #1
	bne	.LBB264c5_7
	ldr	r0, [sp, #28]
	ldr	r1, [sp, #52]
	ldrd	r6, r7, [r0, #48]
	ldr	r4, [sp, #8]
	b	.LBB264c5_3
	.p2align	2
.LBB264c5_2:
	add	r0, sp, #32
	add	r1, sp, #80
	bl	"core::iter::slices::IterIterator::next::<i8>"
	ldrb.w	r0, [sp, #32]
	ldr	r1, [sp, #40]
	cmp	r0, #1
	bne	.LBB264c5_6
.LBB264c5_3:
	ldrb.w	r11, [r1]
	mov	r0, r4
	mov	r2, r6
	mov	r3, r7
	str.w	r11, [sp]
	bl	"octet_lists::kind::is_among"
	cmp	r0, #0
	bne	.LBB264c5_2
	cmp.w	r10, #0
	beq	.LBB264c5_9
	mov	r0, r8
	mov	r2, r5
	mov	r3, r9
	str.w	r11, [sp]
	bl	"octet_lists::kind::is_among"
	cmp	r0, #0
	beq	.LBB264c5_2
	b	.LBB264c5_9
.LBB264c5_6:
	ldrd	r11, r4, [sp, #16]
	ldr	r6, [sp, #452]
.LBB264c5_7:
	cbz	r0, .LBB264c5_11
	mov.w	r11, #0
.LBB264c5_9:
	ldr	r4, [sp, #28]
	add	r0, sp, #80
	ldr	r7, [r4]
	ldrd	r5, r6, [r4, #8]
	add.w	r1, r4, #1568
	bl	"eap_method::server_objects::side_of::<=2>"
	ldrb	r0, [r4, #28]
	cbz	r0, .LBB264c5_12
	ldrb	r0, [r4, #29]
	add.w	r9, r0, #1
	orrs.w	r0, r5, r6
	bne	.LBB264c5_13
	b	.LBB264c5_22
.LBB264c5_11:
	ldr	r1, [sp, #24]
	ldr	r3, [sp, #12]
	add	r0, sp, #56
	mov	r2, r11
	str	r6, [sp]
	bl	"server_machine::outcome::end_badly::<=2>"
	ldrb.w	r0, [sp, #72]
	ldrb.w	r1, [sp, #73]
	ldrb.w	r2, [sp, #74]
	b	.LBB264c5_36
.LBB264c5_12:
	ldrb.w	r9, [r4, #25]
	orrs.w	r0, r5, r6
	beq	.LBB264c5_22
.LBB264c5_13:
	add.w	r2, r4, #1864
	add.w	r8, r7, #2512
.LBB264c5_14:
	movw	r0, #63024
	movt	r0, #65535
	ldrb.w	r0, [r8, r0]
	cmp	r0, #0
	mov.w	r0, #51
	it	eq
	moveq	r0, #47
	cmp	r0, r11
	beq	.LBB264c5_23
	eor	r0, r5, #1
	orrs	r0, r6
	beq	.LBB264c5_22
	movw	r0, #64280
	movt	r0, #65535
	ldrb.w	r0, [r8, r0]
	cmp	r0, #0
	mov.w	r0, #51
	it	eq
	moveq	r0, #47
	cmp	r0, r11
	beq	.LBB264c5_24
	eor	r0, r5, #2
	orrs	r0, r6
	beq	.LBB264c5_22
	ldrb.w	r0, [r8]
	cmp	r0, #0
	mov.w	r0, #51
	it	eq
	moveq	r0, #47
	cmp	r0, r11
	beq	.LBB264c5_26
	eor	r0, r5, #3
	orrs	r0, r6
	beq	.LBB264c5_22
	ldrb.w	r0, [r8, #1256]
	cmp	r0, #0
	mov.w	r0, #51
	it	eq
	moveq	r0, #47
	cmp	r0, r11
	beq	.LBB264c5_25
	subs	r5, #4
	sbc	r6, r6, #0
	orrs.w	r0, r5, r6
	add.w	r8, r8, #5024
	bne	.LBB264c5_14
.LBB264c5_22:
	movs	r0, #0
	ldr	r1, [sp, #24]
	ldrd	r3, r2, [sp, #12]
	ldr	r7, [sp, #452]
	strd	r0, r0, [sp, #376]
	add	r0, sp, #360
	str	r7, [sp]
	bl	"server_machine::outcome::end_badly::<=2>"
	ldrb.w	r0, [sp, #376]
	ldrb.w	r1, [sp, #377]
	ldrb.w	r2, [sp, #378]
	ldr	r4, [sp, #20]
	b	.LBB264c5_35
.LBB264c5_23:
	sub.w	r8, r8, #2512
	b	.LBB264c5_26
.LBB264c5_24:
	sub.w	r8, r8, #1256
	b	.LBB264c5_26
.LBB264c5_25:
	add.w	r8, r8, #1256
.LBB264c5_26:
	add	r1, sp, #80
	mov	r0, r8
	bl	"end_objects::objects::ServerObjectServerMethod::begin"
	ldr	r5, [sp, #452]
	mov	r0, r8
	mov	r1, r9
	mov	r2, r5
	bl	"end_objects::objects::ServerObjectServerMethod::first_into"
	ldr	r0, [sp, #24]
	mov	r1, r5
	bl	"server_machine::outcome::send_request::<=2>"
	ldrd	r2, r1, [r4, #48]
	movs	r0, #1
	eor	r3, r2, #2
	ldr	r6, [sp, #16]
	strb	r0, [r4, #30]
	movs	r0, #0
	orrs	r3, r1
	strb.w	r11, [r4, #31]
	strb.w	r0, [r4, #32]
	beq	.LBB264c5_28
	ldr	r3, [sp, #8]
	strb.w	r11, [r3, r2]
	adds	r2, #1
	adc	r1, r1, #0
	strd	r2, r1, [r4, #48]
.LBB264c5_28:
	movw	r1, #3597
	movt	r1, #271
	strd	r0, r0, [sp, #80]
	strd	r0, r0, [sp, #88]
	strd	r0, r0, [sp, #96]
	str	r1, [sp, #408]
	strd	r0, r0, [sp, #384]
	strd	r0, r0, [sp, #392]
	strd	r0, r0, [sp, #400]
	add	r0, sp, #384
	add	r1, sp, #408
	movs	r2, #4
	movs	r3, #0
	movs	r5, #4
	bl	"eap_method::step::Step::sending"
	uxtb	r0, r6
	movw	r2, :lower16:.Lstatic.20
	ldr	r4, [sp, #20]
	movt	r2, :upper16:.Lstatic.20
.LCPI264c5_0:
	tbb	[pc, r0]
.LJTI264c5_0:
	.byte	(.LBB264c5_34-(.LCPI264c5_0+4))/2
	.byte	(.LBB264c5_30-(.LCPI264c5_0+4))/2
	.byte	(.LBB264c5_32-(.LCPI264c5_0+4))/2
	.byte	(.LBB264c5_33-(.LCPI264c5_0+4))/2
	.byte	(.LBB264c5_31-(.LCPI264c5_0+4))/2
	.p2align	1
.LBB264c5_30:
	movw	r2, :lower16:.Lstatic.21
	movs	r5, #3
	movt	r2, :upper16:.Lstatic.21
	b	.LBB264c5_34
.LBB264c5_31:
	movw	r2, :lower16:.Lstatic.24
	movs	r5, #2
	movt	r2, :upper16:.Lstatic.24
	b	.LBB264c5_34
.LBB264c5_32:
	movw	r2, :lower16:.Lstatic.22
	movs	r5, #3
	movt	r2, :upper16:.Lstatic.22
	b	.LBB264c5_34
.LBB264c5_33:
	movw	r2, :lower16:.Lstatic.23
	movs	r5, #2
	movt	r2, :upper16:.Lstatic.23
.LBB264c5_34:
	movs	r3, #0
	add	r0, sp, #80
	add	r1, sp, #384
	strd	r5, r3, [sp]
	bl	"eap_method::step::Step::after"
	ldrd	r3, r0, [sp, #80]
	ldrd	r2, r1, [sp, #88]
	str	r3, [sp, #360]
	str	r1, [sp, #372]
	strd	r0, r2, [sp, #364]
	ldrb.w	r0, [sp, #96]
	ldrb.w	r1, [sp, #97]
	ldrb.w	r2, [sp, #98]
.LBB264c5_35:
	ldrd	r3, r7, [sp, #360]
	ldrd	r5, r6, [sp, #368]
	strd	r3, r7, [sp, #56]
	strd	r5, r6, [sp, #64]
.LBB264c5_36:
	ldrd	r3, r7, [sp, #56]
	ldrd	r5, r6, [sp, #64]
	str	r7, [r4, #4]
	str	r6, [r4, #12]
	str	r5, [r4, #8]
	str	r3, [r4]
	strb	r0, [r4, #16]
	strb	r1, [r4, #17]
	strb	r2, [r4, #18]
	add	sp, #412
	pop.w	{r4, r5, r6, r7, r8, r9, r10, r11, pc}
.Lfunc_end264c5:
	.size	"server_machine::machine::SizedServer::propose::<#575f94f35bca5e04>", .Lfunc_end264c5-"server_machine::machine::SizedServer::propose::<#575f94f35bca5e04>"
	.cantunwind
	.fnend

	.section	".text.server_machine::outcome::end_badly::<=2>","ax",%progbits
	.p2align	2
	.type	"server_machine::outcome::end_badly::<=2>",%function
	.code	16
	.thumb_func
"server_machine::outcome::end_badly::<=2>":
	.fnstart
	.save	{r4, r5, r7, lr}
	push	{r4, r5, r7, lr}
	.pad	#24
	sub	sp, #24
	mov	r5, r2
	movs	r2, #0
	mov	r4, r0
	ldr	r0, [sp, #40]
	strd	r2, r2, [sp, #16]
	strd	r2, r2, [sp, #8]
	strd	r2, r2, [sp]
	movs	r2, #11
	strb	r2, [r1, #3]
	movs	r1, #3
	mov	r2, r3
	bl	"eap_packet::packet::encode_end_into"
	mov	r0, sp
	mov	r1, r5
	movs	r2, #11
	bl	"server_machine::outcome::ending"
	ldr	r2, [sp, #12]
	ldm.w	sp, {r0, r1, r3}
	str	r2, [r4, #12]
	ldrb.w	r2, [sp, #16]
	str	r1, [r4, #4]
	ldrh.w	r1, [sp, #17]
	str	r3, [r4, #8]
	strb	r2, [r4, #16]
	str	r0, [r4]
	strh.w	r1, [r4, #17]
	add	sp, #24
	pop	{r4, r5, r7, pc}
.Lfunc_endf696a:
	.size	"server_machine::outcome::end_badly::<=2>", .Lfunc_endf696a-"server_machine::outcome::end_badly::<=2>"
	.cantunwind
	.fnend

	.section	".text.eap_packet::packet::encode_end_into","ax",%progbits
	.p2align	2
	.type	"eap_packet::packet::encode_end_into",%function
	.code	16
	.thumb_func
"eap_packet::packet::encode_end_into":
	.fnstart
	.save	{r4, lr}
	push	{r4, lr}
	.pad	#16
	sub	sp, #16
	mov	r4, r0
	mov.w	r12, #0
	movs	r3, #4
	add	r0, sp, #12
	strd	r3, r12, [sp]
	bl	"eap_packet::packet::header"
	ldr	r0, [sp, #12]
	add	r1, sp, #8
	str	r0, [sp, #8]
	mov	r0, r4
	movs	r2, #4
	movs	r3, #0
	bl	"octet_lists::octets::Octets::set::<=1500>"
	add	sp, #16
	pop	{r4, pc}
.Lfunc_end84df0:
	.size	"eap_packet::packet::encode_end_into", .Lfunc_end84df0-"eap_packet::packet::encode_end_into"
	.cantunwind
	.fnend

	.section	".text.server_machine::outcome::ending","ax",%progbits
	.p2align	2
	.type	"server_machine::outcome::ending",%function
	.code	16
	.thumb_func
"server_machine::outcome::ending":
	.fnstart
	.save	{r4, r5, r7, lr}
	push	{r4, r5, r7, lr}
	.pad	#64
	sub	sp, #64
	mov	r4, r0
	movs	r0, #0
	mov	r5, r1
	strd	r0, r0, [sp, #56]
	strd	r0, r0, [sp, #48]
	strd	r0, r0, [sp, #40]
	strd	r0, r0, [sp, #16]
	strd	r0, r0, [sp, #24]
	strd	r0, r0, [sp, #32]
	strb.w	r2, [sp, #15]
	add	r0, sp, #16
	add.w	r1, sp, #15
	movs	r2, #1
	movs	r3, #0
	bl	"eap_method::step::Step::sending"
	uxtb	r0, r5
	movw	r2, :lower16:.Lstatic.20
	movs	r3, #4
	movt	r2, :upper16:.Lstatic.20
.LCPI83878_0:
	tbb	[pc, r0]
.LJTI83878_0:
	.byte	(.LBB83878_6-(.LCPI83878_0+4))/2
	.byte	(.LBB83878_2-(.LCPI83878_0+4))/2
	.byte	(.LBB83878_4-(.LCPI83878_0+4))/2
	.byte	(.LBB83878_5-(.LCPI83878_0+4))/2
	.byte	(.LBB83878_3-(.LCPI83878_0+4))/2
	.p2align	1
.LBB83878_2:
	movw	r2, :lower16:.Lstatic.21
	movs	r3, #3
	movt	r2, :upper16:.Lstatic.21
	b	.LBB83878_6
.LBB83878_3:
	movw	r2, :lower16:.Lstatic.24
	movs	r3, #2
	movt	r2, :upper16:.Lstatic.24
	b	.LBB83878_6
.LBB83878_4:
	movw	r2, :lower16:.Lstatic.22
	movs	r3, #3
	movt	r2, :upper16:.Lstatic.22
	b	.LBB83878_6
.LBB83878_5:
	movw	r2, :lower16:.Lstatic.23
	movs	r3, #2
	movt	r2, :upper16:.Lstatic.23
.LBB83878_6:
	movs	r5, #0
	add	r0, sp, #40
	add	r1, sp, #16
	strd	r3, r5, [sp]
	bl	"eap_method::step::Step::after"
	ldr	r2, [sp, #52]
	add	r3, sp, #40
	ldm	r3, {r0, r1, r3}
	str	r2, [r4, #12]
	ldrb.w	r2, [sp, #56]
	str	r1, [r4, #4]
	ldrh.w	r1, [sp, #57]
	str	r3, [r4, #8]
	strb	r2, [r4, #16]
	str	r0, [r4]
	strh.w	r1, [r4, #17]
	add	sp, #64
	pop	{r4, r5, r7, pc}
.Lfunc_end83878:
	.size	"server_machine::outcome::ending", .Lfunc_end83878-"server_machine::outcome::ending"
	.cantunwind
	.fnend

	.section	".text.end_objects::objects::ServerObjectServerMethod::first_into","ax",%progbits
	.p2align	2
	.type	"end_objects::objects::ServerObjectServerMethod::first_into",%function
	.code	16
	.thumb_func
"end_objects::objects::ServerObjectServerMethod::first_into":
	.fnstart
	.save	{r4, r5, r6, r7, r8, r9, r10, r11, lr}
	push.w	{r4, r5, r6, r7, r8, r9, r10, r11, lr}
	.pad	#220
	sub	sp, #220
	mov	r4, r0
	ldrb	r3, [r4], #8
	cmp	r3, #0
	beq	.LBBe3a2c_4
	ldrb.w	r3, [r0, #320]
	cmp	r3, #1
	bne	.LBBe3a2c_6
	ldrb.w	r3, [r0, #321]
	cmp	r3, #0
	bne	.LBBe3a2c_6
	add	r3, sp, #32
	mov	r8, r0
	mov	r0, r3
	str	r1, [sp, #4]
	movs	r1, #160
	str	r2, [sp]
	bl	__aeabi_memclr8
	add.w	r10, sp, #8
	mov.w	r9, #0
	mov	r0, r10
	mov	r1, r4
	strd	r9, r9, [sp, #24]
	strd	r9, r9, [sp, #16]
	strd	r9, r9, [sp, #8]
	bl	"gpsk_ends::server::login::Initial::suite_list"
	add.w	r11, sp, #192
	ldm.w	r10, {r1, r2, r3, r5, r6, r7}
	mov	r0, r11
	stm	r0!, {r1, r2, r3, r5, r6, r7}
	add	r7, sp, #32
	ldrd	r5, r6, [r8, #264]
	add.w	r1, r8, #288
	add.w	r0, r7, #24
	movs	r2, #32
	bl	__aeabi_memcpy
	ldrd	r0, r1, [sp, #208]
	ldr	r3, [sp, #4]
	strd	r0, r1, [sp, #96]
	ldr	r0, [sp]
	mov	r1, r7
	movs	r2, #0
	str.w	r9, [sp, #32]
	strd	r4, r9, [sp, #40]
	strd	r5, r6, [sp, #48]
	strd	r11, r9, [sp, #88]
	bl	"gpsk_messages::writing::write_gpsk_into"
	movs	r0, #1
	strb.w	r0, [r8, #321]
	add	sp, #220
	pop.w	{r4, r5, r6, r7, r8, r9, r10, r11, pc}
.LBBe3a2c_4:
	ldrb	r3, [r4]
	cmp	r3, #1
	bne	.LBBe3a2c_6
	ldrb.w	r3, [r0, #328]
	cbz	r3, .LBBe3a2c_9
.LBBe3a2c_6:
	ldr.w	r1, [r2, #1504]
	ldr.w	r0, [r2, #1508]
	orrs	r0, r1
	beq	.LBBe3a2c_8
	mov	r0, r2
	add.w	r4, r2, #1504
	bl	__aeabi_memclr
	movs	r0, #0
	str	r0, [r4]
	str	r0, [r4, #4]
.LBBe3a2c_8:
	add	sp, #220
	pop.w	{r4, r5, r6, r7, r8, r9, r10, r11, pc}
.LBBe3a2c_9:
	mov	r4, r1
	add	r1, sp, #32
	add.w	r5, r0, #16
	mov	r7, r0
	mov	r0, r1
	movs	r1, #72
	mov	r6, r2
	bl	__aeabi_memclr8
	add.w	r0, r7, #296
	add	r1, sp, #192
	subs	r1, r1, r0
	mov.w	r3, #0
	mov	r2, r7
	sbc	r7, r3, #0
	rsbs.w	r1, r1, #15
	sbcs.w	r1, r3, r7
	ldr	r1, [r0]
	ldr	r3, [r0, #4]
	ldr	r7, [r0, #12]
	ldr	r0, [r0, #8]
	strd	r1, r3, [sp, #192]
	strd	r0, r7, [sp, #200]
	add	r7, sp, #192
	mov	r0, r6
	ldm	r7, {r1, r3, r6, r7}
	add.w	r12, sp, #40
	stm.w	r12, {r1, r3, r6, r7}
	ldrd	r1, r3, [r2, #272]
	mov.w	r7, #0
	strd	r5, r7, [sp, #56]
	strd	r1, r3, [sp, #64]
	add	r1, sp, #32
	mov	r5, r2
	mov.w	r2, #0
	mov	r3, r4
	str	r7, [sp, #32]
	bl	"psk_messages::writing::write_psk_into"
	mov.w	r0, #1
	strb.w	r0, [r5, #328]
	add	sp, #220
	pop.w	{r4, r5, r6, r7, r8, r9, r10, r11, pc}
.Lfunc_ende3a2c:
	.size	"end_objects::objects::ServerObjectServerMethod::first_into", .Lfunc_ende3a2c-"end_objects::objects::ServerObjectServerMethod::first_into"
	.cantunwind
	.fnend

	.section	".text.gpsk_ends::server::login::Initial::suite_list","ax",%progbits
	.p2align	2
	.type	"gpsk_ends::server::login::Initial::suite_list",%function
	.code	16
	.thumb_func
"gpsk_ends::server::login::Initial::suite_list":
	.fnstart
	.save	{r4, r5, r6, r7, r8, r9, r10, r11, lr}
	push.w	{r4, r5, r6, r7, r8, r9, r10, r11, lr}
	.pad	#52
	sub	sp, #52
	mov	r6, r0
	ldrd	r0, r12, [r1, #272]
	movs	r2, #0
	orrs.w	r3, r0, r12
	strd	r2, r2, [sp, #40]
	strd	r2, r2, [sp, #32]
	str	r2, [sp, #28]
	str	r2, [sp, #24]
	beq.w	.LBB855e9_44
	add.w	r10, r1, #264
	ldrd	r1, r11, [sp, #40]
	subs	r3, r0, #4
	mov.w	r4, #-1
	mvn	r8, #5
	and	r2, r0, #3
	sbcs	r3, r12, #0
	str	r2, [sp, #8]
	bhs	.LBB855e9_3
	movs	r5, #0
	b	.LBB855e9_27
.LBB855e9_3:
	str	r6, [sp, #4]
	bic	r0, r0, #3
	mov.w	r9, #0
	movs	r5, #0
	movs	r6, #0
	str	r0, [sp, #12]
	b	.LBB855e9_7
	.p2align	2
.LBB855e9_4:
	movs	r2, #0
	strb	r2, [r0, #4]
	str	r2, [r0]
	strb	r7, [r0, #5]
.LBB855e9_5:
	adds	r1, #6
	adc	r11, r11, #0
	strd	r1, r11, [sp, #40]
.LBB855e9_6:
	adds	r5, #4
	ldr	r0, [sp, #12]
	adc	r6, r6, #0
	eors	r0, r5
	eor.w	r2, r6, r12
	orrs	r0, r2
	beq.w	.LBB855e9_26
.LBB855e9_7:
	mov	r0, r9
	strb.w	r0, [sp, #20]
	subs.w	r0, r1, #13
	ldrb.w	r7, [r10, r5]
	sbc	r3, r11, #0
	subs.w	r0, r0, r8
	str.w	r9, [sp, #16]
	mov.w	r9, #0
	sbcs.w	r0, r3, r4
	strb.w	r7, [sp, #21]
	bhs	.LBB855e9_10
	add	r0, sp, #24
	adds	r3, r0, r1
	add	r0, sp, #16
	subs	r4, r3, r0
	mov.w	r0, #0
	sbc	r2, r0, #0
	rsbs.w	r4, r4, #5
	sbcs.w	r2, r0, r2
	blo	.LBB855e9_11
	strb	r0, [r3, #4]
	str	r0, [r3]
	strb	r7, [r3, #5]
	b	.LBB855e9_12
	.p2align	2
.LBB855e9_10:
	mvn	r3, #5
	b	.LBB855e9_13
	.p2align	2
.LBB855e9_11:
	ldrh.w	r0, [sp, #20]
	ldr	r2, [sp, #16]
	strh	r0, [r3, #4]
	str	r2, [r3]
.LBB855e9_12:
	adds	r1, #6
	mvn	r3, #5
	adc	r11, r11, #0
	mov.w	r4, #-1
	strd	r1, r11, [sp, #40]
.LBB855e9_13:
	add.w	r7, r10, r5
	subs.w	r0, r1, #13
	ldrb.w	lr, [r7, #1]
	sbc	r2, r11, #0
	subs	r0, r0, r3
	mov.w	r8, #0
	sbcs.w	r0, r2, r4
	str.w	r8, [sp, #16]
	strb.w	r8, [sp, #20]
	strb.w	lr, [sp, #21]
	bhs	.LBB855e9_18
	add	r0, sp, #24
	adds	r3, r0, r1
	add	r0, sp, #16
	subs	r0, r3, r0
	sbc	r2, r8, #0
	subs	r0, #6
	sbcs	r0, r2, #0
	bhs	.LBB855e9_16
	movs	r0, #0
	strb	r0, [r3, #4]
	str	r0, [r3]
	strb.w	lr, [r3, #5]
	b	.LBB855e9_17
	.p2align	2
.LBB855e9_16:
	ldrh.w	r0, [sp, #20]
	ldr	r2, [sp, #16]
	strh	r0, [r3, #4]
	str	r2, [r3]
.LBB855e9_17:
	adds	r1, #6
	adc	r11, r11, #0
	strd	r1, r11, [sp, #40]
.LBB855e9_18:
	str.w	r8, [sp, #16]
	strb.w	r8, [sp, #20]
	subs.w	r0, r1, #13
	mvn	r8, #5
	ldrb	r3, [r7, #2]
	sbc	r2, r11, #0
	subs.w	r0, r0, r8
	sbcs.w	r0, r2, r4
	strb.w	r3, [sp, #21]
	bhs	.LBB855e9_23
	add	r0, sp, #24
	add	r0, r1
	add	r2, sp, #16
	subs	r2, r0, r2
	mov.w	lr, #0
	sbc	r4, lr, #0
	subs	r2, #6
	sbcs	r2, r4, #0
	bhs	.LBB855e9_21
	strb.w	lr, [r0, #4]
	str.w	lr, [r0]
	strb	r3, [r0, #5]
	b	.LBB855e9_22
	.p2align	2
.LBB855e9_21:
	ldrh.w	r2, [sp, #20]
	ldr	r3, [sp, #16]
	strh	r2, [r0, #4]
	str	r3, [r0]
.LBB855e9_22:
	adds	r1, #6
	adc	r11, r11, #0
	mov.w	r4, #-1
	strd	r1, r11, [sp, #40]
.LBB855e9_23:
	subs.w	r0, r1, #13
	ldrb	r7, [r7, #3]
	sbc	r2, r11, #0
	subs.w	r0, r0, r8
	mov.w	r3, #0
	sbcs.w	r0, r2, r4
	str	r3, [sp, #16]
	strb.w	r3, [sp, #20]
	strb.w	r7, [sp, #21]
	bhs.w	.LBB855e9_6
	add	r0, sp, #24
	add	r0, r1
	add	r2, sp, #16
	subs	r2, r0, r2
	sbc	r3, r3, #0
	subs	r2, #6
	sbcs	r2, r3, #0
	blo.w	.LBB855e9_4
	ldrh.w	r2, [sp, #20]
	ldr	r3, [sp, #16]
	strh	r2, [r0, #4]
	str	r3, [r0]
	b	.LBB855e9_5
.LBB855e9_26:
	ldr	r0, [sp, #8]
	ldr	r6, [sp, #4]
	mov.w	r4, #-1
	cmp	r0, #0
	beq.w	.LBB855e9_44
.LBB855e9_27:
	movs	r2, #0
	str	r2, [sp, #16]
	strb.w	r2, [sp, #20]
	subs.w	r2, r1, #13
	ldrb.w	r0, [r10, r5]
	sbc	r3, r11, #0
	subs.w	r2, r2, r8
	sbcs.w	r2, r3, r4
	strb.w	r0, [sp, #21]
	bhs	.LBB855e9_32
	add	r2, sp, #24
	adds	r3, r2, r1
	add	r2, sp, #16
	subs	r2, r3, r2
	mov.w	r7, #0
	mov	r12, r6
	sbc	r6, r7, #0
	subs	r2, #6
	sbcs	r2, r6, #0
	bhs	.LBB855e9_30
	strb	r7, [r3, #4]
	str	r7, [r3]
	strb	r0, [r3, #5]
	b	.LBB855e9_31
.LBB855e9_30:
	ldrh.w	r0, [sp, #20]
	ldr	r2, [sp, #16]
	strh	r0, [r3, #4]
	str	r2, [r3]
.LBB855e9_31:
	adds	r1, #6
	adc	r11, r11, #0
	mov	r6, r12
	strd	r1, r11, [sp, #40]
.LBB855e9_32:
	ldr	r0, [sp, #8]
	cmp	r0, #1
	beq	.LBB855e9_44
	add	r5, r10
	subs.w	r0, r1, #13
	ldrb	r7, [r5, #1]
	sbc	r2, r11, #0
	subs.w	r0, r0, r8
	mov.w	r3, #0
	sbcs.w	r0, r2, r4
	str	r3, [sp, #16]
	strb.w	r3, [sp, #20]
	strb.w	r7, [sp, #21]
	bhs	.LBB855e9_38
	add	r0, sp, #24
	add	r0, r1
	add	r2, sp, #16
	subs	r2, r0, r2
	sbc	r3, r3, #0
	subs	r2, #6
	sbcs	r2, r3, #0
	bhs	.LBB855e9_36
	movs	r2, #0
	strb	r2, [r0, #4]
	str	r2, [r0]
	strb	r7, [r0, #5]
	b	.LBB855e9_37
.LBB855e9_36:
	ldrh.w	r2, [sp, #20]
	ldr	r3, [sp, #16]
	strh	r2, [r0, #4]
	str	r3, [r0]
.LBB855e9_37:
	adds	r1, #6
	adc	r11, r11, #0
	strd	r1, r11, [sp, #40]
.LBB855e9_38:
	ldr	r0, [sp, #8]
	cmp	r0, #2
	beq	.LBB855e9_44
	subs.w	r0, r1, #13
	ldrb	r7, [r5, #2]
	sbc	r2, r11, #0
	subs.w	r0, r0, r8
	mov.w	r3, #0
	sbcs.w	r0, r2, r4
	str	r3, [sp, #16]
	strb.w	r3, [sp, #20]
	strb.w	r7, [sp, #21]
	bhs	.LBB855e9_44
	add	r0, sp, #24
	add	r0, r1
	add	r2, sp, #16
	subs	r2, r0, r2
	sbc	r3, r3, #0
	subs	r2, #6
	sbcs	r2, r3, #0
	bhs	.LBB855e9_42
	movs	r2, #0
	strb	r2, [r0, #4]
	str	r2, [r0]
	strb	r7, [r0, #5]
	b	.LBB855e9_43
.LBB855e9_42:
	ldrh.w	r2, [sp, #20]
	ldr	r3, [sp, #16]
	strh	r2, [r0, #4]
	str	r3, [r0]
.LBB855e9_43:
	adds	r0, r1, #6
	adc	r1, r11, #0
	strd	r0, r1, [sp, #40]
.LBB855e9_44:
	add	r1, sp, #24
	mov	r0, r6
	movs	r2, #24
	bl	__aeabi_memcpy
	add	sp, #52
	pop.w	{r4, r5, r6, r7, r8, r9, r10, r11, pc}
.Lfunc_end855e9:
	.size	"gpsk_ends::server::login::Initial::suite_list", .Lfunc_end855e9-"gpsk_ends::server::login::Initial::suite_list"
	.cantunwind
	.fnend

	.section	".text.server_machine::outcome::send_request::<=2>","ax",%progbits
	.p2align	2
	.type	"server_machine::outcome::send_request::<=2>",%function
	.code	16
	.thumb_func
"server_machine::outcome::send_request::<=2>":
	.fnstart
	ldrb	r2, [r0, #4]
	cbz	r2, .LBB479f2_2
	ldrb	r2, [r0, #5]
	adds	r2, #1
	b	.LBB479f2_3
.LBB479f2_2:
	ldrb	r2, [r0, #1]
.LBB479f2_3:
	movs	r3, #1
	strb	r2, [r0, #5]
	movs	r2, #0
	strb	r3, [r0, #4]
	strb	r2, [r0, #9]
	ldr.w	r2, [r1, #1504]
	ldr.w	r3, [r1, #1508]
	adds	r0, #32
	b	"octet_lists::octets::Octets::set::<=1500>"
.Lfunc_end479f2:
	.size	"server_machine::outcome::send_request::<=2>", .Lfunc_end479f2-"server_machine::outcome::send_request::<=2>"
	.cantunwind
	.fnend

	.section	".text.eap_method::server_objects::call_server_method::<#80187fcbb1ba111c>","ax",%progbits
	.p2align	2
	.type	"eap_method::server_objects::call_server_method::<#80187fcbb1ba111c>",%function
	.code	16
	.thumb_func
"eap_method::server_objects::call_server_method::<#80187fcbb1ba111c>":
	.fnstart
	.save	{r4, r5, r6, r7, r8, r9, r10, r11, lr}
	push.w	{r4, r5, r6, r7, r8, r9, r10, r11, lr}
	.pad	#44
	sub	sp, #44
	ldr	r5, [sp, #116]
	orrs.w	r1, r2, r3
	beq	.LBBaced1_3
	ldrb	r4, [r0]
	ldr	r7, [sp, #80]
	add.w	r10, sp, #84
	mov	r12, r3
	mov	lr, r2
	ldr.w	r9, [sp, #104]
	ldr.w	r11, [sp, #112]
	ldm.w	r10, {r1, r2, r3, r6, r10}
	cmp	r4, #0
	mov.w	r4, #51
	uxtb.w	r8, r7
	it	eq
	moveq	r4, #47
	cmp	r4, r8
	bne	.LBBaced1_4
	ldr	r7, [sp, #108]
	strd	r6, r10, [sp]
	str.w	r9, [sp, #8]
	strd	r11, r5, [sp, #16]
	str	r7, [sp, #12]
	bl	"end_objects::objects::ServerObjectServerMethod::handle_unrecorded"
	add	sp, #44
	pop.w	{r4, r5, r6, r7, r8, r9, r10, r11, pc}
.LBBaced1_3:
	movs	r0, #0
	strd	r0, r0, [r5]
	strd	r0, r0, [r5, #8]
	movs	r1, #22
	add	sp, #44
	pop.w	{r4, r5, r6, r7, r8, r9, r10, r11, pc}
.LBBaced1_4:
	subs.w	lr, lr, #1
	strd	r7, r1, [sp]
	add	r1, sp, #8
	sbc	r12, r12, #0
	stm.w	r1, {r2, r3, r6, r10}
	ldr	r1, [sp, #108]
	add.w	r0, r0, #1256
	mov	r2, lr
	mov	r3, r12
	strd	r11, r5, [sp, #32]
	str.w	r9, [sp, #24]
	str	r1, [sp, #28]
	bl	"eap_method::server_objects::call_server_method::<#80187fcbb1ba111c>"
	add	sp, #44
	pop.w	{r4, r5, r6, r7, r8, r9, r10, r11, pc}
.Lfunc_endaced1:
	.size	"eap_method::server_objects::call_server_method::<#80187fcbb1ba111c>", .Lfunc_endaced1-"eap_method::server_objects::call_server_method::<#80187fcbb1ba111c>"
	.cantunwind
	.fnend

	.section	".text.end_objects::objects::ServerObjectServerMethod::handle_unrecorded","ax",%progbits
	.p2align	2
	.type	"end_objects::objects::ServerObjectServerMethod::handle_unrecorded",%function
	.code	16
	.thumb_func
"end_objects::objects::ServerObjectServerMethod::handle_unrecorded":
	.fnstart
	.save	{r4, r5, r6, r7, r8, lr}
	push.w	{r4, r5, r6, r7, r8, lr}
	ldrb	r4, [r0], #8
	ldr	r7, [sp, #44]
	ldrd	r12, r6, [sp, #36]
	ldrd	r8, lr, [sp, #28]
	ldr	r5, [sp, #24]
	cbz	r4, .LBB9d18a_2
	add	r4, sp, #24
	str	r7, [sp, #44]
	stm.w	r4, {r5, r8, lr}
	strd	r12, r6, [sp, #36]
	pop.w	{r4, r5, r6, r7, r8, lr}
	b	"gpsk_ends::server::GpskServer::handle_step::<#e0641de541981142>"
.LBB9d18a_2:
	add	r4, sp, #24
	str	r7, [sp, #44]
	stm.w	r4, {r5, r8, lr}
	strd	r12, r6, [sp, #36]
	pop.w	{r4, r5, r6, r7, r8, lr}
	b	"psk_ends::server::PskServer::handle_step::<#becd8de5e2060522>"
.Lfunc_end9d18a:
	.size	"end_objects::objects::ServerObjectServerMethod::handle_unrecorded", .Lfunc_end9d18a-"end_objects::objects::ServerObjectServerMethod::handle_unrecorded"
	.cantunwind
	.fnend

	.section	".text.psk_ends::server::PskServer::handle_step::<#becd8de5e2060522>","ax",%progbits
	.p2align	2
	.type	"psk_ends::server::PskServer::handle_step::<#becd8de5e2060522>",%function
	.code	16
	.thumb_func
"psk_ends::server::PskServer::handle_step::<#becd8de5e2060522>":
	.fnstart
	.save	{r4, r5, r6, r7, r8, r9, r10, r11, lr}
	push.w	{r4, r5, r6, r7, r8, r9, r10, r11, lr}
	.pad	#916
	sub.w	sp, sp, #916
	mov	r6, r1
	ldr	r7, [sp, #972]
	mov	r11, r0
	add	r0, sp, #32
	mov.w	r1, #312
	mov	r9, r3
	mov	r10, r2
	bl	__aeabi_memclr8
	ldrb.w	r0, [r11]
	cbz	r0, .LBB738a9_5
	cmp	r0, #2
	bne	.LBB738a9_6
	ldrb.w	r0, [r11, #1240]
	cbnz	r0, .LBB738a9_8
	add	r5, sp, #768
	mov	r0, r5
	movs	r1, #80
	bl	__aeabi_memclr8
	subs.w	r2, r10, #5
	add.w	r1, r6, #5
	sbc	r3, r9, #0
	mov	r0, r5
	bl	"psk_messages::reading::read_psk_message"
	ldrb.w	r0, [sp, #769]
	add.w	r8, sp, #700
	str	r0, [sp, #28]
	ldrb.w	r0, [sp, #776]
	ldrb.w	r4, [sp, #768]
	str	r0, [sp, #24]
	add.w	r1, r5, #12
	mov	r0, r8
	movs	r2, #68
	bl	__aeabi_memcpy4
	cmp	r4, #1
	bne	.LBB738a9_13
	ldr	r1, [sp, #28]
	movs	r0, #0
	b	.LBB738a9_18
.LBB738a9_5:
	movs	r1, #22
	b	.LBB738a9_9
.LBB738a9_6:
	ldrb.w	r1, [r11, #320]
	ldrd	r2, r0, [sp, #960]
	ldr	r4, [sp, #968]
	ldrd	r8, r3, [sp, #952]
	cbz	r1, .LBB738a9_8
	cmp	r1, #2
	bne	.LBB738a9_11
.LBB738a9_8:
	mov	r0, r6
	mov	r2, r10
	mov	r3, r9
	bl	"psk_ends::octets::idle_cause"
	mov	r1, r0
.LBB738a9_9:
	movs	r0, #0
.LBB738a9_10:
	movs	r2, #0
	strd	r2, r2, [r7]
	strd	r2, r2, [r7, #8]
	add.w	sp, sp, #916
	pop.w	{r4, r5, r6, r7, r8, r9, r10, r11, pc}
.LBB738a9_11:
	add	r5, sp, #32
	add.w	r1, r11, #8
	strd	r2, r0, [sp, #16]
	mov	r0, r5
	mov	r2, r6
	strd	r10, r9, [sp]
	str	r3, [sp, #8]
	bl	"psk_ends::server::psk3::asked_reads"
	ldrb.w	r0, [sp, #32]
	cmp	r0, #1
	bne	.LBB738a9_16
	ldrb.w	r1, [sp, #33]
	b	.LBB738a9_9
.LBB738a9_13:
	ldr	r0, [sp, #24]
	movs	r1, #22
	cmp	r0, #3
	mov.w	r0, #0
	bne	.LBB738a9_18
	str	r6, [sp, #28]
	add.w	r12, sp, #768
	ldm.w	r8!, {r3, r4, r5, r6, r7}
	mov	r2, r12
	stm	r2!, {r3, r4, r5, r6, r7}
	ldm.w	r8, {r3, r4, r5, r6, r7}
	cmp.w	r10, #22
	stm	r2!, {r3, r4, r5, r6, r7}
	it	hs
	movhs	r10, r1
	cmp.w	r9, #0
	it	ne
	movne	r10, r1
	add.w	r1, r11, #288
	add	r3, sp, #900
	subs	r3, r3, r1
	sbc	r7, r0, #0
	rsbs.w	r3, r3, #15
	strd	r12, r0, [sp, #880]
	str	r0, [sp, #892]
	mov.w	r2, #16
	sbcs	r0, r7
	str	r2, [sp, #888]
	ldr	r0, [r1]
	ldr	r2, [r1, #4]
	ldr	r3, [r1, #12]
	ldr	r1, [r1, #8]
	strd	r0, r2, [sp, #900]
	strd	r1, r3, [sp, #908]
	ldr	r2, [sp, #912]
	add	r3, sp, #900
	ldm	r3, {r0, r1, r3}
	str	r2, [sp, #876]
	add	r2, sp, #864
	stm	r2!, {r0, r1, r3}
	add	r0, sp, #864
	str	r0, [sp, #848]
	mov.w	r0, #0
	str	r0, [sp, #852]
	str	r0, [sp, #860]
	mov.w	r0, #16
	str	r0, [sp, #856]
	add	r0, sp, #880
	add	r1, sp, #848
	bl	"core::cmp::PartialEq::ne::<#4f69ed2539eb7fe9>"
	ldr	r7, [sp, #972]
	ldr	r1, [sp, #28]
	cbz	r0, .LBB738a9_23
	movs	r1, #25
	movs	r0, #0
	b	.LBB738a9_18
.LBB738a9_16:
	ldrb.w	r0, [sp, #40]
	cbz	r0, .LBB738a9_21
	adds	r5, #16
	add	r6, sp, #348
	mov	r0, r6
	mov	r1, r5
	bl	"psk_ends::server::login::UserPsk2::keys"
	mov	r0, r11
	mov	r1, r5
	mov	r2, r6
	mov	r3, r8
	strd	r4, r7, [sp]
	bl	"psk_ends::server::turns::log_in::<#becd8de5e2060522>"
.LBB738a9_18:
	uxtb	r2, r0
	cmp	r2, #2
	beq	.LBB738a9_22
	cmp	r2, #1
	bne.w	.LBB738a9_10
	movs	r1, #0
	add.w	sp, sp, #916
	pop.w	{r4, r5, r6, r7, r8, r9, r10, r11, pc}
.LBB738a9_21:
	movs	r1, #0
	movs	r0, #2
	strd	r1, r1, [r7]
	strd	r1, r1, [r7, #8]
	strb.w	r0, [r11, #320]
.LBB738a9_22:
	and	r1, r1, #1
	add.w	sp, sp, #916
	pop.w	{r4, r5, r6, r7, r8, r9, r10, r11, pc}
.LBB738a9_23:
	ldr	r0, [sp, #784]
	cmp	r0, #1
	bne	.LBB738a9_27
	add	r0, sp, #768
	add.w	r7, r0, #16
	addw	r0, r11, #1025
	mov	r2, r10
	movs	r3, #0
	str	r7, [sp]
	bl	"psk_ends::channel::open"
	lsls	r0, r0, #24
	beq	.LBB738a9_28
	mov	r0, r1
	bl	"psk_ends::channel::check_result"
	uxtb	r0, r0
	ldr	r7, [sp, #972]
	sxtb	r1, r1
	cmp	r0, #1
	mov.w	r0, #0
	beq	.LBB738a9_18
	movs	r2, #1
	strd	r2, r0, [r7]
	strd	r0, r0, [r7, #8]
	ldrb.w	r3, [r11, #672]
	cmn.w	r1, #64
	sub.w	r3, r3, #2
	clz	r3, r3
	lsr.w	r3, r3, #5
	it	lt
	movlt	r0, #1
	and.w	r1, r0, r3
	strb.w	r2, [r11, #1240]
	strb.w	r1, [r11, #1241]
	movs	r0, #2
	b	.LBB738a9_18
.LBB738a9_27:
	movs	r1, #27
	movs	r0, #0
	b	.LBB738a9_18
.LBB738a9_28:
	ldr	r7, [sp, #972]
	movs	r1, #28
	movs	r0, #0
	b	.LBB738a9_18
.Lfunc_end738a9:
	.size	"psk_ends::server::PskServer::handle_step::<#becd8de5e2060522>", .Lfunc_end738a9-"psk_ends::server::PskServer::handle_step::<#becd8de5e2060522>"
	.cantunwind
	.fnend

	.section	".text.psk_ends::server::psk3::asked_reads","ax",%progbits
	.p2align	2
	.type	"psk_ends::server::psk3::asked_reads",%function
	.code	16
	.thumb_func
"psk_ends::server::psk3::asked_reads":
	.fnstart
	.save	{r4, r5, r6, r7, r8, r9, r10, r11, lr}
	push.w	{r4, r5, r6, r7, r8, r9, r10, r11, lr}
	.pad	#1364
	subw	sp, sp, #1364
	str	r1, [sp, #44]
	ldr.w	r9, [sp, #1404]
	ldr.w	r6, [sp, #1400]
	mov	r10, r0
	add	r0, sp, #604
	movs	r1, #64
	mov	r5, r2
	bl	__aeabi_memclr4
	add	r0, sp, #396
	movs	r1, #208
	bl	__aeabi_memclr4
	mov.w	r8, #0
	add	r0, sp, #284
	movs	r1, #64
	strd	r8, r8, [sp, #388]
	strd	r8, r8, [sp, #380]
	bl	__aeabi_memclr4
	add	r0, sp, #76
	movs	r1, #208
	bl	__aeabi_memclr4
	add.w	r7, sp, #1088
	mov	r0, r7
	movs	r1, #80
	strd	r8, r8, [sp, #68]
	strd	r8, r8, [sp, #60]
	bl	__aeabi_memclr8
	subs	r2, r6, #5
	add.w	r1, r5, #5
	sbc	r3, r9, #0
	mov	r0, r7
	bl	"psk_messages::reading::read_psk_message"
	add	r5, sp, #668
	ldrb.w	r4, [sp, #1088]
	ldrb.w	r11, [sp, #1089]
	ldrb.w	r6, [sp, #1096]
	add.w	r1, r7, #12
	mov	r0, r5
	movs	r2, #68
	bl	__aeabi_memcpy4
	cmp	r4, #1
	bne	.LBB4e079_2
	mov.w	r9, #1
	mov.w	r12, #0
	movs	r0, #0
	b	.LBB4e079_19
.LBB4e079_2:
	cmp	r6, #1
	mov.w	r12, #0
	bne.w	.LBB4e079_11
	adds	r0, r5, #4
	ldm	r0!, {r2, r3, r4, r5, r6}
	add	r1, sp, #736
	stm	r1!, {r2, r3, r4, r5, r6}
	ldr	r2, [sp, #44]
	mov.w	r11, #25
	add.w	lr, r2, #280
	subs.w	r2, r7, lr
	sbc	r3, r12, #0
	rsbs.w	r2, r2, #15
	ldm	r0!, {r2, r4, r5, r6, r7}
	mov.w	r9, #1
	stm	r1!, {r2, r4, r5, r6, r7}
	sbcs.w	r2, r12, r3
	ldm.w	r0, {r2, r3, r4, r5, r6, r7}
	add.w	r12, sp, #348
	stm	r1!, {r2, r3, r4, r5, r6, r7}
	ldr.w	r2, [lr, #12]
	ldr.w	r0, [lr]
	ldr.w	r3, [lr, #8]
	str.w	r2, [sp, #1100]
	add.w	r2, sp, #1088
	ldr.w	r1, [lr, #4]
	stm	r2!, {r0, r1, r3}
	add.w	r3, sp, #1088
	ldm	r3, {r0, r1, r3}
	ldr.w	r2, [sp, #1100]
	strd	r1, r3, [sp, #368]
	stm.w	r12, {r0, r1, r3}
	ldrb.w	r1, [sp, #736]
	strd	r2, r0, [sp, #360]
	uxtb	r0, r0
	cmp	r1, r0
	str	r2, [sp, #376]
	bne.w	.LBB4e079_12
	ldrb.w	r0, [sp, #737]
	ldrb.w	r1, [sp, #349]
	cmp	r0, r1
	bne.w	.LBB4e079_12
	ldrb.w	r0, [sp, #738]
	ldrb.w	r1, [sp, #350]
	cmp	r0, r1
	bne.w	.LBB4e079_12
	movs	r0, #0
	str	r0, [sp, #36]
	ldrb.w	r0, [sp, #739]
	ldrb.w	r1, [sp, #351]
	cmp	r0, r1
	mov.w	r0, #0
	str	r0, [sp, #40]
	bne.w	.LBB4e079_18
	movs	r4, #0
	movs	r0, #16
	add	r7, sp, #736
	strd	r0, r4, [sp, #8]
	add	r1, sp, #348
	mov	r0, r7
	movs	r2, #16
	movs	r3, #0
	mov	r5, lr
	str	r1, [sp]
	bl	"core::cmp::slices::groups_equal::<i8,31'core::cmp::numbers::U8PartialEq{}>"
	cmp	r0, #0
	beq.w	.LBB4e079_13
	add.w	r11, sp, #1024
	ldr.w	r9, [sp, #1408]
	mov	r0, r11
	movs	r1, #64
	bl	__aeabi_memclr4
	add	r0, sp, #816
	movs	r1, #208
	bl	__aeabi_memclr4
	ldrd	r0, r1, [sp, #792]
	movs	r2, #47
	add	r3, sp, #8
	ldr	r6, [sp, #784]
	stm	r3!, {r0, r1, r2}
	ldr.w	r2, [sp, #1416]
	ldr.w	r3, [sp, #1420]
	add	r0, sp, #48
	mov	r1, r9
	str	r4, [sp, #812]
	strd	r4, r4, [sp, #804]
	str	r4, [sp, #800]
	str	r6, [sp]
	bl	"login_setup::users::find_user"
	ldrb.w	r0, [sp, #48]
	cmp	r0, #0
	beq.w	.LBB4e079_14
	ldr	r1, [sp, #56]
	addw	r9, sp, #1300
	str	r1, [sp, #40]
	add.w	r1, r1, #272
	mov	r0, r9
	bl	"psk_ends::keys::long_keys"
	add.w	r0, sp, #1088
	mov	r1, r9
	bl	"cmac_mac::key::CmacKey::new"
	addw	r2, sp, #1348
	subs	r2, r2, r5
	mov.w	r3, #0
	sbc	r6, r3, #0
	rsbs.w	r2, r2, #15
	sbcs.w	r2, r3, r6
	ldr	r3, [r5, #4]
	ldr	r6, [r5, #12]
	ldr	r2, [r5]
	ldr	r5, [r5, #8]
	str.w	r6, [sp, #1360]
	str.w	r3, [sp, #1352]
	str.w	r5, [sp, #1356]
	ldr.w	r3, [sp, #1352]
	ldr.w	r6, [sp, #1360]
	ldr	r0, [sp, #44]
	str.w	r2, [sp, #1348]
	ldr.w	r5, [sp, #1356]
	ldr.w	r2, [sp, #1348]
	str.w	r6, [sp, #1344]
	str.w	r3, [sp, #1336]
	ldrd	r3, r6, [sp, #792]
	ldrd	r1, r0, [r0, #256]
	str.w	r5, [sp, #1340]
	add.w	r5, r7, #16
	addw	r4, sp, #1332
	str.w	r2, [sp, #1332]
	ldr	r2, [sp, #784]
	strd	r4, r5, [sp, #24]
	strd	r3, r6, [sp]
	addw	r5, sp, #1348
	ldr	r3, [sp, #44]
	strd	r1, r0, [sp, #16]
	add.w	r1, sp, #1088
	mov	r0, r5
	str	r3, [sp, #8]
	bl	"eap_method::psk_macs::mac_p"
	mov.w	r4, #0
	mov.w	r0, #16
	add.w	r1, r7, #32
	strd	r0, r4, [sp, #8]
	mov	r0, r5
	mov.w	r2, #16
	mov.w	r3, #0
	str	r1, [sp]
	bl	"octet_lists::comparison::equal_in_full"
	cbz	r0, .LBB4e079_15
	ldm	r7!, {r1, r2, r3, r5, r6}
	mov	r0, r11
	stm	r0!, {r1, r2, r3, r5, r6}
	ldm	r7!, {r1, r2, r3, r5, r6}
	add.w	r11, r9, #16
	stm	r0!, {r1, r2, r3, r5, r6}
	ldm.w	r7, {r1, r2, r3, r4, r5, r6}
	stm	r0!, {r1, r2, r3, r4, r5, r6}
	add	r0, sp, #816
	add.w	r1, sp, #1088
	movs	r2, #208
	bl	__aeabi_memcpy4
	ldr.w	r2, [r11, #12]
	ldm.w	r11, {r0, r1, r3}
	str	r2, [sp, #812]
	add	r2, sp, #800
	movs	r4, #1
	mov.w	r9, #0
	mov.w	r11, #0
	stm	r2!, {r0, r1, r3}
	b	.LBB4e079_16
.LBB4e079_11:
	mov.w	r11, #22
	mov.w	r9, #1
	movs	r0, #0
	b	.LBB4e079_19
.LBB4e079_12:
	movs	r0, #0
	strd	r0, r0, [sp, #36]
	b	.LBB4e079_18
.LBB4e079_13:
	movs	r0, #0
	str	r0, [sp, #36]
	mov.w	r11, #25
	mov.w	r9, #1
	str	r0, [sp, #40]
	b	.LBB4e079_18
.LBB4e079_14:
	movs	r0, #0
	str	r0, [sp, #36]
	mov.w	r9, #0
	mov.w	r11, #0
	str	r0, [sp, #40]
	b	.LBB4e079_17
.LBB4e079_15:
	add.w	r0, sp, #1024
	movs	r1, #64
	bl	__aeabi_memclr4
	add	r0, sp, #816
	movs	r1, #208
	bl	__aeabi_memclr4
	movs	r0, #0
	strd	r4, r4, [sp, #808]
	strd	r4, r4, [sp, #800]
	mov.w	r11, #28
	mov.w	r9, #1
	str	r0, [sp, #40]
.LBB4e079_16:
	str	r4, [sp, #36]
.LBB4e079_17:
	add.w	r7, sp, #1024
	ldm	r7!, {r1, r2, r3, r4, r6}
	add	r0, sp, #284
	stm	r0!, {r1, r2, r3, r4, r6}
	ldm	r7!, {r1, r2, r3, r4, r6}
	stm	r0!, {r1, r2, r3, r4, r6}
	ldm.w	r7, {r1, r2, r3, r4, r5, r6}
	stm	r0!, {r1, r2, r3, r4, r5, r6}
	add	r0, sp, #76
	add	r1, sp, #816
	movs	r2, #208
	bl	__aeabi_memcpy4
	ldr	r2, [sp, #812]
	add	r3, sp, #800
	ldm	r3, {r0, r1, r3}
	str	r2, [sp, #72]
	add	r2, sp, #60
	stm	r2!, {r0, r1, r3}
.LBB4e079_18:
	add	r7, sp, #284
	ldm	r7!, {r0, r1, r2, r3, r6}
	add	r4, sp, #604
	stm	r4!, {r0, r1, r2, r3, r6}
	ldm	r7!, {r0, r1, r2, r3, r6}
	stm	r4!, {r0, r1, r2, r3, r6}
	ldm.w	r7, {r0, r1, r2, r3, r5, r6}
	stm	r4!, {r0, r1, r2, r3, r5, r6}
	add	r0, sp, #396
	add	r1, sp, #76
	movs	r2, #208
	bl	__aeabi_memcpy4
	ldr	r2, [sp, #72]
	add	r3, sp, #60
	ldm	r3, {r0, r1, r3}
	str	r2, [sp, #392]
	add	r2, sp, #380
	stm	r2!, {r0, r1, r3}
	ldrd	r0, r12, [sp, #36]
.LBB4e079_19:
	str.w	r0, [r10, #8]
	add.w	r0, r10, #24
	add	r1, sp, #604
	movs	r2, #64
	strb.w	r9, [r10]
	strb.w	r11, [r10, #1]
	str.w	r8, [r10, #12]
	str.w	r12, [r10, #16]
	str.w	r8, [r10, #20]
	bl	__aeabi_memcpy
	add.w	r0, r10, #88
	add	r1, sp, #396
	movs	r2, #208
	bl	__aeabi_memcpy
	add	r3, sp, #380
	ldm	r3, {r0, r1, r2, r3}
	str.w	r1, [r10, #300]
	str.w	r0, [r10, #296]
	str.w	r2, [r10, #304]
	str.w	r3, [r10, #308]
	addw	sp, sp, #1364
	pop.w	{r4, r5, r6, r7, r8, r9, r10, r11, pc}
.Lfunc_end4e079:
	.size	"psk_ends::server::psk3::asked_reads", .Lfunc_end4e079-"psk_ends::server::psk3::asked_reads"
	.cantunwind
	.fnend

	.section	".text.psk_ends::server::login::UserPsk2::keys","ax",%progbits
	.p2align	2
	.type	"psk_ends::server::login::UserPsk2::keys",%function
	.code	16
	.thumb_func
"psk_ends::server::login::UserPsk2::keys":
	.fnstart
	.save	{r4, r5, r6, r7, lr}
	push	{r4, r5, r6, r7, lr}
	.pad	#708
	sub.w	sp, sp, #708
	add.w	r3, r1, #280
	add	r5, sp, #212
	mov	r4, r0
	add.w	r2, r1, #24
	mov	r0, r5
	mov	r1, r3
	bl	"login_keys::psk::psk_session"
	add	r6, sp, #4
	mov	r0, r6
	mov	r1, r5
	bl	"cmac_mac::key::CmacKey::new"
	add	r7, sp, #356
	mov	r0, r7
	mov	r1, r5
	movs	r2, #144
	bl	__aeabi_memcpy4
	add.w	r0, r7, #144
	mov	r1, r6
	movs	r2, #208
	bl	__aeabi_memcpy4
	mov	r0, r4
	mov	r1, r7
	mov.w	r2, #352
	bl	__aeabi_memcpy
	add.w	sp, sp, #708
	pop	{r4, r5, r6, r7, pc}
.Lfunc_endde552:
	.size	"psk_ends::server::login::UserPsk2::keys", .Lfunc_endde552-"psk_ends::server::login::UserPsk2::keys"
	.cantunwind
	.fnend

	.section	".text.psk_ends::server::turns::log_in::<#becd8de5e2060522>","ax",%progbits
	.p2align	2
	.type	"psk_ends::server::turns::log_in::<#becd8de5e2060522>",%function
	.code	16
	.thumb_func
"psk_ends::server::turns::log_in::<#becd8de5e2060522>":
	.fnstart
	.save	{r4, r5, r6, r7, r8, r9, r10, r11, lr}
	push.w	{r4, r5, r6, r7, r8, r9, r10, r11, lr}
	.pad	#1356
	subw	sp, sp, #1356
	mov	r6, r2
	mov	r4, r0
	add	r0, sp, #680
	mov.w	r2, #296
	mov	r8, r3
	bl	__aeabi_memcpy
	add	r0, sp, #328
	mov	r1, r6
	mov.w	r2, #352
	bl	__aeabi_memcpy
	ldrb	r0, [r4]
	cmp	r0, #1
	bne.w	.LBB9b85f_6
	ldrb.w	r0, [r4, #320]
	cmp	r0, #1
	bne.w	.LBB9b85f_6
	add.w	r9, r4, #8
	add.w	r10, sp, #976
	mov	r0, r10
	mov	r1, r9
	bl	"eap_method::values::ServerSide::copy"
	add.w	r11, r4, #288
	add.w	r0, r10, #280
	mov	r1, r11
	movs	r2, #32
	bl	__aeabi_memcpy
	add	r6, sp, #16
	mov	r0, r6
	mov	r1, r10
	mov.w	r2, #312
	bl	__aeabi_memcpy8
	add	r2, sp, #680
	add	r3, sp, #328
	mov	r0, r4
	mov	r1, r6
	bl	"psk_ends::server::turns::settle"
	ldrb	r0, [r4]
	cmp	r0, #2
	mov.w	r0, #0
	bne.w	.LBB9b85f_7
	ldr.w	r6, [sp, #1396]
	movs	r1, #1
	str	r0, [r6, #12]
	strd	r1, r0, [r6]
	str	r0, [r6, #8]!
	ldrd	r2, r3, [r4, #264]
	addw	r1, r4, #673
	strd	r2, r3, [sp]
	addw	r2, sp, #1292
	add.w	r12, r4, #656
	mov	r7, r0
	mov	r0, r2
	mov	r2, r9
	str.w	r12, [sp, #8]
	bl	"eap_method::psk_macs::mac_s"
	addw	r0, sp, #1340
	subs.w	r0, r0, r11
	sbc	r1, r7, #0
	rsbs.w	r0, r0, #15
	sbcs.w	r0, r7, r1
	ldr.w	r0, [r11]
	ldr.w	r1, [r11, #4]
	ldr.w	r2, [r11, #12]
	ldr.w	r3, [r11, #8]
	str.w	r0, [sp, #1340]
	str.w	r2, [sp, #1352]
	str.w	r3, [sp, #1348]
	str.w	r1, [sp, #1344]
	ldr.w	r0, [sp, #1340]
	ldr.w	r1, [sp, #1344]
	ldr.w	r2, [sp, #1352]
	ldr.w	r3, [sp, #1348]
	str.w	r0, [sp, #1308]
	ldr.w	r0, [sp, #1292]
	str.w	r2, [sp, #1320]
	str.w	r3, [sp, #1316]
	str.w	r1, [sp, #1312]
	ldr.w	r1, [sp, #1296]
	ldr.w	r2, [sp, #1300]
	ldr.w	r3, [sp, #1304]
	str.w	r0, [sp, #1324]
	mov.w	r0, #2
	str.w	r7, [sp, #1032]
	str.w	r7, [sp, #1036]
	str.w	r7, [sp, #1040]
	str.w	r7, [sp, #1044]
	str.w	r1, [sp, #1328]
	str.w	r2, [sp, #1332]
	str.w	r3, [sp, #1336]
	str	r0, [sp, #976]
	addw	r1, sp, #1308
	ldm	r1!, {r2, r3, r5, r7}
	add.w	r0, r10, #4
	stm	r0!, {r2, r3, r5, r7}
	ldm.w	r1, {r2, r3, r5, r7}
	mov	r1, r10
	stm	r0!, {r2, r3, r5, r7}
	ldr.w	r7, [sp, #1392]
	mov.w	r5, #0
	mov	r0, r7
	mov.w	r2, #0
	mov	r3, r8
	str.w	r5, [sp, #1032]
	str.w	r5, [sp, #1028]
	strd	r5, r5, [sp, #1020]
	strd	r5, r5, [sp, #1012]
	bl	"psk_messages::writing::write_psk_into"
	ldrd	r1, r0, [r6]
	rsbs.w	r2, r1, #1
	sbcs.w	r2, r5, r0
	blo	.LBB9b85f_5
	adds	r1, #1
	adc	r0, r0, #0
	strd	r1, r0, [r6]
.LBB9b85f_5:
	ldrb.w	r3, [r4, #672]
	addw	r1, r4, #1025
	mov	r0, r7
	movs	r2, #0
	str	r6, [sp]
	movs	r4, #0
	bl	"psk_ends::channel::seal_in::<#becd8de5e2060522>"
	mov	r1, r4
	movs	r0, #1
	addw	sp, sp, #1356
	pop.w	{r4, r5, r6, r7, r8, r9, r10, r11, pc}
.LBB9b85f_6:
	movs	r0, #0
.LBB9b85f_7:
	movs	r1, #22
	addw	sp, sp, #1356
	pop.w	{r4, r5, r6, r7, r8, r9, r10, r11, pc}
.Lfunc_end9b85f:
	.size	"psk_ends::server::turns::log_in::<#becd8de5e2060522>", .Lfunc_end9b85f-"psk_ends::server::turns::log_in::<#becd8de5e2060522>"
	.cantunwind
	.fnend

	.section	".text.psk_ends::server::turns::settle","ax",%progbits
	.p2align	2
	.type	"psk_ends::server::turns::settle",%function
	.code	16
	.thumb_func
"psk_ends::server::turns::settle":
	.fnstart
	.save	{r4, r5, r6, r7, r8, r9, r10, r11, lr}
	push.w	{r4, r5, r6, r7, r8, r9, r10, r11, lr}
	.pad	#1532
	subw	sp, sp, #1532
	mov	r6, r2
	mov	r4, r0
	add	r0, sp, #40
	mov.w	r2, #312
	mov	r5, r3
	bl	__aeabi_memcpy
	ldr.w	r10, [r6]
	ldr.w	r11, [r6, #56]
	ldr.w	r9, [r6, #64]
	ldr.w	r8, [r6, #68]
	add	r0, sp, #968
	mov	r1, r5
	mov.w	r2, #352
	adds	r7, r6, #4
	adds	r6, #72
	bl	__aeabi_memcpy
	add	r0, sp, #4
	mov	r1, r7
	movs	r2, #36
	bl	__aeabi_memcpy
	add.w	r0, sp, #1320
	mov	r1, r6
	movs	r2, #208
	bl	__aeabi_memcpy
	add	r6, sp, #704
	mov	r0, r6
	mov.w	r1, #264
	bl	__aeabi_memclr8
	mov	r0, r6
	mov	r1, r11
	mov	r2, r9
	mov	r3, r8
	bl	"octet_lists::octets::Octets::append::<=253>"
	add.w	r9, sp, #40
	add.w	r0, r9, #312
	mov	r1, r6
	mov.w	r2, #264
	bl	__aeabi_memcpy8
	add	r5, sp, #704
	ldrd	r6, r7, [r10, #336]
	mov	r0, r5
	movs	r1, #72
	add.w	r8, r10, #272
	bl	__aeabi_memclr8
	mov	r0, r5
	mov	r1, r8
	mov	r2, r6
	mov	r3, r7
	bl	"octet_lists::octets::Octets::append::<=64>"
	add.w	r0, r9, #576
	mov	r1, r5
	movs	r2, #72
	bl	__aeabi_memcpy8
	add	r3, sp, #24
	ldm	r3, {r0, r1, r2, r3}
	add.w	r12, sp, #688
	stm.w	r12, {r0, r1, r2}
	ldrb.w	r0, [r10, #344]
	movs	r5, #0
	adds	r6, r0, #2
	movs	r0, #2
	str	r0, [r4]
	add.w	r0, r4, #8
	mov	r1, r9
	mov.w	r2, #664
	str	r3, [sp, #700]
	str	r5, [r4, #4]
	bl	__aeabi_memcpy
	addw	r0, r4, #673
	add.w	r1, sp, #1320
	movs	r2, #208
	strb.w	r6, [r4, #672]
	bl	__aeabi_memcpy
	addw	r0, r4, #881
	add	r1, sp, #968
	mov.w	r2, #352
	bl	__aeabi_memcpy
	str.w	r5, [r4, #1233]
	str.w	r5, [r4, #1237]
	strb.w	r5, [r4, #1241]
	addw	sp, sp, #1532
	pop.w	{r4, r5, r6, r7, r8, r9, r10, r11, pc}
.Lfunc_endc4343:
	.size	"psk_ends::server::turns::settle", .Lfunc_endc4343-"psk_ends::server::turns::settle"
	.cantunwind
	.fnend

	.section	".text.gpsk_ends::server::GpskServer::handle_step::<#e0641de541981142>","ax",%progbits
	.p2align	2
	.type	"gpsk_ends::server::GpskServer::handle_step::<#e0641de541981142>",%function
	.code	16
	.thumb_func
"gpsk_ends::server::GpskServer::handle_step::<#e0641de541981142>":
	.fnstart
	.save	{r4, r5, r6, r7, r8, r9, r10, r11, lr}
	push.w	{r4, r5, r6, r7, r8, r9, r10, r11, lr}
	.pad	#524
	sub.w	sp, sp, #524
	mov	r4, r0
	ldrb.w	r0, [r0, #312]
	ldr.w	r8, [sp, #580]
	subs.w	r10, r2, #5
	sbc	r5, r3, #0
	cmp	r0, #0
	beq.w	.LBB48d58_40
	cmp	r0, #2
	add.w	r6, r1, #5
	bne	.LBB48d58_8
	ldrb.w	r0, [r4, #1144]
	cmp	r0, #2
	beq	.LBB48d58_11
	cmp	r0, #1
	bne	.LBB48d58_13
	add.w	r9, sp, #264
	mov	r0, r9
	movs	r1, #168
	bl	__aeabi_memclr8
	ldrb.w	r7, [r4, #688]
	mov.w	r12, #1
	mov	r0, r9
	mov	r1, r6
	mov	r2, r10
	mov	r3, r5
	mov	r11, r6
	strd	r12, r7, [sp]
	bl	"gpsk_ends::receiving::receive"
	ldrb.w	r0, [sp, #264]
	cmp	r0, #1
	beq	.LBB48d58_14
	ldrb.w	r6, [sp, #272]
	ldr	r0, [sp, #276]
	add.w	r1, r9, #16
	strd	r6, r0, [sp, #96]
	add	r0, sp, #96
	adds	r0, #8
	movs	r2, #152
	bl	__aeabi_memcpy8
	cmp	r6, #3
	bne.w	.LBB48d58_23
	add.w	r0, r4, #928
	add	r1, sp, #96
	mov	r2, r11
	strd	r10, r5, [sp]
	bl	"gpsk_ends::keys::is_tagged"
	cmp	r0, #0
	mov.w	r11, #0
	beq.w	.LBB48d58_44
	mov.w	r9, #1
	mov.w	r0, #258
	strd	r9, r11, [r8]
	strd	r11, r11, [r8, #8]
	strh.w	r0, [r4, #1144]
	mov.w	r11, #2
	b	.LBB48d58_84
.LBB48d58_8:
	ldrb.w	r0, [r4, #313]
	add.w	r2, r4, #312
.LCPI48d58_0:
	tbb	[pc, r0]
.LJTI48d58_0:
	.byte	(.LBB48d58_10-(.LCPI48d58_0+4))/2
	.byte	(.LBB48d58_15-(.LCPI48d58_0+4))/2
	.byte	(.LBB48d58_17-(.LCPI48d58_0+4))/2
	.byte	(.LBB48d58_10-(.LCPI48d58_0+4))/2
	.p2align	1
.LBB48d58_10:
	add	r4, sp, #264
	mov	r0, r4
	movs	r1, #168
	bl	__aeabi_memclr8
	movs	r7, #0
	mov	r0, r4
	mov	r1, r6
	mov	r2, r10
	mov	r3, r5
	str	r7, [sp]
	str	r7, [sp, #4]
	bl	"gpsk_messages::reading::read_gpsk_message"
	b	.LBB48d58_12
.LBB48d58_11:
	ldrb.w	r7, [r4, #688]
	add	r4, sp, #264
	mov	r0, r4
	movs	r1, #168
	bl	__aeabi_memclr8
	mov.w	r12, #1
	mov	r0, r4
	mov	r1, r6
	mov	r2, r10
	mov	r3, r5
	strd	r12, r7, [sp]
	bl	"gpsk_ends::receiving::receive"
.LBB48d58_12:
	ldrb.w	r0, [sp, #264]
	ldrb.w	r9, [sp, #265]
	cmp	r0, #1
	it	ne
	movne.w	r9, #22
	b	.LBB48d58_41
.LBB48d58_13:
	add.w	r11, sp, #264
	mov	r0, r11
	movs	r1, #168
	bl	__aeabi_memclr8
	ldrb.w	r7, [r4, #688]
	mov.w	r12, #1
	mov	r0, r11
	mov	r1, r6
	mov	r2, r10
	mov	r3, r5
	strd	r12, r7, [sp]
	bl	"gpsk_ends::receiving::receive"
	ldrb.w	r0, [sp, #264]
	cmp	r0, #1
	bne	.LBB48d58_19
.LBB48d58_14:
	ldrb.w	r9, [sp, #265]
	mov.w	r11, #0
	b	.LBB48d58_84
.LBB48d58_15:
	add	r7, sp, #264
	mov.w	r11, #0
	mov	r0, r7
	movs	r1, #168
	str	r2, [sp, #60]
	strd	r11, r11, [sp, #96]
	bl	__aeabi_memclr8
	mov	r0, r7
	mov	r1, r6
	mov	r2, r10
	mov	r3, r5
	str.w	r11, [sp]
	str	r6, [sp, #64]
	str	r5, [sp, #68]
	str.w	r11, [sp, #4]
	bl	"gpsk_messages::reading::read_gpsk_message"
	add	r0, sp, #96
	add.w	r1, r7, #16
	add.w	r7, r0, #16
	ldrb.w	r5, [sp, #264]
	ldrb.w	r9, [sp, #265]
	ldrb.w	r6, [sp, #272]
	ldr.w	r8, [sp, #276]
	mov	r0, r7
	movs	r2, #152
	bl	__aeabi_memcpy8
	cmp	r5, #1
	strb.w	r5, [sp, #96]
	strb.w	r9, [sp, #97]
	str	r6, [sp, #104]
	str.w	r8, [sp, #108]
	bne	.LBB48d58_24
	ldr.w	r8, [sp, #580]
	b	.LBB48d58_84
.LBB48d58_17:
	add.w	r9, sp, #264
	mov	r0, r9
	movs	r1, #168
	bl	__aeabi_memclr8
	movs	r7, #0
	mov	r0, r9
	mov	r1, r6
	mov	r2, r10
	mov	r3, r5
	str	r7, [sp]
	str	r7, [sp, #4]
	bl	"gpsk_messages::reading::read_gpsk_message"
	ldrb.w	r0, [sp, #264]
	cmp	r0, #1
	bne.w	.LBB48d58_37
	ldrb.w	r9, [sp, #265]
	b	.LBB48d58_41
.LBB48d58_19:
	mov	r7, r6
	ldrb.w	r6, [sp, #272]
	ldr.w	r9, [sp, #276]
	add	r0, sp, #96
	adds	r0, #8
	add.w	r1, r11, #16
	movs	r2, #152
	strd	r6, r9, [sp, #96]
	bl	__aeabi_memcpy8
	cmp	r6, #5
	bne	.LBB48d58_23
	cmp.w	r9, #3
	bne.w	.LBB48d58_46
	add.w	r0, r4, #928
	add	r1, sp, #96
	mov	r2, r7
	strd	r10, r5, [sp]
	bl	"gpsk_ends::keys::is_tagged"
	cmp	r0, #0
	mov.w	r11, #0
	beq	.LBB48d58_44
	movs	r0, #1
	strd	r0, r11, [r8]
	strd	r11, r11, [r8, #8]
	mov.w	r11, #2
	strh.w	r11, [r4, #1144]
	mov.w	r9, #0
	b	.LBB48d58_84
.LBB48d58_23:
	mov.w	r9, #22
	mov.w	r11, #0
	b	.LBB48d58_84
.LBB48d58_24:
	ldr.w	r8, [sp, #580]
	cmp	r6, #1
	mov.w	r11, #0
	bne	.LBB48d58_45
	ldrd	r2, r3, [r4, #256]
	ldrd	r1, r0, [sp, #136]
	str	r7, [sp, #56]
	eors	r0, r3
	eors	r1, r2
	orrs	r0, r1
	strd	r11, r11, [sp, #264]
	strd	r11, r11, [sp, #272]
	strd	r11, r11, [sp, #280]
	bne.w	.LBB48d58_83
	ldr	r0, [sp, #128]
	subs	r1, r2, #4
	sbcs	r1, r3, #0
	bhs	.LBB48d58_48
	orrs.w	r1, r2, r3
	beq.w	.LBB48d58_55
	movs	r1, #0
	mov.w	r12, #0
.LBB48d58_29:
	ldrb	r6, [r0, r1]
	ldrb	r7, [r4, r1]
	cmp	r6, r7
	bne	.LBB48d58_53
	orr	r6, r1, #1
	subs	r7, r6, r2
	sbcs.w	r7, r12, r3
	bhs	.LBB48d58_55
	ldrb	r7, [r0, r6]
	ldrb	r5, [r4, r6]
	cmp	r7, r5
	bne	.LBB48d58_54
	orr	r6, r1, #2
	subs	r7, r6, r2
	sbcs.w	r7, r12, r3
	bhs	.LBB48d58_55
	ldrb	r7, [r0, r6]
	ldrb	r5, [r4, r6]
	cmp	r7, r5
	bne	.LBB48d58_54
	orr	r6, r1, #3
	subs	r7, r6, r2
	sbcs.w	r7, r12, r3
	bhs	.LBB48d58_55
	ldrb	r7, [r0, r6]
	ldrb	r5, [r4, r6]
	cmp	r7, r5
	bne	.LBB48d58_54
	adds	r1, #4
	adc	r12, r12, #0
	subs	r7, r1, r2
	sbcs.w	r7, r12, r3
	blo	.LBB48d58_29
	b	.LBB48d58_55
.LBB48d58_37:
	ldrb.w	r0, [sp, #272]
	cmp	r0, #4
	bne	.LBB48d58_40
	ldr	r0, [sp, #276]
	cmp	r0, #1
	bne	.LBB48d58_47
	mov.w	r9, #0
	movs	r0, #3
	mov.w	r11, #2
	strd	r9, r9, [r8]
	strd	r9, r9, [r8, #8]
	strb.w	r0, [r4, #313]
	b	.LBB48d58_87
.LBB48d58_40:
	mov.w	r9, #22
.LBB48d58_41:
	mov.w	r11, #0
.LBB48d58_42:
	movs	r0, #0
	strd	r0, r0, [r8]
	strd	r0, r0, [r8, #8]
.LBB48d58_43:
	mov	r0, r11
	mov	r1, r9
	add.w	sp, sp, #524
	pop.w	{r4, r5, r6, r7, r8, r9, r10, r11, pc}
.LBB48d58_44:
	mov.w	r9, #28
	b	.LBB48d58_84
.LBB48d58_45:
	mov.w	r9, #22
	b	.LBB48d58_84
.LBB48d58_46:
	mov.w	r9, #25
	mov.w	r11, #0
	b	.LBB48d58_84
.LBB48d58_47:
	mov.w	r9, #25
	b	.LBB48d58_41
.LBB48d58_48:
	ldrb	r1, [r0]
	ldrb	r7, [r4]
	cmp	r1, r7
	bne.w	.LBB48d58_83
	ldrb	r1, [r0, #1]
	ldrb	r7, [r4, #1]
	cmp	r1, r7
	bne.w	.LBB48d58_83
	ldrb	r1, [r0, #2]
	ldrb	r7, [r4, #2]
	cmp	r1, r7
	bne.w	.LBB48d58_83
	ldrb	r1, [r0, #3]
	ldrb	r7, [r4, #3]
	cmp	r1, r7
	bne.w	.LBB48d58_83
	strd	r2, r3, [sp, #8]
	str	r4, [sp]
	mov	r5, r2
	mov	r6, r3
	bl	"core::cmp::slices::groups_equal::<i8,31'core::cmp::numbers::U8PartialEq{}>"
	mov	r3, r6
	mov	r2, r5
	cbnz	r0, .LBB48d58_55
	b	.LBB48d58_83
.LBB48d58_53:
	mov	r6, r1
.LBB48d58_54:
	subs	r0, r6, r2
	sbcs.w	r0, r12, r3
	blo.w	.LBB48d58_83
.LBB48d58_55:
	add	r0, sp, #96
	adds	r0, #80
	add.w	r1, r4, #280
	strd	r3, r2, [sp, #48]
	bl	"core::cmp::arrays::ArrayPartialEq::eq::<i8,=32,31'core::cmp::numbers::U8PartialEq{}>"
	cmp	r0, #0
	beq.w	.LBB48d58_83
	mov	r9, r10
	add.w	r10, sp, #264
	mov	r0, r10
	mov	r1, r4
	bl	"gpsk_ends::server::login::Initial::suite_list"
	add.w	r12, sp, #496
	ldr.w	r11, [sp, #56]
	ldm.w	r10, {r1, r2, r3, r5, r6, r7}
	mov	r0, r12
	stm	r0!, {r1, r2, r3, r5, r6, r7}
	ldrd	r2, r3, [sp, #512]
	ldrd	r1, r0, [sp, #216]
	eors	r0, r3
	eors	r1, r2
	orrs	r0, r1
	bne.w	.LBB48d58_83
	ldr	r0, [sp, #208]
	subs	r1, r2, #4
	mov	r10, r9
	mov	r9, r11
	sbcs	r1, r3, #0
	bhs	.LBB48d58_69
	orrs.w	r1, r2, r3
	beq	.LBB48d58_74
	movs	r7, #0
	mov.w	lr, #0
.LBB48d58_60:
	ldrb	r1, [r0, r7]
	ldrb.w	r5, [r12, r7]
	cmp	r1, r5
	bne.w	.LBB48d58_81
	orr	r1, r7, #1
	subs	r5, r1, r2
	sbcs.w	r5, lr, r3
	bhs	.LBB48d58_68
	ldrb	r5, [r0, r1]
	ldrb.w	r6, [r12, r1]
	cmp	r5, r6
	bne.w	.LBB48d58_82
	orr	r1, r7, #2
	subs	r5, r1, r2
	sbcs.w	r5, lr, r3
	bhs	.LBB48d58_68
	ldrb	r5, [r0, r1]
	ldrb.w	r6, [r12, r1]
	cmp	r5, r6
	bne.w	.LBB48d58_82
	orr	r1, r7, #3
	subs	r5, r1, r2
	sbcs.w	r5, lr, r3
	bhs	.LBB48d58_68
	ldrb	r5, [r0, r1]
	ldrb.w	r6, [r12, r1]
	cmp	r5, r6
	bne.w	.LBB48d58_82
	adds	r7, #4
	adc	lr, lr, #0
	subs	r1, r7, r2
	sbcs.w	r1, lr, r3
	blo	.LBB48d58_60
.LBB48d58_68:
	mov	r9, r11
	b	.LBB48d58_74
.LBB48d58_69:
	ldrb	r1, [r0]
	ldrb.w	r7, [sp, #496]
	cmp	r1, r7
	bne.w	.LBB48d58_83
	ldrb	r1, [r0, #1]
	ldrb.w	r7, [sp, #497]
	cmp	r1, r7
	bne.w	.LBB48d58_83
	ldrb	r1, [r0, #2]
	ldrb.w	r7, [sp, #498]
	cmp	r1, r7
	bne.w	.LBB48d58_83
	ldrb	r1, [r0, #3]
	ldrb.w	r7, [sp, #499]
	cmp	r1, r7
	bne.w	.LBB48d58_83
	strd	r2, r3, [sp, #8]
	str.w	r12, [sp]
	bl	"core::cmp::slices::groups_equal::<i8,31'core::cmp::numbers::U8PartialEq{}>"
	cmp	r0, #0
	beq.w	.LBB48d58_83
.LBB48d58_74:
	ldrb.w	r6, [sp, #224]
	add	r0, sp, #96
	add.w	r5, r0, #8
	mov.w	r11, #2
	add.w	r0, r4, #264
	cmp	r6, #0
	it	eq
	moveq.w	r11, #1
	str	r0, [sp, #264]
	movs	r0, #0
	add	r3, sp, #268
	ldrd	r1, r2, [r4, #272]
	stm	r3!, {r0, r1, r2}
.LBB48d58_75:
	add	r7, sp, #264
	add	r0, sp, #84
	mov	r1, r7
	bl	"core::iter::slices::IterIterator::next::<i8>"
	ldrb.w	r0, [sp, #84]
	cmp	r0, #1
	bne	.LBB48d58_79
	ldr	r0, [sp, #92]
	ldrb	r0, [r0]
	cmp	r0, r11
	bne	.LBB48d58_75
	ldrd	r11, r1, [sp, #120]
	add	r3, sp, #564
	str	r5, [sp, #56]
	ldr	r5, [sp, #112]
	movs	r0, #51
	str	r1, [sp, #44]
	strd	r11, r1, [sp, #8]
	ldm	r3, {r1, r2, r3}
	str	r0, [sp, #16]
	add	r0, sp, #72
	str	r5, [sp]
	bl	"login_setup::users::find_user"
	ldrb.w	r0, [sp, #72]
	cmp	r0, #1
	bne	.LBB48d58_80
	mov	r2, r11
	ldr.w	r11, [sp, #80]
	mov	lr, r6
	ldrd	r0, r12, [r11, #336]
	ldrd	r1, r6, [sp, #48]
	strd	r0, r12, [sp]
	ldr	r0, [sp, #44]
	add	r3, sp, #96
	str	r0, [sp, #20]
	add.w	r0, r4, #280
	adds	r3, #48
	strd	r6, r1, [sp, #32]
	str	r2, [sp, #16]
	str	r0, [sp, #24]
	mov	r0, r7
	mov	r1, lr
	add.w	r2, r11, #272
	strd	r3, r5, [sp, #8]
	str	r4, [sp, #28]
	bl	"login_keys::gpsk::gpsk_keys"
	ldr	r0, [sp, #560]
	ldr	r1, [sp, #60]
	str	r0, [sp, #4]
	ldr	r0, [sp, #56]
	mov	r2, r9
	str	r0, [sp, #8]
	ldr	r0, [sp, #64]
	mov	r3, r11
	strd	r0, r10, [sp, #12]
	ldr	r0, [sp, #68]
	str	r7, [sp]
	str	r0, [sp, #20]
	ldr	r0, [sp, #576]
	str.w	r8, [sp, #28]
	str	r0, [sp, #24]
	mov	r0, r4
	bl	"gpsk_ends::server::gpsk2::check::<#e0641de541981142>"
	mov	r11, r0
	mov	r9, r1
	b	.LBB48d58_84
.LBB48d58_79:
	mov.w	r11, #0
	mov.w	r9, #26
	b	.LBB48d58_84
.LBB48d58_80:
	add.w	r0, r7, #8
	movs	r1, #152
	bl	__aeabi_memclr8
	movs	r0, #4
	str	r0, [sp, #264]
	ldr	r0, [sp, #576]
	ldr	r3, [sp, #560]
	mov.w	r11, #1
	mov	r1, r7
	movs	r2, #0
	str.w	r11, [sp, #268]
	mov.w	r9, #0
	bl	"gpsk_messages::writing::write_gpsk_into"
	movw	r0, #513
	strd	r9, r9, [r8]
	strd	r9, r9, [r8, #8]
	strh.w	r0, [r4, #312]
	add.w	r0, r4, #320
	movw	r1, #826
	bl	__aeabi_memclr
	b	.LBB48d58_84
.LBB48d58_81:
	mov	r1, r7
.LBB48d58_82:
	subs	r0, r1, r2
	sbcs.w	r0, lr, r3
	mov	r9, r11
	bhs.w	.LBB48d58_74
.LBB48d58_83:
	mov.w	r11, #0
	mov.w	r9, #25
.LBB48d58_84:
	uxtb.w	r0, r11
	cmp	r0, #2
	beq	.LBB48d58_87
	cmp	r0, #1
	bne.w	.LBB48d58_42
	mov.w	r9, #0
	b	.LBB48d58_43
.LBB48d58_87:
	and	r9, r9, #1
	b	.LBB48d58_43
.Lfunc_end48d58:
	.size	"gpsk_ends::server::GpskServer::handle_step::<#e0641de541981142>", .Lfunc_end48d58-"gpsk_ends::server::GpskServer::handle_step::<#e0641de541981142>"
	.cantunwind
	.fnend

	.section	".text.gpsk_ends::server::gpsk2::check::<#e0641de541981142>","ax",%progbits
	.p2align	2
	.type	"gpsk_ends::server::gpsk2::check::<#e0641de541981142>",%function
	.code	16
	.thumb_func
"gpsk_ends::server::gpsk2::check::<#e0641de541981142>":
	.fnstart
	.save	{r4, r5, r6, r7, r8, r9, r10, r11, lr}
	push.w	{r4, r5, r6, r7, r8, r9, r10, r11, lr}
	.pad	#924
	sub.w	sp, sp, #924
	mov	r11, r1
	ldr	r1, [sp, #960]
	add	r4, sp, #688
	mov	r5, r2
	ldrd	r9, r10, [sp, #968]
	ldr.w	r8, [sp, #980]
	mov	r7, r0
	mov	r0, r4
	movs	r2, #232
	str	r3, [sp, #20]
	bl	__aeabi_memcpy
	ldrd	r3, r6, [sp, #888]
	ldrb.w	r1, [r5, #112]
	add.w	r2, r4, #168
	add	r4, sp, #256
	mov	r0, r4
	strd	r3, r6, [sp]
	bl	"login_keys::gpsk::mac_key::MacKey::new"
	ldrb.w	r0, [sp, #256]
	add	r6, sp, #472
	strb.w	r0, [sp, #472]
	adds	r0, r6, #1
	adds	r1, r4, #1
	movs	r2, #215
	bl	__aeabi_memcpy
	ldr	r3, [sp, #976]
	mov	r0, r6
	mov	r1, r9
	mov	r2, r10
	strd	r3, r8, [sp]
	bl	"gpsk_ends::keys::is_tagged"
	cbz	r0, .LBB1cd8e_2
	add	r6, sp, #24
	ldrd	r9, r8, [sp, #984]
	ldr.w	r10, [sp, #964]
	add	r1, sp, #688
	mov	r0, r6
	movs	r2, #232
	bl	__aeabi_memcpy8
	ldr	r3, [sp, #20]
	mov	r0, r7
	mov	r1, r11
	mov	r2, r5
	strd	r6, r4, [sp]
	strd	r10, r9, [sp, #8]
	str.w	r8, [sp, #16]
	bl	"gpsk_ends::server::gpsk2::log_in::<#e0641de541981142>"
	add.w	sp, sp, #924
	pop.w	{r4, r5, r6, r7, r8, r9, r10, r11, pc}
.LBB1cd8e_2:
	movs	r0, #0
	movs	r1, #28
	add.w	sp, sp, #924
	pop.w	{r4, r5, r6, r7, r8, r9, r10, r11, pc}
.Lfunc_end1cd8e:
	.size	"gpsk_ends::server::gpsk2::check::<#e0641de541981142>", .Lfunc_end1cd8e-"gpsk_ends::server::gpsk2::check::<#e0641de541981142>"
	.cantunwind
	.fnend

	.section	".text.gpsk_ends::server::gpsk2::log_in::<#e0641de541981142>","ax",%progbits
	.p2align	2
	.type	"gpsk_ends::server::gpsk2::log_in::<#e0641de541981142>",%function
	.code	16
	.thumb_func
"gpsk_ends::server::gpsk2::log_in::<#e0641de541981142>":
	.fnstart
	.save	{r4, r5, r6, r7, r8, r9, r10, r11, lr}
	push.w	{r4, r5, r6, r7, r8, r9, r10, r11, lr}
	.pad	#700
	sub.w	sp, sp, #700
	mov	r11, r1
	ldrd	r1, r6, [sp, #736]
	add.w	r8, sp, #240
	mov	r7, r2
	mov	r10, r0
	mov	r0, r8
	movs	r2, #232
	mov	r5, r3
	bl	__aeabi_memcpy
	ldrb	r0, [r6], #1
	add	r4, sp, #24
	strb.w	r0, [sp, #24]
	adds	r0, r4, #1
	mov	r1, r6
	movs	r2, #215
	bl	__aeabi_memcpy
	mov	r0, r11
	mov	r1, r7
	mov	r2, r5
	mov	r3, r8
	str	r4, [sp]
	bl	"gpsk_ends::server::gpsk2::settle"
	ldrb.w	r0, [r11]
	cmp	r0, #2
	mov.w	r0, #0
	bne	.LBBc1a4a_3
	ldr	r1, [sp, #752]
	ldrb.w	r2, [r5, #344]
	ldrd	r8, r9, [sp, #744]
	movs	r3, #1
	add.w	r6, r1, #8
	cmp	r2, #1
	add.w	r5, r11, #376
	strd	r3, r0, [r1]
	bne	.LBBc1a4a_4
	add	r7, sp, #536
	add.w	r0, r7, #24
	movs	r1, #136
	bl	__aeabi_memclr8
	ldrb	r0, [r5]
	movw	r1, :lower16:.Lstatic.10
	movw	r2, :lower16:.Lstatic.14
	movt	r1, :upper16:.Lstatic.10
	movt	r2, :upper16:.Lstatic.14
	cmp	r0, #0
	it	eq
	moveq	r2, r1
	mov.w	r0, #32
	mov.w	r1, #5
	it	eq
	moveq	r0, #16
	str	r1, [sp, #536]
	movs	r1, #3
	movs	r4, #0
	strd	r1, r2, [sp, #540]
	strd	r4, r0, [sp, #548]
	mov	r0, r5
	mov	r1, r7
	movs	r2, #0
	mov	r3, r8
	str	r4, [sp, #556]
	strd	r9, r6, [sp]
	bl	"gpsk_ends::keys::Keys::seal::<#e0641de541981142>"
	b	.LBBc1a4a_5
.LBBc1a4a_3:
	movs	r1, #22
	add.w	sp, sp, #700
	pop.w	{r4, r5, r6, r7, r8, r9, r10, r11, pc}
.LBBc1a4a_4:
	add	r0, sp, #536
	movs	r1, #160
	mov	r4, r0
	bl	__aeabi_memclr8
	ldrb.w	r5, [r11, #376]
	add	r7, sp, #472
	add.w	r1, r11, #344
	mov	r0, r7
	movs	r2, #32
	str	r5, [sp, #8]
	str	r6, [sp, #20]
	mov.w	r8, #32
	bl	__aeabi_memcpy
	add.w	r1, r10, #280
	add.w	r0, r7, #32
	movs	r2, #32
	bl	__aeabi_memcpy
	ldrd	r0, r1, [r10, #256]
	cmp	r5, #0
	mov.w	r5, #2
	strd	r1, r0, [sp, #12]
	it	eq
	moveq.w	r8, #16
	str	r5, [sp, #536]
	movw	r1, :lower16:.Lstatic.10
	movw	lr, :lower16:.Lstatic.14
	ldm.w	r7!, {r0, r2, r6, r9, r12}
	movt	r1, :upper16:.Lstatic.10
	movt	lr, :upper16:.Lstatic.14
	add.w	r5, r4, #8
	stm.w	r5!, {r0, r2, r6, r9, r12}
	it	eq
	moveq	lr, r1
	ldm	r7!, {r0, r1, r2, r4, r6}
	stm	r5!, {r0, r1, r2, r4, r6}
	ldm.w	r7, {r0, r1, r2, r3, r4, r6}
	stm	r5!, {r0, r1, r2, r3, r4, r6}
	ldr	r0, [sp, #12]
	ldr	r7, [sp, #20]
	str	r0, [sp, #620]
	ldr	r0, [sp, #16]
	ldrd	r3, r6, [sp, #744]
	str	r0, [sp, #616]
	ldr	r0, [sp, #8]
	add	r1, sp, #536
	strb.w	r0, [sp, #624]
	movw	r0, :lower16:.Lstatic.0
	movt	r0, :upper16:.Lstatic.0
	str	r0, [sp, #632]
	movs	r0, #0
	strd	r8, r0, [sp, #656]
	add.w	r0, r11, #376
	movs	r2, #0
	str.w	r10, [sp, #608]
	str.w	lr, [sp, #648]
	strd	r6, r7, [sp]
	bl	"gpsk_ends::keys::Keys::seal::<#e0641de541981142>"
	movs	r4, #1
.LBBc1a4a_5:
	movs	r1, #0
	strb.w	r4, [r11, #832]
	strb.w	r1, [r11, #833]
	movs	r0, #1
	add.w	sp, sp, #700
	pop.w	{r4, r5, r6, r7, r8, r9, r10, r11, pc}
.Lfunc_endc1a4a:
	.size	"gpsk_ends::server::gpsk2::log_in::<#e0641de541981142>", .Lfunc_endc1a4a-"gpsk_ends::server::gpsk2::log_in::<#e0641de541981142>"
	.cantunwind
	.fnend

	.section	".text.gpsk_ends::server::gpsk2::settle","ax",%progbits
	.p2align	2
	.type	"gpsk_ends::server::gpsk2::settle",%function
	.code	16
	.thumb_func
"gpsk_ends::server::gpsk2::settle":
	.fnstart
	.save	{r4, r5, r6, r7, r8, r9, r10, r11, lr}
	push.w	{r4, r5, r6, r7, r8, r9, r10, r11, lr}
	.pad	#1324
	subw	sp, sp, #1324
	mov	r10, r2
	mov	r6, r1
	ldr.w	r5, [sp, #1360]
	mov	r4, r0
	add	r0, sp, #608
	mov	r1, r3
	movs	r2, #232
	bl	__aeabi_memcpy
	ldrb	r9, [r5], #1
	addw	r0, sp, #1108
	mov	r1, r5
	movs	r2, #215
	bl	__aeabi_memcpy
	movs	r0, #0
	add.w	r8, sp, #840
	str	r0, [sp]
	ldr	r5, [r6]
	ldr	r7, [r6, #8]
	ldr.w	r11, [r6, #12]
	str.w	r0, [sp, #3]
	mov	r0, r8
	mov.w	r1, #264
	bl	__aeabi_memclr8
	mov	r0, r8
	mov	r1, r5
	mov	r2, r7
	mov	r3, r11
	bl	"octet_lists::octets::Octets::append::<=253>"
	add.w	r11, sp, #240
	mov	r0, r11
	mov	r1, r8
	mov.w	r2, #264
	bl	__aeabi_memcpy8
	ldrd	r7, r8, [r10, #336]
	add.w	r5, r10, #272
	add.w	r10, sp, #840
	mov	r0, r10
	movs	r1, #72
	bl	__aeabi_memclr8
	mov	r0, r10
	mov	r1, r5
	mov	r2, r7
	mov	r3, r8
	bl	"octet_lists::octets::Octets::append::<=64>"
	add.w	r0, r11, #264
	mov	r1, r10
	movs	r2, #72
	bl	__aeabi_memcpy8
	add.w	r1, r6, #32
	add.w	r0, r11, #336
	movs	r2, #32
	bl	__aeabi_memcpy
	mov	r5, sp
	ldrb.w	r6, [r6, #112]
	adds	r0, r5, #7
	add	r1, sp, #608
	movs	r2, #232
	bl	__aeabi_memcpy
	movs	r0, #2
	strh	r0, [r4]
	add.w	r0, r4, #8
	mov	r1, r11
	mov.w	r2, #368
	bl	__aeabi_memcpy
	addw	r0, r4, #377
	mov	r1, r5
	movs	r2, #239
	strb.w	r6, [r4, #376]
	bl	__aeabi_memcpy
	addw	r0, r4, #617
	addw	r1, sp, #1108
	movs	r2, #215
	strb.w	r9, [r4, #616]
	bl	__aeabi_memcpy
	movs	r0, #1
	strh.w	r0, [r4, #832]
	addw	sp, sp, #1324
	pop.w	{r4, r5, r6, r7, r8, r9, r10, r11, pc}
.Lfunc_end5d6ad:
	.size	"gpsk_ends::server::gpsk2::settle", .Lfunc_end5d6ad-"gpsk_ends::server::gpsk2::settle"
	.cantunwind
	.fnend

	.section	".text.tuvaddri_c::session::End::last_packet","ax",%progbits
	.p2align	2
	.type	"tuvaddri_c::session::End::last_packet",%function
	.code	16
	.thumb_func
"tuvaddri_c::session::End::last_packet":
	.fnstart
	mov	r12, r0
	ldrb	r3, [r0]
	movw	r0, :lower16:.Lstatic.0
	movs	r1, #0
	movt	r0, :upper16:.Lstatic.0
	.save	{r7, lr}
	push	{r7, lr}
	movs	r2, #0
.LCPI56d51_0:
	tbb	[pc, r3]
.LJTI56d51_0:
	.byte	(.LBB56d51_10-(.LCPI56d51_0+4))/2
	.byte	(.LBB56d51_6-(.LCPI56d51_0+4))/2
	.byte	(.LBB56d51_3-(.LCPI56d51_0+4))/2
	.byte	(.LBB56d51_5-(.LCPI56d51_0+4))/2
	.byte	(.LBB56d51_2-(.LCPI56d51_0+4))/2
	.byte	(.LBB56d51_2-(.LCPI56d51_0+4))/2
	.byte	(.LBB56d51_7-(.LCPI56d51_0+4))/2
	.byte	(.LBB56d51_4-(.LCPI56d51_0+4))/2
	.byte	(.LBB56d51_8-(.LCPI56d51_0+4))/2
	.p2align	1
.LBB56d51_2:
	ldr.w	r0, [r12, #2624]
	b	.LBB56d51_9
.LBB56d51_3:
	ldr.w	r0, [r12, #1976]
	b	.LBB56d51_9
.LBB56d51_4:
	ldr.w	r0, [r12, #2352]
	b	.LBB56d51_9
.LBB56d51_5:
	ldr.w	r1, [r12, #2288]
	ldr.w	r2, [r12, #2292]
	add.w	r0, r12, #784
	pop	{r7, pc}
.LBB56d51_6:
	ldr.w	r0, [r12, #1328]
	b	.LBB56d51_9
.LBB56d51_7:
	ldr.w	r0, [r12, #1528]
	b	.LBB56d51_9
.LBB56d51_8:
	ldr.w	r0, [r12, #1560]
.LBB56d51_9:
	ldr.w	r1, [r0, #1504]
	ldr.w	r2, [r0, #1508]
.LBB56d51_10:
	pop	{r7, pc}
.Lfunc_end56d51:
	.size	"tuvaddri_c::session::End::last_packet", .Lfunc_end56d51-"tuvaddri_c::session::End::last_packet"
	.cantunwind
	.fnend

	.section	".text.tuvaddri_c::failure::shown_failure","ax",%progbits
	.p2align	2
	.type	"tuvaddri_c::failure::shown_failure",%function
	.code	16
	.thumb_func
"tuvaddri_c::failure::shown_failure":
	.fnstart
	ldrb.w	r12, [r0]
	mov	r3, r0
	cmp.w	r12, #0
	mov	r0, r1
	beq	.LBBc2148_4
	ldrb.w	r1, [r3, #320]
	cmp	r1, #2
	beq	.LBBc2148_8
	cmp	r1, #1
	bne	.LBBc2148_14
	ldrb.w	r1, [r3, #321]
	and	r1, r1, #254
	cmp	r1, #2
	beq	.LBBc2148_7
	b	.LBBc2148_14
.LBBc2148_4:
	ldrb	r1, [r3, #8]
	cmp	r1, #2
	beq	.LBBc2148_12
	cmp	r1, #1
	bne	.LBBc2148_14
	ldrb.w	r1, [r3, #328]
	cmp	r1, #2
	bne	.LBBc2148_14
.LBBc2148_7:
	cmp.w	r12, #0
	it	ne
	movne.w	r12, #1
	movs	r0, #1
	mov	r1, r12
	bx	lr
.LBBc2148_8:
	ldrb.w	r1, [r3, #1152]
	cbz	r1, .LBBc2148_11
	cmp	r1, #1
	beq	.LBBc2148_14
	ldrb.w	r1, [r3, #1153]
	cbnz	r1, .LBBc2148_14
.LBBc2148_11:
	movs	r0, #2
	movs	r1, #3
	bx	lr
.LBBc2148_12:
	ldrb.w	r1, [r3, #1248]
	cmp	r1, #1
	bne	.LBBc2148_14
	ldrb.w	r1, [r3, #1249]
	cmp	r1, #0
	ittt	eq
	moveq	r0, #2
	moveq	r1, #0
	bxeq	lr
.LBBc2148_14:
	mov	r1, r2
	bx	lr
.Lfunc_endc2148:
	.size	"tuvaddri_c::failure::shown_failure", .Lfunc_endc2148-"tuvaddri_c::failure::shown_failure"
	.cantunwind
	.fnend

	.section	".text.peer_machine::machine::PeerMachine::selected::<#807681be332d694b>","ax",%progbits
	.p2align	2
	.type	"peer_machine::machine::PeerMachine::selected::<#807681be332d694b>",%function
	.code	16
	.thumb_func
"peer_machine::machine::PeerMachine::selected::<#807681be332d694b>":
	.fnstart
	.save	{r4, r5, r7, lr}
	push	{r4, r5, r7, lr}
	.pad	#8
	sub	sp, #8
	ldrb.w	r2, [r1, #769]
	mov	r4, r0
	mov.w	r5, #0
	cbz	r2, .LBBbcd50_2
	ldr.w	r0, [r1, #2288]
	ldr.w	r2, [r1, #2296]
	ldr.w	r3, [r1, #2300]
	ldrb.w	r1, [r1, #770]
	str	r1, [sp]
	bl	"eap_method::peer_objects::find_peer::<#807681be332d694b>"
	b	.LBBbcd50_3
.LBBbcd50_2:
	movs	r0, #0
	movs	r1, #0
.LBBbcd50_3:
	strd	r5, r1, [r4, #4]
	strh	r5, [r4, #2]
	strb	r5, [r4, #1]
	strb	r0, [r4]
	add	sp, #8
	pop	{r4, r5, r7, pc}
.Lfunc_endbcd50:
	.size	"peer_machine::machine::PeerMachine::selected::<#807681be332d694b>", .Lfunc_endbcd50-"peer_machine::machine::PeerMachine::selected::<#807681be332d694b>"
	.cantunwind
	.fnend

	.section	".text.eap_method::peer_objects::find_peer::<#807681be332d694b>","ax",%progbits
	.p2align	2
	.type	"eap_method::peer_objects::find_peer::<#807681be332d694b>",%function
	.code	16
	.thumb_func
"eap_method::peer_objects::find_peer::<#807681be332d694b>":
	.fnstart
	.save	{r7, lr}
	push	{r7, lr}
	.pad	#16
	sub	sp, #16
	ldr.w	r12, [sp, #24]
	mov	r1, r0
	add	r0, sp, #4
	str.w	r12, [sp]
	bl	"eap_method::peer_objects::object_of::<#807681be332d694b>"
	ldrb.w	r0, [sp, #4]
	ldr	r1, [sp, #12]
	add	sp, #16
	pop	{r7, pc}
.Lfunc_end8e08f:
	.size	"eap_method::peer_objects::find_peer::<#807681be332d694b>", .Lfunc_end8e08f-"eap_method::peer_objects::find_peer::<#807681be332d694b>"
	.cantunwind
	.fnend

	.section	".text.eap_method::peer_objects::object_of::<#807681be332d694b>","ax",%progbits
	.p2align	2
	.type	"eap_method::peer_objects::object_of::<#807681be332d694b>",%function
	.code	16
	.thumb_func
"eap_method::peer_objects::object_of::<#807681be332d694b>":
	.fnstart
	.save	{r4, r5, r7, lr}
	push	{r4, r5, r7, lr}
	ldr.w	lr, [sp, #16]
	sub.w	r1, r1, #1248
.LBBd5f9a_1:
	orrs.w	r4, r2, r3
	mov.w	r12, #0
	beq	.LBBd5f9a_9
	ldrb.w	r4, [r1, #1248]
	movs	r5, #51
	cmp	r4, #0
	uxtb.w	r4, lr
	it	eq
	moveq	r5, #47
	cmp	r5, r4
	beq	.LBBd5f9a_10
	eor	r5, r2, #1
	orrs	r5, r3
	beq	.LBBd5f9a_9
	ldrb.w	r5, [r1, #2496]
	cmp	r5, #0
	mov.w	r5, #51
	it	eq
	moveq	r5, #47
	cmp	r5, r4
	beq	.LBBd5f9a_11
	eor	r5, r2, #2
	orrs	r5, r3
	beq	.LBBd5f9a_9
	ldrb.w	r5, [r1, #3744]
	cmp	r5, #0
	mov.w	r5, #51
	it	eq
	moveq	r5, #47
	cmp	r5, r4
	beq	.LBBd5f9a_12
	eor	r5, r2, #3
	orrs	r5, r3
	beq	.LBBd5f9a_9
	add.w	r1, r1, #4992
	ldrb	r5, [r1]
	subs	r2, #4
	sbc	r3, r3, #0
	cmp	r5, #0
	mov.w	r5, #51
	it	eq
	moveq	r5, #47
	cmp	r5, r4
	bne	.LBBd5f9a_1
	b	.LBBd5f9a_13
.LBBd5f9a_9:
	movs	r2, #0
	movs	r1, #0
	b	.LBBd5f9a_14
.LBBd5f9a_10:
	add.w	r1, r1, #1248
	b	.LBBd5f9a_13
.LBBd5f9a_11:
	add.w	r1, r1, #2496
	b	.LBBd5f9a_13
.LBBd5f9a_12:
	add.w	r1, r1, #3744
.LBBd5f9a_13:
	movs	r2, #1
.LBBd5f9a_14:
	strd	r12, r1, [r0, #4]
	strh.w	r12, [r0, #2]
	strb.w	r12, [r0, #1]
	strb	r2, [r0]
	pop	{r4, r5, r7, pc}
.Lfunc_endd5f9a:
	.size	"eap_method::peer_objects::object_of::<#807681be332d694b>", .Lfunc_endd5f9a-"eap_method::peer_objects::object_of::<#807681be332d694b>"
	.cantunwind
	.fnend

	.section	".text.tuvaddri_c::failure::peer_failure","ax",%progbits
	.p2align	2
	.type	"tuvaddri_c::failure::peer_failure",%function
	.code	16
	.thumb_func
"tuvaddri_c::failure::peer_failure":
	.fnstart
	.save	{r4, r5, r6, r7, r8, lr}
	push.w	{r4, r5, r6, r7, r8, lr}
	.pad	#1560
	sub.w	sp, sp, #1560
	mov	r7, r0
	ldr.w	r3, [sp, #1596]
	ldr.w	r0, [sp, #1592]
	lsls	r7, r7, #24
	beq	.LBBc3a76_15
	ldrb	r6, [r1]
	ldrb.w	r7, [r1, #664]
	cbz	r6, .LBBc3a76_5
	cmp	r7, #2
	bne	.LBBc3a76_15
	ldrb.w	r7, [r1, #1160]
	cmp	r7, #1
	bne	.LBBc3a76_15
	ldrb.w	r1, [r1, #1161]
	cbz	r1, .LBBc3a76_8
	b	.LBBc3a76_15
.LBBc3a76_5:
	cmp	r7, #2
	bne	.LBBc3a76_15
	ldrb.w	r7, [r1, #1241]
	cmp	r7, #1
	bne	.LBBc3a76_15
	ldrb.w	r1, [r1, #1242]
	cbnz	r1, .LBBc3a76_15
.LBBc3a76_8:
	mov	r7, sp
	ldr.w	r8, [sp, #1588]
	ldr.w	r5, [sp, #1584]
	mov	r0, r7
	movs	r1, #48
	mov	r6, r2
	bl	__aeabi_memclr8
	mov	r0, r7
	mov	r1, r6
	mov	r2, r5
	mov	r3, r8
	mov	r4, r6
	bl	"eap_packet::packet::decode"
	ldrb.w	r0, [sp]
	cmp	r0, #1
	bne	.LBBc3a76_10
	movs	r3, #0
	b	.LBBc3a76_14
.LBBc3a76_10:
	add.w	r6, r7, #8
	add	r7, sp, #48
	mov	r0, r7
	mov.w	r1, #1512
	bl	__aeabi_memclr8
	mov	r0, r6
	mov	r1, r7
	bl	"eap_packet::expanded::write_plain"
	cbz	r0, .LBBc3a76_12
	ldr.w	r2, [sp, #1552]
	ldr.w	r3, [sp, #1556]
	add	r0, sp, #48
	b	.LBBc3a76_13
.LBBc3a76_12:
	mov	r0, r4
	mov	r2, r5
	mov	r3, r8
.LBBc3a76_13:
	bl	"tuvaddri_c::failure::code_in"
	uxtb	r3, r0
.LBBc3a76_14:
	movs	r0, #3
.LBBc3a76_15:
	mov	r1, r3
	add.w	sp, sp, #1560
	pop.w	{r4, r5, r6, r7, r8, pc}
.Lfunc_endc3a76:
	.size	"tuvaddri_c::failure::peer_failure", .Lfunc_endc3a76-"tuvaddri_c::failure::peer_failure"
	.cantunwind
	.fnend

	.section	".text.tuvaddri_c::failure::code_in","ax",%progbits
	.p2align	2
	.type	"tuvaddri_c::failure::code_in",%function
	.code	16
	.thumb_func
"tuvaddri_c::failure::code_in":
	.fnstart
	.save	{r4, r5, r6, r7, r8, lr}
	push.w	{r4, r5, r6, r7, r8, lr}
	.pad	#224
	sub	sp, #224
	add	r7, sp, #8
	mov	r6, r0
	mov	r0, r7
	movs	r1, #48
	mov	r4, r3
	mov	r5, r2
	bl	__aeabi_memclr8
	mov	r0, r7
	mov	r1, r6
	mov	r2, r5
	mov	r3, r4
	bl	"eap_packet::packet::decode"
	ldrb.w	r0, [sp, #8]
	movs	r4, #0
	cmp	r0, #1
	beq	.LBBc7988_7
	ldrb.w	r0, [sp, #16]
	cmp	r0, #1
	bne	.LBBc7988_7
	ldrb.w	r0, [sp, #18]
	cmp	r0, #51
	bne	.LBBc7988_7
	add.w	r8, sp, #56
	ldr	r5, [sp, #24]
	ldrd	r6, r7, [sp, #32]
	mov	r0, r8
	movs	r1, #168
	bl	__aeabi_memclr8
	movs	r4, #0
	mov	r0, r8
	mov	r1, r5
	mov	r2, r6
	mov	r3, r7
	str	r4, [sp]
	str	r4, [sp, #4]
	bl	"gpsk_messages::reading::read_gpsk_message"
	ldrb.w	r0, [sp, #56]
	cbnz	r0, .LBBc7988_7
	ldrb.w	r0, [sp, #64]
	cmp	r0, #4
	bhs	.LBBc7988_6
	movs	r4, #0
	b	.LBBc7988_7
.LBBc7988_6:
	ldr	r4, [sp, #68]
	cmp	r0, #5
	cmp	r4, #4
	it	hs
	movhs	r4, #0
.LBBc7988_7:
	mov	r0, r4
	add	sp, #224
	pop.w	{r4, r5, r6, r7, r8, pc}
.Lfunc_endc7988:
	.size	"tuvaddri_c::failure::code_in", .Lfunc_endc7988-"tuvaddri_c::failure::code_in"
	.cantunwind
	.fnend

	.section	".text.server_machine::machine::SizedServer::current::<#575f94f35bca5e04>","ax",%progbits
	.p2align	2
	.type	"server_machine::machine::SizedServer::current::<#575f94f35bca5e04>",%function
	.code	16
	.thumb_func
"server_machine::machine::SizedServer::current::<#575f94f35bca5e04>":
	.fnstart
	.save	{r4, r5, r7, lr}
	push	{r4, r5, r7, lr}
	.pad	#8
	sub	sp, #8
	ldrb	r2, [r1, #30]
	mov	r4, r0
	mov.w	r5, #0
	cbz	r2, .LBBbf9da_2
	ldr	r0, [r1]
	ldrd	r2, r3, [r1, #8]
	ldrb	r1, [r1, #31]
	str	r1, [sp]
	bl	"eap_method::server_objects::find_server::<#476143f5be766e51>"
	b	.LBBbf9da_3
.LBBbf9da_2:
	movs	r0, #0
	movs	r1, #0
.LBBbf9da_3:
	strd	r5, r1, [r4, #4]
	strh	r5, [r4, #2]
	strb	r5, [r4, #1]
	strb	r0, [r4]
	add	sp, #8
	pop	{r4, r5, r7, pc}
.Lfunc_endbf9da:
	.size	"server_machine::machine::SizedServer::current::<#575f94f35bca5e04>", .Lfunc_endbf9da-"server_machine::machine::SizedServer::current::<#575f94f35bca5e04>"
	.cantunwind
	.fnend

	.section	".text.eap_method::server_objects::find_server::<#476143f5be766e51>","ax",%progbits
	.p2align	2
	.type	"eap_method::server_objects::find_server::<#476143f5be766e51>",%function
	.code	16
	.thumb_func
"eap_method::server_objects::find_server::<#476143f5be766e51>":
	.fnstart
	.save	{r4, lr}
	push	{r4, lr}
	ldr.w	r12, [sp, #8]
	mov	lr, r0
.LBB946e2_1:
	orrs.w	r0, r2, r3
	beq	.LBB946e2_10
	ldrb.w	r0, [lr]
	movs	r1, #51
	cmp	r0, #0
	uxtb.w	r0, r12
	it	eq
	moveq	r1, #47
	cmp	r1, r0
	beq	.LBB946e2_13
	eor	r1, r2, #1
	orrs	r1, r3
	beq	.LBB946e2_10
	ldrb.w	r1, [lr, #1256]
	cmp	r1, #0
	mov.w	r1, #51
	it	eq
	moveq	r1, #47
	cmp	r1, r0
	beq	.LBB946e2_11
	eor	r1, r2, #2
	orrs	r1, r3
	beq	.LBB946e2_10
	ldrb.w	r1, [lr, #2512]
	cmp	r1, #0
	mov.w	r1, #51
	it	eq
	moveq	r1, #47
	cmp	r1, r0
	beq	.LBB946e2_12
	eor	r1, r2, #3
	orrs	r1, r3
	beq	.LBB946e2_10
	add.w	r4, lr, #5024
	ldrb.w	lr, [lr, #3768]
	subs	r2, #4
	sbc	r3, r3, #0
	cmp.w	lr, #0
	mov.w	r1, #51
	it	eq
	moveq	r1, #47
	cmp	r1, r0
	mov	lr, r4
	bne	.LBB946e2_1
	sub.w	lr, r4, #1256
	b	.LBB946e2_13
.LBB946e2_10:
	movs	r0, #0
	movs	r1, #0
	pop	{r4, pc}
.LBB946e2_11:
	add.w	lr, lr, #1256
	b	.LBB946e2_13
.LBB946e2_12:
	add.w	lr, lr, #2512
.LBB946e2_13:
	movs	r0, #1
	mov	r1, lr
	pop	{r4, pc}
.Lfunc_end946e2:
	.size	"eap_method::server_objects::find_server::<#476143f5be766e51>", .Lfunc_end946e2-"eap_method::server_objects::find_server::<#476143f5be766e51>"
	.cantunwind
	.fnend

	.section	".text.server_machine::backend::SizedBackend::current::<#575f94f35bca5e04>","ax",%progbits
	.p2align	2
	.type	"server_machine::backend::SizedBackend::current::<#575f94f35bca5e04>",%function
	.code	16
	.thumb_func
"server_machine::backend::SizedBackend::current::<#575f94f35bca5e04>":
	.fnstart
	.save	{r4, lr}
	push	{r4, lr}
	.pad	#16
	sub	sp, #16
	mov	r4, r0
	add	r0, sp, #4
	bl	"server_machine::machine::SizedServer::current::<#575f94f35bca5e04>"
	ldrb.w	r0, [sp, #4]
	ldr	r1, [sp, #12]
	strb	r0, [r4]
	movs	r0, #0
	str	r1, [r4, #8]
	strh	r0, [r4, #6]
	str.w	r0, [r4, #2]
	strb	r0, [r4, #1]
	add	sp, #16
	pop	{r4, pc}
.Lfunc_end22a7b:
	.size	"server_machine::backend::SizedBackend::current::<#575f94f35bca5e04>", .Lfunc_end22a7b-"server_machine::backend::SizedBackend::current::<#575f94f35bca5e04>"
	.cantunwind
	.fnend

	.section	".text.tuvaddri_c::failure::server_ended","ax",%progbits
	.p2align	2
	.type	"tuvaddri_c::failure::server_ended",%function
	.code	16
	.thumb_func
"tuvaddri_c::failure::server_ended":
	.fnstart
	uxtb	r2, r0
	movs	r1, #0
	movs	r0, #5
.LCPIa6aab_0:
	tbb	[pc, r2]
.LJTIa6aab_0:
	.byte	(.LBBa6aab_2-(.LCPIa6aab_0+4))/2
	.byte	(.LBBa6aab_2-(.LCPIa6aab_0+4))/2
	.byte	(.LBBa6aab_2-(.LCPIa6aab_0+4))/2
	.byte	(.LBBa6aab_2-(.LCPIa6aab_0+4))/2
	.byte	(.LBBa6aab_2-(.LCPIa6aab_0+4))/2
	.byte	(.LBBa6aab_2-(.LCPIa6aab_0+4))/2
	.byte	(.LBBa6aab_2-(.LCPIa6aab_0+4))/2
	.byte	(.LBBa6aab_2-(.LCPIa6aab_0+4))/2
	.byte	(.LBBa6aab_2-(.LCPIa6aab_0+4))/2
	.byte	(.LBBa6aab_2-(.LCPIa6aab_0+4))/2
	.byte	(.LBBa6aab_2-(.LCPIa6aab_0+4))/2
	.byte	(.LBBa6aab_4-(.LCPIa6aab_0+4))/2
	.byte	(.LBBa6aab_2-(.LCPIa6aab_0+4))/2
	.byte	(.LBBa6aab_2-(.LCPIa6aab_0+4))/2
	.byte	(.LBBa6aab_2-(.LCPIa6aab_0+4))/2
	.byte	(.LBBa6aab_2-(.LCPIa6aab_0+4))/2
	.byte	(.LBBa6aab_2-(.LCPIa6aab_0+4))/2
	.byte	(.LBBa6aab_2-(.LCPIa6aab_0+4))/2
	.byte	(.LBBa6aab_2-(.LCPIa6aab_0+4))/2
	.byte	(.LBBa6aab_3-(.LCPIa6aab_0+4))/2
	.byte	(.LBBa6aab_2-(.LCPIa6aab_0+4))/2
	.byte	(.LBBa6aab_2-(.LCPIa6aab_0+4))/2
	.byte	(.LBBa6aab_2-(.LCPIa6aab_0+4))/2
	.byte	(.LBBa6aab_2-(.LCPIa6aab_0+4))/2
	.byte	(.LBBa6aab_2-(.LCPIa6aab_0+4))/2
	.byte	(.LBBa6aab_2-(.LCPIa6aab_0+4))/2
	.byte	(.LBBa6aab_2-(.LCPIa6aab_0+4))/2
	.byte	(.LBBa6aab_2-(.LCPIa6aab_0+4))/2
	.byte	(.LBBa6aab_2-(.LCPIa6aab_0+4))/2
	.byte	(.LBBa6aab_2-(.LCPIa6aab_0+4))/2
	.byte	(.LBBa6aab_2-(.LCPIa6aab_0+4))/2
	.byte	(.LBBa6aab_2-(.LCPIa6aab_0+4))/2
	.byte	(.LBBa6aab_2-(.LCPIa6aab_0+4))/2
	.p2align	1
.LBBa6aab_2:
	movs	r0, #0
.LBBa6aab_3:
	bx	lr
.LBBa6aab_4:
	movs	r0, #4
	bx	lr
.Lfunc_enda6aab:
	.size	"tuvaddri_c::failure::server_ended", .Lfunc_enda6aab-"tuvaddri_c::failure::server_ended"
	.cantunwind
	.fnend

	.section	".text.tuvaddri_c::restart::restart_peer","ax",%progbits
	.p2align	2
	.type	"tuvaddri_c::restart::restart_peer",%function
	.code	16
	.thumb_func
"tuvaddri_c::restart::restart_peer":
	.fnstart
	.save	{r4, r5, r6, r7, r8, lr}
	push.w	{r4, r5, r6, r7, r8, lr}
	.pad	#24
	sub	sp, #24
	mov	r4, r0
	ldrb	r0, [r1]
	mov	r5, r1
	movs	r7, #0
	cmp	r0, #3
	strd	r7, r7, [sp, #16]
	strd	r7, r7, [sp, #8]
	str	r7, [sp, #4]
	str	r7, [sp]
	bne	.LBB887b0_3
	add.w	r8, r5, #8
	mov	r0, r8
	mov	r6, r2
	bl	"peer_machine::machine::PeerMachine::has_objects::<#807681be332d694b>"
	cbz	r0, .LBB887b0_3
	mov	r0, sp
	mov	r1, r8
	mov	r2, r6
	bl	"peer_machine::machine::PeerMachine::restart_step::<#807681be332d694b>"
	ldrb.w	r0, [sp, #16]
	ldrb.w	r7, [sp, #18]
	ldrb.w	r1, [sp, #17]
	ldrb.w	r2, [r5, #776]
	strb.w	r7, [r5, #2632]
	cmp	r0, #0
	it	eq
	moveq	r1, r0
	movs	r3, #0
	b	.LBB887b0_4
.LBB887b0_3:
	movs	r3, #1
	movs	r0, #0
	movs	r1, #0
	movs	r2, #0
	strb.w	r7, [r5, #2632]
.LBB887b0_4:
	strb	r7, [r4]
	strb	r0, [r4, #1]
	strb	r3, [r4, #2]
	strb	r1, [r4, #3]
	strb	r2, [r4, #4]
	add	sp, #24
	pop.w	{r4, r5, r6, r7, r8, pc}
.Lfunc_end887b0:
	.size	"tuvaddri_c::restart::restart_peer", .Lfunc_end887b0-"tuvaddri_c::restart::restart_peer"
	.cantunwind
	.fnend

	.section	".text.peer_machine::machine::PeerMachine::has_objects::<#807681be332d694b>","ax",%progbits
	.p2align	2
	.type	"peer_machine::machine::PeerMachine::has_objects::<#807681be332d694b>",%function
	.code	16
	.thumb_func
"peer_machine::machine::PeerMachine::has_objects::<#807681be332d694b>":
	.fnstart
	.save	{r4, r5, r6, r7, lr}
	push	{r4, r5, r6, r7, lr}
	.pad	#36
	sub	sp, #36
	ldr.w	r4, [r0, #2288]
	ldr.w	r5, [r0, #2296]
	ldr.w	r6, [r0, #2300]
	add.w	r1, r0, #536
	ldrd	r0, r2, [r0, #544]
	str	r1, [sp, #16]
	movs	r1, #0
	str	r2, [sp, #28]
	strd	r1, r0, [sp, #20]
	.p2align	2
.LBBa1b20_1:
	add	r0, sp, #4
	add	r1, sp, #16
	bl	"core::iter::slices::IterIterator::next::<i8>"
	ldrb.w	r7, [sp, #4]
	cmp	r7, #1
	bne	.LBBa1b20_3
	ldr	r0, [sp, #12]
	mov	r2, r5
	ldrb	r1, [r0]
	mov	r0, r4
	mov	r3, r6
	str	r1, [sp]
	bl	"eap_method::peer_objects::find_peer::<#807681be332d694b>"
	uxtb	r0, r0
	cmp	r0, #1
	beq	.LBBa1b20_1
.LBBa1b20_3:
	subs	r0, r7, #1
	it	ne
	movne	r0, #1
	add	sp, #36
	pop	{r4, r5, r6, r7, pc}
.Lfunc_enda1b20:
	.size	"peer_machine::machine::PeerMachine::has_objects::<#807681be332d694b>", .Lfunc_enda1b20-"peer_machine::machine::PeerMachine::has_objects::<#807681be332d694b>"
	.cantunwind
	.fnend

	.section	".text.peer_machine::machine::PeerMachine::restart_step::<#807681be332d694b>","ax",%progbits
	.p2align	2
	.type	"peer_machine::machine::PeerMachine::restart_step::<#807681be332d694b>",%function
	.code	16
	.thumb_func
"peer_machine::machine::PeerMachine::restart_step::<#807681be332d694b>":
	.fnstart
	.save	{r4, r5, r6, r7, r8, r9, r10, lr}
	push.w	{r4, r5, r6, r7, r8, r9, r10, lr}
	.pad	#24
	sub	sp, #24
	mov	r5, r1
	mov	r10, r0
	addw	r8, r1, #2280
	mov.w	r9, #0
	add.w	r0, r1, #728
	mov	r1, r2
	movs	r2, #32
	strd	r9, r9, [sp, #16]
	strd	r9, r9, [sp, #8]
	strd	r9, r9, [sp]
	bl	__aeabi_memmove
	ldr.w	r6, [r5, #2296]
	ldr.w	r7, [r5, #2300]
	orrs.w	r0, r6, r7
	beq	.LBB9047d_3
	ldr.w	r0, [r5, #2288]
	.p2align	2
.LBB9047d_2:
	subs	r6, #1
	mov	r1, r5
	add.w	r4, r0, #1248
	sbc	r7, r7, #0
	bl	"eap_method::peer_objects::start_one::<#807681be332d694b>"
	orrs.w	r0, r6, r7
	mov	r0, r4
	bne	.LBB9047d_2
.LBB9047d_3:
	movs	r0, #1
	strb.w	r0, [r5, #768]
	ldrd	r1, r0, [r8]
	str.w	r9, [r5, #769]
	orrs	r0, r1
	strh.w	r9, [r5, #773]
	beq	.LBB9047d_5
	add.w	r0, r5, #776
	bl	__aeabi_memclr
	movs	r0, #0
	strd	r0, r0, [r8]
.LBB9047d_5:
	movw	r1, :lower16:.Lstatic.26
	movt	r1, :upper16:.Lstatic.26
	mov	r0, sp
	movs	r2, #2
	movs	r3, #0
	bl	"eap_method::step::Step::entering"
	ldr	r2, [sp, #12]
	ldm.w	sp, {r0, r1, r3}
	str.w	r2, [r10, #12]
	ldrb.w	r2, [sp, #16]
	str.w	r1, [r10, #4]
	ldrh.w	r1, [sp, #17]
	str.w	r3, [r10, #8]
	strb.w	r2, [r10, #16]
	str.w	r0, [r10]
	strh.w	r1, [r10, #17]
	add	sp, #24
	pop.w	{r4, r5, r6, r7, r8, r9, r10, pc}
.Lfunc_end9047d:
	.size	"peer_machine::machine::PeerMachine::restart_step::<#807681be332d694b>", .Lfunc_end9047d-"peer_machine::machine::PeerMachine::restart_step::<#807681be332d694b>"
	.cantunwind
	.fnend

	.section	".text.eap_method::peer_objects::start_one::<#807681be332d694b>","ax",%progbits
	.p2align	2
	.type	"eap_method::peer_objects::start_one::<#807681be332d694b>",%function
	.code	16
	.thumb_func
"eap_method::peer_objects::start_one::<#807681be332d694b>":
	.fnstart
	.save	{r4, r5, r6, r7, lr}
	push	{r4, r5, r6, r7, lr}
	.pad	#1260
	subw	sp, sp, #1260
	mov	r4, r0
	ldrb	r0, [r0]
	movs	r6, #51
	cmp	r0, #0
	it	eq
	moveq	r6, #47
	ldrd	r2, r3, [r1, #544]
	add.w	r0, r1, #536
	mov	r5, r1
	str	r6, [sp]
	bl	"octet_lists::kind::is_among"
	cbz	r0, .LBB34e17_2
	add	r7, sp, #632
	mov	r0, r7
	mov	r1, r5
	mov	r2, r6
	bl	"eap_method::peer_objects::credential_for"
	add	r6, sp, #8
	mov	r0, r6
	mov	r1, r7
	mov.w	r2, #624
	bl	__aeabi_memcpy8
	add.w	r2, r5, #728
	mov	r0, r4
	mov	r1, r6
	bl	"end_objects::objects::PeerObjectPeerMethod::begin"
.LBB34e17_2:
	addw	sp, sp, #1260
	pop	{r4, r5, r6, r7, pc}
.Lfunc_end34e17:
	.size	"eap_method::peer_objects::start_one::<#807681be332d694b>", .Lfunc_end34e17-"eap_method::peer_objects::start_one::<#807681be332d694b>"
	.cantunwind
	.fnend

	.section	".text.eap_method::peer_objects::credential_for","ax",%progbits
	.p2align	2
	.type	"eap_method::peer_objects::credential_for",%function
	.code	16
	.thumb_func
"eap_method::peer_objects::credential_for":
	.fnstart
	.save	{r4, r5, r6, r7, r8, r9, r10, r11, lr}
	push.w	{r4, r5, r6, r7, r8, r9, r10, r11, lr}
	.pad	#1148
	subw	sp, sp, #1148
	mov	r5, r1
	mov	r9, r0
	mov	r0, sp
	movs	r1, #72
	mov	r8, r2
	bl	__aeabi_memclr8
	add	r4, sp, #880
	ldrd	r7, r6, [r5, #256]
	mov	r0, r4
	mov.w	r1, #264
	bl	__aeabi_memclr8
	mov	r0, r4
	mov	r1, r5
	mov	r2, r7
	mov	r3, r6
	bl	"octet_lists::octets::Octets::append::<=253>"
	add	r0, sp, #352
	mov	r1, r4
	mov.w	r2, #264
	bl	__aeabi_memcpy8
	add	r0, sp, #616
	mov.w	r1, #264
	bl	__aeabi_memclr8
	ldrb.w	r11, [r5, #264]
	cmp.w	r11, #0
	beq	.LBBfa811_2
	add	r7, sp, #880
	ldrd	r4, r6, [r5, #528]
	mov	r0, r7
	mov.w	r1, #264
	add.w	r10, r5, #272
	bl	__aeabi_memclr8
	mov	r0, r7
	mov	r1, r10
	mov	r2, r4
	mov	r3, r6
	bl	"octet_lists::octets::Octets::append::<=253>"
	add	r0, sp, #616
	mov	r1, r7
	mov.w	r2, #264
	bl	__aeabi_memcpy8
.LBBfa811_2:
	add	r0, sp, #88
	add	r1, sp, #616
	mov.w	r2, #264
	bl	__aeabi_memcpy8
	ldrd	r2, r3, [r5, #560]
	add.w	r1, r5, #552
	movs	r7, #0
	add	r0, sp, #880
	strd	r7, r7, [sp, #888]
	strd	r7, r7, [sp, #880]
	bl	"octet_lists::octets::Octets::append::<=2>"
	ldrd	r1, r0, [sp, #880]
	ldrd	r3, r2, [sp, #888]
	str	r1, [sp, #72]
	strd	r0, r3, [sp, #76]
	uxtb.w	r0, r8
	cmp	r0, #51
	str	r2, [sp, #84]
	beq	.LBBfa811_6
	cmp	r0, #47
	bne	.LBBfa811_7
	ldrb.w	r0, [r5, #568]
	movs	r7, #0
	cmp	r0, #1
	it	eq
	addeq.w	r7, r5, #576
	cbz	r0, .LBBfa811_7
.LBBfa811_5:
	add	r6, sp, #880
	ldrd	r4, r5, [r7, #64]
	mov	r0, r6
	movs	r1, #72
	bl	__aeabi_memclr8
	mov	r0, r6
	mov	r1, r7
	mov	r2, r4
	mov	r3, r5
	bl	"octet_lists::octets::Octets::append::<=64>"
	add	r0, sp, #616
	mov	r1, r6
	movs	r2, #72
	bl	__aeabi_memcpy8
	b	.LBBfa811_8
.LBBfa811_6:
	ldrb.w	r0, [r5, #648]
	cmp	r0, #1
	it	eq
	addeq.w	r7, r5, #656
	cmp	r0, #0
	bne	.LBBfa811_5
.LBBfa811_7:
	add	r0, sp, #616
	movs	r1, #72
	bl	__aeabi_memclr8
.LBBfa811_8:
	mov	r5, sp
	add	r1, sp, #616
	mov	r0, r5
	movs	r2, #72
	bl	__aeabi_memcpy8
	add	r1, sp, #352
	mov	r0, r9
	mov.w	r2, #264
	bl	__aeabi_memcpy
	movs	r0, #0
	str.w	r0, [r9, #268]
	add.w	r0, r9, #272
	add	r1, sp, #88
	mov.w	r2, #264
	str.w	r11, [r9, #264]
	bl	__aeabi_memcpy
	add	r3, sp, #72
	ldm	r3, {r0, r1, r2, r3}
	str.w	r1, [r9, #540]
	str.w	r0, [r9, #536]
	str.w	r2, [r9, #544]
	add.w	r0, r9, #552
	mov	r1, r5
	movs	r2, #72
	str.w	r3, [r9, #548]
	bl	__aeabi_memcpy
	addw	sp, sp, #1148
	pop.w	{r4, r5, r6, r7, r8, r9, r10, r11, pc}
.Lfunc_endfa811:
	.size	"eap_method::peer_objects::credential_for", .Lfunc_endfa811-"eap_method::peer_objects::credential_for"
	.cantunwind
	.fnend

	.section	".text.end_objects::objects::PeerObjectPeerMethod::begin","ax",%progbits
	.p2align	2
	.type	"end_objects::objects::PeerObjectPeerMethod::begin",%function
	.code	16
	.thumb_func
"end_objects::objects::PeerObjectPeerMethod::begin":
	.fnstart
	.save	{r4, r5, r6, lr}
	push	{r4, r5, r6, lr}
	mov	r4, r0
	ldrb	r6, [r0], #8
	mov	r5, r2
	bl	"eap_method::peer_side::PeerSide::set"
	add.w	r0, r4, #632
	mov	r1, r5
	movs	r2, #32
	bl	__aeabi_memmove
	cbz	r6, .LBBa11f2_2
	movs	r0, #0
	str.w	r0, [r4, #668]
	movs	r0, #1
	str.w	r0, [r4, #664]
	add.w	r0, r4, #672
	mov.w	r1, #490
	bl	__aeabi_memclr
	pop	{r4, r5, r6, pc}
.LBBa11f2_2:
	movs	r0, #1
	strb.w	r0, [r4, #664]
	addw	r0, r4, #665
	movw	r1, #578
	bl	__aeabi_memclr
	pop	{r4, r5, r6, pc}
.Lfunc_enda11f2:
	.size	"end_objects::objects::PeerObjectPeerMethod::begin", .Lfunc_enda11f2-"end_objects::objects::PeerObjectPeerMethod::begin"
	.cantunwind
	.fnend

	.section	".text.eap_method::peer_side::PeerSide::set","ax",%progbits
	.p2align	2
	.type	"eap_method::peer_side::PeerSide::set",%function
	.code	16
	.thumb_func
"eap_method::peer_side::PeerSide::set":
	.fnstart
	.save	{r4, r5, r6, r7, r8, r9, lr}
	push.w	{r4, r5, r6, r7, r8, r9, lr}
	.pad	#4
	sub	sp, #4
	ldrd	r2, r3, [r1, #256]
	mov	r5, r1
	mov	r4, r0
	bl	"octet_lists::octets::Octets::set::<=253>"
	ldrd	r2, r3, [r5, #544]
	add.w	r0, r4, #536
	add.w	r1, r5, #536
	bl	"octet_lists::octets::Octets::set::<=2>"
	ldrd	r1, r0, [r4, #616]
	ldrd	r6, r7, [r5, #616]
	add.w	r8, r4, #552
	orrs	r0, r1
	add.w	r9, r5, #552
	beq	.LBBc41ce_2
	mov	r0, r8
	bl	__aeabi_memclr
	movs	r0, #0
	strd	r0, r0, [r4, #616]
.LBBc41ce_2:
	mov	r0, r8
	mov	r1, r9
	mov	r2, r6
	mov	r3, r7
	bl	"octet_lists::octets::Octets::append::<=64>"
	ldrb.w	r0, [r5, #264]
	cbz	r0, .LBBc41ce_4
	movs	r0, #1
	strb.w	r0, [r4, #528]
	ldrd	r2, r3, [r5, #528]
	add.w	r1, r5, #272
	add.w	r0, r4, #264
	add	sp, #4
	pop.w	{r4, r5, r6, r7, r8, r9, lr}
	b	"octet_lists::octets::Octets::set::<=253>"
.LBBc41ce_4:
	ldrd	r1, r0, [r4, #520]
	movs	r5, #0
	orrs	r0, r1
	strb.w	r5, [r4, #528]
	beq	.LBBc41ce_6
	add.w	r0, r4, #264
	bl	__aeabi_memclr
	strd	r5, r5, [r4, #520]
.LBBc41ce_6:
	add	sp, #4
	pop.w	{r4, r5, r6, r7, r8, r9, pc}
.Lfunc_endc41ce:
	.size	"eap_method::peer_side::PeerSide::set", .Lfunc_endc41ce-"eap_method::peer_side::PeerSide::set"
	.cantunwind
	.fnend

	.section	".text.tuvaddri_c::restart::restart_server","ax",%progbits
	.p2align	2
	.type	"tuvaddri_c::restart::restart_server",%function
	.code	16
	.thumb_func
"tuvaddri_c::restart::restart_server":
	.fnstart
	.save	{r4, r5, r6, r7, r8, r9, r10, lr}
	push.w	{r4, r5, r6, r7, r8, r9, r10, lr}
	.pad	#1536
	sub.w	sp, sp, #1536
	mov	r4, r1
	ldrb	r1, [r1]
	movs	r3, #1
	lsls	r3, r1
	movw	r7, #463
	tst	r3, r7
	beq	.LBB2658f_3
.LBB2658f_1:
	movs	r5, #0
	movs	r1, #1
	mov.w	r9, #0
	movs	r7, #0
	movs	r6, #0
	strb.w	r5, [r4, #2632]
.LBB2658f_2:
	strb	r5, [r0]
	strb.w	r9, [r0, #1]
	strb	r1, [r0, #2]
	strb	r7, [r0, #3]
	strb	r6, [r0, #4]
	add.w	sp, sp, #1536
	pop.w	{r4, r5, r6, r7, r8, r9, r10, pc}
.LBB2658f_3:
	add.w	r5, r4, #8
	mov	r6, r2
	mov	r8, r0
	mov	r0, r5
	cmp	r1, #4
	bne	.LBB2658f_7
	bl	"server_machine::machine::SizedServer::has_objects::<#575f94f35bca5e04>"
	cmp	r0, #0
	mov	r0, r8
	beq	.LBB2658f_1
	mov	r0, sp
	mov.w	r1, #1512
	bl	__aeabi_memclr8
	movs	r0, #0
	str.w	r0, [sp, #1532]
	str.w	r0, [sp, #1528]
	str.w	r0, [sp, #1524]
	str.w	r0, [sp, #1520]
	str.w	r0, [sp, #1516]
	str.w	r0, [sp, #1512]
	mov	r0, r5
	mov	r1, r6
	bl	"server_machine::machine::SizedServer::make_again::<#575f94f35bca5e04>"
	ldrb.w	r0, [r4, #32]
	cmp	r0, #1
	bne	.LBB2658f_13
	movw	r1, :lower16:.Lstatic.5
	movt	r1, :upper16:.Lstatic.5
	add.w	r0, sp, #1512
	movs	r2, #1
	movs	r3, #0
	bl	"eap_method::step::Step::entering"
	b	.LBB2658f_14
.LBB2658f_7:
	bl	"server_machine::machine::SizedServer::has_objects::<#575f94f35bca5e04>"
	cmp	r0, #0
	mov	r0, r8
	beq	.LBB2658f_1
	mov	r1, r6
	movs	r6, #0
	mov	r0, r5
	str.w	r6, [sp, #1532]
	str.w	r6, [sp, #1528]
	str.w	r6, [sp, #1524]
	str.w	r6, [sp, #1520]
	str.w	r6, [sp, #1516]
	str.w	r6, [sp, #1512]
	bl	"server_machine::machine::SizedServer::make_again::<#575f94f35bca5e04>"
	movw	r1, :lower16:.Lstatic.5
	movt	r1, :upper16:.Lstatic.5
	add.w	r0, sp, #1512
	movs	r2, #1
	movs	r3, #0
	bl	"eap_method::step::Step::entering"
	ldr.w	r0, [r4, #2624]
	ldrb.w	r9, [sp, #1528]
	ldr.w	r1, [r0, #1504]
	ldr.w	r2, [r0, #1508]
	ldrb.w	r7, [sp, #1529]
	ldrb.w	r5, [sp, #1530]
	orrs	r2, r1
	beq	.LBB2658f_10
	add.w	r10, r0, #1504
	bl	__aeabi_memclr
	strd	r6, r6, [r10]
	ldr.w	r0, [r4, #2624]
.LBB2658f_10:
	ldrb.w	r6, [r4, #35]
	lsls	r1, r5, #31
	strb.w	r5, [r4, #2632]
	beq	.LBB2658f_12
	movw	r1, :lower16:.Lstatic.0
	movt	r1, :upper16:.Lstatic.0
	movs	r2, #0
	movs	r3, #0
	bl	"octet_lists::octets::Octets::set::<=1500>"
.LBB2658f_12:
	cmp.w	r9, #0
	it	eq
	moveq	r7, r9
	movs	r1, #0
	mov	r0, r8
	b	.LBB2658f_2
.LBB2658f_13:
	add.w	r0, sp, #1512
	mov	r2, sp
	mov	r1, r5
	bl	"server_machine::machine::SizedServer::start_step::<#575f94f35bca5e04>"
.LBB2658f_14:
	ldr.w	r12, [r4, #2624]
	ldrb.w	r9, [sp, #1528]
	ldr.w	r1, [r12, #1504]
	ldr.w	r0, [r12, #1508]
	ldrb.w	r7, [sp, #1529]
	ldrb.w	r5, [sp, #1530]
	orrs	r0, r1
	beq	.LBB2658f_16
	mov	r0, r12
	add.w	r6, r12, #1504
	bl	__aeabi_memclr
	movs	r0, #0
	strd	r0, r0, [r6]
	ldr.w	r12, [r4, #2624]
.LBB2658f_16:
	ldr.w	r2, [sp, #1504]
	ldr.w	r3, [sp, #1508]
	ldrb.w	r6, [r4, #35]
	mov	r0, r8
	lsls	r1, r5, #31
	strb.w	r5, [r4, #2632]
	beq	.LBB2658f_18
	mov	r1, sp
	mov	r0, r12
	bl	"octet_lists::octets::Octets::set::<=1500>"
	mov	r0, r8
.LBB2658f_18:
	cmp.w	r9, #0
	it	eq
	moveq	r7, r9
	movs	r1, #0
	b	.LBB2658f_2
.Lfunc_end2658f:
	.size	"tuvaddri_c::restart::restart_server", .Lfunc_end2658f-"tuvaddri_c::restart::restart_server"
	.cantunwind
	.fnend

	.section	".text.server_machine::machine::SizedServer::has_objects::<#575f94f35bca5e04>","ax",%progbits
	.p2align	2
	.type	"server_machine::machine::SizedServer::has_objects::<#575f94f35bca5e04>",%function
	.code	16
	.thumb_func
"server_machine::machine::SizedServer::has_objects::<#575f94f35bca5e04>":
	.fnstart
	.save	{r4, r5, r6, r7, lr}
	push	{r4, r5, r6, r7, lr}
	.pad	#36
	sub	sp, #36
	ldr	r4, [r0]
	ldrd	r5, r6, [r0, #8]
	add.w	r1, r0, #1832
	ldr.w	r2, [r0, #1840]
	ldr.w	r0, [r0, #1844]
	str	r1, [sp, #16]
	movs	r1, #0
	str	r0, [sp, #28]
	strd	r1, r2, [sp, #20]
	.p2align	2
.LBBcf254_1:
	add	r0, sp, #4
	add	r1, sp, #16
	bl	"core::iter::slices::IterIterator::next::<i8>"
	ldrb.w	r7, [sp, #4]
	cmp	r7, #1
	bne	.LBBcf254_3
	ldr	r0, [sp, #12]
	mov	r2, r5
	ldrb	r1, [r0]
	mov	r0, r4
	mov	r3, r6
	str	r1, [sp]
	bl	"eap_method::server_objects::find_server::<#476143f5be766e51>"
	uxtb	r0, r0
	cmp	r0, #1
	beq	.LBBcf254_1
.LBBcf254_3:
	subs	r0, r7, #1
	it	ne
	movne	r0, #1
	add	sp, #36
	pop	{r4, r5, r6, r7, pc}
.Lfunc_endcf254:
	.size	"server_machine::machine::SizedServer::has_objects::<#575f94f35bca5e04>", .Lfunc_endcf254-"server_machine::machine::SizedServer::has_objects::<#575f94f35bca5e04>"
	.cantunwind
	.fnend

	.section	".text.server_machine::machine::SizedServer::start_step::<#575f94f35bca5e04>","ax",%progbits
	.p2align	2
	.type	"server_machine::machine::SizedServer::start_step::<#575f94f35bca5e04>",%function
	.code	16
	.thumb_func
"server_machine::machine::SizedServer::start_step::<#575f94f35bca5e04>":
	.fnstart
	.save	{r4, r5, r6, r7, lr}
	push	{r4, r5, r6, r7, lr}
	.pad	#52
	sub	sp, #52
	mov	r4, r0
	movw	r0, :lower16:.Lstatic.0
	mov	r6, r2
	ldrb	r2, [r1, #25]
	movt	r0, :upper16:.Lstatic.0
	mov	r5, r1
	movs	r7, #0
	str	r0, [sp]
	mov	r0, r6
	movs	r1, #0
	movs	r3, #1
	str	r7, [sp, #44]
	strd	r7, r7, [sp, #36]
	strd	r7, r7, [sp, #28]
	str	r7, [sp, #24]
	str	r7, [sp, #8]
	str	r7, [sp, #12]
	bl	"eap_packet::packet::encode_into"
	movw	r0, #257
	ldrb	r1, [r5, #25]
	strh.w	r0, [r5, #27]
	movw	r0, #257
	movt	r0, #1
	strb	r1, [r5, #29]
	str.w	r0, [r5, #30]
	ldr.w	r2, [r6, #1504]
	ldr.w	r3, [r6, #1508]
	add.w	r0, r5, #56
	mov	r1, r6
	bl	"octet_lists::octets::Octets::set::<=1500>"
	ldrd	r1, r0, [r5, #48]
	orrs	r0, r1
	beq	.LBB59641_2
	add.w	r0, r5, #40
	bl	__aeabi_memclr
	strd	r7, r7, [r5, #48]
.LBB59641_2:
	movw	r0, #3072
	movt	r0, #3597
	str.w	r0, [sp, #18]
	movw	r0, #271
	strh.w	r0, [sp, #22]
	add	r0, sp, #24
	add.w	r1, sp, #18
	movs	r2, #6
	movs	r3, #0
	bl	"eap_method::step::Step::sending"
	ldr	r2, [sp, #36]
	add	r3, sp, #24
	ldm	r3, {r0, r1, r3}
	str	r2, [r4, #12]
	ldrb.w	r2, [sp, #40]
	str	r1, [r4, #4]
	ldrh.w	r1, [sp, #41]
	str	r3, [r4, #8]
	strb	r2, [r4, #16]
	str	r0, [r4]
	strh.w	r1, [r4, #17]
	add	sp, #52
	pop	{r4, r5, r6, r7, pc}
.Lfunc_end59641:
	.size	"server_machine::machine::SizedServer::start_step::<#575f94f35bca5e04>", .Lfunc_end59641-"server_machine::machine::SizedServer::start_step::<#575f94f35bca5e04>"
	.cantunwind
	.fnend

	.section	".text.pass_through::machine::PassThrough::from_backend_step","ax",%progbits
	.p2align	2
	.type	"pass_through::machine::PassThrough::from_backend_step",%function
	.code	16
	.thumb_func
"pass_through::machine::PassThrough::from_backend_step":
	.fnstart
	.save	{r4, r5, r6, r7, r8, r9, r10, lr}
	push.w	{r4, r5, r6, r7, r8, r9, r10, lr}
	.pad	#120
	sub	sp, #120
	ldrb	r7, [r1, #2]
	mov	r4, r0
	mov	r0, r7
	mov	r6, r2
	mov	r5, r1
	bl	"pass_through::states::is_over"
	cbz	r0, .LBBe0596_2
	movs	r7, #0
	strd	r7, r7, [sp, #24]
	strd	r7, r7, [sp, #16]
	movs	r0, #18
	movs	r1, #1
	b	.LBBe0596_17
.LBBe0596_2:
	cmp	r7, #23
	bne	.LBBe0596_5
	add.w	r10, sp, #72
	ldrd	r9, r8, [sp, #152]
	mov	r0, r10
	movs	r1, #48
	bl	__aeabi_memclr8
	movs	r7, #0
	mov	r0, r10
	mov	r1, r6
	mov	r2, r9
	mov	r3, r8
	strd	r7, r7, [sp, #48]
	strd	r7, r7, [sp, #40]
	strd	r7, r7, [sp, #32]
	bl	"eap_packet::packet::decode"
	ldrb.w	r0, [sp, #72]
	cmp	r0, #1
	bne	.LBBe0596_6
	ldrb.w	r0, [sp, #73]
	strd	r7, r7, [sp, #56]
	strd	r7, r7, [sp, #64]
	movs	r1, #1
	b	.LBBe0596_15
.LBBe0596_5:
	movs	r7, #0
	movs	r0, #17
	movs	r1, #1
	strd	r7, r7, [sp, #8]
	strd	r7, r7, [sp]
	b	.LBBe0596_16
.LBBe0596_6:
	ldrb.w	r7, [sp, #80]
	ldr	r1, [sp, #104]
	ldrd	r2, r3, [sp, #112]
	ldr	r0, [sp, #160]
.LCPIe0596_0:
	tbb	[pc, r7]
.LJTIe0596_0:
	.byte	(.LBBe0596_8-(.LCPIe0596_0+4))/2
	.byte	(.LBBe0596_13-(.LCPIe0596_0+4))/2
	.byte	(.LBBe0596_9-(.LCPIe0596_0+4))/2
	.byte	(.LBBe0596_10-(.LCPIe0596_0+4))/2
	.p2align	1
.LBBe0596_8:
	ldrb.w	r9, [sp, #81]
	mov	r6, r1
	mov	r7, r2
	mov	r8, r3
	bl	"octet_lists::octets::Octets::set::<=1500>"
	mov.w	r0, #282
	strh	r0, [r5, #2]
	movs	r0, #0
	strb	r0, [r5, #5]
	add.w	r0, r5, #8
	mov	r1, r6
	mov	r2, r7
	mov	r3, r8
	strb.w	r9, [r5, #4]
	bl	"octet_lists::octets::Octets::set::<=1500>"
	movw	r1, :lower16:.Lstatic.29
	movt	r1, :upper16:.Lstatic.29
	add	r0, sp, #32
	movs	r2, #3
	b	.LBBe0596_12
.LBBe0596_9:
	bl	"octet_lists::octets::Octets::set::<=1500>"
	movs	r0, #30
	movw	r1, :lower16:.Lstatic.30
	strb	r0, [r5, #2]
	movt	r1, :upper16:.Lstatic.30
	b	.LBBe0596_11
.LBBe0596_10:
	bl	"octet_lists::octets::Octets::set::<=1500>"
	movw	r1, :lower16:.Lstatic.31
	movs	r0, #31
	movt	r1, :upper16:.Lstatic.31
	strb	r0, [r5, #2]
.LBBe0596_11:
	add	r0, sp, #32
	movs	r2, #1
.LBBe0596_12:
	movs	r3, #0
	bl	"eap_method::step::Step::sending"
	b	.LBBe0596_14
.LBBe0596_13:
	movs	r0, #0
	movw	r1, #1793
	strd	r0, r0, [sp, #40]
	strd	r0, r0, [sp, #32]
	strh.w	r1, [sp, #48]
	strb.w	r0, [sp, #50]
.LBBe0596_14:
	ldrd	r2, r0, [sp, #32]
	ldrd	r3, r1, [sp, #40]
	ldrb.w	r7, [sp, #50]
	str	r1, [sp, #68]
	strd	r0, r3, [sp, #60]
	ldrb.w	r1, [sp, #48]
	ldrb.w	r0, [sp, #49]
	str	r2, [sp, #56]
.LBBe0596_15:
	add	r6, sp, #56
	ldm	r6, {r2, r3, r5, r6}
	stm.w	sp, {r2, r3, r5, r6}
.LBBe0596_16:
	ldm.w	sp, {r2, r3, r5, r6}
	add.w	r12, sp, #16
	stm.w	r12, {r2, r3, r5, r6}
.LBBe0596_17:
	add	r6, sp, #16
	ldm	r6, {r2, r3, r5, r6}
	str	r6, [r4, #12]
	str	r5, [r4, #8]
	str	r3, [r4, #4]
	str	r2, [r4]
	strb	r1, [r4, #16]
	strb	r0, [r4, #17]
	strb	r7, [r4, #18]
	add	sp, #120
	pop.w	{r4, r5, r6, r7, r8, r9, r10, pc}
.Lfunc_ende0596:
	.size	"pass_through::machine::PassThrough::from_backend_step", .Lfunc_ende0596-"pass_through::machine::PassThrough::from_backend_step"
	.cantunwind
	.fnend

	.section	".text.pass_through::states::is_over","ax",%progbits
	.p2align	2
	.type	"pass_through::states::is_over",%function
	.code	16
	.thumb_func
"pass_through::states::is_over":
	.fnstart
	uxtb	r1, r0
	movs	r0, #1
.LCPI51b41_0:
	tbb	[pc, r1]
.LJTI51b41_0:
	.byte	(.LBB51b41_2-(.LCPI51b41_0+4))/2
	.byte	(.LBB51b41_2-(.LCPI51b41_0+4))/2
	.byte	(.LBB51b41_2-(.LCPI51b41_0+4))/2
	.byte	(.LBB51b41_2-(.LCPI51b41_0+4))/2
	.byte	(.LBB51b41_2-(.LCPI51b41_0+4))/2
	.byte	(.LBB51b41_2-(.LCPI51b41_0+4))/2
	.byte	(.LBB51b41_2-(.LCPI51b41_0+4))/2
	.byte	(.LBB51b41_2-(.LCPI51b41_0+4))/2
	.byte	(.LBB51b41_2-(.LCPI51b41_0+4))/2
	.byte	(.LBB51b41_2-(.LCPI51b41_0+4))/2
	.byte	(.LBB51b41_2-(.LCPI51b41_0+4))/2
	.byte	(.LBB51b41_2-(.LCPI51b41_0+4))/2
	.byte	(.LBB51b41_2-(.LCPI51b41_0+4))/2
	.byte	(.LBB51b41_2-(.LCPI51b41_0+4))/2
	.byte	(.LBB51b41_2-(.LCPI51b41_0+4))/2
	.byte	(.LBB51b41_2-(.LCPI51b41_0+4))/2
	.byte	(.LBB51b41_2-(.LCPI51b41_0+4))/2
	.byte	(.LBB51b41_2-(.LCPI51b41_0+4))/2
	.byte	(.LBB51b41_2-(.LCPI51b41_0+4))/2
	.byte	(.LBB51b41_3-(.LCPI51b41_0+4))/2
	.byte	(.LBB51b41_2-(.LCPI51b41_0+4))/2
	.byte	(.LBB51b41_2-(.LCPI51b41_0+4))/2
	.byte	(.LBB51b41_2-(.LCPI51b41_0+4))/2
	.byte	(.LBB51b41_2-(.LCPI51b41_0+4))/2
	.byte	(.LBB51b41_2-(.LCPI51b41_0+4))/2
	.byte	(.LBB51b41_2-(.LCPI51b41_0+4))/2
	.byte	(.LBB51b41_2-(.LCPI51b41_0+4))/2
	.byte	(.LBB51b41_2-(.LCPI51b41_0+4))/2
	.byte	(.LBB51b41_2-(.LCPI51b41_0+4))/2
	.byte	(.LBB51b41_2-(.LCPI51b41_0+4))/2
	.byte	(.LBB51b41_3-(.LCPI51b41_0+4))/2
	.byte	(.LBB51b41_3-(.LCPI51b41_0+4))/2
	.byte	(.LBB51b41_3-(.LCPI51b41_0+4))/2
	.p2align	1
.LBB51b41_2:
	movs	r0, #0
.LBB51b41_3:
	bx	lr
.Lfunc_end51b41:
	.size	"pass_through::states::is_over", .Lfunc_end51b41-"pass_through::states::is_over"
	.cantunwind
	.fnend

	.section	".text.pass_through::machine::PassThrough::from_peer_step","ax",%progbits
	.p2align	2
	.type	"pass_through::machine::PassThrough::from_peer_step",%function
	.code	16
	.thumb_func
"pass_through::machine::PassThrough::from_peer_step":
	.fnstart
	.save	{r4, r5, r6, r7, r8, r9, r10, r11, lr}
	push.w	{r4, r5, r6, r7, r8, r9, r10, r11, lr}
	.pad	#84
	sub	sp, #84
	ldrb	r6, [r1, #2]
	mov	r4, r0
	mov	r0, r6
	mov	r7, r2
	mov	r5, r1
	bl	"pass_through::states::is_over"
	cbz	r0, .LBB405eb_2
	mov.w	r11, #0
	movs	r2, #18
	b	.LBB405eb_9
.LBB405eb_2:
	ldrd	r10, r9, [sp, #120]
	ldr.w	r8, [sp, #128]
	cmp	r6, #26
	mov.w	r11, #0
	beq	.LBB405eb_6
	cmp	r6, #1
	bne	.LBB405eb_8
	add	r6, sp, #32
	mov	r0, r6
	movs	r1, #48
	bl	__aeabi_memclr8
	movs	r0, #0
	strd	r0, r0, [sp, #24]
	strd	r0, r0, [sp, #16]
	strd	r0, r0, [sp, #8]
	mov	r0, r6
	mov	r1, r7
	mov	r2, r10
	mov	r3, r9
	bl	"eap_packet::packet::decode"
	ldrb.w	r0, [sp, #32]
	cmp	r0, #1
	bne	.LBB405eb_13
	movw	r11, #2306
	ldrb.w	r2, [sp, #33]
	movs	r1, #0
	movs	r0, #3
	movt	r11, #1
	movs	r3, #1
	b	.LBB405eb_10
.LBB405eb_6:
	add	r6, sp, #32
	mov	r0, r6
	movs	r1, #48
	bl	__aeabi_memclr8
	mov	r0, r6
	mov	r1, r7
	mov	r2, r10
	mov	r3, r9
	strd	r11, r11, [sp, #24]
	strd	r11, r11, [sp, #16]
	strd	r11, r11, [sp, #8]
	bl	"eap_packet::packet::decode"
	ldrb.w	r0, [sp, #32]
	cmp	r0, #1
	bne	.LBB405eb_18
	movw	r11, #7451
	ldrb.w	r2, [sp, #33]
	movs	r7, #0
	movt	r11, #26
	movs	r0, #3
	b	.LBB405eb_28
.LBB405eb_8:
	movs	r2, #17
.LBB405eb_9:
	movs	r3, #1
	movs	r1, #0
	movs	r0, #0
.LBB405eb_10:
	movs	r7, #0
.LBB405eb_11:
	movs	r6, #0
.LBB405eb_12:
	str.w	r11, [r4]
	str	r1, [r4, #4]
	str	r0, [r4, #8]
	str	r7, [r4, #12]
	strb	r3, [r4, #16]
	strb	r2, [r4, #17]
	strb	r6, [r4, #18]
	add	sp, #84
	pop.w	{r4, r5, r6, r7, r8, r9, r10, r11, pc}
.LBB405eb_13:
	ldrb.w	r0, [sp, #40]
	cmp	r0, #1
	bne	.LBB405eb_23
	ldrb	r0, [r5, #3]
	cmp	r0, #1
	bne	.LBB405eb_25
	ldrb.w	r0, [sp, #41]
	ldrb	r1, [r5, #4]
	cmp	r1, r0
	bne	.LBB405eb_25
	ldrb.w	r0, [sp, #42]
	cmp	r0, #1
	bne	.LBB405eb_29
	ldr	r1, [sp, #64]
	ldrd	r2, r3, [sp, #72]
	mov	r0, r8
	bl	"octet_lists::octets::Octets::set::<=1500>"
	movw	r1, #4354
	movt	r1, #3090
	movs	r0, #23
	str.w	r1, [sp, #1]
	movw	r1, #5653
	strb	r0, [r5, #2]
	strh.w	r1, [sp, #5]
	strb.w	r0, [sp, #7]
	add	r0, sp, #8
	add.w	r1, sp, #1
	movs	r2, #7
	b	.LBB405eb_22
.LBB405eb_18:
	ldrb.w	r0, [sp, #40]
	cmp	r0, #1
	bne	.LBB405eb_24
	ldrb	r0, [r5, #3]
	cmp	r0, #1
	bne	.LBB405eb_27
	ldrb.w	r0, [sp, #41]
	ldrb	r1, [r5, #4]
	cmp	r1, r0
	bne	.LBB405eb_27
	ldr	r1, [sp, #64]
	ldrd	r2, r3, [sp, #72]
	mov	r0, r8
	bl	"octet_lists::octets::Octets::set::<=1500>"
	movs	r0, #23
	movw	r1, :lower16:.Lstatic.33
	strb	r0, [r5, #2]
	movt	r1, :upper16:.Lstatic.33
	add	r0, sp, #8
	movs	r2, #3
.LBB405eb_22:
	movs	r3, #0
	bl	"eap_method::step::Step::sending"
	ldrd	r11, r1, [sp, #8]
	ldr	r0, [sp, #16]
	ldr	r7, [sp, #20]
	ldrb.w	r3, [sp, #24]
	ldrb.w	r2, [sp, #25]
	ldrb.w	r6, [sp, #26]
	b	.LBB405eb_12
.LBB405eb_23:
	movw	r11, #2306
	movs	r1, #0
	movs	r0, #3
	movt	r11, #1
	movs	r2, #7
	b	.LBB405eb_26
.LBB405eb_24:
	movw	r11, #7451
	movs	r7, #0
	movt	r11, #26
	movs	r0, #3
	movs	r2, #7
	b	.LBB405eb_28
.LBB405eb_25:
	movw	r11, #2306
	movs	r1, #0
	movs	r0, #3
	movt	r11, #1
	movs	r2, #12
.LBB405eb_26:
	movs	r3, #1
	b	.LBB405eb_10
.LBB405eb_27:
	movw	r11, #7451
	movs	r7, #0
	movt	r11, #26
	movs	r0, #3
	movs	r2, #12
.LBB405eb_28:
	movs	r3, #1
	movs	r1, #0
	b	.LBB405eb_11
.LBB405eb_29:
	movw	r11, #2306
	movs	r1, #0
	movs	r0, #3
	movt	r11, #1
	movs	r2, #16
	b	.LBB405eb_26
.Lfunc_end405eb:
	.size	"pass_through::machine::PassThrough::from_peer_step", .Lfunc_end405eb-"pass_through::machine::PassThrough::from_peer_step"
	.cantunwind
	.fnend

	.section	".text.pass_through::machine::PassThrough::initialize","ax",%progbits
	.p2align	2
	.type	"pass_through::machine::PassThrough::initialize",%function
	.code	16
	.thumb_func
"pass_through::machine::PassThrough::initialize":
	.fnstart
	.save	{r4, r5, r6, r7, lr}
	push	{r4, r5, r6, r7, lr}
	.pad	#52
	sub	sp, #52
	mov	r4, r0
	movw	r0, :lower16:.Lstatic.0
	mov	r5, r2
	ldrb	r2, [r1]
	movt	r0, :upper16:.Lstatic.0
	mov	r6, r1
	movs	r7, #0
	str	r0, [sp]
	mov	r0, r5
	movs	r1, #0
	movs	r3, #1
	str	r7, [sp, #44]
	strd	r7, r7, [sp, #36]
	strd	r7, r7, [sp, #28]
	str	r7, [sp, #24]
	str	r7, [sp, #8]
	str	r7, [sp, #12]
	bl	"eap_packet::packet::encode_into"
	movw	r0, #257
	strh	r0, [r6, #2]
	ldrb	r0, [r6], #8
	mov	r1, r5
	strb	r0, [r6, #-4]
	strb	r7, [r6, #-3]
	ldr.w	r2, [r5, #1504]
	ldr.w	r3, [r5, #1508]
	mov	r0, r6
	bl	"octet_lists::octets::Octets::set::<=1500>"
	movw	r0, #3072
	movt	r0, #3597
	str.w	r0, [sp, #18]
	movw	r0, #271
	strh.w	r0, [sp, #22]
	add	r0, sp, #24
	add.w	r1, sp, #18
	movs	r2, #6
	movs	r3, #0
	bl	"eap_method::step::Step::sending"
	ldr	r2, [sp, #36]
	add	r3, sp, #24
	ldm	r3, {r0, r1, r3}
	str	r2, [r4, #12]
	ldrb.w	r2, [sp, #40]
	str	r1, [r4, #4]
	ldrh.w	r1, [sp, #41]
	str	r3, [r4, #8]
	strb	r2, [r4, #16]
	str	r0, [r4]
	strh.w	r1, [r4, #17]
	add	sp, #52
	pop	{r4, r5, r6, r7, pc}
.Lfunc_end87da7:
	.size	"pass_through::machine::PassThrough::initialize", .Lfunc_end87da7-"pass_through::machine::PassThrough::initialize"
	.cantunwind
	.fnend

	.section	".text.pass_through::machine::PassThrough::timeout_step","ax",%progbits
	.p2align	2
	.type	"pass_through::machine::PassThrough::timeout_step",%function
	.code	16
	.thumb_func
"pass_through::machine::PassThrough::timeout_step":
	.fnstart
	.save	{r4, lr}
	push	{r4, lr}
	.pad	#32
	sub	sp, #32
	mov	r12, r2
	ldrb	r2, [r1, #2]
	mov	r4, r0
	cmp	r2, #1
	mov.w	r0, #0
	strd	r0, r0, [sp, #24]
	strd	r0, r0, [sp, #16]
	strd	r0, r0, [sp, #8]
	bne	.LBB143bd_2
	mov.w	lr, #19
	add	r0, sp, #8
	movs	r2, #7
	movs	r3, #1
	b	.LBB143bd_3
.LBB143bd_2:
	mov.w	lr, #32
	add	r0, sp, #8
	movs	r2, #28
	movs	r3, #26
.LBB143bd_3:
	strd	lr, r12, [sp]
	bl	"pass_through::rows::resend"
	ldrh.w	r12, [sp, #24]
	ldrb.w	lr, [sp, #26]
	ldrd	r2, r3, [sp, #8]
	ldrd	r0, r1, [sp, #16]
	str	r2, [r4]
	str	r3, [r4, #4]
	str	r0, [r4, #8]
	str	r1, [r4, #12]
	strh.w	r12, [r4, #16]
	strb.w	lr, [r4, #18]
	add	sp, #32
	pop	{r4, pc}
.Lfunc_end143bd:
	.size	"pass_through::machine::PassThrough::timeout_step", .Lfunc_end143bd-"pass_through::machine::PassThrough::timeout_step"
	.cantunwind
	.fnend

	.section	".text.pass_through::rows::resend","ax",%progbits
	.p2align	2
	.type	"pass_through::rows::resend",%function
	.code	16
	.thumb_func
"pass_through::rows::resend":
	.fnstart
	.save	{r4, r5, r6, r7, lr}
	push	{r4, r5, r6, r7, lr}
	.pad	#36
	sub	sp, #36
	mov	r4, r0
	movs	r0, #0
	strd	r0, r0, [sp, #24]
	strd	r0, r0, [sp, #16]
	strd	r0, r0, [sp, #8]
	ldrb	r0, [r1, #5]
	mov	r6, r1
	ldrb	r1, [r1, #1]
	adds	r0, #1
	mov	r7, r2
	uxtb	r2, r0
	cmp	r2, r1
	strb	r0, [r6, #5]
	bls	.LBB5c27b_2
	ldr	r5, [sp, #56]
	add	r0, sp, #8
	add	r1, sp, #4
	movs	r2, #2
	movs	r3, #0
	strb.w	r7, [sp, #4]
	strb.w	r5, [sp, #5]
	bl	"eap_method::step::Step::entering"
	b	.LBB5c27b_3
.LBB5c27b_2:
	mov	r5, r3
	ldr	r0, [sp, #60]
	ldr.w	r2, [r6, #1512]
	ldr.w	r3, [r6, #1516]
	add.w	r1, r6, #8
	bl	"octet_lists::octets::Octets::set::<=1500>"
	add	r0, sp, #8
	add.w	r1, sp, #6
	movs	r2, #2
	movs	r3, #0
	strb.w	r7, [sp, #6]
	strb.w	r5, [sp, #7]
	bl	"eap_method::step::Step::sending"
.LBB5c27b_3:
	add	r7, sp, #8
	strb	r5, [r6, #2]
	ldrh.w	r0, [sp, #24]
	ldrb.w	r1, [sp, #26]
	ldm	r7, {r2, r3, r7}
	ldr	r6, [sp, #20]
	str	r2, [r4]
	str	r3, [r4, #4]
	str	r7, [r4, #8]
	str	r6, [r4, #12]
	strh	r0, [r4, #16]
	strb	r1, [r4, #18]
	add	sp, #36
	pop	{r4, r5, r6, r7, pc}
.Lfunc_end5c27b:
	.size	"pass_through::rows::resend", .Lfunc_end5c27b-"pass_through::rows::resend"
	.cantunwind
	.fnend

	.section	".text.peer_machine::machine::end","ax",%progbits
	.p2align	2
	.type	"peer_machine::machine::end",%function
	.code	16
	.thumb_func
"peer_machine::machine::end":
	.fnstart
	.save	{r4, lr}
	push	{r4, lr}
	.pad	#32
	sub	sp, #32
	mov	r4, r0
	movs	r0, #0
	strd	r0, r0, [sp, #24]
	strd	r0, r0, [sp, #16]
	strd	r0, r0, [sp, #8]
	strb.w	r2, [r1, #768]
	strb.w	r2, [sp, #7]
	add	r0, sp, #8
	add.w	r1, sp, #7
	movs	r2, #1
	movs	r3, #0
	bl	"eap_method::step::Step::entering"
	ldr	r2, [sp, #20]
	add	r3, sp, #8
	ldm	r3, {r0, r1, r3}
	str	r2, [r4, #12]
	ldrb.w	r2, [sp, #24]
	str	r1, [r4, #4]
	ldrh.w	r1, [sp, #25]
	str	r3, [r4, #8]
	strb	r2, [r4, #16]
	str	r0, [r4]
	strh.w	r1, [r4, #17]
	add	sp, #32
	pop	{r4, pc}
.Lfunc_end87928:
	.size	"peer_machine::machine::end", .Lfunc_end87928-"peer_machine::machine::end"
	.cantunwind
	.fnend

	.section	".text.end_objects::refusals::peer_refusal","ax",%progbits
	.p2align	2
	.type	"end_objects::refusals::peer_refusal",%function
	.code	16
	.thumb_func
"end_objects::refusals::peer_refusal":
	.fnstart
	.save	{r4, r5, r7, lr}
	push	{r4, r5, r7, lr}
	.pad	#56
	sub	sp, #56
	mov	r4, r0
	bl	"end_objects::refusals::has_bad_methods"
	cbz	r0, .LBB9a4f5_2
	movs	r5, #1
	b	.LBB9a4f5_3
.LBB9a4f5_2:
	add	r0, sp, #40
	mov	r1, r4
	bl	"end_objects::settings::named_kinds"
	ldrd	r0, r1, [sp, #48]
	orrs	r0, r1
	clz	r0, r0
	lsrs	r5, r0, #5
.LBB9a4f5_3:
	add	r0, sp, #24
	mov	r1, r4
	bl	"end_objects::settings::kinds_of"
	add	r3, sp, #24
	ldm	r3, {r0, r1, r2, r3}
	add.w	r12, sp, #8
	stm.w	r12, {r0, r1, r2, r3}
	add	r0, sp, #8
	str	r4, [sp]
	bl	"end_objects::refusals::has_keys"
	eor	r2, r0, #1
	mov	r0, r4
	mov	r1, r5
	bl	"end_objects::refusals::end_refusal"
	add	sp, #56
	pop	{r4, r5, r7, pc}
.Lfunc_end9a4f5:
	.size	"end_objects::refusals::peer_refusal", .Lfunc_end9a4f5-"end_objects::refusals::peer_refusal"
	.cantunwind
	.fnend

	.section	".text.end_objects::constructors::peer_objects","ax",%progbits
	.p2align	2
	.type	"end_objects::constructors::peer_objects",%function
	.code	16
	.thumb_func
"end_objects::constructors::peer_objects":
	.fnstart
	.save	{r4, r5, r6, r7, r8, r9, r10, r11, lr}
	push.w	{r4, r5, r6, r7, r8, r9, r10, r11, lr}
	.pad	#2540
	subw	sp, sp, #2540
	mov	r4, r0
	addw	r0, sp, #2536
	mov	r11, r1
	str.w	r0, [sp, #1296]
	movs	r0, #0
	orrs.w	r1, r2, r3
	str.w	r0, [sp, #1300]
	str.w	r0, [sp, #1304]
	str.w	r0, [sp, #1308]
	str.w	r0, [sp, #1312]
	str.w	r0, [sp, #1316]
	beq	.LBB5a84c_10
	add.w	r9, sp, #1296
	mov	r0, r9
	mov	r8, r3
	mov	r6, r2
	bl	"std_alloc::vec::Vec::move_to::<#7a0cad832922b3ee>"
	cmp	r0, #0
	beq	.LBB5a84c_12
	str	r4, [sp, #4]
	mov	r2, r9
	add.w	lr, sp, #8
	ldm.w	r2, {r0, r1, r3, r4, r5, r7}
	mov	r12, lr
	stm.w	r12, {r0, r1, r3, r4, r5, r7}
	ldm.w	lr, {r1, r2, r3, r4, r5, r7}
	add	r0, sp, #32
	add.w	r9, r9, #1160
	stm	r0!, {r1, r2, r3, r4, r5, r7}
	b	.LBB5a84c_6
	.p2align	2
.LBB5a84c_3:
	mov.w	r1, #1160
	bl	__aeabi_memclr8
	mov.w	r10, #1
.LBB5a84c_4:
	add	r0, sp, #56
	add.w	r1, sp, #1296
	mov.w	r2, #1240
	bl	__aeabi_memcpy8
	ldrd	r4, r7, [sp, #40]
	ldrd	r1, r0, [sp, #48]
	eors	r0, r7
	eors	r1, r4
	orrs	r0, r1
	beq	.LBB5a84c_8
.LBB5a84c_5:
	ldr	r0, [sp, #32]
	mov.w	r1, #1248
	mul	r2, r4, r1
	mla	r1, r4, r1, r0
	str.w	r10, [r0, r2]
	movs	r0, #0
	add.w	r10, sp, #56
	str	r0, [r1, #4]
	add.w	r0, r1, #8
	mov	r1, r10
	mov.w	r2, #1240
	bl	__aeabi_memcpy
	adds	r0, r4, #1
	adc	r1, r7, #0
	strd	r0, r1, [sp, #40]
	subs	r6, #1
	mov	r0, r10
	mov.w	r1, #1240
	sbc	r8, r8, #0
	add.w	r11, r11, #1
	bl	__aeabi_memclr8
	orrs.w	r0, r6, r8
	beq	.LBB5a84c_11
.LBB5a84c_6:
	ldrb.w	r4, [r11]
	mov	r0, r9
	movs	r1, #80
	bl	__aeabi_memclr8
	add.w	r0, sp, #1296
	cmp	r4, #47
	bne	.LBB5a84c_3
	mov.w	r1, #1240
	bl	__aeabi_memclr8
	mov.w	r10, #0
	b	.LBB5a84c_4
.LBB5a84c_8:
	add	r0, sp, #32
	bl	"std_alloc::vec::Vec::grow_amortized::<#7a0cad832922b3ee>"
	cbz	r0, .LBB5a84c_15
	ldrd	r4, r7, [sp, #40]
	b	.LBB5a84c_5
.LBB5a84c_10:
	str	r4, [sp, #4]
	add.w	r12, sp, #1296
	add	r1, sp, #8
	ldm.w	r12, {r0, r3, r4, r5, r6, r7}
	mov	r2, r1
	stm	r2!, {r0, r3, r4, r5, r6, r7}
	ldm.w	r1, {r2, r3, r4, r5, r6, r7}
	add	r0, sp, #32
	stm	r0!, {r2, r3, r4, r5, r6, r7}
.LBB5a84c_11:
	ldr	r0, [sp, #4]
	movs	r1, #0
	strb	r1, [r0], #8
	add	r1, sp, #32
	movs	r2, #24
	bl	__aeabi_memcpy
	addw	sp, sp, #2540
	pop.w	{r4, r5, r6, r7, r8, r9, r10, r11, pc}
.LBB5a84c_12:
	ldr.w	r0, [sp, #1312]
	ldr.w	r1, [sp, #1316]
	orrs	r0, r1
	beq	.LBB5a84c_14
	ldr.w	r0, [sp, #1296]
	bl	rattle_dealloc
.LBB5a84c_14:
	movs	r0, #1
	strb	r0, [r4]
	movs	r0, #0
	str	r0, [r4, #8]
	str	r0, [r4, #12]
	str	r0, [r4, #16]
	str	r0, [r4, #20]
	str	r0, [r4, #24]
	str	r0, [r4, #28]
	addw	sp, sp, #2540
	pop.w	{r4, r5, r6, r7, r8, r9, r10, r11, pc}
.LBB5a84c_15:
	ldrd	r0, r1, [sp, #48]
	orrs	r0, r1
	beq	.LBB5a84c_17
	ldr	r0, [sp, #32]
	bl	rattle_dealloc
.LBB5a84c_17:
	ldr	r1, [sp, #4]
	movs	r0, #1
	strb	r0, [r1]
	movs	r0, #0
	str	r0, [r1, #8]
	str	r0, [r1, #12]
	str	r0, [r1, #16]
	str	r0, [r1, #20]
	str	r0, [r1, #24]
	str	r0, [r1, #28]
	addw	sp, sp, #2540
	pop.w	{r4, r5, r6, r7, r8, r9, r10, r11, pc}
.Lfunc_end5a84c:
	.size	"end_objects::constructors::peer_objects", .Lfunc_end5a84c-"end_objects::constructors::peer_objects"
	.cantunwind
	.fnend

	.section	".text.std_alloc::vec::Vec::move_to::<#7a0cad832922b3ee>","ax",%progbits
	.p2align	2
	.type	"std_alloc::vec::Vec::move_to::<#7a0cad832922b3ee>",%function
	.code	16
	.thumb_func
"std_alloc::vec::Vec::move_to::<#7a0cad832922b3ee>":
	.fnstart
	movw	r1, #42011
	movt	r1, #6721
	subs	r1, r2, r1
	movw	r1, #16804
	movt	r1, #26
	sbcs.w	r1, r3, r1
	itt	hs
	movhs	r0, #0
	bxhs	lr
.LBB52ee7_1:
	.save	{r4, r5, r6, r7, r8, r9, lr}
	push.w	{r4, r5, r6, r7, r8, r9, lr}
	.pad	#36
	sub	sp, #36
	ldrd	r1, r6, [r0, #16]
	orrs	r1, r6
	beq	.LBB52ee7_4
	ldrd	r1, r6, [r0, #8]
	mov.w	r7, #1248
	umull	r12, r4, r1, r7
	mov	r8, r2
	umull	r2, r5, r2, r7
	mov	r9, r0
	ldr	r1, [r0]
	mla	lr, r6, r7, r4
	mla	r0, r3, r7, r5
	mov	r6, r3
	movs	r3, #8
	movs	r4, #0
	strd	r2, r0, [sp]
	str	r3, [sp, #8]
	add	r0, sp, #16
	mov	r2, r12
	mov	r3, lr
	str	r4, [sp, #12]
	bl	tuv_wide_realloc
	ldr	r1, [sp, #16]
	mov	r0, r4
	lsls	r1, r1, #31
	beq	.LBB52ee7_6
	ldr	r1, [sp, #24]
	b	.LBB52ee7_7
.LBB52ee7_4:
	mov.w	r1, #1248
	mov	r9, r0
	mov	r8, r2
	umull	r0, r2, r2, r1
	mla	r1, r3, r1, r2
	mov	r6, r3
	bl	"std_heap::GlobalAllocator::allocate"
	lsls	r0, r0, #24
	beq	.LBB52ee7_7
	movs	r0, #0
.LBB52ee7_6:
	add	sp, #36
	pop.w	{r4, r5, r6, r7, r8, r9, pc}
.LBB52ee7_7:
	str.w	r1, [r9]
	strd	r8, r6, [r9, #16]
	movs	r0, #1
	add	sp, #36
	pop.w	{r4, r5, r6, r7, r8, r9, pc}
.Lfunc_end52ee7:
	.size	"std_alloc::vec::Vec::move_to::<#7a0cad832922b3ee>", .Lfunc_end52ee7-"std_alloc::vec::Vec::move_to::<#7a0cad832922b3ee>"
	.cantunwind
	.fnend

	.section	".text.unlikely.std_alloc::vec::Vec::grow_amortized::<#7a0cad832922b3ee>","ax",%progbits
	.p2align	2
	.type	"std_alloc::vec::Vec::grow_amortized::<#7a0cad832922b3ee>",%function
	.code	16
	.thumb_func
"std_alloc::vec::Vec::grow_amortized::<#7a0cad832922b3ee>":
	.fnstart
	.save	{r4, lr}
	push	{r4, lr}
	ldrd	r1, r2, [r0, #8]
	adds.w	lr, r1, #1
	adcs	r12, r2, #0
	mov.w	r1, #0
	adc	r2, r1, #0
	cmp	r2, #1
	beq	.LBB93603_2
	ldrd	r1, r4, [r0, #16]
	lsls	r2, r4, #1
	orr.w	r3, r2, r1, lsr #31
	rsbs	r2, lr, r1, lsl #1
	sbcs.w	r2, r3, r12
	mov	r2, lr
	ite	lo
	movlo	r3, r12
	lslhs	r2, r1, #1
	cmp.w	r4, #1073741824
	itt	hs
	movhs	r2, lr
	movhs	r3, r12
	bl	"std_alloc::vec::Vec::move_to::<#7a0cad832922b3ee>"
	mov	r1, r0
.LBB93603_2:
	mov	r0, r1
	pop	{r4, pc}
.Lfunc_end93603:
	.size	"std_alloc::vec::Vec::grow_amortized::<#7a0cad832922b3ee>", .Lfunc_end93603-"std_alloc::vec::Vec::grow_amortized::<#7a0cad832922b3ee>"
	.cantunwind
	.fnend

	.section	".text.end_objects::settings::peer_setup","ax",%progbits
	.p2align	2
	.type	"end_objects::settings::peer_setup",%function
	.code	16
	.thumb_func
"end_objects::settings::peer_setup":
	.fnstart
	.save	{r4, r5, r6, r7, r8, r9, r10, r11, lr}
	push.w	{r4, r5, r6, r7, r8, r9, r10, r11, lr}
	.pad	#1172
	subw	sp, sp, #1172
	add.w	r11, sp, #896
	mov	r7, r1
	ldr	r6, [r1, #8]
	ldr	r5, [r1, #16]
	ldr.w	r8, [r1, #20]
	mov	r4, r0
	mov	r0, r11
	mov.w	r1, #264
	mov	r10, r2
	bl	__aeabi_memclr8
	mov	r0, r11
	mov	r1, r6
	mov	r2, r5
	mov	r3, r8
	bl	"octet_lists::octets::Octets::append::<=253>"
	add	r0, sp, #472
	mov	r1, r11
	mov.w	r2, #264
	bl	__aeabi_memcpy8
	ldr	r1, [r7, #24]
	ldr	r2, [r7, #32]
	ldr	r3, [r7, #36]
	mov	r0, r11
	bl	"end_objects::settings::accepts"
	add	r0, sp, #192
	mov	r1, r7
	bl	"end_objects::settings::kinds_of"
	add	r0, sp, #176
	mov	r1, r7
	bl	"end_objects::settings::suites_of"
	ldr	r1, [r7, #40]
	ldr	r2, [r7, #48]
	ldr	r3, [r7, #52]
	add	r6, sp, #816
	mov	r0, r6
	bl	"end_objects::settings::key_or_none"
	ldr	r1, [r7, #56]
	ldr	r2, [r7, #64]
	ldr	r3, [r7, #68]
	add	r5, sp, #736
	mov	r0, r5
	bl	"end_objects::settings::key_or_none"
	mov	r0, sp
	mov	r1, r10
	movs	r2, #32
	bl	__aeabi_memcpy
	ldrb.w	r8, [r7, #76]
	add	r7, sp, #208
	cmp.w	r8, #0
	it	ne
	movne.w	r8, #1
	ldrb.w	r10, [sp, #896]
	add.w	r1, r11, #8
	ldrb.w	r9, [sp, #816]
	ldrb.w	r11, [sp, #736]
	mov	r0, r7
	mov.w	r2, #264
	adds	r6, #8
	adds	r5, #8
	bl	__aeabi_memcpy8
	add	r0, sp, #104
	mov	r1, r6
	movs	r2, #72
	bl	__aeabi_memcpy8
	add	r6, sp, #32
	mov	r0, r6
	mov	r1, r5
	movs	r2, #72
	bl	__aeabi_memcpy8
	mov	r0, r4
	add	r1, sp, #472
	mov.w	r2, #264
	bl	__aeabi_memcpy
	movs	r5, #0
	add.w	r0, r4, #272
	mov	r1, r7
	mov.w	r2, #264
	str.w	r5, [r4, #268]
	str.w	r10, [r4, #264]
	bl	__aeabi_memcpy
	add	r3, sp, #192
	ldm	r3, {r0, r1, r2, r3}
	str.w	r3, [r4, #548]
	add	r3, sp, #176
	str.w	r0, [r4, #536]
	str.w	r1, [r4, #540]
	str.w	r2, [r4, #544]
	ldm	r3, {r0, r1, r2, r3}
	str.w	r1, [r4, #556]
	str.w	r0, [r4, #552]
	str.w	r2, [r4, #560]
	add.w	r0, r4, #576
	add	r1, sp, #104
	movs	r2, #72
	str.w	r3, [r4, #564]
	str.w	r5, [r4, #572]
	str.w	r9, [r4, #568]
	bl	__aeabi_memcpy
	add.w	r0, r4, #656
	mov	r1, r6
	movs	r2, #72
	str.w	r5, [r4, #652]
	str.w	r11, [r4, #648]
	bl	__aeabi_memcpy
	add.w	r0, r4, #728
	mov	r1, sp
	movs	r2, #32
	bl	__aeabi_memcpy
	strb.w	r8, [r4, #760]
	str.w	r5, [r4, #761]
	str.w	r5, [r4, #764]
	addw	sp, sp, #1172
	pop.w	{r4, r5, r6, r7, r8, r9, r10, r11, pc}
.Lfunc_end2b1d9:
	.size	"end_objects::settings::peer_setup", .Lfunc_end2b1d9-"end_objects::settings::peer_setup"
	.cantunwind
	.fnend

	.section	".text.end_objects::settings::accepts","ax",%progbits
	.p2align	2
	.type	"end_objects::settings::accepts",%function
	.code	16
	.thumb_func
"end_objects::settings::accepts":
	.fnstart
	.save	{r4, r5, r6, r7, r8, r9, lr}
	push.w	{r4, r5, r6, r7, r8, r9, lr}
	.pad	#796
	sub.w	sp, sp, #796
	mov	r7, r1
	mov	r4, r0
	add	r0, sp, #264
	mov.w	r1, #264
	mov	r5, r3
	mov	r6, r2
	bl	__aeabi_memclr8
	orrs.w	r0, r6, r5
	mov.w	r9, #0
	beq	.LBB3818f_2
	add.w	r8, sp, #528
	mov	r0, r8
	mov.w	r1, #264
	bl	__aeabi_memclr8
	mov	r0, r8
	mov	r1, r7
	mov	r2, r6
	mov	r3, r5
	bl	"octet_lists::octets::Octets::append::<=253>"
	mov	r5, sp
	mov	r0, r5
	mov	r1, r8
	mov.w	r2, #264
	bl	__aeabi_memcpy8
	add	r0, sp, #264
	mov	r1, r5
	mov.w	r2, #264
	bl	__aeabi_memcpy8
	movs	r0, #1
	b	.LBB3818f_3
.LBB3818f_2:
	movs	r0, #0
.LBB3818f_3:
	str	r0, [r4]
	add.w	r0, r4, #8
	add	r1, sp, #264
	mov.w	r2, #264
	str.w	r9, [r4, #4]
	bl	__aeabi_memcpy
	add.w	sp, sp, #796
	pop.w	{r4, r5, r6, r7, r8, r9, pc}
.Lfunc_end3818f:
	.size	"end_objects::settings::accepts", .Lfunc_end3818f-"end_objects::settings::accepts"
	.cantunwind
	.fnend

	.section	".text.end_objects::settings::key_or_none","ax",%progbits
	.p2align	2
	.type	"end_objects::settings::key_or_none",%function
	.code	16
	.thumb_func
"end_objects::settings::key_or_none":
	.fnstart
	.save	{r4, r5, r6, r7, r8, r9, lr}
	push.w	{r4, r5, r6, r7, r8, r9, lr}
	.pad	#220
	sub	sp, #220
	mov	r7, r1
	mov	r4, r0
	add	r0, sp, #72
	movs	r1, #72
	mov	r5, r3
	mov	r6, r2
	bl	__aeabi_memclr8
	orrs.w	r0, r6, r5
	mov.w	r9, #0
	beq	.LBB2cb28_2
	add.w	r8, sp, #144
	mov	r0, r8
	movs	r1, #72
	bl	__aeabi_memclr8
	mov	r0, r8
	mov	r1, r7
	mov	r2, r6
	mov	r3, r5
	bl	"octet_lists::octets::Octets::append::<=64>"
	mov	r5, sp
	mov	r0, r5
	mov	r1, r8
	movs	r2, #72
	bl	__aeabi_memcpy8
	add	r0, sp, #72
	mov	r1, r5
	movs	r2, #72
	bl	__aeabi_memcpy8
	movs	r0, #1
	b	.LBB2cb28_3
.LBB2cb28_2:
	movs	r0, #0
.LBB2cb28_3:
	str	r0, [r4]
	add.w	r0, r4, #8
	add	r1, sp, #72
	movs	r2, #72
	str.w	r9, [r4, #4]
	bl	__aeabi_memcpy
	add	sp, #220
	pop.w	{r4, r5, r6, r7, r8, r9, pc}
.Lfunc_end2cb28:
	.size	"end_objects::settings::key_or_none", .Lfunc_end2cb28-"end_objects::settings::key_or_none"
	.cantunwind
	.fnend

	.section	".text.peer_machine::machine::PeerMachine::new::<#807681be332d694b>","ax",%progbits
	.p2align	2
	.type	"peer_machine::machine::PeerMachine::new::<#807681be332d694b>",%function
	.code	16
	.thumb_func
"peer_machine::machine::PeerMachine::new::<#807681be332d694b>":
	.fnstart
	.save	{r4, r5, r6, r7, r8, r9, r10, r11, lr}
	push.w	{r4, r5, r6, r7, r8, r9, r10, r11, lr}
	.pad	#2300
	subw	sp, sp, #2300
	mov	r4, r0
	ldr	r0, [r2, #4]
	ldr.w	r11, [r2]
	str	r0, [sp, #12]
	ldr	r0, [r2, #20]
	ldr	r6, [r2, #8]
	str	r0, [sp, #4]
	ldr	r0, [r2, #16]
	ldr.w	r9, [r2, #12]
	str	r0, [sp, #8]
	add.w	r0, sp, #1528
	mov.w	r2, #768
	addw	r7, r4, #2296
	bl	__aeabi_memcpy
	orrs.w	r0, r6, r9
	beq	.LBBdc0a5_3
	mov	r5, r6
	mov	r8, r9
	mov	r0, r11
	.p2align	2
.LBBdc0a5_2:
	subs	r5, #1
	add.w	r1, sp, #1528
	add.w	r10, r0, #1248
	sbc	r8, r8, #0
	bl	"eap_method::peer_objects::start_one::<#807681be332d694b>"
	orrs.w	r0, r5, r8
	mov	r0, r10
	bne	.LBBdc0a5_2
.LBBdc0a5_3:
	add	r5, sp, #16
	mov	r0, r5
	mov.w	r1, #1512
	bl	__aeabi_memclr4
	add.w	r1, sp, #1528
	mov	r0, r4
	mov.w	r2, #768
	bl	__aeabi_memcpy
	movs	r0, #1
	strb.w	r0, [r4, #768]
	movs	r0, #0
	str.w	r0, [r4, #769]
	strh.w	r0, [r4, #773]
	strb.w	r0, [r4, #775]
	add.w	r0, r4, #776
	mov	r1, r5
	mov.w	r2, #1512
	bl	__aeabi_memcpy
	ldr	r0, [sp, #12]
	str.w	r11, [r4, #2288]
	str.w	r0, [r4, #2292]
	ldr	r0, [sp, #4]
	str.w	r9, [r7, #4]
	str	r0, [r7, #12]
	ldr	r0, [sp, #8]
	str	r6, [r7]
	str	r0, [r7, #8]
	addw	sp, sp, #2300
	pop.w	{r4, r5, r6, r7, r8, r9, r10, r11, pc}
.Lfunc_enddc0a5:
	.size	"peer_machine::machine::PeerMachine::new::<#807681be332d694b>", .Lfunc_enddc0a5-"peer_machine::machine::PeerMachine::new::<#807681be332d694b>"
	.cantunwind
	.fnend

	.section	".text.switch_port::machine::SwitchPort::connect","ax",%progbits
	.p2align	2
	.type	"switch_port::machine::SwitchPort::connect",%function
	.code	16
	.thumb_func
"switch_port::machine::SwitchPort::connect":
	.fnstart
	.save	{r4, r5, r6, lr}
	push	{r4, r5, r6, lr}
	.pad	#32
	sub	sp, #32
	ldrb.w	r3, [r1, #1544]
	ldrb	r5, [r1, #16]
	mov	r4, r0
	cmp	r3, r5
	bhs	.LBB5ab7a_2
	adds	r0, r3, #1
	add.w	r3, r1, #24
	strb.w	r0, [r1, #1544]
	movs	r5, #0
	add	r0, sp, #8
	mov	r6, r1
	mov	r1, r3
	strd	r5, r5, [sp, #24]
	bl	"pass_through::machine::PassThrough::initialize"
	ldrb.w	r0, [sp, #26]
	ldr	r2, [r6, #8]
	movs	r1, #1
	strb	r1, [r6, #21]
	str.w	r2, [r6, #1548]
	and	r0, r0, #1
	movs	r1, #0
	b	.LBB5ab7a_3
.LBB5ab7a_2:
	add.w	r0, sp, #5
	bl	"switch_port::machine::SwitchPort::disconnect"
	ldrb.w	r0, [sp, #5]
	ldrb.w	r1, [sp, #6]
	ldrb.w	r5, [sp, #7]
.LBB5ab7a_3:
	strb	r0, [r4]
	strb	r1, [r4, #1]
	strb	r5, [r4, #2]
	add	sp, #32
	pop	{r4, r5, r6, pc}
.Lfunc_end5ab7a:
	.size	"switch_port::machine::SwitchPort::connect", .Lfunc_end5ab7a-"switch_port::machine::SwitchPort::connect"
	.cantunwind
	.fnend

	.section	".text.switch_port::machine::SwitchPort::disconnect","ax",%progbits
	.p2align	2
	.type	"switch_port::machine::SwitchPort::disconnect",%function
	.code	16
	.thumb_func
"switch_port::machine::SwitchPort::disconnect":
	.fnstart
	.save	{r4, r5, r6, r7, lr}
	push	{r4, r5, r6, r7, lr}
	.pad	#28
	sub	sp, #28
	movs	r6, #0
	movs	r7, #1
	mov	r4, r1
	mov	r5, r0
	strb	r6, [r1, #22]
	strb.w	r7, [r1, #1544]
	adds	r1, #24
	mov	r0, sp
	strd	r6, r6, [sp, #16]
	bl	"pass_through::machine::PassThrough::initialize"
	ldrb.w	r0, [sp, #18]
	ldr	r1, [r4, #8]
	and	r0, r0, #1
	strb	r7, [r4, #21]
	str.w	r1, [r4, #1548]
	strb	r0, [r5]
	strh.w	r6, [r5, #1]
	add	sp, #28
	pop	{r4, r5, r6, r7, pc}
.Lfunc_endd3bc1:
	.size	"switch_port::machine::SwitchPort::disconnect", .Lfunc_endd3bc1-"switch_port::machine::SwitchPort::disconnect"
	.cantunwind
	.fnend

	.section	".text.tuvaddri_c::port_turn::TuvPortTurn::of","ax",%progbits
	.p2align	2
	.type	"tuvaddri_c::port_turn::TuvPortTurn::of",%function
	.code	16
	.thumb_func
"tuvaddri_c::port_turn::TuvPortTurn::of":
	.fnstart
	.save	{r4, r5, r6, r7, r8, r9, r10, r11, lr}
	push.w	{r4, r5, r6, r7, r8, r9, r10, r11, lr}
	.pad	#12
	sub	sp, #12
	mov	r4, r0
	ldrd	r5, r0, [sp, #56]
	ldrb	r6, [r1]
	ldrb	r7, [r5, #21]
	ldrb.w	lr, [r1, #1]
	ldrb.w	r11, [r1, #2]
	ldrb.w	r8, [r5, #22]
	ldrd	r12, r3, [sp, #48]
	ldr.w	r9, [sp, #64]
	mov.w	r10, #1
.LCPI36cb1_0:
	tbb	[pc, r7]
.LJTI36cb1_0:
	.byte	(.LBB36cb1_8-(.LCPI36cb1_0+4))/2
	.byte	(.LBB36cb1_2-(.LCPI36cb1_0+4))/2
	.byte	(.LBB36cb1_4-(.LCPI36cb1_0+4))/2
	.byte	(.LBB36cb1_5-(.LCPI36cb1_0+4))/2
	.byte	(.LBB36cb1_3-(.LCPI36cb1_0+4))/2
	.byte	(.LBB36cb1_6-(.LCPI36cb1_0+4))/2
	.p2align	1
.LBB36cb1_2:
	ldrb	r1, [r5, #26]
	mov.w	r10, #4
	subs	r1, #23
	clz	r1, r1
	lsrs	r7, r1, #5
	b	.LBB36cb1_8
.LBB36cb1_3:
	mov.w	r10, #8
	b	.LBB36cb1_7
.LBB36cb1_4:
	mov.w	r10, #5
	b	.LBB36cb1_7
.LBB36cb1_5:
	mov.w	r10, #7
	b	.LBB36cb1_7
.LBB36cb1_6:
	mov.w	r10, #9
.LBB36cb1_7:
	movs	r7, #0
.LBB36cb1_8:
.LCPI36cb1_1:
	tbb	[pc, r6]
.LJTI36cb1_1:
	.byte	(.LBB36cb1_10-(.LCPI36cb1_1+4))/2
	.byte	(.LBB36cb1_15-(.LCPI36cb1_1+4))/2
	.byte	(.LBB36cb1_11-(.LCPI36cb1_1+4))/2
	.byte	(.LBB36cb1_12-(.LCPI36cb1_1+4))/2
	.p2align	1
.LBB36cb1_10:
	movs	r6, #0
	strb.w	r6, [r9]
	mov.w	lr, #0
	movs	r0, #0
	movs	r2, #0
	b	.LBB36cb1_16
.LBB36cb1_11:
	mov	r1, r2
	mov	r2, r12
	bl	"octet_lists::octets::Octets::set::<=1504>"
	movs	r0, #1
	strb.w	r0, [r9]
	movs	r6, #0
	mov.w	lr, #0
	movs	r2, #0
	b	.LBB36cb1_16
.LBB36cb1_12:
	movs	r0, #0
	strb.w	r0, [r9]
	movs	r6, #66
	movs	r2, #0
.LCPI36cb1_2:
	tbb	[pc, lr]
.LJTI36cb1_2:
	.byte	(.LBB36cb1_14-(.LCPI36cb1_2+4))/2
	.byte	(.LBB36cb1_16-(.LCPI36cb1_2+4))/2
	.byte	(.LBB36cb1_18-(.LCPI36cb1_2+4))/2
	.byte	(.LBB36cb1_19-(.LCPI36cb1_2+4))/2
	.byte	(.LBB36cb1_17-(.LCPI36cb1_2+4))/2
	.p2align	1
.LBB36cb1_14:
	movs	r6, #65
	cmp.w	r11, #0
	it	eq
	moveq	r6, #64
	mov.w	lr, #1
	b	.LBB36cb1_16
.LBB36cb1_15:
	movs	r1, #0
	strd	r12, r3, [sp]
	movs	r6, #0
	bl	"eapol_frame::frame::write_frame"
	movs	r2, #1
	strb.w	r2, [r9]
	mov.w	lr, #0
	movs	r0, #0
.LBB36cb1_16:
	strb	r0, [r4, #1]
	movs	r0, #0
	strb	r2, [r4]
	strb.w	lr, [r4, #2]
	strb	r0, [r4, #3]
	strb.w	r8, [r4, #4]
	strb	r7, [r4, #5]
	strb	r6, [r4, #6]
	strb.w	r10, [r4, #7]
	add	sp, #12
	pop.w	{r4, r5, r6, r7, r8, r9, r10, r11, pc}
.LBB36cb1_17:
	mov.w	lr, #1
	movs	r6, #68
	b	.LBB36cb1_16
.LBB36cb1_18:
	mov.w	lr, #1
	movs	r6, #67
	b	.LBB36cb1_16
.LBB36cb1_19:
	mov.w	lr, #1
	mov	r6, r11
	b	.LBB36cb1_16
.Lfunc_end36cb1:
	.size	"tuvaddri_c::port_turn::TuvPortTurn::of", .Lfunc_end36cb1-"tuvaddri_c::port_turn::TuvPortTurn::of"
	.cantunwind
	.fnend

	.section	".text.eapol_frame::frame::write_frame","ax",%progbits
	.p2align	2
	.type	"eapol_frame::frame::write_frame",%function
	.code	16
	.thumb_func
"eapol_frame::frame::write_frame":
	.fnstart
	.save	{r4, r5, r6, r7, lr}
	push	{r4, r5, r6, r7, lr}
	.pad	#4
	sub	sp, #4
	ldrd	r7, r6, [sp, #24]
	mov	r5, r0
	movs	r0, #2
	str	r0, [sp]
	lsrs	r0, r7, #8
	mov	r4, r2
	strb.w	r1, [sp, #1]
	strb.w	r0, [sp, #2]
	mov	r1, sp
	mov	r0, r5
	movs	r2, #4
	movs	r3, #0
	strb.w	r7, [sp, #3]
	bl	"octet_lists::octets::Octets::set::<=1504>"
	mov	r0, r5
	mov	r1, r4
	mov	r2, r7
	mov	r3, r6
	bl	"octet_lists::octets::Octets::append::<=1504>"
	add	sp, #4
	pop	{r4, r5, r6, r7, pc}
.Lfunc_end862be:
	.size	"eapol_frame::frame::write_frame", .Lfunc_end862be-"eapol_frame::frame::write_frame"
	.cantunwind
	.fnend

	.section	".text.octet_lists::octets::Octets::append::<=1504>","ax",%progbits
	.p2align	2
	.type	"octet_lists::octets::Octets::append::<=1504>",%function
	.code	16
	.thumb_func
"octet_lists::octets::Octets::append::<=1504>":
	.fnstart
	.save	{r4, r5, r6, r7, r8, r9, r10, r11, lr}
	push.w	{r4, r5, r6, r7, r8, r9, r10, r11, lr}
	.pad	#4
	sub	sp, #4
	ldr.w	r10, [r0, #1504]
	ldr.w	r9, [r0, #1508]
	rsbs.w	r6, r10, #1504
	mov.w	r7, #0
	sbc.w	r4, r7, r9
	subs	r6, r6, r2
	sbcs.w	r6, r4, r3
	blo	.LBBd5b88_12
	mov	r6, r0
	add	r0, r10
	subs	r4, r0, r1
	sbc	r7, r7, #0
	subs	r4, r4, r2
	sbcs	r7, r3
	add.w	r8, r6, #1504
	bhs	.LBBd5b88_4
	subs	r7, r2, #4
	sbcs	r7, r3, #0
	and	r5, r2, #3
	bhs	.LBBd5b88_5
	movs	r4, #0
	b	.LBBd5b88_8
.LBBd5b88_4:
	mov	r4, r2
	mov	r6, r3
	bl	__aeabi_memmove
	mov	r2, r4
	mov	r3, r6
	b	.LBBd5b88_11
.LBBd5b88_5:
	bic	lr, r2, #3
	movs	r4, #0
	movs	r6, #0
	str	r5, [sp]
	.p2align	2
.LBBd5b88_6:
	ldrb	r5, [r1, r4]
	strb	r5, [r0, r4]
	orr	r5, r4, #1
	ldrb	r7, [r1, r5]
	strb	r7, [r0, r5]
	orr	r5, r4, #2
	ldrb	r7, [r1, r5]
	strb	r7, [r0, r5]
	orr	r5, r4, #3
	adds	r4, #4
	adc	r6, r6, #0
	ldrb.w	r11, [r1, r5]
	eor.w	r7, r4, lr
	eor.w	r12, r6, r3
	orrs.w	r7, r7, r12
	strb.w	r11, [r0, r5]
	bne	.LBBd5b88_6
	ldr	r5, [sp]
	cbz	r5, .LBBd5b88_11
.LBBd5b88_8:
	ldrb	r7, [r1, r4]
	cmp	r5, #1
	strb	r7, [r0, r4]
	beq	.LBBd5b88_11
	adds	r7, r4, #1
	ldrb	r6, [r1, r7]
	cmp	r5, #2
	strb	r6, [r0, r7]
	beq	.LBBd5b88_11
	adds	r7, r4, #2
	ldrb	r1, [r1, r7]
	strb	r1, [r0, r7]
.LBBd5b88_11:
	adds.w	r0, r10, r2
	adc.w	r1, r9, r3
	strd	r0, r1, [r8]
.LBBd5b88_12:
	add	sp, #4
	pop.w	{r4, r5, r6, r7, r8, r9, r10, r11, pc}
.Lfunc_endd5b88:
	.size	"octet_lists::octets::Octets::append::<=1504>", .Lfunc_endd5b88-"octet_lists::octets::Octets::append::<=1504>"
	.cantunwind
	.fnend

	.section	".text.octet_lists::octets::Octets::set::<=1504>","ax",%progbits
	.p2align	2
	.type	"octet_lists::octets::Octets::set::<=1504>",%function
	.code	16
	.thumb_func
"octet_lists::octets::Octets::set::<=1504>":
	.fnstart
	.save	{r4, r5, r6, r7, r8, lr}
	push.w	{r4, r5, r6, r7, r8, lr}
	ldr.w	r12, [r0, #1504]
	ldr.w	r7, [r0, #1508]
	orrs.w	r7, r7, r12
	beq	.LBBbce61_2
	mov	r5, r1
	mov	r1, r12
	add.w	r8, r0, #1504
	mov	r4, r0
	mov	r6, r3
	mov	r7, r2
	bl	__aeabi_memclr
	mov	r1, r5
	mov	r2, r7
	mov	r0, r4
	mov	r3, r6
	movs	r7, #0
	strd	r7, r7, [r8]
.LBBbce61_2:
	pop.w	{r4, r5, r6, r7, r8, lr}
	b	"octet_lists::octets::Octets::append::<=1504>"
.Lfunc_endbce61:
	.size	"octet_lists::octets::Octets::set::<=1504>", .Lfunc_endbce61-"octet_lists::octets::Octets::set::<=1504>"
	.cantunwind
	.fnend

	.section	".text.switch_port::machine::SwitchPort::settle","ax",%progbits
	.p2align	2
	.type	"switch_port::machine::SwitchPort::settle",%function
	.code	16
	.thumb_func
"switch_port::machine::SwitchPort::settle":
	.fnstart
	uxtb	r1, r1
	cmp	r1, #2
	beq	.LBBb4fa7_3
	cmp	r1, #1
	bne	.LBBb4fa7_4
	mov.w	r1, #258
	ldr	r2, [r0, #12]
	strh.w	r1, [r0, #21]
	movs	r1, #0
	strb.w	r1, [r0, #1544]
	str.w	r2, [r0, #1548]
	bx	lr
.LBBb4fa7_3:
	ldr	r2, [r0]
	movs	r1, #3
	strh.w	r1, [r0, #21]
	str.w	r2, [r0, #1548]
	bx	lr
.LBBb4fa7_4:
	ldr	r1, [r0, #8]
	str.w	r1, [r0, #1548]
	bx	lr
.Lfunc_endb4fa7:
	.size	"switch_port::machine::SwitchPort::settle", .Lfunc_endb4fa7-"switch_port::machine::SwitchPort::settle"
	.cantunwind
	.fnend

	.section	".text.tuvaddri_c::sent::empty_frame","ax",%progbits
	.p2align	2
	.type	"tuvaddri_c::sent::empty_frame",%function
	.code	16
	.thumb_func
"tuvaddri_c::sent::empty_frame":
	.fnstart
	.save	{r4, r5, r7, lr}
	push	{r4, r5, r7, lr}
	mov.w	r0, #1512
	movs	r1, #0
	movs	r5, #0
	bl	"std_heap::GlobalAllocator::allocate"
	mov	r4, r0
	lsls	r0, r0, #24
	bne	.LBBcd59a_2
	mov	r0, r1
	mov	r5, r1
	mov.w	r1, #1512
	bl	__aeabi_memclr
.LBBcd59a_2:
	uxtb	r0, r4
	clz	r0, r0
	lsrs	r0, r0, #5
	mov	r1, r5
	pop	{r4, r5, r7, pc}
.Lfunc_endcd59a:
	.size	"tuvaddri_c::sent::empty_frame", .Lfunc_endcd59a-"tuvaddri_c::sent::empty_frame"
	.cantunwind
	.fnend

	.section	".text.switch_port::machine::SwitchPort::begin","ax",%progbits
	.p2align	2
	.type	"switch_port::machine::SwitchPort::begin",%function
	.code	16
	.thumb_func
"switch_port::machine::SwitchPort::begin":
	.fnstart
	.save	{r4, r5, r6, lr}
	push	{r4, r5, r6, lr}
	.pad	#8
	sub	sp, #8
	mov	r5, r1
	ldrb	r1, [r1, #20]
	mov	r4, r0
	cmp	r1, #2
	beq	.LBB97d51_3
	cmp	r1, #1
	bne	.LBB97d51_5
	mov	r0, r2
	movs	r1, #2
	movs	r2, #0
	movs	r6, #0
	bl	"eap_packet::packet::encode_end_into"
	mov.w	r0, #260
	b	.LBB97d51_4
.LBB97d51_3:
	mov	r0, r2
	movs	r1, #3
	movs	r2, #0
	movs	r6, #0
	bl	"eap_packet::packet::encode_end_into"
	movs	r0, #5
.LBB97d51_4:
	strh.w	r0, [r5, #21]
	movs	r0, #1
	movs	r1, #0
	b	.LBB97d51_6
.LBB97d51_5:
	add.w	r0, sp, #5
	mov	r1, r5
	bl	"switch_port::machine::SwitchPort::disconnect"
	ldrb.w	r0, [sp, #5]
	ldrb.w	r1, [sp, #6]
	ldrb.w	r6, [sp, #7]
.LBB97d51_6:
	strb	r0, [r4]
	strb	r1, [r4, #1]
	strb	r6, [r4, #2]
	add	sp, #8
	pop	{r4, r5, r6, pc}
.Lfunc_end97d51:
	.size	"switch_port::machine::SwitchPort::begin", .Lfunc_end97d51-"switch_port::machine::SwitchPort::begin"
	.cantunwind
	.fnend

	.section	".text.eapol_frame::frame::read_frame","ax",%progbits
	.p2align	2
	.type	"eapol_frame::frame::read_frame",%function
	.code	16
	.thumb_func
"eapol_frame::frame::read_frame":
	.fnstart
	subs.w	r12, r2, #4
	sbcs	r12, r3, #0
	bhs	.LBBc4d7d_2
	movs	r1, #1
	strh	r1, [r0]
	movs	r1, #0
	str	r1, [r0, #8]
	str	r1, [r0, #12]
	str	r1, [r0, #16]
	str	r1, [r0, #20]
	str	r1, [r0, #24]
	str	r1, [r0, #28]
	bx	lr
.LBBc4d7d_2:
	.save	{r4, r5, r6, lr}
	push	{r4, r5, r6, lr}
	.pad	#4
	sub	sp, #4
	add.w	r12, r1, #2
	add.w	lr, sp, #2
	subs.w	lr, lr, r12
	mov.w	r6, #0
	sbc	r5, r6, #0
	rsbs.w	r4, lr, #1
	sbcs	r6, r5
	blo	.LBBc4d7d_4
	ldrh	r6, [r1, #2]
	add.w	r12, sp, #2
	strh.w	r6, [sp, #2]
.LBBc4d7d_4:
	ldrh.w	r6, [r12]
	subs	r2, #4
	rev.w	r12, r6
	sbc	r3, r3, #0
	subs.w	r2, r2, r12, lsr #16
	sbcs	r2, r3, #0
	bhs	.LBBc4d7d_6
	movw	r1, #257
	strh	r1, [r0]
	movs	r1, #0
	str	r1, [r0, #8]
	str	r1, [r0, #12]
	str	r1, [r0, #16]
	str	r1, [r0, #20]
	str	r1, [r0, #24]
	str	r1, [r0, #28]
	add	sp, #4
	pop	{r4, r5, r6, pc}
.LBBc4d7d_6:
	ldrh	r3, [r1], #4
	lsr.w	r2, r12, #16
	movs	r6, #0
	strh	r6, [r0]
	strh	r3, [r0, #8]
	str.w	r6, [r0, #10]
	strh	r6, [r0, #14]
	str	r1, [r0, #16]
	str	r6, [r0, #20]
	str	r6, [r0, #28]
	str	r2, [r0, #24]
	add	sp, #4
	pop	{r4, r5, r6, pc}
.Lfunc_endc4d7d:
	.size	"eapol_frame::frame::read_frame", .Lfunc_endc4d7d-"eapol_frame::frame::read_frame"
	.cantunwind
	.fnend

	.section	".text.tuvaddri_c::by_method::add_users::<#d37c63745cf5a212>","ax",%progbits
	.p2align	2
	.type	"tuvaddri_c::by_method::add_users::<#d37c63745cf5a212>",%function
	.code	16
	.thumb_func
"tuvaddri_c::by_method::add_users::<#d37c63745cf5a212>":
	.fnstart
	ldr	r2, [r1, #32]
	ldr	r3, [r1, #36]
	orrs	r2, r3
	it	eq
	bxeq	lr
.LBBb99c1_1:
	.save	{r4, r5, r6, lr}
	push	{r4, r5, r6, lr}
	.pad	#1056
	sub.w	sp, sp, #1056
	ldr	r6, [r1, #64]
	ldr	r5, [r1, #68]
	ldr	r2, [r1, #48]
	ldr	r3, [r1, #52]
	orrs	r6, r5
	beq	.LBBb99c1_4
	orrs	r2, r3
	add.w	r4, r0, #1904
	beq	.LBBb99c1_6
	mov	r5, sp
	mov	r0, r5
	movs	r2, #51
	mov	r6, r1
	bl	"end_objects::settings::user_of"
	mov	r0, r4
	mov	r1, r5
	bl	"login_setup::users::UserList::add::<=2>"
	mov	r0, r5
	mov	r1, r6
	movs	r2, #47
	b	.LBBb99c1_7
.LBBb99c1_4:
	orrs	r2, r3
	beq	.LBBb99c1_9
	add	r4, sp, #704
	mov	r5, r0
	mov	r0, r4
	movs	r2, #47
	bl	"end_objects::settings::user_of"
	add.w	r0, r5, #1904
	mov	r1, r4
	b	.LBBb99c1_8
.LBBb99c1_6:
	add	r5, sp, #352
	mov	r0, r5
	movs	r2, #51
.LBBb99c1_7:
	bl	"end_objects::settings::user_of"
	mov	r0, r4
	mov	r1, r5
.LBBb99c1_8:
	bl	"login_setup::users::UserList::add::<=2>"
.LBBb99c1_9:
	add.w	sp, sp, #1056
	pop.w	{r4, r5, r6, lr}
	bx	lr
.Lfunc_endb99c1:
	.size	"tuvaddri_c::by_method::add_users::<#d37c63745cf5a212>", .Lfunc_endb99c1-"tuvaddri_c::by_method::add_users::<#d37c63745cf5a212>"
	.cantunwind
	.fnend

	.section	".text.tuvaddri_c::users::put","ax",%progbits
	.p2align	2
	.type	"tuvaddri_c::users::put",%function
	.code	16
	.thumb_func
"tuvaddri_c::users::put":
	.fnstart
	.save	{r4, r5, r6, lr}
	push	{r4, r5, r6, lr}
	.pad	#352
	sub	sp, #352
	mov	r5, r1
	mov.w	r1, #712
	mov	r4, r0
	bl	__aeabi_memclr
	ldr	r0, [r5, #32]
	ldr	r1, [r5, #36]
	orrs	r0, r1
	beq	.LBB40ac3_9
	ldr	r2, [r5, #64]
	ldr	r3, [r5, #68]
	ldr	r0, [r5, #48]
	ldr	r1, [r5, #52]
	orrs	r2, r3
	beq	.LBB40ac3_4
	mov	r6, sp
	orrs	r0, r1
	beq	.LBB40ac3_7
	mov	r0, r6
	mov	r1, r5
	movs	r2, #51
	bl	"end_objects::settings::user_of"
	mov	r0, r4
	mov	r1, r6
	bl	"login_setup::users::UserList::add::<=2>"
	b	.LBB40ac3_6
.LBB40ac3_4:
	orrs	r0, r1
	beq	.LBB40ac3_9
	mov	r6, sp
.LBB40ac3_6:
	mov	r0, r6
	mov	r1, r5
	movs	r2, #47
	b	.LBB40ac3_8
.LBB40ac3_7:
	mov	r0, r6
	mov	r1, r5
	movs	r2, #51
.LBB40ac3_8:
	bl	"end_objects::settings::user_of"
	mov	r0, r4
	mov	r1, r6
	bl	"login_setup::users::UserList::add::<=2>"
.LBB40ac3_9:
	add	sp, #352
	pop	{r4, r5, r6, pc}
.Lfunc_end40ac3:
	.size	"tuvaddri_c::users::put", .Lfunc_end40ac3-"tuvaddri_c::users::put"
	.cantunwind
	.fnend

	.section	".text.end_objects::refusals::user_refusal","ax",%progbits
	.p2align	2
	.type	"end_objects::refusals::user_refusal",%function
	.code	16
	.thumb_func
"end_objects::refusals::user_refusal":
	.fnstart
	ldrd	r1, r2, [r0]
	eor	r1, r1, #80
	orrs	r1, r2
	mov.w	r1, #0
	itt	ne
	movne	r0, #1
	bxne	lr
.LBB77d03_1:
	ldr	r2, [r0, #32]
	ldr	r3, [r0, #36]
	subs	r2, #1
	sbc	r3, r3, #0
	rsbs.w	r2, r2, #252
	sbcs	r1, r3
	ittt	lo
	movlo	r0, #1
	movlo	r1, #4
	bxlo	lr
.LBB77d03_2:
	.save	{r4, lr}
	push	{r4, lr}
	.pad	#24
	sub	sp, #24
	mov	r4, r0
	str	r0, [sp]
	movw	r0, :lower16:.Lstatic.0
	movt	r0, :upper16:.Lstatic.0
	movs	r2, #0
	movs	r3, #0
	bl	"end_objects::refusals::has_keys"
	cbz	r0, .LBB77d03_4
	add	r0, sp, #8
	mov	r1, r4
	bl	"end_objects::settings::keyed_kinds"
	ldrd	r0, r1, [sp, #16]
	orrs	r0, r1
	clz	r0, r0
	mov.w	r1, #0
	lsr.w	r0, r0, #5
	it	eq
	moveq	r1, #5
	add	sp, #24
	pop	{r4, pc}
.LBB77d03_4:
	movs	r0, #1
	movs	r1, #5
	add	sp, #24
	pop	{r4, pc}
.Lfunc_end77d03:
	.size	"end_objects::refusals::user_refusal", .Lfunc_end77d03-"end_objects::refusals::user_refusal"
	.cantunwind
	.fnend

	.section	".text.supplicant::machine::Supplicant::begin::<#807681be332d694b>","ax",%progbits
	.p2align	2
	.type	"supplicant::machine::Supplicant::begin::<#807681be332d694b>",%function
	.code	16
	.thumb_func
"supplicant::machine::Supplicant::begin::<#807681be332d694b>":
	.fnstart
	.save	{r4, r5, r7, lr}
	push	{r4, r5, r7, lr}
	.pad	#16
	sub	sp, #16
	mov	r4, r0
	uxtb	r0, r2
	movs	r5, #0
	cmp	r0, #2
	strb.w	r5, [sp, #12]
	str	r5, [sp, #8]
	beq	.LBBffc7f_3
	cmp	r0, #1
	bne	.LBBffc7f_4
	mov.w	r0, #262
	strh	r0, [r1, #22]
	b	.LBBffc7f_5
.LBBffc7f_3:
	movs	r0, #7
	movw	r2, :lower16:.Lstatic.0
	strh	r0, [r1, #22]
	movt	r2, :upper16:.Lstatic.0
	mov	r0, r3
	movs	r1, #2
	str	r5, [sp]
	str	r5, [sp, #4]
	bl	"eapol_frame::frame::write_frame"
	movs	r0, #1
	strb.w	r0, [sp, #8]
	str.w	r5, [sp, #9]
	b	.LBBffc7f_5
.LBBffc7f_4:
	movs	r0, #0
	strb	r0, [r1, #23]
	str	r0, [r1, #24]
	add	r0, sp, #8
	mov	r2, r3
	bl	"supplicant::machine::Supplicant::connect::<#807681be332d694b>"
.LBBffc7f_5:
	ldrb.w	r0, [sp, #12]
	ldr	r1, [sp, #8]
	strb	r0, [r4, #4]
	str	r1, [r4]
	add	sp, #16
	pop	{r4, r5, r7, pc}
.Lfunc_endffc7f:
	.size	"supplicant::machine::Supplicant::begin::<#807681be332d694b>", .Lfunc_endffc7f-"supplicant::machine::Supplicant::begin::<#807681be332d694b>"
	.cantunwind
	.fnend

	.section	".text.supplicant::machine::Supplicant::connect::<#807681be332d694b>","ax",%progbits
	.p2align	2
	.type	"supplicant::machine::Supplicant::connect::<#807681be332d694b>",%function
	.code	16
	.thumb_func
"supplicant::machine::Supplicant::connect::<#807681be332d694b>":
	.fnstart
	.save	{r4, r5, r6, lr}
	push	{r4, r5, r6, lr}
	.pad	#8
	sub	sp, #8
	ldr	r4, [r1, #4]
	ldr	r3, [r1, #24]
	mov	r12, r2
	cmp	r3, r4
	mov	r4, r0
	itt	lo
	addlo	r0, r3, #1
	strlo	r0, [r1, #24]
	ldr	r2, [r1]
	movs	r0, #2
	str	r2, [r1, #28]
	movw	r2, :lower16:.Lstatic.0
	strb	r0, [r1, #22]
	movs	r5, #0
	movt	r2, :upper16:.Lstatic.0
	mov	r0, r12
	movs	r1, #1
	strd	r5, r5, [sp]
	movs	r6, #1
	bl	"eapol_frame::frame::write_frame"
	strb	r6, [r4]
	str.w	r5, [r4, #1]
	add	sp, #8
	pop	{r4, r5, r6, pc}
.Lfunc_end167a1:
	.size	"supplicant::machine::Supplicant::connect::<#807681be332d694b>", .Lfunc_end167a1-"supplicant::machine::Supplicant::connect::<#807681be332d694b>"
	.cantunwind
	.fnend

	.section	".text.tuvaddri_c::supplicant_turn::TuvSupplicantTurn::of","ax",%progbits
	.p2align	2
	.type	"tuvaddri_c::supplicant_turn::TuvSupplicantTurn::of",%function
	.code	16
	.thumb_func
"tuvaddri_c::supplicant_turn::TuvSupplicantTurn::of":
	.fnstart
	.save	{r4, r5, r6, r7, r8, lr}
	push.w	{r4, r5, r6, r7, r8, lr}
	mov	r5, r0
	ldrb	r0, [r1]
	mov	r6, r1
	ldrb.w	r7, [sp, #24]
	ldr	r1, [sp, #32]
	mov	r8, r3
	cmp	r0, #1
	strb	r0, [r1]
	bne	.LBBa81d8_2
	ldr.w	r4, [r2, #1504]
	ldr	r0, [sp, #28]
	ldr.w	r3, [r2, #1508]
	mov	r1, r2
	mov	r2, r4
	bl	"octet_lists::octets::Octets::set::<=1504>"
.LBBa81d8_2:
	ldrb	r0, [r6, #2]
	mov	r3, r7
	cbz	r0, .LBBa81d8_6
	ldrb	r1, [r6, #3]
	ldrb.w	lr, [r6]
	ldrb.w	r12, [r6, #1]
	ldrb	r6, [r6, #4]
	movs	r4, #66
.LCPIa81d8_0:
	tbb	[pc, r1]
.LJTIa81d8_0:
	.byte	(.LBBa81d8_5-(.LCPIa81d8_0+4))/2
	.byte	(.LBBa81d8_12-(.LCPIa81d8_0+4))/2
	.byte	(.LBBa81d8_10-(.LCPIa81d8_0+4))/2
	.byte	(.LBBa81d8_11-(.LCPIa81d8_0+4))/2
	.byte	(.LBBa81d8_9-(.LCPIa81d8_0+4))/2
	.p2align	1
.LBBa81d8_5:
	movs	r4, #65
	cmp	r6, #0
	it	eq
	moveq	r4, #64
	b	.LBBa81d8_12
.LBBa81d8_6:
	ldrb.w	lr, [r6]
	ldrb.w	r12, [r6, #1]
	movs	r6, #1
.LCPIa81d8_1:
	tbb	[pc, r7]
.LJTIa81d8_2:
	.byte	(.LBBa81d8_22-(.LCPIa81d8_1+4))/2
	.byte	(.LBBa81d8_8-(.LCPIa81d8_1+4))/2
	.byte	(.LBBa81d8_24-(.LCPIa81d8_1+4))/2
	.byte	(.LBBa81d8_25-(.LCPIa81d8_1+4))/2
	.byte	(.LBBa81d8_23-(.LCPIa81d8_1+4))/2
	.byte	(.LBBa81d8_27-(.LCPIa81d8_1+4))/2
	.byte	(.LBBa81d8_28-(.LCPIa81d8_1+4))/2
	.byte	(.LBBa81d8_26-(.LCPIa81d8_1+4))/2
	.p2align	1
.LBBa81d8_8:
	movs	r6, #2
	movs	r3, #0
	b	.LBBa81d8_22
.LBBa81d8_9:
	mov	r4, r6
	b	.LBBa81d8_12
.LBBa81d8_10:
	movs	r4, #67
	b	.LBBa81d8_12
.LBBa81d8_11:
	movs	r4, #68
.LBBa81d8_12:
	movs	r6, #1
	mov	r3, r4
.LCPIa81d8_2:
	tbb	[pc, r7]
.LJTIa81d8_1:
	.byte	(.LBBa81d8_22-(.LCPIa81d8_2+4))/2
	.byte	(.LBBa81d8_14-(.LCPIa81d8_2+4))/2
	.byte	(.LBBa81d8_16-(.LCPIa81d8_2+4))/2
	.byte	(.LBBa81d8_17-(.LCPIa81d8_2+4))/2
	.byte	(.LBBa81d8_15-(.LCPIa81d8_2+4))/2
	.byte	(.LBBa81d8_19-(.LCPIa81d8_2+4))/2
	.byte	(.LBBa81d8_20-(.LCPIa81d8_2+4))/2
	.byte	(.LBBa81d8_18-(.LCPIa81d8_2+4))/2
	.p2align	1
.LBBa81d8_14:
	movs	r6, #2
	b	.LBBa81d8_21
.LBBa81d8_15:
	movs	r6, #5
	b	.LBBa81d8_21
.LBBa81d8_16:
	movs	r6, #3
	b	.LBBa81d8_21
.LBBa81d8_17:
	movs	r6, #4
	b	.LBBa81d8_21
.LBBa81d8_18:
	movs	r6, #10
	b	.LBBa81d8_21
.LBBa81d8_19:
	movs	r6, #7
	b	.LBBa81d8_21
.LBBa81d8_20:
	movs	r6, #9
.LBBa81d8_21:
	mov	r3, r4
.LBBa81d8_22:
	strb	r0, [r5, #1]
	movs	r0, #0
	strb.w	lr, [r5]
	strb	r0, [r5, #2]
	strb.w	r12, [r5, #3]
	strb.w	r8, [r5, #4]
	strb	r3, [r5, #5]
	strb	r6, [r5, #6]
	pop.w	{r4, r5, r6, r7, r8, pc}
.LBBa81d8_23:
	movs	r6, #5
	movs	r3, #0
	b	.LBBa81d8_22
.LBBa81d8_24:
	movs	r6, #3
	movs	r3, #0
	b	.LBBa81d8_22
.LBBa81d8_25:
	movs	r6, #4
	movs	r3, #0
	b	.LBBa81d8_22
.LBBa81d8_26:
	movs	r6, #10
	movs	r3, #0
	b	.LBBa81d8_22
.LBBa81d8_27:
	movs	r6, #7
	movs	r3, #0
	b	.LBBa81d8_22
.LBBa81d8_28:
	movs	r6, #9
	movs	r3, #0
	b	.LBBa81d8_22
.Lfunc_enda81d8:
	.size	"tuvaddri_c::supplicant_turn::TuvSupplicantTurn::of", .Lfunc_enda81d8-"tuvaddri_c::supplicant_turn::TuvSupplicantTurn::of"
	.cantunwind
	.fnend

	.section	".text.supplicant::machine::Supplicant::deliver::<#807681be332d694b>","ax",%progbits
	.p2align	2
	.type	"supplicant::machine::Supplicant::deliver::<#807681be332d694b>",%function
	.code	16
	.thumb_func
"supplicant::machine::Supplicant::deliver::<#807681be332d694b>":
	.fnstart
	.save	{r4, r5, r6, r7, r8, r9, lr}
	push.w	{r4, r5, r6, r7, r8, r9, lr}
	.pad	#2244
	subw	sp, sp, #2244
	add	r7, sp, #48
	mov	r5, r1
	ldr.w	r8, [sp, #2276]
	ldr.w	r9, [sp, #2272]
	mov	r4, r0
	mov	r0, r7
	mov.w	r1, #1512
	mov	r6, r2
	bl	__aeabi_memclr8
	ldrb.w	r0, [r5, #792]
	add.w	r1, r5, #32
	cmp	r0, #1
	mov.w	r0, #0
	str.w	r0, [sp, #1580]
	str.w	r0, [sp, #1576]
	str.w	r0, [sp, #1572]
	str.w	r0, [sp, #1568]
	str.w	r0, [sp, #1564]
	str.w	r0, [sp, #1560]
	strd	r0, r0, [sp, #32]
	strd	r0, r0, [sp, #40]
	add	r0, sp, #32
	bne	.LBBcf1db_2
	strd	r7, r0, [sp, #8]
	add.w	r0, sp, #1560
	mov	r2, r6
	str.w	r9, [sp]
	str.w	r8, [sp, #4]
	bl	"peer_machine::machine::PeerMachine::read::<#f75f5811e3b75c76>"
	b	.LBBcf1db_3
.LBBcf1db_2:
	strd	r7, r0, [sp, #8]
	add.w	r0, sp, #1560
	mov	r2, r6
	str.w	r9, [sp]
	str.w	r8, [sp, #4]
	bl	"peer_machine::machine::PeerMachine::receive_octets::<#f75f5811e3b75c76>"
.LBBcf1db_3:
	ldrb.w	r0, [sp, #1576]
	ldr.w	r8, [sp, #2280]
	cmp	r0, #1
	bne	.LBBcf1db_5
	movs	r1, #0
	ldrb.w	r0, [sp, #1577]
	strb	r1, [r4]
	movw	r1, #1025
	strb.w	r8, [r4, #1]
	strh	r1, [r4, #2]
	b	.LBBcf1db_16
.LBBcf1db_5:
	ldrb.w	r7, [sp, #1578]
	lsls	r0, r7, #31
	beq	.LBBcf1db_7
	ldr.w	r0, [sp, #2284]
	ldr.w	r3, [sp, #1552]
	ldr.w	r6, [sp, #1556]
	add	r2, sp, #48
	movs	r1, #0
	strd	r3, r6, [sp]
	bl	"eapol_frame::frame::write_frame"
	b	.LBBcf1db_13
.LBBcf1db_7:
	ldrb.w	r6, [r5, #800]
	mov	r0, r6
	bl	"eap_method::step::has_ended"
	cbz	r0, .LBBcf1db_13
	cmp	r6, #10
	bne	.LBBcf1db_14
	ldrb.w	r0, [r5, #801]
	cmp	r0, #1
	bne	.LBBcf1db_14
	ldr.w	r2, [r5, #2328]
	ldr.w	r3, [r5, #2332]
	ldr.w	r1, [r5, #2320]
	ldrb.w	r6, [r5, #802]
	add	r0, sp, #20
	str	r6, [sp]
	bl	"eap_method::peer_objects::object_of::<#807681be332d694b>"
	ldrb.w	r0, [sp, #20]
	cmp	r0, #1
	bne	.LBBcf1db_14
	ldr	r1, [sp, #28]
	add.w	r0, sp, #1560
	bl	"end_objects::objects::PeerObjectPeerMethod::report"
	ldrb.w	r0, [sp, #1560]
	cmp	r0, #1
	bne	.LBBcf1db_14
	mov.w	r0, #260
	strh	r0, [r5, #22]
	b	.LBBcf1db_15
.LBBcf1db_13:
	ldr	r0, [r5, #8]
	str	r0, [r5, #28]
	b	.LBBcf1db_15
.LBBcf1db_14:
	ldr	r1, [r5, #12]
	movs	r0, #5
	strh	r0, [r5, #22]
	str	r1, [r5, #28]
.LBBcf1db_15:
	movs	r0, #0
	strb	r7, [r4]
	strb.w	r8, [r4, #1]
	strh	r0, [r4, #2]
.LBBcf1db_16:
	strb	r0, [r4, #4]
	addw	sp, sp, #2244
	pop.w	{r4, r5, r6, r7, r8, r9, pc}
.Lfunc_endcf1db:
	.size	"supplicant::machine::Supplicant::deliver::<#807681be332d694b>", .Lfunc_endcf1db-"supplicant::machine::Supplicant::deliver::<#807681be332d694b>"
	.cantunwind
	.fnend

	.section	".text.peer_machine::machine::PeerMachine::read::<#f75f5811e3b75c76>","ax",%progbits
	.p2align	2
	.type	"peer_machine::machine::PeerMachine::read::<#f75f5811e3b75c76>",%function
	.code	16
	.thumb_func
"peer_machine::machine::PeerMachine::read::<#f75f5811e3b75c76>":
	.fnstart
	.save	{r4, r5, r6, r7, r8, r9, r10, r11, lr}
	push.w	{r4, r5, r6, r7, r8, r9, r10, r11, lr}
	.pad	#180
	sub	sp, #180
	add	r7, sp, #40
	mov	r5, r1
	ldrd	r10, r9, [sp, #216]
	ldrd	r8, r11, [sp, #224]
	mov	r4, r0
	mov	r0, r7
	movs	r1, #48
	mov	r6, r2
	bl	__aeabi_memclr8
	movs	r0, #0
	strd	r0, r0, [sp, #32]
	strd	r0, r0, [sp, #24]
	strd	r0, r0, [sp, #16]
	mov	r0, r7
	mov	r1, r6
	mov	r2, r10
	mov	r3, r9
	bl	"eap_packet::packet::decode"
	ldrb.w	r0, [sp, #48]
	ldrb.w	r1, [sp, #40]
	uxtb	r0, r0
	orrs	r0, r1
	bne	.LBB68108_2
	ldrb.w	r0, [r5, #768]
	bl	"eap_method::step::has_ended"
	cbz	r0, .LBB68108_3
.LBB68108_2:
	add	r0, sp, #16
	mov	r1, r5
	mov	r2, r6
	strd	r10, r9, [sp]
	str.w	r8, [sp, #8]
	str.w	r11, [sp, #12]
	bl	"peer_machine::machine::PeerMachine::receive_octets::<#f75f5811e3b75c76>"
	ldrb.w	r0, [sp, #32]
	ldrb.w	r1, [sp, #33]
	ldrb.w	r6, [sp, #34]
	b	.LBB68108_15
.LBB68108_3:
	add.w	r1, r7, #9
	add	r7, sp, #88
	mov.w	r8, #0
	adds	r0, r7, #1
	movs	r2, #39
	strb.w	r8, [sp, #88]
	bl	__aeabi_memcpy
	mov	r0, r7
	strd	r8, r8, [sp, #144]
	strd	r8, r8, [sp, #136]
	strd	r8, r8, [sp, #128]
	bl	"eap_packet::expanded::is_bad_expanded"
	cbz	r0, .LBB68108_5
	movw	r2, #2306
	movt	r2, #1
	movs	r3, #3
	movs	r1, #8
	movs	r0, #1
	movs	r7, #0
	movs	r6, #0
	b	.LBB68108_14
.LBB68108_5:
	ldrb.w	r0, [sp, #90]
	cmp	r0, #254
	bne	.LBB68108_12
	ldrb.w	r0, [r5, #773]
	ldr.w	r8, [sp, #224]
	movs	r7, #0
	cmp	r0, #1
	str	r7, [sp, #172]
	str	r7, [sp, #168]
	bne	.LBB68108_8
	ldrb.w	r0, [sp, #89]
	ldrb.w	r1, [r5, #774]
	subs	r0, r1, r0
	clz	r0, r0
	lsrs	r7, r0, #5
.LBB68108_8:
	add	r0, sp, #152
	add	r2, sp, #88
	mov	r1, r5
	mov	r3, r6
	strd	r10, r9, [sp]
	str.w	r11, [sp, #12]
	str.w	r8, [sp, #8]
	bl	"peer_machine::machine::PeerMachine::receive_plain::<#f75f5811e3b75c76>"
	ldrb.w	r6, [sp, #170]
	cbnz	r7, .LBB68108_11
	cbz	r6, .LBB68108_11
	mov	r0, r5
	mov	r1, r8
	bl	"peer_machine::machine::express"
.LBB68108_11:
	add	r7, sp, #152
	ldm	r7, {r2, r3, r7}
	ldr	r5, [sp, #164]
	ldrb.w	r0, [sp, #168]
	ldrb.w	r1, [sp, #169]
	add.w	r12, sp, #128
	stm.w	r12, {r2, r3, r7}
	str	r5, [sp, #140]
	b	.LBB68108_13
.LBB68108_12:
	ldr	r0, [sp, #224]
	mov	r1, r5
	str	r0, [sp, #8]
	add	r0, sp, #128
	mov	r2, r6
	strd	r10, r9, [sp]
	str.w	r11, [sp, #12]
	bl	"peer_machine::machine::PeerMachine::receive_octets::<#f75f5811e3b75c76>"
	ldrb.w	r0, [sp, #144]
	ldrb.w	r1, [sp, #145]
	ldrb.w	r6, [sp, #146]
.LBB68108_13:
	ldrd	r2, r7, [sp, #128]
	ldrd	r3, r8, [sp, #136]
.LBB68108_14:
	strd	r2, r7, [sp, #16]
	strd	r3, r8, [sp, #24]
.LBB68108_15:
	add	r7, sp, #16
	ldm	r7, {r2, r3, r5, r7}
	str	r7, [r4, #12]
	str	r5, [r4, #8]
	str	r3, [r4, #4]
	str	r2, [r4]
	strb	r0, [r4, #16]
	strb	r1, [r4, #17]
	strb	r6, [r4, #18]
	add	sp, #180
	pop.w	{r4, r5, r6, r7, r8, r9, r10, r11, pc}
.Lfunc_end68108:
	.size	"peer_machine::machine::PeerMachine::read::<#f75f5811e3b75c76>", .Lfunc_end68108-"peer_machine::machine::PeerMachine::read::<#f75f5811e3b75c76>"
	.cantunwind
	.fnend

	.section	".text.peer_machine::machine::PeerMachine::receive_plain::<#f75f5811e3b75c76>","ax",%progbits
	.p2align	2
	.type	"peer_machine::machine::PeerMachine::receive_plain::<#f75f5811e3b75c76>",%function
	.code	16
	.thumb_func
"peer_machine::machine::PeerMachine::receive_plain::<#f75f5811e3b75c76>":
	.fnstart
	.save	{r4, r5, r6, r7, r8, r9, r10, lr}
	push.w	{r4, r5, r6, r7, r8, r9, r10, lr}
	.pad	#1552
	sub.w	sp, sp, #1552
	mov	r4, r0
	movs	r0, #0
	add	r6, sp, #40
	mov	r5, r1
	ldr.w	r9, [sp, #1596]
	ldr.w	r10, [sp, #1592]
	strd	r0, r0, [sp, #32]
	strd	r0, r0, [sp, #24]
	strd	r0, r0, [sp, #16]
	mov	r0, r6
	mov.w	r1, #1512
	mov	r8, r3
	mov	r7, r2
	bl	__aeabi_memclr8
	mov	r0, r7
	mov	r1, r6
	bl	"eap_packet::expanded::write_plain"
	cbz	r0, .LBB6098e_2
	ldr.w	r0, [sp, #1544]
	ldr.w	r1, [sp, #1548]
	stm.w	sp, {r0, r1, r10}
	add	r0, sp, #16
	add	r2, sp, #40
	mov	r1, r5
	b	.LBB6098e_3
.LBB6098e_2:
	ldr.w	r0, [sp, #1588]
	ldr.w	r1, [sp, #1584]
	mov	r2, r8
	strd	r1, r0, [sp]
	add	r0, sp, #16
	mov	r1, r5
	str.w	r10, [sp, #8]
.LBB6098e_3:
	str.w	r9, [sp, #12]
	bl	"peer_machine::machine::PeerMachine::receive_octets::<#f75f5811e3b75c76>"
	add	r7, sp, #16
	ldrh.w	r0, [sp, #32]
	ldrb.w	r1, [sp, #34]
	ldm	r7, {r2, r3, r7}
	ldr	r6, [sp, #28]
	str	r2, [r4]
	str	r3, [r4, #4]
	str	r7, [r4, #8]
	str	r6, [r4, #12]
	strh	r0, [r4, #16]
	strb	r1, [r4, #18]
	add.w	sp, sp, #1552
	pop.w	{r4, r5, r6, r7, r8, r9, r10, pc}
.Lfunc_end6098e:
	.size	"peer_machine::machine::PeerMachine::receive_plain::<#f75f5811e3b75c76>", .Lfunc_end6098e-"peer_machine::machine::PeerMachine::receive_plain::<#f75f5811e3b75c76>"
	.cantunwind
	.fnend

	.section	".text.peer_machine::machine::PeerMachine::receive_octets::<#f75f5811e3b75c76>","ax",%progbits
	.p2align	2
	.type	"peer_machine::machine::PeerMachine::receive_octets::<#f75f5811e3b75c76>",%function
	.code	16
	.thumb_func
"peer_machine::machine::PeerMachine::receive_octets::<#f75f5811e3b75c76>":
	.fnstart
	.save	{r4, r5, r6, r7, r8, r9, r10, r11, lr}
	push.w	{r4, r5, r6, r7, r8, r9, r10, r11, lr}
	.pad	#276
	sub	sp, #276
	mov	r5, r1
	mov	r4, r0
	add	r0, sp, #40
	movs	r1, #48
	mov	r6, r2
	bl	__aeabi_memclr8
	ldrb.w	r0, [r5, #768]
	bl	"eap_method::step::has_ended"
	cbz	r0, .LBB85996_2
	movs	r0, #0
	movw	r1, #4609
	str	r0, [r4, #12]
	str	r0, [r4, #8]
	str	r0, [r4, #4]
	str	r0, [r4]
	strh	r1, [r4, #16]
	strb	r0, [r4, #18]
	add	sp, #276
	pop.w	{r4, r5, r6, r7, r8, r9, r10, r11, pc}
.LBB85996_2:
	ldrd	r2, r3, [sp, #312]
	add	r0, sp, #40
	mov	r1, r6
	bl	"eap_packet::packet::decode"
	ldrb.w	r0, [sp, #40]
	cmp	r0, #1
	bne	.LBB85996_5
	movw	r12, #2306
	ldrb.w	lr, [sp, #41]
	movs	r1, #0
	movs	r7, #3
	movt	r12, #1
	movs	r0, #1
	movs	r6, #0
	movs	r3, #0
.LBB85996_4:
	str.w	r12, [r4]
	str	r1, [r4, #4]
	str	r7, [r4, #8]
	str	r6, [r4, #12]
	strb	r0, [r4, #16]
	strb.w	lr, [r4, #17]
	strb	r3, [r4, #18]
	add	sp, #276
	pop.w	{r4, r5, r6, r7, r8, r9, r10, r11, pc}
.LBB85996_5:
	ldr	r1, [sp, #72]
	ldrb.w	r0, [sp, #48]
	str	r1, [sp, #32]
	ldr	r1, [sp, #84]
	ldrb.w	r9, [sp, #49]
	str	r1, [sp, #36]
	ldr	r1, [sp, #80]
	ldrb.w	r8, [sp, #50]
	str	r1, [sp, #28]
	ldrb.w	r1, [r5, #773]
	mov.w	r10, #0
	cmp	r1, #1
	strd	r10, r10, [sp, #152]
	strd	r10, r10, [sp, #128]
	str.w	r10, [sp, #108]
	str.w	r10, [sp, #104]
	bne	.LBB85996_7
	ldrb.w	r1, [r5, #774]
	sub.w	r1, r1, r9
	clz	r1, r1
	lsr.w	r10, r1, #5
.LBB85996_7:
	ldr	r2, [sp, #320]
	movw	r12, #2306
	movs	r6, #0
	movt	r12, #1
	movs	r7, #3
	mov.w	lr, #7
	movs	r1, #0
	movs	r3, #0
.LCPI85996_0:
	tbb	[pc, r0]
.LJTI85996_0:
	.byte	(.LBB85996_10-(.LCPI85996_0+4))/2
	.byte	(.LBB85996_9-(.LCPI85996_0+4))/2
	.byte	(.LBB85996_12-(.LCPI85996_0+4))/2
	.byte	(.LBB85996_14-(.LCPI85996_0+4))/2
	.p2align	1
.LBB85996_9:
	b	.LBB85996_4
.LBB85996_10:
	cmp.w	r10, #0
	beq	.LBB85996_17
	add	r0, sp, #136
	mov	r1, r5
	bl	"peer_machine::machine::retransmit"
	ldrd	r12, r1, [sp, #136]
	ldrd	r7, r6, [sp, #144]
	ldrb.w	r0, [sp, #152]
	ldrb.w	lr, [sp, #153]
	ldrb.w	r3, [sp, #154]
	b	.LBB85996_4
.LBB85996_12:
	cmp.w	r10, #0
	beq	.LBB85996_16
	add	r0, sp, #112
	mov	r1, r5
	bl	"peer_machine::machine::PeerMachine::success::<#807681be332d694b>"
	ldrd	r12, r1, [sp, #112]
	ldrd	r7, r6, [sp, #120]
	ldrb.w	r0, [sp, #128]
	ldrb.w	lr, [sp, #129]
	ldrb.w	r3, [sp, #130]
	b	.LBB85996_4
.LBB85996_14:
	cmp.w	r10, #0
	beq	.LBB85996_16
	add	r0, sp, #88
	mov	r1, r5
	bl	"peer_machine::machine::PeerMachine::failure::<#807681be332d694b>"
	ldrd	r12, r1, [sp, #88]
	ldrd	r7, r6, [sp, #96]
	ldrb.w	r0, [sp, #104]
	ldrb.w	lr, [sp, #105]
	ldrb.w	r3, [sp, #106]
	b	.LBB85996_4
.LBB85996_16:
	mov.w	lr, #12
	movs	r0, #1
	b	.LBB85996_4
.LBB85996_17:
	ldrb.w	r1, [r5, #769]
	movs	r0, #0
	str	r0, [sp, #180]
	str	r0, [sp, #176]
	cbz	r1, .LBB85996_20
	cmp.w	r8, #2
	bne	.LBB85996_23
	mov.w	lr, #9
	b	.LBB85996_27
.LBB85996_20:
	cmp.w	r8, #2
	strd	r0, r0, [sp, #248]
	strd	r0, r0, [sp, #256]
	strd	r0, r0, [sp, #264]
	strd	r0, r0, [sp, #224]
	strd	r0, r0, [sp, #232]
	strd	r0, r0, [sp, #240]
	strd	r0, r0, [sp, #200]
	strd	r0, r0, [sp, #208]
	str	r0, [sp, #216]
	str	r0, [sp, #220]
	beq	.LBB85996_28
	cmp.w	r8, #1
	bne	.LBB85996_29
	ldrd	r0, r1, [r5, #256]
	mov	r6, r2
	strd	r0, r1, [sp, #8]
	mov	r0, r2
	movs	r1, #1
	mov	r2, r9
	movs	r3, #1
	str	r5, [sp]
	bl	"eap_packet::packet::encode_into"
	add	r0, sp, #248
	mov	r1, r5
	movs	r2, #5
	mov	r3, r9
	str	r6, [sp]
	bl	"peer_machine::machine::respond"
	ldrb.w	r0, [sp, #264]
	ldrb.w	lr, [sp, #265]
	ldrb.w	r3, [sp, #266]
	b	.LBB85996_35
.LBB85996_23:
	ldrb.w	r0, [r5, #770]
	cmp	r8, r0
	bne	.LBB85996_26
	ldrb.w	r0, [r5, #771]
	cmp	r0, #4
	bne	.LBB85996_31
	mov.w	lr, #10
	b	.LBB85996_27
.LBB85996_26:
	mov.w	lr, #11
.LBB85996_27:
	movs	r0, #1
	movs	r1, #0
	b	.LBB85996_4
.LBB85996_28:
	movw	r7, :lower16:.Lstatic.0
	strd	r0, r0, [sp, #8]
	movt	r7, :upper16:.Lstatic.0
	mov	r0, r2
	movs	r1, #1
	mov	r6, r2
	mov	r2, r9
	movs	r3, #2
	str	r7, [sp]
	bl	"eap_packet::packet::encode_into"
	add	r0, sp, #224
	mov	r1, r5
	movs	r2, #6
	mov	r3, r9
	str	r6, [sp]
	bl	"peer_machine::machine::respond"
	ldrb.w	r0, [sp, #240]
	ldrb.w	lr, [sp, #241]
	ldrb.w	r3, [sp, #242]
	b	.LBB85996_34
.LBB85996_29:
	mov	r7, r2
	ldrd	r2, r3, [r5, #544]
	add.w	r0, r5, #536
	str.w	r8, [sp]
	bl	"octet_lists::kind::is_among"
	cbz	r0, .LBB85996_32
	ldr	r0, [sp, #32]
	mov	r1, r5
	str	r0, [sp, #4]
	ldr	r0, [sp, #28]
	movs	r2, #1
	str	r0, [sp, #8]
	ldr	r0, [sp, #36]
	mov	r3, r8
	strd	r0, r7, [sp, #12]
	ldr	r7, [sp, #324]
	add	r0, sp, #200
	str.w	r9, [sp]
	str	r7, [sp, #20]
	bl	"peer_machine::machine::PeerMachine::method::<#f75f5811e3b75c76>"
	b	.LBB85996_33
.LBB85996_31:
	ldr	r0, [sp, #32]
	ldr	r7, [sp, #324]
	str	r0, [sp, #4]
	ldr	r0, [sp, #28]
	mov	r1, r5
	str	r0, [sp, #8]
	ldr	r0, [sp, #36]
	mov	r3, r8
	strd	r0, r2, [sp, #12]
	add	r0, sp, #160
	movs	r2, #0
	str.w	r9, [sp]
	str	r7, [sp, #20]
	bl	"peer_machine::machine::PeerMachine::method::<#f75f5811e3b75c76>"
	ldrd	r12, r1, [sp, #160]
	ldrd	r7, r6, [sp, #168]
	ldrb.w	r0, [sp, #176]
	ldrb.w	lr, [sp, #177]
	ldrb.w	r3, [sp, #178]
	b	.LBB85996_4
.LBB85996_32:
	add.w	r8, sp, #184
	mov	r0, r8
	mov	r1, r5
	bl	"login_policy::policy::nak_list"
	ldrd	r0, r1, [sp, #192]
	mov	r2, r9
	strd	r0, r1, [sp, #8]
	mov	r0, r7
	movs	r1, #1
	movs	r3, #3
	str.w	r8, [sp]
	bl	"eap_packet::packet::encode_into"
	add	r0, sp, #200
	mov	r1, r5
	movs	r2, #3
	mov	r3, r9
	str	r7, [sp]
	bl	"peer_machine::machine::respond"
.LBB85996_33:
	ldrd	r1, r0, [sp, #200]
	ldrd	r3, r2, [sp, #208]
	ldrb.w	lr, [sp, #217]
	strd	r0, r3, [sp, #228]
	ldrb.w	r0, [sp, #216]
	ldrb.w	r3, [sp, #218]
	str	r2, [sp, #236]
	str	r1, [sp, #224]
.LBB85996_34:
	add	r7, sp, #224
	ldm	r7, {r1, r2, r6, r7}
	add.w	r12, sp, #248
	stm.w	r12, {r1, r2, r6, r7}
.LBB85996_35:
	ldrd	r12, r1, [sp, #248]
	ldrd	r7, r6, [sp, #256]
	b	.LBB85996_4
.Lfunc_end85996:
	.size	"peer_machine::machine::PeerMachine::receive_octets::<#f75f5811e3b75c76>", .Lfunc_end85996-"peer_machine::machine::PeerMachine::receive_octets::<#f75f5811e3b75c76>"
	.cantunwind
	.fnend

	.section	".text.peer_machine::machine::PeerMachine::method::<#f75f5811e3b75c76>","ax",%progbits
	.p2align	2
	.type	"peer_machine::machine::PeerMachine::method::<#f75f5811e3b75c76>",%function
	.code	16
	.thumb_func
"peer_machine::machine::PeerMachine::method::<#f75f5811e3b75c76>":
	.fnstart
	.save	{r4, r5, r6, r7, r8, r9, r10, r11, lr}
	push.w	{r4, r5, r6, r7, r8, r9, r10, r11, lr}
	.pad	#60
	sub	sp, #60
	mov	r7, r1
	mov	r5, r3
	mov	r6, r2
	mov	r4, r0
	ldrd	r8, r10, [sp, #112]
	movs	r0, #0
	ldr.w	r1, [r1, #2288]
	ldr.w	r2, [r7, #2296]
	ldr.w	r3, [r7, #2300]
	add.w	lr, sp, #96
	str	r0, [sp, #52]
	str	r0, [sp, #48]
	add.w	r0, sp, #57
	ldm.w	lr, {r9, r11, r12, lr}
	stm.w	sp, {r5, r11, r12, lr}
	str.w	r8, [sp, #16]
	str.w	r10, [sp, #20]
	bl	"eap_method::peer_objects::call_peer_method::<#c8f2ed81ce9f52e6>"
	ldrb.w	r0, [sp, #57]
	ldrh.w	r1, [sp, #58]
	strb.w	r0, [sp, #29]
	add.w	r0, sp, #29
	strh.w	r1, [sp, #30]
	strd	r9, r0, [sp]
	add	r0, sp, #32
	mov	r1, r7
	mov	r2, r6
	mov	r3, r5
	str.w	r8, [sp, #8]
	bl	"peer_machine::machine::settle"
	ldr	r2, [sp, #44]
	add	r3, sp, #32
	ldm	r3, {r0, r1, r3}
	str	r2, [r4, #12]
	ldrb.w	r2, [sp, #48]
	str	r1, [r4, #4]
	ldrh.w	r1, [sp, #49]
	str	r3, [r4, #8]
	strb	r2, [r4, #16]
	str	r0, [r4]
	strh.w	r1, [r4, #17]
	add	sp, #60
	pop.w	{r4, r5, r6, r7, r8, r9, r10, r11, pc}
.Lfunc_end2047e:
	.size	"peer_machine::machine::PeerMachine::method::<#f75f5811e3b75c76>", .Lfunc_end2047e-"peer_machine::machine::PeerMachine::method::<#f75f5811e3b75c76>"
	.cantunwind
	.fnend

	.section	".text.eap_method::peer_objects::call_peer_method::<#c8f2ed81ce9f52e6>","ax",%progbits
	.p2align	2
	.type	"eap_method::peer_objects::call_peer_method::<#c8f2ed81ce9f52e6>",%function
	.code	16
	.thumb_func
"eap_method::peer_objects::call_peer_method::<#c8f2ed81ce9f52e6>":
	.fnstart
	.save	{r4, r5, r6, r7, r8, r9, lr}
	push.w	{r4, r5, r6, r7, r8, r9, lr}
	.pad	#36
	sub	sp, #36
	ldr.w	r12, [sp, #84]
	mov	r4, r2
	orrs	r2, r3
	mov	r5, r0
	beq	.LBBe5c89_3
	ldrb	r0, [r1]
	ldr	r7, [sp, #64]
	ldrd	r8, lr, [sp, #76]
	ldrd	r2, r9, [sp, #68]
	cmp	r0, #0
	mov.w	r0, #51
	uxtb	r6, r7
	it	eq
	moveq	r0, #47
	cmp	r0, r6
	bne	.LBBe5c89_4
	add.w	r0, sp, #33
	strd	r9, r8, [sp]
	str.w	lr, [sp, #8]
	str.w	r12, [sp, #12]
	bl	"end_objects::objects::PeerObjectPeerMethod::handle_unrecorded"
	ldrb.w	r0, [sp, #33]
	ldrb.w	r1, [sp, #34]
	ldrb.w	r2, [sp, #35]
	b	.LBBe5c89_5
.LBBe5c89_3:
	movs	r0, #0
	strd	r0, r0, [r12]
	strd	r0, r0, [r12, #8]
	movs	r1, #22
	movs	r2, #0
	b	.LBBe5c89_5
.LBBe5c89_4:
	subs	r4, #1
	sbc	r3, r3, #0
	add.w	r1, r1, #1248
	strd	r7, r2, [sp]
	add.w	r0, sp, #30
	mov	r2, r4
	strd	r9, r8, [sp, #8]
	str.w	lr, [sp, #16]
	str.w	r12, [sp, #20]
	bl	"eap_method::peer_objects::call_peer_method::<#c8f2ed81ce9f52e6>"
	ldrb.w	r0, [sp, #30]
	ldrb.w	r1, [sp, #31]
	ldrb.w	r2, [sp, #32]
.LBBe5c89_5:
	strb	r0, [r5]
	strb	r1, [r5, #1]
	strb	r2, [r5, #2]
	add	sp, #36
	pop.w	{r4, r5, r6, r7, r8, r9, pc}
.Lfunc_ende5c89:
	.size	"eap_method::peer_objects::call_peer_method::<#c8f2ed81ce9f52e6>", .Lfunc_ende5c89-"eap_method::peer_objects::call_peer_method::<#c8f2ed81ce9f52e6>"
	.cantunwind
	.fnend

	.section	".text.end_objects::objects::PeerObjectPeerMethod::report","ax",%progbits
	.p2align	2
	.type	"end_objects::objects::PeerObjectPeerMethod::report",%function
	.code	16
	.thumb_func
"end_objects::objects::PeerObjectPeerMethod::report":
	.fnstart
	.save	{r4, r5, r6, r7, r8, r9, r10, r11, lr}
	push.w	{r4, r5, r6, r7, r8, r9, r10, r11, lr}
	.pad	#1748
	subw	sp, sp, #1748
	ldrb	r2, [r1]
	mov	r4, r0
	ldrb.w	r0, [r1, #664]
	cmp	r2, #0
	add.w	r5, r1, #8
	beq	.LBB9e9f9_5
	cmp	r0, #2
	bne.w	.LBB9e9f9_9
	ldrb.w	r0, [r1, #1160]
	cmp	r0, #1
	bne.w	.LBB9e9f9_9
	ldrb.w	r0, [r1, #1161]
	cmp	r0, #1
	bne.w	.LBB9e9f9_9
	add.w	r8, sp, #1480
	mov.w	r10, #0
	ldrd	r7, r9, [r1, #264]
	mov	r0, r8
	mov	r6, r1
	mov.w	r1, #264
	str.w	r10, [sp, #1208]
	str.w	r10, [sp, #1211]
	bl	__aeabi_memclr8
	mov	r0, r8
	mov	r1, r5
	mov	r2, r7
	mov	r3, r9
	bl	"octet_lists::octets::Octets::append::<=253>"
	add.w	r9, sp, #944
	mov	r0, r9
	mov	r1, r8
	mov.w	r2, #264
	bl	__aeabi_memcpy8
	add.w	r11, sp, #1480
	ldrd	r5, r7, [r6, #528]
	mov	r0, r11
	mov.w	r1, #264
	add.w	r8, r6, #272
	bl	__aeabi_memclr8
	mov	r0, r11
	mov	r1, r8
	mov	r2, r5
	mov	r3, r7
	bl	"octet_lists::octets::Octets::append::<=253>"
	add	r0, sp, #136
	mov	r1, r11
	mov.w	r2, #264
	bl	__aeabi_memcpy8
	ldrb.w	r0, [r6, #704]
	add.w	r8, sp, #1208
	cmp	r0, #0
	mov.w	r7, #2
	add.w	r0, r8, #7
	mov	r1, r9
	mov.w	r2, #264
	it	eq
	moveq	r7, #1
	add.w	r5, r6, #752
	add.w	r6, r6, #816
	bl	__aeabi_memcpy
	add	r0, sp, #72
	mov	r1, r5
	movs	r2, #64
	bl	__aeabi_memcpy
	add	r0, sp, #8
	mov	r1, r6
	movs	r2, #64
	bl	__aeabi_memcpy
	add	r0, sp, #400
	mov	r1, r8
	movw	r2, #271
	bl	__aeabi_memcpy4
	str.w	r10, [sp, #3]
	str.w	r10, [sp]
	movs	r1, #51
	movs	r0, #1
	b	.LBB9e9f9_10
.LBB9e9f9_5:
	cmp	r0, #2
	bne	.LBB9e9f9_9
	ldrb.w	r0, [r1, #1241]
	cmp	r0, #1
	bne	.LBB9e9f9_9
	ldrb.w	r0, [r1, #1242]
	cmp	r0, #1
	bne	.LBB9e9f9_9
	add.w	r8, sp, #1480
	movs	r7, #0
	ldrd	r10, r9, [r1, #264]
	mov	r0, r8
	mov	r6, r1
	mov.w	r1, #264
	str	r7, [sp, #672]
	str.w	r7, [sp, #675]
	bl	__aeabi_memclr8
	mov	r0, r8
	mov	r1, r5
	mov	r2, r10
	mov	r3, r9
	bl	"octet_lists::octets::Octets::append::<=253>"
	add.w	r9, sp, #944
	mov	r0, r9
	mov	r1, r8
	mov.w	r2, #264
	bl	__aeabi_memcpy8
	add.w	r10, sp, #1480
	ldrd	r5, r11, [r6, #528]
	mov	r0, r10
	mov.w	r1, #264
	add.w	r8, r6, #272
	bl	__aeabi_memclr8
	mov	r0, r10
	mov	r1, r8
	mov	r2, r5
	mov	r3, r11
	bl	"octet_lists::octets::Octets::append::<=253>"
	add	r0, sp, #136
	mov	r1, r10
	mov.w	r2, #264
	bl	__aeabi_memcpy8
	add.w	r8, sp, #672
	add.w	r0, r8, #7
	mov	r1, r9
	mov.w	r2, #264
	addw	r5, r6, #905
	addw	r6, r6, #969
	bl	__aeabi_memcpy
	add	r0, sp, #72
	mov	r1, r5
	movs	r2, #64
	bl	__aeabi_memcpy
	add	r0, sp, #8
	mov	r1, r6
	movs	r2, #64
	bl	__aeabi_memcpy
	add	r0, sp, #400
	mov	r1, r8
	movw	r2, #271
	bl	__aeabi_memcpy4
	str.w	r7, [sp, #3]
	str	r7, [sp]
	movs	r1, #47
	movs	r0, #1
	b	.LBB9e9f9_10
.LBB9e9f9_9:
	add	r0, sp, #400
	movw	r1, #271
	bl	__aeabi_memclr4
	add	r0, sp, #136
	mov.w	r1, #264
	bl	__aeabi_memclr8
	add	r0, sp, #72
	movs	r1, #64
	bl	__aeabi_memclr4
	add	r0, sp, #8
	movs	r1, #64
	bl	__aeabi_memclr4
	movs	r0, #0
	movs	r1, #0
	movs	r7, #0
	str.w	r0, [sp, #3]
	str	r0, [sp]
.LBB9e9f9_10:
	movs	r2, #0
	str	r2, [r4, #4]
	str	r0, [r4]
	strb	r1, [r4, #8]
	add.w	r0, r4, #9
	add	r1, sp, #400
	movw	r2, #271
	bl	__aeabi_memcpy
	add.w	r0, r4, #280
	add	r1, sp, #136
	mov.w	r2, #264
	bl	__aeabi_memcpy
	addw	r0, r4, #545
	add	r1, sp, #72
	movs	r2, #64
	strb.w	r7, [r4, #544]
	bl	__aeabi_memcpy
	addw	r0, r4, #609
	add	r1, sp, #8
	movs	r2, #64
	bl	__aeabi_memcpy
	ldr	r0, [sp]
	ldr.w	r1, [sp, #3]
	str.w	r0, [r4, #673]
	str.w	r1, [r4, #676]
	addw	sp, sp, #1748
	pop.w	{r4, r5, r6, r7, r8, r9, r10, r11, pc}
.Lfunc_end9e9f9:
	.size	"end_objects::objects::PeerObjectPeerMethod::report", .Lfunc_end9e9f9-"end_objects::objects::PeerObjectPeerMethod::report"
	.cantunwind
	.fnend

	.section	".text.tuvaddri_c::held::object_of","ax",%progbits
	.p2align	2
	.type	"tuvaddri_c::held::object_of",%function
	.code	16
	.thumb_func
"tuvaddri_c::held::object_of":
	.fnstart
	mov	r12, r0
	ldrb	r3, [r0]
	movs	r0, #0
	.save	{r7, lr}
	push	{r7, lr}
	.pad	#48
	sub	sp, #48
	movs	r1, #0
.LCPIdf5e7_0:
	tbb	[pc, r3]
.LJTIdf5e7_0:
	.byte	(.LBBdf5e7_2-(.LCPIdf5e7_0+4))/2
	.byte	(.LBBdf5e7_10-(.LCPIdf5e7_0+4))/2
	.byte	(.LBBdf5e7_9-(.LCPIdf5e7_0+4))/2
	.byte	(.LBBdf5e7_4-(.LCPIdf5e7_0+4))/2
	.byte	(.LBBdf5e7_5-(.LCPIdf5e7_0+4))/2
	.byte	(.LBBdf5e7_3-(.LCPIdf5e7_0+4))/2
	.byte	(.LBBdf5e7_2-(.LCPIdf5e7_0+4))/2
	.byte	(.LBBdf5e7_7-(.LCPIdf5e7_0+4))/2
	.byte	(.LBBdf5e7_2-(.LCPIdf5e7_0+4))/2
	.p2align	1
.LBBdf5e7_2:
	add	sp, #48
	pop	{r7, pc}
.LBBdf5e7_3:
	add.w	r1, r12, #8
	add	r0, sp, #24
	bl	"server_machine::backend::SizedBackend::current::<#575f94f35bca5e04>"
	ldrb.w	r0, [sp, #24]
	ldr	r1, [sp, #32]
	b	.LBBdf5e7_6
.LBBdf5e7_4:
	add.w	r1, r12, #8
	mov	r0, sp
	bl	"peer_machine::machine::PeerMachine::selected::<#807681be332d694b>"
	ldrb.w	r0, [sp]
	ldr	r1, [sp, #8]
	b	.LBBdf5e7_8
.LBBdf5e7_5:
	add.w	r1, r12, #8
	add	r0, sp, #12
	bl	"server_machine::machine::SizedServer::current::<#575f94f35bca5e04>"
	ldrb.w	r0, [sp, #12]
	ldr	r1, [sp, #20]
.LBBdf5e7_6:
	cmp	r0, #0
	ite	eq
	moveq	r1, r0
	movne	r0, #2
	add	sp, #48
	pop	{r7, pc}
.LBBdf5e7_7:
	add.w	r1, r12, #40
	add	r0, sp, #36
	bl	"peer_machine::machine::PeerMachine::selected::<#807681be332d694b>"
	ldrb.w	r0, [sp, #36]
	ldr	r1, [sp, #44]
.LBBdf5e7_8:
	cmp	r0, #0
	it	eq
	moveq	r1, r0
	add	sp, #48
	pop	{r7, pc}
.LBBdf5e7_9:
	add.w	r1, r12, #8
	movs	r0, #2
	add	sp, #48
	pop	{r7, pc}
.LBBdf5e7_10:
	add.w	r1, r12, #8
	movs	r0, #1
	add	sp, #48
	pop	{r7, pc}
.Lfunc_enddf5e7:
	.size	"tuvaddri_c::held::object_of", .Lfunc_enddf5e7-"tuvaddri_c::held::object_of"
	.cantunwind
	.fnend

	.section	".text.tuvaddri_c::held::Object::report","ax",%progbits
	.p2align	2
	.type	"tuvaddri_c::held::Object::report",%function
	.code	16
	.thumb_func
"tuvaddri_c::held::Object::report":
	.fnstart
	.save	{r4, r5, r6, lr}
	push	{r4, r5, r6, lr}
	.pad	#680
	sub.w	sp, sp, #680
	mov	r5, sp
	mov	r6, r1
	mov	r4, r0
	mov	r0, r5
	mov.w	r1, #680
	bl	__aeabi_memclr8
	ldrb	r0, [r6]
	cbz	r0, .LBB078f7_4
	cmp	r0, #2
	bne	.LBB078f7_3
	ldr	r1, [r6, #8]
	mov	r0, sp
	bl	"end_objects::objects::ServerObjectServerMethod::report"
	b	.LBB078f7_4
.LBB078f7_3:
	ldr	r1, [r6, #8]
	mov	r0, sp
	bl	"end_objects::objects::PeerObjectPeerMethod::report"
.LBB078f7_4:
	ldrb.w	r0, [sp]
	movs	r2, #0
	add.w	r1, r5, #8
	str	r2, [r4, #4]
	str	r0, [r4]
	add.w	r0, r4, #8
	mov.w	r2, #672
	bl	__aeabi_memcpy
	add.w	sp, sp, #680
	pop	{r4, r5, r6, pc}
.Lfunc_end078f7:
	.size	"tuvaddri_c::held::Object::report", .Lfunc_end078f7-"tuvaddri_c::held::Object::report"
	.cantunwind
	.fnend

	.section	".text.end_objects::objects::ServerObjectServerMethod::report","ax",%progbits
	.p2align	2
	.type	"end_objects::objects::ServerObjectServerMethod::report",%function
	.code	16
	.thumb_func
"end_objects::objects::ServerObjectServerMethod::report":
	.fnstart
	.save	{r4, r5, r6, r7, r8, r9, r10, r11, lr}
	push.w	{r4, r5, r6, r7, r8, r9, r10, r11, lr}
	.pad	#1748
	subw	sp, sp, #1748
	mov	r5, r1
	ldrb	r2, [r5], #8
	mov	r4, r0
	cmp	r2, #0
	beq	.LBB2160d_5
	ldrb.w	r0, [r1, #320]
	cmp	r0, #2
	bne.w	.LBB2160d_9
	ldrb.w	r0, [r1, #1152]
	cmp	r0, #2
	bne.w	.LBB2160d_9
	ldrb.w	r0, [r1, #1153]
	cmp	r0, #1
	bne.w	.LBB2160d_9
	add.w	r9, sp, #1480
	add.w	r8, r1, #328
	mov.w	r10, #0
	ldrd	r7, r11, [r1, #584]
	mov	r0, r9
	mov	r6, r1
	mov.w	r1, #264
	str.w	r10, [sp, #1208]
	str.w	r10, [sp, #1211]
	bl	__aeabi_memclr8
	mov	r0, r9
	mov	r1, r8
	mov	r2, r7
	mov	r3, r11
	bl	"octet_lists::octets::Octets::append::<=253>"
	add.w	r8, sp, #944
	mov	r0, r8
	mov	r1, r9
	mov.w	r2, #264
	bl	__aeabi_memcpy8
	add.w	r9, sp, #1480
	ldrd	r7, r11, [r6, #264]
	mov	r0, r9
	mov.w	r1, #264
	bl	__aeabi_memclr8
	mov	r0, r9
	mov	r1, r5
	mov	r2, r7
	mov	r3, r11
	bl	"octet_lists::octets::Octets::append::<=253>"
	add	r0, sp, #136
	mov	r1, r9
	mov.w	r2, #264
	bl	__aeabi_memcpy8
	ldrb.w	r0, [r6, #696]
	add.w	r9, sp, #1208
	cmp	r0, #0
	mov.w	r7, #2
	add.w	r0, r9, #7
	mov	r1, r8
	mov.w	r2, #264
	it	eq
	moveq	r7, #1
	add.w	r5, r6, #744
	add.w	r6, r6, #808
	bl	__aeabi_memcpy
	add	r0, sp, #72
	mov	r1, r5
	movs	r2, #64
	bl	__aeabi_memcpy
	add	r0, sp, #8
	mov	r1, r6
	movs	r2, #64
	bl	__aeabi_memcpy
	add	r0, sp, #400
	mov	r1, r9
	movw	r2, #271
	bl	__aeabi_memcpy4
	str.w	r10, [sp, #3]
	str.w	r10, [sp]
	movs	r1, #51
	movs	r0, #1
	b	.LBB2160d_10
.LBB2160d_5:
	ldrb	r0, [r5]
	cmp	r0, #2
	bne	.LBB2160d_9
	ldrb.w	r0, [r1, #1248]
	cmp	r0, #1
	bne	.LBB2160d_9
	ldrb.w	r0, [r1, #1249]
	cmp	r0, #1
	bne	.LBB2160d_9
	add.w	r10, sp, #1480
	add.w	r8, r1, #16
	movs	r7, #0
	ldrd	r5, r11, [r1, #584]
	add.w	r9, r1, #328
	mov	r0, r10
	mov	r6, r1
	mov.w	r1, #264
	str	r7, [sp, #672]
	str.w	r7, [sp, #675]
	bl	__aeabi_memclr8
	mov	r0, r10
	mov	r1, r9
	mov	r2, r5
	mov	r3, r11
	bl	"octet_lists::octets::Octets::append::<=253>"
	add.w	r9, sp, #944
	mov	r0, r9
	mov	r1, r10
	mov.w	r2, #264
	bl	__aeabi_memcpy8
	add.w	r10, sp, #1480
	ldrd	r5, r11, [r6, #272]
	mov	r0, r10
	mov.w	r1, #264
	bl	__aeabi_memclr8
	mov	r0, r10
	mov	r1, r8
	mov	r2, r5
	mov	r3, r11
	bl	"octet_lists::octets::Octets::append::<=253>"
	add	r0, sp, #136
	mov	r1, r10
	mov.w	r2, #264
	bl	__aeabi_memcpy8
	add.w	r8, sp, #672
	add.w	r0, r8, #7
	mov	r1, r9
	mov.w	r2, #264
	addw	r5, r6, #905
	addw	r6, r6, #969
	bl	__aeabi_memcpy
	add	r0, sp, #72
	mov	r1, r5
	movs	r2, #64
	bl	__aeabi_memcpy
	add	r0, sp, #8
	mov	r1, r6
	movs	r2, #64
	bl	__aeabi_memcpy
	add	r0, sp, #400
	mov	r1, r8
	movw	r2, #271
	bl	__aeabi_memcpy4
	str.w	r7, [sp, #3]
	str	r7, [sp]
	movs	r1, #47
	movs	r0, #1
	b	.LBB2160d_10
.LBB2160d_9:
	add	r0, sp, #400
	movw	r1, #271
	bl	__aeabi_memclr4
	add	r0, sp, #136
	mov.w	r1, #264
	bl	__aeabi_memclr8
	add	r0, sp, #72
	movs	r1, #64
	bl	__aeabi_memclr4
	add	r0, sp, #8
	movs	r1, #64
	bl	__aeabi_memclr4
	movs	r0, #0
	movs	r1, #0
	movs	r7, #0
	str.w	r0, [sp, #3]
	str	r0, [sp]
.LBB2160d_10:
	movs	r2, #0
	str	r2, [r4, #4]
	str	r0, [r4]
	strb	r1, [r4, #8]
	add.w	r0, r4, #9
	add	r1, sp, #400
	movw	r2, #271
	bl	__aeabi_memcpy
	add.w	r0, r4, #280
	add	r1, sp, #136
	mov.w	r2, #264
	bl	__aeabi_memcpy
	addw	r0, r4, #545
	add	r1, sp, #72
	movs	r2, #64
	strb.w	r7, [r4, #544]
	bl	__aeabi_memcpy
	addw	r0, r4, #609
	add	r1, sp, #8
	movs	r2, #64
	bl	__aeabi_memcpy
	ldr	r0, [sp]
	ldr.w	r1, [sp, #3]
	str.w	r0, [r4, #673]
	str.w	r1, [r4, #676]
	addw	sp, sp, #1748
	pop.w	{r4, r5, r6, r7, r8, r9, r10, r11, pc}
.Lfunc_end2160d:
	.size	"end_objects::objects::ServerObjectServerMethod::report", .Lfunc_end2160d-"end_objects::objects::ServerObjectServerMethod::report"
	.cantunwind
	.fnend

	.section	".text.tuvaddri_c::held::Object::nonces","ax",%progbits
	.p2align	2
	.type	"tuvaddri_c::held::Object::nonces",%function
	.code	16
	.thumb_func
"tuvaddri_c::held::Object::nonces":
	.fnstart
	.save	{r4, r5, r6, lr}
	push	{r4, r5, r6, lr}
	.pad	#88
	sub	sp, #88
	mov	r5, sp
	mov	r6, r1
	mov	r4, r0
	mov	r0, r5
	movs	r1, #88
	bl	__aeabi_memclr8
	ldrb	r0, [r6]
	cbz	r0, .LBBce1f6_4
	cmp	r0, #2
	bne	.LBBce1f6_3
	ldr	r1, [r6, #8]
	mov	r0, sp
	bl	"end_objects::objects::ServerObject::nonces"
	b	.LBBce1f6_4
.LBBce1f6_3:
	ldr	r1, [r6, #8]
	mov	r0, sp
	bl	"end_objects::objects::PeerObject::nonces"
.LBBce1f6_4:
	ldrb.w	r0, [sp]
	movs	r2, #0
	add.w	r1, r5, #8
	str	r2, [r4, #4]
	str	r0, [r4]
	add.w	r0, r4, #8
	movs	r2, #80
	bl	__aeabi_memcpy
	add	sp, #88
	pop	{r4, r5, r6, pc}
.Lfunc_endce1f6:
	.size	"tuvaddri_c::held::Object::nonces", .Lfunc_endce1f6-"tuvaddri_c::held::Object::nonces"
	.cantunwind
	.fnend

	.section	".text.end_objects::objects::PeerObject::nonces","ax",%progbits
	.p2align	2
	.type	"end_objects::objects::PeerObject::nonces",%function
	.code	16
	.thumb_func
"end_objects::objects::PeerObject::nonces":
	.fnstart
	.save	{r4, r5, r6, r7, lr}
	push	{r4, r5, r6, r7, lr}
	.pad	#308
	sub	sp, #308
	add	r5, sp, #104
	mov	r6, r1
	mov	r4, r0
	mov	r0, r5
	movs	r1, #88
	bl	__aeabi_memclr8
	ldrb	r1, [r6]
	ldrb.w	r0, [r6, #664]
	cbz	r1, .LBB30a1e_7
	cmp	r0, #2
	bne	.LBB30a1e_5
	ldrb.w	r0, [r6, #1160]
	cmp	r0, #1
	bne	.LBB30a1e_5
	ldrb.w	r0, [r6, #1161]
	cmp	r0, #1
	bne	.LBB30a1e_5
	add.w	r7, r6, #672
	add.w	r1, r6, #632
	add	r6, sp, #244
	mov	r0, r6
	movs	r2, #32
	bl	__aeabi_memcpy
	add.w	r0, r6, #32
	mov	r1, r7
	movs	r2, #32
	bl	__aeabi_memcpy
	movs	r0, #1
	strb.w	r0, [sp]
	mov	r0, sp
	adds	r0, #1
	mov	r1, r6
	movs	r2, #64
	bl	__aeabi_memcpy
	b	.LBB30a1e_6
.LBB30a1e_5:
	mov	r0, sp
	movs	r1, #65
	bl	__aeabi_memclr4
.LBB30a1e_6:
	add	r0, sp, #104
	mov	r1, sp
	bl	"core::option::Option::map::<#4be8da1648848ded>"
	b	.LBB30a1e_13
.LBB30a1e_7:
	cmp	r0, #2
	bne	.LBB30a1e_11
	ldrb.w	r0, [r6, #1241]
	cmp	r0, #1
	bne	.LBB30a1e_11
	ldrb.w	r0, [r6, #1242]
	cmp	r0, #1
	bne	.LBB30a1e_11
	add.w	r1, r6, #632
	add	r0, sp, #228
	subs	r0, r0, r1
	mov.w	r2, #0
	sbc	r3, r2, #0
	rsbs.w	r0, r0, #15
	sbcs.w	r0, r2, r3
	ldr	r2, [r1]
	ldr	r3, [r1, #4]
	ldr	r7, [r1, #12]
	ldr	r1, [r1, #8]
	strd	r2, r3, [sp, #228]
	strd	r1, r7, [sp, #236]
	ldr	r3, [sp, #240]
	add	r7, sp, #228
	ldm	r7, {r1, r2, r7}
	addw	r0, r6, #665
	str	r3, [sp, #208]
	add	r3, sp, #196
	stm	r3!, {r1, r2, r7}
	ldr	r1, [r0]
	ldr	r2, [r0, #4]
	ldr	r3, [r0, #8]
	ldr	r0, [r0, #12]
	add.w	r12, sp, #212
	str	r0, [sp, #224]
	mov.w	r0, #1
	strb.w	r0, [sp, #68]
	add	r0, sp, #68
	stm.w	r12, {r1, r2, r3}
	add.w	r0, r0, #1
	add	r1, sp, #196
	mov.w	r2, #32
	bl	__aeabi_memcpy
	b	.LBB30a1e_12
.LBB30a1e_11:
	add	r0, sp, #68
	movs	r1, #33
	bl	__aeabi_memclr4
.LBB30a1e_12:
	add	r0, sp, #104
	add	r1, sp, #68
	bl	"core::option::Option::map::<#a461da79b7f3d327>"
.LBB30a1e_13:
	ldrb.w	r0, [sp, #104]
	movs	r2, #0
	add.w	r1, r5, #8
	str	r2, [r4, #4]
	str	r0, [r4]
	add.w	r0, r4, #8
	movs	r2, #80
	bl	__aeabi_memcpy
	add	sp, #308
	pop	{r4, r5, r6, r7, pc}
.Lfunc_end30a1e:
	.size	"end_objects::objects::PeerObject::nonces", .Lfunc_end30a1e-"end_objects::objects::PeerObject::nonces"
	.cantunwind
	.fnend

	.section	".text.core::option::Option::map::<#a461da79b7f3d327>","ax",%progbits
	.p2align	2
	.type	"core::option::Option::map::<#a461da79b7f3d327>",%function
	.code	16
	.thumb_func
"core::option::Option::map::<#a461da79b7f3d327>":
	.fnstart
	.save	{r4, r5, r6, r7, r8, r9, r10, r11, lr}
	push.w	{r4, r5, r6, r7, r8, r9, r10, r11, lr}
	.pad	#484
	sub	sp, #484
	mov	r7, r1
	mov	r10, r1
	ldrb	r4, [r7], #1
	mov	r11, r0
	add	r0, sp, #88
	movs	r1, #80
	bl	__aeabi_memclr8
	add	r0, sp, #8
	movs	r1, #80
	bl	__aeabi_memclr8
	cmp	r4, #1
	bne.w	.LBBc36e6_2
	add	r0, sp, #168
	movs	r1, #80
	bl	__aeabi_memclr8
	add	r0, sp, #360
	movs	r1, #80
	bl	__aeabi_memclr8
	add.w	r9, sp, #248
	mov	r0, r9
	movs	r1, #40
	bl	__aeabi_memclr8
	add	r0, sp, #328
	add.w	r8, sp, #440
	movs	r1, #0
	subs.w	r3, r8, r0
	sbc	r2, r1, #0
	rsbs.w	r3, r3, #15
	str	r1, [sp, #468]
	strd	r1, r1, [sp, #460]
	strd	r1, r1, [sp, #452]
	strd	r1, r1, [sp, #444]
	sbcs.w	r2, r1, r2
	str	r1, [sp, #440]
	ldr	r1, [r7]
	ldr	r2, [r7, #4]
	ldr	r3, [r7, #12]
	add	r0, sp, #440
	ldr	r7, [r7, #8]
	stm	r0!, {r1, r2, r7}
	mov.w	r2, #0
	mov.w	r1, #16
	str	r4, [sp, #4]
	str	r3, [sp, #452]
	str	r2, [sp, #476]
	str	r1, [sp, #472]
	mov	r3, r8
	add.w	lr, sp, #288
	ldm.w	r3!, {r4, r5, r6, r7, r12}
	mov	r1, lr
	stm.w	r1!, {r4, r5, r6, r7, r12}
	ldm.w	r3, {r0, r4, r5, r6, r7}
	add.w	r12, sp, #440
	stm	r1!, {r0, r4, r5, r6, r7}
	add	r0, sp, #328
	add.w	r0, r0, #16
	subs.w	r0, r8, r0
	sbc	r1, r2, #0
	rsbs.w	r0, r0, #15
	strd	r2, r2, [sp, #464]
	strd	r2, r2, [sp, #456]
	strd	r2, r2, [sp, #448]
	strd	r2, r2, [sp, #440]
	sbcs.w	r0, r2, r1
	add.w	r2, r10, #17
	ldr	r0, [r2]
	ldr	r1, [r2, #4]
	ldr	r3, [r2, #12]
	ldr	r2, [r2, #8]
	stm.w	r12, {r0, r1, r2, r3}
	mov.w	r0, #0
	str	r0, [sp, #476]
	mov.w	r0, #16
	str	r0, [sp, #472]
	ldr	r4, [sp, #4]
	ldm.w	r8!, {r1, r2, r3, r6, r7}
	mov	r0, r9
	stm	r0!, {r1, r2, r3, r6, r7}
	ldm.w	r8, {r1, r2, r3, r6, r7}
	stm	r0!, {r1, r2, r3, r6, r7}
	add	r1, sp, #360
	ldm.w	lr!, {r2, r3, r5, r6, r7}
	mov	r0, r1
	stm	r0!, {r2, r3, r5, r6, r7}
	ldm.w	lr, {r2, r3, r5, r6, r7}
	stm	r0!, {r2, r3, r5, r6, r7}
	ldm.w	r9!, {r2, r3, r5, r6, r7}
	add.w	r0, r1, #40
	stm	r0!, {r2, r3, r5, r6, r7}
	ldm.w	r9, {r2, r3, r5, r6, r7}
	stm	r0!, {r2, r3, r5, r6, r7}
	add	r6, sp, #168
	mov	r0, r6
	mov.w	r2, #80
	bl	__aeabi_memcpy8
	add	r5, sp, #8
	mov	r0, r5
	mov	r1, r6
	mov.w	r2, #80
	bl	__aeabi_memcpy8
	add	r0, sp, #88
	mov	r1, r5
	mov.w	r2, #80
	bl	__aeabi_memcpy8
.LBBc36e6_2:
	movs	r0, #0
	str.w	r0, [r11, #4]
	add.w	r0, r11, #8
	add	r1, sp, #88
	movs	r2, #80
	str.w	r4, [r11]
	bl	__aeabi_memcpy
	add	sp, #484
	pop.w	{r4, r5, r6, r7, r8, r9, r10, r11, pc}
.Lfunc_endc36e6:
	.size	"core::option::Option::map::<#a461da79b7f3d327>", .Lfunc_endc36e6-"core::option::Option::map::<#a461da79b7f3d327>"
	.cantunwind
	.fnend

	.section	".text.core::option::Option::map::<#4be8da1648848ded>","ax",%progbits
	.p2align	2
	.type	"core::option::Option::map::<#4be8da1648848ded>",%function
	.code	16
	.thumb_func
"core::option::Option::map::<#4be8da1648848ded>":
	.fnstart
	.save	{r4, r5, r6, r7, r8, r9, r10, r11, lr}
	push.w	{r4, r5, r6, r7, r8, r9, r10, r11, lr}
	.pad	#468
	sub	sp, #468
	mov	r7, r1
	mov	r9, r1
	ldrb	r8, [r7], #1
	mov	r11, r0
	add	r0, sp, #80
	movs	r1, #80
	bl	__aeabi_memclr8
	mov	r0, sp
	movs	r1, #80
	bl	__aeabi_memclr8
	cmp.w	r8, #1
	bne	.LBB777e8_2
	add	r0, sp, #160
	movs	r1, #80
	bl	__aeabi_memclr8
	add	r1, sp, #320
	add	r0, sp, #384
	subs	r0, r0, r1
	mov.w	r1, #0
	sbc	r2, r1, #0
	rsbs.w	r0, r0, #31
	sbcs.w	r0, r1, r2
	add	r0, sp, #384
	mov	r1, r7
	mov.w	r2, #32
	bl	__aeabi_memcpy
	mov.w	r12, #0
	mov.w	r1, #32
	add	r7, sp, #384
	str.w	r12, [sp, #420]
	str	r1, [sp, #416]
	mov	r2, r7
	add.w	r10, sp, #280
	ldm	r2!, {r0, r3, r4, r5, r6}
	mov	r1, r10
	stm	r1!, {r0, r3, r4, r5, r6}
	ldm.w	r2, {r0, r3, r4, r5, r6}
	mov.w	r2, #32
	stm	r1!, {r0, r3, r4, r5, r6}
	add	r0, sp, #320
	add.w	r0, r0, #32
	subs	r0, r7, r0
	sbc	r1, r12, #0
	rsbs.w	r0, r0, #31
	sbcs.w	r0, r12, r1
	add.w	r1, r9, #33
	add	r0, sp, #384
	bl	__aeabi_memcpy
	mov.w	r0, #0
	str	r0, [sp, #420]
	mov.w	r0, #32
	add	r1, sp, #384
	str	r0, [sp, #416]
	mov	r2, r1
	add.w	r12, sp, #240
	ldm	r2!, {r3, r4, r5, r6, r7}
	mov	r0, r12
	stm	r0!, {r3, r4, r5, r6, r7}
	ldm.w	r2, {r3, r4, r5, r6, r7}
	stm	r0!, {r3, r4, r5, r6, r7}
	ldm.w	r10!, {r2, r3, r5, r6, r7}
	mov	r0, r1
	stm	r0!, {r2, r3, r5, r6, r7}
	ldm.w	r10, {r2, r3, r5, r6, r7}
	stm	r0!, {r2, r3, r5, r6, r7}
	ldm.w	r12!, {r2, r3, r5, r6, r7}
	add.w	r0, r1, #40
	stm	r0!, {r2, r3, r5, r6, r7}
	ldm.w	r12, {r2, r3, r5, r6, r7}
	stm	r0!, {r2, r3, r5, r6, r7}
	add	r6, sp, #160
	mov	r0, r6
	mov.w	r2, #80
	bl	__aeabi_memcpy8
	mov	r5, sp
	mov	r0, r5
	mov	r1, r6
	mov.w	r2, #80
	bl	__aeabi_memcpy8
	add	r0, sp, #80
	mov	r1, r5
	mov.w	r2, #80
	bl	__aeabi_memcpy8
.LBB777e8_2:
	movs	r0, #0
	str.w	r0, [r11, #4]
	add.w	r0, r11, #8
	add	r1, sp, #80
	movs	r2, #80
	str.w	r8, [r11]
	bl	__aeabi_memcpy
	add	sp, #468
	pop.w	{r4, r5, r6, r7, r8, r9, r10, r11, pc}
.Lfunc_end777e8:
	.size	"core::option::Option::map::<#4be8da1648848ded>", .Lfunc_end777e8-"core::option::Option::map::<#4be8da1648848ded>"
	.cantunwind
	.fnend

	.section	".text.end_objects::objects::ServerObject::nonces","ax",%progbits
	.p2align	2
	.type	"end_objects::objects::ServerObject::nonces",%function
	.code	16
	.thumb_func
"end_objects::objects::ServerObject::nonces":
	.fnstart
	.save	{r4, r5, r6, r7, lr}
	push	{r4, r5, r6, r7, lr}
	.pad	#340
	sub	sp, #340
	add	r5, sp, #104
	mov	r6, r1
	mov	r4, r0
	mov	r0, r5
	movs	r1, #88
	bl	__aeabi_memclr8
	ldrb	r0, [r6]
	cbz	r0, .LBB6a24a_7
	ldrb.w	r0, [r6, #320]
	cmp	r0, #2
	bne	.LBB6a24a_5
	ldrb.w	r0, [r6, #1152]
	cmp	r0, #2
	bne	.LBB6a24a_5
	ldrb.w	r0, [r6, #1153]
	cmp	r0, #1
	bne	.LBB6a24a_5
	add	r7, sp, #276
	add.w	r1, r6, #664
	mov	r0, r7
	movs	r2, #32
	bl	__aeabi_memcpy
	add.w	r1, r6, #288
	add.w	r0, r7, #32
	movs	r2, #32
	bl	__aeabi_memcpy
	movs	r0, #1
	strb.w	r0, [sp, #4]
	add	r0, sp, #4
	adds	r0, #1
	mov	r1, r7
	movs	r2, #64
	bl	__aeabi_memcpy
	b	.LBB6a24a_6
.LBB6a24a_5:
	add	r0, sp, #4
	movs	r1, #65
	bl	__aeabi_memclr4
.LBB6a24a_6:
	add	r0, sp, #104
	add	r1, sp, #4
	bl	"core::option::Option::map::<#4be8da1648848ded>"
	b	.LBB6a24a_13
.LBB6a24a_7:
	ldrb	r1, [r6, #8]
	movs	r0, #0
	cmp	r1, #2
	strd	r0, r0, [sp, #220]
	strd	r0, r0, [sp, #212]
	strd	r0, r0, [sp, #204]
	str	r0, [sp, #200]
	str	r0, [sp, #196]
	bne	.LBB6a24a_12
	ldrb.w	r0, [r6, #1248]
	cmp	r0, #1
	bne	.LBB6a24a_11
	ldrb.w	r0, [r6, #1249]
	cmp	r0, #1
	mov.w	r0, #0
	bne	.LBB6a24a_12
	add.w	r1, r6, #296
	add	r2, sp, #260
	subs	r2, r2, r1
	sbc	r3, r0, #0
	rsbs.w	r2, r2, #15
	sbcs	r0, r3
	ldr	r0, [r1]
	ldr	r2, [r1, #4]
	ldr	r3, [r1, #12]
	ldr	r1, [r1, #8]
	strd	r0, r2, [sp, #260]
	strd	r1, r3, [sp, #268]
	ldr	r2, [sp, #272]
	add	r3, sp, #260
	ldm	r3, {r0, r1, r3}
	str	r2, [sp, #256]
	add	r2, sp, #244
	stm	r2!, {r0, r1, r3}
	ldr.w	r0, [r6, #664]
	add.w	r12, sp, #228
	ldr.w	r1, [r6, #668]
	ldr.w	r2, [r6, #672]
	ldr.w	r3, [r6, #676]
	stm.w	r12, {r0, r1, r2, r3}
	add	r0, sp, #228
	ldm	r0!, {r2, r3, r6, r7}
	add	r1, sp, #196
	stm	r1!, {r2, r3, r6, r7}
	ldm.w	r0, {r2, r3, r6, r7}
	mov.w	r0, #1
	stm	r1!, {r2, r3, r6, r7}
	b	.LBB6a24a_12
.LBB6a24a_11:
	movs	r0, #0
.LBB6a24a_12:
	add.w	r6, sp, #71
	strb.w	r0, [sp, #71]
	adds	r0, r6, #1
	add	r1, sp, #196
	movs	r2, #32
	bl	__aeabi_memcpy
	add	r0, sp, #104
	mov	r1, r6
	bl	"core::option::Option::map::<#a461da79b7f3d327>"
.LBB6a24a_13:
	ldrb.w	r0, [sp, #104]
	movs	r2, #0
	add.w	r1, r5, #8
	str	r2, [r4, #4]
	str	r0, [r4]
	add.w	r0, r4, #8
	movs	r2, #80
	bl	__aeabi_memcpy
	add	sp, #340
	pop	{r4, r5, r6, r7, pc}
.Lfunc_end6a24a:
	.size	"end_objects::objects::ServerObject::nonces", .Lfunc_end6a24a-"end_objects::objects::ServerObject::nonces"
	.cantunwind
	.fnend

	.section	".text.tuvaddri_c::psk::psk_id","ax",%progbits
	.p2align	2
	.type	"tuvaddri_c::psk::psk_id",%function
	.code	16
	.thumb_func
"tuvaddri_c::psk::psk_id":
	.fnstart
	.save	{r4, r5, r6, r7, r8, r9, r10, r11, lr}
	push.w	{r4, r5, r6, r7, r8, r9, r10, r11, lr}
	.pad	#220
	sub	sp, #220
	add.w	r8, sp, #72
	mov	r9, r1
	mov	r10, r0
	mov	r0, r8
	movs	r1, #48
	bl	__aeabi_memclr8
	ldrd	r5, r6, [r9, #32]
	ldrd	r7, r3, [r9, #72]
	movs	r2, #0
	adds	r0, r7, r5
	adc.w	r1, r3, r6
	rsbs.w	r0, r0, #32
	sbcs.w	r0, r2, r1
	mov.w	r0, #0
	blo	.LBB0b216_2
	add.w	r0, r9, #40
	add.w	r11, sp, #168
	str	r0, [sp, #20]
	mov	r0, r11
	movs	r1, #48
	add	r2, sp, #4
	str	r3, [sp, #16]
	stm	r2!, {r5, r6, r7}
	bl	__aeabi_memclr8
	movw	r1, :lower16:.Lstatic.1
	movt	r1, :upper16:.Lstatic.1
	mov	r0, r11
	movs	r2, #1
	movs	r3, #0
	bl	"octet_lists::octets::Octets::put::<=33>"
	add	r0, sp, #24
	ldm.w	r11!, {r2, r3, r4, r5, r6, r7}
	mov	r1, r0
	stm	r1!, {r2, r3, r4, r5, r6, r7}
	ldm.w	r11, {r2, r3, r4, r5, r6, r7}
	add.w	r11, sp, #120
	stm	r1!, {r2, r3, r4, r5, r6, r7}
	ldm	r0!, {r2, r3, r4, r5, r6, r7}
	mov	r1, r11
	stm	r1!, {r2, r3, r4, r5, r6, r7}
	ldm.w	r0, {r2, r3, r4, r5, r6, r7}
	mov	r0, r11
	stm	r1!, {r2, r3, r4, r5, r6, r7}
	ldrd	r2, r3, [sp, #4]
	mov	r1, r9
	bl	"octet_lists::octets::Octets::put::<=33>"
	ldr	r1, [sp, #20]
	ldrd	r2, r3, [sp, #12]
	mov	r0, r11
	bl	"octet_lists::octets::Octets::put::<=33>"
	ldm.w	r11!, {r0, r1, r2, r3, r6, r7}
	stm.w	r8!, {r0, r1, r2, r3, r6, r7}
	ldm.w	r11, {r0, r1, r2, r3, r6, r7}
	stm.w	r8, {r0, r1, r2, r3, r6, r7}
	movs	r0, #1
	movs	r2, #0
.LBB0b216_2:
	str.w	r2, [r10, #4]
	str.w	r0, [r10]
	add.w	r0, r10, #8
	add	r1, sp, #72
	movs	r2, #48
	bl	__aeabi_memcpy
	add	sp, #220
	pop.w	{r4, r5, r6, r7, r8, r9, r10, r11, pc}
.Lfunc_end0b216:
	.size	"tuvaddri_c::psk::psk_id", .Lfunc_end0b216-"tuvaddri_c::psk::psk_id"
	.cantunwind
	.fnend

	.section	".text.octet_lists::octets::Octets::put::<=33>","ax",%progbits
	.p2align	2
	.type	"octet_lists::octets::Octets::put::<=33>",%function
	.code	16
	.thumb_func
"octet_lists::octets::Octets::put::<=33>":
	.fnstart
	.save	{r4, r5, r6, r7, r8, r9, r10, r11, lr}
	push.w	{r4, r5, r6, r7, r8, r9, r10, r11, lr}
	.pad	#4
	sub	sp, #4
	ldrd	r9, r8, [r0, #40]
	movs	r7, #0
	rsbs.w	r5, r9, #33
	sbc.w	r4, r7, r8
	subs	r5, r5, r2
	sbcs.w	r5, r4, r3
	blo	.LBBcd38d_12
	add.w	r12, r0, r9
	subs.w	r5, r12, r1
	sbc	r7, r7, #0
	subs	r5, r5, r2
	sbcs	r7, r3
	bhs	.LBBcd38d_4
	subs	r7, r2, #4
	sbcs	r7, r3, #0
	and	r5, r2, #3
	bhs	.LBBcd38d_5
	movs	r4, #0
	b	.LBBcd38d_8
.LBBcd38d_4:
	mov	r5, r0
	mov	r0, r12
	mov	r4, r2
	mov	r7, r3
	bl	__aeabi_memmove
	mov	r2, r4
	mov	r0, r5
	mov	r3, r7
	b	.LBBcd38d_11
.LBBcd38d_5:
	str	r5, [sp]
	bic	r10, r2, #3
	movs	r4, #0
	movs	r5, #0
	.p2align	2
.LBBcd38d_6:
	ldrb	r6, [r1, r4]
	strb.w	r6, [r12, r4]
	orr	r6, r4, #1
	ldrb	r7, [r1, r6]
	strb.w	r7, [r12, r6]
	orr	r6, r4, #2
	ldrb	r7, [r1, r6]
	strb.w	r7, [r12, r6]
	orr	r6, r4, #3
	adds	r4, #4
	adc	r5, r5, #0
	ldrb.w	r11, [r1, r6]
	eor.w	r7, r4, r10
	eor.w	lr, r5, r3
	orrs.w	r7, r7, lr
	strb.w	r11, [r12, r6]
	bne	.LBBcd38d_6
	ldr	r5, [sp]
	cbz	r5, .LBBcd38d_11
.LBBcd38d_8:
	ldrb	r7, [r1, r4]
	cmp	r5, #1
	strb.w	r7, [r12, r4]
	beq	.LBBcd38d_11
	adds	r7, r4, #1
	ldrb	r6, [r1, r7]
	cmp	r5, #2
	strb.w	r6, [r12, r7]
	beq	.LBBcd38d_11
	adds	r7, r4, #2
	ldrb	r1, [r1, r7]
	strb.w	r1, [r12, r7]
.LBBcd38d_11:
	adds.w	r1, r9, r2
	adc.w	r2, r8, r3
	strd	r1, r2, [r0, #40]
.LBBcd38d_12:
	add	sp, #4
	pop.w	{r4, r5, r6, r7, r8, r9, r10, r11, pc}
.Lfunc_endcd38d:
	.size	"octet_lists::octets::Octets::put::<=33>", .Lfunc_endcd38d-"octet_lists::octets::Octets::put::<=33>"
	.cantunwind
	.fnend

	.section	".text.tuvaddri_c::gpsk::gpsk_id","ax",%progbits
	.p2align	2
	.type	"tuvaddri_c::gpsk::gpsk_id",%function
	.code	16
	.thumb_func
"tuvaddri_c::gpsk::gpsk_id":
	.fnstart
	.save	{r4, r5, r6, r7, r8, r9, r10, lr}
	push.w	{r4, r5, r6, r7, r8, r9, r10, lr}
	.pad	#1040
	sub.w	sp, sp, #1040
	mov	r5, r1
	lsls	r3, r5, #24
	movw	r6, :lower16:.Lstatic.38
	ldr.w	r1, [sp, #1084]
	mov.w	r3, #2
	movt	r6, :upper16:.Lstatic.38
	it	eq
	moveq	r3, #1
	str	r6, [sp, #40]
	movs	r6, #9
	mov	r8, r0
	ldr.w	r0, [sp, #1080]
	strb.w	r3, [sp, #405]
	ldrd	r3, r7, [r1, #32]
	str	r6, [sp, #48]
	movs	r6, #1
	str	r6, [sp, #64]
	add	r6, sp, #400
	str	r6, [sp, #72]
	movs	r6, #6
	strd	r3, r7, [sp, #96]
	ldrd	r7, r4, [r0, #264]
	str	r6, [sp, #80]
	add.w	r6, r0, #8
	str	r6, [sp, #104]
	str	r4, [sp, #116]
	add.w	r6, r1, #40
	str	r1, [sp, #88]
	ldrd	r1, r4, [r1, #72]
	str	r6, [sp, #120]
	add.w	r6, r0, #272
	str	r1, [sp, #128]
	ldrd	r0, r1, [r0, #528]
	ldr.w	r3, [sp, #1072]
	str	r7, [sp, #112]
	ldr.w	r7, [sp, #1076]
	str	r4, [sp, #132]
	movw	r10, :lower16:.Lstatic.2
	add	r4, sp, #408
	str	r6, [sp, #136]
	str	r1, [sp, #148]
	movs	r6, #0
	str	r0, [sp, #144]
	movt	r10, :upper16:.Lstatic.2
	mov	r0, r4
	mov	r1, r5
	mov.w	r9, #2
	strb.w	r6, [sp, #404]
	str	r6, [sp, #400]
	str	r6, [sp, #44]
	str	r6, [sp, #52]
	strd	r10, r6, [sp, #56]
	str	r6, [sp, #68]
	str	r6, [sp, #76]
	str	r6, [sp, #84]
	str	r6, [sp, #92]
	str	r6, [sp, #108]
	str	r6, [sp, #124]
	str	r6, [sp, #140]
	strd	r3, r7, [sp]
	bl	"login_keys::gpsk::mac_key::MacKey::new"
	ldrb.w	r0, [sp, #408]
	add	r7, sp, #824
	strb.w	r0, [sp, #824]
	adds	r0, r7, #1
	adds	r1, r4, #1
	movs	r2, #215
	bl	__aeabi_memcpy
	add	r4, sp, #624
	mov	r0, r4
	movs	r1, #200
	bl	__aeabi_memclr8
	movs	r0, #7
	strd	r0, r6, [sp, #24]
	add.w	r0, sp, #406
	add	r1, sp, #40
	strd	r7, r0, [sp]
	mov	r0, r5
	movs	r2, #16
	movs	r3, #0
	strh.w	r6, [sp, #406]
	str	r4, [sp, #32]
	strd	r9, r6, [sp, #8]
	str	r1, [sp, #16]
	bl	"login_keys::gpsk::derivation::derive"
	add.w	r9, sp, #200
	mov	r0, r9
	mov	r1, r4
	movs	r2, #200
	bl	__aeabi_memcpy8
	mov	r0, r7
	movs	r1, #48
	bl	__aeabi_memclr8
	mov	r0, r7
	mov	r1, r10
	movs	r2, #1
	movs	r3, #0
	bl	"octet_lists::octets::Octets::put::<=33>"
	add.w	r10, sp, #152
	ldm	r7!, {r1, r2, r3, r4, r5, r6}
	mov	r0, r10
	stm	r0!, {r1, r2, r3, r4, r5, r6}
	ldm.w	r7, {r1, r2, r3, r4, r5, r6}
	stm	r0!, {r1, r2, r3, r4, r5, r6}
	ldrd	r2, r3, [sp, #392]
	mov	r0, r10
	mov	r1, r9
	bl	"octet_lists::octets::Octets::put::<=33>"
	mov	r0, r8
	mov	r1, r10
	movs	r2, #48
	bl	__aeabi_memcpy
	add.w	sp, sp, #1040
	pop.w	{r4, r5, r6, r7, r8, r9, r10, pc}
.Lfunc_end9e343:
	.size	"tuvaddri_c::gpsk::gpsk_id", .Lfunc_end9e343-"tuvaddri_c::gpsk::gpsk_id"
	.cantunwind
	.fnend

	.section	".text.tuvaddri_c::session_id::write","ax",%progbits
	.p2align	2
	.type	"tuvaddri_c::session_id::write",%function
	.code	16
	.thumb_func
"tuvaddri_c::session_id::write":
	.fnstart
	.save	{r4, r5, r6, r7, r8, r9, lr}
	push.w	{r4, r5, r6, r7, r8, r9, lr}
	.pad	#4
	sub	sp, #4
	ldrb	r2, [r0]
	movs	r5, #0
	cbz	r2, .LBBf9ed6_4
	mov	r9, r1
	add.w	r2, r0, #8
	ldrd	r8, r1, [r0, #48]
	subs.w	r0, r9, r2
	sbc	r5, r5, #0
	subs.w	r0, r0, r8
	sbcs.w	r0, r5, r1
	bhs	.LBBf9ed6_5
	subs.w	r0, r8, #4
	sbcs	r0, r1, #0
	and	r12, r8, #3
	bhs	.LBBf9ed6_6
	movs	r0, #0
	b	.LBBf9ed6_9
.LBBf9ed6_4:
	mov.w	r8, #0
	movs	r1, #0
	b	.LBBf9ed6_12
.LBBf9ed6_5:
	mov	r0, r9
	mov	r4, r1
	mov	r1, r2
	mov	r2, r8
	bl	__aeabi_memmove
	mov	r1, r4
	b	.LBBf9ed6_12
.LBBf9ed6_6:
	bic	lr, r8, #3
	movs	r0, #0
	movs	r5, #0
	.p2align	2
.LBBf9ed6_7:
	ldrb	r6, [r2, r0]
	strb.w	r6, [r9, r0]
	orr	r6, r0, #1
	ldrb	r7, [r2, r6]
	strb.w	r7, [r9, r6]
	orr	r7, r0, #2
	ldrb	r6, [r2, r7]
	strb.w	r6, [r9, r7]
	orr	r7, r0, #3
	adds	r0, #4
	adc	r5, r5, #0
	ldrb	r6, [r2, r7]
	eor.w	r4, r0, lr
	eor.w	r3, r5, r1
	orrs	r3, r4
	strb.w	r6, [r9, r7]
	bne	.LBBf9ed6_7
	cmp.w	r12, #0
	beq	.LBBf9ed6_12
.LBBf9ed6_9:
	ldrb	r3, [r2, r0]
	cmp.w	r12, #1
	strb.w	r3, [r9, r0]
	beq	.LBBf9ed6_12
	adds	r3, r0, #1
	ldrb	r7, [r2, r3]
	cmp.w	r12, #2
	strb.w	r7, [r9, r3]
	beq	.LBBf9ed6_12
	adds	r0, #2
	ldrb	r2, [r2, r0]
	strb.w	r2, [r9, r0]
.LBBf9ed6_12:
	mov	r0, r8
	add	sp, #4
	pop.w	{r4, r5, r6, r7, r8, r9, pc}
.Lfunc_endf9ed6:
	.size	"tuvaddri_c::session_id::write", .Lfunc_endf9ed6-"tuvaddri_c::session_id::write"
	.cantunwind
	.fnend

	.section	".text.tuvaddri_c::gpsk::key_in","ax",%progbits
	.p2align	2
	.type	"tuvaddri_c::gpsk::key_in",%function
	.code	16
	.thumb_func
"tuvaddri_c::gpsk::key_in":
	.fnstart
	.save	{r4, r5, r6, r7, r8, r9, lr}
	push.w	{r4, r5, r6, r7, r8, r9, lr}
	.pad	#228
	sub	sp, #228
	mov	r5, r2
	ldrd	r2, r3, [sp, #256]
	mov	r4, r0
	movs	r7, #51
	mov	r0, r1
	mov	r1, r5
	str	r7, [sp]
	bl	"login_setup::users::UserList::find::<=2>"
	mov	r5, r1
	uxtb	r7, r0
	add	r0, sp, #80
	movs	r1, #72
	bl	__aeabi_memclr8
	cmp	r7, #1
	bne	.LBB24351_2
	add.w	r8, sp, #152
	ldrd	r6, r9, [r5, #336]
	mov	r0, r8
	movs	r1, #72
	add.w	r5, r5, #272
	bl	__aeabi_memclr8
	mov	r0, r8
	mov	r1, r5
	mov	r2, r6
	mov	r3, r9
	bl	"octet_lists::octets::Octets::append::<=64>"
	add	r0, sp, #80
	mov	r1, r8
	movs	r2, #72
	bl	__aeabi_memcpy8
.LBB24351_2:
	add	r5, sp, #8
	add	r1, sp, #80
	mov	r0, r5
	movs	r2, #72
	bl	__aeabi_memcpy8
	movs	r0, #0
	str	r0, [r4, #4]
	add.w	r0, r4, #8
	mov	r1, r5
	movs	r2, #72
	str	r7, [r4]
	bl	__aeabi_memcpy
	add	sp, #228
	pop.w	{r4, r5, r6, r7, r8, r9, pc}
.Lfunc_end24351:
	.size	"tuvaddri_c::gpsk::key_in", .Lfunc_end24351-"tuvaddri_c::gpsk::key_in"
	.cantunwind
	.fnend

	.section	".text.tuvaddri_c::report::report_peer","ax",%progbits
	.p2align	2
	.type	"tuvaddri_c::report::report_peer",%function
	.code	16
	.thumb_func
"tuvaddri_c::report::report_peer":
	.fnstart
	.save	{r4, r5, r6, r7, r8, r9, r10, lr}
	push.w	{r4, r5, r6, r7, r8, r9, r10, lr}
	.pad	#1560
	sub.w	sp, sp, #1560
	add	r4, sp, #880
	mov	r8, r1
	mov	r5, r0
	mov	r0, r4
	mov.w	r1, #680
	bl	__aeabi_memclr8
	add.w	r9, sp, #200
	mov	r0, r9
	mov.w	r1, #680
	bl	__aeabi_memclr8
	add	r7, sp, #112
	mov	r0, r7
	movs	r1, #88
	bl	__aeabi_memclr8
	add	r6, sp, #24
	mov	r0, r6
	movs	r1, #88
	bl	__aeabi_memclr8
	ldrb	r1, [r5]
	movs	r0, #0
.LCPI01589_0:
	tbb	[pc, r1]
.LJTI01589_0:
	.byte	(.LBB01589_2-(.LCPI01589_0+4))/2
	.byte	(.LBB01589_4-(.LCPI01589_0+4))/2
	.byte	(.LBB01589_2-(.LCPI01589_0+4))/2
	.byte	(.LBB01589_3-(.LCPI01589_0+4))/2
	.byte	(.LBB01589_2-(.LCPI01589_0+4))/2
	.byte	(.LBB01589_2-(.LCPI01589_0+4))/2
	.byte	(.LBB01589_2-(.LCPI01589_0+4))/2
	.byte	(.LBB01589_5-(.LCPI01589_0+4))/2
	.byte	(.LBB01589_2-(.LCPI01589_0+4))/2
	.p2align	1
.LBB01589_2:
	add.w	sp, sp, #1560
	pop.w	{r4, r5, r6, r7, r8, r9, r10, pc}
.LBB01589_3:
	add.w	r1, r5, #8
	mov	r0, sp
	bl	"peer_machine::machine::PeerMachine::selected::<#807681be332d694b>"
	ldr	r5, [sp, #8]
	ldrb.w	r0, [sp]
	lsls	r0, r0, #24
	bne	.LBB01589_6
	b	.LBB01589_7
.LBB01589_4:
	adds	r5, #8
	b	.LBB01589_6
.LBB01589_5:
	add.w	r1, r5, #40
	add	r0, sp, #12
	bl	"peer_machine::machine::PeerMachine::selected::<#807681be332d694b>"
	ldr	r5, [sp, #20]
	ldrb.w	r0, [sp, #12]
	lsls	r0, r0, #24
	beq	.LBB01589_7
.LBB01589_6:
	mov	r0, r4
	mov	r1, r5
	bl	"end_objects::objects::PeerObjectPeerMethod::report"
	ldrb.w	r0, [sp, #880]
	mov.w	r10, #0
	strd	r0, r10, [sp, #200]
	add.w	r0, r9, #8
	add.w	r1, r4, #8
	mov.w	r2, #672
	bl	__aeabi_memcpy8
	mov	r0, r7
	mov	r1, r5
	bl	"end_objects::objects::PeerObject::nonces"
	ldrb.w	r0, [sp, #112]
	add.w	r1, r7, #8
	strd	r0, r10, [sp, #24]
	add.w	r0, r6, #8
	movs	r2, #80
	bl	__aeabi_memcpy8
	mov	r0, r9
	mov	r1, r6
	mov	r2, r8
	bl	"tuvaddri_c::report::write_end_report"
	add.w	sp, sp, #1560
	pop.w	{r4, r5, r6, r7, r8, r9, r10, pc}
.LBB01589_7:
	movs	r0, #0
	add.w	sp, sp, #1560
	pop.w	{r4, r5, r6, r7, r8, r9, r10, pc}
.Lfunc_end01589:
	.size	"tuvaddri_c::report::report_peer", .Lfunc_end01589-"tuvaddri_c::report::report_peer"
	.cantunwind
	.fnend

	.section	".text.tuvaddri_c::report::write_end_report","ax",%progbits
	.p2align	2
	.type	"tuvaddri_c::report::write_end_report",%function
	.code	16
	.thumb_func
"tuvaddri_c::report::write_end_report":
	.fnstart
	.save	{r4, r5, r6, r7, r8, r9, r10, r11, lr}
	push.w	{r4, r5, r6, r7, r8, r9, r10, r11, lr}
	.pad	#12
	sub	sp, #12
	mov	r11, r0
	ldrb	r0, [r0]
	cbz	r0, .LBB4c146_5
	ldrb	r0, [r1]
	mov	r9, r2
	mov	r4, r1
	cmp	r0, #0
	mov.w	r2, #0
	beq.w	.LBB4c146_44
	ldrb.w	r0, [r11, #8]
	add.w	r1, r11, #16
	strb.w	r0, [r9, #8]
	ldrb.w	r0, [r11, #544]
	strb.w	r0, [r9, #9]
	ldrd	r10, lr, [r11, #272]
	add.w	r0, r9, #12
	subs	r3, r0, r1
	sbc	r2, r2, #0
	subs.w	r3, r3, r10
	sbcs.w	r2, r2, lr
	bhs	.LBB4c146_6
	subs.w	r2, r10, #4
	sbcs	r2, lr, #0
	and	r8, r10, #3
	bhs	.LBB4c146_7
	movs	r3, #0
	b	.LBB4c146_10
.LBB4c146_5:
	movs	r2, #0
	b	.LBB4c146_44
.LBB4c146_6:
	mov	r2, r10
	bl	__aeabi_memmove
	b	.LBB4c146_13
.LBB4c146_7:
	str	r4, [sp, #8]
	bic	r2, r10, #3
	movs	r3, #0
	movs	r4, #0
	.p2align	2
.LBB4c146_8:
	ldrb	r5, [r1, r3]
	strb	r5, [r0, r3]
	orr	r5, r3, #1
	ldrb	r6, [r1, r5]
	strb	r6, [r0, r5]
	orr	r6, r3, #2
	ldrb	r5, [r1, r6]
	strb	r5, [r0, r6]
	orr	r6, r3, #3
	adds	r3, #4
	adc	r4, r4, #0
	ldrb	r5, [r1, r6]
	eor.w	r7, r3, r2
	eor.w	r12, r4, lr
	orrs.w	r7, r7, r12
	strb	r5, [r0, r6]
	bne	.LBB4c146_8
	ldr	r4, [sp, #8]
	cmp.w	r8, #0
	beq	.LBB4c146_13
.LBB4c146_10:
	ldrb	r2, [r1, r3]
	cmp.w	r8, #1
	strb	r2, [r0, r3]
	beq	.LBB4c146_13
	adds	r2, r3, #1
	ldrb	r7, [r1, r2]
	cmp.w	r8, #2
	strb	r7, [r0, r2]
	beq	.LBB4c146_13
	adds	r2, r3, #2
	ldrb	r1, [r1, r2]
	strb	r1, [r0, r2]
.LBB4c146_13:
	strb.w	r10, [r9, #10]
	add.w	r1, r11, #280
	ldrd	r10, lr, [r11, #536]
	addw	r0, r9, #265
	subs	r3, r0, r1
	mov.w	r7, #0
	sbc	r7, r7, #0
	subs.w	r3, r3, r10
	sbcs.w	r3, r7, lr
	add.w	r8, r4, #8
	bhs	.LBB4c146_16
	subs.w	r3, r10, #4
	sbcs	r3, lr, #0
	and	r6, r10, #3
	bhs	.LBB4c146_17
	movs	r3, #0
	b	.LBB4c146_20
.LBB4c146_16:
	mov	r2, r10
	bl	__aeabi_memmove
	b	.LBB4c146_23
.LBB4c146_17:
	strd	r6, r4, [sp, #4]
	bic	r4, r10, #3
	movs	r3, #0
	movs	r5, #0
	.p2align	2
.LBB4c146_18:
	ldrb	r6, [r1, r3]
	strb	r6, [r0, r3]
	orr	r6, r3, #1
	ldrb	r7, [r1, r6]
	strb	r7, [r0, r6]
	orr	r7, r3, #2
	ldrb	r6, [r1, r7]
	strb	r6, [r0, r7]
	orr	r7, r3, #3
	adds	r3, #4
	adc	r5, r5, #0
	ldrb	r6, [r1, r7]
	eor.w	r2, r3, r4
	eor.w	r12, r5, lr
	orrs.w	r2, r2, r12
	strb	r6, [r0, r7]
	bne	.LBB4c146_18
	ldr	r6, [sp, #4]
	ldr	r4, [sp, #8]
	cbz	r6, .LBB4c146_23
.LBB4c146_20:
	ldrb	r2, [r1, r3]
	cmp	r6, #1
	strb	r2, [r0, r3]
	beq	.LBB4c146_23
	adds	r2, r3, #1
	ldrb	r7, [r1, r2]
	cmp	r6, #2
	strb	r7, [r0, r2]
	beq	.LBB4c146_23
	adds	r2, r3, #2
	ldrb	r1, [r1, r2]
	strb	r1, [r0, r2]
.LBB4c146_23:
	addw	r1, r11, #545
	addw	r0, r9, #518
	movs	r2, #64
	strb.w	r10, [r9, #11]
	bl	__aeabi_memmove
	addw	r1, r11, #609
	addw	r0, r9, #582
	movs	r2, #64
	bl	__aeabi_memmove
	ldrd	r10, lr, [r4, #40]
	addw	r0, r9, #647
	subs.w	r1, r0, r8
	mov.w	r2, #0
	sbc	r2, r2, #0
	subs.w	r1, r1, r10
	sbcs.w	r1, r2, lr
	bhs	.LBB4c146_26
	subs.w	r1, r10, #4
	sbcs	r1, lr, #0
	and	r12, r10, #3
	bhs	.LBB4c146_27
	movs	r2, #0
	b	.LBB4c146_30
.LBB4c146_26:
	mov	r1, r8
	mov	r2, r10
	bl	__aeabi_memmove
	b	.LBB4c146_33
.LBB4c146_27:
	mov	r11, r4
	bic	r6, r10, #3
	movs	r2, #0
	movs	r4, #0
	.p2align	2
.LBB4c146_28:
	ldrb.w	r7, [r8, r2]
	strb	r7, [r0, r2]
	orr	r7, r2, #1
	ldrb.w	r1, [r8, r7]
	strb	r1, [r0, r7]
	orr	r1, r2, #2
	ldrb.w	r7, [r8, r1]
	strb	r7, [r0, r1]
	orr	r1, r2, #3
	adds	r2, #4
	adc	r4, r4, #0
	ldrb.w	r7, [r8, r1]
	eor.w	r5, r2, r6
	eor.w	r3, r4, lr
	orrs	r3, r5
	strb	r7, [r0, r1]
	bne	.LBB4c146_28
	cmp.w	r12, #0
	mov	r4, r11
	beq	.LBB4c146_33
.LBB4c146_30:
	ldrb.w	r1, [r8, r2]
	cmp.w	r12, #1
	strb	r1, [r0, r2]
	beq	.LBB4c146_33
	adds	r1, r2, #1
	ldrb.w	r3, [r8, r1]
	cmp.w	r12, #2
	strb	r3, [r0, r1]
	beq	.LBB4c146_33
	adds	r1, r2, #2
	ldrb.w	r2, [r8, r1]
	strb	r2, [r0, r1]
.LBB4c146_33:
	strb.w	r10, [r9, #646]
	add.w	r1, r4, #48
	ldrd	r2, lr, [r4, #80]
	addw	r0, r9, #679
	subs	r3, r0, r1
	mov.w	r6, #0
	sbc	r6, r6, #0
	subs	r3, r3, r2
	sbcs.w	r3, r6, lr
	bhs	.LBB4c146_36
	subs	r3, r2, #4
	sbcs	r3, lr, #0
	and	r12, r2, #3
	bhs	.LBB4c146_37
	movs	r2, #0
	b	.LBB4c146_40
.LBB4c146_36:
	bl	__aeabi_memmove
	b	.LBB4c146_43
.LBB4c146_37:
	bic	r8, r2, #3
	movs	r2, #0
	movs	r5, #0
	.p2align	2
.LBB4c146_38:
	ldrb	r4, [r1, r2]
	strb	r4, [r0, r2]
	orr	r4, r2, #1
	ldrb	r3, [r1, r4]
	strb	r3, [r0, r4]
	orr	r3, r2, #2
	ldrb	r4, [r1, r3]
	strb	r4, [r0, r3]
	orr	r3, r2, #3
	adds	r2, #4
	adc	r5, r5, #0
	ldrb	r4, [r1, r3]
	eor.w	r7, r2, r8
	eor.w	r6, r5, lr
	orrs	r6, r7
	strb	r4, [r0, r3]
	bne	.LBB4c146_38
	cmp.w	r12, #0
	beq	.LBB4c146_43
.LBB4c146_40:
	ldrb	r3, [r1, r2]
	cmp.w	r12, #1
	strb	r3, [r0, r2]
	beq	.LBB4c146_43
	adds	r3, r2, #1
	ldrb	r7, [r1, r3]
	cmp.w	r12, #2
	strb	r7, [r0, r3]
	beq	.LBB4c146_43
	adds	r2, #2
	ldrb	r1, [r1, r2]
	strb	r1, [r0, r2]
.LBB4c146_43:
	movs	r2, #1
.LBB4c146_44:
	mov	r0, r2
	add	sp, #12
	pop.w	{r4, r5, r6, r7, r8, r9, r10, r11, pc}
.Lfunc_end4c146:
	.size	"tuvaddri_c::report::write_end_report", .Lfunc_end4c146-"tuvaddri_c::report::write_end_report"
	.cantunwind
	.fnend

	.section	".text.tuvaddri_c::report::report_server","ax",%progbits
	.p2align	2
	.type	"tuvaddri_c::report::report_server",%function
	.code	16
	.thumb_func
"tuvaddri_c::report::report_server":
	.fnstart
	.save	{r4, r5, r6, r7, r8, r9, r10, lr}
	push.w	{r4, r5, r6, r7, r8, r9, r10, lr}
	.pad	#1560
	sub.w	sp, sp, #1560
	add	r4, sp, #880
	mov	r8, r1
	mov	r5, r0
	mov	r0, r4
	mov.w	r1, #680
	bl	__aeabi_memclr8
	add.w	r9, sp, #200
	mov	r0, r9
	mov.w	r1, #680
	bl	__aeabi_memclr8
	add	r7, sp, #112
	mov	r0, r7
	movs	r1, #88
	bl	__aeabi_memclr8
	add	r6, sp, #24
	mov	r0, r6
	movs	r1, #88
	bl	__aeabi_memclr8
	ldrb	r1, [r5]
	movs	r0, #0
.LCPIb4391_0:
	tbb	[pc, r1]
.LJTIb4391_0:
	.byte	(.LBBb4391_2-(.LCPIb4391_0+4))/2
	.byte	(.LBBb4391_2-(.LCPIb4391_0+4))/2
	.byte	(.LBBb4391_4-(.LCPIb4391_0+4))/2
	.byte	(.LBBb4391_2-(.LCPIb4391_0+4))/2
	.byte	(.LBBb4391_3-(.LCPIb4391_0+4))/2
	.byte	(.LBBb4391_5-(.LCPIb4391_0+4))/2
	.byte	(.LBBb4391_2-(.LCPIb4391_0+4))/2
	.byte	(.LBBb4391_2-(.LCPIb4391_0+4))/2
	.byte	(.LBBb4391_2-(.LCPIb4391_0+4))/2
	.p2align	1
.LBBb4391_2:
	add.w	sp, sp, #1560
	pop.w	{r4, r5, r6, r7, r8, r9, r10, pc}
.LBBb4391_3:
	add.w	r1, r5, #8
	mov	r0, sp
	bl	"server_machine::machine::SizedServer::current::<#575f94f35bca5e04>"
	ldr	r5, [sp, #8]
	ldrb.w	r0, [sp]
	lsls	r0, r0, #24
	bne	.LBBb4391_6
	b	.LBBb4391_7
.LBBb4391_4:
	adds	r5, #8
	b	.LBBb4391_6
.LBBb4391_5:
	add.w	r1, r5, #8
	add	r0, sp, #12
	bl	"server_machine::backend::SizedBackend::current::<#575f94f35bca5e04>"
	ldr	r5, [sp, #20]
	ldrb.w	r0, [sp, #12]
	lsls	r0, r0, #24
	beq	.LBBb4391_7
.LBBb4391_6:
	mov	r0, r4
	mov	r1, r5
	bl	"end_objects::objects::ServerObjectServerMethod::report"
	ldrb.w	r0, [sp, #880]
	mov.w	r10, #0
	strd	r0, r10, [sp, #200]
	add.w	r0, r9, #8
	add.w	r1, r4, #8
	mov.w	r2, #672
	bl	__aeabi_memcpy8
	mov	r0, r7
	mov	r1, r5
	bl	"end_objects::objects::ServerObject::nonces"
	ldrb.w	r0, [sp, #112]
	add.w	r1, r7, #8
	strd	r0, r10, [sp, #24]
	add.w	r0, r6, #8
	movs	r2, #80
	bl	__aeabi_memcpy8
	mov	r0, r9
	mov	r1, r6
	mov	r2, r8
	bl	"tuvaddri_c::report::write_end_report"
	add.w	sp, sp, #1560
	pop.w	{r4, r5, r6, r7, r8, r9, r10, pc}
.LBBb4391_7:
	movs	r0, #0
	add.w	sp, sp, #1560
	pop.w	{r4, r5, r6, r7, r8, r9, r10, pc}
.Lfunc_endb4391:
	.size	"tuvaddri_c::report::report_server", .Lfunc_endb4391-"tuvaddri_c::report::report_server"
	.cantunwind
	.fnend

	.section	".text.tuvaddri_c::name::write_name_in","ax",%progbits
	.p2align	2
	.type	"tuvaddri_c::name::write_name_in",%function
	.code	16
	.thumb_func
"tuvaddri_c::name::write_name_in":
	.fnstart
	.save	{r4, r5, r6, r7, r8, r9, lr}
	push.w	{r4, r5, r6, r7, r8, r9, lr}
	.pad	#228
	sub	sp, #228
	add	r7, sp, #8
	mov	r6, r0
	mov	r0, r7
	movs	r1, #48
	mov	r4, r3
	mov	r5, r2
	bl	__aeabi_memclr8
	mov	r0, r7
	mov	r1, r6
	mov	r2, r5
	mov	r3, r4
	bl	"eap_packet::packet::decode"
	ldrb.w	r0, [sp, #8]
	cmp	r0, #1
	beq	.LBB2f8f8_7
	ldrb.w	r0, [sp, #16]
	cmp	r0, #1
	bne	.LBB2f8f8_7
	ldrb.w	r0, [sp, #18]
	ldrd	r5, r4, [sp, #32]
	ldr	r6, [sp, #24]
	cmp	r0, #51
	beq	.LBB2f8f8_9
	cmp	r0, #47
	bne	.LBB2f8f8_7
	add	r7, sp, #56
	mov	r0, r7
	movs	r1, #80
	bl	__aeabi_memclr8
	mov	r0, r7
	mov	r1, r6
	mov	r2, r5
	mov	r3, r4
	bl	"psk_messages::reading::read_psk_message"
	ldrb.w	r0, [sp, #56]
	cmp	r0, #0
	mov.w	r0, #0
	bne	.LBB2f8f8_8
	ldrb.w	r1, [sp, #64]
	cmp	r1, #1
	mov.w	r1, #0
	bne.w	.LBB2f8f8_24
	ldr.w	r9, [sp, #120]
	ldrd	r0, r1, [sp, #128]
	b	.LBB2f8f8_12
.LBB2f8f8_7:
	movs	r0, #0
.LBB2f8f8_8:
	movs	r1, #0
	add	sp, #228
	pop.w	{r4, r5, r6, r7, r8, r9, pc}
.LBB2f8f8_9:
	add.w	r8, sp, #56
	mov	r0, r8
	movs	r1, #168
	bl	__aeabi_memclr8
	movs	r7, #0
	mov	r0, r8
	mov	r1, r6
	mov	r2, r5
	mov	r3, r4
	str	r7, [sp]
	mov	r4, r7
	str	r7, [sp, #4]
	bl	"gpsk_messages::reading::read_gpsk_message"
	ldrb.w	r0, [sp, #56]
	cbnz	r0, .LBB2f8f8_16
	ldrb.w	r0, [sp, #64]
	movs	r1, #0
	cmp	r0, #1
	mov	r0, r4
	bne	.LBB2f8f8_24
	ldr.w	r9, [sp, #72]
	ldrd	r0, r1, [sp, #80]
.LBB2f8f8_12:
	ldr.w	r8, [sp, #256]
	movs	r6, #0
	subs.w	r7, r8, r9
	sbc	r6, r6, #0
	subs	r7, r7, r0
	sbcs.w	r7, r6, r1
	bhs	.LBB2f8f8_15
	subs	r7, r0, #4
	sbcs	r7, r1, #0
	and	r12, r0, #3
	bhs	.LBB2f8f8_18
	movs	r6, #0
	b	.LBB2f8f8_21
.LBB2f8f8_15:
	mov	r4, r0
	mov	r0, r8
	mov	r5, r1
	mov	r1, r9
	mov	r2, r4
	bl	__aeabi_memmove
	mov	r1, r5
	b	.LBB2f8f8_17
.LBB2f8f8_16:
	movs	r1, #0
.LBB2f8f8_17:
	mov	r0, r4
	add	sp, #228
	pop.w	{r4, r5, r6, r7, r8, r9, pc}
.LBB2f8f8_18:
	bic	lr, r0, #3
	movs	r6, #0
	movs	r4, #0
	.p2align	2
.LBB2f8f8_19:
	ldrb.w	r7, [r9, r6]
	strb.w	r7, [r8, r6]
	orr	r7, r6, #1
	ldrb.w	r5, [r9, r7]
	strb.w	r5, [r8, r7]
	orr	r5, r6, #2
	ldrb.w	r7, [r9, r5]
	strb.w	r7, [r8, r5]
	orr	r5, r6, #3
	adds	r6, #4
	adc	r4, r4, #0
	ldrb.w	r7, [r9, r5]
	eor.w	r3, r6, lr
	eor.w	r2, r4, r1
	orrs	r2, r3
	strb.w	r7, [r8, r5]
	bne	.LBB2f8f8_19
	cmp.w	r12, #0
	beq	.LBB2f8f8_24
.LBB2f8f8_21:
	ldrb.w	r2, [r9, r6]
	cmp.w	r12, #1
	strb.w	r2, [r8, r6]
	beq	.LBB2f8f8_24
	adds	r2, r6, #1
	ldrb.w	r3, [r9, r2]
	cmp.w	r12, #2
	strb.w	r3, [r8, r2]
	beq	.LBB2f8f8_24
	adds	r2, r6, #2
	ldrb.w	r3, [r9, r2]
	strb.w	r3, [r8, r2]
.LBB2f8f8_24:
	add	sp, #228
	pop.w	{r4, r5, r6, r7, r8, r9, pc}
.Lfunc_end2f8f8:
	.size	"tuvaddri_c::name::write_name_in", .Lfunc_end2f8f8-"tuvaddri_c::name::write_name_in"
	.cantunwind
	.fnend

	.section	".text.tuvaddri_c::name::write_server_in","ax",%progbits
	.p2align	2
	.type	"tuvaddri_c::name::write_server_in",%function
	.code	16
	.thumb_func
"tuvaddri_c::name::write_server_in":
	.fnstart
	.save	{r4, r5, r6, r7, r8, r9, lr}
	push.w	{r4, r5, r6, r7, r8, r9, lr}
	.pad	#228
	sub	sp, #228
	add	r7, sp, #8
	mov	r6, r0
	mov	r0, r7
	movs	r1, #48
	mov	r4, r3
	mov	r5, r2
	bl	__aeabi_memclr8
	mov	r0, r7
	mov	r1, r6
	mov	r2, r5
	mov	r3, r4
	bl	"eap_packet::packet::decode"
	ldrb.w	r0, [sp, #8]
	cmp	r0, #1
	beq	.LBBe6481_6
	ldrb.w	r0, [sp, #16]
	cbnz	r0, .LBBe6481_6
	ldrb.w	r0, [sp, #18]
	ldrd	r5, r4, [sp, #32]
	ldr	r6, [sp, #24]
	cmp	r0, #51
	beq	.LBBe6481_7
	cmp	r0, #47
	bne	.LBBe6481_6
	add	r7, sp, #56
	mov	r0, r7
	movs	r1, #80
	bl	__aeabi_memclr8
	mov	r0, r7
	mov	r1, r6
	mov	r2, r5
	mov	r3, r4
	bl	"psk_messages::reading::read_psk_message"
	ldrb.w	r0, [sp, #64]
	ldrb.w	r1, [sp, #56]
	uxtb	r0, r0
	orrs	r0, r1
	bne	.LBBe6481_6
	ldr.w	r9, [sp, #88]
	ldrd	r0, r1, [sp, #96]
	b	.LBBe6481_9
.LBBe6481_6:
	movs	r0, #0
	movs	r1, #0
	add	sp, #228
	pop.w	{r4, r5, r6, r7, r8, r9, pc}
.LBBe6481_7:
	add.w	r8, sp, #56
	mov	r0, r8
	movs	r1, #168
	bl	__aeabi_memclr8
	movs	r7, #0
	mov	r0, r8
	mov	r1, r6
	mov	r2, r5
	mov	r3, r4
	str	r7, [sp]
	mov	r4, r7
	str	r7, [sp, #4]
	bl	"gpsk_messages::reading::read_gpsk_message"
	ldrb.w	r0, [sp, #64]
	ldrb.w	r1, [sp, #56]
	uxtb	r0, r0
	orrs	r0, r1
	bne	.LBBe6481_13
	ldr.w	r9, [sp, #72]
	ldrd	r0, r1, [sp, #80]
.LBBe6481_9:
	ldr.w	r8, [sp, #256]
	movs	r6, #0
	subs.w	r7, r8, r9
	sbc	r6, r6, #0
	subs	r7, r7, r0
	sbcs.w	r7, r6, r1
	bhs	.LBBe6481_12
	subs	r7, r0, #4
	sbcs	r7, r1, #0
	and	r12, r0, #3
	bhs	.LBBe6481_15
	movs	r6, #0
	b	.LBBe6481_18
.LBBe6481_12:
	mov	r4, r0
	mov	r0, r8
	mov	r5, r1
	mov	r1, r9
	mov	r2, r4
	bl	__aeabi_memmove
	mov	r1, r5
	b	.LBBe6481_14
.LBBe6481_13:
	movs	r1, #0
.LBBe6481_14:
	mov	r0, r4
	add	sp, #228
	pop.w	{r4, r5, r6, r7, r8, r9, pc}
.LBBe6481_15:
	bic	lr, r0, #3
	movs	r6, #0
	movs	r4, #0
	.p2align	2
.LBBe6481_16:
	ldrb.w	r7, [r9, r6]
	strb.w	r7, [r8, r6]
	orr	r7, r6, #1
	ldrb.w	r5, [r9, r7]
	strb.w	r5, [r8, r7]
	orr	r5, r6, #2
	ldrb.w	r7, [r9, r5]
	strb.w	r7, [r8, r5]
	orr	r5, r6, #3
	adds	r6, #4
	adc	r4, r4, #0
	ldrb.w	r7, [r9, r5]
	eor.w	r3, r6, lr
	eor.w	r2, r4, r1
	orrs	r2, r3
	strb.w	r7, [r8, r5]
	bne	.LBBe6481_16
	cmp.w	r12, #0
	beq	.LBBe6481_21
.LBBe6481_18:
	ldrb.w	r2, [r9, r6]
	cmp.w	r12, #1
	strb.w	r2, [r8, r6]
	beq	.LBBe6481_21
	adds	r2, r6, #1
	ldrb.w	r3, [r9, r2]
	cmp.w	r12, #2
	strb.w	r3, [r8, r2]
	beq	.LBBe6481_21
	adds	r2, r6, #2
	ldrb.w	r3, [r9, r2]
	strb.w	r3, [r8, r2]
.LBBe6481_21:
	add	sp, #228
	pop.w	{r4, r5, r6, r7, r8, r9, pc}
.Lfunc_ende6481:
	.size	"tuvaddri_c::name::write_server_in", .Lfunc_ende6481-"tuvaddri_c::name::write_server_in"
	.cantunwind
	.fnend

	.section	.text.tuv_backend_begin,"ax",%progbits
	.globl	tuv_backend_begin
	.p2align	2
	.type	tuv_backend_begin,%function
	.code	16
	.thumb_func
tuv_backend_begin:
	.fnstart
	.save	{r4, r5, r6, r7, r8, r9, r10, r11, lr}
	push.w	{r4, r5, r6, r7, r8, r9, r10, r11, lr}
	.pad	#1428
	subw	sp, sp, #1428
	mov	r6, r0
	movs	r0, #0
	strd	r0, r0, [sp, #88]
	strd	r0, r0, [sp, #80]
	strd	r0, r0, [sp, #72]
	strd	r0, r0, [sp, #64]
	mov	r0, r1
	mov	r10, r2
	mov	r5, r1
	bl	"end_objects::refusals::server_refusal"
	uxtb	r0, r0
	cmp	r0, #1
	bne	.LBB0b35d_2
	adds	r0, r1, #1
	addw	sp, sp, #1428
	pop.w	{r4, r5, r6, r7, r8, r9, r10, r11, pc}
.LBB0b35d_2:
	add	r7, sp, #96
	mov	r0, r7
	mov	r1, r5
	bl	"end_objects::settings::kinds_of"
	ldrd	r2, r3, [sp, #104]
	add	r0, sp, #64
	mov	r1, r7
	bl	"end_objects::constructors::server_objects"
	ldrb.w	r0, [sp, #64]
	cbz	r0, .LBB0b35d_4
.LBB0b35d_3:
	movs	r0, #8
	addw	sp, sp, #1428
	pop.w	{r4, r5, r6, r7, r8, r9, r10, r11, pc}
.LBB0b35d_4:
	ldr	r7, [sp, #72]
	ldrd	r4, r11, [sp, #88]
	bl	"tuvaddri_c::sent::empty_packet"
	uxtb	r0, r0
	cmp	r0, #1
	bne.w	.LBB0b35d_10
	movs	r0, #0
	add.w	r8, sp, #1160
	ldr	r6, [r6]
	str.w	r0, [sp, #115]
	ldr.w	r9, [r5, #8]
	str	r7, [sp, #52]
	ldr	r7, [r5, #16]
	str	r4, [sp, #56]
	ldr	r4, [r5, #20]
	str	r0, [sp, #112]
	mov	r0, r8
	str	r1, [sp, #60]
	mov.w	r1, #264
	bl	__aeabi_memclr8
	mov	r0, r8
	mov	r1, r9
	mov	r2, r7
	mov	r3, r4
	bl	"octet_lists::octets::Octets::append::<=253>"
	add	r4, sp, #832
	mov	r0, r4
	mov	r1, r8
	mov.w	r2, #264
	bl	__aeabi_memcpy8
	add.w	r0, r4, #264
	mov	r1, r5
	bl	"end_objects::settings::kinds_of"
	add.w	r0, r4, #280
	mov	r1, r5
	bl	"end_objects::settings::suites_of"
	add.w	r0, r4, #296
	mov	r1, r10
	movs	r2, #32
	bl	__aeabi_memcpy
	ldrb.w	r9, [r5, #76]
	add	r0, sp, #112
	adds	r0, #7
	mov.w	r1, #712
	cmp.w	r9, #0
	it	ne
	movne.w	r9, #1
	bl	__aeabi_memclr
	mov	r8, r6
	ldr	r0, [r8, #8]!
	ldrb	r4, [r6]
	str	r0, [sp, #40]
	ldr	r0, [r6, #28]
	str.w	r11, [r6, #28]
	str	r0, [sp, #48]
	ldr	r0, [r6, #24]
	mov.w	r11, #0
	str	r0, [sp, #44]
	ldr.w	r0, [r6, #1328]
	str.w	r11, [r6, #4]
	str	r0, [sp, #36]
	ldr.w	r0, [r6, #1528]
	str.w	r11, [r6, #33]
	str	r0, [sp, #32]
	ldr.w	r0, [r6, #1560]
	str.w	r11, [r6, #36]
	str	r0, [sp, #28]
	ldr.w	r0, [r6, #1976]
	add.w	r7, r6, #1576
	str	r0, [sp, #24]
	ldr.w	r0, [r6, #2296]
	str	r0, [sp, #4]
	ldr.w	r0, [r6, #2316]
	str	r0, [sp, #20]
	movs	r0, #5
	str	r0, [r6]
	ldr	r0, [sp, #52]
	str.w	r0, [r8]
	ldrd	r0, r1, [sp, #76]
	str	r0, [r6, #12]
	ldr	r0, [sp, #84]
	str	r1, [r6, #16]
	str	r0, [r6, #20]
	ldr.w	r0, [r6, #2328]
	ldr.w	r1, [r6, #2312]
	str	r0, [sp]
	ldr.w	r0, [r6, #2348]
	str	r1, [sp, #52]
	str	r0, [sp, #16]
	ldr	r0, [sp, #56]
	movw	r1, #1535
	str	r0, [r6, #24]
	movs	r0, #1
	strb.w	r0, [r6, #32]
	strb.w	r0, [r6, #40]
	ldr.w	r0, [r6, #2344]
	str	r0, [sp, #8]
	ldr.w	r0, [r6, #2352]
	str	r0, [sp, #12]
	ldr.w	r0, [r6, #2624]
	str	r0, [sp, #56]
	add.w	r0, r6, #41
	bl	__aeabi_memclr
	mov	r0, r7
	add	r1, sp, #832
	mov.w	r2, #328
	bl	__aeabi_memcpy
	addw	r0, r6, #1905
	add	r1, sp, #112
	movw	r2, #719
	strb.w	r9, [r6, #1904]
	bl	__aeabi_memcpy
	ldr	r0, [sp, #60]
	str.w	r11, [r6, #2628]
	str.w	r0, [r6, #2624]
.LCPI0b35d_0:
	tbb	[pc, r4]
.LJTI0b35d_0:
	.byte	(.LBB0b35d_22-(.LCPI0b35d_0+4))/2
	.byte	(.LBB0b35d_18-(.LCPI0b35d_0+4))/2
	.byte	(.LBB0b35d_12-(.LCPI0b35d_0+4))/2
	.byte	(.LBB0b35d_16-(.LCPI0b35d_0+4))/2
	.byte	(.LBB0b35d_7-(.LCPI0b35d_0+4))/2
	.byte	(.LBB0b35d_7-(.LCPI0b35d_0+4))/2
	.byte	(.LBB0b35d_19-(.LCPI0b35d_0+4))/2
	.byte	(.LBB0b35d_13-(.LCPI0b35d_0+4))/2
	.byte	(.LBB0b35d_20-(.LCPI0b35d_0+4))/2
	.p2align	1
.LBB0b35d_7:
	ldrd	r1, r0, [sp, #44]
	orrs	r0, r1
	beq	.LBB0b35d_9
	ldr	r0, [sp, #40]
	bl	rattle_dealloc
.LBB0b35d_9:
	ldr	r0, [sp, #56]
	b	.LBB0b35d_21
.LBB0b35d_10:
	orrs.w	r0, r4, r11
	beq.w	.LBB0b35d_3
	mov	r0, r7
	bl	rattle_dealloc
	b	.LBB0b35d_3
.LBB0b35d_12:
	ldr	r0, [sp, #24]
	b	.LBB0b35d_21
.LBB0b35d_13:
	ldr	r0, [sp, #16]
	ldr	r1, [sp, #8]
	orrs	r0, r1
	beq	.LBB0b35d_15
	ldr	r0, [sp]
	bl	rattle_dealloc
.LBB0b35d_15:
	ldr	r0, [sp, #12]
	b	.LBB0b35d_21
.LBB0b35d_16:
	ldr	r0, [sp, #20]
	ldr	r1, [sp, #52]
	orrs	r0, r1
	beq	.LBB0b35d_22
	ldr	r0, [sp, #4]
	b	.LBB0b35d_21
.LBB0b35d_18:
	ldr	r0, [sp, #36]
	b	.LBB0b35d_21
.LBB0b35d_19:
	ldr	r0, [sp, #32]
	b	.LBB0b35d_21
.LBB0b35d_20:
	ldr	r0, [sp, #28]
.LBB0b35d_21:
	bl	rattle_dealloc
.LBB0b35d_22:
	ldrb	r0, [r6]
	cmp	r0, #5
	bne	.LBB0b35d_24
	mov	r0, r8
	mov	r1, r5
	bl	"tuvaddri_c::by_method::add_users::<#93e2819ad231d5c1>"
	mov	r0, r8
	mov	r1, r10
	bl	"server_machine::machine::SizedServer::make_again::<#575f94f35bca5e04>"
.LBB0b35d_24:
	movs	r0, #0
	strb.w	r0, [r6, #2632]
	addw	sp, sp, #1428
	pop.w	{r4, r5, r6, r7, r8, r9, r10, r11, pc}
.Lfunc_end0b35d:
	.size	tuv_backend_begin, .Lfunc_end0b35d-tuv_backend_begin
	.cantunwind
	.fnend

	.section	.text.tuv_end_close,"ax",%progbits
	.globl	tuv_end_close
	.p2align	2
	.type	tuv_end_close,%function
	.code	16
	.thumb_func
tuv_end_close:
	.fnstart
	.save	{r4, r5, r6, r7, r8, r9, r10, r11, lr}
	push.w	{r4, r5, r6, r7, r8, r9, r10, r11, lr}
	.pad	#36
	sub	sp, #36
	ldr	r4, [r0]
	movw	r1, #2632
	ldr	r0, [r4, #8]
	ldrb	r5, [r4]
	str	r0, [sp, #24]
	ldr	r0, [r4, #28]
	ldr.w	r11, [r4, #24]
	str	r0, [sp, #28]
	ldr.w	r0, [r4, #1328]
	ldr.w	r8, [r4, #1976]
	str	r0, [sp, #20]
	ldr.w	r0, [r4, #1528]
	ldr.w	r6, [r4, #2316]
	str	r0, [sp, #16]
	ldr.w	r0, [r4, #1560]
	ldr.w	r9, [r4, #2312]
	str	r0, [sp, #8]
	ldr.w	r0, [r4, #2296]
	ldr.w	r7, [r4, #2348]
	str	r0, [sp, #4]
	ldr.w	r0, [r4, #2328]
	ldr.w	r10, [r4, #2344]
	str	r0, [sp]
	ldr.w	r0, [r4, #2352]
	str	r0, [sp, #12]
	ldr.w	r0, [r4, #2624]
	str	r0, [sp, #32]
	mov	r0, r4
	bl	__aeabi_memclr
.LCPIaaabf_0:
	tbb	[pc, r5]
.LJTIaaabf_0:
	.byte	(.LBBaaabf_15-(.LCPIaaabf_0+4))/2
	.byte	(.LBBaaabf_11-(.LCPIaaabf_0+4))/2
	.byte	(.LBBaaabf_5-(.LCPIaaabf_0+4))/2
	.byte	(.LBBaaabf_9-(.LCPIaaabf_0+4))/2
	.byte	(.LBBaaabf_2-(.LCPIaaabf_0+4))/2
	.byte	(.LBBaaabf_2-(.LCPIaaabf_0+4))/2
	.byte	(.LBBaaabf_12-(.LCPIaaabf_0+4))/2
	.byte	(.LBBaaabf_6-(.LCPIaaabf_0+4))/2
	.byte	(.LBBaaabf_13-(.LCPIaaabf_0+4))/2
	.p2align	1
.LBBaaabf_2:
	ldr	r0, [sp, #28]
	orrs.w	r0, r0, r11
	beq	.LBBaaabf_4
	ldr	r0, [sp, #24]
	bl	rattle_dealloc
.LBBaaabf_4:
	ldr	r0, [sp, #32]
	b	.LBBaaabf_14
.LBBaaabf_5:
	mov	r0, r8
	b	.LBBaaabf_14
.LBBaaabf_6:
	orrs.w	r0, r10, r7
	beq	.LBBaaabf_8
	ldr	r0, [sp]
	bl	rattle_dealloc
.LBBaaabf_8:
	ldr	r0, [sp, #12]
	b	.LBBaaabf_14
.LBBaaabf_9:
	orrs.w	r0, r9, r6
	beq	.LBBaaabf_15
	ldr	r0, [sp, #4]
	b	.LBBaaabf_14
.LBBaaabf_11:
	ldr	r0, [sp, #20]
	b	.LBBaaabf_14
.LBBaaabf_12:
	ldr	r0, [sp, #16]
	b	.LBBaaabf_14
.LBBaaabf_13:
	ldr	r0, [sp, #8]
.LBBaaabf_14:
	bl	rattle_dealloc
.LBBaaabf_15:
	movs	r0, #0
	strb.w	r0, [r4, #2632]
	add	sp, #36
	pop.w	{r4, r5, r6, r7, r8, r9, r10, r11, pc}
.Lfunc_endaaabf:
	.size	tuv_end_close, .Lfunc_endaaabf-tuv_end_close
	.cantunwind
	.fnend

	.section	.text.tuv_end_last_packet,"ax",%progbits
	.globl	tuv_end_last_packet
	.p2align	2
	.type	tuv_end_last_packet,%function
	.code	16
	.thumb_func
tuv_end_last_packet:
	.fnstart
	.save	{r4, r5, r6, r7, r8, r9, lr}
	push.w	{r4, r5, r6, r7, r8, r9, lr}
	.pad	#4
	sub	sp, #4
	ldr	r0, [r0]
	mov	r9, r1
	mov	r6, r3
	mov	r7, r2
	cmp	r1, #0
	it	eq
	addeq.w	r9, r9, #4096
	bl	"tuvaddri_c::session::End::last_packet"
	mov	r8, r1
	mov	r1, r2
	subs.w	r2, r7, r8
	sbcs.w	r2, r6, r1
	blo	.LBB0546d_11
	subs.w	r2, r9, r0
	mov.w	r3, #0
	sbc	r3, r3, #0
	subs.w	r2, r2, r8
	sbcs.w	r2, r3, r1
	bhs	.LBB0546d_4
	subs.w	r2, r8, #4
	sbcs	r2, r1, #0
	and	r12, r8, #3
	bhs	.LBB0546d_5
	movs	r3, #0
	b	.LBB0546d_8
.LBB0546d_4:
	mov	r2, r0
	mov	r0, r9
	mov	r4, r1
	mov	r1, r2
	mov	r2, r8
	bl	__aeabi_memmove
	mov	r1, r4
	b	.LBB0546d_11
.LBB0546d_5:
	bic	lr, r8, #3
	movs	r3, #0
	movs	r6, #0
	.p2align	2
.LBB0546d_6:
	ldrb	r2, [r0, r3]
	strb.w	r2, [r9, r3]
	orr	r2, r3, #1
	ldrb	r5, [r0, r2]
	strb.w	r5, [r9, r2]
	orr	r2, r3, #2
	ldrb	r5, [r0, r2]
	strb.w	r5, [r9, r2]
	orr	r2, r3, #3
	adds	r3, #4
	adc	r6, r6, #0
	ldrb	r5, [r0, r2]
	eor.w	r7, r3, lr
	eor.w	r4, r6, r1
	orrs	r4, r7
	strb.w	r5, [r9, r2]
	bne	.LBB0546d_6
	cmp.w	r12, #0
	beq	.LBB0546d_11
.LBB0546d_8:
	ldrb	r2, [r0, r3]
	cmp.w	r12, #1
	strb.w	r2, [r9, r3]
	beq	.LBB0546d_11
	adds	r2, r3, #1
	ldrb	r7, [r0, r2]
	cmp.w	r12, #2
	strb.w	r7, [r9, r2]
	beq	.LBB0546d_11
	adds	r2, r3, #2
	ldrb	r0, [r0, r2]
	strb.w	r0, [r9, r2]
.LBB0546d_11:
	mov	r0, r8
	add	sp, #4
	pop.w	{r4, r5, r6, r7, r8, r9, pc}
.Lfunc_end0546d:
	.size	tuv_end_last_packet, .Lfunc_end0546d-tuv_end_last_packet
	.cantunwind
	.fnend

	.section	.text.tuv_end_new,"ax",%progbits
	.globl	tuv_end_new
	.p2align	2
	.type	tuv_end_new,%function
	.code	16
	.thumb_func
tuv_end_new:
	.fnstart
	.save	{r4, r5, r6, r7, lr}
	push	{r4, r5, r6, r7, lr}
	.pad	#4
	sub	sp, #4
	mov	r4, r0
	mov.w	r0, #2640
	movs	r1, #0
	movs	r6, #0
	bl	"std_heap::GlobalAllocator::allocate"
	mov	r5, r0
	lsls	r0, r0, #24
	bne	.LBB529f3_2
	mov	r0, r1
	mov	r7, r1
	mov.w	r1, #2640
	bl	__aeabi_memclr
	str	r7, [r4]
	str	r6, [r4, #4]
.LBB529f3_2:
	uxtb	r0, r5
	clz	r0, r0
	lsrs	r0, r0, #5
	add	sp, #4
	pop	{r4, r5, r6, r7, pc}
.Lfunc_end529f3:
	.size	tuv_end_new, .Lfunc_end529f3-tuv_end_new
	.cantunwind
	.fnend

	.section	.text.tuv_end_packet,"ax",%progbits
	.globl	tuv_end_packet
	.p2align	2
	.type	tuv_end_packet,%function
	.code	16
	.thumb_func
tuv_end_packet:
	.fnstart
	.save	{r4, r5, r6, r7, r8, r9, lr}
	push.w	{r4, r5, r6, r7, r8, r9, lr}
	.pad	#4
	sub	sp, #4
	ldr	r0, [r0]
	mov	r9, r1
	cmp	r1, #0
	ldrb.w	r1, [r0, #2632]
	it	eq
	addeq.w	r9, r9, #4096
	cmp	r1, #1
	bne	.LBB41ac9_5
	mov	r6, r3
	mov	r7, r2
	bl	"tuvaddri_c::session::End::last_packet"
	mov	r8, r1
	mov	r1, r2
	subs.w	r2, r7, r8
	sbcs.w	r2, r6, r1
	blo	.LBB41ac9_6
	subs.w	r2, r9, r0
	mov.w	r3, #0
	sbc	r3, r3, #0
	subs.w	r2, r2, r8
	sbcs.w	r2, r3, r1
	bhs	.LBB41ac9_7
	subs.w	r2, r8, #4
	sbcs	r2, r1, #0
	and	r12, r8, #3
	bhs	.LBB41ac9_8
	movs	r3, #0
	b	.LBB41ac9_11
.LBB41ac9_5:
	mov.w	r8, #0
	movs	r1, #0
.LBB41ac9_6:
	mov	r0, r8
	add	sp, #4
	pop.w	{r4, r5, r6, r7, r8, r9, pc}
.LBB41ac9_7:
	mov	r2, r0
	mov	r0, r9
	mov	r5, r1
	mov	r1, r2
	mov	r2, r8
	bl	__aeabi_memmove
	mov	r1, r5
	b	.LBB41ac9_6
.LBB41ac9_8:
	bic	lr, r8, #3
	movs	r3, #0
	movs	r6, #0
	.p2align	2
.LBB41ac9_9:
	ldrb	r2, [r0, r3]
	strb.w	r2, [r9, r3]
	orr	r2, r3, #1
	ldrb	r4, [r0, r2]
	strb.w	r4, [r9, r2]
	orr	r2, r3, #2
	ldrb	r4, [r0, r2]
	strb.w	r4, [r9, r2]
	orr	r2, r3, #3
	adds	r3, #4
	adc	r6, r6, #0
	ldrb	r4, [r0, r2]
	eor.w	r7, r3, lr
	eor.w	r5, r6, r1
	orrs	r5, r7
	strb.w	r4, [r9, r2]
	bne	.LBB41ac9_9
	cmp.w	r12, #0
	beq	.LBB41ac9_6
.LBB41ac9_11:
	ldrb	r2, [r0, r3]
	cmp.w	r12, #1
	strb.w	r2, [r9, r3]
	beq	.LBB41ac9_6
	adds	r2, r3, #1
	ldrb	r7, [r0, r2]
	cmp.w	r12, #2
	strb.w	r7, [r9, r2]
	beq	.LBB41ac9_6
	adds	r2, r3, #2
	ldrb	r0, [r0, r2]
	strb.w	r0, [r9, r2]
	b	.LBB41ac9_6
.Lfunc_end41ac9:
	.size	tuv_end_packet, .Lfunc_end41ac9-tuv_end_packet
	.cantunwind
	.fnend

	.section	.text.tuv_end_size,"ax",%progbits
	.globl	tuv_end_size
	.p2align	2
	.type	tuv_end_size,%function
	.code	16
	.thumb_func
tuv_end_size:
	.fnstart
	mov.w	r0, #2640
	movs	r1, #0
	bx	lr
.Lfunc_endc0917:
	.size	tuv_end_size, .Lfunc_endc0917-tuv_end_size
	.cantunwind
	.fnend

	.section	.text.tuv_pass_begin,"ax",%progbits
	.globl	tuv_pass_begin
	.p2align	2
	.type	tuv_pass_begin,%function
	.code	16
	.thumb_func
tuv_pass_begin:
	.fnstart
	.save	{r4, r5, r6, r7, r8, r9, r10, r11, lr}
	push.w	{r4, r5, r6, r7, r8, r9, r10, r11, lr}
	.pad	#44
	sub	sp, #44
	mov	r4, r1
	uxtb	r1, r2
	cmp	r1, #10
	bls	.LBB74f72_2
	movs	r0, #7
	add	sp, #44
	pop.w	{r4, r5, r6, r7, r8, r9, r10, r11, pc}
.LBB74f72_2:
	mov	r7, r2
	mov	r5, r0
	bl	"tuvaddri_c::sent::empty_packet"
	uxtb	r0, r0
	cmp	r0, #1
	bne	.LBB74f72_8
	ldr.w	r10, [r5]
	mov	r8, r1
	ldr.w	r0, [r10, #8]
	ldrb.w	r5, [r10]
	str	r0, [sp, #32]
	ldr.w	r0, [r10, #28]
	ldr.w	r9, [r10, #2328]
	str	r0, [sp, #40]
	ldr.w	r0, [r10, #24]
	strb.w	r4, [r10, #8]
	str	r0, [sp, #36]
	ldr.w	r0, [r10, #1328]
	ldr.w	r11, [r10, #2348]
	str	r0, [sp, #28]
	ldr.w	r0, [r10, #1528]
	strb.w	r7, [r10, #9]
	str	r0, [sp, #24]
	ldr.w	r0, [r10, #1560]
	ldr.w	r6, [r10, #2344]
	str	r0, [sp, #20]
	ldr.w	r0, [r10, #1976]
	ldr.w	r4, [r10, #2352]
	str	r0, [sp, #16]
	ldr.w	r0, [r10, #2296]
	ldr.w	r7, [r10, #2624]
	str	r0, [sp, #4]
	ldr.w	r0, [r10, #2316]
	movw	r1, #1518
	str	r0, [sp, #12]
	ldr.w	r0, [r10, #2312]
	str	r0, [sp, #8]
	movs	r0, #0
	str.w	r0, [r10, #4]
	movs	r0, #6
	str.w	r0, [r10]
	add.w	r0, r10, #10
	bl	__aeabi_memclr
	addw	r0, r10, #1532
	movw	r1, #1100
	str.w	r8, [r10, #1528]
	bl	__aeabi_memclr
.LCPI74f72_0:
	tbb	[pc, r5]
.LJTI74f72_0:
	.byte	(.LBB74f72_19-(.LCPI74f72_0+4))/2
	.byte	(.LBB74f72_15-(.LCPI74f72_0+4))/2
	.byte	(.LBB74f72_9-(.LCPI74f72_0+4))/2
	.byte	(.LBB74f72_13-(.LCPI74f72_0+4))/2
	.byte	(.LBB74f72_5-(.LCPI74f72_0+4))/2
	.byte	(.LBB74f72_5-(.LCPI74f72_0+4))/2
	.byte	(.LBB74f72_16-(.LCPI74f72_0+4))/2
	.byte	(.LBB74f72_10-(.LCPI74f72_0+4))/2
	.byte	(.LBB74f72_17-(.LCPI74f72_0+4))/2
	.p2align	1
.LBB74f72_5:
	ldrd	r1, r0, [sp, #36]
	orrs	r0, r1
	beq	.LBB74f72_7
	ldr	r0, [sp, #32]
	bl	rattle_dealloc
.LBB74f72_7:
	mov	r0, r7
	b	.LBB74f72_18
.LBB74f72_8:
	movs	r0, #8
	add	sp, #44
	pop.w	{r4, r5, r6, r7, r8, r9, r10, r11, pc}
.LBB74f72_9:
	ldr	r0, [sp, #16]
	b	.LBB74f72_18
.LBB74f72_10:
	orrs.w	r0, r6, r11
	beq	.LBB74f72_12
	mov	r0, r9
	bl	rattle_dealloc
.LBB74f72_12:
	mov	r0, r4
	b	.LBB74f72_18
.LBB74f72_13:
	ldrd	r1, r0, [sp, #8]
	orrs	r0, r1
	beq	.LBB74f72_19
	ldr	r0, [sp, #4]
	b	.LBB74f72_18
.LBB74f72_15:
	ldr	r0, [sp, #28]
	b	.LBB74f72_18
.LBB74f72_16:
	ldr	r0, [sp, #24]
	b	.LBB74f72_18
.LBB74f72_17:
	ldr	r0, [sp, #20]
.LBB74f72_18:
	bl	rattle_dealloc
.LBB74f72_19:
	movs	r0, #0
	strb.w	r0, [r10, #2632]
	add	sp, #44
	pop.w	{r4, r5, r6, r7, r8, r9, r10, r11, pc}
.Lfunc_end74f72:
	.size	tuv_pass_begin, .Lfunc_end74f72-tuv_pass_begin
	.cantunwind
	.fnend

	.section	.text.tuv_peer_begin,"ax",%progbits
	.globl	tuv_peer_begin
	.p2align	2
	.type	tuv_peer_begin,%function
	.code	16
	.thumb_func
tuv_peer_begin:
	.fnstart
	.save	{r4, r5, r6, r7, r8, r9, r10, r11, lr}
	push.w	{r4, r5, r6, r7, r8, r9, r10, r11, lr}
	.pad	#3172
	subw	sp, sp, #3172
	mov	r8, r0
	movs	r0, #0
	mov	r6, r1
	str.w	r0, [sp, #2352]
	str.w	r0, [sp, #2356]
	str.w	r0, [sp, #2360]
	str.w	r0, [sp, #2364]
	str.w	r0, [sp, #2368]
	str.w	r0, [sp, #2372]
	str.w	r0, [sp, #2376]
	str.w	r0, [sp, #2380]
	add	r0, sp, #40
	movw	r1, #2312
	mov	r5, r2
	bl	__aeabi_memclr8
	mov	r0, r6
	bl	"end_objects::refusals::peer_refusal"
	uxtb	r0, r0
	cmp	r0, #1
	bne	.LBB70e96_2
	adds	r0, r1, #1
	addw	sp, sp, #3172
	pop.w	{r4, r5, r6, r7, r8, r9, r10, r11, pc}
.LBB70e96_2:
	add.w	r4, sp, #2384
	mov	r0, r4
	mov	r1, r6
	bl	"end_objects::settings::kinds_of"
	ldr.w	r2, [sp, #2392]
	ldr.w	r3, [sp, #2396]
	add.w	r7, sp, #2352
	mov	r0, r7
	mov	r1, r4
	bl	"end_objects::constructors::peer_objects"
	ldrb.w	r0, [sp, #2352]
	cbz	r0, .LBB70e96_4
	movs	r0, #8
	addw	sp, sp, #3172
	pop.w	{r4, r5, r6, r7, r8, r9, r10, r11, pc}
.LBB70e96_4:
	add.w	r4, r7, #8
	add.w	r7, sp, #2400
	mov	r0, r7
	mov	r1, r6
	mov	r2, r5
	bl	"end_objects::settings::peer_setup"
	add.w	r9, sp, #40
	ldr.w	r10, [r8]
	mov	r0, r9
	mov	r1, r7
	mov	r2, r4
	bl	"peer_machine::machine::PeerMachine::new::<#807681be332d694b>"
	mov	r0, r10
	ldr	r1, [r0, #8]!
	ldrb.w	r4, [r10]
	str	r1, [sp, #24]
	ldr.w	r1, [r10, #28]
	ldr.w	r5, [r10, #2316]
	str	r1, [sp, #32]
	ldr.w	r1, [r10, #24]
	ldr.w	r6, [r10, #2312]
	str	r1, [sp, #28]
	ldr.w	r1, [r10, #1328]
	ldr.w	r11, [r10, #2348]
	str	r1, [sp, #20]
	ldr.w	r1, [r10, #1528]
	ldr.w	r7, [r10, #2344]
	str	r1, [sp, #16]
	ldr.w	r1, [r10, #1560]
	ldr.w	r8, [r10, #2352]
	str	r1, [sp, #12]
	ldr.w	r1, [r10, #1976]
	movw	r2, #2312
	str	r1, [sp, #8]
	ldr.w	r1, [r10, #2296]
	str	r1, [sp, #4]
	ldr.w	r1, [r10, #2328]
	str	r1, [sp]
	movs	r1, #0
	str.w	r1, [r10, #4]
	ldr.w	r1, [r10, #2624]
	str	r1, [sp, #36]
	movs	r1, #3
	str.w	r1, [r10]
	mov	r1, r9
	bl	__aeabi_memcpy
	add.w	r0, r10, #2320
	mov.w	r1, #312
	bl	__aeabi_memclr
.LCPI70e96_0:
	tbb	[pc, r4]
.LJTI70e96_0:
	.byte	(.LBB70e96_19-(.LCPI70e96_0+4))/2
	.byte	(.LBB70e96_15-(.LCPI70e96_0+4))/2
	.byte	(.LBB70e96_9-(.LCPI70e96_0+4))/2
	.byte	(.LBB70e96_13-(.LCPI70e96_0+4))/2
	.byte	(.LBB70e96_6-(.LCPI70e96_0+4))/2
	.byte	(.LBB70e96_6-(.LCPI70e96_0+4))/2
	.byte	(.LBB70e96_16-(.LCPI70e96_0+4))/2
	.byte	(.LBB70e96_10-(.LCPI70e96_0+4))/2
	.byte	(.LBB70e96_17-(.LCPI70e96_0+4))/2
	.p2align	1
.LBB70e96_6:
	ldrd	r1, r0, [sp, #28]
	orrs	r0, r1
	beq	.LBB70e96_8
	ldr	r0, [sp, #24]
	bl	rattle_dealloc
.LBB70e96_8:
	ldr	r0, [sp, #36]
	b	.LBB70e96_18
.LBB70e96_9:
	ldr	r0, [sp, #8]
	b	.LBB70e96_18
.LBB70e96_10:
	orrs.w	r0, r7, r11
	beq	.LBB70e96_12
	ldr	r0, [sp]
	bl	rattle_dealloc
.LBB70e96_12:
	mov	r0, r8
	b	.LBB70e96_18
.LBB70e96_13:
	orrs.w	r0, r6, r5
	beq	.LBB70e96_19
	ldr	r0, [sp, #4]
	b	.LBB70e96_18
.LBB70e96_15:
	ldr	r0, [sp, #20]
	b	.LBB70e96_18
.LBB70e96_16:
	ldr	r0, [sp, #16]
	b	.LBB70e96_18
.LBB70e96_17:
	ldr	r0, [sp, #12]
.LBB70e96_18:
	bl	rattle_dealloc
.LBB70e96_19:
	movs	r0, #0
	strb.w	r0, [r10, #2632]
	addw	sp, sp, #3172
	pop.w	{r4, r5, r6, r7, r8, r9, r10, r11, pc}
.Lfunc_end70e96:
	.size	tuv_peer_begin, .Lfunc_end70e96-tuv_peer_begin
	.cantunwind
	.fnend

	.section	.text.tuv_peer_method_begin,"ax",%progbits
	.globl	tuv_peer_method_begin
	.p2align	2
	.type	tuv_peer_method_begin,%function
	.code	16
	.thumb_func
tuv_peer_method_begin:
	.fnstart
	.save	{r4, r5, r6, r7, r8, r9, r10, r11, lr}
	push.w	{r4, r5, r6, r7, r8, r9, r10, r11, lr}
	.pad	#4480
	sub.w	sp, sp, #4480
	.pad	#4
	sub	sp, #4
	add.w	r8, sp, #1368
	mov	r4, r1
	mov	r5, r0
	mov	r0, r8
	mov.w	r1, #1248
	mov	r6, r2
	bl	__aeabi_memclr8
	mov	r0, r4
	bl	"end_objects::refusals::peer_refusal"
	uxtb	r0, r0
	cmp	r0, #1
	bne	.LBBf83f1_2
	adds	r0, r1, #1
	b	.LBBf83f1_23
.LBBf83f1_2:
	bl	"tuvaddri_c::sent::empty_packet"
	uxtb	r0, r0
	cmp	r0, #1
	bne	.LBBf83f1_5
	addw	r9, sp, #3240
	strd	r6, r5, [sp, #44]
	str	r1, [sp, #52]
	ldr	r5, [r4, #8]
	ldr	r7, [r4, #16]
	ldr	r6, [r4, #20]
	mov	r0, r9
	mov.w	r1, #264
	bl	__aeabi_memclr8
	mov	r0, r9
	mov	r1, r5
	mov	r2, r7
	mov	r3, r6
	bl	"octet_lists::octets::Octets::append::<=253>"
	addw	r10, sp, #2616
	mov	r0, r10
	mov	r1, r9
	mov.w	r2, #264
	bl	__aeabi_memcpy8
	ldr	r1, [r4, #24]
	ldr	r2, [r4, #32]
	ldr	r3, [r4, #36]
	mov	r0, r9
	bl	"end_objects::settings::accepts"
	add.w	r0, r10, #536
	mov	r1, r4
	bl	"end_objects::settings::suites_of"
	add	r0, sp, #128
	mov	r1, r4
	bl	"end_objects::settings::kinds_of"
	ldrb.w	r0, [sp, #128]
	movs	r2, #56
	cmp	r0, #47
	mov.w	r0, #64
	it	eq
	moveq	r0, #48
	add.w	r1, r4, r0
	add.w	r11, sp, #128
	it	eq
	moveq	r2, #40
	ldr	r6, [r4, r2]
	ldr	r7, [r4, r0]
	ldr	r5, [r1, #4]
	mov	r0, r11
	movs	r1, #72
	bl	__aeabi_memclr8
	mov	r0, r11
	mov	r1, r6
	mov	r2, r7
	mov	r3, r5
	bl	"octet_lists::octets::Octets::append::<=64>"
	add.w	r0, r10, #552
	mov	r1, r11
	movs	r2, #72
	str	r0, [sp, #40]
	bl	__aeabi_memcpy8
	ldrb.w	r5, [sp, #3240]
	add.w	r1, r9, #8
	add.w	r0, r10, #272
	mov.w	r2, #264
	bl	__aeabi_memcpy8
	movs	r0, #0
	addw	r6, sp, #3240
	str.w	r0, [sp, #2884]
	mov	r0, r6
	mov	r1, r4
	str.w	r5, [sp, #2880]
	bl	"end_objects::settings::kinds_of"
	ldrb.w	r4, [sp, #3240]
	add.w	r0, r6, #1160
	movs	r1, #80
	bl	__aeabi_memclr8
	addw	r0, sp, #3240
	cmp	r4, #47
	bne	.LBBf83f1_6
	mov.w	r1, #1240
	bl	__aeabi_memclr8
	movs	r4, #0
	b	.LBBf83f1_7
.LBBf83f1_5:
	movs	r0, #8
	b	.LBBf83f1_23
.LBBf83f1_6:
	mov.w	r1, #1160
	bl	__aeabi_memclr8
	movs	r4, #1
.LBBf83f1_7:
	add	r6, sp, #128
	ldr	r5, [sp, #48]
	addw	r1, sp, #3240
	mov	r0, r6
	mov.w	r2, #1240
	bl	__aeabi_memcpy8
	str.w	r4, [sp, #1368]
	add.w	r4, r8, #8
	mov.w	r10, #0
	mov	r0, r4
	mov	r1, r6
	mov.w	r2, #1240
	str.w	r10, [sp, #1372]
	bl	__aeabi_memcpy8
	ldr	r2, [sp, #44]
	addw	r1, sp, #2616
	mov	r0, r8
	bl	"end_objects::objects::PeerObjectPeerMethod::begin"
	ldr.w	r8, [r5]
	addw	r5, sp, #3240
	ldrb.w	r9, [sp, #1368]
	ldr.w	r6, [sp, #3232]
	ldr.w	r7, [sp, #3236]
	mov	r0, r5
	movs	r1, #72
	bl	__aeabi_memclr8
	ldr	r1, [sp, #40]
	mov	r0, r5
	mov	r2, r6
	mov	r3, r7
	bl	"octet_lists::octets::Octets::append::<=64>"
	add	r6, sp, #56
	mov	r0, r6
	mov	r1, r5
	movs	r2, #72
	bl	__aeabi_memcpy8
	addw	r11, sp, #3240
	mov	r0, r11
	mov	r1, r4
	mov.w	r2, #1240
	bl	__aeabi_memcpy8
	ldr.w	r0, [r8, #8]
	ldrb.w	r4, [r8]
	str	r0, [sp, #40]
	ldr.w	r0, [r8, #28]
	ldr.w	r5, [r8, #2348]
	str	r0, [sp, #48]
	ldr.w	r0, [r8, #24]
	str.w	r10, [r8, #4]
	str	r0, [sp, #44]
	ldr.w	r0, [r8, #1328]
	str.w	r10, [r8, #12]
	str	r0, [sp, #36]
	ldr.w	r0, [r8, #1528]
	ldr.w	r7, [r8, #2344]
	str	r0, [sp, #32]
	ldr.w	r0, [r8, #1560]
	str.w	r9, [r8, #8]
	str	r0, [sp, #28]
	ldr.w	r0, [r8, #1976]
	ldr.w	r10, [r8, #2352]
	str	r0, [sp, #24]
	ldr.w	r0, [r8, #2296]
	ldr.w	r9, [r8, #2624]
	str	r0, [sp, #12]
	ldr.w	r0, [r8, #2316]
	mov	r1, r11
	str	r0, [sp, #20]
	ldr.w	r0, [r8, #2312]
	mov.w	r2, #1240
	str	r0, [sp, #16]
	ldr.w	r0, [r8, #2328]
	str	r0, [sp, #8]
	movs	r0, #1
	str.w	r0, [r8]
	add.w	r0, r8, #16
	bl	__aeabi_memcpy
	add.w	r0, r8, #1256
	mov	r1, r6
	movs	r2, #72
	bl	__aeabi_memcpy
	ldr	r0, [sp, #52]
	movw	r1, #1300
	str.w	r0, [r8, #1328]
	addw	r0, r8, #1332
	bl	__aeabi_memclr
.LCPIf83f1_0:
	tbb	[pc, r4]
.LJTIf83f1_0:
	.byte	(.LBBf83f1_22-(.LCPIf83f1_0+4))/2
	.byte	(.LBBf83f1_18-(.LCPIf83f1_0+4))/2
	.byte	(.LBBf83f1_12-(.LCPIf83f1_0+4))/2
	.byte	(.LBBf83f1_16-(.LCPIf83f1_0+4))/2
	.byte	(.LBBf83f1_9-(.LCPIf83f1_0+4))/2
	.byte	(.LBBf83f1_9-(.LCPIf83f1_0+4))/2
	.byte	(.LBBf83f1_19-(.LCPIf83f1_0+4))/2
	.byte	(.LBBf83f1_13-(.LCPIf83f1_0+4))/2
	.byte	(.LBBf83f1_20-(.LCPIf83f1_0+4))/2
	.p2align	1
.LBBf83f1_9:
	ldrd	r1, r0, [sp, #44]
	orrs	r0, r1
	beq	.LBBf83f1_11
	ldr	r0, [sp, #40]
	bl	rattle_dealloc
.LBBf83f1_11:
	mov	r0, r9
	b	.LBBf83f1_21
.LBBf83f1_12:
	ldr	r0, [sp, #24]
	b	.LBBf83f1_21
.LBBf83f1_13:
	orrs.w	r0, r7, r5
	beq	.LBBf83f1_15
	ldr	r0, [sp, #8]
	bl	rattle_dealloc
.LBBf83f1_15:
	mov	r0, r10
	b	.LBBf83f1_21
.LBBf83f1_16:
	ldrd	r1, r0, [sp, #16]
	orrs	r0, r1
	beq	.LBBf83f1_22
	ldr	r0, [sp, #12]
	b	.LBBf83f1_21
.LBBf83f1_18:
	ldr	r0, [sp, #36]
	b	.LBBf83f1_21
.LBBf83f1_19:
	ldr	r0, [sp, #32]
	b	.LBBf83f1_21
.LBBf83f1_20:
	ldr	r0, [sp, #28]
.LBBf83f1_21:
	bl	rattle_dealloc
.LBBf83f1_22:
	movs	r0, #0
	strb.w	r0, [r8, #2632]
.LBBf83f1_23:
	add.w	sp, sp, #4480
	add	sp, #4
	pop.w	{r4, r5, r6, r7, r8, r9, r10, r11, pc}
.Lfunc_endf83f1:
	.size	tuv_peer_method_begin, .Lfunc_endf83f1-tuv_peer_method_begin
	.cantunwind
	.fnend

	.section	.text.tuv_port_aaa_timeout,"ax",%progbits
	.globl	tuv_port_aaa_timeout
	.p2align	2
	.type	tuv_port_aaa_timeout,%function
	.code	16
	.thumb_func
tuv_port_aaa_timeout:
	.fnstart
	.save	{r4, r5, r6, lr}
	push	{r4, r5, r6, lr}
	.pad	#1560
	sub.w	sp, sp, #1560
	ldr	r5, [r0]
	movs	r0, #0
	ldrb	r1, [r5]
	str	r0, [sp, #28]
	cmp	r1, #8
	str	r0, [sp, #24]
	bne	.LBB2bcdc_4
	add	r0, sp, #40
	mov.w	r1, #1512
	add.w	r6, r5, #8
	bl	__aeabi_memclr8
	ldrb	r0, [r5, #29]
	cmp	r0, #1
	bne	.LBB2bcdc_5
	ldrb.w	r0, [r5, #34]
	cmp	r0, #23
	bne	.LBB2bcdc_5
	addw	r0, sp, #1557
	add	r2, sp, #40
	mov	r1, r6
	bl	"switch_port::machine::SwitchPort::connect"
	ldrb.w	r4, [sp, #1557]
	ldrb.w	r3, [sp, #1558]
	ldrb.w	r2, [sp, #1559]
	ldr.w	r0, [sp, #1544]
	ldr.w	r1, [sp, #1548]
	b	.LBB2bcdc_6
.LBB2bcdc_4:
	mov.w	r1, #16777216
	strb.w	r0, [r5, #2632]
	strd	r1, r0, [sp, #24]
	b	.LBB2bcdc_7
.LBB2bcdc_5:
	movs	r0, #0
	movs	r1, #0
	movs	r2, #0
	movs	r3, #0
	movs	r4, #0
.LBB2bcdc_6:
	strb.w	r2, [sp, #39]
	ldr.w	r2, [r5, #1560]
	strb.w	r3, [sp, #38]
	addw	r3, r5, #2632
	stm.w	sp, {r0, r1, r6}
	str	r2, [sp, #12]
	add	r0, sp, #24
	add.w	r1, sp, #37
	add	r2, sp, #40
	strb.w	r4, [sp, #37]
	str	r3, [sp, #16]
	bl	"tuvaddri_c::port_turn::TuvPortTurn::of"
.LBB2bcdc_7:
	ldrd	r0, r1, [sp, #24]
	add.w	sp, sp, #1560
	pop	{r4, r5, r6, pc}
.Lfunc_end2bcdc:
	.size	tuv_port_aaa_timeout, .Lfunc_end2bcdc-tuv_port_aaa_timeout
	.cantunwind
	.fnend

	.section	.text.tuv_port_answer,"ax",%progbits
	.globl	tuv_port_answer
	.p2align	2
	.type	tuv_port_answer,%function
	.code	16
	.thumb_func
tuv_port_answer:
	.fnstart
	.save	{r4, r5, r6, r7, r8, r9, r10, r11, lr}
	push.w	{r4, r5, r6, r7, r8, r9, r10, r11, lr}
	.pad	#1620
	subw	sp, sp, #1620
	cmp	r2, #0
	it	eq
	addeq.w	r2, r2, #4096
	ldr	r7, [r0]
	uxtb	r0, r1
	mov.w	r9, #0
	cmp	r0, #2
	str.w	r9, [sp, #28]
	str.w	r9, [sp, #24]
	beq	.LBBc39ca_5
	cmp	r0, #3
	beq	.LBBc39ca_4
	cmp	r0, #11
	bne	.LBBc39ca_13
	movs	r5, #0
	mov.w	r9, #1
	b	.LBBc39ca_6
.LBBc39ca_4:
	movs	r5, #2
	b	.LBBc39ca_6
.LBBc39ca_5:
	movs	r5, #1
.LBBc39ca_6:
	ldrb	r0, [r7]
	cmp	r0, #8
	bne	.LBBc39ca_12
	add.w	r11, sp, #32
	mov	r0, r11
	mov.w	r1, #1512
	mov	r6, r2
	add.w	r4, r7, #8
	bl	__aeabi_memclr8
	ldrb	r0, [r7, #29]
	mov.w	r8, #0
	cmp	r0, #1
	str.w	r8, [sp, #1564]
	str.w	r8, [sp, #1560]
	str.w	r8, [sp, #1556]
	str.w	r8, [sp, #1552]
	str.w	r8, [sp, #1548]
	str.w	r8, [sp, #1544]
	bne	.LBBc39ca_14
	ldrb.w	r0, [r7, #34]
	cmp	r0, #23
	bne	.LBBc39ca_15
	add.w	r4, sp, #1568
	ldr.w	r10, [sp, #1656]
	mov	r0, r4
	movs	r1, #48
	bl	__aeabi_memclr8
	mov	r0, r4
	ldr.w	r4, [sp, #1660]
	mov	r1, r6
	mov	r2, r10
	mov	r3, r4
	bl	"eap_packet::packet::decode"
	ldrb.w	r0, [sp, #1568]
	cbz	r0, .LBBc39ca_16
.LBBc39ca_10:
	cmp.w	r9, #0
	beq	.LBBc39ca_20
.LBBc39ca_11:
	movs	r0, #0
	movs	r1, #3
	movs	r2, #4
	movs	r3, #0
	b	.LBBc39ca_21
.LBBc39ca_12:
	movs	r0, #0
	mov.w	r1, #16777216
	strb.w	r0, [r7, #2632]
	strd	r1, r0, [sp, #24]
	b	.LBBc39ca_23
.LBBc39ca_13:
	movs	r1, #0
	strb.w	r1, [r7, #2632]
	mov.w	r0, #16777216
	addw	sp, sp, #1620
	pop.w	{r4, r5, r6, r7, r8, r9, r10, r11, pc}
.LBBc39ca_14:
	movs	r1, #3
	movs	r2, #2
	movs	r0, #0
	movs	r3, #0
	b	.LBBc39ca_22
.LBBc39ca_15:
	movs	r0, #0
	movs	r1, #3
	movs	r2, #2
	movs	r3, #0
	b	.LBBc39ca_22
.LBBc39ca_16:
	ldrb.w	r0, [sp, #1576]
.LCPIc39ca_0:
	tbb	[pc, r0]
.LJTIc39ca_0:
	.byte	(.LBBc39ca_19-(.LCPIc39ca_0+4))/2
	.byte	(.LBBc39ca_18-(.LCPIc39ca_0+4))/2
	.byte	(.LBBc39ca_24-(.LCPIc39ca_0+4))/2
	.byte	(.LBBc39ca_27-(.LCPIc39ca_0+4))/2
	.p2align	1
.LBBc39ca_18:
	b	.LBBc39ca_10
.LBBc39ca_19:
	cmp.w	r9, #0
	bne	.LBBc39ca_26
.LBBc39ca_20:
	ldr	r1, [r7, #8]
	movs	r0, #3
	strh.w	r0, [r7, #29]
	str.w	r1, [r7, #1556]
	movs	r0, #0
	movs	r3, #0
	movs	r2, #0
	movs	r1, #0
.LBBc39ca_21:
	add.w	r4, r7, #8
.LBBc39ca_22:
	strb.w	r1, [sp, #1568]
	ldr.w	r1, [r7, #1560]
	strb.w	r2, [sp, #1569]
	addw	r7, r7, #2632
	stm.w	sp, {r0, r3, r4}
	str	r1, [sp, #12]
	add	r0, sp, #24
	add.w	r1, sp, #1568
	add	r2, sp, #32
	strb.w	r8, [sp, #1570]
	str	r7, [sp, #16]
	bl	"tuvaddri_c::port_turn::TuvPortTurn::of"
.LBBc39ca_23:
	ldrd	r0, r1, [sp, #24]
	addw	sp, sp, #1620
	pop.w	{r4, r5, r6, r7, r8, r9, r10, r11, pc}
.LBBc39ca_24:
	cmp	r5, #0
	beq	.LBBc39ca_11
	cmp	r5, #1
	bne	.LBBc39ca_20
.LBBc39ca_26:
	ldr.w	r0, [sp, #1656]
	add.w	r1, r7, #32
	strd	r0, r4, [sp]
	add.w	r0, sp, #1544
	mov	r2, r6
	str.w	r11, [sp, #8]
	bl	"pass_through::machine::PassThrough::from_backend_step"
	add.w	r4, r7, #8
	mov	r0, r4
	mov	r1, r5
	bl	"switch_port::machine::SwitchPort::settle"
	ldrb.w	r1, [sp, #1562]
	ldr.w	r0, [sp, #1536]
	ldr.w	r3, [sp, #1540]
	movs	r2, #0
	b	.LBBc39ca_22
.LBBc39ca_27:
	cmp	r5, #0
	beq.w	.LBBc39ca_11
	cmp	r5, #2
	beq	.LBBc39ca_26
	b	.LBBc39ca_20
.Lfunc_endc39ca:
	.size	tuv_port_answer, .Lfunc_endc39ca-tuv_port_answer
	.cantunwind
	.fnend

	.section	.text.tuv_port_begin,"ax",%progbits
	.globl	tuv_port_begin
	.p2align	2
	.type	tuv_port_begin,%function
	.code	16
	.thumb_func
tuv_port_begin:
	.fnstart
	.save	{r4, r5, r6, r7, r8, r9, r10, r11, lr}
	push.w	{r4, r5, r6, r7, r8, r9, r10, r11, lr}
	.pad	#44
	sub	sp, #44
	mov	r7, r1
	uxtb	r1, r2
	cmp	r1, #10
	bls	.LBBd6ea2_2
	movs	r0, #7
	add	sp, #44
	pop.w	{r4, r5, r6, r7, r8, r9, r10, r11, pc}
.LBBd6ea2_2:
	mov	r4, r3
	mov	r5, r2
	mov	r6, r0
	bl	"tuvaddri_c::sent::empty_frame"
	uxtb	r0, r0
	cmp	r0, #1
	mov.w	r0, #8
	bne.w	.LBBd6ea2_19
	ldr	r6, [r6]
	mov	r10, r1
	ldm.w	r4, {r1, r2, lr}
	ldr.w	r12, [r4, #12]
	ldrb	r3, [r4, #16]
	ldrb.w	r11, [r6]
	str	r0, [r6]
	ldr.w	r0, [r6, #1560]
	ldr	r4, [r6, #8]
	str	r0, [sp, #16]
	ldr.w	r0, [r6, #1976]
	str	r4, [sp, #28]
	ldr	r4, [r6, #28]
	str	r0, [sp, #12]
	ldr.w	r0, [r6, #2296]
	str	r4, [sp, #40]
	ldr	r4, [r6, #24]
	str	r0, [sp, #4]
	ldr.w	r0, [r6, #2316]
	str	r4, [sp, #36]
	ldr.w	r4, [r6, #1328]
	str	r0, [sp, #8]
	movs	r0, #0
	str	r4, [sp, #24]
	ldr.w	r4, [r6, #1528]
	str	r0, [r6, #4]
	str.w	r0, [r6, #25]
	str	r0, [r6, #28]
	ldr.w	r0, [r6, #2624]
	str	r4, [sp, #20]
	str	r1, [r6, #8]
	ldr.w	r8, [r6, #2312]
	ldr.w	r9, [r6, #2328]
	strb.w	r7, [r6, #32]
	ldr.w	r4, [r6, #2348]
	strb.w	r5, [r6, #33]
	ldr.w	r5, [r6, #2344]
	ldr.w	r7, [r6, #2352]
	str	r0, [sp, #32]
	add.w	r0, r6, #34
	movw	r1, #1526
	str	r2, [r6, #12]
	str.w	lr, [r6, #16]
	str.w	r12, [r6, #20]
	strb	r3, [r6, #24]
	bl	__aeabi_memclr
	addw	r0, r6, #1564
	movw	r1, #1068
	str.w	r10, [r6, #1560]
	bl	__aeabi_memclr
.LCPId6ea2_0:
	tbb	[pc, r11]
.LJTId6ea2_0:
	.byte	(.LBBd6ea2_18-(.LCPId6ea2_0+4))/2
	.byte	(.LBBd6ea2_14-(.LCPId6ea2_0+4))/2
	.byte	(.LBBd6ea2_8-(.LCPId6ea2_0+4))/2
	.byte	(.LBBd6ea2_12-(.LCPId6ea2_0+4))/2
	.byte	(.LBBd6ea2_5-(.LCPId6ea2_0+4))/2
	.byte	(.LBBd6ea2_5-(.LCPId6ea2_0+4))/2
	.byte	(.LBBd6ea2_15-(.LCPId6ea2_0+4))/2
	.byte	(.LBBd6ea2_9-(.LCPId6ea2_0+4))/2
	.byte	(.LBBd6ea2_16-(.LCPId6ea2_0+4))/2
	.p2align	1
.LBBd6ea2_5:
	ldrd	r1, r0, [sp, #36]
	orrs	r0, r1
	beq	.LBBd6ea2_7
	ldr	r0, [sp, #28]
	bl	rattle_dealloc
.LBBd6ea2_7:
	ldr	r0, [sp, #32]
	b	.LBBd6ea2_17
.LBBd6ea2_8:
	ldr	r0, [sp, #12]
	b	.LBBd6ea2_17
.LBBd6ea2_9:
	orrs.w	r0, r5, r4
	beq	.LBBd6ea2_11
	mov	r0, r9
	bl	rattle_dealloc
.LBBd6ea2_11:
	mov	r0, r7
	b	.LBBd6ea2_17
.LBBd6ea2_12:
	ldr	r0, [sp, #8]
	orrs.w	r0, r0, r8
	beq	.LBBd6ea2_18
	ldr	r0, [sp, #4]
	b	.LBBd6ea2_17
.LBBd6ea2_14:
	ldr	r0, [sp, #24]
	b	.LBBd6ea2_17
.LBBd6ea2_15:
	ldr	r0, [sp, #20]
	b	.LBBd6ea2_17
.LBBd6ea2_16:
	ldr	r0, [sp, #16]
.LBBd6ea2_17:
	bl	rattle_dealloc
.LBBd6ea2_18:
	movs	r0, #0
	strb.w	r0, [r6, #2632]
.LBBd6ea2_19:
	add	sp, #44
	pop.w	{r4, r5, r6, r7, r8, r9, r10, r11, pc}
.Lfunc_endd6ea2:
	.size	tuv_port_begin, .Lfunc_endd6ea2-tuv_port_begin
	.cantunwind
	.fnend

	.section	.text.tuv_port_control,"ax",%progbits
	.globl	tuv_port_control
	.p2align	2
	.type	tuv_port_control,%function
	.code	16
	.thumb_func
tuv_port_control:
	.fnstart
	.save	{r4, r5, r6, r7, lr}
	push	{r4, r5, r6, r7, lr}
	.pad	#1548
	subw	sp, sp, #1548
	mov	r2, r1
	ldr	r5, [r0]
	subs	r0, r2, #1
	uxtb	r2, r0
	movs	r1, #0
	cmp	r2, #2
	str	r1, [sp, #28]
	str	r1, [sp, #24]
	bhi	.LBB1cd35_4
	ldrb	r1, [r5]
	cmp	r1, #8
	bne	.LBB1cd35_5
	lsls	r0, r0, #3
	movs	r1, #2
	uxtb	r0, r0
	movt	r1, #1
	lsr.w	r4, r1, r0
	add	r0, sp, #32
	mov.w	r1, #1512
	uxtb	r7, r4
	add.w	r6, r5, #8
	bl	__aeabi_memclr8
	ldrb	r0, [r5, #28]
	cmp	r0, r7
	mov.w	r0, #0
	bne	.LBB1cd35_6
	movs	r1, #0
	movs	r2, #0
	movs	r3, #0
	movs	r4, #0
	b	.LBB1cd35_9
.LBB1cd35_4:
	strb.w	r1, [r5, #2632]
	mov.w	r0, #16777216
	addw	sp, sp, #1548
	pop	{r4, r5, r6, r7, pc}
.LBB1cd35_5:
	movs	r0, #0
	mov.w	r1, #16777216
	strb.w	r0, [r5, #2632]
	strd	r1, r0, [sp, #24]
	b	.LBB1cd35_10
.LBB1cd35_6:
	ldrb	r1, [r5, #29]
	strb	r4, [r5, #28]
	strb.w	r0, [sp, #1546]
	strh.w	r0, [sp, #1544]
	cbz	r1, .LBB1cd35_8
	add.w	r0, sp, #1544
	add	r2, sp, #32
	mov	r1, r6
	bl	"switch_port::machine::SwitchPort::begin"
	ldrb.w	r2, [sp, #1544]
	ldrb.w	r3, [sp, #1545]
	ldrb.w	r4, [sp, #1546]
	ldr.w	r0, [sp, #1536]
	ldr.w	r1, [sp, #1540]
	b	.LBB1cd35_9
.LBB1cd35_8:
	strb	r0, [r5, #30]
	movs	r1, #0
	movs	r4, #0
	movs	r3, #0
	movs	r2, #0
.LBB1cd35_9:
	strb.w	r2, [sp, #1544]
	ldr.w	r2, [r5, #1560]
	strb.w	r3, [sp, #1545]
	addw	r3, r5, #2632
	stm.w	sp, {r0, r1, r6}
	str	r2, [sp, #12]
	add	r0, sp, #24
	add.w	r1, sp, #1544
	add	r2, sp, #32
	strb.w	r4, [sp, #1546]
	str	r3, [sp, #16]
	bl	"tuvaddri_c::port_turn::TuvPortTurn::of"
.LBB1cd35_10:
	ldrd	r0, r1, [sp, #24]
	addw	sp, sp, #1548
	pop	{r4, r5, r6, r7, pc}
.Lfunc_end1cd35:
	.size	tuv_port_control, .Lfunc_end1cd35-tuv_port_control
	.cantunwind
	.fnend

	.section	.text.tuv_port_frame,"ax",%progbits
	.globl	tuv_port_frame
	.p2align	2
	.type	tuv_port_frame,%function
	.code	16
	.thumb_func
tuv_port_frame:
	.fnstart
	.save	{r4, r5, r6, r7, r8, r9, r10, lr}
	push.w	{r4, r5, r6, r7, r8, r9, r10, lr}
	.pad	#1600
	sub.w	sp, sp, #1600
	ldr.w	r10, [r0]
	movs	r5, #0
	ldrb.w	r0, [r10]
	str	r5, [sp, #28]
	cmp	r0, #8
	str	r5, [sp, #24]
	bne	.LBBdda28_3
	cmp	r1, #0
	it	eq
	addeq.w	r1, r1, #4096
	add.w	r9, sp, #32
	mov	r0, r9
	mov	r6, r1
	mov.w	r1, #1512
	add.w	r8, r10, #8
	mov	r7, r3
	mov	r4, r2
	bl	__aeabi_memclr8
	add.w	r0, sp, #1544
	mov	r1, r6
	mov	r2, r4
	mov	r3, r7
	str.w	r5, [sp, #1572]
	str.w	r5, [sp, #1568]
	str.w	r5, [sp, #1564]
	str.w	r5, [sp, #1560]
	str.w	r5, [sp, #1556]
	str.w	r5, [sp, #1552]
	str.w	r5, [sp, #1548]
	str.w	r5, [sp, #1544]
	bl	"eapol_frame::frame::read_frame"
	ldrb.w	r0, [sp, #1544]
	cmp	r0, #1
	bne	.LBBdda28_4
	ldrb.w	r0, [sp, #1545]
	movs	r1, #0
	movs	r2, #3
	b	.LBBdda28_21
.LBBdda28_3:
	mov.w	r0, #16777216
	strb.w	r5, [r10, #2632]
	strd	r0, r5, [sp, #24]
	b	.LBBdda28_22
.LBBdda28_4:
	ldrb.w	r1, [sp, #1553]
	movs	r0, #0
	cmp	r1, #2
	beq	.LBBdda28_13
	cmp	r1, #1
	beq	.LBBdda28_10
	cmp	r1, #0
	bne	.LBBdda28_16
	ldrb.w	r1, [r10, #29]
	ldr.w	r2, [sp, #1560]
	ldr.w	r3, [sp, #1572]
	ldr.w	r7, [sp, #1568]
	cmp	r1, #1
	str.w	r0, [sp, #1596]
	str.w	r0, [sp, #1592]
	bne	.LBBdda28_17
	add.w	r1, r10, #32
	add.w	r0, sp, #1576
	strd	r7, r3, [sp]
	str.w	r9, [sp, #8]
	bl	"pass_through::machine::PassThrough::from_peer_step"
	ldrb.w	r0, [sp, #1592]
	cmp	r0, #1
	bne	.LBBdda28_23
	ldrb.w	r0, [sp, #1593]
	movs	r2, #3
	movs	r1, #3
	b	.LBBdda28_21
.LBBdda28_10:
	movs	r1, #0
	ldrb.w	r0, [r10, #29]
	strb.w	r1, [sp, #1578]
	strh.w	r1, [sp, #1576]
.LCPIdda28_0:
	tbb	[pc, r0]
.LJTIdda28_1:
	.byte	(.LBBdda28_15-(.LCPIdda28_0+4))/2
	.byte	(.LBBdda28_12-(.LCPIdda28_0+4))/2
	.byte	(.LBBdda28_12-(.LCPIdda28_0+4))/2
	.byte	(.LBBdda28_15-(.LCPIdda28_0+4))/2
	.byte	(.LBBdda28_18-(.LCPIdda28_0+4))/2
	.byte	(.LBBdda28_18-(.LCPIdda28_0+4))/2
	.p2align	1
.LBBdda28_12:
	add.w	r0, sp, #1576
	add	r2, sp, #32
	mov	r1, r8
	bl	"switch_port::machine::SwitchPort::connect"
	b	.LBBdda28_20
.LBBdda28_13:
	ldrb.w	r1, [r10, #29]
	strb.w	r0, [sp, #1578]
	strh.w	r0, [sp, #1576]
.LCPIdda28_1:
	tbb	[pc, r1]
.LJTIdda28_0:
	.byte	(.LBBdda28_15-(.LCPIdda28_1+4))/2
	.byte	(.LBBdda28_19-(.LCPIdda28_1+4))/2
	.byte	(.LBBdda28_19-(.LCPIdda28_1+4))/2
	.byte	(.LBBdda28_15-(.LCPIdda28_1+4))/2
	.byte	(.LBBdda28_15-(.LCPIdda28_1+4))/2
	.byte	(.LBBdda28_15-(.LCPIdda28_1+4))/2
	.p2align	1
.LBBdda28_15:
	movw	r0, #515
	strh.w	r0, [sp, #1576]
	b	.LBBdda28_20
.LBBdda28_16:
	movs	r1, #1
	movs	r2, #3
	b	.LBBdda28_21
.LBBdda28_17:
	movs	r1, #2
	movs	r2, #3
	b	.LBBdda28_21
.LBBdda28_18:
	add.w	r0, sp, #1576
	add	r2, sp, #32
	mov	r1, r8
	bl	"switch_port::machine::SwitchPort::begin"
	b	.LBBdda28_20
.LBBdda28_19:
	add.w	r0, sp, #1576
	add	r2, sp, #32
	mov	r1, r8
	bl	"switch_port::machine::SwitchPort::disconnect"
.LBBdda28_20:
	ldrb.w	r2, [sp, #1576]
	ldrb.w	r1, [sp, #1577]
	ldrb.w	r0, [sp, #1578]
.LBBdda28_21:
	strb.w	r0, [sp, #1578]
	ldr.w	r0, [sp, #1536]
	strb.w	r2, [sp, #1576]
	strb.w	r1, [sp, #1577]
	ldr.w	r1, [sp, #1540]
	ldr.w	r3, [r10, #1560]
	addw	r2, r10, #2632
	stm.w	sp, {r0, r1, r8}
	str	r2, [sp, #16]
	add	r0, sp, #24
	add.w	r1, sp, #1576
	add	r2, sp, #32
	str	r3, [sp, #12]
	bl	"tuvaddri_c::port_turn::TuvPortTurn::of"
.LBBdda28_22:
	ldrd	r0, r1, [sp, #24]
	add.w	sp, sp, #1600
	pop.w	{r4, r5, r6, r7, r8, r9, r10, pc}
.LBBdda28_23:
	ldr.w	r0, [r10, #12]
	ldrb.w	r1, [sp, #1594]
	str.w	r0, [r10, #1556]
	lsls	r2, r1, #1
	movs	r1, #0
	movs	r0, #0
	b	.LBBdda28_21
.Lfunc_enddda28:
	.size	tuv_port_frame, .Lfunc_enddda28-tuv_port_frame
	.cantunwind
	.fnend

	.section	.text.tuv_port_link,"ax",%progbits
	.globl	tuv_port_link
	.p2align	2
	.type	tuv_port_link,%function
	.code	16
	.thumb_func
tuv_port_link:
	.fnstart
	.save	{r4, r5, r6, r7, lr}
	push	{r4, r5, r6, r7, lr}
	.pad	#1556
	subw	sp, sp, #1556
	ldr	r6, [r0]
	movs	r7, #0
	ldrb	r0, [r6]
	str	r7, [sp, #28]
	cmp	r0, #8
	str	r7, [sp, #24]
	bne	.LBB3e1e0_4
	mov	r5, r1
	add	r0, sp, #40
	mov.w	r1, #1512
	add.w	r4, r6, #8
	bl	__aeabi_memclr8
	lsls	r0, r5, #24
	strb.w	r7, [sp, #1554]
	strh.w	r7, [sp, #1552]
	beq	.LBB3e1e0_5
	ldrb	r0, [r6, #29]
	cbz	r0, .LBB3e1e0_7
	movs	r0, #0
	b	.LBB3e1e0_6
.LBB3e1e0_4:
	mov.w	r0, #16777216
	strb.w	r7, [r6, #2632]
	strd	r0, r7, [sp, #24]
	b	.LBB3e1e0_9
.LBB3e1e0_5:
	movs	r0, #0
	strh.w	r0, [r6, #29]
.LBB3e1e0_6:
	movs	r1, #0
	movs	r2, #0
	movs	r3, #0
	movs	r7, #0
	b	.LBB3e1e0_8
.LBB3e1e0_7:
	add.w	r0, sp, #1552
	add	r2, sp, #40
	mov	r1, r4
	bl	"switch_port::machine::SwitchPort::begin"
	ldrb.w	r2, [sp, #1552]
	ldrb.w	r3, [sp, #1553]
	ldrb.w	r7, [sp, #1554]
	ldr.w	r0, [sp, #1544]
	ldr.w	r1, [sp, #1548]
.LBB3e1e0_8:
	strb.w	r2, [sp, #37]
	ldr.w	r2, [r6, #1560]
	strb.w	r3, [sp, #38]
	addw	r3, r6, #2632
	stm.w	sp, {r0, r1, r4}
	str	r2, [sp, #12]
	add	r0, sp, #24
	add.w	r1, sp, #37
	add	r2, sp, #40
	strb.w	r7, [sp, #39]
	str	r3, [sp, #16]
	bl	"tuvaddri_c::port_turn::TuvPortTurn::of"
.LBB3e1e0_9:
	ldrd	r0, r1, [sp, #24]
	addw	sp, sp, #1556
	pop	{r4, r5, r6, r7, pc}
.Lfunc_end3e1e0:
	.size	tuv_port_link, .Lfunc_end3e1e0-tuv_port_link
	.cantunwind
	.fnend

	.section	.text.tuv_port_reauthenticate,"ax",%progbits
	.globl	tuv_port_reauthenticate
	.p2align	2
	.type	tuv_port_reauthenticate,%function
	.code	16
	.thumb_func
tuv_port_reauthenticate:
	.fnstart
	.save	{r4, r5, r6, lr}
	push	{r4, r5, r6, lr}
	.pad	#1560
	sub.w	sp, sp, #1560
	ldr	r5, [r0]
	movs	r0, #0
	ldrb	r1, [r5]
	str	r0, [sp, #28]
	cmp	r1, #8
	str	r0, [sp, #24]
	bne	.LBB405ea_3
	add	r0, sp, #40
	mov.w	r1, #1512
	add.w	r6, r5, #8
	bl	__aeabi_memclr8
	ldrb	r0, [r5, #29]
	cmp	r0, #2
	bne	.LBB405ea_4
	addw	r0, sp, #1557
	add	r2, sp, #40
	mov	r1, r6
	bl	"switch_port::machine::SwitchPort::connect"
	ldrb.w	r4, [sp, #1557]
	ldrb.w	r3, [sp, #1558]
	ldrb.w	r2, [sp, #1559]
	ldr.w	r0, [sp, #1544]
	ldr.w	r1, [sp, #1548]
	b	.LBB405ea_5
.LBB405ea_3:
	mov.w	r1, #16777216
	strb.w	r0, [r5, #2632]
	strd	r1, r0, [sp, #24]
	b	.LBB405ea_6
.LBB405ea_4:
	movs	r0, #0
	movs	r1, #0
	movs	r2, #0
	movs	r3, #0
	movs	r4, #0
.LBB405ea_5:
	strb.w	r2, [sp, #39]
	ldr.w	r2, [r5, #1560]
	strb.w	r3, [sp, #38]
	addw	r3, r5, #2632
	stm.w	sp, {r0, r1, r6}
	str	r2, [sp, #12]
	add	r0, sp, #24
	add.w	r1, sp, #37
	add	r2, sp, #40
	strb.w	r4, [sp, #37]
	str	r3, [sp, #16]
	bl	"tuvaddri_c::port_turn::TuvPortTurn::of"
.LBB405ea_6:
	ldrd	r0, r1, [sp, #24]
	add.w	sp, sp, #1560
	pop	{r4, r5, r6, pc}
.Lfunc_end405ea:
	.size	tuv_port_reauthenticate, .Lfunc_end405ea-tuv_port_reauthenticate
	.cantunwind
	.fnend

	.section	.text.tuv_port_second,"ax",%progbits
	.globl	tuv_port_second
	.p2align	2
	.type	tuv_port_second,%function
	.code	16
	.thumb_func
tuv_port_second:
	.fnstart
	.save	{r4, r5, r6, lr}
	push	{r4, r5, r6, lr}
	.pad	#1576
	sub.w	sp, sp, #1576
	ldr	r5, [r0]
	movs	r0, #0
	ldrb	r1, [r5]
	str	r0, [sp, #28]
	cmp	r1, #8
	str	r0, [sp, #24]
	bne	.LBBc8339_8
	add	r0, sp, #32
	mov.w	r1, #1512
	add.w	r6, r5, #8
	bl	__aeabi_memclr8
	ldr.w	r0, [r5, #1556]
	cmp	r0, #1
	bhi	.LBBc8339_9
	ldrb	r3, [r5, #29]
	movs	r0, #0
	movs	r2, #0
	movs	r1, #0
.LCPIc8339_0:
	tbb	[pc, r3]
.LJTIc8339_0:
	.byte	(.LBBc8339_12-(.LCPIc8339_0+4))/2
	.byte	(.LBBc8339_4-(.LCPIc8339_0+4))/2
	.byte	(.LBBc8339_10-(.LCPIc8339_0+4))/2
	.byte	(.LBBc8339_11-(.LCPIc8339_0+4))/2
	.byte	(.LBBc8339_12-(.LCPIc8339_0+4))/2
	.byte	(.LBBc8339_12-(.LCPIc8339_0+4))/2
	.p2align	1
.LBBc8339_4:
	ldrb.w	r0, [r5, #34]
	cmp	r0, #26
	beq	.LBBc8339_6
	cmp	r0, #1
	bne	.LBBc8339_11
.LBBc8339_6:
	movs	r0, #0
	add.w	r1, r5, #32
	str.w	r0, [sp, #1572]
	str.w	r0, [sp, #1568]
	add.w	r0, sp, #1552
	add	r2, sp, #32
	bl	"pass_through::machine::PassThrough::timeout_step"
	ldrb.w	r0, [r5, #34]
	bl	"pass_through::states::is_over"
	cmp	r0, #0
	beq	.LBBc8339_16
	addw	r0, sp, #1549
	add	r2, sp, #32
	mov	r1, r6
	bl	"switch_port::machine::SwitchPort::connect"
	ldrb.w	r1, [sp, #1549]
	ldrb.w	r2, [sp, #1550]
	ldrb.w	r0, [sp, #1551]
	b	.LBBc8339_12
.LBBc8339_8:
	mov.w	r1, #16777216
	strb.w	r0, [r5, #2632]
	strd	r1, r0, [sp, #24]
	b	.LBBc8339_14
.LBBc8339_9:
	subs	r0, #1
	str.w	r0, [r5, #1556]
	movs	r3, #0
	movs	r4, #0
	movs	r1, #0
	movs	r2, #0
	movs	r0, #0
	b	.LBBc8339_13
.LBBc8339_10:
	ldr	r0, [r5, #20]
	cbz	r0, .LBBc8339_15
.LBBc8339_11:
	add.w	r0, sp, #1552
	add	r2, sp, #32
	mov	r1, r6
	bl	"switch_port::machine::SwitchPort::connect"
	ldrb.w	r1, [sp, #1552]
	ldrb.w	r2, [sp, #1553]
	ldrb.w	r0, [sp, #1554]
.LBBc8339_12:
	ldr.w	r3, [sp, #1536]
	ldr.w	r4, [sp, #1540]
.LBBc8339_13:
	strb.w	r0, [sp, #1554]
	ldr.w	r0, [r5, #1560]
	strb.w	r1, [sp, #1552]
	strb.w	r2, [sp, #1553]
	addw	r5, r5, #2632
	str	r0, [sp, #12]
	add	r0, sp, #24
	add.w	r1, sp, #1552
	add	r2, sp, #32
	stm.w	sp, {r3, r4, r6}
	str	r5, [sp, #16]
	bl	"tuvaddri_c::port_turn::TuvPortTurn::of"
.LBBc8339_14:
	ldrd	r0, r1, [sp, #24]
	add.w	sp, sp, #1576
	pop	{r4, r5, r6, pc}
.LBBc8339_15:
	movs	r0, #0
	b	.LBBc8339_12
.LBBc8339_16:
	ldr	r0, [r5, #16]
	ldrb.w	r1, [sp, #1570]
	str.w	r0, [r5, #1556]
	movs	r0, #0
	movs	r2, #0
	b	.LBBc8339_12
.Lfunc_endc8339:
	.size	tuv_port_second, .Lfunc_endc8339-tuv_port_second
	.cantunwind
	.fnend

	.section	.text.tuv_server_begin,"ax",%progbits
	.globl	tuv_server_begin
	.p2align	2
	.type	tuv_server_begin,%function
	.code	16
	.thumb_func
tuv_server_begin:
	.fnstart
	.save	{r4, r5, r6, r7, r8, r9, r10, r11, lr}
	push.w	{r4, r5, r6, r7, r8, r9, r10, r11, lr}
	.pad	#1428
	subw	sp, sp, #1428
	ldr.w	r8, [sp, #1464]
	mov	r6, r0
	movs	r4, #0
	mov	r0, r1
	mov	r10, r3
	mov	r5, r2
	mov	r11, r1
	uxtb.w	r7, r8
	strd	r4, r4, [sp, #88]
	strd	r4, r4, [sp, #80]
	strd	r4, r4, [sp, #72]
	strd	r4, r4, [sp, #64]
	bl	"end_objects::refusals::server_refusal"
	cmp	r7, #10
	bhi	.LBBa585f_4
	uxtb	r2, r0
	cmp	r2, #1
	beq	.LBBa585f_4
	add	r4, sp, #96
	mov	r0, r4
	mov	r1, r11
	bl	"end_objects::settings::kinds_of"
	ldrd	r2, r3, [sp, #104]
	add	r0, sp, #64
	mov	r1, r4
	bl	"end_objects::constructors::server_objects"
	ldrb.w	r0, [sp, #64]
	cbz	r0, .LBBa585f_5
.LBBa585f_3:
	movs	r0, #8
	addw	sp, sp, #1428
	pop.w	{r4, r5, r6, r7, r8, r9, r10, r11, pc}
.LBBa585f_4:
	uxtb	r0, r0
	cmp	r7, #10
	it	hi
	movhi	r4, #6
	cmp	r0, #1
	it	eq
	moveq	r4, r1
	adds	r0, r4, #1
	addw	sp, sp, #1428
	pop.w	{r4, r5, r6, r7, r8, r9, r10, r11, pc}
.LBBa585f_5:
	ldr.w	r9, [sp, #72]
	ldrd	r4, r7, [sp, #88]
	bl	"tuvaddri_c::sent::empty_packet"
	uxtb	r0, r0
	cmp	r0, #1
	bne.w	.LBBa585f_11
	movs	r0, #0
	str	r7, [sp, #48]
	add.w	r7, sp, #1160
	str	r5, [sp, #60]
	str.w	r9, [sp, #44]
	ldr.w	r9, [r6]
	str.w	r0, [sp, #115]
	ldr.w	r6, [r11, #8]
	str	r4, [sp, #52]
	ldr.w	r4, [r11, #16]
	ldr.w	r5, [r11, #20]
	str	r0, [sp, #112]
	mov	r0, r7
	str	r1, [sp, #56]
	mov.w	r1, #264
	bl	__aeabi_memclr8
	mov	r0, r7
	mov	r1, r6
	mov	r2, r4
	mov	r3, r5
	bl	"octet_lists::octets::Octets::append::<=253>"
	add	r4, sp, #832
	mov	r0, r4
	mov	r1, r7
	mov.w	r2, #264
	bl	__aeabi_memcpy8
	add.w	r0, r4, #264
	mov	r1, r11
	bl	"end_objects::settings::kinds_of"
	add.w	r0, r4, #280
	mov	r1, r11
	bl	"end_objects::settings::suites_of"
	ldr	r1, [sp, #60]
	add.w	r0, r4, #296
	movs	r2, #32
	bl	__aeabi_memcpy
	ldrb.w	r4, [r11, #76]
	add	r0, sp, #112
	adds	r0, #7
	mov.w	r1, #712
	cmp	r4, #0
	it	ne
	movne	r4, #1
	bl	__aeabi_memclr
	mov	r7, r9
	ldr	r0, [r7, #8]!
	ldrb.w	r5, [r9]
	str	r0, [sp, #32]
	ldr.w	r0, [r9, #28]
	strb.w	r10, [r9, #33]
	str	r0, [sp, #40]
	ldr.w	r0, [r9, #24]
	strb.w	r8, [r9, #34]
	str	r0, [sp, #36]
	ldr.w	r0, [r9, #1328]
	ldr.w	r8, [r9, #2344]
	str	r0, [sp, #28]
	ldr.w	r0, [r9, #1528]
	mov.w	r10, #0
	str	r0, [sp, #24]
	ldr.w	r0, [r9, #1560]
	str.w	r10, [r9, #4]
	str	r0, [sp, #20]
	ldr.w	r0, [r9, #1976]
	strb.w	r10, [r9, #32]
	str	r0, [sp, #16]
	movs	r0, #4
	str.w	r0, [r9]
	ldr	r0, [sp, #44]
	str.w	r10, [r9, #35]
	str	r0, [r7]
	ldrd	r0, r1, [sp, #76]
	add.w	r6, r9, #1576
	str.w	r0, [r9, #12]
	ldr	r0, [sp, #84]
	str.w	r1, [r9, #16]
	str.w	r0, [r9, #20]
	ldr.w	r0, [r9, #2316]
	ldr.w	r1, [r9, #2296]
	str	r0, [sp, #44]
	ldr	r0, [sp, #48]
	str	r1, [sp, #4]
	str.w	r0, [r9, #28]
	ldr.w	r0, [r9, #2312]
	movw	r1, #1535
	str	r0, [sp, #48]
	ldr	r0, [sp, #52]
	str.w	r0, [r9, #24]
	ldr.w	r0, [r9, #2328]
	str	r0, [sp]
	ldr.w	r0, [r9, #2348]
	str	r0, [sp, #8]
	mov.w	r0, #256
	strh.w	r0, [r9, #39]
	ldr.w	r0, [r9, #2352]
	str	r0, [sp, #12]
	ldr.w	r0, [r9, #2624]
	str	r0, [sp, #52]
	add.w	r0, r9, #41
	bl	__aeabi_memclr
	mov	r0, r6
	add	r1, sp, #832
	mov.w	r2, #328
	bl	__aeabi_memcpy
	addw	r0, r9, #1905
	add	r1, sp, #112
	movw	r2, #719
	strb.w	r4, [r9, #1904]
	bl	__aeabi_memcpy
	ldr	r0, [sp, #56]
	str.w	r10, [r9, #2628]
	str.w	r0, [r9, #2624]
.LCPIa585f_0:
	tbb	[pc, r5]
.LJTIa585f_0:
	.byte	(.LBBa585f_23-(.LCPIa585f_0+4))/2
	.byte	(.LBBa585f_19-(.LCPIa585f_0+4))/2
	.byte	(.LBBa585f_13-(.LCPIa585f_0+4))/2
	.byte	(.LBBa585f_17-(.LCPIa585f_0+4))/2
	.byte	(.LBBa585f_8-(.LCPIa585f_0+4))/2
	.byte	(.LBBa585f_8-(.LCPIa585f_0+4))/2
	.byte	(.LBBa585f_20-(.LCPIa585f_0+4))/2
	.byte	(.LBBa585f_14-(.LCPIa585f_0+4))/2
	.byte	(.LBBa585f_21-(.LCPIa585f_0+4))/2
	.p2align	1
.LBBa585f_8:
	ldrd	r1, r0, [sp, #36]
	orrs	r0, r1
	beq	.LBBa585f_10
	ldr	r0, [sp, #32]
	bl	rattle_dealloc
.LBBa585f_10:
	ldr	r0, [sp, #52]
	b	.LBBa585f_22
.LBBa585f_11:
	orrs.w	r0, r4, r7
	beq.w	.LBBa585f_3
	mov	r0, r9
	bl	rattle_dealloc
	b	.LBBa585f_3
.LBBa585f_13:
	ldr	r0, [sp, #16]
	b	.LBBa585f_22
.LBBa585f_14:
	ldr	r0, [sp, #8]
	orrs.w	r0, r0, r8
	beq	.LBBa585f_16
	ldr	r0, [sp]
	bl	rattle_dealloc
.LBBa585f_16:
	ldr	r0, [sp, #12]
	b	.LBBa585f_22
.LBBa585f_17:
	ldrd	r0, r1, [sp, #44]
	orrs	r0, r1
	beq	.LBBa585f_23
	ldr	r0, [sp, #4]
	b	.LBBa585f_22
.LBBa585f_19:
	ldr	r0, [sp, #28]
	b	.LBBa585f_22
.LBBa585f_20:
	ldr	r0, [sp, #24]
	b	.LBBa585f_22
.LBBa585f_21:
	ldr	r0, [sp, #20]
.LBBa585f_22:
	bl	rattle_dealloc
.LBBa585f_23:
	ldrb.w	r0, [r9]
	cmp	r0, #4
	bne	.LBBa585f_25
	mov	r0, r7
	mov	r1, r11
	bl	"tuvaddri_c::by_method::add_users::<#d37c63745cf5a212>"
	ldr	r1, [sp, #60]
	mov	r0, r7
	bl	"server_machine::machine::SizedServer::make_again::<#575f94f35bca5e04>"
.LBBa585f_25:
	movs	r0, #0
	strb.w	r0, [r9, #2632]
	addw	sp, sp, #1428
	pop.w	{r4, r5, r6, r7, r8, r9, r10, r11, pc}
.Lfunc_enda585f:
	.size	tuv_server_begin, .Lfunc_enda585f-tuv_server_begin
	.cantunwind
	.fnend

	.section	.text.tuv_server_method_begin,"ax",%progbits
	.globl	tuv_server_method_begin
	.p2align	2
	.type	tuv_server_method_begin,%function
	.code	16
	.thumb_func
tuv_server_method_begin:
	.fnstart
	.save	{r4, r5, r6, r7, r8, r9, r10, r11, lr}
	push.w	{r4, r5, r6, r7, r8, r9, r10, r11, lr}
	.pad	#5056
	sub.w	sp, sp, #5056
	.pad	#12
	sub	sp, #12
	mov	r9, r0
	movs	r0, #0
	str.w	r0, [sp, #2548]
	str.w	r0, [sp, #2544]
	mov	r0, r1
	mov	r10, r3
	mov	r11, r2
	mov	r4, r1
	bl	"end_objects::refusals::server_refusal"
	uxtb	r0, r0
	cmp	r0, #1
	bne	.LBB34974_2
	adds	r0, r1, #1
	b	.LBB34974_25
.LBB34974_2:
	bl	"tuvaddri_c::sent::empty_packet"
	uxtb	r0, r0
	cmp	r0, #1
	bne	.LBB34974_5
	addw	r8, sp, #3832
	str	r1, [sp, #60]
	ldr	r6, [r4, #8]
	ldr	r7, [r4, #16]
	ldr	r5, [r4, #20]
	mov	r0, r8
	mov.w	r1, #264
	bl	__aeabi_memclr8
	mov	r0, r8
	mov	r1, r6
	mov	r2, r7
	mov	r3, r5
	bl	"octet_lists::octets::Octets::append::<=253>"
	add.w	r5, sp, #2832
	mov	r0, r5
	mov	r1, r8
	mov.w	r2, #264
	bl	__aeabi_memcpy8
	add.w	r0, r5, #264
	mov	r1, r4
	bl	"end_objects::settings::suites_of"
	addw	r0, sp, #2552
	mov	r1, r5
	mov.w	r2, #280
	bl	__aeabi_memcpy8
	addw	r5, sp, #3832
	mov	r0, r5
	mov	r1, r4
	bl	"end_objects::settings::kinds_of"
	ldrb.w	r6, [sp, #3832]
	add.w	r0, r5, #1144
	movs	r1, #88
	bl	__aeabi_memclr8
	addw	r0, sp, #3832
	cmp	r6, #47
	bne	.LBB34974_6
	mov.w	r1, #1232
	bl	__aeabi_memclr8
	movs	r6, #0
	b	.LBB34974_7
.LBB34974_5:
	movs	r0, #8
	b	.LBB34974_25
.LBB34974_6:
	mov.w	r1, #1144
	bl	__aeabi_memclr8
	movs	r6, #1
.LBB34974_7:
	add	r5, sp, #64
	addw	r1, sp, #3832
	mov	r0, r5
	mov.w	r2, #1232
	bl	__aeabi_memcpy8
	add.w	r7, sp, #1296
	str.w	r6, [sp, #1296]
	add.w	r6, r7, #16
	mov.w	r8, #0
	mov	r0, r6
	mov	r1, r5
	mov.w	r2, #1232
	str.w	r8, [sp, #1300]
	str.w	r8, [sp, #1308]
	str.w	r8, [sp, #1304]
	bl	__aeabi_memcpy8
	addw	r1, sp, #2552
	mov	r0, r7
	mov	r2, r11
	strh.w	r8, [sp, #2544]
	bl	"end_objects::objects::ServerObjectServerMethod::begin"
	mov	r1, r10
	ldr.w	r10, [sp, #60]
	mov	r0, r7
	mov	r2, r10
	bl	"end_objects::objects::ServerObjectServerMethod::first_into"
	ldr.w	r0, [sp, #1304]
	ldr.w	r7, [r9]
	str	r0, [sp, #52]
	ldrh.w	r0, [sp, #2544]
	ldrb.w	r11, [sp, #1296]
	ldr.w	r5, [sp, #1308]
	str	r0, [sp, #56]
	addw	r0, sp, #3832
	mov	r1, r6
	mov.w	r2, #1232
	strh.w	r8, [sp, #3116]
	str.w	r8, [sp, #3112]
	bl	__aeabi_memcpy8
	addw	r6, sp, #3112
	adds	r0, r6, #6
	mov.w	r1, #712
	bl	__aeabi_memclr
	ldr	r0, [r7, #8]
	ldrb.w	r9, [r7]
	str	r0, [sp, #36]
	ldr	r0, [r7, #28]
	str.w	r8, [r7, #4]
	str	r0, [sp, #48]
	mov	r0, r7
	ldr	r1, [r0, #24]!
	str.w	r8, [r7, #12]
	str	r1, [sp, #44]
	ldr.w	r1, [r7, #1328]
	ldr.w	r8, [r7, #2312]
	str	r1, [sp, #32]
	ldr.w	r1, [r7, #1528]
	str.w	r11, [r7, #8]
	str	r1, [sp, #28]
	ldr.w	r1, [r7, #1560]
	str	r5, [r7, #20]
	str	r1, [sp, #24]
	ldr.w	r1, [r7, #1976]
	ldr.w	r5, [r7, #2348]
	str	r1, [sp, #20]
	ldr.w	r1, [r7, #2296]
	ldr.w	r11, [r7, #2344]
	str	r1, [sp, #8]
	movs	r1, #2
	str	r1, [r7]
	ldr.w	r1, [r7, #2316]
	mov.w	r2, #1232
	str	r1, [sp, #12]
	ldr.w	r1, [r7, #2328]
	str	r1, [sp, #4]
	ldr.w	r1, [r7, #2352]
	str	r1, [sp, #16]
	ldr.w	r1, [r7, #2624]
	str	r1, [sp, #40]
	ldr	r1, [sp, #52]
	str	r1, [r7, #16]
	addw	r1, sp, #3832
	bl	__aeabi_memcpy
	ldr	r0, [sp, #56]
	mov	r1, r6
	strh.w	r0, [r7, #1256]
	addw	r0, r7, #1258
	movw	r2, #718
	bl	__aeabi_memcpy
	addw	r0, r7, #1980
	mov.w	r1, #652
	str.w	r10, [r7, #1976]
	bl	__aeabi_memclr
.LCPI34974_0:
	tbb	[pc, r9]
.LJTI34974_0:
	.byte	(.LBB34974_22-(.LCPI34974_0+4))/2
	.byte	(.LBB34974_18-(.LCPI34974_0+4))/2
	.byte	(.LBB34974_12-(.LCPI34974_0+4))/2
	.byte	(.LBB34974_16-(.LCPI34974_0+4))/2
	.byte	(.LBB34974_9-(.LCPI34974_0+4))/2
	.byte	(.LBB34974_9-(.LCPI34974_0+4))/2
	.byte	(.LBB34974_19-(.LCPI34974_0+4))/2
	.byte	(.LBB34974_13-(.LCPI34974_0+4))/2
	.byte	(.LBB34974_20-(.LCPI34974_0+4))/2
	.p2align	1
.LBB34974_9:
	ldrd	r1, r0, [sp, #44]
	orrs	r0, r1
	beq	.LBB34974_11
	ldr	r0, [sp, #36]
	bl	rattle_dealloc
.LBB34974_11:
	ldr	r0, [sp, #40]
	b	.LBB34974_21
.LBB34974_12:
	ldr	r0, [sp, #20]
	b	.LBB34974_21
.LBB34974_13:
	orrs.w	r0, r11, r5
	beq	.LBB34974_15
	ldr	r0, [sp, #4]
	bl	rattle_dealloc
.LBB34974_15:
	ldr	r0, [sp, #16]
	b	.LBB34974_21
.LBB34974_16:
	ldr	r0, [sp, #12]
	orrs.w	r0, r0, r8
	beq	.LBB34974_22
	ldr	r0, [sp, #8]
	b	.LBB34974_21
.LBB34974_18:
	ldr	r0, [sp, #32]
	b	.LBB34974_21
.LBB34974_19:
	ldr	r0, [sp, #28]
	b	.LBB34974_21
.LBB34974_20:
	ldr	r0, [sp, #24]
.LBB34974_21:
	bl	rattle_dealloc
.LBB34974_22:
	ldrb	r0, [r7]
	cmp	r0, #2
	bne	.LBB34974_24
	add.w	r0, r7, #1264
	mov	r1, r4
	bl	"tuvaddri_c::users::put"
.LBB34974_24:
	movs	r0, #1
	strb.w	r0, [r7, #2632]
	movs	r0, #0
.LBB34974_25:
	add.w	sp, sp, #5056
	add	sp, #12
	pop.w	{r4, r5, r6, r7, r8, r9, r10, r11, pc}
.Lfunc_end34974:
	.size	tuv_server_method_begin, .Lfunc_end34974-tuv_server_method_begin
	.cantunwind
	.fnend

	.section	.text.tuv_server_method_user,"ax",%progbits
	.globl	tuv_server_method_user
	.p2align	2
	.type	tuv_server_method_user,%function
	.code	16
	.thumb_func
tuv_server_method_user:
	.fnstart
	.save	{r4, r5, r6, lr}
	push	{r4, r5, r6, lr}
	.pad	#24
	sub	sp, #24
	mov	r5, r0
	mov	r0, r1
	mov	r4, r1
	bl	"end_objects::refusals::user_refusal"
	uxtb	r0, r0
	cmp	r0, #1
	bne	.LBB6dccb_2
	adds	r0, r1, #1
	add	sp, #24
	pop	{r4, r5, r6, pc}
.LBB6dccb_2:
	ldr	r6, [r5]
	ldrb	r0, [r6]
	cmp	r0, #2
	bne	.LBB6dccb_5
	add	r5, sp, #8
	mov	r0, r5
	mov	r1, r4
	bl	"end_objects::settings::keyed_kinds"
	ldrb	r0, [r6, #8]
	ldr	r2, [sp, #16]
	ldr	r3, [sp, #20]
	cmp	r0, #0
	mov.w	r1, #51
	mov	r0, r5
	it	eq
	moveq	r1, #47
	str	r1, [sp]
	bl	"octet_lists::kind::is_among"
	cbz	r0, .LBB6dccb_6
	add.w	r0, r6, #1264
	mov	r1, r4
	bl	"tuvaddri_c::users::put"
	movs	r0, #0
	add	sp, #24
	pop	{r4, r5, r6, pc}
.LBB6dccb_5:
	movs	r0, #9
	add	sp, #24
	pop	{r4, r5, r6, pc}
.LBB6dccb_6:
	movs	r0, #6
	add	sp, #24
	pop	{r4, r5, r6, pc}
.Lfunc_end6dccb:
	.size	tuv_server_method_user, .Lfunc_end6dccb-tuv_server_method_user
	.cantunwind
	.fnend

	.section	.text.tuv_server_set_user,"ax",%progbits
	.globl	tuv_server_set_user
	.p2align	2
	.type	tuv_server_set_user,%function
	.code	16
	.thumb_func
tuv_server_set_user:
	.fnstart
	.save	{r4, r5, r7, lr}
	push	{r4, r5, r7, lr}
	mov	r5, r0
	mov	r0, r1
	mov	r4, r1
	bl	"end_objects::refusals::user_refusal"
	uxtb	r0, r0
	cmp	r0, #1
	itt	eq
	addeq	r0, r1, #1
	popeq	{r4, r5, r7, pc}
.LBB6ae71_1:
	ldr	r1, [r5]
	movs	r3, #1
	ldrb	r2, [r1]
	movw	r5, #463
	lsls	r3, r2
	movs	r0, #9
	tst	r3, r5
	it	ne
	popne	{r4, r5, r7, pc}
.LBB6ae71_2:
	add.w	r5, r1, #8
	add.w	r0, r1, #1912
	mov.w	r1, #712
	cmp	r2, #4
	bne	.LBB6ae71_4
	bl	__aeabi_memclr
	mov	r0, r5
	mov	r1, r4
	bl	"tuvaddri_c::by_method::add_users::<#d37c63745cf5a212>"
	movs	r0, #0
	pop	{r4, r5, r7, pc}
.LBB6ae71_4:
	bl	__aeabi_memclr
	mov	r0, r5
	mov	r1, r4
	bl	"tuvaddri_c::by_method::add_users::<#93e2819ad231d5c1>"
	movs	r0, #0
	pop	{r4, r5, r7, pc}
.Lfunc_end6ae71:
	.size	tuv_server_set_user, .Lfunc_end6ae71-tuv_server_set_user
	.cantunwind
	.fnend

	.section	.text.tuv_supplicant_begin,"ax",%progbits
	.globl	tuv_supplicant_begin
	.p2align	2
	.type	tuv_supplicant_begin,%function
	.code	16
	.thumb_func
tuv_supplicant_begin:
	.fnstart
	.save	{r4, r5, r6, r7, r8, r9, r10, r11, lr}
	push.w	{r4, r5, r6, r7, r8, r9, r10, r11, lr}
	.pad	#3196
	subw	sp, sp, #3196
	mov	r7, r1
	mov	r4, r0
	add	r0, sp, #880
	movw	r1, #2312
	mov	r5, r2
	bl	__aeabi_memclr8
	movs	r0, #0
	strd	r0, r0, [sp, #856]
	strd	r0, r0, [sp, #848]
	strd	r0, r0, [sp, #840]
	strd	r0, r0, [sp, #832]
	mov	r0, r7
	bl	"end_objects::refusals::peer_refusal"
	uxtb	r0, r0
	cmp	r0, #1
	bne	.LBB9fb05_2
	adds	r0, r1, #1
	addw	sp, sp, #3196
	pop.w	{r4, r5, r6, r7, r8, r9, r10, r11, pc}
.LBB9fb05_2:
	add	r6, sp, #864
	mov	r0, r6
	mov	r1, r7
	bl	"end_objects::settings::kinds_of"
	ldrd	r2, r3, [sp, #872]
	add	r0, sp, #832
	mov	r1, r6
	bl	"end_objects::constructors::peer_objects"
	ldrb.w	r0, [sp, #832]
	cbz	r0, .LBB9fb05_4
.LBB9fb05_3:
	movs	r0, #8
	addw	sp, sp, #3196
	pop.w	{r4, r5, r6, r7, r8, r9, r10, r11, pc}
.LBB9fb05_4:
	ldr.w	r9, [sp, #840]
	ldrd	r10, r6, [sp, #856]
	bl	"tuvaddri_c::sent::empty_frame"
	uxtb	r0, r0
	cmp	r0, #1
	bne.w	.LBB9fb05_10
	movw	r2, :lower16:.Lstatic.14
	add.w	r8, sp, #64
	mov	r11, r1
	movt	r2, :upper16:.Lstatic.14
	mov	r0, r8
	mov	r1, r7
	bl	"end_objects::settings::peer_setup"
	add	r2, sp, #844
	ldm	r2, {r0, r1, r2}
	add	r3, sp, #44
	stm.w	r3, {r0, r1, r2, r10}
	add	r0, sp, #880
	add	r2, sp, #40
	mov	r1, r8
	str.w	r9, [sp, #40]
	str	r6, [sp, #60]
	bl	"peer_machine::machine::PeerMachine::new::<#807681be332d694b>"
	ldrb	r0, [r5, #16]
	ldr	r6, [r4]
	ldrd	r7, r2, [r5]
	ldr	r1, [r5, #8]
	ldr	r3, [r5, #12]
	cmp	r0, #0
	it	ne
	movne	r0, #1
	ldr	r5, [r6, #8]
	ldrb	r4, [r6]
	str	r5, [sp, #28]
	ldr	r5, [r6, #28]
	str	r7, [r6, #8]
	str	r5, [sp, #36]
	ldr	r5, [r6, #24]
	ldr.w	r7, [r6, #2316]
	str	r5, [sp, #32]
	ldr.w	r5, [r6, #1328]
	str	r1, [r6, #16]
	str	r5, [sp, #24]
	ldr.w	r5, [r6, #1528]
	ldr.w	r1, [r6, #2328]
	str	r5, [sp, #20]
	ldr.w	r5, [r6, #1560]
	strb	r0, [r6, #24]
	str	r5, [sp, #16]
	ldr.w	r5, [r6, #1976]
	movs	r0, #0
	str	r5, [sp, #12]
	movs	r5, #7
	str	r5, [r6]
	ldr.w	r5, [r6, #2296]
	str	r7, [sp, #8]
	str	r5, [sp, #4]
	str	r2, [r6, #12]
	ldr.w	r9, [r6, #2312]
	str	r1, [sp]
	ldr.w	r5, [r6, #2348]
	str	r0, [r6, #4]
	str.w	r0, [r6, #25]
	str.w	r0, [r6, #29]
	str.w	r0, [r6, #33]
	str	r0, [r6, #36]
	ldr.w	r7, [r6, #2344]
	ldr.w	r10, [r6, #2352]
	ldr.w	r8, [r6, #2624]
	add.w	r0, r6, #40
	add	r1, sp, #880
	movw	r2, #2312
	str	r3, [r6, #20]
	bl	__aeabi_memcpy
	addw	r0, r6, #2356
	mov.w	r1, #276
	str.w	r11, [r6, #2352]
	bl	__aeabi_memclr
.LCPI9fb05_0:
	tbb	[pc, r4]
.LJTI9fb05_0:
	.byte	(.LBB9fb05_22-(.LCPI9fb05_0+4))/2
	.byte	(.LBB9fb05_18-(.LCPI9fb05_0+4))/2
	.byte	(.LBB9fb05_12-(.LCPI9fb05_0+4))/2
	.byte	(.LBB9fb05_16-(.LCPI9fb05_0+4))/2
	.byte	(.LBB9fb05_7-(.LCPI9fb05_0+4))/2
	.byte	(.LBB9fb05_7-(.LCPI9fb05_0+4))/2
	.byte	(.LBB9fb05_19-(.LCPI9fb05_0+4))/2
	.byte	(.LBB9fb05_13-(.LCPI9fb05_0+4))/2
	.byte	(.LBB9fb05_20-(.LCPI9fb05_0+4))/2
	.p2align	1
.LBB9fb05_7:
	ldrd	r1, r0, [sp, #32]
	orrs	r0, r1
	beq	.LBB9fb05_9
	ldr	r0, [sp, #28]
	bl	rattle_dealloc
.LBB9fb05_9:
	mov	r0, r8
	b	.LBB9fb05_21
.LBB9fb05_10:
	orrs.w	r0, r10, r6
	beq.w	.LBB9fb05_3
	mov	r0, r9
	bl	rattle_dealloc
	b	.LBB9fb05_3
.LBB9fb05_12:
	ldr	r0, [sp, #12]
	b	.LBB9fb05_21
.LBB9fb05_13:
	orrs.w	r0, r7, r5
	beq	.LBB9fb05_15
	ldr	r0, [sp]
	bl	rattle_dealloc
.LBB9fb05_15:
	mov	r0, r10
	b	.LBB9fb05_21
.LBB9fb05_16:
	ldr	r0, [sp, #8]
	orrs.w	r0, r0, r9
	beq	.LBB9fb05_22
	ldr	r0, [sp, #4]
	b	.LBB9fb05_21
.LBB9fb05_18:
	ldr	r0, [sp, #24]
	b	.LBB9fb05_21
.LBB9fb05_19:
	ldr	r0, [sp, #20]
	b	.LBB9fb05_21
.LBB9fb05_20:
	ldr	r0, [sp, #16]
.LBB9fb05_21:
	bl	rattle_dealloc
.LBB9fb05_22:
	movs	r0, #0
	strb.w	r0, [r6, #2632]
	addw	sp, sp, #3196
	pop.w	{r4, r5, r6, r7, r8, r9, r10, r11, pc}
.Lfunc_end9fb05:
	.size	tuv_supplicant_begin, .Lfunc_end9fb05-tuv_supplicant_begin
	.cantunwind
	.fnend

	.section	.text.tuv_version,"ax",%progbits
	.globl	tuv_version
	.p2align	2
	.type	tuv_version,%function
	.code	16
	.thumb_func
tuv_version:
	.fnstart
	movs	r0, #2
	bx	lr
.Lfunc_end57c1e:
	.size	tuv_version, .Lfunc_end57c1e-tuv_version
	.cantunwind
	.fnend

	.section	.text.tuv_end_session_id,"ax",%progbits
	.globl	tuv_end_session_id
	.p2align	2
	.type	tuv_end_session_id,%function
	.code	16
	.thumb_func
tuv_end_session_id:
	.fnstart
	.save	{r4, r5, r6, r7, r8, r9, r10, r11, lr}
	push.w	{r4, r5, r6, r7, r8, r9, r10, r11, lr}
	.pad	#1780
	subw	sp, sp, #1780
	add	r4, sp, #880
	mov	r8, r1
	mov	r6, r0
	mov	r0, r4
	mov.w	r1, #680
	bl	__aeabi_memclr8
	add.w	r10, sp, #112
	mov	r0, r10
	movs	r1, #88
	bl	__aeabi_memclr8
	ldr	r0, [r6]
	bl	"tuvaddri_c::held::object_of"
	uxtb	r0, r0
	add.w	r6, sp, #1560
	movs	r5, #0
	str.w	r0, [sp, #1560]
	str.w	r1, [sp, #1568]
	mov	r0, r4
	mov	r1, r6
	str.w	r5, [sp, #1564]
	str.w	r5, [sp, #1572]
	bl	"tuvaddri_c::held::Object::report"
	ldrb.w	r7, [sp, #880]
	add	r0, sp, #200
	adds	r0, #8
	add.w	r1, r4, #8
	mov.w	r2, #672
	strd	r7, r5, [sp, #200]
	str	r0, [sp, #20]
	bl	__aeabi_memcpy8
	mov	r0, r10
	mov	r1, r6
	bl	"tuvaddri_c::held::Object::nonces"
	add	r0, sp, #24
	ldrb.w	r4, [sp, #112]
	add.w	r9, r0, #8
	add.w	r1, r10, #8
	mov	r0, r9
	movs	r2, #80
	strd	r4, r5, [sp, #24]
	bl	__aeabi_memcpy8
	add.w	r10, sp, #1624
	mov	r0, r10
	movs	r1, #48
	bl	__aeabi_memclr8
	add.w	r11, sp, #1576
	mov	r0, r11
	movs	r1, #48
	bl	__aeabi_memclr8
	cbz	r7, .LBB5aec3_4
	cbz	r4, .LBB5aec3_5
	add.w	r5, sp, #1720
	mov	r0, r5
	movs	r1, #56
	str.w	r8, [sp, #16]
	bl	__aeabi_memclr8
	add.w	r8, sp, #1672
	mov	r0, r8
	movs	r1, #48
	bl	__aeabi_memclr8
	ldrb.w	r0, [sp, #208]
	cmp	r0, #47
	bne	.LBB5aec3_6
	add.w	r0, sp, #1720
	mov	r1, r9
	bl	"tuvaddri_c::psk::psk_id"
	ldrb.w	r12, [sp, #1720]
	b	.LBB5aec3_12
.LBB5aec3_4:
	mov.w	r12, #0
	b	.LBB5aec3_14
.LBB5aec3_5:
	mov.w	r12, #0
	b	.LBB5aec3_13
.LBB5aec3_6:
	ldrb.w	r1, [sp, #744]
	mov.w	r12, #0
	cmp	r1, #2
	beq	.LBB5aec3_9
	cmp	r1, #1
	bne	.LBB5aec3_11
	movs	r1, #0
	movs	r2, #16
	b	.LBB5aec3_10
.LBB5aec3_9:
	movs	r2, #32
	movs	r1, #1
.LBB5aec3_10:
	ldr	r0, [sp, #20]
	strd	r2, r12, [sp]
	movw	r2, :lower16:.Lstatic.14
	str	r0, [sp, #8]
	movt	r2, :upper16:.Lstatic.14
	add.w	r0, sp, #1672
	str.w	r9, [sp, #12]
	bl	"tuvaddri_c::gpsk::gpsk_id"
	mov.w	r12, #1
.LBB5aec3_11:
	ldm.w	r8!, {r0, r2, r3, r4, r6, r7}
	add.w	r1, r5, #8
	stm	r1!, {r0, r2, r3, r4, r6, r7}
	ldm.w	r8, {r0, r2, r3, r4, r6, r7}
	stm	r1!, {r0, r2, r3, r4, r6, r7}
.LBB5aec3_12:
	add.w	r0, r5, #8
	ldm	r0!, {r2, r3, r4, r5, r6, r7}
	mov	r1, r11
	stm	r1!, {r2, r3, r4, r5, r6, r7}
	ldm.w	r0, {r2, r3, r4, r5, r6, r7}
	stm	r1!, {r2, r3, r4, r5, r6, r7}
	ldr.w	r8, [sp, #16]
.LBB5aec3_13:
	ldm.w	r11!, {r1, r2, r3, r5, r6, r7}
	mov	r0, r10
	stm	r0!, {r1, r2, r3, r5, r6, r7}
	ldm.w	r11, {r1, r2, r3, r5, r6, r7}
	stm	r0!, {r1, r2, r3, r5, r6, r7}
.LBB5aec3_14:
	add.w	lr, sp, #1672
	ldm.w	r10!, {r2, r3, r4, r5, r6, r7}
	mov	r0, lr
	stm	r0!, {r2, r3, r4, r5, r6, r7}
	ldm.w	r10, {r2, r3, r4, r5, r6, r7}
	stm	r0!, {r2, r3, r4, r5, r6, r7}
	movs	r0, #0
	str.w	r0, [sp, #1724]
	str.w	r12, [sp, #1720]
	add.w	r0, sp, #1720
	ldm.w	lr!, {r1, r3, r4, r5, r6, r7}
	add.w	r2, r0, #8
	stm	r2!, {r1, r3, r4, r5, r6, r7}
	ldm.w	lr, {r1, r3, r4, r5, r6, r7}
	stm	r2!, {r1, r3, r4, r5, r6, r7}
	mov	r1, r8
	bl	"tuvaddri_c::session_id::write"
	addw	sp, sp, #1780
	pop.w	{r4, r5, r6, r7, r8, r9, r10, r11, pc}
.Lfunc_end5aec3:
	.size	tuv_end_session_id, .Lfunc_end5aec3-tuv_end_session_id
	.cantunwind
	.fnend

	.section	.text.tuv_end_session_id_wpa,"ax",%progbits
	.globl	tuv_end_session_id_wpa
	.p2align	2
	.type	tuv_end_session_id_wpa,%function
	.code	16
	.thumb_func
tuv_end_session_id_wpa:
	.fnstart
	.save	{r4, r5, r6, r7, r8, r9, r10, r11, lr}
	push.w	{r4, r5, r6, r7, r8, r9, r10, r11, lr}
	.pad	#2012
	subw	sp, sp, #2012
	add	r5, sp, #888
	str	r1, [sp, #28]
	mov	r6, r0
	mov	r0, r5
	mov.w	r1, #680
	bl	__aeabi_memclr8
	add.w	r10, sp, #120
	mov	r0, r10
	movs	r1, #88
	bl	__aeabi_memclr8
	ldr.w	r9, [r6]
	mov	r0, r9
	bl	"tuvaddri_c::held::object_of"
	uxtb	r0, r0
	add.w	r6, sp, #1568
	movs	r4, #0
	str.w	r0, [sp, #1568]
	str.w	r1, [sp, #1576]
	mov	r0, r5
	mov	r1, r6
	str.w	r4, [sp, #1572]
	str.w	r4, [sp, #1580]
	bl	"tuvaddri_c::held::Object::report"
	ldrb.w	r7, [sp, #888]
	add.w	r8, sp, #208
	add.w	r0, r8, #8
	add.w	r1, r5, #8
	mov.w	r2, #672
	strd	r7, r4, [sp, #208]
	str	r0, [sp, #24]
	bl	__aeabi_memcpy8
	mov	r0, r10
	mov	r1, r6
	bl	"tuvaddri_c::held::Object::nonces"
	ldrb.w	r6, [sp, #120]
	add	r0, sp, #32
	strd	r6, r4, [sp, #32]
	add.w	r4, r0, #8
	add.w	r1, r10, #8
	mov	r0, r4
	movs	r2, #80
	bl	__aeabi_memcpy8
	add.w	r10, sp, #1712
	mov	r0, r10
	movs	r1, #48
	bl	__aeabi_memclr8
	add.w	r11, sp, #1664
	mov	r0, r11
	movs	r1, #48
	bl	__aeabi_memclr8
	cbz	r7, .LBB78082_5
	cbz	r6, .LBB78082_6
	str	r4, [sp, #20]
	add.w	r4, r8, #16
	add.w	r8, sp, #1760
	ldrd	r5, r6, [sp, #480]
	mov	r0, r8
	movs	r1, #80
	bl	__aeabi_memclr8
	ldrb.w	r0, [r9]
	movs	r7, #0
.LCPI78082_0:
	tbh	[pc, r0, lsl #1]
.LJTI78082_0:
	.short	(.LBB78082_16-(.LCPI78082_0+4))/2
	.short	(.LBB78082_31-(.LCPI78082_0+4))/2
	.short	(.LBB78082_13-(.LCPI78082_0+4))/2
	.short	(.LBB78082_7-(.LCPI78082_0+4))/2
	.short	(.LBB78082_4-(.LCPI78082_0+4))/2
	.short	(.LBB78082_4-(.LCPI78082_0+4))/2
	.short	(.LBB78082_16-(.LCPI78082_0+4))/2
	.short	(.LBB78082_9-(.LCPI78082_0+4))/2
	.short	(.LBB78082_16-(.LCPI78082_0+4))/2
	.p2align	1
.LBB78082_4:
	add.w	r1, r9, #1912
	b	.LBB78082_14
.LBB78082_5:
	mov.w	r8, #0
	b	.LBB78082_30
.LBB78082_6:
	mov.w	r8, #0
	b	.LBB78082_29
.LBB78082_7:
	ldrb.w	r5, [r9, #656]
	add.w	r0, sp, #1840
	movs	r1, #72
	bl	__aeabi_memclr8
	cmp	r5, #1
	bne	.LBB78082_12
	ldrd	r4, r6, [r9, #728]
	add.w	r7, r9, #664
	b	.LBB78082_11
.LBB78082_9:
	ldrb.w	r5, [r9, #688]
	add.w	r0, sp, #1840
	movs	r1, #72
	bl	__aeabi_memclr8
	cmp	r5, #1
	bne	.LBB78082_12
	ldrd	r4, r6, [r9, #760]
	add.w	r7, r9, #696
.LBB78082_11:
	add.w	r9, sp, #1584
	mov	r0, r9
	movs	r1, #72
	bl	__aeabi_memclr8
	mov	r0, r9
	mov	r1, r7
	mov	r2, r4
	mov	r3, r6
	bl	"octet_lists::octets::Octets::append::<=64>"
	add.w	r0, sp, #1840
	mov	r1, r9
	movs	r2, #72
	bl	__aeabi_memcpy8
.LBB78082_12:
	movs	r0, #0
	str.w	r0, [sp, #1764]
	add.w	r0, r8, #8
	add.w	r1, sp, #1840
	movs	r2, #72
	str.w	r5, [sp, #1760]
	bl	__aeabi_memcpy8
	b	.LBB78082_15
.LBB78082_13:
	add.w	r1, r9, #1264
.LBB78082_14:
	add.w	r0, sp, #1760
	mov	r2, r4
	strd	r5, r6, [sp]
	bl	"tuvaddri_c::gpsk::key_in"
.LBB78082_15:
	ldrb.w	r7, [sp, #1760]
.LBB78082_16:
	add.w	r0, sp, #1584
	add.w	r4, r0, #8
	add.w	r1, r8, #8
	mov	r0, r4
	movs	r2, #72
	bl	__aeabi_memcpy8
	movs	r0, #0
	add.w	r6, sp, #1760
	str.w	r0, [sp, #1588]
	mov	r0, r6
	movs	r1, #56
	str.w	r7, [sp, #1584]
	bl	__aeabi_memclr8
	add.w	r9, sp, #1960
	mov	r0, r9
	movs	r1, #48
	bl	__aeabi_memclr8
	add.w	r5, sp, #1912
	mov	r0, r5
	movs	r1, #48
	bl	__aeabi_memclr8
	ldrb.w	r0, [sp, #216]
	cmp	r0, #47
	bne	.LBB78082_18
	ldr	r1, [sp, #20]
	add.w	r0, sp, #1760
	bl	"tuvaddri_c::psk::psk_id"
	ldrb.w	r8, [sp, #1760]
	b	.LBB78082_28
.LBB78082_18:
	ldrb.w	r0, [sp, #752]
	mov.w	r8, #0
	cmp	r0, #1
	beq	.LBB78082_24
	cmp	r0, #2
	bne	.LBB78082_27
	movs	r1, #32
	mov.w	r8, #1
	cbz	r7, .LBB78082_25
.LBB78082_21:
	ldr.w	r0, [sp, #1660]
	ldr.w	r6, [sp, #1656]
	str	r0, [sp, #16]
	add.w	r0, sp, #1840
	mov	r7, r1
	movs	r1, #48
	bl	__aeabi_memclr8
	subs	r0, r6, r7
	ldr	r0, [sp, #16]
	mov.w	r12, #0
	sbcs	r0, r0, #0
	blo	.LBB78082_23
	ldr	r0, [sp, #24]
	ldr	r3, [sp, #20]
	str	r0, [sp, #8]
	add.w	r0, sp, #1840
	mov	r1, r8
	mov	r2, r4
	strd	r7, r12, [sp]
	str	r3, [sp, #12]
	bl	"tuvaddri_c::gpsk::gpsk_id"
	mov.w	r12, #1
.LBB78082_23:
	mov	r1, r5
	mov	lr, r5
	add.w	r5, sp, #1840
	ldm	r5!, {r0, r2, r3, r4, r6, r7}
	stm	r1!, {r0, r2, r3, r4, r6, r7}
	ldm.w	r5, {r0, r2, r3, r4, r6, r7}
	mov	r5, lr
	stm	r1!, {r0, r2, r3, r4, r6, r7}
	b	.LBB78082_26
.LBB78082_24:
	movs	r1, #16
	cmp	r7, #0
	bne	.LBB78082_21
.LBB78082_25:
	mov.w	r12, #0
.LBB78082_26:
	ldm	r5!, {r1, r2, r3, r4, r6, r7}
	mov	r0, r9
	stm	r0!, {r1, r2, r3, r4, r6, r7}
	ldm.w	r5, {r1, r2, r3, r4, r6, r7}
	mov	r8, r12
	stm	r0!, {r1, r2, r3, r4, r6, r7}
	add.w	r6, sp, #1760
.LBB78082_27:
	add.w	r0, r6, #8
	mov	r4, r6
	ldm.w	r9!, {r1, r2, r3, r5, r6, r7}
	stm	r0!, {r1, r2, r3, r5, r6, r7}
	ldm.w	r9, {r1, r2, r3, r5, r6, r7}
	stm	r0!, {r1, r2, r3, r5, r6, r7}
	mov	r6, r4
.LBB78082_28:
	add.w	r0, r6, #8
	ldm	r0!, {r2, r3, r4, r5, r6, r7}
	mov	r1, r11
	stm	r1!, {r2, r3, r4, r5, r6, r7}
	ldm.w	r0, {r2, r3, r4, r5, r6, r7}
	stm	r1!, {r2, r3, r4, r5, r6, r7}
.LBB78082_29:
	ldm.w	r11!, {r1, r2, r3, r5, r6, r7}
	mov	r0, r10
	stm	r0!, {r1, r2, r3, r5, r6, r7}
	ldm.w	r11, {r1, r2, r3, r5, r6, r7}
	stm	r0!, {r1, r2, r3, r5, r6, r7}
.LBB78082_30:
	add.w	r12, sp, #1840
	ldm.w	r10!, {r2, r3, r4, r5, r6, r7}
	mov	r0, r12
	stm	r0!, {r2, r3, r4, r5, r6, r7}
	ldm.w	r10, {r2, r3, r4, r5, r6, r7}
	stm	r0!, {r2, r3, r4, r5, r6, r7}
	movs	r0, #0
	str.w	r0, [sp, #1764]
	str.w	r8, [sp, #1760]
	add.w	r0, sp, #1760
	ldm.w	r12!, {r1, r3, r4, r5, r6, r7}
	add.w	r2, r0, #8
	stm	r2!, {r1, r3, r4, r5, r6, r7}
	ldm.w	r12, {r1, r3, r4, r5, r6, r7}
	stm	r2!, {r1, r3, r4, r5, r6, r7}
	ldr	r1, [sp, #28]
	bl	"tuvaddri_c::session_id::write"
	addw	sp, sp, #2012
	pop.w	{r4, r5, r6, r7, r8, r9, r10, r11, pc}
.LBB78082_31:
	add.w	r5, sp, #1584
	ldr.w	r4, [r9, #1320]
	ldr.w	r6, [r9, #1324]
	mov	r0, r5
	movs	r1, #72
	add.w	r7, r9, #1256
	bl	__aeabi_memclr8
	mov	r0, r5
	mov	r1, r7
	mov	r2, r4
	mov	r3, r6
	bl	"octet_lists::octets::Octets::append::<=64>"
	add.w	r0, r8, #8
	mov	r1, r5
	movs	r2, #72
	bl	__aeabi_memcpy8
	movs	r7, #1
	b	.LBB78082_16
.Lfunc_end78082:
	.size	tuv_end_session_id_wpa, .Lfunc_end78082-tuv_end_session_id_wpa
	.cantunwind
	.fnend

	.section	.text.tuv_end_report,"ax",%progbits
	.globl	tuv_end_report
	.p2align	2
	.type	tuv_end_report,%function
	.code	16
	.thumb_func
tuv_end_report:
	.fnstart
	ldrd	r2, r3, [r1]
	eor	r2, r2, #712
	orrs	r2, r3
	itt	ne
	movne	r0, #0
	bxne	lr
.LBB3aa3a_1:
	.save	{r7, lr}
	push	{r7, lr}
	ldr	r0, [r0]
	movs	r3, #1
	ldrb	r2, [r0]
	lsl.w	r2, r3, r2
	movw	r3, #373
	tst	r2, r3
	beq	.LBB3aa3a_3
	bl	"tuvaddri_c::report::report_server"
	pop	{r7, pc}
.LBB3aa3a_3:
	bl	"tuvaddri_c::report::report_peer"
	pop	{r7, pc}
.Lfunc_end3aa3a:
	.size	tuv_end_report, .Lfunc_end3aa3a-tuv_end_report
	.cantunwind
	.fnend

	.section	.text.tuv_peer_report,"ax",%progbits
	.globl	tuv_peer_report
	.p2align	2
	.type	tuv_peer_report,%function
	.code	16
	.thumb_func
tuv_peer_report:
	.fnstart
	ldrd	r2, r3, [r1]
	eor	r2, r2, #712
	orrs	r2, r3
	itt	ne
	movne	r0, #0
	bxne	lr
.LBB3762a_1:
	.save	{r7, lr}
	push	{r7, lr}
	ldr	r0, [r0]
	bl	"tuvaddri_c::report::report_peer"
	pop	{r7, pc}
.Lfunc_end3762a:
	.size	tuv_peer_report, .Lfunc_end3762a-tuv_peer_report
	.cantunwind
	.fnend

	.section	.text.tuv_server_report,"ax",%progbits
	.globl	tuv_server_report
	.p2align	2
	.type	tuv_server_report,%function
	.code	16
	.thumb_func
tuv_server_report:
	.fnstart
	ldrd	r2, r3, [r1]
	eor	r2, r2, #712
	orrs	r2, r3
	itt	ne
	movne	r0, #0
	bxne	lr
.LBBf3f74_1:
	.save	{r7, lr}
	push	{r7, lr}
	ldr	r0, [r0]
	bl	"tuvaddri_c::report::report_server"
	pop	{r7, pc}
.Lfunc_endf3f74:
	.size	tuv_server_report, .Lfunc_endf3f74-tuv_server_report
	.cantunwind
	.fnend

	.section	.text.tuv_response_name,"ax",%progbits
	.globl	tuv_response_name
	.p2align	2
	.type	tuv_response_name,%function
	.code	16
	.thumb_func
tuv_response_name:
	.fnstart
	.save	{r4, r5, r6, r7, r8, r9, lr}
	push.w	{r4, r5, r6, r7, r8, r9, lr}
	.pad	#1572
	subw	sp, sp, #1572
	add	r7, sp, #8
	mov	r6, r0
	cmp	r0, #0
	mov	r0, r7
	mov.w	r1, #48
	mov	r4, r3
	mov	r5, r2
	it	eq
	addeq.w	r6, r6, #4096
	bl	__aeabi_memclr8
	mov	r0, r7
	mov	r1, r6
	mov	r2, r5
	mov	r3, r4
	bl	"eap_packet::packet::decode"
	ldrb.w	r0, [sp, #8]
	cmp	r0, #1
	bne	.LBB575ed_2
	movs	r0, #0
	movs	r1, #0
	addw	sp, sp, #1572
	pop.w	{r4, r5, r6, r7, r8, r9, pc}
.LBB575ed_2:
	add.w	r8, sp, #56
	ldr.w	r9, [sp, #1600]
	mov	r0, r8
	mov.w	r1, #1512
	adds	r7, #8
	bl	__aeabi_memclr8
	mov	r0, r7
	mov	r1, r8
	bl	"eap_packet::expanded::write_plain"
	cbz	r0, .LBB575ed_4
	ldr.w	r2, [sp, #1560]
	ldr.w	r3, [sp, #1564]
	add	r0, sp, #56
	b	.LBB575ed_5
.LBB575ed_4:
	mov	r0, r6
	mov	r2, r5
	mov	r3, r4
.LBB575ed_5:
	str.w	r9, [sp]
	bl	"tuvaddri_c::name::write_name_in"
	addw	sp, sp, #1572
	pop.w	{r4, r5, r6, r7, r8, r9, pc}
.Lfunc_end575ed:
	.size	tuv_response_name, .Lfunc_end575ed-tuv_response_name
	.cantunwind
	.fnend

	.section	.text.tuv_request_name,"ax",%progbits
	.globl	tuv_request_name
	.p2align	2
	.type	tuv_request_name,%function
	.code	16
	.thumb_func
tuv_request_name:
	.fnstart
	.save	{r4, r5, r6, r7, r8, r9, lr}
	push.w	{r4, r5, r6, r7, r8, r9, lr}
	.pad	#1572
	subw	sp, sp, #1572
	add	r7, sp, #8
	mov	r6, r0
	cmp	r0, #0
	mov	r0, r7
	mov.w	r1, #48
	mov	r4, r3
	mov	r5, r2
	it	eq
	addeq.w	r6, r6, #4096
	bl	__aeabi_memclr8
	mov	r0, r7
	mov	r1, r6
	mov	r2, r5
	mov	r3, r4
	bl	"eap_packet::packet::decode"
	ldrb.w	r0, [sp, #8]
	cmp	r0, #1
	bne	.LBB2dc08_2
	movs	r0, #0
	movs	r1, #0
	addw	sp, sp, #1572
	pop.w	{r4, r5, r6, r7, r8, r9, pc}
.LBB2dc08_2:
	add.w	r8, sp, #56
	ldr.w	r9, [sp, #1600]
	mov	r0, r8
	mov.w	r1, #1512
	adds	r7, #8
	bl	__aeabi_memclr8
	mov	r0, r7
	mov	r1, r8
	bl	"eap_packet::expanded::write_plain"
	cbz	r0, .LBB2dc08_4
	ldr.w	r2, [sp, #1560]
	ldr.w	r3, [sp, #1564]
	add	r0, sp, #56
	b	.LBB2dc08_5
.LBB2dc08_4:
	mov	r0, r6
	mov	r2, r5
	mov	r3, r4
.LBB2dc08_5:
	str.w	r9, [sp]
	bl	"tuvaddri_c::name::write_server_in"
	addw	sp, sp, #1572
	pop.w	{r4, r5, r6, r7, r8, r9, pc}
.Lfunc_end2dc08:
	.size	tuv_request_name, .Lfunc_end2dc08-tuv_request_name
	.cantunwind
	.fnend

	.section	.text.tuv_end_deliver,"ax",%progbits
	.globl	tuv_end_deliver
	.p2align	2
	.type	tuv_end_deliver,%function
	.code	16
	.thumb_func
tuv_end_deliver:
	.fnstart
	.save	{r7, lr}
	push	{r7, lr}
	.pad	#16
	sub	sp, #16
	mov	r12, r2
	mov	r2, r1
	ldr	r1, [r0]
	cmp	r2, #0
	ldrb	r0, [r1]
	it	eq
	addeq.w	r2, r2, #4096
	cmp	r0, #3
	mov.w	r0, #0
	strb.w	r0, [sp, #12]
	str	r0, [sp, #8]
	add	r0, sp, #8
	bne	.LBB58edb_2
	strd	r12, r3, [sp]
	bl	"tuvaddri_c::deliver::deliver_to_peer"
	b	.LBB58edb_3
.LBB58edb_2:
	strd	r12, r3, [sp]
	bl	"tuvaddri_c::deliver::deliver_to_server"
.LBB58edb_3:
	ldr	r0, [sp, #8]
	ldrb.w	r1, [sp, #12]
	add	sp, #16
	pop	{r7, pc}
.Lfunc_end58edb:
	.size	tuv_end_deliver, .Lfunc_end58edb-tuv_end_deliver
	.cantunwind
	.fnend

	.section	.text.tuv_end_failure,"ax",%progbits
	.globl	tuv_end_failure
	.p2align	2
	.type	tuv_end_failure,%function
	.code	16
	.thumb_func
tuv_end_failure:
	.fnstart
	.save	{r4, r5, r6, r7, lr}
	push	{r4, r5, r6, r7, lr}
	.pad	#68
	sub	sp, #68
	ldr	r4, [r0]
	mov	r0, r4
	bl	"tuvaddri_c::session::End::last_packet"
	ldrb	r3, [r4]
	mov	r6, r2
	mov	r7, r0
	movs	r0, #0
	movs	r2, #0
.LCPI43b15_0:
	tbb	[pc, r3]
.LJTI43b15_0:
	.byte	(.LBB43b15_17-(.LCPI43b15_0+4))/2
	.byte	(.LBB43b15_2-(.LCPI43b15_0+4))/2
	.byte	(.LBB43b15_4-(.LCPI43b15_0+4))/2
	.byte	(.LBB43b15_5-(.LCPI43b15_0+4))/2
	.byte	(.LBB43b15_3-(.LCPI43b15_0+4))/2
	.byte	(.LBB43b15_9-(.LCPI43b15_0+4))/2
	.byte	(.LBB43b15_13-(.LCPI43b15_0+4))/2
	.byte	(.LBB43b15_6-(.LCPI43b15_0+4))/2
	.byte	(.LBB43b15_16-(.LCPI43b15_0+4))/2
	.p2align	1
.LBB43b15_2:
	add.w	r2, r4, #8
	str	r1, [sp]
	strd	r0, r0, [sp, #8]
	movs	r0, #1
	mov	r1, r2
	mov	r2, r7
	str	r6, [sp, #4]
	b	.LBB43b15_8
.LBB43b15_3:
	add.w	r1, r4, #8
	add	r0, sp, #32
	bl	"server_machine::machine::SizedServer::current::<#575f94f35bca5e04>"
	ldr	r5, [sp, #40]
	ldrb.w	r6, [sp, #32]
	b	.LBB43b15_10
.LBB43b15_4:
	add.w	r0, r4, #8
	movs	r1, #0
	b	.LBB43b15_12
.LBB43b15_5:
	add.w	r2, r4, #8
	add	r0, sp, #20
	mov	r5, r1
	mov	r1, r2
	bl	"peer_machine::machine::PeerMachine::selected::<#807681be332d694b>"
	ldrb.w	r2, [r4, #776]
	ldrb.w	r0, [sp, #20]
	cmp	r2, #11
	mov.w	r2, #0
	mov.w	r4, #0
	ldr	r1, [sp, #28]
	it	eq
	moveq	r2, #4
	it	eq
	moveq	r4, #6
	movs	r3, #0
	cmp	r0, #0
	it	eq
	moveq	r4, r2
	mov	r2, r7
	strd	r5, r6, [sp]
	str	r4, [sp, #8]
	b	.LBB43b15_7
.LBB43b15_6:
	add.w	r1, r4, #40
	add	r0, sp, #56
	bl	"peer_machine::machine::PeerMachine::selected::<#807681be332d694b>"
	ldrb.w	r2, [r4, #808]
	ldrb.w	r0, [sp, #56]
	cmp	r2, #11
	mov.w	r2, #0
	mov.w	r7, #0
	ldr	r1, [sp, #64]
	it	eq
	moveq	r2, #4
	it	eq
	moveq	r7, #6
	cmp	r0, #0
	it	eq
	moveq	r7, r2
	ldr.w	r6, [r4, #2320]
	ldr.w	r5, [r4, #2324]
	movs	r3, #0
	add.w	r2, r4, #816
	strd	r6, r5, [sp]
	str	r7, [sp, #8]
.LBB43b15_7:
	str	r3, [sp, #12]
.LBB43b15_8:
	bl	"tuvaddri_c::failure::peer_failure"
	mov	r2, r1
	b	.LBB43b15_17
.LBB43b15_9:
	add.w	r1, r4, #8
	add	r0, sp, #44
	bl	"server_machine::backend::SizedBackend::current::<#575f94f35bca5e04>"
	ldr	r5, [sp, #52]
	ldrb.w	r6, [sp, #44]
.LBB43b15_10:
	ldrb.w	r0, [r4, #35]
	bl	"tuvaddri_c::failure::server_ended"
	cmp	r6, #0
	mov	r2, r1
	beq	.LBB43b15_17
	mov	r1, r0
	mov	r0, r5
.LBB43b15_12:
	bl	"tuvaddri_c::failure::shown_failure"
	mov	r2, r1
	b	.LBB43b15_17
.LBB43b15_13:
	ldrb	r1, [r4, #10]
	movs	r0, #5
.LCPI43b15_1:
	tbb	[pc, r1]
.LJTI43b15_1:
	.byte	(.LBB43b15_15-(.LCPI43b15_1+4))/2
	.byte	(.LBB43b15_15-(.LCPI43b15_1+4))/2
	.byte	(.LBB43b15_15-(.LCPI43b15_1+4))/2
	.byte	(.LBB43b15_15-(.LCPI43b15_1+4))/2
	.byte	(.LBB43b15_15-(.LCPI43b15_1+4))/2
	.byte	(.LBB43b15_15-(.LCPI43b15_1+4))/2
	.byte	(.LBB43b15_15-(.LCPI43b15_1+4))/2
	.byte	(.LBB43b15_15-(.LCPI43b15_1+4))/2
	.byte	(.LBB43b15_15-(.LCPI43b15_1+4))/2
	.byte	(.LBB43b15_15-(.LCPI43b15_1+4))/2
	.byte	(.LBB43b15_15-(.LCPI43b15_1+4))/2
	.byte	(.LBB43b15_15-(.LCPI43b15_1+4))/2
	.byte	(.LBB43b15_15-(.LCPI43b15_1+4))/2
	.byte	(.LBB43b15_15-(.LCPI43b15_1+4))/2
	.byte	(.LBB43b15_15-(.LCPI43b15_1+4))/2
	.byte	(.LBB43b15_15-(.LCPI43b15_1+4))/2
	.byte	(.LBB43b15_15-(.LCPI43b15_1+4))/2
	.byte	(.LBB43b15_15-(.LCPI43b15_1+4))/2
	.byte	(.LBB43b15_15-(.LCPI43b15_1+4))/2
	.byte	(.LBB43b15_17-(.LCPI43b15_1+4))/2
	.byte	(.LBB43b15_15-(.LCPI43b15_1+4))/2
	.byte	(.LBB43b15_15-(.LCPI43b15_1+4))/2
	.byte	(.LBB43b15_15-(.LCPI43b15_1+4))/2
	.byte	(.LBB43b15_15-(.LCPI43b15_1+4))/2
	.byte	(.LBB43b15_15-(.LCPI43b15_1+4))/2
	.byte	(.LBB43b15_15-(.LCPI43b15_1+4))/2
	.byte	(.LBB43b15_15-(.LCPI43b15_1+4))/2
	.byte	(.LBB43b15_15-(.LCPI43b15_1+4))/2
	.byte	(.LBB43b15_15-(.LCPI43b15_1+4))/2
	.byte	(.LBB43b15_15-(.LCPI43b15_1+4))/2
	.byte	(.LBB43b15_15-(.LCPI43b15_1+4))/2
	.byte	(.LBB43b15_18-(.LCPI43b15_1+4))/2
	.byte	(.LBB43b15_17-(.LCPI43b15_1+4))/2
	.p2align	1
.LBB43b15_15:
	movs	r0, #0
	b	.LBB43b15_17
.LBB43b15_16:
	ldrb	r0, [r4, #29]
	cmp	r0, #3
	mov.w	r0, #0
	it	eq
	moveq	r0, #6
.LBB43b15_17:
	uxtb	r0, r0
	orr.w	r0, r0, r2, lsl #8
	uxth	r0, r0
	movs	r1, #0
	add	sp, #68
	pop	{r4, r5, r6, r7, pc}
.LBB43b15_18:
	movs	r0, #6
	b	.LBB43b15_17
.Lfunc_end43b15:
	.size	tuv_end_failure, .Lfunc_end43b15-tuv_end_failure
	.cantunwind
	.fnend

	.section	.text.tuv_end_restart,"ax",%progbits
	.globl	tuv_end_restart
	.p2align	2
	.type	tuv_end_restart,%function
	.code	16
	.thumb_func
tuv_end_restart:
	.fnstart
	.save	{r7, lr}
	push	{r7, lr}
	.pad	#8
	sub	sp, #8
	ldr	r2, [r0]
	mov	r3, r1
	ldrb	r0, [r2]
	mov	r1, r2
	cmp	r0, #3
	mov.w	r0, #0
	strb.w	r0, [sp, #4]
	str	r0, [sp]
	mov	r0, sp
	mov	r2, r3
	bne	.LBB99ae6_2
	bl	"tuvaddri_c::restart::restart_peer"
	b	.LBB99ae6_3
.LBB99ae6_2:
	bl	"tuvaddri_c::restart::restart_server"
.LBB99ae6_3:
	ldr	r0, [sp]
	ldrb.w	r1, [sp, #4]
	add	sp, #8
	pop	{r7, pc}
.Lfunc_end99ae6:
	.size	tuv_end_restart, .Lfunc_end99ae6-tuv_end_restart
	.cantunwind
	.fnend

	.section	.text.tuv_pass_aaa_noreq,"ax",%progbits
	.globl	tuv_pass_aaa_noreq
	.p2align	2
	.type	tuv_pass_aaa_noreq,%function
	.code	16
	.thumb_func
tuv_pass_aaa_noreq:
	.fnstart
	.save	{r4, r5, r6, r7, lr}
	push	{r4, r5, r6, r7, lr}
	.pad	#28
	sub	sp, #28
	ldr	r7, [r0]
	ldrb	r0, [r7]
	cmp	r0, #6
	bne	.LBB678c5_5
	ldrb	r0, [r7, #10]
	cmp	r0, #23
	bne	.LBB678c5_5
	movs	r0, #0
	strd	r0, r0, [sp, #16]
	strd	r0, r0, [sp, #8]
	strd	r0, r0, [sp]
	movs	r0, #26
	movw	r1, :lower16:.Lstatic.27
	strb	r0, [r7, #10]
	movt	r1, :upper16:.Lstatic.27
	mov	r0, sp
	movs	r2, #2
	movs	r3, #0
	bl	"eap_method::step::Step::entering"
	ldrb.w	r4, [sp, #18]
	ldrb.w	r5, [sp, #16]
	ldrb.w	r6, [sp, #17]
	ldr.w	r0, [r7, #1528]
	lsls	r1, r4, #31
	strb.w	r4, [r7, #2632]
	beq	.LBB678c5_4
	movw	r1, :lower16:.Lstatic.0
	movt	r1, :upper16:.Lstatic.0
	movs	r2, #0
	movs	r3, #0
	bl	"octet_lists::octets::Octets::set::<=1500>"
.LBB678c5_4:
	cmp	r5, #0
	it	eq
	moveq	r6, r5
	movs	r1, #26
	movs	r0, #0
	b	.LBB678c5_6
.LBB678c5_5:
	movs	r4, #0
	movs	r0, #1
	movs	r5, #0
	movs	r6, #0
	movs	r1, #0
	strb.w	r4, [r7, #2632]
.LBB678c5_6:
	lsls	r2, r6, #24
	orr.w	r0, r2, r0, lsl #16
	orr.w	r0, r0, r5, lsl #8
	add	r0, r4
	add	sp, #28
	pop	{r4, r5, r6, r7, pc}
.Lfunc_end678c5:
	.size	tuv_pass_aaa_noreq, .Lfunc_end678c5-tuv_pass_aaa_noreq
	.cantunwind
	.fnend

	.section	.text.tuv_pass_aaa_timeout,"ax",%progbits
	.globl	tuv_pass_aaa_timeout
	.p2align	2
	.type	tuv_pass_aaa_timeout,%function
	.code	16
	.thumb_func
tuv_pass_aaa_timeout:
	.fnstart
	.save	{r4, r5, r6, r7, lr}
	push	{r4, r5, r6, r7, lr}
	.pad	#28
	sub	sp, #28
	ldr	r7, [r0]
	ldrb	r0, [r7]
	cmp	r0, #6
	bne	.LBBfc96c_5
	ldrb	r0, [r7, #10]
	cmp	r0, #23
	bne	.LBBfc96c_5
	movs	r0, #0
	strd	r0, r0, [sp, #16]
	strd	r0, r0, [sp, #8]
	strd	r0, r0, [sp]
	movs	r0, #32
	movw	r1, :lower16:.Lstatic.28
	strb	r0, [r7, #10]
	movt	r1, :upper16:.Lstatic.28
	mov	r0, sp
	movs	r2, #1
	movs	r3, #0
	bl	"eap_method::step::Step::entering"
	ldrb.w	r4, [sp, #18]
	ldrb.w	r5, [sp, #16]
	ldrb.w	r6, [sp, #17]
	ldr.w	r0, [r7, #1528]
	lsls	r1, r4, #31
	strb.w	r4, [r7, #2632]
	beq	.LBBfc96c_4
	movw	r1, :lower16:.Lstatic.0
	movt	r1, :upper16:.Lstatic.0
	movs	r2, #0
	movs	r3, #0
	bl	"octet_lists::octets::Octets::set::<=1500>"
.LBBfc96c_4:
	cmp	r5, #0
	it	eq
	moveq	r6, r5
	movs	r1, #32
	movs	r0, #0
	b	.LBBfc96c_6
.LBBfc96c_5:
	movs	r4, #0
	movs	r0, #1
	movs	r5, #0
	movs	r6, #0
	movs	r1, #0
	strb.w	r4, [r7, #2632]
.LBBfc96c_6:
	lsls	r2, r6, #24
	orr.w	r0, r2, r0, lsl #16
	orr.w	r0, r0, r5, lsl #8
	add	r0, r4
	add	sp, #28
	pop	{r4, r5, r6, r7, pc}
.Lfunc_endfc96c:
	.size	tuv_pass_aaa_timeout, .Lfunc_endfc96c-tuv_pass_aaa_timeout
	.cantunwind
	.fnend

	.section	.text.tuv_pass_from_backend,"ax",%progbits
	.globl	tuv_pass_from_backend
	.p2align	2
	.type	tuv_pass_from_backend,%function
	.code	16
	.thumb_func
tuv_pass_from_backend:
	.fnstart
	.save	{r4, r5, r6, r7, r8, r9, lr}
	push.w	{r4, r5, r6, r7, r8, r9, lr}
	.pad	#1556
	subw	sp, sp, #1556
	ldr	r7, [r0]
	movs	r6, #0
	ldrb	r0, [r7]
	str	r6, [sp, #36]
	cmp	r0, #6
	strd	r6, r6, [sp, #28]
	str	r6, [sp, #24]
	str	r6, [sp, #20]
	str	r6, [sp, #16]
	bne	.LBB75bf3_4
	cmp	r1, #0
	it	eq
	addeq.w	r1, r1, #4096
	add.w	r9, sp, #40
	mov	r0, r9
	mov	r6, r1
	mov.w	r1, #1512
	mov	r4, r3
	mov	r5, r2
	add.w	r8, r7, #8
	bl	__aeabi_memclr8
	add	r0, sp, #16
	mov	r1, r8
	mov	r2, r6
	strd	r5, r4, [sp]
	str.w	r9, [sp, #8]
	bl	"pass_through::machine::PassThrough::from_backend_step"
	ldrb.w	r6, [sp, #34]
	ldrb.w	r8, [sp, #32]
	ldrb.w	r5, [sp, #33]
	ldr.w	r2, [sp, #1544]
	ldr.w	r3, [sp, #1548]
	ldrb	r1, [r7, #10]
	ldr.w	r0, [r7, #1528]
	lsls	r4, r6, #31
	strb.w	r6, [r7, #2632]
	beq	.LBB75bf3_3
	add.w	r12, sp, #40
	mov	r7, r1
	mov	r1, r12
	bl	"octet_lists::octets::Octets::set::<=1500>"
	mov	r1, r7
.LBB75bf3_3:
	cmp.w	r8, #0
	it	eq
	moveq	r5, r8
	movs	r0, #0
	b	.LBB75bf3_5
.LBB75bf3_4:
	movs	r0, #1
	mov.w	r8, #0
	movs	r5, #0
	movs	r1, #0
	strb.w	r6, [r7, #2632]
.LBB75bf3_5:
	lsls	r2, r5, #24
	orr.w	r0, r2, r0, lsl #16
	orr.w	r0, r0, r8, lsl #8
	add	r0, r6
	addw	sp, sp, #1556
	pop.w	{r4, r5, r6, r7, r8, r9, pc}
.Lfunc_end75bf3:
	.size	tuv_pass_from_backend, .Lfunc_end75bf3-tuv_pass_from_backend
	.cantunwind
	.fnend

	.section	.text.tuv_pass_from_peer,"ax",%progbits
	.globl	tuv_pass_from_peer
	.p2align	2
	.type	tuv_pass_from_peer,%function
	.code	16
	.thumb_func
tuv_pass_from_peer:
	.fnstart
	.save	{r4, r5, r6, r7, r8, r9, lr}
	push.w	{r4, r5, r6, r7, r8, r9, lr}
	.pad	#1556
	subw	sp, sp, #1556
	ldr	r7, [r0]
	movs	r6, #0
	ldrb	r0, [r7]
	str	r6, [sp, #36]
	cmp	r0, #6
	str	r6, [sp, #32]
	bne	.LBB5715c_4
	cmp	r1, #0
	it	eq
	addeq.w	r1, r1, #4096
	add.w	r9, sp, #40
	mov	r0, r9
	mov	r6, r1
	mov.w	r1, #1512
	mov	r4, r3
	mov	r5, r2
	add.w	r8, r7, #8
	bl	__aeabi_memclr8
	add	r0, sp, #16
	mov	r1, r8
	mov	r2, r6
	strd	r5, r4, [sp]
	str.w	r9, [sp, #8]
	bl	"pass_through::machine::PassThrough::from_peer_step"
	ldrb.w	r6, [sp, #34]
	ldrb.w	r8, [sp, #32]
	ldrb.w	r5, [sp, #33]
	ldr.w	r2, [sp, #1544]
	ldr.w	r3, [sp, #1548]
	ldrb	r1, [r7, #10]
	ldr.w	r0, [r7, #1528]
	lsls	r4, r6, #31
	strb.w	r6, [r7, #2632]
	beq	.LBB5715c_3
	add.w	r12, sp, #40
	mov	r7, r1
	mov	r1, r12
	bl	"octet_lists::octets::Octets::set::<=1500>"
	mov	r1, r7
.LBB5715c_3:
	cmp.w	r8, #0
	it	eq
	moveq	r5, r8
	movs	r0, #0
	b	.LBB5715c_5
.LBB5715c_4:
	movs	r0, #1
	mov.w	r8, #0
	movs	r5, #0
	movs	r1, #0
	strb.w	r6, [r7, #2632]
.LBB5715c_5:
	lsls	r2, r5, #24
	orr.w	r0, r2, r0, lsl #16
	orr.w	r0, r0, r8, lsl #8
	add	r0, r6
	addw	sp, sp, #1556
	pop.w	{r4, r5, r6, r7, r8, r9, pc}
.Lfunc_end5715c:
	.size	tuv_pass_from_peer, .Lfunc_end5715c-tuv_pass_from_peer
	.cantunwind
	.fnend

	.section	.text.tuv_pass_restart,"ax",%progbits
	.globl	tuv_pass_restart
	.p2align	2
	.type	tuv_pass_restart,%function
	.code	16
	.thumb_func
tuv_pass_restart:
	.fnstart
	.save	{r4, r5, r6, r7, r8, r9, r10, lr}
	push.w	{r4, r5, r6, r7, r8, r9, r10, lr}
	.pad	#1536
	sub.w	sp, sp, #1536
	ldr	r5, [r0]
	ldrb	r0, [r5]
	cmp	r0, #6
	bne	.LBBd4b17_6
	mov	r6, sp
	mov	r0, r6
	mov.w	r1, #1512
	add.w	r4, r5, #8
	bl	__aeabi_memclr8
	mov.w	r8, #0
	add.w	r0, sp, #1512
	mov	r1, r4
	mov	r2, r6
	str.w	r8, [sp, #1532]
	str.w	r8, [sp, #1528]
	bl	"pass_through::machine::PassThrough::initialize"
	ldr.w	r0, [r5, #1528]
	ldrb.w	r10, [sp, #1528]
	ldr.w	r1, [r0, #1504]
	ldr.w	r2, [r0, #1508]
	ldrb.w	r7, [sp, #1529]
	ldrb.w	r6, [sp, #1530]
	orrs	r2, r1
	beq	.LBBd4b17_3
	add.w	r9, r0, #1504
	bl	__aeabi_memclr
	strd	r8, r8, [r9]
	ldr.w	r0, [r5, #1528]
.LBBd4b17_3:
	ldr.w	r2, [sp, #1504]
	ldr.w	r3, [sp, #1508]
	ldrb	r1, [r5, #10]
	lsls	r4, r6, #31
	strb.w	r6, [r5, #2632]
	beq	.LBBd4b17_5
	mov	r12, sp
	mov	r5, r1
	mov	r1, r12
	bl	"octet_lists::octets::Octets::set::<=1500>"
	mov	r1, r5
.LBBd4b17_5:
	cmp.w	r10, #0
	it	eq
	moveq	r7, r10
	movs	r0, #0
	b	.LBBd4b17_7
.LBBd4b17_6:
	movs	r6, #0
	movs	r0, #1
	mov.w	r10, #0
	movs	r7, #0
	movs	r1, #0
	strb.w	r6, [r5, #2632]
.LBBd4b17_7:
	lsls	r2, r7, #24
	orr.w	r0, r2, r0, lsl #16
	orr.w	r0, r0, r10, lsl #8
	add	r0, r6
	add.w	sp, sp, #1536
	pop.w	{r4, r5, r6, r7, r8, r9, r10, pc}
.Lfunc_endd4b17:
	.size	tuv_pass_restart, .Lfunc_endd4b17-tuv_pass_restart
	.cantunwind
	.fnend

	.section	.text.tuv_pass_start,"ax",%progbits
	.globl	tuv_pass_start
	.p2align	2
	.type	tuv_pass_start,%function
	.code	16
	.thumb_func
tuv_pass_start:
	.fnstart
	.save	{r4, r5, r6, r7, r8, lr}
	push.w	{r4, r5, r6, r7, r8, lr}
	.pad	#1536
	sub.w	sp, sp, #1536
	ldr	r5, [r0]
	ldrb	r0, [r5]
	cmp	r0, #6
	bne	.LBBcd0c2_2
	ldrb	r0, [r5, #10]
	cbz	r0, .LBBcd0c2_4
.LBBcd0c2_2:
	movs	r4, #0
	movs	r0, #1
	mov.w	r8, #0
	movs	r7, #0
	movs	r1, #0
	strb.w	r4, [r5, #2632]
.LBBcd0c2_3:
	lsls	r2, r7, #24
	orr.w	r0, r2, r0, lsl #16
	orr.w	r0, r0, r8, lsl #8
	add	r0, r4
	add.w	sp, sp, #1536
	pop.w	{r4, r5, r6, r7, r8, pc}
.LBBcd0c2_4:
	mov	r6, sp
	mov	r0, r6
	mov.w	r1, #1512
	add.w	r4, r5, #8
	bl	__aeabi_memclr8
	movs	r0, #0
	str.w	r0, [sp, #1532]
	str.w	r0, [sp, #1528]
	add.w	r0, sp, #1512
	mov	r1, r4
	mov	r2, r6
	bl	"pass_through::machine::PassThrough::initialize"
	ldrb.w	r4, [sp, #1530]
	ldrb.w	r8, [sp, #1528]
	ldrb.w	r7, [sp, #1529]
	ldr.w	r2, [sp, #1504]
	ldr.w	r3, [sp, #1508]
	ldrb	r1, [r5, #10]
	ldr.w	r0, [r5, #1528]
	lsls	r6, r4, #31
	strb.w	r4, [r5, #2632]
	beq	.LBBcd0c2_6
	mov	r12, sp
	mov	r5, r1
	mov	r1, r12
	bl	"octet_lists::octets::Octets::set::<=1500>"
	mov	r1, r5
.LBBcd0c2_6:
	cmp.w	r8, #0
	it	eq
	moveq	r7, r8
	movs	r0, #0
	b	.LBBcd0c2_3
.Lfunc_endcd0c2:
	.size	tuv_pass_start, .Lfunc_endcd0c2-tuv_pass_start
	.cantunwind
	.fnend

	.section	.text.tuv_pass_timeout,"ax",%progbits
	.globl	tuv_pass_timeout
	.p2align	2
	.type	tuv_pass_timeout,%function
	.code	16
	.thumb_func
tuv_pass_timeout:
	.fnstart
	.save	{r4, r5, r6, r7, r8, lr}
	push.w	{r4, r5, r6, r7, r8, lr}
	.pad	#1536
	sub.w	sp, sp, #1536
	ldr	r5, [r0]
	movs	r4, #0
	ldrb	r0, [r5]
	str	r4, [sp, #20]
	cmp	r0, #6
	str	r4, [sp, #16]
	bne	.LBB1457c_6
	ldrb	r0, [r5, #10]
	cmp	r0, #26
	beq	.LBB1457c_3
	cmp	r0, #1
	bne	.LBB1457c_6
.LBB1457c_3:
	add	r6, sp, #24
	mov	r0, r6
	mov.w	r1, #1512
	add.w	r4, r5, #8
	bl	__aeabi_memclr8
	mov	r0, sp
	mov	r1, r4
	mov	r2, r6
	bl	"pass_through::machine::PassThrough::timeout_step"
	ldrb.w	r4, [sp, #18]
	ldrb.w	r8, [sp, #16]
	ldrb.w	r7, [sp, #17]
	ldr.w	r2, [sp, #1528]
	ldr.w	r3, [sp, #1532]
	ldrb	r1, [r5, #10]
	ldr.w	r0, [r5, #1528]
	lsls	r6, r4, #31
	strb.w	r4, [r5, #2632]
	beq	.LBB1457c_5
	add.w	r12, sp, #24
	mov	r5, r1
	mov	r1, r12
	bl	"octet_lists::octets::Octets::set::<=1500>"
	mov	r1, r5
.LBB1457c_5:
	cmp.w	r8, #0
	it	eq
	moveq	r7, r8
	movs	r0, #0
	b	.LBB1457c_7
.LBB1457c_6:
	movs	r0, #1
	mov.w	r8, #0
	movs	r7, #0
	movs	r1, #0
	strb.w	r4, [r5, #2632]
.LBB1457c_7:
	lsls	r2, r7, #24
	orr.w	r0, r2, r0, lsl #16
	orr.w	r0, r0, r8, lsl #8
	add	r0, r4
	add.w	sp, sp, #1536
	pop.w	{r4, r5, r6, r7, r8, pc}
.Lfunc_end1457c:
	.size	tuv_pass_timeout, .Lfunc_end1457c-tuv_pass_timeout
	.cantunwind
	.fnend

	.section	.text.tuv_peer_alt_accept,"ax",%progbits
	.globl	tuv_peer_alt_accept
	.p2align	2
	.type	tuv_peer_alt_accept,%function
	.code	16
	.thumb_func
tuv_peer_alt_accept:
	.fnstart
	.save	{r4, r5, r7, lr}
	push	{r4, r5, r7, lr}
	.pad	#48
	sub	sp, #48
	ldr	r4, [r0]
	ldrb	r0, [r4]
	cmp	r0, #3
	bne	.LBB0cb52_2
	ldrb.w	r0, [r4, #776]
	mov	r5, r0
	bl	"eap_method::step::has_ended"
	cbz	r0, .LBB0cb52_3
.LBB0cb52_2:
	movs	r0, #0
	strb.w	r0, [r4, #2632]
	movs	r4, #1
	movs	r2, #0
	movs	r3, #0
	movs	r1, #0
	b	.LBB0cb52_9
.LBB0cb52_3:
	ldrb.w	r0, [r4, #780]
	add.w	r1, r4, #8
	cmp	r0, #0
	mov.w	r0, #0
	strd	r0, r0, [sp, #40]
	strd	r0, r0, [sp, #16]
	beq	.LBB0cb52_5
	add	r0, sp, #24
	movs	r2, #10
	bl	"peer_machine::machine::end"
	ldrb.w	r2, [sp, #40]
	ldrb.w	r3, [sp, #41]
	ldrb.w	r0, [sp, #42]
	b	.LBB0cb52_8
.LBB0cb52_5:
	ldrb.w	r0, [r4, #779]
	cmp	r0, #2
	bne	.LBB0cb52_7
	movs	r0, #0
	strb.w	r0, [r4, #2632]
	movs	r2, #0
	movs	r4, #0
	movs	r3, #0
	mov	r1, r5
	b	.LBB0cb52_9
.LBB0cb52_7:
	mov	r0, sp
	movs	r2, #11
	bl	"peer_machine::machine::end"
	ldrb.w	r2, [sp, #16]
	ldrb.w	r3, [sp, #17]
	ldrb.w	r0, [sp, #18]
.LBB0cb52_8:
	uxtb	r5, r2
	ldrb.w	r1, [r4, #776]
	strb.w	r0, [r4, #2632]
	cmp	r5, #0
	it	eq
	moveq	r3, r5
	movs	r4, #0
.LBB0cb52_9:
	lsls	r3, r3, #24
	orr.w	r3, r3, r4, lsl #16
	uxtb	r2, r2
	orr.w	r2, r3, r2, lsl #8
	add	r0, r2
	add	sp, #48
	pop	{r4, r5, r7, pc}
.Lfunc_end0cb52:
	.size	tuv_peer_alt_accept, .Lfunc_end0cb52-tuv_peer_alt_accept
	.cantunwind
	.fnend

	.section	.text.tuv_peer_alt_reject,"ax",%progbits
	.globl	tuv_peer_alt_reject
	.p2align	2
	.type	tuv_peer_alt_reject,%function
	.code	16
	.thumb_func
tuv_peer_alt_reject:
	.fnstart
	.save	{r4, r5, r7, lr}
	push	{r4, r5, r7, lr}
	.pad	#24
	sub	sp, #24
	ldr	r5, [r0]
	ldrb	r0, [r5]
	cmp	r0, #3
	bne	.LBB0a673_2
	ldrb.w	r0, [r5, #776]
	bl	"eap_method::step::has_ended"
	cbz	r0, .LBB0a673_3
.LBB0a673_2:
	movs	r0, #0
	movs	r4, #1
	movs	r2, #0
	movs	r3, #0
	movs	r1, #0
	strb.w	r0, [r5, #2632]
	b	.LBB0a673_4
.LBB0a673_3:
	add.w	r1, r5, #8
	movs	r4, #0
	mov	r0, sp
	movs	r2, #11
	strd	r4, r4, [sp, #16]
	bl	"peer_machine::machine::end"
	ldrb.w	r2, [sp, #16]
	ldrb.w	r0, [sp, #18]
	ldrb.w	r3, [sp, #17]
	ldrb.w	r1, [r5, #776]
	strb.w	r0, [r5, #2632]
	cmp	r2, #0
	it	eq
	moveq	r3, r2
.LBB0a673_4:
	lsls	r3, r3, #24
	orr.w	r3, r3, r4, lsl #16
	orr.w	r2, r3, r2, lsl #8
	add	r0, r2
	add	sp, #24
	pop	{r4, r5, r7, pc}
.Lfunc_end0a673:
	.size	tuv_peer_alt_reject, .Lfunc_end0a673-tuv_peer_alt_reject
	.cantunwind
	.fnend

	.section	.text.tuv_peer_deliver,"ax",%progbits
	.globl	tuv_peer_deliver
	.p2align	2
	.type	tuv_peer_deliver,%function
	.code	16
	.thumb_func
tuv_peer_deliver:
	.fnstart
	.save	{r7, lr}
	push	{r7, lr}
	.pad	#16
	sub	sp, #16
	mov	r12, r2
	mov	r2, r1
	cmp	r1, #0
	ldr	r1, [r0]
	add	r0, sp, #8
	it	eq
	addeq.w	r2, r2, #4096
	strd	r12, r3, [sp]
	bl	"tuvaddri_c::deliver::deliver_to_peer"
	ldr	r0, [sp, #8]
	ldrb.w	r1, [sp, #12]
	add	sp, #16
	pop	{r7, pc}
.Lfunc_ende6806:
	.size	tuv_peer_deliver, .Lfunc_ende6806-tuv_peer_deliver
	.cantunwind
	.fnend

	.section	.text.tuv_peer_idle,"ax",%progbits
	.globl	tuv_peer_idle
	.p2align	2
	.type	tuv_peer_idle,%function
	.code	16
	.thumb_func
tuv_peer_idle:
	.fnstart
	.save	{r4, lr}
	push	{r4, lr}
	.pad	#24
	sub	sp, #24
	ldr	r4, [r0]
	ldrb	r0, [r4]
	cmp	r0, #3
	bne	.LBB06932_2
	ldrb.w	r0, [r4, #776]
	bl	"eap_method::step::has_ended"
	cbz	r0, .LBB06932_3
.LBB06932_2:
	movs	r0, #0
	strb.w	r0, [r4, #2632]
	movs	r4, #1
	movs	r2, #0
	movs	r3, #0
	movs	r1, #0
	b	.LBB06932_4
.LBB06932_3:
	ldrb.w	r0, [r4, #780]
	add.w	r1, r4, #8
	cmp	r0, #2
	mov.w	r0, #0
	strd	r0, r0, [sp, #16]
	strd	r0, r0, [sp, #8]
	strd	r0, r0, [sp]
	mov	r0, sp
	ite	ne
	movne	r2, #11
	moveq	r2, #10
	bl	"peer_machine::machine::end"
	ldrb.w	r2, [sp, #16]
	ldrb.w	r0, [sp, #18]
	ldrb.w	r3, [sp, #17]
	ldrb.w	r1, [r4, #776]
	strb.w	r0, [r4, #2632]
	cmp	r2, #0
	it	eq
	moveq	r3, r2
	movs	r4, #0
.LBB06932_4:
	lsls	r3, r3, #24
	orr.w	r3, r3, r4, lsl #16
	orr.w	r2, r3, r2, lsl #8
	add	r0, r2
	add	sp, #24
	pop	{r4, pc}
.Lfunc_end06932:
	.size	tuv_peer_idle, .Lfunc_end06932-tuv_peer_idle
	.cantunwind
	.fnend

	.section	.text.tuv_peer_method_handle,"ax",%progbits
	.globl	tuv_peer_method_handle
	.p2align	2
	.type	tuv_peer_method_handle,%function
	.code	16
	.thumb_func
tuv_peer_method_handle:
	.fnstart
	.save	{r4, r5, r6, r7, r8, r9, r10, lr}
	push.w	{r4, r5, r6, r7, r8, r9, r10, lr}
	.pad	#1552
	sub.w	sp, sp, #1552
	ldr.w	r10, [r0]
	ldrb.w	r0, [r10]
	cmp	r0, #1
	bne	.LBBf7a7f_3
	mov	r9, r10
	ldrb	r0, [r9, #8]!
	cmp	r1, #0
	it	eq
	addeq.w	r1, r1, #4096
	add.w	r8, sp, #40
	cmp	r0, #0
	mov.w	r4, #51
	mov	r0, r8
	mov	r6, r1
	mov.w	r1, #48
	it	eq
	moveq	r4, #47
	mov	r7, r3
	mov	r5, r2
	bl	__aeabi_memclr8
	mov	r0, r8
	mov	r1, r6
	mov	r2, r5
	mov	r3, r7
	bl	"eap_packet::packet::decode"
	ldrb.w	r0, [sp, #40]
	cmp	r0, #1
	bne	.LBBf7a7f_4
	ldrb.w	r2, [sp, #41]
	b	.LBBf7a7f_10
.LBBf7a7f_3:
	movs	r6, #0
	movs	r3, #1
	movs	r0, #0
	movs	r2, #0
	strb.w	r6, [r10, #2632]
	b	.LBBf7a7f_11
.LBBf7a7f_4:
	ldrb.w	r0, [sp, #48]
	cbz	r0, .LBBf7a7f_6
	movs	r2, #7
	b	.LBBf7a7f_10
.LBBf7a7f_6:
	ldrb.w	r0, [sp, #50]
	cmp	r0, r4
	bne	.LBBf7a7f_9
	ldr	r5, [sp, #72]
	ldrd	r4, r7, [sp, #80]
	mov	r0, r8
	mov.w	r1, #1512
	bl	__aeabi_memclr8
	add	r0, sp, #24
	movs	r6, #0
	strd	r8, r0, [sp, #8]
	add.w	r0, sp, #21
	mov	r1, r9
	mov	r2, r5
	strd	r6, r6, [sp, #32]
	strd	r6, r6, [sp, #24]
	str	r4, [sp]
	str	r7, [sp, #4]
	bl	"end_objects::objects::PeerObjectPeerMethod::handle_unrecorded"
	ldrb.w	r0, [sp, #21]
	ldrb.w	r5, [sp, #22]
	cbz	r0, .LBBf7a7f_13
	ldr.w	r2, [sp, #1544]
	ldr.w	r3, [sp, #1548]
	ldr.w	r0, [r10, #1328]
	ldrb.w	r7, [sp, #23]
	movs	r6, #1
	add	r1, sp, #40
	strb.w	r6, [r10, #2632]
	bl	"octet_lists::octets::Octets::set::<=1500>"
	movs	r0, #0
	movs	r3, #0
	movs	r2, #0
	b	.LBBf7a7f_12
.LBBf7a7f_9:
	movs	r2, #11
.LBBf7a7f_10:
	movs	r6, #0
	strb.w	r6, [r10, #2632]
	movs	r0, #1
	movs	r3, #0
.LBBf7a7f_11:
	movs	r5, #0
	movs	r7, #0
.LBBf7a7f_12:
	lsls	r2, r2, #24
	orr.w	r2, r2, r3, lsl #16
	orr.w	r0, r2, r0, lsl #8
	orr.w	r1, r5, r7, lsl #8
	add	r0, r6
	add.w	sp, sp, #1552
	pop.w	{r4, r5, r6, r7, r8, r9, r10, pc}
.LBBf7a7f_13:
	strb.w	r6, [r10, #2632]
	movs	r0, #1
	movs	r3, #0
	mov	r2, r5
	b	.LBBf7a7f_11
.Lfunc_endf7a7f:
	.size	tuv_peer_method_handle, .Lfunc_endf7a7f-tuv_peer_method_handle
	.cantunwind
	.fnend

	.section	.text.tuv_peer_restart,"ax",%progbits
	.globl	tuv_peer_restart
	.p2align	2
	.type	tuv_peer_restart,%function
	.code	16
	.thumb_func
tuv_peer_restart:
	.fnstart
	.save	{r7, lr}
	push	{r7, lr}
	.pad	#8
	sub	sp, #8
	ldr	r2, [r0]
	mov	r3, r1
	mov	r0, sp
	mov	r1, r2
	mov	r2, r3
	bl	"tuvaddri_c::restart::restart_peer"
	ldr	r0, [sp]
	ldrb.w	r1, [sp, #4]
	add	sp, #8
	pop	{r7, pc}
.Lfunc_end9a4cc:
	.size	tuv_peer_restart, .Lfunc_end9a4cc-tuv_peer_restart
	.cantunwind
	.fnend

	.section	.text.tuv_server_deliver,"ax",%progbits
	.globl	tuv_server_deliver
	.p2align	2
	.type	tuv_server_deliver,%function
	.code	16
	.thumb_func
tuv_server_deliver:
	.fnstart
	.save	{r7, lr}
	push	{r7, lr}
	.pad	#16
	sub	sp, #16
	mov	r12, r2
	mov	r2, r1
	cmp	r1, #0
	it	eq
	addeq.w	r2, r2, #4096
	ldr	r1, [r0]
	mov.w	lr, #0
	add	r0, sp, #8
	strb.w	lr, [sp, #12]
	str.w	lr, [sp, #8]
	strd	r12, r3, [sp]
	bl	"tuvaddri_c::deliver::deliver_to_server"
	ldr	r0, [sp, #8]
	ldrb.w	r1, [sp, #12]
	add	sp, #16
	pop	{r7, pc}
.Lfunc_end0df5b:
	.size	tuv_server_deliver, .Lfunc_end0df5b-tuv_server_deliver
	.cantunwind
	.fnend

	.section	.text.tuv_server_method_handle,"ax",%progbits
	.globl	tuv_server_method_handle
	.p2align	2
	.type	tuv_server_method_handle,%function
	.code	16
	.thumb_func
tuv_server_method_handle:
	.fnstart
	.save	{r4, r5, r6, r7, r8, r9, r10, r11, lr}
	push.w	{r4, r5, r6, r7, r8, r9, r10, r11, lr}
	.pad	#1556
	subw	sp, sp, #1556
	ldr.w	r11, [r0]
	ldrb.w	r0, [r11]
	cmp	r0, #2
	bne	.LBBd20b6_3
	mov	r9, r11
	ldrb	r0, [r9, #8]!
	cmp	r1, #0
	it	eq
	addeq.w	r1, r1, #4096
	add.w	r8, sp, #40
	cmp	r0, #0
	mov.w	r4, #51
	mov	r0, r8
	mov	r6, r1
	mov.w	r1, #48
	it	eq
	moveq	r4, #47
	mov	r7, r3
	mov	r5, r2
	bl	__aeabi_memclr8
	mov	r0, r8
	mov	r1, r6
	mov	r2, r5
	mov	r3, r7
	bl	"eap_packet::packet::decode"
	ldrb.w	r0, [sp, #40]
	cmp	r0, #1
	bne	.LBBd20b6_4
	ldrb.w	r1, [sp, #41]
	b	.LBBd20b6_11
.LBBd20b6_3:
	movs	r5, #0
	movs	r7, #1
	movs	r2, #0
	movs	r1, #0
	strb.w	r5, [r11, #2632]
	b	.LBBd20b6_12
.LBBd20b6_4:
	ldrb.w	r0, [sp, #48]
	cmp	r0, #1
	bne	.LBBd20b6_9
	ldrb.w	r0, [sp, #50]
	cmp	r0, r4
	bne	.LBBd20b6_10
	ldr.w	r10, [sp, #72]
	ldrd	r6, r7, [sp, #80]
	mov	r0, r8
	mov.w	r1, #1512
	bl	__aeabi_memclr8
	ldr.w	r2, [sp, #1592]
	ldr.w	r0, [r11, #1968]
	ldr.w	r4, [r11, #1972]
	add	r1, sp, #24
	str	r2, [sp]
	add.w	r2, r11, #1264
	movs	r5, #0
	strd	r2, r0, [sp, #4]
	strd	r8, r1, [sp, #16]
	mov	r0, r9
	mov	r1, r10
	mov	r2, r6
	mov	r3, r7
	str	r5, [sp, #36]
	strd	r5, r5, [sp, #28]
	str	r5, [sp, #24]
	str	r4, [sp, #12]
	bl	"end_objects::objects::ServerObjectServerMethod::handle_unrecorded"
	uxtb	r2, r0
	cbz	r2, .LBBd20b6_15
	cmp	r2, #1
	bne	.LBBd20b6_16
	ldr.w	r2, [sp, #1544]
	ldr.w	r3, [sp, #1548]
	ldr.w	r0, [r11, #1976]
	movs	r5, #1
	add	r1, sp, #40
	strb.w	r5, [r11, #2632]
	bl	"octet_lists::octets::Octets::set::<=1500>"
	movs	r0, #2
	movs	r2, #0
	movs	r7, #0
	movs	r1, #0
	b	.LBBd20b6_13
.LBBd20b6_9:
	movs	r1, #7
	b	.LBBd20b6_11
.LBBd20b6_10:
	movs	r1, #16
.LBBd20b6_11:
	movs	r5, #0
	strb.w	r5, [r11, #2632]
	movs	r2, #1
	movs	r7, #0
.LBBd20b6_12:
	movs	r0, #0
.LBBd20b6_13:
	movs	r3, #0
.LBBd20b6_14:
	uxtb	r0, r0
	orr.w	r3, r0, r3, lsl #8
	lsls	r0, r1, #24
	orr.w	r0, r0, r7, lsl #16
	orr.w	r0, r0, r2, lsl #8
	add	r0, r5
	uxth	r1, r3
	addw	sp, sp, #1556
	pop.w	{r4, r5, r6, r7, r8, r9, r10, r11, pc}
.LBBd20b6_15:
	movs	r2, #1
	mov	r3, r0
	b	.LBBd20b6_17
.LBBd20b6_16:
	movs	r0, #2
	and.w	r3, r0, r1, lsl #1
	movs	r0, #4
	movs	r2, #0
	movs	r1, #0
.LBBd20b6_17:
	strb.w	r5, [r11, #2632]
	movs	r7, #0
	b	.LBBd20b6_14
.Lfunc_endd20b6:
	.size	tuv_server_method_handle, .Lfunc_endd20b6-tuv_server_method_handle
	.cantunwind
	.fnend

	.section	.text.tuv_server_restart,"ax",%progbits
	.globl	tuv_server_restart
	.p2align	2
	.type	tuv_server_restart,%function
	.code	16
	.thumb_func
tuv_server_restart:
	.fnstart
	.save	{r7, lr}
	push	{r7, lr}
	.pad	#8
	sub	sp, #8
	mov	r2, r1
	ldr	r1, [r0]
	movs	r3, #0
	mov	r0, sp
	strb.w	r3, [sp, #4]
	str	r3, [sp]
	bl	"tuvaddri_c::restart::restart_server"
	ldr	r0, [sp]
	ldrb.w	r1, [sp, #4]
	add	sp, #8
	pop	{r7, pc}
.Lfunc_endeb68b:
	.size	tuv_server_restart, .Lfunc_endeb68b-tuv_server_restart
	.cantunwind
	.fnend

	.section	.text.tuv_server_start,"ax",%progbits
	.globl	tuv_server_start
	.p2align	2
	.type	tuv_server_start,%function
	.code	16
	.thumb_func
tuv_server_start:
	.fnstart
	.save	{r4, r5, r6, r7, r8, lr}
	push.w	{r4, r5, r6, r7, r8, lr}
	.pad	#1536
	sub.w	sp, sp, #1536
	ldr	r7, [r0]
	movs	r4, #0
	ldrb	r0, [r7]
	str	r4, [sp, #20]
	cmp	r0, #4
	str	r4, [sp, #16]
	bne	.LBB79895_3
	ldrb.w	r0, [r7, #35]
	cbnz	r0, .LBB79895_3
	ldrb.w	r0, [r7, #32]
	cmp	r0, #1
	bne	.LBB79895_5
.LBB79895_3:
	movs	r0, #1
	mov.w	r8, #0
	movs	r5, #0
	movs	r1, #0
	strb.w	r4, [r7, #2632]
.LBB79895_4:
	lsls	r2, r5, #24
	orr.w	r0, r2, r0, lsl #16
	orr.w	r0, r0, r8, lsl #8
	add	r0, r4
	add.w	sp, sp, #1536
	pop.w	{r4, r5, r6, r7, r8, pc}
.LBB79895_5:
	add	r5, sp, #24
	mov	r0, r5
	mov.w	r1, #1512
	add.w	r4, r7, #8
	bl	__aeabi_memclr8
	mov	r0, sp
	mov	r1, r4
	mov	r2, r5
	bl	"server_machine::machine::SizedServer::start_step::<#575f94f35bca5e04>"
	ldrb.w	r4, [sp, #18]
	ldrb.w	r8, [sp, #16]
	ldrb.w	r5, [sp, #17]
	ldr.w	r2, [sp, #1528]
	ldr.w	r3, [sp, #1532]
	ldrb.w	r1, [r7, #35]
	ldr.w	r0, [r7, #2624]
	lsls	r6, r4, #31
	strb.w	r4, [r7, #2632]
	beq	.LBB79895_7
	add.w	r12, sp, #24
	mov	r7, r1
	mov	r1, r12
	bl	"octet_lists::octets::Octets::set::<=1500>"
	mov	r1, r7
.LBB79895_7:
	cmp.w	r8, #0
	it	eq
	moveq	r5, r8
	movs	r0, #0
	b	.LBB79895_4
.Lfunc_end79895:
	.size	tuv_server_start, .Lfunc_end79895-tuv_server_start
	.cantunwind
	.fnend

	.section	.text.tuv_server_timeout,"ax",%progbits
	.globl	tuv_server_timeout
	.p2align	2
	.type	tuv_server_timeout,%function
	.code	16
	.thumb_func
tuv_server_timeout:
	.fnstart
	.save	{r4, r5, r6, r7, r8, lr}
	push.w	{r4, r5, r6, r7, r8, lr}
	.pad	#1536
	sub.w	sp, sp, #1536
	ldr	r5, [r0]
	ldrb	r0, [r5]
	cmp	r0, #4
	bne	.LBBa4dc4_4
	ldrb.w	r0, [r5, #32]
	cmp	r0, #1
	beq	.LBBa4dc4_4
	ldrb.w	r0, [r5, #35]
	cbz	r0, .LBBa4dc4_4
	bl	"eap_method::step::has_ended"
	cbz	r0, .LBBa4dc4_6
.LBBa4dc4_4:
	movs	r6, #0
	movs	r0, #1
	movs	r7, #0
	movs	r4, #0
	movs	r1, #0
	strb.w	r6, [r5, #2632]
.LBBa4dc4_5:
	lsls	r2, r4, #24
	orr.w	r0, r2, r0, lsl #16
	orr.w	r0, r0, r7, lsl #8
	add	r0, r6
	add.w	sp, sp, #1536
	pop.w	{r4, r5, r6, r7, r8, pc}
.LBBa4dc4_6:
	mov	r0, sp
	mov.w	r1, #1512
	bl	__aeabi_memclr8
	movs	r0, #0
	str.w	r0, [sp, #1532]
	str.w	r0, [sp, #1528]
	str.w	r0, [sp, #1524]
	str.w	r0, [sp, #1520]
	str.w	r0, [sp, #1516]
	str.w	r0, [sp, #1512]
	ldrb.w	r0, [r5, #41]
	ldrb.w	r1, [r5, #34]
	adds	r0, #1
	uxtb	r2, r0
	cmp	r2, r1
	strb.w	r0, [r5, #41]
	bls	.LBBa4dc4_8
	movw	r1, :lower16:.Lstatic.36
	movs	r4, #19
	movt	r1, :upper16:.Lstatic.36
	add.w	r0, sp, #1512
	movs	r2, #2
	movs	r3, #0
	strb.w	r4, [r5, #35]
	mov.w	r8, #0
	bl	"eap_method::step::Step::entering"
	mov	r1, r4
	movs	r3, #0
	b	.LBBa4dc4_9
.LBBa4dc4_8:
	ldr.w	r2, [r5, #1568]
	ldr.w	r3, [r5, #1572]
	add.w	r1, r5, #64
	mov	r0, sp
	bl	"octet_lists::octets::Octets::set::<=1500>"
	movw	r1, :lower16:.Lstatic.35
	movt	r1, :upper16:.Lstatic.35
	add.w	r0, sp, #1512
	movs	r2, #2
	movs	r3, #0
	bl	"eap_method::step::Step::sending"
	ldrb.w	r1, [r5, #35]
	ldr.w	r8, [sp, #1504]
	ldr.w	r3, [sp, #1508]
.LBBa4dc4_9:
	ldrb.w	r6, [sp, #1530]
	ldrb.w	r7, [sp, #1528]
	ldrb.w	r4, [sp, #1529]
	ldr.w	r0, [r5, #2624]
	lsls	r2, r6, #31
	strb.w	r6, [r5, #2632]
	beq	.LBBa4dc4_11
	mov	r2, sp
	mov	r5, r1
	mov	r1, r2
	mov	r2, r8
	bl	"octet_lists::octets::Octets::set::<=1500>"
	mov	r1, r5
.LBBa4dc4_11:
	cmp	r7, #0
	it	eq
	moveq	r4, r7
	movs	r0, #0
	b	.LBBa4dc4_5
.Lfunc_enda4dc4:
	.size	tuv_server_timeout, .Lfunc_enda4dc4-tuv_server_timeout
	.cantunwind
	.fnend

	.section	.text.tuv_supplicant_control,"ax",%progbits
	.globl	tuv_supplicant_control
	.p2align	2
	.type	tuv_supplicant_control,%function
	.code	16
	.thumb_func
tuv_supplicant_control:
	.fnstart
	.save	{r4, r5, r7, lr}
	push	{r4, r5, r7, lr}
	.pad	#1544
	sub.w	sp, sp, #1544
	ldr	r5, [r0]
	subs	r0, r1, #1
	uxtb	r1, r0
	movs	r2, #0
	cmp	r1, #2
	str.w	r2, [sp, #19]
	str	r2, [sp, #16]
	bhi	.LBB09cbc_4
	ldrb	r1, [r5]
	cmp	r1, #7
	bne	.LBB09cbc_4
	lsls	r0, r0, #3
	movs	r1, #2
	uxtb	r0, r0
	movt	r1, #1
	lsr.w	r4, r1, r0
	add	r0, sp, #24
	mov.w	r1, #1512
	bl	__aeabi_memclr8
	ldrb	r0, [r5, #30]
	cmp	r0, #1
	bhi	.LBB09cbc_5
	movs	r1, #0
	strb	r4, [r5, #28]
	str.w	r1, [sp, #1536]
	strb.w	r1, [sp, #1540]
	b	.LBB09cbc_7
.LBB09cbc_4:
	strb.w	r2, [r5, #2632]
	movs	r0, #1
	movs	r3, #0
	movs	r5, #0
	b	.LBB09cbc_8
.LBB09cbc_5:
	ldrb	r3, [r5, #28]
	uxtb	r1, r4
	movs	r2, #0
	cmp	r3, r1
	strb.w	r2, [sp, #1540]
	str.w	r2, [sp, #1536]
	beq	.LBB09cbc_7
	add.w	r1, r5, #8
	add.w	r0, sp, #1536
	add	r3, sp, #24
	mov	r2, r4
	strb	r4, [r5, #28]
	bl	"supplicant::machine::Supplicant::begin::<#807681be332d694b>"
	ldrb	r0, [r5, #30]
.LBB09cbc_7:
	ldr.w	r1, [r5, #2352]
	ldrb	r3, [r5, #31]
	addw	r5, r5, #2632
	strd	r0, r1, [sp]
	add	r0, sp, #16
	add.w	r1, sp, #1536
	add	r2, sp, #24
	str	r5, [sp, #8]
	bl	"tuvaddri_c::supplicant_turn::TuvSupplicantTurn::of"
	ldrb.w	r5, [sp, #16]
	ldrb.w	r3, [sp, #17]
	ldrb.w	r0, [sp, #18]
	ldr.w	r2, [sp, #19]
.LBB09cbc_8:
	lsls	r0, r0, #16
	orr.w	r0, r0, r2, lsl #24
	orr.w	r0, r0, r3, lsl #8
	lsrs	r1, r2, #8
	add	r0, r5
	add.w	sp, sp, #1544
	pop	{r4, r5, r7, pc}
.Lfunc_end09cbc:
	.size	tuv_supplicant_control, .Lfunc_end09cbc-tuv_supplicant_control
	.cantunwind
	.fnend

	.section	.text.tuv_supplicant_frame,"ax",%progbits
	.globl	tuv_supplicant_frame
	.p2align	2
	.type	tuv_supplicant_frame,%function
	.code	16
	.thumb_func
tuv_supplicant_frame:
	.fnstart
	.save	{r4, r5, r6, r7, r8, r9, r10, r11, lr}
	push.w	{r4, r5, r6, r7, r8, r9, r10, r11, lr}
	.pad	#1636
	subw	sp, sp, #1636
	ldr.w	r8, [r0]
	movs	r4, #0
	ldrb.w	r0, [r8]
	str.w	r4, [sp, #19]
	cmp	r0, #7
	str	r4, [sp, #16]
	bne	.LBBebfe5_3
	cmp	r1, #0
	it	eq
	addeq.w	r1, r1, #4096
	add.w	r9, sp, #24
	mov	r0, r9
	mov	r5, r1
	mov.w	r1, #1512
	mov	r6, r3
	mov	r7, r2
	bl	__aeabi_memclr8
	add.w	r0, sp, #1536
	mov	r1, r5
	mov	r2, r7
	mov	r3, r6
	str.w	r4, [sp, #1564]
	str.w	r4, [sp, #1560]
	str.w	r4, [sp, #1556]
	str.w	r4, [sp, #1552]
	str.w	r4, [sp, #1548]
	str.w	r4, [sp, #1544]
	str.w	r4, [sp, #1540]
	str.w	r4, [sp, #1536]
	bl	"eapol_frame::frame::read_frame"
	ldrb.w	r0, [sp, #1536]
	cbz	r0, .LBBebfe5_4
	ldrb.w	r7, [sp, #1537]
	movs	r1, #1
	movs	r0, #0
	movs	r2, #0
	movs	r3, #0
	b	.LBBebfe5_16
.LBBebfe5_3:
	movs	r0, #1
	strb.w	r4, [r8, #2632]
	strb.w	r0, [sp, #18]
	b	.LBBebfe5_17
.LBBebfe5_4:
	ldrb.w	r0, [sp, #1545]
	cmp	r0, #0
	mov.w	r0, #0
	beq	.LBBebfe5_6
	movs	r1, #1
	movs	r2, #0
	movs	r3, #1
	movs	r7, #0
	b	.LBBebfe5_16
.LBBebfe5_6:
	str.w	r0, [sp, #1576]
	strb.w	r0, [sp, #1580]
	str.w	r0, [sp, #1568]
	strb.w	r0, [sp, #1572]
	ldrb.w	r0, [r8, #30]
	movs	r1, #1
	ldr.w	r6, [sp, #1552]
	ldr.w	r7, [sp, #1560]
	ldr.w	r5, [sp, #1564]
	lsl.w	r0, r1, r0
	add.w	r4, r8, #8
	tst.w	r0, #195
	beq	.LBBebfe5_8
	movw	r0, #513
	strh.w	r0, [sp, #1578]
	b	.LBBebfe5_15
.LBBebfe5_8:
	tst.w	r0, #52
	beq	.LBBebfe5_14
	add.w	r10, r8, #40
	mov	r0, r10
	bl	"peer_machine::machine::PeerMachine::has_objects::<#807681be332d694b>"
	cbz	r0, .LBBebfe5_12
	add.w	r11, sp, #1584
	mov	r0, r11
	movs	r1, #48
	bl	__aeabi_memclr8
	mov	r0, r11
	mov	r1, r6
	mov	r2, r7
	mov	r3, r5
	bl	"eap_packet::packet::decode"
	ldrb.w	r0, [sp, #1592]
	ldrb.w	r1, [sp, #1584]
	uxtb	r0, r0
	orrs	r0, r1
	bne	.LBBebfe5_12
	ldr.w	r2, [sp, #1672]
	add.w	r0, sp, #1584
	mov	r1, r10
	bl	"peer_machine::machine::PeerMachine::restart_step::<#807681be332d694b>"
	movs	r0, #3
	strb.w	r0, [r8, #30]
	ldr.w	r0, [r8, #16]
	movs	r1, #0
	strd	r1, r0, [r8, #32]
	movs	r0, #1
	strd	r0, r9, [sp, #8]
	add.w	r0, sp, #1568
	mov	r1, r4
	mov	r2, r6
	str	r7, [sp]
	str	r5, [sp, #4]
	bl	"supplicant::machine::Supplicant::deliver::<#807681be332d694b>"
	b	.LBBebfe5_13
.LBBebfe5_12:
	movs	r0, #0
	movt	r0, #769
	str.w	r0, [sp, #1568]
	movs	r0, #0
	strb.w	r0, [sp, #1572]
.LBBebfe5_13:
	ldrb.w	r0, [sp, #1572]
	ldr.w	r1, [sp, #1568]
	strb.w	r0, [sp, #1580]
	str.w	r1, [sp, #1576]
	b	.LBBebfe5_15
.LBBebfe5_14:
	movs	r0, #0
	strd	r0, r9, [sp, #8]
	add.w	r0, sp, #1576
	mov	r1, r4
	mov	r2, r6
	str	r7, [sp]
	str	r5, [sp, #4]
	bl	"supplicant::machine::Supplicant::deliver::<#807681be332d694b>"
.LBBebfe5_15:
	ldrb.w	r0, [sp, #1576]
	ldrb.w	r2, [sp, #1577]
	ldrb.w	r1, [sp, #1578]
	ldrb.w	r3, [sp, #1579]
	ldrb.w	r7, [sp, #1580]
.LBBebfe5_16:
	strb.w	r0, [sp, #1584]
	strb.w	r1, [sp, #1586]
	ldrb.w	r0, [r8, #30]
	ldr.w	r1, [r8, #2352]
	strb.w	r3, [sp, #1587]
	ldrb.w	r3, [r8, #31]
	strb.w	r2, [sp, #1585]
	strb.w	r7, [sp, #1588]
	addw	r7, r8, #2632
	strd	r0, r1, [sp]
	add	r0, sp, #16
	add.w	r1, sp, #1584
	add	r2, sp, #24
	str	r7, [sp, #8]
	bl	"tuvaddri_c::supplicant_turn::TuvSupplicantTurn::of"
.LBBebfe5_17:
	ldrb.w	r1, [sp, #22]
	ldrh.w	r2, [sp, #20]
	ldr	r0, [sp, #16]
	orr.w	r1, r2, r1, lsl #16
	addw	sp, sp, #1636
	pop.w	{r4, r5, r6, r7, r8, r9, r10, r11, pc}
.Lfunc_endebfe5:
	.size	tuv_supplicant_frame, .Lfunc_endebfe5-tuv_supplicant_frame
	.cantunwind
	.fnend

	.section	.text.tuv_supplicant_link,"ax",%progbits
	.globl	tuv_supplicant_link
	.p2align	2
	.type	tuv_supplicant_link,%function
	.code	16
	.thumb_func
tuv_supplicant_link:
	.fnstart
	.save	{r4, r5, r6, lr}
	push	{r4, r5, r6, lr}
	.pad	#1544
	sub.w	sp, sp, #1544
	ldr	r5, [r0]
	mov	r4, r1
	ldrb	r1, [r5]
	movs	r0, #0
	cmp	r1, #7
	str.w	r0, [sp, #19]
	str	r0, [sp, #16]
	bne	.LBB0f688_4
	add	r0, sp, #24
	mov.w	r1, #1512
	bl	__aeabi_memclr8
	lsls	r0, r4, #24
	beq	.LBB0f688_5
	ldrb	r4, [r5, #30]
	movs	r6, #0
	strb.w	r6, [sp, #1540]
	str.w	r6, [sp, #1536]
	cbz	r4, .LBB0f688_6
	mov.w	r12, #0
	movs	r1, #0
	movs	r2, #0
	movs	r3, #0
	b	.LBB0f688_9
.LBB0f688_4:
	strb.w	r0, [r5, #2632]
	movs	r0, #1
	strb.w	r0, [sp, #18]
	b	.LBB0f688_11
.LBB0f688_5:
	movs	r4, #0
	strh	r4, [r5, #30]
	movs	r0, #0
	movs	r3, #0
	movs	r2, #0
	movs	r1, #0
	mov.w	r12, #0
	movs	r6, #0
	b	.LBB0f688_10
.LBB0f688_6:
	ldrb	r0, [r5, #29]
	cmp	r0, #1
	bne	.LBB0f688_8
	movw	r2, :lower16:.Lstatic.0
	movs	r4, #1
	movt	r2, :upper16:.Lstatic.0
	add	r0, sp, #24
	movs	r1, #2
	strh	r4, [r5, #30]
	str	r6, [sp]
	str	r6, [sp, #4]
	bl	"eapol_frame::frame::write_frame"
	mov.w	r12, #0
	movs	r1, #0
	movs	r2, #0
	movs	r3, #1
	b	.LBB0f688_9
.LBB0f688_8:
	ldrb	r2, [r5, #28]
	add.w	r1, r5, #8
	add.w	r0, sp, #1536
	add	r3, sp, #24
	bl	"supplicant::machine::Supplicant::begin::<#807681be332d694b>"
	ldrb.w	r3, [sp, #1536]
	ldrb.w	r2, [sp, #1537]
	ldrb.w	r1, [sp, #1538]
	ldrb.w	r12, [sp, #1539]
	ldrb.w	r6, [sp, #1540]
	ldrb	r4, [r5, #30]
.LBB0f688_9:
	ldrb	r0, [r5, #31]
.LBB0f688_10:
	strb.w	r1, [sp, #1538]
	ldr.w	r1, [r5, #2352]
	strb.w	r3, [sp, #1536]
	strb.w	r2, [sp, #1537]
	strb.w	r6, [sp, #1540]
	addw	r6, r5, #2632
	strd	r4, r1, [sp]
	and	r3, r0, #1
	add	r0, sp, #16
	add.w	r1, sp, #1536
	add	r2, sp, #24
	strb.w	r12, [sp, #1539]
	str	r6, [sp, #8]
	bl	"tuvaddri_c::supplicant_turn::TuvSupplicantTurn::of"
.LBB0f688_11:
	ldrb.w	r1, [sp, #22]
	ldrh.w	r2, [sp, #20]
	ldr	r0, [sp, #16]
	orr.w	r1, r2, r1, lsl #16
	add.w	sp, sp, #1544
	pop	{r4, r5, r6, pc}
.Lfunc_end0f688:
	.size	tuv_supplicant_link, .Lfunc_end0f688-tuv_supplicant_link
	.cantunwind
	.fnend

	.section	.text.tuv_supplicant_logoff,"ax",%progbits
	.globl	tuv_supplicant_logoff
	.p2align	2
	.type	tuv_supplicant_logoff,%function
	.code	16
	.thumb_func
tuv_supplicant_logoff:
	.fnstart
	.save	{r4, r5, r7, lr}
	push	{r4, r5, r7, lr}
	.pad	#1544
	sub.w	sp, sp, #1544
	ldr	r5, [r0]
	mov	r4, r1
	ldrb	r1, [r5]
	movs	r0, #0
	cmp	r1, #7
	str.w	r0, [sp, #19]
	str	r0, [sp, #16]
	bne	.LBB67384_4
	add	r0, sp, #24
	mov.w	r1, #1512
	bl	__aeabi_memclr8
	lsls	r0, r4, #24
	beq	.LBB67384_5
	ldrb	r0, [r5, #30]
	movs	r3, #0
	subs	r1, r0, #2
	cmp	r1, #6
	bhs	.LBB67384_8
	movw	r0, #257
	movw	r2, :lower16:.Lstatic.0
	strh.w	r0, [r5, #29]
	movt	r2, :upper16:.Lstatic.0
	add	r0, sp, #24
	movs	r1, #2
	strb	r3, [r5, #31]
	str	r3, [sp]
	str	r3, [sp, #4]
	bl	"eapol_frame::frame::write_frame"
	movs	r1, #0
	movs	r0, #1
	movs	r3, #1
	b	.LBB67384_9
.LBB67384_4:
	strb.w	r0, [r5, #2632]
	movs	r0, #1
	strb.w	r0, [sp, #18]
	b	.LBB67384_10
.LBB67384_5:
	ldrb	r0, [r5, #30]
	movs	r1, #0
	cmp	r0, #1
	strb.w	r1, [sp, #1540]
	str.w	r1, [sp, #1536]
	strb	r1, [r5, #29]
	bne	.LBB67384_7
	ldrb	r2, [r5, #28]
	add.w	r1, r5, #8
	add.w	r0, sp, #1536
	add	r3, sp, #24
	bl	"supplicant::machine::Supplicant::begin::<#807681be332d694b>"
	ldrb.w	r3, [sp, #1536]
	ldr.w	r1, [sp, #1537]
	ldrb	r0, [r5, #30]
	b	.LBB67384_9
.LBB67384_7:
	movs	r3, #0
	b	.LBB67384_9
.LBB67384_8:
	cmp	r0, #1
	ittt	ne
	movne	r0, #1
	strbne	r0, [r5, #29]
	movne	r0, #0
	movs	r1, #0
.LBB67384_9:
	str.w	r1, [sp, #1537]
	ldr.w	r1, [r5, #2352]
	strb.w	r3, [sp, #1536]
	ldrb	r3, [r5, #31]
	addw	r5, r5, #2632
	strd	r0, r1, [sp]
	add	r0, sp, #16
	add.w	r1, sp, #1536
	add	r2, sp, #24
	str	r5, [sp, #8]
	bl	"tuvaddri_c::supplicant_turn::TuvSupplicantTurn::of"
.LBB67384_10:
	ldrb.w	r1, [sp, #22]
	ldrh.w	r2, [sp, #20]
	ldr	r0, [sp, #16]
	orr.w	r1, r2, r1, lsl #16
	add.w	sp, sp, #1544
	pop	{r4, r5, r7, pc}
.Lfunc_end67384:
	.size	tuv_supplicant_logoff, .Lfunc_end67384-tuv_supplicant_logoff
	.cantunwind
	.fnend

	.section	.text.tuv_supplicant_second,"ax",%progbits
	.globl	tuv_supplicant_second
	.p2align	2
	.type	tuv_supplicant_second,%function
	.code	16
	.thumb_func
tuv_supplicant_second:
	.fnstart
	.save	{r4, r5, r7, lr}
	push	{r4, r5, r7, lr}
	.pad	#1544
	sub.w	sp, sp, #1544
	ldr	r5, [r0]
	movs	r0, #0
	ldrb	r1, [r5]
	str.w	r0, [sp, #19]
	cmp	r1, #7
	str	r0, [sp, #16]
	bne	.LBB2e5d2_3
	add	r0, sp, #24
	mov.w	r1, #1512
	add.w	r4, r5, #8
	bl	__aeabi_memclr8
	ldrb	r0, [r5, #30]
	movs	r1, #1
	lsl.w	r0, r1, r0
	tst.w	r0, #211
	beq	.LBB2e5d2_4
	movs	r0, #0
	strb.w	r0, [sp, #1540]
	str.w	r0, [sp, #1536]
	b	.LBB2e5d2_12
.LBB2e5d2_3:
	strb.w	r0, [r5, #2632]
	movs	r0, #1
	strb.w	r0, [sp, #18]
	b	.LBB2e5d2_13
.LBB2e5d2_4:
	tst.w	r0, #40
	beq	.LBB2e5d2_7
	ldr	r0, [r5, #36]
	cmp	r0, #1
	bhi	.LBB2e5d2_11
.LBB2e5d2_6:
	add.w	r0, sp, #1536
	add	r2, sp, #24
	mov	r1, r4
	bl	"supplicant::machine::Supplicant::connect::<#807681be332d694b>"
	b	.LBB2e5d2_12
.LBB2e5d2_7:
	ldr	r0, [r5, #36]
	cmp	r0, #1
	bhi	.LBB2e5d2_11
	ldr	r0, [r5, #12]
	ldr	r1, [r5, #32]
	cmp	r1, r0
	blo	.LBB2e5d2_6
	ldrb	r0, [r5, #24]
	cmp	r0, #1
	bne	.LBB2e5d2_14
	movs	r0, #0
	strb.w	r0, [sp, #1540]
	str.w	r0, [sp, #1536]
	movs	r0, #1
	movs	r1, #4
	b	.LBB2e5d2_15
.LBB2e5d2_11:
	subs	r0, #1
	str	r0, [r5, #36]
	movs	r0, #0
	str.w	r0, [sp, #1536]
	strb.w	r0, [sp, #1540]
.LBB2e5d2_12:
	ldrb	r0, [r5, #30]
	ldr.w	r1, [r5, #2352]
	ldrb	r3, [r5, #31]
	addw	r5, r5, #2632
	strd	r0, r1, [sp]
	add	r0, sp, #16
	add.w	r1, sp, #1536
	add	r2, sp, #24
	str	r5, [sp, #8]
	bl	"tuvaddri_c::supplicant_turn::TuvSupplicantTurn::of"
.LBB2e5d2_13:
	ldrb.w	r1, [sp, #22]
	ldrh.w	r2, [sp, #20]
	ldr	r0, [sp, #16]
	orr.w	r1, r2, r1, lsl #16
	add.w	sp, sp, #1544
	pop	{r4, r5, r7, pc}
.LBB2e5d2_14:
	ldr	r0, [r5, #20]
	movs	r1, #5
	str	r0, [r5, #36]
	movs	r0, #0
	str.w	r0, [sp, #1536]
	strb.w	r0, [sp, #1540]
.LBB2e5d2_15:
	strb	r1, [r5, #30]
	strb	r0, [r5, #31]
	b	.LBB2e5d2_12
.Lfunc_end2e5d2:
	.size	tuv_supplicant_second, .Lfunc_end2e5d2-tuv_supplicant_second
	.cantunwind
	.fnend

	.type	.Lstatic.0,%object
	.section	.rodata..Lstatic.0,"a",%progbits
.Lstatic.0:
	.size	.Lstatic.0, 0

	.type	.Lstatic.1,%object
	.section	.rodata..Lstatic.1,"a",%progbits
.Lstatic.1:
	.byte	47
	.size	.Lstatic.1, 1

	.type	.Lstatic.2,%object
	.section	.rodata..Lstatic.2,"a",%progbits
.Lstatic.2:
	.byte	51
	.size	.Lstatic.2, 1

	.type	.Lstatic.3,%object
	.section	.rodata..Lstatic.3,"a",%progbits
.Lstatic.3:
	.ascii	"3/"
	.size	.Lstatic.3, 2

	.type	.Lstatic.4,%object
	.section	.rodata..Lstatic.4,"a",%progbits
.Lstatic.4:
	.ascii	"\001\002"
	.size	.Lstatic.4, 2

	.type	.Lstatic.5,%object
	.section	.rodata.str1.1,"aMS",%progbits,1
.Lstatic.5:
	.zero	1
	.size	.Lstatic.5, 1

	.type	.Lstatic.6,%object
	.section	.rodata..Lstatic.6,"a",%progbits
.Lstatic.6:
	.zero	6
	.size	.Lstatic.6, 6

	.type	.Lstatic.8,%object
	.section	.rodata..Lstatic.8,"a",%progbits
.Lstatic.8:
	.byte	3
	.size	.Lstatic.8, 1

	.type	.Lstatic.10,%object
	.section	.rodata.cst16,"aM",%progbits,16
.Lstatic.10:
	.zero	16
	.size	.Lstatic.10, 16

	.type	.Lstatic.11,%object
	.section	.rodata..Lstatic.11,"a",%progbits
.Lstatic.11:
	.ascii	"\001\002\004\b\020 @\200\0336"
	.size	.Lstatic.11, 10

	.type	.Lstatic.12,%object
	.section	.rodata..Lstatic.12,"a",%progbits
	.p2align	2, 0x0
.Lstatic.12:
	.ascii	"\230/\212B\221D7q\317\373\300\265\245\333\265\351[\302V9\361\021\361Y\244\202?\222\325^\034\253\230\252\007\330\001[\203\022\276\2051$\303}\fUt]\276r\376\261\336\200\247\006\334\233t\361\233\301\301i\233\344\206G\276\357\306\235\301\017\314\241\f$o,\351-\252\204tJ\334\251\260\\\332\210\371vRQ>\230m\3061\250\310'\003\260\307\177Y\277\363\013\340\306G\221\247\325Qc\312\006g))\024\205\n\267'8!\033.\374m,M\023\r8STs\ne\273\njv.\311\302\201\205,r\222\241\350\277\242Kf\032\250p\213K\302\243Ql\307\031\350\222\321$\006\231\326\2055\016\364p\240j\020\026\301\244\031\bl7\036LwH'\265\274\2604\263\f\0349J\252\330NO\312\234[\363o.h\356\202\217toc\245x\024x\310\204\b\002\307\214\372\377\276\220\353lP\244\367\243\371\276\362xq\306"
	.size	.Lstatic.12, 256

	.type	.Lstatic.13,%object
	.section	.rodata..Lstatic.13,"a",%progbits
.Lstatic.13:
	.asciz	"\200\000\000\000\000\000\000\000\000\000\000\000\000\000\000\000\000\000\000\000\000\000\000\000\000\000\000\000\000\000\000\000\000\000\000\000\000\000\000\000\000\000\000\000\000\000\000\000\000\000\000\000\000\000\000\000\000\000\000\000\000\000\000"
	.size	.Lstatic.13, 64

	.type	.Lstatic.14,%object
	.section	.rodata.cst32,"aM",%progbits,32
.Lstatic.14:
	.zero	32
	.size	.Lstatic.14, 32

	.type	.Lstatic.16,%object
	.section	.rodata..Lstatic.16,"a",%progbits
.Lstatic.16:
	.ascii	"\002\003"
	.size	.Lstatic.16, 2

	.type	.Lstatic.17,%object
	.section	.rodata..Lstatic.17,"a",%progbits
.Lstatic.17:
	.byte	2
	.size	.Lstatic.17, 1

	.type	.Lstatic.18,%object
	.section	.rodata..Lstatic.18,"a",%progbits
.Lstatic.18:
	.ascii	"\004\013"
	.size	.Lstatic.18, 2

	.type	.Lstatic.19,%object
	.section	.rodata..Lstatic.19,"a",%progbits
.Lstatic.19:
	.ascii	"\004\b\001"
	.size	.Lstatic.19, 3

	.type	.Lstatic.20,%object
	.section	.rodata.cst4,"aM",%progbits,4
.Lstatic.20:
	.ascii	"\002\021\022\f"
	.size	.Lstatic.20, 4

	.type	.Lstatic.21,%object
	.section	.rodata..Lstatic.21,"a",%progbits
.Lstatic.21:
	.ascii	"\002\020\f"
	.size	.Lstatic.21, 3

	.type	.Lstatic.22,%object
	.section	.rodata..Lstatic.22,"a",%progbits
.Lstatic.22:
	.ascii	"\024\022\f"
	.size	.Lstatic.22, 3

	.type	.Lstatic.23,%object
	.section	.rodata..Lstatic.23,"a",%progbits
.Lstatic.23:
	.ascii	"\020\f"
	.size	.Lstatic.23, 2

	.type	.Lstatic.24,%object
	.section	.rodata..Lstatic.24,"a",%progbits
.Lstatic.24:
	.ascii	"\024\f"
	.size	.Lstatic.24, 2

	.type	.Lstatic.26,%object
	.section	.rodata..Lstatic.26,"a",%progbits
.Lstatic.26:
	.ascii	"\000\001"
	.size	.Lstatic.26, 2

	.type	.Lstatic.27,%object
	.section	.rodata..Lstatic.27,"a",%progbits
.Lstatic.27:
	.ascii	"\035\032"
	.size	.Lstatic.27, 2

	.type	.Lstatic.28,%object
	.section	.rodata..Lstatic.28,"a",%progbits
.Lstatic.28:
	.byte	32
	.size	.Lstatic.28, 1

	.type	.Lstatic.29,%object
	.section	.rodata..Lstatic.29,"a",%progbits
.Lstatic.29:
	.ascii	"\030\031\032"
	.size	.Lstatic.29, 3

	.type	.Lstatic.30,%object
	.section	.rodata..Lstatic.30,"a",%progbits
.Lstatic.30:
	.byte	30
	.size	.Lstatic.30, 1

	.type	.Lstatic.31,%object
	.section	.rodata..Lstatic.31,"a",%progbits
.Lstatic.31:
	.byte	31
	.size	.Lstatic.31, 1

	.type	.Lstatic.33,%object
	.section	.rodata..Lstatic.33,"a",%progbits
.Lstatic.33:
	.ascii	"\033\026\027"
	.size	.Lstatic.33, 3

	.type	.Lstatic.35,%object
	.section	.rodata..Lstatic.35,"a",%progbits
.Lstatic.35:
	.ascii	"\007\001"
	.size	.Lstatic.35, 2

	.type	.Lstatic.36,%object
	.section	.rodata..Lstatic.36,"a",%progbits
.Lstatic.36:
	.ascii	"\007\023"
	.size	.Lstatic.36, 2

	.type	.Lstatic.38,%object
	.section	.rodata..Lstatic.38,"a",%progbits
.Lstatic.38:
	.ascii	"Method ID"
	.size	.Lstatic.38, 9

	.ident	"rattle logic=dac8208d650f15bf3e2dc313a14fa4c783a3acf887bdfab66e1714b038d9e11b"
	.section	".note.GNU-stack","",%progbits
	.eabi_attribute	30, 1
