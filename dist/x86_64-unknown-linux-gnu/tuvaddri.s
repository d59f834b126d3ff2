/* tuvaddri.s for x86_64-unknown-linux-gnu: assembly of the proved crate tuvaddri_c, by dev/dist. README.md has more. */
	.file	"rattle"
	.section	".text.end_objects::refusals::server_refusal","ax",@progbits
	.p2align	4
	.type	"end_objects::refusals::server_refusal",@function
"end_objects::refusals::server_refusal":
	.cfi_startproc
	pushq	%rbp
	.cfi_def_cfa_offset 16
	pushq	%r14
	.cfi_def_cfa_offset 24
	pushq	%rbx
	.cfi_def_cfa_offset 32
	subq	$48, %rsp
	.cfi_def_cfa_offset 80
	.cfi_offset %rbx, -32
	.cfi_offset %r14, -24
	.cfi_offset %rbp, -16
	movq	48(%rdi), %rax
	movq	64(%rdi), %rcx
	testq	%rcx, %rcx
	je	.LBBdc6f5_5
	movq	64(%rdi), %rdx
	addq	$-32, %rdx
	movb	$1, %bpl
	cmpq	$33, %rdx
	jae	.LBBdc6f5_9
	testq	%rax, %rax
	je	.LBBdc6f5_4
	cmpq	$16, 48(%rdi)
	jne	.LBBdc6f5_9
.LBBdc6f5_4:
	xorl	%edx, %edx
	jmp	.LBBdc6f5_8
.LBBdc6f5_5:
	testq	%rax, %rax
	je	.LBBdc6f5_7
	movb	$1, %bpl
	cmpq	$16, 48(%rdi)
	jne	.LBBdc6f5_9
.LBBdc6f5_7:
	testq	%rax, %rax
	sete	%dl
.LBBdc6f5_8:
	cmpq	$0, 32(%rdi)
	sete	%bpl
	xorb	%dl, %bpl
.LBBdc6f5_9:
	movzbl	72(%rdi), %edx
	testq	%rdx, %rdx
	je	.LBBdc6f5_10
.LBBdc6f5_11:
	xorl	%ebx, %ebx
	testq	%rcx, %rcx
	je	.LBBdc6f5_12
	testq	%rax, %rax
	movl	$51, %eax
	movl	$12083, %ecx
	cmoveq	%rax, %rcx
	setne	%bl
	incq	%rbx
	movq	%rcx, 32(%rsp)
	movq	%rbx, 40(%rsp)
	testq	%rdx, %rdx
	je	.LBBdc6f5_16
.LBBdc6f5_15:
	movzbl	73(%rdi), %ecx
	cmpl	$1, %ecx
	movl	$2, %eax
	sbbq	$0, %rax
	shll	$8, %ecx
	orq	%rdx, %rcx
	jmp	.LBBdc6f5_17
.LBBdc6f5_10:
	cmpb	$0, 73(%rdi)
	jne	.LBBdc6f5_26
	jmp	.LBBdc6f5_11
.LBBdc6f5_12:
	testq	%rax, %rax
	setne	%bl
	movl	$47, %ecx
	cmoveq	%rax, %rcx
	movq	%rcx, 32(%rsp)
	movq	%rbx, 40(%rsp)
	testq	%rdx, %rdx
	jne	.LBBdc6f5_15
.LBBdc6f5_16:
	xorps	%xmm0, %xmm0
	movaps	%xmm0, 16(%rsp)
	leaq	16(%rsp), %rax
	leaq	32(%rsp), %rsi
	movq	%rdi, %r14
	movq	%rax, %rdi
	movq	%rbx, %rdx
	callq	memcpy@PLT
	movq	%r14, %rdi
	testq	%rbx, %rbx
	movl	$12083, %ecx
	cmovneq	16(%rsp), %rcx
	movl	$2, %eax
	cmovneq	%rbx, %rax
.LBBdc6f5_17:
	movq	%rcx, (%rsp)
	movq	%rax, 8(%rsp)
	xorl	%ecx, %ecx
	jmp	.LBBdc6f5_18
	.p2align	4
.LBBdc6f5_20:
	incq	%rcx
	cmpq	%rcx, %rax
	je	.LBBdc6f5_21
.LBBdc6f5_18:
	movzbl	(%rsp,%rcx), %edx
	cmpl	$51, %edx
	je	.LBBdc6f5_20
	cmpl	$47, %edx
	je	.LBBdc6f5_20
.LBBdc6f5_26:
	cmpq	$80, (%rdi)
	sete	%dl
	movb	$1, %al
.LBBdc6f5_41:
	addq	$48, %rsp
	.cfi_def_cfa_offset 32
	popq	%rbx
	.cfi_def_cfa_offset 24
	popq	%r14
	.cfi_def_cfa_offset 16
	popq	%rbp
	.cfi_def_cfa_offset 8
	retq
.LBBdc6f5_21:
	.cfi_def_cfa_offset 80
	movq	%rsp, %rcx
.LBBdc6f5_23:
	movq	%rcx, %rdx
	movq	%rax, %rsi
	incq	%rcx
	decq	%rax
	movzbl	(%rdx), %r8d
	movl	$1, %r9d
	.p2align	4
.LBBdc6f5_24:
	cmpq	%r9, %rsi
	je	.LBBdc6f5_22
	cmpb	%r8b, (%rdx,%r9)
	leaq	1(%r9), %r9
	jne	.LBBdc6f5_24
	jmp	.LBBdc6f5_26
	.p2align	4
.LBBdc6f5_22:
	testq	%rax, %rax
	jne	.LBBdc6f5_23
	movb	$1, %al
	cmpq	$80, (%rdi)
	jne	.LBBdc6f5_28
	cmpb	$0, 74(%rdi)
	movzbl	75(%rdi), %esi
	je	.LBBdc6f5_30
	movzwl	74(%rdi), %ecx
	cmpb	$1, %sil
	movl	$2, %esi
	sbbq	$0, %rsi
	leal	-1(%rcx), %r8d
	movb	$2, %dl
	cmpb	$2, %r8b
	jae	.LBBdc6f5_41
.LBBdc6f5_34:
	cmpq	$1, %rsi
	je	.LBBdc6f5_35
	movl	%ecx, %r8d
	shrl	$8, %r8d
	decb	%r8b
	cmpb	$1, %r8b
	ja	.LBBdc6f5_41
	cmpq	$2, %rsi
	jne	.LBBdc6f5_41
.LBBdc6f5_35:
	cmpq	$1, %rsi
	je	.LBBdc6f5_37
	movl	%ecx, %esi
	shrl	$8, %esi
	cmpb	%cl, %sil
	je	.LBBdc6f5_41
.LBBdc6f5_37:
	movq	16(%rdi), %rcx
	decq	%rcx
	movb	$3, %dl
	cmpq	$252, %rcx
	ja	.LBBdc6f5_41
	xorl	%ecx, %ecx
	testb	%bpl, %bpl
	setne	%cl
	cmpq	$254, 32(%rdi)
	setae	%al
	leal	(%rcx,%rcx,4), %ecx
	movl	$4, %edx
	cmovbl	%ecx, %edx
	orb	%bpl, %al
	jmp	.LBBdc6f5_41
.LBBdc6f5_28:
	xorl	%edx, %edx
	jmp	.LBBdc6f5_41
.LBBdc6f5_30:
	movb	$2, %dl
	testb	%sil, %sil
	jne	.LBBdc6f5_41
	movl	$2, %esi
	movl	$513, %ecx
	leal	-1(%rcx), %r8d
	movb	$2, %dl
	cmpb	$2, %r8b
	jae	.LBBdc6f5_41
	jmp	.LBBdc6f5_34
.Lfunc_enddc6f5:
	.size	"end_objects::refusals::server_refusal", .Lfunc_enddc6f5-"end_objects::refusals::server_refusal"
	.cfi_endproc

	.section	".text.end_objects::constructors::server_objects","ax",@progbits
	.p2align	4
	.type	"end_objects::constructors::server_objects",@function
"end_objects::constructors::server_objects":
	.cfi_startproc
	pushq	%rbp
	.cfi_def_cfa_offset 16
	pushq	%r15
	.cfi_def_cfa_offset 24
	pushq	%r14
	.cfi_def_cfa_offset 32
	pushq	%r13
	.cfi_def_cfa_offset 40
	pushq	%r12
	.cfi_def_cfa_offset 48
	pushq	%rbx
	.cfi_def_cfa_offset 56
	subq	$2536, %rsp
	.cfi_def_cfa_offset 2592
	.cfi_offset %rbx, -56
	.cfi_offset %r12, -48
	.cfi_offset %r13, -40
	.cfi_offset %r14, -32
	.cfi_offset %r15, -24
	.cfi_offset %rbp, -16
	movq	%rsi, 64(%rsp)
	xorps	%xmm0, %xmm0
	movaps	%xmm0, 16(%rsp)
	movq	$0, 32(%rsp)
	testq	%rdx, %rdx
	je	.LBB6b156_13
	movabsq	$7343449073928961, %rax
	cmpq	%rax, %rdx
	ja	.LBB6b156_11
	movq	%rdi, %rbx
	imulq	$1256, %rdx, %rdi
	movl	$8, %esi
	movq	%rdx, %r14
	callq	rattle_alloc@PLT
	movq	%rbx, %rdi
	testb	$1, %al
	je	.LBB6b156_11
	movq	%rdx, %r12
	movq	%rdi, 48(%rsp)
	movq	%rdx, 16(%rsp)
	movq	$0, 24(%rsp)
	movq	%r14, 32(%rsp)
	leaq	1216(%rsp), %rbp
	xorl	%ebx, %ebx
	xorl	%r15d, %r15d
	movq	%r14, 56(%rsp)
	jmp	.LBB6b156_4
	.p2align	4
.LBB6b156_6:
	movl	$1144, %edx
	xorl	%esi, %esi
	callq	memset@PLT
	movl	$1, %r14d
.LBB6b156_7:
	leaq	1304(%rsp), %r13
	leaq	72(%rsp), %rsi
	movl	$1232, %edx
	movq	%r13, %rdi
	callq	memcpy@PLT
	leaq	72(%rsp), %rdi
	movl	$1232, %edx
	movq	%r13, %rsi
	callq	memcpy@PLT
	cmpq	%r15, 32(%rsp)
	je	.LBB6b156_8
.LBB6b156_10:
	imulq	$1256, %r15, %r13
	movq	%r14, (%r12,%r13)
	movq	$0, 8(%r12,%r13)
	leaq	(%r12,%r13), %rdi
	addq	$16, %rdi
	leaq	72(%rsp), %rsi
	movl	$1232, %edx
	callq	memcpy@PLT
	movw	$0, 1248(%r12,%r13)
	incq	%r15
	movq	%r15, 24(%rsp)
	leaq	1304(%rsp), %rdi
	movl	$1232, %edx
	xorl	%esi, %esi
	callq	memset@PLT
	incq	%rbx
	movq	56(%rsp), %rcx
	cmpq	%rbx, %rcx
	je	.LBB6b156_14
.LBB6b156_4:
	movq	64(%rsp), %rax
	movzbl	(%rax,%rbx), %eax
	xorps	%xmm0, %xmm0
	movups	%xmm0, 64(%rbp)
	movups	%xmm0, 48(%rbp)
	movups	%xmm0, 32(%rbp)
	movups	%xmm0, 16(%rbp)
	movups	%xmm0, (%rbp)
	movq	$0, 80(%rbp)
	leaq	72(%rsp), %rdi
	cmpb	$47, %al
	jne	.LBB6b156_6
	xorl	%r14d, %r14d
	movl	$1232, %edx
	xorl	%esi, %esi
	callq	memset@PLT
	jmp	.LBB6b156_7
.LBB6b156_8:
	leaq	16(%rsp), %rdi
	callq	"std_alloc::vec::Vec::grow_amortized::<#287f71f1152e3f1f>"
	testb	%al, %al
	je	.LBB6b156_15
	movq	16(%rsp), %r12
	movq	24(%rsp), %r15
	jmp	.LBB6b156_10
.LBB6b156_11:
	movb	$1, (%rdi)
	xorps	%xmm0, %xmm0
	movups	%xmm0, 8(%rdi)
	movq	$0, 24(%rdi)
	jmp	.LBB6b156_12
.LBB6b156_13:
	movq	%rdi, 48(%rsp)
	leaq	8(%rsp), %rax
	movq	%rax, 16(%rsp)
	movups	%xmm0, 24(%rsp)
.LBB6b156_14:
	movq	48(%rsp), %rcx
	movb	$0, (%rcx)
	movq	16(%rsp), %rax
	movq	%rax, 8(%rcx)
	movq	24(%rsp), %rax
	movq	%rax, 16(%rcx)
	movq	32(%rsp), %rax
	movq	%rax, 24(%rcx)
.LBB6b156_12:
	addq	$2536, %rsp
	.cfi_def_cfa_offset 56
	popq	%rbx
	.cfi_def_cfa_offset 48
	popq	%r12
	.cfi_def_cfa_offset 40
	popq	%r13
	.cfi_def_cfa_offset 32
	popq	%r14
	.cfi_def_cfa_offset 24
	popq	%r15
	.cfi_def_cfa_offset 16
	popq	%rbp
	.cfi_def_cfa_offset 8
	retq
.LBB6b156_15:
	.cfi_def_cfa_offset 2592
	cmpq	$0, 32(%rsp)
	je	.LBB6b156_17
	movq	16(%rsp), %rdi
	callq	rattle_dealloc@PLT
.LBB6b156_17:
	movq	48(%rsp), %rax
	movb	$1, (%rax)
	xorps	%xmm0, %xmm0
	movups	%xmm0, 8(%rax)
	movq	$0, 24(%rax)
	jmp	.LBB6b156_12
.Lfunc_end6b156:
	.size	"end_objects::constructors::server_objects", .Lfunc_end6b156-"end_objects::constructors::server_objects"
	.cfi_endproc

	.section	".text.unlikely.std_alloc::vec::Vec::grow_amortized::<#287f71f1152e3f1f>","ax",@progbits
	.p2align	4
	.type	"std_alloc::vec::Vec::grow_amortized::<#287f71f1152e3f1f>",@function
"std_alloc::vec::Vec::grow_amortized::<#287f71f1152e3f1f>":
	.cfi_startproc
	movq	8(%rdi), %rax
	cmpq	$-1, %rax
	je	.LBB73cc5_5
	pushq	%r14
	.cfi_def_cfa_offset 16
	pushq	%rbx
	.cfi_def_cfa_offset 24
	pushq	%rax
	.cfi_def_cfa_offset 32
	.cfi_offset %rbx, -24
	.cfi_offset %r14, -16
	movq	16(%rdi), %rcx
	leaq	1(%rax), %rbx
	movq	%rcx, %rsi
	shrq	$62, %rsi
	leaq	(%rcx,%rcx), %rdx
	cmpq	%rdx, %rbx
	cmovaq	%rbx, %rdx
	testq	%rsi, %rsi
	cmoveq	%rdx, %rbx
	movabsq	$7343449073928961, %rsi
	cmpq	%rsi, %rbx
	ja	.LBB73cc5_6
	testq	%rcx, %rcx
	je	.LBB73cc5_8
	movq	%rdi, %r14
	movq	(%rdi), %rdi
	imulq	$1256, %rax, %rsi
	imulq	$1256, %rbx, %rdx
	movl	$8, %ecx
	callq	rattle_realloc@PLT
	testb	$1, %al
	je	.LBB73cc5_6
.LBB73cc5_9:
	movq	%rdx, (%r14)
	movq	%rbx, 16(%r14)
	movb	$1, %al
	addq	$8, %rsp
	.cfi_def_cfa_offset 24
	popq	%rbx
	.cfi_def_cfa_offset 16
	popq	%r14
	.cfi_def_cfa_offset 8
	.cfi_restore %rbx
	.cfi_restore %r14
	retq
.LBB73cc5_5:
	xorl	%eax, %eax
	retq
.LBB73cc5_8:
	.cfi_def_cfa_offset 32
	.cfi_offset %rbx, -24
	.cfi_offset %r14, -16
	movq	%rdi, %r14
	imulq	$1256, %rdx, %rdi
	movl	$8, %esi
	callq	rattle_alloc@PLT
	testb	$1, %al
	jne	.LBB73cc5_9
.LBB73cc5_6:
	xorl	%eax, %eax
	addq	$8, %rsp
	.cfi_def_cfa_offset 24
	popq	%rbx
	.cfi_def_cfa_offset 16
	popq	%r14
	.cfi_def_cfa_offset 8
	.cfi_restore %rbx
	.cfi_restore %r14
	retq
.Lfunc_end73cc5:
	.size	"std_alloc::vec::Vec::grow_amortized::<#287f71f1152e3f1f>", .Lfunc_end73cc5-"std_alloc::vec::Vec::grow_amortized::<#287f71f1152e3f1f>"
	.cfi_endproc

	.section	".text.tuvaddri_c::sent::empty_packet","ax",@progbits
	.p2align	4
	.type	"tuvaddri_c::sent::empty_packet",@function
"tuvaddri_c::sent::empty_packet":
	.cfi_startproc
	pushq	%r14
	.cfi_def_cfa_offset 16
	pushq	%rbx
	.cfi_def_cfa_offset 24
	pushq	%rax
	.cfi_def_cfa_offset 32
	.cfi_offset %rbx, -24
	.cfi_offset %r14, -16
	movl	$1512, %edi
	movl	$8, %esi
	callq	rattle_alloc@PLT
	testb	$1, %al
	je	.LBB728b1_1
	movq	%rdx, %rbx
	movl	$1512, %edx
	movq	%rbx, %rdi
	xorl	%esi, %esi
	movq	%rax, %r14
	callq	memset@PLT
	movq	%r14, %rax
	jmp	.LBB728b1_3
.LBB728b1_1:
	xorl	%ebx, %ebx
.LBB728b1_3:
	andb	$1, %al
	movq	%rbx, %rdx
	addq	$8, %rsp
	.cfi_def_cfa_offset 24
	popq	%rbx
	.cfi_def_cfa_offset 16
	popq	%r14
	.cfi_def_cfa_offset 8
	retq
.Lfunc_end728b1:
	.size	"tuvaddri_c::sent::empty_packet", .Lfunc_end728b1-"tuvaddri_c::sent::empty_packet"
	.cfi_endproc

	.section	".text.tuvaddri_c::by_method::add_users::<#93e2819ad231d5c1>","ax",@progbits
	.p2align	4
	.type	"tuvaddri_c::by_method::add_users::<#93e2819ad231d5c1>",@function
"tuvaddri_c::by_method::add_users::<#93e2819ad231d5c1>":
	.cfi_startproc
	cmpq	$0, 32(%rsi)
	je	.LBB56816_18
	pushq	%r15
	.cfi_def_cfa_offset 16
	pushq	%r14
	.cfi_def_cfa_offset 24
	pushq	%r12
	.cfi_def_cfa_offset 32
	pushq	%rbx
	.cfi_def_cfa_offset 40
	subq	$1416, %rsp
	.cfi_def_cfa_offset 1456
	.cfi_offset %rbx, -40
	.cfi_offset %r12, -32
	.cfi_offset %r14, -24
	.cfi_offset %r15, -16
	movq	%rdi, %rbx
	movq	48(%rsi), %rax
	cmpq	$0, 64(%rsi)
	je	.LBB56816_2
	leaq	1904(%rbx), %r14
	testq	%rax, %rax
	je	.LBB56816_7
	leaq	360(%rsp), %r12
	movq	%r12, %rdi
	movq	%rsi, %r15
	movl	$51, %edx
	callq	"end_objects::settings::user_of"
	leaq	8(%rsp), %rdi
	movl	$352, %edx
	movq	%r12, %rsi
	callq	memcpy@PLT
	movq	2608(%rbx), %r12
	cmpq	$2, %r12
	sete	%al
	cmpq	$16, %r12
	setae	%cl
	orb	%al, %cl
	jne	.LBB56816_13
	movq	264(%rsp), %rcx
	movl	272(%rsp), %r8d
	leaq	8(%rsp), %rdx
	movq	%r14, %rdi
	movq	%r12, %rsi
	callq	"login_setup::users::find_user"
	testb	$1, %al
	jne	.LBB56816_13
	imulq	$352, %r12, %rdi
	addq	%r14, %rdi
	leaq	360(%rsp), %rsi
	movl	$352, %edx
	callq	memcpy@PLT
	incq	%r12
	movq	%r12, 2608(%rbx)
.LBB56816_13:
	leaq	360(%rsp), %r12
	movq	%r12, %rdi
	movq	%r15, %rsi
	movl	$47, %edx
	callq	"end_objects::settings::user_of"
	leaq	8(%rsp), %rdi
	movl	$352, %edx
	movq	%r12, %rsi
	callq	memcpy@PLT
	movq	2608(%rbx), %r15
	cmpq	$2, %r15
	sete	%al
	cmpq	$16, %r15
	setae	%cl
	orb	%al, %cl
	jne	.LBB56816_17
	movq	264(%rsp), %rcx
	movl	272(%rsp), %r8d
	leaq	8(%rsp), %rdx
	movq	%r14, %rdi
	movq	%r15, %rsi
	callq	"login_setup::users::find_user"
	testb	$1, %al
	jne	.LBB56816_17
	imulq	$352, %r15, %rax
	addq	%rax, %r14
	leaq	360(%rsp), %rsi
	jmp	.LBB56816_16
.LBB56816_2:
	testq	%rax, %rax
	je	.LBB56816_17
	leaq	1064(%rsp), %r14
	movq	%r14, %rdi
	movl	$47, %edx
	callq	"end_objects::settings::user_of"
	leaq	8(%rsp), %rdi
	movl	$352, %edx
	movq	%r14, %rsi
	callq	memcpy@PLT
	movq	2608(%rbx), %r14
	cmpq	$2, %r14
	sete	%al
	cmpq	$16, %r14
	setae	%cl
	orb	%al, %cl
	jne	.LBB56816_17
	leaq	1904(%rbx), %r15
	movq	264(%rsp), %rcx
	movl	272(%rsp), %r8d
	leaq	8(%rsp), %rdx
	movq	%r15, %rdi
	movq	%r14, %rsi
	callq	"login_setup::users::find_user"
	testb	$1, %al
	jne	.LBB56816_17
	imulq	$352, %r14, %rax
	addq	%rax, %r15
	leaq	1064(%rsp), %rsi
	movl	$352, %edx
	movq	%r15, %rdi
	callq	memcpy@PLT
	incq	%r14
	movq	%r14, 2608(%rbx)
	jmp	.LBB56816_17
.LBB56816_7:
	leaq	712(%rsp), %r15
	movq	%r15, %rdi
	movl	$51, %edx
	callq	"end_objects::settings::user_of"
	leaq	8(%rsp), %rdi
	movl	$352, %edx
	movq	%r15, %rsi
	callq	memcpy@PLT
	movq	2608(%rbx), %r15
	cmpq	$2, %r15
	sete	%al
	cmpq	$16, %r15
	setae	%cl
	orb	%al, %cl
	jne	.LBB56816_17
	movq	264(%rsp), %rcx
	movl	272(%rsp), %r8d
	leaq	8(%rsp), %rdx
	movq	%r14, %rdi
	movq	%r15, %rsi
	callq	"login_setup::users::find_user"
	testb	$1, %al
	jne	.LBB56816_17
	imulq	$352, %r15, %rax
	addq	%rax, %r14
	leaq	712(%rsp), %rsi
.LBB56816_16:
	movl	$352, %edx
	movq	%r14, %rdi
	callq	memcpy@PLT
	incq	%r15
	movq	%r15, 2608(%rbx)
.LBB56816_17:
	addq	$1416, %rsp
	.cfi_def_cfa_offset 40
	popq	%rbx
	.cfi_def_cfa_offset 32
	popq	%r12
	.cfi_def_cfa_offset 24
	popq	%r14
	.cfi_def_cfa_offset 16
	popq	%r15
	.cfi_def_cfa_offset 8
	.cfi_restore %rbx
	.cfi_restore %r12
	.cfi_restore %r14
	.cfi_restore %r15
.LBB56816_18:
	retq
.Lfunc_end56816:
	.size	"tuvaddri_c::by_method::add_users::<#93e2819ad231d5c1>", .Lfunc_end56816-"tuvaddri_c::by_method::add_users::<#93e2819ad231d5c1>"
	.cfi_endproc

	.section	".text.end_objects::settings::user_of","ax",@progbits
	.p2align	4
	.type	"end_objects::settings::user_of",@function
"end_objects::settings::user_of":
	.cfi_startproc
	pushq	%rbp
	.cfi_def_cfa_offset 16
	pushq	%r15
	.cfi_def_cfa_offset 24
	pushq	%r14
	.cfi_def_cfa_offset 32
	pushq	%r12
	.cfi_def_cfa_offset 40
	pushq	%rbx
	.cfi_def_cfa_offset 48
	subq	$688, %rsp
	.cfi_def_cfa_offset 736
	.cfi_offset %rbx, -48
	.cfi_offset %r12, -40
	.cfi_offset %r14, -32
	.cfi_offset %r15, -24
	.cfi_offset %rbp, -16
	movl	%edx, %ebp
	movq	%rsi, %r14
	movq	%rdi, %rbx
	movl	$0, 3(%rsp)
	movl	$0, (%rsp)
	movq	24(%rsi), %r12
	movq	32(%rsi), %r15
	leaq	160(%rsp), %rdi
	movl	$264, %edx
	xorl	%esi, %esi
	callq	memset@PLT
	cmpq	$253, %r15
	ja	.LBB63b5a_2
	leaq	160(%rsp), %rdi
	movq	%r12, %rsi
	movq	%r15, %rdx
	callq	memcpy@PLT
	movq	%r15, 416(%rsp)
.LBB63b5a_2:
	leaq	424(%rsp), %rdi
	leaq	160(%rsp), %rsi
	movl	$264, %edx
	callq	memcpy@PLT
	xorl	%eax, %eax
	cmpb	$47, %bpl
	setne	%al
	shll	$4, %eax
	movq	40(%r14,%rax), %rsi
	movq	48(%r14,%rax), %r15
	xorps	%xmm0, %xmm0
	movaps	%xmm0, 208(%rsp)
	movaps	%xmm0, 192(%rsp)
	movaps	%xmm0, 176(%rsp)
	movaps	%xmm0, 160(%rsp)
	movq	$0, 224(%rsp)
	cmpq	$64, %r15
	ja	.LBB63b5a_4
	leaq	160(%rsp), %rdi
	movq	%r15, %rdx
	callq	memcpy@PLT
	movq	%r15, 224(%rsp)
.LBB63b5a_4:
	movq	224(%rsp), %rax
	movq	%rax, 144(%rsp)
	movaps	160(%rsp), %xmm0
	movaps	176(%rsp), %xmm1
	movaps	192(%rsp), %xmm2
	movaps	208(%rsp), %xmm3
	movaps	%xmm3, 128(%rsp)
	movaps	%xmm2, 112(%rsp)
	movaps	%xmm1, 96(%rsp)
	movaps	%xmm0, 80(%rsp)
	movzbl	77(%r14), %r14d
	movq	%rax, 71(%rsp)
	movups	%xmm3, 55(%rsp)
	movups	%xmm2, 39(%rsp)
	movups	%xmm1, 23(%rsp)
	movups	%xmm0, 7(%rsp)
	leaq	424(%rsp), %rsi
	movl	$264, %edx
	movq	%rbx, %rdi
	callq	memcpy@PLT
	testb	%r14b, %r14b
	movb	%bpl, 264(%rbx)
	movups	(%rsp), %xmm0
	movups	16(%rsp), %xmm1
	movups	32(%rsp), %xmm2
	movups	48(%rsp), %xmm3
	movups	%xmm0, 265(%rbx)
	movups	%xmm1, 281(%rbx)
	movups	%xmm2, 297(%rbx)
	movups	%xmm3, 313(%rbx)
	movups	63(%rsp), %xmm0
	movups	%xmm0, 328(%rbx)
	setne	344(%rbx)
	movl	$0, 345(%rbx)
	movl	$0, 348(%rbx)
	addq	$688, %rsp
	.cfi_def_cfa_offset 48
	popq	%rbx
	.cfi_def_cfa_offset 40
	popq	%r12
	.cfi_def_cfa_offset 32
	popq	%r14
	.cfi_def_cfa_offset 24
	popq	%r15
	.cfi_def_cfa_offset 16
	popq	%rbp
	.cfi_def_cfa_offset 8
	retq
.Lfunc_end63b5a:
	.size	"end_objects::settings::user_of", .Lfunc_end63b5a-"end_objects::settings::user_of"
	.cfi_endproc

	.section	".text.login_setup::users::find_user","ax",@progbits
	.p2align	4
	.type	"login_setup::users::find_user",@function
"login_setup::users::find_user":
	.cfi_startproc
	pushq	%rbp
	.cfi_def_cfa_offset 16
	pushq	%r15
	.cfi_def_cfa_offset 24
	pushq	%r14
	.cfi_def_cfa_offset 32
	pushq	%r12
	.cfi_def_cfa_offset 40
	pushq	%rbx
	.cfi_def_cfa_offset 48
	.cfi_offset %rbx, -48
	.cfi_offset %r12, -40
	.cfi_offset %r14, -32
	.cfi_offset %r15, -24
	.cfi_offset %rbp, -16
	testq	%rsi, %rsi
	je	.LBBe0a61_1
	movl	%r8d, %ebp
	movq	%rcx, %r15
	movq	%rdx, %r12
	movq	%rsi, %r14
	movq	%rdi, %rbx
	cmpq	$4, %rcx
	jae	.LBBe0a61_19
	testq	%r15, %r15
	jne	.LBBe0a61_7
	jmp	.LBBe0a61_4
	.p2align	4
.LBBe0a61_23:
	addq	$352, %rbx
	decq	%r14
	je	.LBBe0a61_1
.LBBe0a61_19:
	cmpb	%bpl, 264(%rbx)
	jne	.LBBe0a61_23
	cmpq	%r15, 256(%rbx)
	jne	.LBBe0a61_23
	movl	(%rbx), %eax
	cmpl	(%r12), %eax
	jne	.LBBe0a61_23
	movq	%rbx, %rdi
	movq	%r15, %rsi
	movq	%r12, %rdx
	callq	"core::cmp::slices::groups_equal::<i8,31'core::cmp::numbers::U8PartialEq{}>"
	testb	%al, %al
	je	.LBBe0a61_23
	jmp	.LBBe0a61_17
	.p2align	4
.LBBe0a61_6:
	addq	$352, %rbx
	decq	%r14
	je	.LBBe0a61_1
.LBBe0a61_4:
	cmpb	%bpl, 264(%rbx)
	jne	.LBBe0a61_6
	cmpq	$0, 256(%rbx)
	jne	.LBBe0a61_6
.LBBe0a61_17:
	movb	$1, %al
	jmp	.LBBe0a61_18
.LBBe0a61_10:
	xorl	%eax, %eax
.LBBe0a61_11:
	cmpq	%r15, %rax
	jae	.LBBe0a61_17
.LBBe0a61_12:
	addq	$352, %rbx
	decq	%r14
	je	.LBBe0a61_1
.LBBe0a61_7:
	cmpb	%bpl, 264(%rbx)
	jne	.LBBe0a61_12
	cmpq	%r15, 256(%rbx)
	jne	.LBBe0a61_12
	movzbl	(%rbx), %eax
	cmpb	(%r12), %al
	jne	.LBBe0a61_10
	cmpq	$1, %r15
	je	.LBBe0a61_17
	movzbl	1(%rbx), %ecx
	movl	$1, %eax
	cmpb	1(%r12), %cl
	jne	.LBBe0a61_11
	cmpq	$2, %r15
	je	.LBBe0a61_17
	movzbl	2(%rbx), %ecx
	movl	$2, %eax
	cmpb	2(%r12), %cl
	jne	.LBBe0a61_11
	jmp	.LBBe0a61_17
.LBBe0a61_1:
	xorl	%eax, %eax
	xorl	%ebx, %ebx
.LBBe0a61_18:
	movq	%rbx, %rdx
	popq	%rbx
	.cfi_def_cfa_offset 40
	popq	%r12
	.cfi_def_cfa_offset 32
	popq	%r14
	.cfi_def_cfa_offset 24
	popq	%r15
	.cfi_def_cfa_offset 16
	popq	%rbp
	.cfi_def_cfa_offset 8
	retq
.Lfunc_ende0a61:
	.size	"login_setup::users::find_user", .Lfunc_ende0a61-"login_setup::users::find_user"
	.cfi_endproc

	.section	".text.core::cmp::slices::groups_equal::<i8,31'core::cmp::numbers::U8PartialEq{}>","ax",@progbits
	.p2align	4
	.type	"core::cmp::slices::groups_equal::<i8,31'core::cmp::numbers::U8PartialEq{}>",@function
"core::cmp::slices::groups_equal::<i8,31'core::cmp::numbers::U8PartialEq{}>":
	.cfi_startproc
	cmpq	$8, %rsi
	ja	.LBBb5d67_2
	movd	(%rdi), %xmm0
	pinsrd	$1, -4(%rdi,%rsi), %xmm0
	movd	(%rdx), %xmm1
	pinsrd	$1, -4(%rdx,%rsi), %xmm1
	movq	%xmm0, %rax
	movq	%xmm1, %rcx
	cmpq	%rcx, %rax
	jmp	.LBBb5d67_16
.LBBb5d67_2:
	cmpq	$32, %rsi
	ja	.LBBb5d67_4
	leaq	-8(%rsi), %rax
	cmpq	$8, %rax
	movl	$8, %ecx
	cmovbq	%rax, %rcx
	cmpq	$16, %rax
	movl	$16, %r8d
	cmovbq	%rax, %r8
	movq	(%rdi,%rcx), %xmm0
	movq	(%rdi), %xmm1
	punpcklqdq	%xmm0, %xmm1
	movq	(%rdi,%r8), %xmm0
	movq	-8(%rdi,%rsi), %xmm2
	punpcklqdq	%xmm2, %xmm0
	movq	(%rdx,%rcx), %xmm2
	movq	(%rdx), %xmm3
	punpcklqdq	%xmm2, %xmm3
	pxor	%xmm1, %xmm3
	movq	(%rdx,%r8), %xmm1
	movq	-8(%rdx,%rsi), %xmm2
	punpcklqdq	%xmm2, %xmm1
	pxor	%xmm0, %xmm1
	por	%xmm3, %xmm1
	ptest	%xmm1, %xmm1
	jmp	.LBBb5d67_16
.LBBb5d67_4:
	cmpq	$65, %rsi
	jae	.LBBb5d67_5
	movdqu	(%rdi), %xmm0
	movdqu	16(%rdi), %xmm1
	movdqu	(%rdx), %xmm2
	pxor	%xmm0, %xmm2
	movdqu	16(%rdx), %xmm0
	pxor	%xmm1, %xmm0
	movdqu	-32(%rdi,%rsi), %xmm1
	movdqu	-16(%rdi,%rsi), %xmm3
	movdqu	-32(%rdx,%rsi), %xmm4
	pxor	%xmm1, %xmm4
	por	%xmm2, %xmm4
	movdqu	-16(%rdx,%rsi), %xmm1
	pxor	%xmm3, %xmm1
	por	%xmm0, %xmm1
	por	%xmm4, %xmm1
	ptest	%xmm1, %xmm1
	jmp	.LBBb5d67_16
.LBBb5d67_5:
	xorl	%eax, %eax
	movq	%rsi, %rcx
	.p2align	4
.LBBb5d67_6:
	movdqu	(%rdi,%rax), %xmm0
	movdqu	16(%rdi,%rax), %xmm1
	movdqu	32(%rdi,%rax), %xmm2
	movdqu	48(%rdi,%rax), %xmm3
	movdqu	(%rdx,%rax), %xmm4
	pcmpeqb	%xmm0, %xmm4
	movdqu	16(%rdx,%rax), %xmm0
	pcmpeqb	%xmm1, %xmm0
	movdqu	32(%rdx,%rax), %xmm1
	pcmpeqb	%xmm2, %xmm1
	pand	%xmm4, %xmm1
	movdqu	48(%rdx,%rax), %xmm2
	pcmpeqb	%xmm3, %xmm2
	pand	%xmm0, %xmm2
	pand	%xmm1, %xmm2
	pmovmskb	%xmm2, %r8d
	cmpl	$65535, %r8d
	jne	.LBBb5d67_8
	addq	$64, %rax
	addq	$-64, %rcx
	cmpq	$63, %rcx
	ja	.LBBb5d67_6
.LBBb5d67_8:
	cmpq	$32, %rcx
	jb	.LBBb5d67_15
	movq	%rsi, %rcx
	subq	%rax, %rcx
	.p2align	4
.LBBb5d67_10:
	movdqu	(%rdi,%rax), %xmm0
	movdqu	16(%rdi,%rax), %xmm1
	movdqu	(%rdx,%rax), %xmm2
	pxor	%xmm0, %xmm2
	movdqu	16(%rdx,%rax), %xmm0
	pxor	%xmm1, %xmm0
	por	%xmm2, %xmm0
	ptest	%xmm0, %xmm0
	jne	.LBBb5d67_14
	addq	$32, %rax
	addq	$-32, %rcx
	cmpq	$31, %rcx
	ja	.LBBb5d67_10
	jmp	.LBBb5d67_15
.LBBb5d67_14:
	movb	$1, %al
	cmpq	$31, %rcx
	ja	.LBBb5d67_17
.LBBb5d67_15:
	movdqu	-32(%rdi,%rsi), %xmm0
	movdqu	-16(%rdi,%rsi), %xmm1
	movdqu	-32(%rdx,%rsi), %xmm2
	pxor	%xmm0, %xmm2
	movdqu	-16(%rdx,%rsi), %xmm0
	pxor	%xmm1, %xmm0
	por	%xmm2, %xmm0
	ptest	%xmm0, %xmm0
.LBBb5d67_16:
	setne	%al
.LBBb5d67_17:
	xorb	$1, %al
	retq
.Lfunc_endb5d67:
	.size	"core::cmp::slices::groups_equal::<i8,31'core::cmp::numbers::U8PartialEq{}>", .Lfunc_endb5d67-"core::cmp::slices::groups_equal::<i8,31'core::cmp::numbers::U8PartialEq{}>"
	.cfi_endproc

	.section	".text.server_machine::machine::SizedServer::make_again::<#575f94f35bca5e04>","ax",@progbits
	.p2align	4
	.type	"server_machine::machine::SizedServer::make_again::<#575f94f35bca5e04>",@function
"server_machine::machine::SizedServer::make_again::<#575f94f35bca5e04>":
	.cfi_startproc
	pushq	%rbp
	.cfi_def_cfa_offset 16
	pushq	%r15
	.cfi_def_cfa_offset 24
	pushq	%r14
	.cfi_def_cfa_offset 32
	pushq	%r13
	.cfi_def_cfa_offset 40
	pushq	%r12
	.cfi_def_cfa_offset 48
	pushq	%rbx
	.cfi_def_cfa_offset 56
	subq	$840, %rsp
	.cfi_def_cfa_offset 896
	.cfi_offset %rbx, -56
	.cfi_offset %r12, -48
	.cfi_offset %r13, -40
	.cfi_offset %r14, -32
	.cfi_offset %r15, -24
	.cfi_offset %rbp, -16
	movq	%rdi, %rbx
	movups	(%rsi), %xmm0
	movups	16(%rsi), %xmm1
	movups	%xmm1, 1880(%rdi)
	movups	%xmm0, 1864(%rdi)
	movq	8(%rdi), %r12
	testq	%r12, %r12
	je	.LBBe0efc_11
	movq	(%rbx), %r15
	jmp	.LBBe0efc_2
	.p2align	4
.LBBe0efc_9:
	leaq	280(%rsp), %rbp
	leaq	16(%rsp), %rsi
	movl	$264, %edx
	movq	%rbp, %rdi
	callq	memcpy@PLT
	movaps	(%rsp), %xmm0
	leaq	544(%rsp), %rax
	movups	%xmm0, (%rax)
	leaq	560(%rsp), %r14
	movl	$280, %edx
	movq	%r14, %rdi
	movq	%rbp, %rsi
	callq	memcpy@PLT
	movq	%r13, %rdi
	movq	%r14, %rsi
	leaq	1864(%rbx), %rdx
	callq	"end_objects::objects::ServerObjectServerMethod::begin"
.LBBe0efc_10:
	testq	%r12, %r12
	je	.LBBe0efc_11
.LBBe0efc_2:
	movq	%r15, %r13
	addq	$1256, %r15
	decq	%r12
	cmpb	$0, (%r13)
	setne	%al
	shlb	$2, %al
	addb	$47, %al
	movq	1840(%rbx), %rcx
	xorl	%edx, %edx
	.p2align	4
.LBBe0efc_3:
	cmpq	%rdx, %rcx
	je	.LBBe0efc_10
	cmpb	%al, 1832(%rbx,%rdx)
	leaq	1(%rdx), %rdx
	jne	.LBBe0efc_3
	movq	1824(%rbx), %rbp
	leaq	16(%rsp), %rdi
	movl	$264, %edx
	xorl	%esi, %esi
	callq	memset@PLT
	cmpq	$253, %rbp
	ja	.LBBe0efc_7
	leaq	16(%rsp), %rdi
	leaq	1568(%rbx), %rsi
	movq	%rbp, %rdx
	callq	memcpy@PLT
	movq	%rbp, 272(%rsp)
.LBBe0efc_7:
	movq	1856(%rbx), %rbp
	xorps	%xmm0, %xmm0
	movaps	%xmm0, (%rsp)
	cmpq	$2, %rbp
	ja	.LBBe0efc_9
	movq	%rsp, %rdi
	leaq	1848(%rbx), %rsi
	movq	%rbp, %rdx
	callq	memcpy@PLT
	movq	%rbp, 8(%rsp)
	jmp	.LBBe0efc_9
.LBBe0efc_11:
	movl	$0, 27(%rbx)
	movw	$256, 31(%rbx)
	movb	$0, 33(%rbx)
	movq	1560(%rbx), %rdx
	testq	%rdx, %rdx
	je	.LBBe0efc_13
	leaq	56(%rbx), %rdi
	xorl	%esi, %esi
	callq	memset@PLT
	movq	$0, 1560(%rbx)
.LBBe0efc_13:
	movq	48(%rbx), %rdx
	testq	%rdx, %rdx
	je	.LBBe0efc_15
	leaq	40(%rbx), %rdi
	xorl	%esi, %esi
	callq	memset@PLT
	movq	$0, 48(%rbx)
.LBBe0efc_15:
	addq	$840, %rsp
	.cfi_def_cfa_offset 56
	popq	%rbx
	.cfi_def_cfa_offset 48
	popq	%r12
	.cfi_def_cfa_offset 40
	popq	%r13
	.cfi_def_cfa_offset 32
	popq	%r14
	.cfi_def_cfa_offset 24
	popq	%r15
	.cfi_def_cfa_offset 16
	popq	%rbp
	.cfi_def_cfa_offset 8
	retq
.Lfunc_ende0efc:
	.size	"server_machine::machine::SizedServer::make_again::<#575f94f35bca5e04>", .Lfunc_ende0efc-"server_machine::machine::SizedServer::make_again::<#575f94f35bca5e04>"
	.cfi_endproc

	.section	".text.end_objects::objects::ServerObjectServerMethod::begin","ax",@progbits
	.p2align	4
	.type	"end_objects::objects::ServerObjectServerMethod::begin",@function
"end_objects::objects::ServerObjectServerMethod::begin":
	.cfi_startproc
	pushq	%r15
	.cfi_def_cfa_offset 16
	pushq	%r14
	.cfi_def_cfa_offset 24
	pushq	%r13
	.cfi_def_cfa_offset 32
	pushq	%r12
	.cfi_def_cfa_offset 40
	pushq	%rbx
	.cfi_def_cfa_offset 48
	subq	$608, %rsp
	.cfi_def_cfa_offset 656
	.cfi_offset %rbx, -48
	.cfi_offset %r12, -40
	.cfi_offset %r13, -32
	.cfi_offset %r14, -24
	.cfi_offset %r15, -16
	movq	%rdx, %r14
	movq	%rsi, %r15
	movq	%rdi, %rbx
	cmpb	$0, (%rdi)
	je	.LBBd8d8c_7
	leaq	8(%rbx), %r13
	movq	256(%r15), %r12
	movq	264(%rbx), %rdx
	testq	%rdx, %rdx
	je	.LBBd8d8c_3
	movq	%r13, %rdi
	xorl	%esi, %esi
	callq	memset@PLT
	movq	$0, 264(%rbx)
.LBBd8d8c_3:
	cmpq	$253, %r12
	ja	.LBBd8d8c_30
	movq	%r13, %rax
	subq	%r15, %rax
	cmpq	%r12, %rax
	jae	.LBBd8d8c_12
	cmpq	$4, %r12
	jb	.LBBd8d8c_6
	movq	%rbx, %rax
	subq	%r15, %rax
	addq	$8, %rax
	cmpq	$32, %rax
	jae	.LBBd8d8c_15
.LBBd8d8c_6:
	xorl	%eax, %eax
.LBBd8d8c_24:
	movq	%r12, %rdx
	movq	%rax, %rcx
	andq	$3, %rdx
	je	.LBBd8d8c_27
	movq	%rax, %rcx
	.p2align	4
.LBBd8d8c_26:
	movzbl	(%r15,%rcx), %esi
	movb	%sil, (%r13,%rcx)
	incq	%rcx
	decq	%rdx
	jne	.LBBd8d8c_26
.LBBd8d8c_27:
	subq	%r12, %rax
	cmpq	$-4, %rax
	ja	.LBBd8d8c_29
	.p2align	4
.LBBd8d8c_28:
	movzbl	(%r15,%rcx), %eax
	movb	%al, 8(%rbx,%rcx)
	movzbl	1(%r15,%rcx), %eax
	movb	%al, 9(%rbx,%rcx)
	movzbl	2(%r15,%rcx), %eax
	movb	%al, 10(%rbx,%rcx)
	movzbl	3(%r15,%rcx), %eax
	movb	%al, 11(%rbx,%rcx)
	addq	$4, %rcx
	cmpq	%rcx, %r12
	jne	.LBBd8d8c_28
	jmp	.LBBd8d8c_29
.LBBd8d8c_7:
	movq	256(%r15), %r12
	leaq	16(%rsp), %rdi
	movl	$264, %edx
	xorl	%esi, %esi
	callq	memset@PLT
	cmpq	$253, %r12
	ja	.LBBd8d8c_9
	leaq	16(%rsp), %rdi
	movq	%r15, %rsi
	movq	%r12, %rdx
	callq	memcpy@PLT
	movq	%r12, 272(%rsp)
.LBBd8d8c_9:
	movq	272(%r15), %r12
	xorps	%xmm0, %xmm0
	movaps	%xmm0, (%rsp)
	cmpq	$2, %r12
	ja	.LBBd8d8c_11
	addq	$264, %r15
	movq	%rsp, %rdi
	movq	%r15, %rsi
	movq	%r12, %rdx
	callq	memcpy@PLT
	movq	%r12, 8(%rsp)
.LBBd8d8c_11:
	leaq	328(%rsp), %r15
	leaq	16(%rsp), %rsi
	movl	$264, %edx
	movq	%r15, %rdi
	callq	memcpy@PLT
	movaps	(%rsp), %xmm0
	movups	%xmm0, 592(%rsp)
	leaq	16(%rsp), %r12
	movl	$280, %edx
	movq	%r12, %rdi
	movq	%r15, %rsi
	callq	memcpy@PLT
	movups	(%r14), %xmm0
	movups	16(%r14), %xmm1
	movups	%xmm0, 296(%rsp)
	movups	%xmm1, 312(%rsp)
	movq	$1, 8(%rbx)
	leaq	16(%rbx), %rdi
	movl	$312, %edx
	movq	%r12, %rsi
	callq	memcpy@PLT
	addq	$328, %rbx
	movl	$922, %edx
	jmp	.LBBd8d8c_39
.LBBd8d8c_12:
	movq	%r13, %rdi
	movq	%r15, %rsi
	movq	%r12, %rdx
	callq	memmove@PLT
.LBBd8d8c_29:
	movq	%r12, 264(%rbx)
.LBBd8d8c_30:
	leaq	272(%rbx), %r13
	movq	272(%r15), %r12
	movq	280(%rbx), %rdx
	testq	%rdx, %rdx
	je	.LBBd8d8c_32
	movq	%r13, %rdi
	xorl	%esi, %esi
	callq	memset@PLT
	movq	$0, 280(%rbx)
.LBBd8d8c_32:
	cmpq	$2, %r12
	ja	.LBBd8d8c_38
	addq	$264, %r15
	movq	%r13, %rax
	subq	%r15, %rax
	cmpq	%r12, %rax
	jae	.LBBd8d8c_36
	xorl	%eax, %eax
	.p2align	4
.LBBd8d8c_35:
	movzbl	(%r15,%rax), %ecx
	movb	%cl, (%r13,%rax)
	incq	%rax
	cmpq	%rax, %r12
	jne	.LBBd8d8c_35
	jmp	.LBBd8d8c_37
.LBBd8d8c_36:
	movq	%r13, %rdi
	movq	%r15, %rsi
	movq	%r12, %rdx
	callq	memmove@PLT
.LBBd8d8c_37:
	movq	%r12, 280(%rbx)
.LBBd8d8c_38:
	movups	(%r14), %xmm0
	movups	16(%r14), %xmm1
	movups	%xmm1, 304(%rbx)
	movups	%xmm0, 288(%rbx)
	movw	$1, 320(%rbx)
	addq	$328, %rbx
	movl	$826, %edx
.LBBd8d8c_39:
	movq	%rbx, %rdi
	xorl	%esi, %esi
	addq	$608, %rsp
	.cfi_def_cfa_offset 48
	popq	%rbx
	.cfi_def_cfa_offset 40
	popq	%r12
	.cfi_def_cfa_offset 32
	popq	%r13
	.cfi_def_cfa_offset 24
	popq	%r14
	.cfi_def_cfa_offset 16
	popq	%r15
	.cfi_def_cfa_offset 8
	jmp	memset@PLT
.LBBd8d8c_15:
	.cfi_def_cfa_offset 656
	cmpq	$32, %r12
	jae	.LBBd8d8c_17
	xorl	%eax, %eax
	jmp	.LBBd8d8c_21
.LBBd8d8c_17:
	movl	%r12d, %eax
	andl	$224, %eax
	xorl	%ecx, %ecx
	.p2align	4
.LBBd8d8c_18:
	movups	(%r15,%rcx), %xmm0
	movups	16(%r15,%rcx), %xmm1
	movups	%xmm0, 8(%rbx,%rcx)
	movups	%xmm1, 24(%rbx,%rcx)
	addq	$32, %rcx
	cmpq	%rcx, %rax
	jne	.LBBd8d8c_18
	cmpq	%rax, %r12
	je	.LBBd8d8c_29
	testb	$28, %r12b
	je	.LBBd8d8c_24
.LBBd8d8c_21:
	movq	%rax, %rcx
	movl	%r12d, %eax
	andl	$252, %eax
	.p2align	4
.LBBd8d8c_22:
	movl	(%r15,%rcx), %edx
	movl	%edx, (%r13,%rcx)
	addq	$4, %rcx
	cmpq	%rcx, %rax
	jne	.LBBd8d8c_22
	cmpq	%rax, %r12
	je	.LBBd8d8c_29
	jmp	.LBBd8d8c_24
.Lfunc_endd8d8c:
	.size	"end_objects::objects::ServerObjectServerMethod::begin", .Lfunc_endd8d8c-"end_objects::objects::ServerObjectServerMethod::begin"
	.cfi_endproc

	.section	".text.tuvaddri_c::deliver::deliver_to_peer","ax",@progbits
	.p2align	4
	.type	"tuvaddri_c::deliver::deliver_to_peer",@function
"tuvaddri_c::deliver::deliver_to_peer":
	.cfi_startproc
	pushq	%r15
	.cfi_def_cfa_offset 16
	pushq	%r14
	.cfi_def_cfa_offset 24
	pushq	%r13
	.cfi_def_cfa_offset 32
	pushq	%r12
	.cfi_def_cfa_offset 40
	pushq	%rbx
	.cfi_def_cfa_offset 48
	subq	$1568, %rsp
	.cfi_def_cfa_offset 1616
	.cfi_offset %rbx, -48
	.cfi_offset %r12, -40
	.cfi_offset %r13, -32
	.cfi_offset %r14, -24
	.cfi_offset %r15, -16
	movq	%rsi, %r14
	movq	%rdi, %rbx
	cmpb	$3, (%rsi)
	jne	.LBBb1941_5
	movq	%rdx, %r12
	movq	%rcx, %r15
	leaq	8(%r14), %r13
	leaq	56(%rsp), %rdi
	movl	$1512, %edx
	xorl	%esi, %esi
	callq	memset@PLT
	xorps	%xmm0, %xmm0
	movaps	%xmm0, (%rsp)
	movq	$0, 16(%rsp)
	movaps	%xmm0, 32(%rsp)
	cmpb	$1, 768(%r14)
	jne	.LBBb1941_3
	movq	%rsp, %rdi
	leaq	56(%rsp), %r8
	leaq	32(%rsp), %r9
	movq	%r13, %rsi
	movq	%r12, %rdx
	movq	%r15, %rcx
	callq	"peer_machine::machine::PeerMachine::read::<#b05093cacc003912>"
	jmp	.LBBb1941_4
.LBBb1941_5:
	movb	$0, 2632(%r14)
	movb	$1, %cl
	xorl	%eax, %eax
	xorl	%edx, %edx
	xorl	%esi, %esi
	xorl	%edi, %edi
	jmp	.LBBb1941_6
.LBBb1941_3:
	movq	%rsp, %rdi
	leaq	56(%rsp), %r8
	leaq	32(%rsp), %r9
	movq	%r13, %rsi
	movq	%r12, %rdx
	movq	%r15, %rcx
	callq	"peer_machine::machine::PeerMachine::receive_octets::<#b05093cacc003912>"
.LBBb1941_4:
	movzbl	16(%rsp), %edx
	movzbl	18(%rsp), %eax
	movzbl	17(%rsp), %esi
	movzbl	776(%r14), %edi
	movb	%al, 2632(%r14)
	xorl	%ecx, %ecx
	testb	%dl, %dl
	cmovel	%ecx, %esi
.LBBb1941_6:
	movb	%al, (%rbx)
	movb	%dl, 1(%rbx)
	movb	%cl, 2(%rbx)
	movb	%sil, 3(%rbx)
	movb	%dil, 4(%rbx)
	addq	$1568, %rsp
	.cfi_def_cfa_offset 48
	popq	%rbx
	.cfi_def_cfa_offset 40
	popq	%r12
	.cfi_def_cfa_offset 32
	popq	%r13
	.cfi_def_cfa_offset 24
	popq	%r14
	.cfi_def_cfa_offset 16
	popq	%r15
	.cfi_def_cfa_offset 8
	retq
.Lfunc_endb1941:
	.size	"tuvaddri_c::deliver::deliver_to_peer", .Lfunc_endb1941-"tuvaddri_c::deliver::deliver_to_peer"
	.cfi_endproc

	.section	.rodata.cst16,"aM",@progbits,16
	.p2align	4, 0x0
.LCPIbe1e5_0:
	.quad	67842
	.quad	3
.LCPIbe1e5_1:
	.byte	1,8
	.zero	1
	.zero	1
	.zero	1
	.zero	1
	.zero	1
	.zero	1
	.zero	1
	.zero	1
	.zero	1
	.zero	1
	.zero	1
	.zero	1
	.zero	1
	.zero	1
.LCPIbe1e5_2:
	.byte	1,8,0,0,0,0,0,0,0,0,0,0,0,0,0,0
	.section	".text.peer_machine::machine::PeerMachine::read::<#b05093cacc003912>","ax",@progbits
	.p2align	4
	.type	"peer_machine::machine::PeerMachine::read::<#b05093cacc003912>",@function
"peer_machine::machine::PeerMachine::read::<#b05093cacc003912>":
	.cfi_startproc
	pushq	%rbp
	.cfi_def_cfa_offset 16
	pushq	%r15
	.cfi_def_cfa_offset 24
	pushq	%r14
	.cfi_def_cfa_offset 32
	pushq	%r13
	.cfi_def_cfa_offset 40
	pushq	%r12
	.cfi_def_cfa_offset 48
	pushq	%rbx
	.cfi_def_cfa_offset 56
	subq	$200, %rsp
	.cfi_def_cfa_offset 256
	.cfi_offset %rbx, -56
	.cfi_offset %r12, -48
	.cfi_offset %r13, -40
	.cfi_offset %r14, -32
	.cfi_offset %r15, -24
	.cfi_offset %rbp, -16
	movq	%r9, %r13
	movq	%r8, %r14
	movq	%rcx, %r12
	movq	%rdx, %rbp
	movq	%rsi, %r15
	movq	%rdi, %rbx
	xorps	%xmm0, %xmm0
	movaps	%xmm0, 176(%rsp)
	movaps	%xmm0, 160(%rsp)
	movaps	%xmm0, 144(%rsp)
	movaps	%xmm0, 16(%rsp)
	movq	$0, 32(%rsp)
	leaq	144(%rsp), %rdi
	movq	%rdx, %rsi
	movq	%rcx, %rdx
	callq	"eap_packet::packet::decode"
	movzbl	152(%rsp), %eax
	orb	144(%rsp), %al
	jne	.LBBbe1e5_4
	leaq	153(%rsp), %rax
	movzbl	768(%r15), %ecx
	movabsq	$8589407231, %rdx
	btq	%rcx, %rdx
	jae	.LBBbe1e5_4
	movb	$0, 104(%rsp)
	movups	(%rax), %xmm0
	movups	16(%rax), %xmm1
	movups	%xmm0, 105(%rsp)
	movups	%xmm1, 121(%rsp)
	movq	31(%rax), %rax
	movq	%rax, 136(%rsp)
	xorps	%xmm0, %xmm0
	movaps	%xmm0, 48(%rsp)
	movq	$0, 64(%rsp)
	leaq	104(%rsp), %rdi
	callq	"eap_packet::expanded::is_bad_expanded"
	testb	%al, %al
	je	.LBBbe1e5_5
	movaps	.LCPIbe1e5_0(%rip), %xmm1
	movd	.LCPIbe1e5_2(%rip), %xmm0
	xorl	%ebp, %ebp
	jmp	.LBBbe1e5_14
.LBBbe1e5_4:
	leaq	16(%rsp), %rdi
	movq	%r15, %rsi
	movq	%rbp, %rdx
	movq	%r12, %rcx
	movq	%r14, %r8
	movq	%r13, %r9
	callq	"peer_machine::machine::PeerMachine::receive_octets::<#b05093cacc003912>"
	movdqa	32(%rsp), %xmm0
	movzbl	34(%rsp), %ebp
	jmp	.LBBbe1e5_15
.LBBbe1e5_5:
	cmpb	$-2, 106(%rsp)
	jne	.LBBbe1e5_8
	movq	$0, 96(%rsp)
	cmpb	$1, 773(%r15)
	jne	.LBBbe1e5_9
	movzbl	774(%r15), %eax
	cmpb	105(%rsp), %al
	sete	%al
	movl	%eax, 12(%rsp)
	jmp	.LBBbe1e5_10
.LBBbe1e5_8:
	leaq	48(%rsp), %rdi
	movq	%r15, %rsi
	movq	%rbp, %rdx
	movq	%r12, %rcx
	movq	%r14, %r8
	movq	%r13, %r9
	callq	"peer_machine::machine::PeerMachine::receive_octets::<#b05093cacc003912>"
	movdqa	64(%rsp), %xmm0
	movzbl	66(%rsp), %ebp
	jmp	.LBBbe1e5_13
.LBBbe1e5_9:
	movl	$0, 12(%rsp)
.LBBbe1e5_10:
	movq	%r13, (%rsp)
	leaq	80(%rsp), %rdi
	leaq	104(%rsp), %rdx
	movq	%r15, %rsi
	movq	%rbp, %rcx
	movq	%r12, %r8
	movq	%r14, %r9
	callq	"peer_machine::machine::PeerMachine::receive_plain::<#b05093cacc003912>"
	movzbl	98(%rsp), %ebp
	movl	%ebp, %eax
	xorb	$1, %al
	orb	12(%rsp), %al
	jne	.LBBbe1e5_12
	movq	%r15, %rdi
	movq	%r14, %rsi
	callq	"peer_machine::machine::express"
.LBBbe1e5_12:
	movq	96(%rsp), %xmm0
	movups	80(%rsp), %xmm1
	movaps	%xmm1, 48(%rsp)
.LBBbe1e5_13:
	movaps	48(%rsp), %xmm1
.LBBbe1e5_14:
	movaps	%xmm1, 16(%rsp)
.LBBbe1e5_15:
	movaps	16(%rsp), %xmm1
	movups	%xmm1, (%rbx)
	pextrb	$0, %xmm0, 16(%rbx)
	pextrb	$1, %xmm0, 17(%rbx)
	movb	%bpl, 18(%rbx)
	addq	$200, %rsp
	.cfi_def_cfa_offset 56
	popq	%rbx
	.cfi_def_cfa_offset 48
	popq	%r12
	.cfi_def_cfa_offset 40
	popq	%r13
	.cfi_def_cfa_offset 32
	popq	%r14
	.cfi_def_cfa_offset 24
	popq	%r15
	.cfi_def_cfa_offset 16
	popq	%rbp
	.cfi_def_cfa_offset 8
	retq
.Lfunc_endbe1e5:
	.size	"peer_machine::machine::PeerMachine::read::<#b05093cacc003912>", .Lfunc_endbe1e5-"peer_machine::machine::PeerMachine::read::<#b05093cacc003912>"
	.cfi_endproc

	.section	".text.eap_packet::packet::decode","ax",@progbits
	.p2align	4
	.type	"eap_packet::packet::decode",@function
"eap_packet::packet::decode":
	.cfi_startproc
	pushq	%rbx
	.cfi_def_cfa_offset 16
	.cfi_offset %rbx, -16
	movb	$0, -12(%rsp)
	movl	$0, -16(%rsp)
	cmpq	$4, %rdx
	jae	.LBB47dfc_2
	movb	$1, %al
	xorl	%ecx, %ecx
	xorl	%edx, %edx
	xorl	%r8d, %r8d
	xorl	%r9d, %r9d
	xorl	%r11d, %r11d
	xorl	%esi, %esi
	xorl	%r10d, %r10d
.LBB47dfc_23:
	xorl	%ebx, %ebx
	jmp	.LBB47dfc_24
.LBB47dfc_2:
	movzbl	(%rsi), %ecx
	leal	-5(%rcx), %r8d
	movb	$1, %al
	cmpb	$-4, %r8b
	jae	.LBB47dfc_4
	xorl	%ecx, %ecx
	xorl	%edx, %edx
	xorl	%r8d, %r8d
	xorl	%r9d, %r9d
	xorl	%r11d, %r11d
	xorl	%esi, %esi
	xorl	%r10d, %r10d
	movb	$1, %bl
	jmp	.LBB47dfc_24
.LBB47dfc_4:
	movzwl	2(%rsi), %r8d
	movl	%r8d, %r9d
	rolw	$8, %r9w
	movzwl	%r8w, %r8d
	movzwl	%r9w, %r9d
	xorl	%r10d, %r10d
	cmpw	$5, %r9w
	setb	%r10b
	xorl	%r11d, %r11d
	cmpl	$1024, %r8d
	setne	%r11b
	cmpb	$3, %cl
	cmovbl	%r10d, %r11d
	testb	%r11b, %r11b
	je	.LBB47dfc_8
	movb	$2, %bl
	jmp	.LBB47dfc_6
.LBB47dfc_8:
	cmpq	%r9, %rdx
	jae	.LBB47dfc_10
	movb	$3, %bl
	jmp	.LBB47dfc_6
.LBB47dfc_10:
	cmpl	$1500, %r9d
	jbe	.LBB47dfc_12
	movb	$4, %bl
.LBB47dfc_6:
	xorl	%ecx, %ecx
.LBB47dfc_7:
	xorl	%edx, %edx
	xorl	%r8d, %r8d
	xorl	%r9d, %r9d
	xorl	%r11d, %r11d
	xorl	%esi, %esi
	xorl	%r10d, %r10d
.LBB47dfc_24:
	movb	%al, (%rdi)
	movb	%bl, 1(%rdi)
	movb	%cl, 8(%rdi)
	movb	%dl, 9(%rdi)
	movb	%r8b, 10(%rdi)
	movl	-16(%rsp), %eax
	movl	%eax, 11(%rdi)
	movzbl	-12(%rsp), %eax
	movb	%al, 15(%rdi)
	movq	%r9, 16(%rdi)
	movq	%r11, 24(%rdi)
	movq	%rsi, 32(%rdi)
	movq	%r10, 40(%rdi)
	popq	%rbx
	.cfi_def_cfa_offset 8
	retq
.LBB47dfc_12:
	.cfi_def_cfa_offset 16
	cmpl	$2, %ecx
	je	.LBB47dfc_17
	cmpl	$1, %ecx
	jne	.LBB47dfc_21
	cmpb	$3, 4(%rsi)
	jne	.LBB47dfc_16
	movb	$5, %bl
	jmp	.LBB47dfc_6
.LBB47dfc_17:
	cmpl	$1280, %r8d
	jne	.LBB47dfc_20
	cmpb	$3, 4(%rsi)
	jne	.LBB47dfc_20
	xorl	%ecx, %ecx
	movb	$6, %bl
	jmp	.LBB47dfc_7
.LBB47dfc_21:
	cmpl	$3, %ecx
	sete	%cl
	movzbl	1(%rsi), %edx
	movb	$0, -20(%rsp)
	movl	$0, -24(%rsp)
	xorb	$3, %cl
	movl	$4, %r10d
	leaq	.Lstatic.0(%rip), %r9
	xorl	%r8d, %r8d
	xorl	%r11d, %r11d
	jmp	.LBB47dfc_22
.LBB47dfc_16:
	movzwl	2(%rsi), %eax
	rolw	$8, %ax
	movzwl	%ax, %r10d
	movzbl	1(%rsi), %edx
	movzbl	4(%rsi), %r8d
	leaq	5(%rsi), %r9
	leaq	-5(%r10), %r11
	movb	$0, -20(%rsp)
	movl	$0, -24(%rsp)
	xorl	%ecx, %ecx
	jmp	.LBB47dfc_22
.LBB47dfc_20:
	movzwl	2(%rsi), %eax
	rolw	$8, %ax
	movzwl	%ax, %r10d
	movzbl	1(%rsi), %edx
	movzbl	4(%rsi), %r8d
	leaq	5(%rsi), %r9
	leaq	-5(%r10), %r11
	movb	$0, -20(%rsp)
	movl	$0, -24(%rsp)
	movb	$1, %cl
.LBB47dfc_22:
	movzbl	-20(%rsp), %eax
	movb	%al, -4(%rsp)
	movl	-24(%rsp), %ebx
	movl	%ebx, -8(%rsp)
	movl	%ebx, -16(%rsp)
	movb	%al, -12(%rsp)
	xorl	%eax, %eax
	jmp	.LBB47dfc_23
.Lfunc_end47dfc:
	.size	"eap_packet::packet::decode", .Lfunc_end47dfc-"eap_packet::packet::decode"
	.cfi_endproc

	.section	".text.eap_packet::expanded::is_bad_expanded","ax",@progbits
	.p2align	4
	.type	"eap_packet::expanded::is_bad_expanded",@function
"eap_packet::expanded::is_bad_expanded":
	.cfi_startproc
	pushq	%r14
	.cfi_def_cfa_offset 16
	pushq	%rbx
	.cfi_def_cfa_offset 24
	pushq	%rax
	.cfi_def_cfa_offset 32
	.cfi_offset %rbx, -24
	.cfi_offset %r14, -16
	movzbl	(%rdi), %eax
	leal	-2(%rax), %ecx
	cmpl	$2, %ecx
	jae	.LBBbf835_3
.LBBbf835_1:
	xorl	%eax, %eax
.LBBbf835_2:
	addq	$8, %rsp
	.cfi_def_cfa_offset 24
	popq	%rbx
	.cfi_def_cfa_offset 16
	popq	%r14
	.cfi_def_cfa_offset 8
	retq
.LBBbf835_3:
	.cfi_def_cfa_offset 32
	cmpl	$1, %eax
	jne	.LBBbf835_8
	cmpb	$-2, 2(%rdi)
	jne	.LBBbf835_1
	movq	16(%rdi), %r14
	movb	$1, %al
	cmpq	$7, %r14
	jb	.LBBbf835_2
	movq	8(%rdi), %rbx
	cmpl	$0, (%rbx)
	jne	.LBBbf835_1
	leaq	.Lstatic.6(%rip), %rdx
	movl	$6, %esi
	movq	%rbx, %rdi
	callq	"core::cmp::slices::groups_equal::<i8,31'core::cmp::numbers::U8PartialEq{}>"
	testb	%al, %al
	je	.LBBbf835_1
	cmpb	$3, 6(%rbx)
	movb	$1, %al
	jne	.LBBbf835_1
	addq	$-7, %r14
	sete	%cl
	testb	$7, %r14b
	setne	%dl
	orb	%cl, %dl
	jne	.LBBbf835_2
	addq	$7, %rbx
.LBBbf835_18:
	cmpq	$8, %r14
	setae	%al
	jb	.LBBbf835_2
	addq	$-8, %r14
	cmpb	$-2, (%rbx)
	leaq	8(%rbx), %rbx
	je	.LBBbf835_18
	jmp	.LBBbf835_2
.LBBbf835_8:
	cmpb	$-2, 2(%rdi)
	jne	.LBBbf835_1
	movb	$1, %al
	cmpq	$7, 16(%rdi)
	jb	.LBBbf835_2
	movq	8(%rdi), %rbx
	cmpl	$0, (%rbx)
	jne	.LBBbf835_1
	leaq	.Lstatic.6(%rip), %rdx
	movl	$6, %esi
	movq	%rbx, %rdi
	callq	"core::cmp::slices::groups_equal::<i8,31'core::cmp::numbers::U8PartialEq{}>"
	testb	%al, %al
	je	.LBBbf835_1
	cmpb	$3, 6(%rbx)
	sete	%al
	addq	$8, %rsp
	.cfi_def_cfa_offset 24
	popq	%rbx
	.cfi_def_cfa_offset 16
	popq	%r14
	.cfi_def_cfa_offset 8
	retq
.Lfunc_endbf835:
	.size	"eap_packet::expanded::is_bad_expanded", .Lfunc_endbf835-"eap_packet::expanded::is_bad_expanded"
	.cfi_endproc

	.section	".text.peer_machine::machine::PeerMachine::receive_plain::<#b05093cacc003912>","ax",@progbits
	.p2align	4
	.type	"peer_machine::machine::PeerMachine::receive_plain::<#b05093cacc003912>",@function
"peer_machine::machine::PeerMachine::receive_plain::<#b05093cacc003912>":
	.cfi_startproc
	pushq	%rbp
	.cfi_def_cfa_offset 16
	pushq	%r15
	.cfi_def_cfa_offset 24
	pushq	%r14
	.cfi_def_cfa_offset 32
	pushq	%r13
	.cfi_def_cfa_offset 40
	pushq	%r12
	.cfi_def_cfa_offset 48
	pushq	%rbx
	.cfi_def_cfa_offset 56
	subq	$1544, %rsp
	.cfi_def_cfa_offset 1600
	.cfi_offset %rbx, -56
	.cfi_offset %r12, -48
	.cfi_offset %r13, -40
	.cfi_offset %r14, -32
	.cfi_offset %r15, -24
	.cfi_offset %rbp, -16
	movq	%r9, %r14
	movq	%r8, 24(%rsp)
	movq	%rcx, %rbp
	movq	%rdx, %r15
	movq	%rsi, %r12
	movq	%rdi, %rbx
	xorps	%xmm0, %xmm0
	movaps	%xmm0, (%rsp)
	movq	$0, 16(%rsp)
	leaq	32(%rsp), %r13
	movl	$1512, %edx
	movq	%r13, %rdi
	xorl	%esi, %esi
	callq	memset@PLT
	movq	%r15, %rdi
	movq	%r13, %rsi
	callq	"eap_packet::expanded::write_plain"
	testb	%al, %al
	je	.LBBad255_2
	movq	1536(%rsp), %rcx
	movq	%rsp, %rdi
	leaq	32(%rsp), %rdx
	movq	%r12, %rsi
	jmp	.LBBad255_3
.LBBad255_2:
	movq	%rsp, %rdi
	movq	%r12, %rsi
	movq	%rbp, %rdx
	movq	24(%rsp), %rcx
.LBBad255_3:
	movq	%r14, %r8
	movq	1600(%rsp), %r9
	callq	"peer_machine::machine::PeerMachine::receive_octets::<#b05093cacc003912>"
	movzwl	16(%rsp), %eax
	movzbl	18(%rsp), %ecx
	movaps	(%rsp), %xmm0
	movups	%xmm0, (%rbx)
	movw	%ax, 16(%rbx)
	movb	%cl, 18(%rbx)
	addq	$1544, %rsp
	.cfi_def_cfa_offset 56
	popq	%rbx
	.cfi_def_cfa_offset 48
	popq	%r12
	.cfi_def_cfa_offset 40
	popq	%r13
	.cfi_def_cfa_offset 32
	popq	%r14
	.cfi_def_cfa_offset 24
	popq	%r15
	.cfi_def_cfa_offset 16
	popq	%rbp
	.cfi_def_cfa_offset 8
	retq
.Lfunc_endad255:
	.size	"peer_machine::machine::PeerMachine::receive_plain::<#b05093cacc003912>", .Lfunc_endad255-"peer_machine::machine::PeerMachine::receive_plain::<#b05093cacc003912>"
	.cfi_endproc

	.section	".text.eap_packet::expanded::write_plain","ax",@progbits
	.p2align	4
	.type	"eap_packet::expanded::write_plain",@function
"eap_packet::expanded::write_plain":
	.cfi_startproc
	pushq	%rbp
	.cfi_def_cfa_offset 16
	pushq	%r15
	.cfi_def_cfa_offset 24
	pushq	%r14
	.cfi_def_cfa_offset 32
	pushq	%r13
	.cfi_def_cfa_offset 40
	pushq	%r12
	.cfi_def_cfa_offset 48
	pushq	%rbx
	.cfi_def_cfa_offset 56
	pushq	%rax
	.cfi_def_cfa_offset 64
	.cfi_offset %rbx, -56
	.cfi_offset %r12, -48
	.cfi_offset %r13, -40
	.cfi_offset %r14, -32
	.cfi_offset %r15, -24
	.cfi_offset %rbp, -16
	movzbl	(%rdi), %r14d
	leal	-2(%r14), %eax
	cmpl	$2, %eax
	jae	.LBBf0239_3
.LBBf0239_1:
	xorl	%eax, %eax
.LBBf0239_2:
	addq	$8, %rsp
	.cfi_def_cfa_offset 56
	popq	%rbx
	.cfi_def_cfa_offset 48
	popq	%r12
	.cfi_def_cfa_offset 40
	popq	%r13
	.cfi_def_cfa_offset 32
	popq	%r14
	.cfi_def_cfa_offset 24
	popq	%r15
	.cfi_def_cfa_offset 16
	popq	%rbp
	.cfi_def_cfa_offset 8
	retq
.LBBf0239_3:
	.cfi_def_cfa_offset 64
	cmpl	$1, %r14d
	jne	.LBBf0239_7
	movq	16(%rdi), %r15
	cmpb	$-2, 2(%rdi)
	setne	%al
	cmpq	$7, %r15
	setb	%cl
	orb	%al, %cl
	jne	.LBBf0239_1
	movq	8(%rdi), %rbx
	cmpl	$0, (%rbx)
	jne	.LBBf0239_1
	movq	%rdi, %r13
	movq	%rsi, %r12
	leaq	.Lstatic.6(%rip), %rdx
	movl	$6, %esi
	movq	%rbx, %rdi
	callq	"core::cmp::slices::groups_equal::<i8,31'core::cmp::numbers::U8PartialEq{}>"
	testb	%al, %al
	je	.LBBf0239_1
	movzbl	6(%rbx), %ebx
	xorl	%eax, %eax
	testl	%ebx, %ebx
	je	.LBBf0239_2
	cmpl	$3, %ebx
	je	.LBBf0239_2
	cmpl	$254, %ebx
	je	.LBBf0239_2
	jmp	.LBBf0239_20
.LBBf0239_7:
	movq	16(%rdi), %r15
	cmpb	$-2, 2(%rdi)
	setne	%al
	cmpq	$7, %r15
	setb	%cl
	orb	%al, %cl
	jne	.LBBf0239_1
	movq	8(%rdi), %rbx
	cmpl	$0, (%rbx)
	jne	.LBBf0239_1
	movq	%rdi, %r13
	movq	%rsi, %r12
	leaq	.Lstatic.6(%rip), %rdx
	movl	$6, %esi
	movq	%rbx, %rdi
	callq	"core::cmp::slices::groups_equal::<i8,31'core::cmp::numbers::U8PartialEq{}>"
	testb	%al, %al
	je	.LBBf0239_1
	movzbl	6(%rbx), %ebx
	xorl	%eax, %eax
	testl	%ebx, %ebx
	je	.LBBf0239_2
	cmpl	$254, %ebx
	je	.LBBf0239_2
	cmpl	$3, %ebx
	je	.LBBf0239_2
.LBBf0239_20:
	movzbl	1(%r13), %ebp
	incl	%r14d
	addl	$-2, %r15d
	rolw	$8, %r15w
	shll	$16, %r15d
	shll	$8, %ebp
	orl	%r15d, %ebp
	orl	%r14d, %ebp
	movq	%r12, %rcx
	movq	1504(%r12), %rdx
	testq	%rdx, %rdx
	je	.LBBf0239_22
	movq	%rcx, %rdi
	movq	%rcx, %r14
	xorl	%esi, %esi
	callq	memset@PLT
	movq	%r14, %rcx
.LBBf0239_22:
	movl	%ebp, (%rcx)
	movb	%bl, 4(%rcx)
	movq	$5, 1504(%rcx)
	movq	16(%r13), %rbx
	leaq	-7(%rbx), %rdx
	movb	$1, %al
	cmpq	$1495, %rdx
	ja	.LBBf0239_2
	movq	8(%r13), %r8
	leaq	7(%r8), %rsi
	leaq	5(%rcx), %rdi
	movq	%rdi, %r9
	subq	%rsi, %r9
	cmpq	%rdx, %r9
	jae	.LBBf0239_28
	cmpq	$4, %rdx
	jb	.LBBf0239_25
	movq	%rcx, %r9
	subq	%r8, %r9
	addq	$-2, %r9
	cmpq	$32, %r9
	jae	.LBBf0239_31
.LBBf0239_25:
	xorl	%r9d, %r9d
.LBBf0239_40:
	movq	%r9, %r10
	negq	%r10
	addq	%rbx, %r10
	addq	$-8, %r10
	movl	%ebx, %r11d
	notl	%r11d
	testb	$3, %r11b
	je	.LBBf0239_43
	leal	1(%rbx), %r11d
	andl	$3, %r11d
.LBBf0239_42:
	movzbl	(%rsi,%r9), %ebp
	movb	%bpl, (%rdi,%r9)
	incq	%r9
	decq	%r11
	jne	.LBBf0239_42
.LBBf0239_43:
	cmpq	$3, %r10
	jb	.LBBf0239_45
.LBBf0239_44:
	movzbl	7(%r8,%r9), %esi
	movb	%sil, 5(%rcx,%r9)
	movzbl	8(%r8,%r9), %esi
	movb	%sil, 6(%rcx,%r9)
	movzbl	9(%r8,%r9), %esi
	movb	%sil, 7(%rcx,%r9)
	movzbl	10(%r8,%r9), %esi
	movb	%sil, 8(%rcx,%r9)
	addq	$4, %r9
	cmpq	%r9, %rdx
	jne	.LBBf0239_44
	jmp	.LBBf0239_45
.LBBf0239_28:
	movq	%rcx, %r14
	callq	memmove@PLT
	movb	$1, %al
	movq	%r14, %rcx
.LBBf0239_45:
	addq	$-2, %rbx
	movq	%rbx, 1504(%rcx)
	jmp	.LBBf0239_2
.LBBf0239_31:
	cmpq	$32, %rdx
	jae	.LBBf0239_33
	xorl	%r9d, %r9d
	jmp	.LBBf0239_37
.LBBf0239_33:
	movl	%edx, %r9d
	andl	$2016, %r9d
	xorl	%r10d, %r10d
.LBBf0239_34:
	movups	7(%r8,%r10), %xmm0
	movups	23(%r8,%r10), %xmm1
	movups	%xmm0, 5(%rcx,%r10)
	movups	%xmm1, 21(%rcx,%r10)
	addq	$32, %r10
	cmpq	%r10, %r9
	jne	.LBBf0239_34
	cmpq	%r9, %rdx
	je	.LBBf0239_45
	testb	$28, %dl
	je	.LBBf0239_40
.LBBf0239_37:
	movq	%r9, %r10
	movl	%edx, %r9d
	andl	$2044, %r9d
.LBBf0239_38:
	movl	(%rsi,%r10), %r11d
	movl	%r11d, (%rdi,%r10)
	addq	$4, %r10
	cmpq	%r10, %r9
	jne	.LBBf0239_38
	cmpq	%r9, %rdx
	je	.LBBf0239_45
	jmp	.LBBf0239_40
.Lfunc_endf0239:
	.size	"eap_packet::expanded::write_plain", .Lfunc_endf0239-"eap_packet::expanded::write_plain"
	.cfi_endproc

	.section	".text.peer_machine::machine::express","ax",@progbits
	.p2align	4
	.type	"peer_machine::machine::express",@function
"peer_machine::machine::express":
	.cfi_startproc
	pushq	%rbp
	.cfi_def_cfa_offset 16
	pushq	%r15
	.cfi_def_cfa_offset 24
	pushq	%r14
	.cfi_def_cfa_offset 32
	pushq	%r13
	.cfi_def_cfa_offset 40
	pushq	%r12
	.cfi_def_cfa_offset 48
	pushq	%rbx
	.cfi_def_cfa_offset 56
	subq	$3072, %rsp
	.cfi_adjust_cfa_offset 3072
	movq	$0, (%rsp)
	subq	$40, %rsp
	.cfi_def_cfa_offset 3168
	.cfi_offset %rbx, -56
	.cfi_offset %r12, -48
	.cfi_offset %r13, -40
	.cfi_offset %r14, -32
	.cfi_offset %r15, -24
	.cfi_offset %rbp, -16
	movq	%rsi, %r14
	movq	%rdi, %rbx
	movq	1504(%rsi), %r8
	cmpb	$3, 4(%rsi)
	jne	.LBBab94b_21
	movzbl	1(%r14), %r13d
	movq	544(%rbx), %r12
	testq	%r12, %r12
	je	.LBBab94b_2
	xorps	%xmm0, %xmm0
	movaps	%xmm0, 80(%rsp)
	cmpq	$3, %r12
	jb	.LBBab94b_5
	movaps	%xmm0, 80(%rsp)
	movq	$0, 96(%rsp)
	jmp	.LBBab94b_17
.LBBab94b_21:
	leaq	80(%rsp), %rdi
	xorl	%r15d, %r15d
	movl	$1512, %edx
	xorl	%esi, %esi
	movq	%r8, %r12
	callq	memset@PLT
	cmpq	$1500, %r12
	jbe	.LBBab94b_23
	movq	$0, 8(%rsp)
	xorl	%ebp, %ebp
	jmp	.LBBab94b_24
.LBBab94b_23:
	leaq	80(%rsp), %rdi
	movq	%r14, %rsi
	movq	%r12, %rdx
	callq	memcpy@PLT
	movq	%r12, 1584(%rsp)
	movzbl	80(%rsp), %ebp
	movzbl	81(%rsp), %eax
	movq	%rax, 8(%rsp)
	movzwl	82(%rsp), %r15d
	rolw	$8, %r15w
.LBBab94b_24:
	leaq	84(%rsp), %rsi
	leaq	1600(%rsp), %rdi
	movl	$1508, %edx
	callq	memcpy@PLT
	movzwl	%r15w, %r13d
	addl	$7, %r15d
	rolw	$8, %r15w
	testq	%r12, %r12
	je	.LBBab94b_26
	movq	%r14, %rdi
	xorl	%esi, %esi
	movq	%r12, %rdx
	callq	memset@PLT
.LBBab94b_26:
	movb	%bpl, (%r14)
	movq	8(%rsp), %rax
	movb	%al, 1(%r14)
	movw	%r15w, 2(%r14)
	movb	$-2, 4(%r14)
	movl	$0, 5(%r14)
	movw	$0, 9(%r14)
	movq	$11, 1504(%r14)
	leaq	-4(%r13), %rdx
	movl	$11, %r15d
	cmpq	$1489, %rdx
	ja	.LBBab94b_28
	leaq	11(%r14), %rdi
	leaq	1600(%rsp), %rsi
	callq	memcpy@PLT
	addq	$7, %r13
	movq	%r13, 1504(%r14)
	movq	%r13, %r15
	jmp	.LBBab94b_28
.LBBab94b_2:
	movq	$0, 1600(%rsp)
	movq	$1, 1608(%rsp)
	xorps	%xmm0, %xmm0
	movaps	%xmm0, 80(%rsp)
	movq	$0, 96(%rsp)
	movl	$1, %r12d
	cmpq	$1, %r12
	jne	.LBBab94b_8
.LBBab94b_7:
	xorl	%eax, %eax
	xorl	%ecx, %ecx
	jmp	.LBBab94b_15
.LBBab94b_5:
	leaq	536(%rbx), %rsi
	leaq	80(%rsp), %rdi
	movq	%r12, %rdx
	movq	%r8, %r15
	callq	memcpy@PLT
	movq	%r15, %r8
	movq	80(%rsp), %rax
	movq	%rax, 1600(%rsp)
	movq	%r12, 1608(%rsp)
	xorps	%xmm0, %xmm0
	movaps	%xmm0, 80(%rsp)
	movq	$0, 96(%rsp)
	cmpq	$1, %r12
	je	.LBBab94b_7
.LBBab94b_8:
	movl	%r12d, %edx
	andl	$2, %edx
	xorl	%eax, %eax
	xorl	%ecx, %ecx
	jmp	.LBBab94b_9
	.p2align	4
.LBBab94b_13:
	addq	$2, %rcx
	cmpq	%rcx, %rdx
	je	.LBBab94b_14
.LBBab94b_9:
	leaq	-9(%rax), %rsi
	cmpq	$8, %rsi
	jae	.LBBab94b_10
	leaq	-9(%rax), %rsi
	cmpq	$8, %rsi
	jb	.LBBab94b_13
	jmp	.LBBab94b_12
	.p2align	4
.LBBab94b_10:
	movzbl	1600(%rsp,%rcx), %esi
	shlq	$56, %rsi
	orq	$254, %rsi
	movq	%rsi, 80(%rsp,%rax)
	addq	$8, %rax
	movq	%rax, 96(%rsp)
	leaq	-9(%rax), %rsi
	cmpq	$8, %rsi
	jb	.LBBab94b_13
.LBBab94b_12:
	movzbl	1601(%rsp,%rcx), %esi
	shlq	$56, %rsi
	orq	$254, %rsi
	movq	%rsi, 80(%rsp,%rax)
	addq	$8, %rax
	movq	%rax, 96(%rsp)
	jmp	.LBBab94b_13
.LBBab94b_14:
	testb	$1, %r12b
	je	.LBBab94b_17
.LBBab94b_15:
	leaq	-9(%rax), %rdx
	cmpq	$8, %rdx
	jb	.LBBab94b_17
	movzbl	1600(%rsp,%rcx), %ecx
	shlq	$56, %rcx
	orq	$254, %rcx
	movq	%rcx, 80(%rsp,%rax)
	addq	$8, %rax
	movq	%rax, 96(%rsp)
.LBBab94b_17:
	movq	96(%rsp), %r12
	movq	%r12, 64(%rsp)
	movaps	80(%rsp), %xmm0
	movaps	%xmm0, 48(%rsp)
	movaps	%xmm0, 16(%rsp)
	movq	%r12, 32(%rsp)
	leal	12(%r12), %eax
	rolw	$8, %ax
	shll	$16, %eax
	shll	$8, %r13d
	leal	(%rax,%r13), %ebp
	addl	$2, %ebp
	testq	%r8, %r8
	je	.LBBab94b_19
	movq	%r14, %rdi
	xorl	%esi, %esi
	movq	%r8, %rdx
	callq	memset@PLT
.LBBab94b_19:
	movl	%ebp, (%r14)
	movb	$-2, 4(%r14)
	movl	$0, 5(%r14)
	movw	$0, 9(%r14)
	movb	$3, 11(%r14)
	movq	$12, 1504(%r14)
	movl	$12, %r15d
	cmpq	$1488, %r12
	ja	.LBBab94b_28
	leaq	12(%r14), %rdi
	leaq	16(%rsp), %rsi
	movq	%r12, %rdx
	callq	memcpy@PLT
	addq	$12, %r12
	movq	%r12, 1504(%r14)
	movq	%r12, %r15
.LBBab94b_28:
	leaq	776(%rbx), %r12
	movq	2280(%rbx), %rdx
	testq	%rdx, %rdx
	je	.LBBab94b_30
	movq	%r12, %rdi
	xorl	%esi, %esi
	callq	memset@PLT
	movq	$0, 2280(%rbx)
.LBBab94b_30:
	movq	%r12, %rax
	subq	%r14, %rax
	cmpq	%r15, %rax
	jae	.LBBab94b_48
	movq	%rbx, %rax
	subq	%r14, %rax
	addq	$776, %rax
	cmpq	$32, %rax
	jae	.LBBab94b_33
	xorl	%eax, %eax
	jmp	.LBBab94b_42
.LBBab94b_48:
	movq	%r12, %rdi
	movq	%r14, %rsi
	movq	%r15, %rdx
	callq	memmove@PLT
	jmp	.LBBab94b_47
.LBBab94b_33:
	cmpq	$32, %r15
	jae	.LBBab94b_35
	xorl	%eax, %eax
	jmp	.LBBab94b_39
.LBBab94b_35:
	movq	%r15, %rax
	andq	$-32, %rax
	xorl	%ecx, %ecx
	.p2align	4
.LBBab94b_36:
	movups	(%r14,%rcx), %xmm0
	movups	16(%r14,%rcx), %xmm1
	movups	%xmm0, 776(%rbx,%rcx)
	movups	%xmm1, 792(%rbx,%rcx)
	addq	$32, %rcx
	cmpq	%rcx, %rax
	jne	.LBBab94b_36
	cmpq	%rax, %r15
	je	.LBBab94b_47
	testb	$28, %r15b
	je	.LBBab94b_42
.LBBab94b_39:
	movq	%rax, %rcx
	movq	%r15, %rax
	andq	$-4, %rax
	.p2align	4
.LBBab94b_40:
	movl	(%r14,%rcx), %edx
	movl	%edx, (%r12,%rcx)
	addq	$4, %rcx
	cmpq	%rcx, %rax
	jne	.LBBab94b_40
	cmpq	%rax, %r15
	je	.LBBab94b_47
.LBBab94b_42:
	movq	%r15, %rdx
	movq	%rax, %rcx
	andq	$3, %rdx
	je	.LBBab94b_45
	movq	%rax, %rcx
	.p2align	4
.LBBab94b_44:
	movzbl	(%r14,%rcx), %esi
	movb	%sil, (%r12,%rcx)
	incq	%rcx
	decq	%rdx
	jne	.LBBab94b_44
.LBBab94b_45:
	subq	%r15, %rax
	cmpq	$-4, %rax
	ja	.LBBab94b_47
	.p2align	4
.LBBab94b_46:
	movzbl	(%r14,%rcx), %eax
	movb	%al, 776(%rbx,%rcx)
	movzbl	1(%r14,%rcx), %eax
	movb	%al, 777(%rbx,%rcx)
	movzbl	2(%r14,%rcx), %eax
	movb	%al, 778(%rbx,%rcx)
	movzbl	3(%r14,%rcx), %eax
	movb	%al, 779(%rbx,%rcx)
	addq	$4, %rcx
	cmpq	%rcx, %r15
	jne	.LBBab94b_46
.LBBab94b_47:
	movq	%r15, 2280(%rbx)
	addq	$3112, %rsp
	.cfi_def_cfa_offset 56
	popq	%rbx
	.cfi_def_cfa_offset 48
	popq	%r12
	.cfi_def_cfa_offset 40
	popq	%r13
	.cfi_def_cfa_offset 32
	popq	%r14
	.cfi_def_cfa_offset 24
	popq	%r15
	.cfi_def_cfa_offset 16
	popq	%rbp
	.cfi_def_cfa_offset 8
	retq
.Lfunc_endab94b:
	.size	"peer_machine::machine::express", .Lfunc_endab94b-"peer_machine::machine::express"
	.cfi_endproc

	.section	.rodata.cst16,"aM",@progbits,16
	.p2align	4, 0x0
.LCPIbba59_0:
	.quad	67842
	.quad	3
.LCPIbba59_1:
	.quad	2818
	.quad	2
.LCPIbba59_2:
	.quad	2562
	.quad	2
.LCPIbba59_3:
	.quad	17303298
	.quad	4
	.section	".text.peer_machine::machine::PeerMachine::receive_octets::<#b05093cacc003912>","ax",@progbits
	.p2align	4
	.type	"peer_machine::machine::PeerMachine::receive_octets::<#b05093cacc003912>",@function
"peer_machine::machine::PeerMachine::receive_octets::<#b05093cacc003912>":
	.cfi_startproc
	pushq	%rbp
	.cfi_def_cfa_offset 16
	pushq	%r15
	.cfi_def_cfa_offset 24
	pushq	%r14
	.cfi_def_cfa_offset 32
	pushq	%r13
	.cfi_def_cfa_offset 40
	pushq	%r12
	.cfi_def_cfa_offset 48
	pushq	%rbx
	.cfi_def_cfa_offset 56
	subq	$216, %rsp
	.cfi_def_cfa_offset 272
	.cfi_offset %rbx, -56
	.cfi_offset %r12, -48
	.cfi_offset %r13, -40
	.cfi_offset %r14, -32
	.cfi_offset %r15, -24
	.cfi_offset %rbp, -16
	pxor	%xmm0, %xmm0
	movdqa	%xmm0, 192(%rsp)
	movdqa	%xmm0, 176(%rsp)
	movdqa	%xmm0, 160(%rsp)
	movzbl	768(%rsi), %eax
	movq	%rsi, %r14
	movq	%rdi, %rbx
	movabsq	$8589407231, %rsi
	btq	%rax, %rsi
	jae	.LBBbba59_25
	movq	%r9, %r12
	movq	%r8, %r15
	leaq	160(%rsp), %rdi
	movq	%rdx, %rsi
	movq	%rcx, %rdx
	callq	"eap_packet::packet::decode"
	cmpb	$1, 160(%rsp)
	jne	.LBBbba59_6
	movaps	.LCPIbba59_0(%rip), %xmm2
	movb	$1, %al
	movzbl	161(%rsp), %ecx
.LBBbba59_3:
	xorl	%ebp, %ebp
.LBBbba59_4:
	movups	%xmm2, (%rbx)
	movb	%al, 16(%rbx)
	movb	%cl, 17(%rbx)
	movb	%bpl, 18(%rbx)
.LBBbba59_5:
	addq	$216, %rsp
	.cfi_def_cfa_offset 56
	popq	%rbx
	.cfi_def_cfa_offset 48
	popq	%r12
	.cfi_def_cfa_offset 40
	popq	%r13
	.cfi_def_cfa_offset 32
	popq	%r14
	.cfi_def_cfa_offset 24
	popq	%r15
	.cfi_def_cfa_offset 16
	popq	%rbp
	.cfi_def_cfa_offset 8
	retq
.LBBbba59_6:
	.cfi_def_cfa_offset 272
	movzbl	168(%rsp), %eax
	movzbl	%al, %edx
	movzbl	169(%rsp), %ebp
	cmpb	$1, 773(%r14)
	jne	.LBBbba59_8
	cmpb	%bpl, 774(%r14)
	sete	%cl
	jmp	.LBBbba59_9
.LBBbba59_8:
	xorl	%ecx, %ecx
.LBBbba59_9:
	movaps	.LCPIbba59_0(%rip), %xmm2
	movl	%edx, %edx
	leaq	.LJTIbba59_0(%rip), %rsi
	movslq	(%rsi,%rdx,4), %rdx
	addq	%rsi, %rdx
	jmpq	*%rdx
.LBBbba59_10:
	testb	%cl, %cl
	je	.LBBbba59_26
	movq	2280(%r14), %r12
	movq	1504(%r15), %rdx
	testq	%rdx, %rdx
	je	.LBBbba59_13
	movq	%r15, %rdi
	xorl	%esi, %esi
	callq	memset@PLT
	movq	$0, 1504(%r15)
.LBBbba59_13:
	movaps	.LCPIbba59_3(%rip), %xmm2
	movb	$1, %bpl
	cmpq	$1500, %r12
	ja	.LBBbba59_77
	leaq	776(%r14), %rsi
	movq	%r15, %rax
	subq	%rsi, %rax
	cmpq	%r12, %rax
	jae	.LBBbba59_46
	cmpq	$4, %r12
	jb	.LBBbba59_16
	movq	%r15, %rax
	subq	%r14, %rax
	addq	$-776, %rax
	cmpq	$32, %rax
	jae	.LBBbba59_61
.LBBbba59_16:
	xorl	%eax, %eax
.LBBbba59_71:
	movq	%r12, %rdx
	movq	%rax, %rcx
	andq	$3, %rdx
	je	.LBBbba59_74
	movq	%rax, %rcx
	.p2align	4
.LBBbba59_73:
	movzbl	(%rsi,%rcx), %edi
	movb	%dil, (%r15,%rcx)
	incq	%rcx
	decq	%rdx
	jne	.LBBbba59_73
.LBBbba59_74:
	subq	%r12, %rax
	cmpq	$-4, %rax
	ja	.LBBbba59_76
.LBBbba59_75:
	movzbl	776(%r14,%rcx), %eax
	movb	%al, (%r15,%rcx)
	movzbl	777(%r14,%rcx), %eax
	movb	%al, 1(%r15,%rcx)
	movzbl	778(%r14,%rcx), %eax
	movb	%al, 2(%r15,%rcx)
	movzbl	779(%r14,%rcx), %eax
	movb	%al, 3(%r15,%rcx)
	addq	$4, %rcx
	cmpq	%rcx, %r12
	jne	.LBBbba59_75
	jmp	.LBBbba59_76
.LBBbba59_17:
	movb	$1, %al
	testb	%cl, %cl
	je	.LBBbba59_23
	cmpb	$0, 772(%r14)
	je	.LBBbba59_31
	movb	$10, 768(%r14)
	movaps	.LCPIbba59_2(%rip), %xmm2
	jmp	.LBBbba59_34
.LBBbba59_20:
	movb	$1, %al
	testb	%cl, %cl
	je	.LBBbba59_23
	cmpb	$2, 772(%r14)
	jne	.LBBbba59_29
	movb	$14, %cl
	jmp	.LBBbba59_3
.LBBbba59_23:
	movb	$12, %cl
	jmp	.LBBbba59_3
.LBBbba59_24:
	movb	$7, %cl
	jmp	.LBBbba59_3
.LBBbba59_25:
	movdqu	%xmm0, (%rbx)
	movw	$4609, 16(%rbx)
	movb	$0, 18(%rbx)
	jmp	.LBBbba59_5
.LBBbba59_26:
	movzbl	170(%rsp), %r13d
	movq	192(%rsp), %r8
	movq	200(%rsp), %r9
	cmpb	$0, 769(%r14)
	je	.LBBbba59_35
	movb	$1, %al
	cmpl	$2, %r13d
	jne	.LBBbba59_43
	movb	$9, %cl
	jmp	.LBBbba59_3
.LBBbba59_29:
	cmpb	$2, 771(%r14)
	jne	.LBBbba59_33
	movb	$15, %cl
	jmp	.LBBbba59_3
.LBBbba59_31:
	cmpb	$2, 771(%r14)
	jne	.LBBbba59_33
	movb	$13, %cl
	jmp	.LBBbba59_3
.LBBbba59_33:
	movb	$11, 768(%r14)
	movaps	.LCPIbba59_1(%rip), %xmm2
.LBBbba59_34:
	xorl	%eax, %eax
	xorl	%ecx, %ecx
	jmp	.LBBbba59_3
.LBBbba59_35:
	pxor	%xmm0, %xmm0
	movdqa	%xmm0, 96(%rsp)
	movq	$0, 112(%rsp)
	movdqa	%xmm0, 64(%rsp)
	movq	$0, 80(%rsp)
	movdqa	%xmm0, 128(%rsp)
	movq	$0, 144(%rsp)
	cmpl	$2, %r13d
	je	.LBBbba59_48
	cmpl	$1, %r13d
	jne	.LBBbba59_53
	movq	256(%r14), %r12
	leal	5(%r12), %eax
	rolw	$8, %ax
	shll	$16, %eax
	movl	%ebp, %ecx
	shll	$8, %ecx
	leal	(%rax,%rcx), %r13d
	addl	$2, %r13d
	movq	1504(%r15), %rdx
	testq	%rdx, %rdx
	je	.LBBbba59_39
	movq	%r15, %rdi
	xorl	%esi, %esi
	callq	memset@PLT
.LBBbba59_39:
	movl	%r13d, (%r15)
	movb	$1, 4(%r15)
	movq	$5, 1504(%r15)
	cmpq	$1495, %r12
	ja	.LBBbba59_102
	leaq	5(%r15), %rdi
	movq	%rdi, %rax
	subq	%r14, %rax
	cmpq	%r12, %rax
	jae	.LBBbba59_63
	cmpq	$4, %r12
	jb	.LBBbba59_42
	movq	%r15, %rax
	subq	%r14, %rax
	addq	$5, %rax
	cmpq	$32, %rax
	jae	.LBBbba59_87
.LBBbba59_42:
	xorl	%eax, %eax
.LBBbba59_96:
	movq	%r12, %rdx
	movq	%rax, %rcx
	andq	$3, %rdx
	je	.LBBbba59_99
	movq	%rax, %rcx
.LBBbba59_98:
	movzbl	(%r14,%rcx), %esi
	movb	%sil, (%rdi,%rcx)
	incq	%rcx
	decq	%rdx
	jne	.LBBbba59_98
.LBBbba59_99:
	subq	%r12, %rax
	cmpq	$-4, %rax
	ja	.LBBbba59_101
.LBBbba59_100:
	movzbl	(%r14,%rcx), %eax
	movb	%al, 5(%r15,%rcx)
	movzbl	1(%r14,%rcx), %eax
	movb	%al, 6(%r15,%rcx)
	movzbl	2(%r14,%rcx), %eax
	movb	%al, 7(%r15,%rcx)
	movzbl	3(%r14,%rcx), %eax
	movb	%al, 8(%r15,%rcx)
	addq	$4, %rcx
	cmpq	%rcx, %r12
	jne	.LBBbba59_100
	jmp	.LBBbba59_101
.LBBbba59_43:
	cmpb	770(%r14), %r13b
	jne	.LBBbba59_47
	cmpb	$4, 771(%r14)
	jne	.LBBbba59_57
	movb	$10, %cl
	jmp	.LBBbba59_3
.LBBbba59_46:
	movq	%r15, %rdi
	movq	%r12, %rdx
	callq	memmove@PLT
	movaps	.LCPIbba59_3(%rip), %xmm2
.LBBbba59_76:
	movq	%r12, 1504(%r15)
.LBBbba59_77:
	xorl	%eax, %eax
	xorl	%ecx, %ecx
	jmp	.LBBbba59_4
.LBBbba59_47:
	movb	$11, %cl
	jmp	.LBBbba59_3
.LBBbba59_48:
	movl	%ebp, %r12d
	shll	$8, %r12d
	orl	$83886082, %r12d
	movq	1504(%r15), %rdx
	testq	%rdx, %rdx
	je	.LBBbba59_50
	movq	%r15, %rdi
	xorl	%esi, %esi
	callq	memset@PLT
.LBBbba59_50:
	movl	%r12d, (%r15)
	movb	$2, 4(%r15)
	movq	$5, 1504(%r15)
	leaq	64(%rsp), %rdi
	movq	%r14, %rsi
	movl	$6, %edx
	movl	%ebp, %ecx
	movq	%r15, %r8
	callq	"peer_machine::machine::respond"
	movdqa	80(%rsp), %xmm0
	movzbl	82(%rsp), %ebp
	jmp	.LBBbba59_84
.LBBbba59_53:
	leaq	536(%r14), %rsi
	movq	544(%r14), %rdx
	xorl	%eax, %eax
.LBBbba59_54:
	cmpq	%rax, %rdx
	je	.LBBbba59_58
	cmpb	%r13b, 536(%r14,%rax)
	leaq	1(%rax), %rax
	jne	.LBBbba59_54
	pxor	%xmm0, %xmm0
	movdqa	%xmm0, 32(%rsp)
	movq	$0, 48(%rsp)
	movq	2288(%r14), %rsi
	movq	2296(%r14), %rdx
	movq	%r12, 8(%rsp)
	movq	%r15, (%rsp)
	leaq	29(%rsp), %rdi
	movl	%r13d, %ecx
	callq	"eap_method::peer_objects::call_peer_method::<#254f2c9f7e768b02>"
	movzbl	29(%rsp), %eax
	movb	%al, 26(%rsp)
	movzwl	30(%rsp), %eax
	movw	%ax, 27(%rsp)
	movq	%r15, (%rsp)
	leaq	32(%rsp), %rdi
	leaq	26(%rsp), %r9
	movq	%r14, %rsi
	movl	$1, %edx
	movl	%r13d, %ecx
	movl	%ebp, %r8d
	callq	"peer_machine::machine::settle"
	movaps	32(%rsp), %xmm1
	movdqa	48(%rsp), %xmm0
	movaps	%xmm1, 128(%rsp)
	movzbl	50(%rsp), %ebp
	jmp	.LBBbba59_83
.LBBbba59_57:
	pxor	%xmm0, %xmm0
	movdqa	%xmm0, 32(%rsp)
	movq	$0, 48(%rsp)
	movq	2288(%r14), %rsi
	movq	2296(%r14), %rdx
	movq	%r12, 8(%rsp)
	movq	%r15, (%rsp)
	leaq	96(%rsp), %rdi
	movl	%r13d, %ecx
	callq	"eap_method::peer_objects::call_peer_method::<#254f2c9f7e768b02>"
	movzbl	96(%rsp), %eax
	movb	%al, 64(%rsp)
	movzwl	97(%rsp), %eax
	movw	%ax, 65(%rsp)
	movq	%r15, (%rsp)
	leaq	32(%rsp), %rdi
	leaq	64(%rsp), %r9
	movq	%r14, %rsi
	xorl	%edx, %edx
	movl	%r13d, %ecx
	movl	%ebp, %r8d
	callq	"peer_machine::machine::settle"
	movaps	32(%rsp), %xmm2
	movzbl	48(%rsp), %eax
	movzbl	49(%rsp), %ecx
	movzbl	50(%rsp), %ebp
	jmp	.LBBbba59_4
.LBBbba59_58:
	testq	%rdx, %rdx
	je	.LBBbba59_78
	pxor	%xmm0, %xmm0
	movdqa	%xmm0, 32(%rsp)
	cmpq	$2, %rdx
	jbe	.LBBbba59_79
	xorl	%r8d, %r8d
	xorl	%eax, %eax
	jmp	.LBBbba59_80
.LBBbba59_61:
	cmpq	$32, %r12
	jae	.LBBbba59_64
	xorl	%eax, %eax
	jmp	.LBBbba59_68
.LBBbba59_63:
	movq	%r14, %rsi
	movq	%r12, %rdx
	callq	memmove@PLT
.LBBbba59_101:
	addq	$5, %r12
	movq	%r12, 1504(%r15)
.LBBbba59_102:
	leaq	96(%rsp), %rdi
	movq	%r14, %rsi
	movl	$5, %edx
	movl	%ebp, %ecx
	movq	%r15, %r8
	callq	"peer_machine::machine::respond"
	movdqa	112(%rsp), %xmm0
	movzbl	114(%rsp), %ebp
	jmp	.LBBbba59_103
.LBBbba59_64:
	movl	%r12d, %eax
	andl	$2016, %eax
	xorl	%ecx, %ecx
.LBBbba59_65:
	movdqu	776(%r14,%rcx), %xmm0
	movups	792(%r14,%rcx), %xmm1
	movdqu	%xmm0, (%r15,%rcx)
	movups	%xmm1, 16(%r15,%rcx)
	addq	$32, %rcx
	cmpq	%rcx, %rax
	jne	.LBBbba59_65
	cmpq	%rax, %r12
	je	.LBBbba59_76
	testb	$28, %r12b
	je	.LBBbba59_71
.LBBbba59_68:
	movq	%rax, %rcx
	movl	%r12d, %eax
	andl	$2044, %eax
.LBBbba59_69:
	movl	(%rsi,%rcx), %edx
	movl	%edx, (%r15,%rcx)
	addq	$4, %rcx
	cmpq	%rcx, %rax
	jne	.LBBbba59_69
	cmpq	%rax, %r12
	je	.LBBbba59_76
	jmp	.LBBbba59_71
.LBBbba59_78:
	movl	$1, %r8d
	xorl	%eax, %eax
	jmp	.LBBbba59_80
.LBBbba59_79:
	leaq	32(%rsp), %rdi
	movq	%rdx, %r12
	callq	memcpy@PLT
	movq	%r12, %r8
	movq	32(%rsp), %rax
.LBBbba59_80:
	movq	%rax, 32(%rsp)
	movq	%r8, 40(%rsp)
	leal	5(%r8), %eax
	rolw	$8, %ax
	shll	$16, %eax
	movl	%ebp, %ecx
	shll	$8, %ecx
	leal	(%rax,%rcx), %r12d
	addl	$2, %r12d
	movq	1504(%r15), %rdx
	testq	%rdx, %rdx
	je	.LBBbba59_82
	movq	%r15, %rdi
	xorl	%esi, %esi
	movq	%r8, %r13
	callq	memset@PLT
	movq	%r13, %r8
.LBBbba59_82:
	movl	%r12d, (%r15)
	movb	$3, 4(%r15)
	leaq	5(%r15), %rdi
	leaq	32(%rsp), %rsi
	movq	%r8, %rdx
	movq	%r8, %r12
	callq	memcpy@PLT
	addq	$5, %r12
	movq	%r12, 1504(%r15)
	leaq	128(%rsp), %rdi
	movq	%r14, %rsi
	movl	$3, %edx
	movl	%ebp, %ecx
	movq	%r15, %r8
	callq	"peer_machine::machine::respond"
	movdqa	144(%rsp), %xmm0
	movzbl	146(%rsp), %ebp
.LBBbba59_83:
	movaps	128(%rsp), %xmm1
	movaps	%xmm1, 64(%rsp)
.LBBbba59_84:
	movaps	64(%rsp), %xmm1
	movaps	%xmm1, 96(%rsp)
.LBBbba59_103:
	movaps	96(%rsp), %xmm2
	movd	%xmm0, %eax
	pextrb	$1, %xmm0, %ecx
	jmp	.LBBbba59_4
.LBBbba59_87:
	cmpq	$32, %r12
	jae	.LBBbba59_89
	xorl	%eax, %eax
	jmp	.LBBbba59_93
.LBBbba59_89:
	movl	%r12d, %eax
	andl	$2016, %eax
	xorl	%ecx, %ecx
.LBBbba59_90:
	movdqu	(%r14,%rcx), %xmm0
	movups	16(%r14,%rcx), %xmm1
	movdqu	%xmm0, 5(%r15,%rcx)
	movups	%xmm1, 21(%r15,%rcx)
	addq	$32, %rcx
	cmpq	%rcx, %rax
	jne	.LBBbba59_90
	cmpq	%rax, %r12
	je	.LBBbba59_101
	testb	$28, %r12b
	je	.LBBbba59_96
.LBBbba59_93:
	movq	%rax, %rcx
	movl	%r12d, %eax
	andl	$2044, %eax
.LBBbba59_94:
	movl	(%r14,%rcx), %edx
	movl	%edx, (%rdi,%rcx)
	addq	$4, %rcx
	cmpq	%rcx, %rax
	jne	.LBBbba59_94
	cmpq	%rax, %r12
	je	.LBBbba59_101
	jmp	.LBBbba59_96
.Lfunc_endbba59:
	.size	"peer_machine::machine::PeerMachine::receive_octets::<#b05093cacc003912>", .Lfunc_endbba59-"peer_machine::machine::PeerMachine::receive_octets::<#b05093cacc003912>"
	.cfi_endproc
	.section	".rodata.peer_machine::machine::PeerMachine::receive_octets::<#b05093cacc003912>","a",@progbits
	.p2align	2, 0x0
.LJTIbba59_0:
	.long	.LBBbba59_10-.LJTIbba59_0
	.long	.LBBbba59_24-.LJTIbba59_0
	.long	.LBBbba59_17-.LJTIbba59_0
	.long	.LBBbba59_20-.LJTIbba59_0

	.section	".text.peer_machine::machine::respond","ax",@progbits
	.p2align	4
	.type	"peer_machine::machine::respond",@function
"peer_machine::machine::respond":
	.cfi_startproc
	pushq	%rbp
	.cfi_def_cfa_offset 16
	pushq	%r15
	.cfi_def_cfa_offset 24
	pushq	%r14
	.cfi_def_cfa_offset 32
	pushq	%r13
	.cfi_def_cfa_offset 40
	pushq	%r12
	.cfi_def_cfa_offset 48
	pushq	%rbx
	.cfi_def_cfa_offset 56
	pushq	%rax
	.cfi_def_cfa_offset 64
	.cfi_offset %rbx, -56
	.cfi_offset %r12, -48
	.cfi_offset %r13, -40
	.cfi_offset %r14, -32
	.cfi_offset %r15, -24
	.cfi_offset %rbp, -16
	movq	%r8, %r15
	movl	%edx, %ebp
	movq	%rsi, %r14
	movq	%rdi, %rbx
	movb	$1, 773(%rsi)
	movb	%cl, 774(%rsi)
	leaq	776(%rsi), %r13
	movq	1504(%r8), %r12
	movq	2280(%rsi), %rdx
	testq	%rdx, %rdx
	je	.LBB0d411_2
	movq	%r13, %rdi
	xorl	%esi, %esi
	callq	memset@PLT
	movq	$0, 2280(%r14)
.LBB0d411_2:
	cmpq	$1500, %r12
	ja	.LBB0d411_24
	movq	%r13, %rax
	subq	%r15, %rax
	cmpq	%r12, %rax
	jae	.LBB0d411_6
	cmpq	$4, %r12
	jb	.LBB0d411_5
	movq	%r14, %rax
	subq	%r15, %rax
	addq	$776, %rax
	cmpq	$32, %rax
	jae	.LBB0d411_9
.LBB0d411_5:
	xorl	%eax, %eax
.LBB0d411_18:
	movq	%r12, %rdx
	movq	%rax, %rcx
	andq	$3, %rdx
	je	.LBB0d411_21
	movq	%rax, %rcx
	.p2align	4
.LBB0d411_20:
	movzbl	(%r15,%rcx), %esi
	movb	%sil, (%r13,%rcx)
	incq	%rcx
	decq	%rdx
	jne	.LBB0d411_20
.LBB0d411_21:
	subq	%r12, %rax
	cmpq	$-4, %rax
	ja	.LBB0d411_23
	.p2align	4
.LBB0d411_22:
	movzbl	(%r15,%rcx), %eax
	movb	%al, 776(%r14,%rcx)
	movzbl	1(%r15,%rcx), %eax
	movb	%al, 777(%r14,%rcx)
	movzbl	2(%r15,%rcx), %eax
	movb	%al, 778(%r14,%rcx)
	movzbl	3(%r15,%rcx), %eax
	movb	%al, 779(%r14,%rcx)
	addq	$4, %rcx
	cmpq	%rcx, %r12
	jne	.LBB0d411_22
	jmp	.LBB0d411_23
.LBB0d411_6:
	movq	%r13, %rdi
	movq	%r15, %rsi
	movq	%r12, %rdx
	callq	memmove@PLT
.LBB0d411_23:
	movq	%r12, 2280(%r14)
.LBB0d411_24:
	movzbl	%bpl, %eax
	shll	$8, %eax
	orq	$17301506, %rax
	movq	%rax, (%rbx)
	movq	$4, 8(%rbx)
	movw	$0, 16(%rbx)
	movb	$1, 18(%rbx)
	addq	$8, %rsp
	.cfi_def_cfa_offset 56
	popq	%rbx
	.cfi_def_cfa_offset 48
	popq	%r12
	.cfi_def_cfa_offset 40
	popq	%r13
	.cfi_def_cfa_offset 32
	popq	%r14
	.cfi_def_cfa_offset 24
	popq	%r15
	.cfi_def_cfa_offset 16
	popq	%rbp
	.cfi_def_cfa_offset 8
	retq
.LBB0d411_9:
	.cfi_def_cfa_offset 64
	cmpq	$32, %r12
	jae	.LBB0d411_11
	xorl	%eax, %eax
	jmp	.LBB0d411_15
.LBB0d411_11:
	movl	%r12d, %eax
	andl	$2016, %eax
	xorl	%ecx, %ecx
	.p2align	4
.LBB0d411_12:
	movups	(%r15,%rcx), %xmm0
	movups	16(%r15,%rcx), %xmm1
	movups	%xmm0, 776(%r14,%rcx)
	movups	%xmm1, 792(%r14,%rcx)
	addq	$32, %rcx
	cmpq	%rcx, %rax
	jne	.LBB0d411_12
	cmpq	%rax, %r12
	je	.LBB0d411_23
	testb	$28, %r12b
	je	.LBB0d411_18
.LBB0d411_15:
	movq	%rax, %rcx
	movl	%r12d, %eax
	andl	$2044, %eax
	.p2align	4
.LBB0d411_16:
	movl	(%r15,%rcx), %edx
	movl	%edx, (%r13,%rcx)
	addq	$4, %rcx
	cmpq	%rcx, %rax
	jne	.LBB0d411_16
	cmpq	%rax, %r12
	je	.LBB0d411_23
	jmp	.LBB0d411_18
.Lfunc_end0d411:
	.size	"peer_machine::machine::respond", .Lfunc_end0d411-"peer_machine::machine::respond"
	.cfi_endproc

	.section	".text.eap_method::peer_objects::call_peer_method::<#254f2c9f7e768b02>","ax",@progbits
	.p2align	4
	.type	"eap_method::peer_objects::call_peer_method::<#254f2c9f7e768b02>",@function
"eap_method::peer_objects::call_peer_method::<#254f2c9f7e768b02>":
	.cfi_startproc
	pushq	%rbx
	.cfi_def_cfa_offset 16
	subq	$32, %rsp
	.cfi_def_cfa_offset 48
	.cfi_offset %rbx, -16
	movq	%rdi, %rbx
	movq	56(%rsp), %rax
	testq	%rdx, %rdx
	je	.LBBbbf34_1
	movq	48(%rsp), %r10
	movzbl	(%rsi), %edi
	testb	%dil, %dil
	setne	%r11b
	shlb	$2, %r11b
	addb	$47, %r11b
	cmpb	%cl, %r11b
	jne	.LBBbbf34_6
	addq	$8, %rsi
	testb	%dil, %dil
	je	.LBBbbf34_4
	movb	$0, 28(%rsp)
	movw	$0, 26(%rsp)
	leaq	26(%rsp), %rdi
	movq	%r8, %rdx
	movq	%r9, %rcx
	movq	%r10, %r8
	movq	%rax, %r9
	callq	"gpsk_ends::peer::GpskPeer::handle_step::<#e0641de541981142>"
	movzbl	26(%rsp), %eax
	movzbl	27(%rsp), %ecx
	movzbl	28(%rsp), %edx
	jmp	.LBBbbf34_7
.LBBbbf34_1:
	xorps	%xmm0, %xmm0
	movups	%xmm0, (%rax)
	movb	$22, %cl
	xorl	%eax, %eax
	xorl	%edx, %edx
	jmp	.LBBbbf34_7
.LBBbbf34_6:
	decq	%rdx
	addq	$1248, %rsi
	movq	%rax, 8(%rsp)
	movq	%r10, (%rsp)
	movzbl	%cl, %ecx
	leaq	29(%rsp), %rdi
	callq	"eap_method::peer_objects::call_peer_method::<#254f2c9f7e768b02>"
	movzbl	29(%rsp), %eax
	movzbl	30(%rsp), %ecx
	movzbl	31(%rsp), %edx
	jmp	.LBBbbf34_7
.LBBbbf34_4:
	movb	$0, 24(%rsp)
	movw	$0, 22(%rsp)
	leaq	22(%rsp), %rdi
	movq	%r8, %rdx
	movq	%r9, %rcx
	movq	%r10, %r8
	movq	%rax, %r9
	callq	"psk_ends::peer::PskPeer::handle_step::<#becd8de5e2060522>"
	movzbl	22(%rsp), %eax
	movzbl	23(%rsp), %ecx
	movzbl	24(%rsp), %edx
.LBBbbf34_7:
	movb	%al, (%rbx)
	movb	%cl, 1(%rbx)
	movb	%dl, 2(%rbx)
	addq	$32, %rsp
	.cfi_def_cfa_offset 16
	popq	%rbx
	.cfi_def_cfa_offset 8
	retq
.Lfunc_endbbf34:
	.size	"eap_method::peer_objects::call_peer_method::<#254f2c9f7e768b02>", .Lfunc_endbbf34-"eap_method::peer_objects::call_peer_method::<#254f2c9f7e768b02>"
	.cfi_endproc

	.section	".text.psk_ends::peer::PskPeer::handle_step::<#becd8de5e2060522>","ax",@progbits
	.p2align	4
	.type	"psk_ends::peer::PskPeer::handle_step::<#becd8de5e2060522>",@function
"psk_ends::peer::PskPeer::handle_step::<#becd8de5e2060522>":
	.cfi_startproc
	pushq	%rbp
	.cfi_def_cfa_offset 16
	pushq	%r15
	.cfi_def_cfa_offset 24
	pushq	%r14
	.cfi_def_cfa_offset 32
	pushq	%r13
	.cfi_def_cfa_offset 40
	pushq	%r12
	.cfi_def_cfa_offset 48
	pushq	%rbx
	.cfi_def_cfa_offset 56
	subq	$920, %rsp
	.cfi_def_cfa_offset 976
	.cfi_offset %rbx, -56
	.cfi_offset %r12, -48
	.cfi_offset %r13, -40
	.cfi_offset %r14, -32
	.cfi_offset %r15, -24
	.cfi_offset %rbp, -16
	movq	%r9, %r14
	movq	%rdi, %rbx
	movb	$0, 30(%rsp)
	movw	$0, 28(%rsp)
	movzbl	656(%rsi), %eax
	testl	%eax, %eax
	je	.LBBea434_1
	cmpl	$2, %eax
	jne	.LBBea434_3
	cmpb	$0, 1233(%rsi)
	je	.LBBea434_22
	xorps	%xmm0, %xmm0
	movaps	%xmm0, 96(%rsp)
	movaps	%xmm0, 80(%rsp)
	movaps	%xmm0, 64(%rsp)
	movaps	%xmm0, 48(%rsp)
	movaps	%xmm0, 32(%rsp)
	addq	$5, %rdx
	addq	$-5, %rcx
	leaq	32(%rsp), %rdi
	movq	%rdx, %rsi
	movq	%rcx, %rdx
	callq	"psk_messages::reading::read_psk_message"
	cmpb	$1, 32(%rsp)
	movzbl	33(%rsp), %eax
	movl	$22, %r13d
	cmovel	%eax, %r13d
	jmp	.LBBea434_41
.LBBea434_1:
	movb	$22, %r13b
	jmp	.LBBea434_41
.LBBea434_3:
	leaq	656(%rsi), %rax
	movq	%rax, 120(%rsp)
	movq	%r8, %rbp
	movq	%rsi, %r12
	xorps	%xmm0, %xmm0
	movaps	%xmm0, 96(%rsp)
	movaps	%xmm0, 80(%rsp)
	movaps	%xmm0, 64(%rsp)
	movaps	%xmm0, 48(%rsp)
	movaps	%xmm0, 32(%rsp)
	movq	%rdx, %r15
	leaq	5(%rdx), %rsi
	addq	$-5, %rcx
	leaq	32(%rsp), %rdi
	movq	%rcx, %rdx
	callq	"psk_messages::reading::read_psk_message"
	movzbl	32(%rsp), %ecx
	movzbl	33(%rsp), %r13d
	movzbl	40(%rsp), %eax
	movups	44(%rsp), %xmm0
	movaps	%xmm0, 144(%rsp)
	movl	60(%rsp), %edx
	movl	%edx, 160(%rsp)
	cmpb	$1, %cl
	je	.LBBea434_41
	movb	$22, %r13b
	testb	%al, %al
	jne	.LBBea434_41
	movq	64(%rsp), %rdx
	movq	72(%rsp), %r13
	movq	%r12, %rcx
	cmpb	$1, 528(%r12)
	jne	.LBBea434_10
	cmpq	%r13, 520(%rcx)
	jne	.LBBea434_20
	leaq	264(%rcx), %rdi
	cmpq	$4, %r13
	jae	.LBBea434_8
	testq	%r13, %r13
	je	.LBBea434_10
	movzbl	(%rdi), %eax
	cmpb	(%rdx), %al
	jne	.LBBea434_14
	cmpq	$1, %r13
	je	.LBBea434_10
	movzbl	265(%rcx), %esi
	movl	$1, %eax
	cmpb	1(%rdx), %sil
	jne	.LBBea434_19
	cmpq	$2, %r13
	je	.LBBea434_10
	movzbl	266(%rcx), %esi
	movl	$2, %eax
	cmpb	2(%rdx), %sil
	je	.LBBea434_10
	jmp	.LBBea434_19
.LBBea434_22:
	movq	%r8, 120(%rsp)
	movq	%rsi, %r15
	xorps	%xmm0, %xmm0
	movaps	%xmm0, 96(%rsp)
	movaps	%xmm0, 80(%rsp)
	movaps	%xmm0, 64(%rsp)
	movaps	%xmm0, 48(%rsp)
	movaps	%xmm0, 32(%rsp)
	movq	%rdx, %r12
	leaq	5(%rdx), %rsi
	movq	%rcx, %rbp
	leaq	-5(%rcx), %rdx
	leaq	32(%rsp), %rdi
	callq	"psk_messages::reading::read_psk_message"
	movzbl	32(%rsp), %ecx
	movzbl	33(%rsp), %r13d
	movzbl	40(%rsp), %eax
	movups	44(%rsp), %xmm0
	movaps	%xmm0, 144(%rsp)
	movups	60(%rsp), %xmm0
	movaps	%xmm0, 160(%rsp)
	movups	76(%rsp), %xmm0
	movaps	%xmm0, 176(%rsp)
	movups	92(%rsp), %xmm0
	movaps	%xmm0, 192(%rsp)
	movl	108(%rsp), %edx
	movl	%edx, 208(%rsp)
	cmpb	$1, %cl
	je	.LBBea434_23
	cmpb	$2, %al
	jne	.LBBea434_25
	leaq	657(%r15), %rdx
	movq	192(%rsp), %rax
	movq	%rax, 272(%rsp)
	movaps	144(%rsp), %xmm0
	movaps	160(%rsp), %xmm1
	movaps	176(%rsp), %xmm2
	movaps	%xmm2, 256(%rsp)
	movaps	%xmm1, 240(%rsp)
	movaps	%xmm0, 224(%rsp)
	movq	%rbp, %rax
	cmpq	$22, %rbp
	movl	$22, %ebp
	cmovbq	%rax, %rbp
	movl	224(%rsp), %eax
	movb	$25, %r13b
	cmpl	(%rdx), %eax
	jne	.LBBea434_23
	movzbl	1(%r12), %eax
	movb	%al, 27(%rsp)
	leaq	224(%rsp), %rdi
	movl	$16, %esi
	movq	%rdx, 112(%rsp)
	callq	"core::cmp::slices::groups_equal::<i8,31'core::cmp::numbers::U8PartialEq{}>"
	testb	%al, %al
	je	.LBBea434_23
	cmpl	$0, 256(%rsp)
	je	.LBBea434_30
	movb	$27, %r13b
	jmp	.LBBea434_23
.LBBea434_25:
	movb	$22, %r13b
.LBBea434_23:
	xorl	%eax, %eax
	xorl	%ecx, %ecx
	testb	%al, %al
	jne	.LBBea434_42
	jmp	.LBBea434_41
.LBBea434_8:
	movl	(%rdi), %eax
	cmpl	(%rdx), %eax
	jne	.LBBea434_20
	movq	%r13, %rsi
	movq	%rdx, 112(%rsp)
	callq	"core::cmp::slices::groups_equal::<i8,31'core::cmp::numbers::U8PartialEq{}>"
	movq	112(%rsp), %rdx
	movq	%r12, %rcx
	testb	%al, %al
	je	.LBBea434_20
.LBBea434_10:
	leaq	148(%rsp), %rax
	movups	(%rax), %xmm0
	movups	%xmm0, 344(%rsp)
	movaps	%xmm0, 288(%rsp)
	movq	%rdx, 304(%rsp)
	movq	%r13, 312(%rsp)
	leaq	552(%rcx), %rsi
	leaq	624(%rcx), %r12
	leaq	360(%rsp), %rdi
	movq	%rcx, %r13
	movq	%r12, %rdx
	callq	"psk_ends::peer::login::Keys::of"
	movzbl	1(%r15), %eax
	movq	%r14, 16(%rsp)
	movq	%rbp, 8(%rsp)
	movl	%eax, (%rsp)
	leaq	28(%rsp), %rdi
	leaq	288(%rsp), %r8
	movq	%r13, %rsi
	movq	%r12, %rdx
	movq	120(%rsp), %rcx
	leaq	360(%rsp), %r9
	callq	"psk_ends::peer::turns::log_in::<#becd8de5e2060522>"
	movzbl	28(%rsp), %eax
	movzbl	29(%rsp), %r13d
	movzbl	30(%rsp), %ecx
	testb	%al, %al
	jne	.LBBea434_42
	jmp	.LBBea434_41
.LBBea434_30:
	leaq	624(%r15), %rdi
	leaq	673(%r15), %rsi
	leaq	264(%r15), %rdx
	movq	520(%r15), %rcx
	movups	(%rdi), %xmm0
	movaps	%xmm0, 320(%rsp)
	xorps	%xmm0, %xmm0
	movaps	%xmm0, 32(%rsp)
	leaq	320(%rsp), %rax
	movq	%rax, 128(%rsp)
	movq	$16, 136(%rsp)
	leaq	32(%rsp), %r13
	leaq	128(%rsp), %r8
	movl	$1, %r9d
	movq	%r13, %rdi
	callq	"cmac_mac::key::CmacKey::tag"
	leaq	240(%rsp), %rdx
	movl	$16, %esi
	movl	$16, %ecx
	movq	%r13, %rdi
	callq	"octet_lists::comparison::equal_in_full"
	movb	$28, %r13b
	testb	%al, %al
	je	.LBBea434_23
	leaq	256(%rsp), %rcx
	leaq	1025(%r15), %rdi
	movq	%r12, %rsi
	movq	%rbp, %rdx
	callq	"psk_ends::channel::open"
	testb	%al, %al
	je	.LBBea434_23
	movl	%edx, %eax
	shrb	$6, %al
	je	.LBBea434_33
	movl	%edx, %ecx
	andb	$32, %cl
	shrb	$5, %cl
	cmpb	$1, %al
	sete	%al
	orb	%cl, %al
	je	.LBBea434_36
	movb	$30, %r13b
	jmp	.LBBea434_23
.LBBea434_14:
	xorl	%eax, %eax
.LBBea434_19:
	cmpq	%r13, %rax
	jae	.LBBea434_10
.LBBea434_20:
	movb	$23, %r13b
.LBBea434_41:
	xorps	%xmm0, %xmm0
	movups	%xmm0, (%r14)
	xorl	%eax, %eax
	xorl	%ecx, %ecx
.LBBea434_42:
	movb	%al, (%rbx)
	movb	%r13b, 1(%rbx)
	movb	%cl, 2(%rbx)
	addq	$920, %rsp
	.cfi_def_cfa_offset 56
	popq	%rbx
	.cfi_def_cfa_offset 48
	popq	%r12
	.cfi_def_cfa_offset 40
	popq	%r13
	.cfi_def_cfa_offset 32
	popq	%r14
	.cfi_def_cfa_offset 24
	popq	%r15
	.cfi_def_cfa_offset 16
	popq	%rbp
	.cfi_def_cfa_offset 8
	retq
.LBBea434_33:
	.cfi_def_cfa_offset 976
	movb	$29, %r13b
	jmp	.LBBea434_23
.LBBea434_36:
	leaq	8(%r14), %r12
	movq	$0, 8(%r14)
	movq	$2, (%r14)
	xorps	%xmm0, %xmm0
	cmpb	$-65, %dl
	jg	.LBBea434_38
	movups	%xmm0, 88(%rsp)
	movups	%xmm0, 72(%rsp)
	movq	112(%rsp), %rax
	movups	(%rax), %xmm1
	movups	%xmm1, 36(%rsp)
	movups	%xmm0, 56(%rsp)
	movl	$3, 32(%rsp)
	movl	$1, 52(%rsp)
	movzbl	27(%rsp), %ecx
	leaq	32(%rsp), %rsi
	movq	120(%rsp), %r13
	movq	%r13, %rdi
	movl	$1, %edx
	callq	"psk_messages::writing::write_psk_into"
	movq	%r13, %rdi
	leaq	1025(%r15), %rsi
	movl	$1, %edx
	movl	$2, %ecx
	movq	%r12, %r8
	callq	"psk_ends::channel::seal_in::<#becd8de5e2060522>"
	movb	$2, %cl
	movb	$4, %r13b
	movb	$1, %al
	jmp	.LBBea434_39
.LBBea434_38:
	movups	%xmm0, 88(%rsp)
	movups	%xmm0, 72(%rsp)
	movq	112(%rsp), %rax
	movups	(%rax), %xmm1
	movups	%xmm1, 36(%rsp)
	movups	%xmm0, 56(%rsp)
	movl	$3, 32(%rsp)
	movl	$1, 52(%rsp)
	movzbl	27(%rsp), %ecx
	leaq	32(%rsp), %rsi
	movq	120(%rsp), %r13
	movq	%r13, %rdi
	movl	$1, %edx
	callq	"psk_messages::writing::write_psk_into"
	movq	%r13, %rdi
	leaq	1025(%r15), %rsi
	movl	$1, %edx
	movl	$3, %ecx
	movq	%r12, %r8
	callq	"psk_ends::channel::seal_in::<#becd8de5e2060522>"
	movb	$3, %r13b
	xorl	%eax, %eax
	xorl	%ecx, %ecx
.LBBea434_39:
	movb	$1, 1233(%r15)
	movb	%al, 1234(%r15)
	movb	$1, %al
	testb	%al, %al
	jne	.LBBea434_42
	jmp	.LBBea434_41
.Lfunc_endea434:
	.size	"psk_ends::peer::PskPeer::handle_step::<#becd8de5e2060522>", .Lfunc_endea434-"psk_ends::peer::PskPeer::handle_step::<#becd8de5e2060522>"
	.cfi_endproc

	.section	".text.psk_messages::reading::read_psk_message","ax",@progbits
	.p2align	4
	.type	"psk_messages::reading::read_psk_message",@function
"psk_messages::reading::read_psk_message":
	.cfi_startproc
	pushq	%rbp
	.cfi_def_cfa_offset 16
	pushq	%r15
	.cfi_def_cfa_offset 24
	pushq	%r14
	.cfi_def_cfa_offset 32
	pushq	%rbx
	.cfi_def_cfa_offset 40
	.cfi_offset %rbx, -40
	.cfi_offset %r14, -32
	.cfi_offset %r15, -24
	.cfi_offset %rbp, -16
	movq	$0, -64(%rsp)
	movl	$0, -56(%rsp)
	movq	$0, -48(%rsp)
	movq	$0, -41(%rsp)
	movb	$1, %bpl
	movb	$21, %bl
	testq	%rdx, %rdx
	je	.LBBb48b4_1
	leaq	-1(%rdx), %rcx
	movzbl	(%rsi), %eax
	shrl	$6, %eax
	leaq	.LJTIb48b4_0(%rip), %r8
	movslq	(%r8,%rax,4), %r9
	addq	%r8, %r9
	jmpq	*%r9
.LBBb48b4_9:
	leaq	-17(%rdx), %rcx
	cmpq	$253, %rcx
	ja	.LBBb48b4_1
	leaq	17(%rsi), %r8
	movl	9(%rsi), %ecx
	movl	%ecx, -88(%rsp)
	movq	1(%rsi), %rcx
	movq	%rcx, -96(%rsp)
	movl	13(%rsi), %r9d
	addl	$-17, %edx
	movq	$0, -73(%rsp)
	movq	$0, -80(%rsp)
	xorl	%ecx, %ecx
	movl	%edx, %ebx
	xorl	%r14d, %r14d
	xorl	%r10d, %r10d
	jmp	.LBBb48b4_11
.LBBb48b4_5:
	cmpq	$53, %rcx
	jne	.LBBb48b4_1
	movl	1(%rsi), %ecx
	movl	13(%rsi), %edx
	movl	%edx, -88(%rsp)
	movq	5(%rsi), %rdx
	movq	%rdx, -96(%rsp)
	movzbl	37(%rsi), %r10d
	movq	45(%rsi), %rdx
	movq	%rdx, -73(%rsp)
	movq	38(%rsi), %rdx
	movq	%rdx, -80(%rsp)
	movl	33(%rsi), %r14d
	bswapl	%r14d
	movzbl	53(%rsi), %r11d
	movl	17(%rsi), %r9d
	movq	21(%rsi), %r8
	movl	29(%rsi), %ebx
	jmp	.LBBb48b4_12
.LBBb48b4_7:
	cmpq	$37, %rcx
	jne	.LBBb48b4_1
	movl	1(%rsi), %ecx
	movl	13(%rsi), %edx
	movl	%edx, -88(%rsp)
	movq	5(%rsi), %rdx
	movq	%rdx, -96(%rsp)
	movq	21(%rsi), %r8
	movq	29(%rsi), %rbx
	movl	17(%rsi), %r9d
	bswapl	%r9d
	movzbl	37(%rsi), %r10d
	movq	%rbx, %r14
	shrq	$32, %r14
	movq	$0, -73(%rsp)
	movq	$0, -80(%rsp)
.LBBb48b4_11:
	xorl	%r11d, %r11d
.LBBb48b4_12:
	xorl	%edx, %edx
	jmp	.LBBb48b4_13
.LBBb48b4_3:
	addq	$-49, %rdx
	cmpq	$254, %rdx
	jae	.LBBb48b4_1
	movl	9(%rsi), %ecx
	movl	%ecx, -88(%rsp)
	movq	1(%rsi), %rcx
	movq	%rcx, -96(%rsp)
	movl	13(%rsi), %r9d
	movq	17(%rsi), %r8
	movq	25(%rsi), %rbx
	leaq	49(%rsi), %r11
	movzbl	33(%rsi), %r10d
	movq	41(%rsi), %rcx
	movq	%rcx, -73(%rsp)
	movq	34(%rsi), %rcx
	movq	%rcx, -80(%rsp)
	movq	%rbx, %r14
	shrq	$32, %r14
	xorl	%ecx, %ecx
.LBBb48b4_13:
	shlq	$32, %r14
	movl	%ebx, %esi
	orq	%r14, %rsi
	movl	-88(%rsp), %ebx
	movl	%ebx, -56(%rsp)
	movq	-96(%rsp), %rbx
	movq	%rbx, -64(%rsp)
	movq	-80(%rsp), %rbx
	movq	-73(%rsp), %r14
	movq	%rbx, -48(%rsp)
	movq	%r14, -41(%rsp)
	xorl	%ebx, %ebx
	xorl	%ebp, %ebp
	jmp	.LBBb48b4_14
.LBBb48b4_1:
	xorl	%ecx, %ecx
	xorl	%r9d, %r9d
	xorl	%r8d, %r8d
	xorl	%esi, %esi
	xorl	%r10d, %r10d
	xorl	%r11d, %r11d
	xorl	%edx, %edx
	xorl	%eax, %eax
.LBBb48b4_14:
	movl	-56(%rsp), %r14d
	movl	%r14d, -24(%rsp)
	movq	-64(%rsp), %r14
	movq	%r14, -32(%rsp)
	movq	-48(%rsp), %r14
	movq	-41(%rsp), %r15
	movq	%r14, -16(%rsp)
	movq	%r15, -9(%rsp)
	movb	%bpl, (%rdi)
	movb	%bl, 1(%rdi)
	movl	%eax, 8(%rdi)
	movl	%ecx, 12(%rdi)
	movq	-32(%rsp), %rax
	movq	%rax, 16(%rdi)
	movl	-24(%rsp), %eax
	movl	%eax, 24(%rdi)
	movl	%r9d, 28(%rdi)
	movq	%r8, 32(%rdi)
	movq	%rsi, 40(%rdi)
	movb	%r10b, 48(%rdi)
	movq	-16(%rsp), %rax
	movq	-9(%rsp), %rcx
	movq	%rax, 49(%rdi)
	movq	%rcx, 56(%rdi)
	movq	%r11, 64(%rdi)
	movq	%rdx, 72(%rdi)
	popq	%rbx
	.cfi_def_cfa_offset 32
	popq	%r14
	.cfi_def_cfa_offset 24
	popq	%r15
	.cfi_def_cfa_offset 16
	popq	%rbp
	.cfi_def_cfa_offset 8
	retq
.Lfunc_endb48b4:
	.size	"psk_messages::reading::read_psk_message", .Lfunc_endb48b4-"psk_messages::reading::read_psk_message"
	.cfi_endproc
	.section	".rodata.psk_messages::reading::read_psk_message","a",@progbits
	.p2align	2, 0x0
.LJTIb48b4_0:
	.long	.LBBb48b4_9-.LJTIb48b4_0
	.long	.LBBb48b4_3-.LJTIb48b4_0
	.long	.LBBb48b4_5-.LJTIb48b4_0
	.long	.LBBb48b4_7-.LJTIb48b4_0

	.section	".text.psk_ends::peer::login::Keys::of","ax",@progbits
	.p2align	4
	.type	"psk_ends::peer::login::Keys::of",@function
"psk_ends::peer::login::Keys::of":
	.cfi_startproc
	pushq	%r15
	.cfi_def_cfa_offset 16
	pushq	%r14
	.cfi_def_cfa_offset 24
	pushq	%r13
	.cfi_def_cfa_offset 32
	pushq	%r12
	.cfi_def_cfa_offset 40
	pushq	%rbx
	.cfi_def_cfa_offset 48
	subq	$1152, %rsp
	.cfi_def_cfa_offset 1200
	.cfi_offset %rbx, -48
	.cfi_offset %r12, -40
	.cfi_offset %r13, -32
	.cfi_offset %r14, -24
	.cfi_offset %r15, -16
	movq	%rdx, %r15
	movq	%rdi, %rbx
	movq	%rsp, %r12
	movq	%r12, %rdi
	callq	"psk_ends::keys::long_keys"
	leaq	16(%rsp), %rsi
	leaq	32(%rsp), %r14
	movq	%r14, %rdi
	movq	%r15, %rdx
	callq	"login_keys::psk::psk_session"
	leaq	944(%rsp), %r13
	movq	%r13, %rdi
	movq	%r12, %rsi
	callq	"cmac_mac::key::CmacKey::new"
	leaq	736(%rsp), %r12
	movq	%r12, %rdi
	movq	%r14, %rsi
	callq	"cmac_mac::key::CmacKey::new"
	leaq	176(%rsp), %r15
	movl	$208, %edx
	movq	%r15, %rdi
	movq	%r13, %rsi
	callq	memcpy@PLT
	leaq	384(%rsp), %rdi
	movl	$144, %edx
	movq	%r14, %rsi
	callq	memcpy@PLT
	leaq	528(%rsp), %rdi
	movl	$208, %edx
	movq	%r12, %rsi
	callq	memcpy@PLT
	movl	$560, %edx
	movq	%rbx, %rdi
	movq	%r15, %rsi
	callq	memcpy@PLT
	addq	$1152, %rsp
	.cfi_def_cfa_offset 48
	popq	%rbx
	.cfi_def_cfa_offset 40
	popq	%r12
	.cfi_def_cfa_offset 32
	popq	%r13
	.cfi_def_cfa_offset 24
	popq	%r14
	.cfi_def_cfa_offset 16
	popq	%r15
	.cfi_def_cfa_offset 8
	retq
.Lfunc_enda884f:
	.size	"psk_ends::peer::login::Keys::of", .Lfunc_enda884f-"psk_ends::peer::login::Keys::of"
	.cfi_endproc

	.section	.rodata.cst16,"aM",@progbits,16
	.p2align	4, 0x0
.LCPI7bd40_0:
	.zero	1
	.zero	1
	.byte	2,1
	.zero	1
	.zero	1
	.zero	1
	.zero	1
	.zero	1
	.zero	1
	.zero	1
	.zero	1
	.zero	1
	.zero	1
	.zero	1
	.zero	1
.LCPI7bd40_1:
	.byte	255,255,255,0,0,0,0
	.zero	1
	.zero	1
	.zero	1
	.zero	1
	.zero	1
	.zero	1
	.zero	1
	.zero	1
	.byte	0
.LCPI7bd40_2:
	.byte	128,128,128,0,1,2,3
	.zero	1
	.zero	1
	.zero	1
	.zero	1
	.zero	1
	.zero	1
	.zero	1
	.zero	1
	.byte	128
.LCPI7bd40_3:
	.byte	128,128,128,128,128,128,128,0,1,2,3,4,5,6,7,128
.LCPI7bd40_4:
	.byte	0,1,2,3,4,5,6,128,128,128,128,128,128,128,128,15
	.section	".text.psk_ends::keys::long_keys","ax",@progbits
	.p2align	4
	.type	"psk_ends::keys::long_keys",@function
"psk_ends::keys::long_keys":
	.cfi_startproc
	pushq	%r15
	.cfi_def_cfa_offset 16
	pushq	%r14
	.cfi_def_cfa_offset 24
	pushq	%rbx
	.cfi_def_cfa_offset 32
	subq	$224, %rsp
	.cfi_def_cfa_offset 256
	.cfi_offset %rbx, -32
	.cfi_offset %r14, -24
	.cfi_offset %r15, -16
	movq	%rdi, %rbx
	movq	64(%rsi), %rdx
	xorps	%xmm0, %xmm0
	movaps	%xmm0, 32(%rsp)
	leaq	32(%rsp), %r15
	movq	%r15, %rdi
	callq	memcpy@PLT
	xorps	%xmm0, %xmm0
	movaps	%xmm0, 208(%rsp)
	movaps	%xmm0, 192(%rsp)
	movaps	%xmm0, 176(%rsp)
	movaps	%xmm0, 160(%rsp)
	movaps	%xmm0, 144(%rsp)
	movaps	%xmm0, 128(%rsp)
	movaps	%xmm0, 112(%rsp)
	movaps	%xmm0, 96(%rsp)
	movaps	%xmm0, 80(%rsp)
	movaps	%xmm0, 64(%rsp)
	movaps	%xmm0, 48(%rsp)
	leaq	48(%rsp), %r14
	movq	%r14, %rdi
	movq	%r15, %rsi
	callq	"aes_block::Aes128::new"
	movq	%rsp, %rdi
	xorps	%xmm0, %xmm0
	movq	%r14, %rsi
	callq	"aes_block::Aes128::encrypt_block"
	movq	(%rsp), %rax
	movq	8(%rsp), %r15
	bswapq	%r15
	bswapq	%rax
	movq	%rax, %rcx
	shrq	$48, %rcx
	movd	%ecx, %xmm1
	movq	%rax, %rcx
	shrq	$56, %rcx
	movd	%ecx, %xmm0
	punpcklbw	%xmm1, %xmm0
	movq	%rax, %rcx
	shrq	$40, %rcx
	movq	%rax, %xmm1
	movdqa	%xmm1, %xmm2
	psrlq	$24, %xmm2
	movq	%rax, %rdx
	shrq	$32, %rdx
	movd	%edx, %xmm3
	movdqa	%xmm1, %xmm5
	pshufb	.LCPI7bd40_0(%rip), %xmm5
	punpcklbw	%xmm2, %xmm3
	pblendw	$253, %xmm3, %xmm5
	movl	%r15d, %edx
	xorb	$1, %dl
	movq	%rax, %rsi
	shldq	$56, %r15, %rsi
	movq	%rsi, %xmm2
	movq	%rax, %rsi
	shldq	$48, %r15, %rsi
	movq	%rsi, %xmm3
	punpcklbw	%xmm2, %xmm3
	movq	%rax, %rsi
	shldq	$40, %r15, %rsi
	movq	%rsi, %xmm2
	movq	%rax, %rsi
	shldq	$32, %r15, %rsi
	psllq	$48, %xmm3
	movq	%rsi, %xmm4
	punpcklbw	%xmm2, %xmm4
	pshufd	$80, %xmm4, %xmm2
	pblendw	$8, %xmm3, %xmm2
	movq	%rax, %rsi
	shldq	$24, %r15, %rsi
	movq	%rsi, %xmm3
	movq	%rax, %rsi
	shldq	$16, %r15, %rsi
	movq	%rsi, %xmm4
	punpcklbw	%xmm3, %xmm4
	shldq	$8, %r15, %rax
	movq	%rax, %xmm3
	punpcklbw	%xmm3, %xmm1
	punpcklwd	%xmm4, %xmm1
	pblendw	$12, %xmm2, %xmm1
	pinsrb	$2, %ecx, %xmm0
	pand	.LCPI7bd40_1(%rip), %xmm0
	pshufb	.LCPI7bd40_2(%rip), %xmm5
	pshufb	.LCPI7bd40_3(%rip), %xmm1
	por	%xmm0, %xmm5
	pshufb	.LCPI7bd40_4(%rip), %xmm5
	por	%xmm1, %xmm5
	movdqa	%xmm5, 16(%rsp)
	movzbl	%dl, %eax
	movdqa	%xmm5, %xmm0
	pinsrb	$15, %eax, %xmm0
	movq	%rsp, %rdi
	movq	%r14, %rsi
	callq	"aes_block::Aes128::encrypt_block"
	xorb	$2, %r15b
	movzbl	%r15b, %eax
	movdqa	16(%rsp), %xmm0
	pinsrb	$15, %eax, %xmm0
	movaps	(%rsp), %xmm1
	movaps	%xmm1, 16(%rsp)
	movq	%rsp, %rdi
	movq	%r14, %rsi
	callq	"aes_block::Aes128::encrypt_block"
	movaps	(%rsp), %xmm0
	movaps	16(%rsp), %xmm1
	movups	%xmm1, (%rbx)
	movups	%xmm0, 16(%rbx)
	addq	$224, %rsp
	.cfi_def_cfa_offset 32
	popq	%rbx
	.cfi_def_cfa_offset 24
	popq	%r14
	.cfi_def_cfa_offset 16
	popq	%r15
	.cfi_def_cfa_offset 8
	retq
.Lfunc_end7bd40:
	.size	"psk_ends::keys::long_keys", .Lfunc_end7bd40-"psk_ends::keys::long_keys"
	.cfi_endproc

	.section	.rodata.cst16,"aM",@progbits,16
	.p2align	4, 0x0
.LCPI06db0_0:
	.byte	13,14,15,12,13,14,15,12,13,14,15,12,13,14,15,12
.LCPI06db0_1:
	.zero	16,15
.LCPI06db0_2:
	.byte	0,112,42,90,152,232,178,194,8,120,34,82,144,224,186,202
.LCPI06db0_3:
	.byte	0,77,124,49,125,48,1,76,129,204,253,176,252,177,128,205
.LCPI06db0_4:
	.byte	128,7,11,15,6,10,4,1,9,8,5,2,12,14,13,3
.LCPI06db0_5:
	.byte	128,1,8,13,15,6,5,14,2,12,11,10,9,3,7,4
.LCPI06db0_6:
	.byte	0,199,189,111,23,109,210,208,120,168,2,197,122,191,170,21
.LCPI06db0_7:
	.byte	0,106,187,95,165,116,228,207,250,53,43,65,209,144,30,142
.LCPI06db0_8:
	.byte	0,128,128,128,0,128,128,128,0,128,128,128,0,128,128,128
.LCPI06db0_9:
	.zero	16,99
.LCPI06db0_10:
	.byte	54,0,0,0,54,0,0,0,54,0,0,0,54,0,0,0
	.section	".text.aes_block::Aes128::new","ax",@progbits
	.p2align	4
	.type	"aes_block::Aes128::new",@function
"aes_block::Aes128::new":
	.cfi_startproc
	pushq	%r15
	.cfi_def_cfa_offset 16
	pushq	%r14
	.cfi_def_cfa_offset 24
	pushq	%rbx
	.cfi_def_cfa_offset 32
	subq	$464, %rsp
	.cfi_def_cfa_offset 496
	.cfi_offset %rbx, -32
	.cfi_offset %r14, -24
	.cfi_offset %r15, -16
	movq	%rdi, %rbx
	xorps	%xmm0, %xmm0
	movaps	%xmm0, 304(%rsp)
	movaps	%xmm0, 288(%rsp)
	movaps	%xmm0, 272(%rsp)
	movaps	%xmm0, 256(%rsp)
	movaps	%xmm0, 240(%rsp)
	movaps	%xmm0, 224(%rsp)
	movaps	%xmm0, 208(%rsp)
	movaps	%xmm0, 192(%rsp)
	movaps	%xmm0, 176(%rsp)
	movdqu	(%rsi), %xmm0
	movdqa	%xmm0, 32(%rsp)
	movdqa	%xmm0, 48(%rsp)
	movdqa	%xmm0, 64(%rsp)
	movdqa	%xmm0, 80(%rsp)
	movdqa	%xmm0, 96(%rsp)
	movdqa	%xmm0, 112(%rsp)
	movdqa	%xmm0, 128(%rsp)
	movdqa	%xmm0, 144(%rsp)
	movdqa	%xmm0, 160(%rsp)
	leaq	32(%rsp), %rax
	xorl	%ecx, %ecx
	movdqa	%xmm0, 16(%rsp)
	.p2align	4
.LBB06db0_1:
	movdqa	%xmm0, %xmm1
	pslldq	$4, %xmm1
	pxor	%xmm0, %xmm1
	leaq	.Lstatic.11(%rip), %rdx
	movzbl	(%rcx,%rdx), %edx
	movd	%edx, %xmm7
	pshufb	.LCPI06db0_8(%rip), %xmm7
	pxor	%xmm1, %xmm7
	movdqa	%xmm1, %xmm8
	pslldq	$8, %xmm8
	pshufb	.LCPI06db0_0(%rip), %xmm0
	movdqa	.LCPI06db0_1(%rip), %xmm3
	movdqa	%xmm0, %xmm1
	pand	%xmm3, %xmm1
	movdqa	.LCPI06db0_2(%rip), %xmm6
	movdqa	%xmm6, %xmm2
	pshufb	%xmm1, %xmm2
	psrlw	$4, %xmm0
	pand	%xmm3, %xmm0
	movdqa	.LCPI06db0_3(%rip), %xmm1
	movdqa	%xmm1, %xmm5
	pshufb	%xmm0, %xmm5
	pxor	%xmm2, %xmm5
	movdqa	%xmm5, %xmm0
	pand	%xmm3, %xmm0
	psrlw	$4, %xmm5
	pand	%xmm3, %xmm5
	movdqa	.LCPI06db0_4(%rip), %xmm4
	movdqa	%xmm4, %xmm9
	pshufb	%xmm0, %xmm9
	pxor	%xmm5, %xmm0
	movdqa	.LCPI06db0_5(%rip), %xmm2
	movdqa	%xmm2, %xmm10
	pshufb	%xmm5, %xmm10
	pxor	%xmm9, %xmm10
	movdqa	%xmm2, %xmm11
	pshufb	%xmm0, %xmm11
	pxor	%xmm9, %xmm11
	movdqa	%xmm2, %xmm9
	pshufb	%xmm10, %xmm9
	pxor	%xmm0, %xmm9
	movdqa	%xmm2, %xmm0
	pshufb	%xmm11, %xmm0
	pxor	%xmm5, %xmm0
	movdqa	.LCPI06db0_6(%rip), %xmm5
	movdqa	%xmm5, %xmm10
	pshufb	%xmm9, %xmm10
	pxor	%xmm8, %xmm10
	movdqa	.LCPI06db0_7(%rip), %xmm11
	movdqa	%xmm11, %xmm8
	pshufb	%xmm0, %xmm8
	pxor	%xmm10, %xmm8
	pxor	%xmm8, %xmm7
	movdqa	.LCPI06db0_9(%rip), %xmm0
	pxor	%xmm7, %xmm0
	movdqa	%xmm7, %xmm8
	pand	%xmm3, %xmm8
	movdqa	%xmm6, %xmm9
	pshufb	%xmm8, %xmm9
	psrlw	$4, %xmm7
	pand	%xmm3, %xmm7
	movdqa	%xmm1, %xmm8
	pshufb	%xmm7, %xmm8
	pxor	%xmm9, %xmm8
	movdqa	%xmm8, (%rax)
	incq	%rcx
	addq	$16, %rax
	cmpq	$9, %rcx
	jne	.LBB06db0_1
	movdqa	%xmm0, %xmm7
	pslldq	$4, %xmm7
	pxor	%xmm0, %xmm7
	movdqa	%xmm7, %xmm8
	pshufb	.LCPI06db0_0(%rip), %xmm0
	pslldq	$8, %xmm8
	movdqa	%xmm0, %xmm9
	pand	%xmm3, %xmm9
	pshufb	%xmm9, %xmm6
	psrlw	$4, %xmm0
	pand	%xmm3, %xmm0
	pshufb	%xmm0, %xmm1
	pxor	%xmm6, %xmm1
	movdqa	%xmm1, %xmm0
	pand	%xmm3, %xmm0
	psrlw	$4, %xmm1
	pand	%xmm3, %xmm1
	pshufb	%xmm0, %xmm4
	pxor	%xmm1, %xmm0
	movdqa	%xmm2, %xmm3
	pshufb	%xmm1, %xmm3
	pxor	%xmm4, %xmm3
	movdqa	%xmm2, %xmm6
	pshufb	%xmm0, %xmm6
	pxor	%xmm4, %xmm6
	movdqa	%xmm2, %xmm4
	pshufb	%xmm3, %xmm4
	pxor	%xmm0, %xmm4
	pshufb	%xmm6, %xmm2
	pxor	%xmm1, %xmm2
	pshufb	%xmm4, %xmm5
	pxor	%xmm8, %xmm5
	pshufb	%xmm2, %xmm11
	pxor	%xmm5, %xmm11
	pxor	%xmm7, %xmm11
	pxor	.LCPI06db0_10(%rip), %xmm11
	movdqa	%xmm11, (%rsp)
	leaq	320(%rsp), %r14
	leaq	32(%rsp), %rsi
	movl	$144, %edx
	movq	%r14, %rdi
	callq	memcpy@PLT
	leaq	176(%rsp), %r15
	movl	$144, %edx
	movq	%r15, %rdi
	movq	%r14, %rsi
	callq	memcpy@PLT
	movaps	16(%rsp), %xmm0
	movups	%xmm0, (%rbx)
	leaq	16(%rbx), %rdi
	movl	$144, %edx
	movq	%r15, %rsi
	callq	memcpy@PLT
	movaps	(%rsp), %xmm0
	movups	%xmm0, 160(%rbx)
	addq	$464, %rsp
	.cfi_def_cfa_offset 32
	popq	%rbx
	.cfi_def_cfa_offset 24
	popq	%r14
	.cfi_def_cfa_offset 16
	popq	%r15
	.cfi_def_cfa_offset 8
	retq
.Lfunc_end06db0:
	.size	"aes_block::Aes128::new", .Lfunc_end06db0-"aes_block::Aes128::new"
	.cfi_endproc

	.section	.rodata.cst16,"aM",@progbits,16
	.p2align	4, 0x0
.LCPI13069_0:
	.zero	16,15
.LCPI13069_1:
	.byte	0,112,42,90,152,232,178,194,8,120,34,82,144,224,186,202
.LCPI13069_2:
	.byte	0,77,124,49,125,48,1,76,129,204,253,176,252,177,128,205
.LCPI13069_3:
	.byte	0,5,10,15,4,9,14,3,8,13,2,7,12,1,6,11
.LCPI13069_4:
	.byte	128,7,11,15,6,10,4,1,9,8,5,2,12,14,13,3
.LCPI13069_5:
	.byte	128,1,8,13,15,6,5,14,2,12,11,10,9,3,7,4
.LCPI13069_6:
	.byte	0,62,80,203,143,225,155,177,68,245,42,20,110,122,223,165
.LCPI13069_7:
	.byte	0,35,226,250,21,212,24,54,239,217,46,13,193,204,247,59
.LCPI13069_8:
	.byte	0,36,113,11,198,147,122,226,205,47,152,188,85,233,183,94
.LCPI13069_9:
	.byte	0,41,225,10,64,136,235,105,74,35,130,171,200,99,161,194
.LCPI13069_10:
	.byte	1,2,3,0,5,6,7,4,9,10,11,8,13,14,15,12
.LCPI13069_11:
	.byte	3,0,1,2,7,4,5,6,11,8,9,10,15,12,13,14
.LCPI13069_12:
	.byte	0,199,189,111,23,109,210,208,120,168,2,197,122,191,170,21
.LCPI13069_13:
	.byte	0,106,187,95,165,116,228,207,250,53,43,65,209,144,30,142
	.section	".text.aes_block::Aes128::encrypt_block","ax",@progbits
	.p2align	4
	.type	"aes_block::Aes128::encrypt_block",@function
"aes_block::Aes128::encrypt_block":
	.cfi_startproc
	movdqu	(%rsi), %xmm1
	movdqu	16(%rsi), %xmm10
	pxor	%xmm0, %xmm1
	movdqa	.LCPI13069_0(%rip), %xmm0
	movdqa	%xmm1, %xmm2
	pand	%xmm0, %xmm2
	movdqa	.LCPI13069_1(%rip), %xmm5
	pshufb	%xmm2, %xmm5
	psrlw	$4, %xmm1
	pand	%xmm0, %xmm1
	movdqa	.LCPI13069_2(%rip), %xmm4
	pshufb	%xmm1, %xmm4
	movdqa	.LCPI13069_3(%rip), %xmm3
	pshufb	%xmm3, %xmm5
	pshufb	%xmm3, %xmm4
	pxor	%xmm5, %xmm4
	movdqa	%xmm4, %xmm5
	pand	%xmm0, %xmm5
	psrlw	$4, %xmm4
	pand	%xmm0, %xmm4
	movdqa	.LCPI13069_4(%rip), %xmm2
	movdqa	%xmm2, %xmm6
	pshufb	%xmm5, %xmm6
	pxor	%xmm4, %xmm5
	movdqa	.LCPI13069_5(%rip), %xmm1
	movdqa	%xmm1, %xmm7
	pshufb	%xmm4, %xmm7
	pxor	%xmm6, %xmm7
	movdqa	%xmm1, %xmm8
	pshufb	%xmm5, %xmm8
	pxor	%xmm6, %xmm8
	movdqa	%xmm1, %xmm9
	pshufb	%xmm7, %xmm9
	pxor	%xmm5, %xmm9
	movdqa	%xmm1, %xmm5
	pshufb	%xmm8, %xmm5
	pxor	%xmm4, %xmm5
	movdqa	.LCPI13069_6(%rip), %xmm6
	movdqa	%xmm6, %xmm7
	pshufb	%xmm9, %xmm7
	movdqa	.LCPI13069_7(%rip), %xmm4
	movdqa	%xmm4, %xmm12
	pshufb	%xmm5, %xmm12
	pxor	%xmm7, %xmm12
	movdqa	.LCPI13069_8(%rip), %xmm8
	movdqa	%xmm8, %xmm11
	pshufb	%xmm9, %xmm11
	movdqa	.LCPI13069_9(%rip), %xmm7
	movdqa	%xmm7, %xmm9
	pshufb	%xmm5, %xmm9
	pxor	%xmm11, %xmm9
	movdqa	.LCPI13069_10(%rip), %xmm5
	movdqa	%xmm12, %xmm11
	pshufb	%xmm5, %xmm11
	pxor	%xmm9, %xmm11
	movdqa	.LCPI13069_11(%rip), %xmm9
	pshufb	%xmm9, %xmm12
	pxor	%xmm10, %xmm12
	pxor	%xmm11, %xmm12
	pshufb	%xmm5, %xmm11
	pxor	%xmm12, %xmm11
	pshufb	%xmm3, %xmm11
	movdqa	%xmm11, %xmm10
	pand	%xmm0, %xmm10
	psrlw	$4, %xmm11
	pand	%xmm0, %xmm11
	movdqa	%xmm2, %xmm12
	pshufb	%xmm10, %xmm12
	pxor	%xmm11, %xmm10
	movdqa	%xmm1, %xmm13
	pshufb	%xmm11, %xmm13
	pxor	%xmm12, %xmm13
	movdqa	%xmm1, %xmm14
	pshufb	%xmm10, %xmm14
	pxor	%xmm12, %xmm14
	movdqa	%xmm1, %xmm12
	pshufb	%xmm13, %xmm12
	movdqu	32(%rsi), %xmm13
	pxor	%xmm10, %xmm12
	movdqa	%xmm1, %xmm10
	pshufb	%xmm14, %xmm10
	pxor	%xmm11, %xmm10
	movdqa	%xmm6, %xmm11
	pshufb	%xmm12, %xmm11
	movdqa	%xmm4, %xmm14
	pshufb	%xmm10, %xmm14
	pxor	%xmm11, %xmm14
	movdqa	%xmm8, %xmm11
	pshufb	%xmm12, %xmm11
	movdqa	%xmm7, %xmm12
	pshufb	%xmm10, %xmm12
	pxor	%xmm11, %xmm12
	movdqa	%xmm14, %xmm10
	pshufb	%xmm5, %xmm10
	pxor	%xmm12, %xmm10
	pshufb	%xmm9, %xmm14
	pxor	%xmm13, %xmm14
	pxor	%xmm10, %xmm14
	pshufb	%xmm5, %xmm10
	pxor	%xmm14, %xmm10
	pshufb	%xmm3, %xmm10
	movdqa	%xmm10, %xmm11
	pand	%xmm0, %xmm11
	psrlw	$4, %xmm10
	pand	%xmm0, %xmm10
	movdqa	%xmm2, %xmm12
	pshufb	%xmm11, %xmm12
	pxor	%xmm10, %xmm11
	movdqa	%xmm1, %xmm13
	pshufb	%xmm10, %xmm13
	pxor	%xmm12, %xmm13
	movdqa	%xmm1, %xmm14
	pshufb	%xmm11, %xmm14
	pxor	%xmm12, %xmm14
	movdqa	%xmm1, %xmm12
	pshufb	%xmm13, %xmm12
	movdqu	48(%rsi), %xmm13
	pxor	%xmm11, %xmm12
	movdqa	%xmm1, %xmm11
	pshufb	%xmm14, %xmm11
	pxor	%xmm10, %xmm11
	movdqa	%xmm6, %xmm10
	pshufb	%xmm12, %xmm10
	movdqa	%xmm4, %xmm14
	pshufb	%xmm11, %xmm14
	pxor	%xmm10, %xmm14
	movdqa	%xmm8, %xmm10
	pshufb	%xmm12, %xmm10
	movdqa	%xmm7, %xmm12
	pshufb	%xmm11, %xmm12
	pxor	%xmm10, %xmm12
	movdqa	%xmm14, %xmm10
	pshufb	%xmm5, %xmm10
	pxor	%xmm12, %xmm10
	pshufb	%xmm9, %xmm14
	pxor	%xmm13, %xmm14
	pxor	%xmm10, %xmm14
	pshufb	%xmm5, %xmm10
	pxor	%xmm14, %xmm10
	pshufb	%xmm3, %xmm10
	movdqa	%xmm10, %xmm11
	pand	%xmm0, %xmm11
	psrlw	$4, %xmm10
	pand	%xmm0, %xmm10
	movdqa	%xmm2, %xmm12
	pshufb	%xmm11, %xmm12
	pxor	%xmm10, %xmm11
	movdqa	%xmm1, %xmm13
	pshufb	%xmm10, %xmm13
	pxor	%xmm12, %xmm13
	movdqa	%xmm1, %xmm14
	pshufb	%xmm11, %xmm14
	pxor	%xmm12, %xmm14
	movdqa	%xmm1, %xmm12
	pshufb	%xmm13, %xmm12
	movdqu	64(%rsi), %xmm13
	pxor	%xmm11, %xmm12
	movdqa	%xmm1, %xmm11
	pshufb	%xmm14, %xmm11
	pxor	%xmm10, %xmm11
	movdqa	%xmm6, %xmm10
	pshufb	%xmm12, %xmm10
	movdqa	%xmm4, %xmm14
	pshufb	%xmm11, %xmm14
	pxor	%xmm10, %xmm14
	movdqa	%xmm8, %xmm10
	pshufb	%xmm12, %xmm10
	movdqa	%xmm7, %xmm12
	pshufb	%xmm11, %xmm12
	pxor	%xmm10, %xmm12
	movdqa	%xmm14, %xmm10
	pshufb	%xmm5, %xmm10
	pxor	%xmm12, %xmm10
	pshufb	%xmm9, %xmm14
	pxor	%xmm13, %xmm14
	pxor	%xmm10, %xmm14
	pshufb	%xmm5, %xmm10
	pxor	%xmm14, %xmm10
	pshufb	%xmm3, %xmm10
	movdqa	%xmm10, %xmm11
	pand	%xmm0, %xmm11
	psrlw	$4, %xmm10
	pand	%xmm0, %xmm10
	movdqa	%xmm2, %xmm12
	pshufb	%xmm11, %xmm12
	pxor	%xmm10, %xmm11
	movdqa	%xmm1, %xmm13
	pshufb	%xmm10, %xmm13
	pxor	%xmm12, %xmm13
	movdqa	%xmm1, %xmm14
	pshufb	%xmm11, %xmm14
	pxor	%xmm12, %xmm14
	movdqa	%xmm1, %xmm12
	pshufb	%xmm13, %xmm12
	movdqu	80(%rsi), %xmm13
	pxor	%xmm11, %xmm12
	movdqa	%xmm1, %xmm11
	pshufb	%xmm14, %xmm11
	pxor	%xmm10, %xmm11
	movdqa	%xmm6, %xmm10
	pshufb	%xmm12, %xmm10
	movdqa	%xmm4, %xmm14
	pshufb	%xmm11, %xmm14
	pxor	%xmm10, %xmm14
	movdqa	%xmm8, %xmm10
	pshufb	%xmm12, %xmm10
	movdqa	%xmm7, %xmm12
	pshufb	%xmm11, %xmm12
	pxor	%xmm10, %xmm12
	movdqa	%xmm14, %xmm10
	pshufb	%xmm5, %xmm10
	pxor	%xmm12, %xmm10
	pshufb	%xmm9, %xmm14
	pxor	%xmm13, %xmm14
	pxor	%xmm10, %xmm14
	pshufb	%xmm5, %xmm10
	pxor	%xmm14, %xmm10
	pshufb	%xmm3, %xmm10
	movdqa	%xmm10, %xmm11
	pand	%xmm0, %xmm11
	psrlw	$4, %xmm10
	pand	%xmm0, %xmm10
	movdqa	%xmm2, %xmm12
	pshufb	%xmm11, %xmm12
	pxor	%xmm10, %xmm11
	movdqa	%xmm1, %xmm13
	pshufb	%xmm10, %xmm13
	pxor	%xmm12, %xmm13
	movdqa	%xmm1, %xmm14
	pshufb	%xmm11, %xmm14
	pxor	%xmm12, %xmm14
	movdqa	%xmm1, %xmm12
	pshufb	%xmm13, %xmm12
	movdqu	96(%rsi), %xmm13
	pxor	%xmm11, %xmm12
	movdqa	%xmm1, %xmm11
	pshufb	%xmm14, %xmm11
	pxor	%xmm10, %xmm11
	movdqa	%xmm6, %xmm10
	pshufb	%xmm12, %xmm10
	movdqa	%xmm4, %xmm14
	pshufb	%xmm11, %xmm14
	pxor	%xmm10, %xmm14
	movdqa	%xmm8, %xmm10
	pshufb	%xmm12, %xmm10
	movdqa	%xmm7, %xmm12
	pshufb	%xmm11, %xmm12
	pxor	%xmm10, %xmm12
	movdqa	%xmm14, %xmm10
	pshufb	%xmm5, %xmm10
	pxor	%xmm12, %xmm10
	pshufb	%xmm9, %xmm14
	pxor	%xmm13, %xmm14
	pxor	%xmm10, %xmm14
	pshufb	%xmm5, %xmm10
	pxor	%xmm14, %xmm10
	pshufb	%xmm3, %xmm10
	movdqa	%xmm10, %xmm11
	pand	%xmm0, %xmm11
	psrlw	$4, %xmm10
	pand	%xmm0, %xmm10
	movdqa	%xmm2, %xmm12
	pshufb	%xmm11, %xmm12
	pxor	%xmm10, %xmm11
	movdqa	%xmm1, %xmm13
	pshufb	%xmm10, %xmm13
	pxor	%xmm12, %xmm13
	movdqa	%xmm1, %xmm14
	pshufb	%xmm11, %xmm14
	pxor	%xmm12, %xmm14
	movdqa	%xmm1, %xmm12
	pshufb	%xmm13, %xmm12
	movdqu	112(%rsi), %xmm13
	pxor	%xmm11, %xmm12
	movdqa	%xmm1, %xmm11
	pshufb	%xmm14, %xmm11
	pxor	%xmm10, %xmm11
	movdqa	%xmm6, %xmm10
	pshufb	%xmm12, %xmm10
	movdqa	%xmm4, %xmm14
	pshufb	%xmm11, %xmm14
	pxor	%xmm10, %xmm14
	movdqa	%xmm8, %xmm10
	pshufb	%xmm12, %xmm10
	movdqa	%xmm7, %xmm12
	pshufb	%xmm11, %xmm12
	pxor	%xmm10, %xmm12
	movdqa	%xmm14, %xmm10
	pshufb	%xmm5, %xmm10
	pxor	%xmm12, %xmm10
	pshufb	%xmm9, %xmm14
	pxor	%xmm13, %xmm14
	pxor	%xmm10, %xmm14
	pshufb	%xmm5, %xmm10
	pxor	%xmm14, %xmm10
	pshufb	%xmm3, %xmm10
	movdqa	%xmm10, %xmm11
	pand	%xmm0, %xmm11
	psrlw	$4, %xmm10
	pand	%xmm0, %xmm10
	movdqa	%xmm2, %xmm12
	pshufb	%xmm11, %xmm12
	pxor	%xmm10, %xmm11
	movdqa	%xmm1, %xmm13
	pshufb	%xmm10, %xmm13
	pxor	%xmm12, %xmm13
	movdqa	%xmm1, %xmm14
	pshufb	%xmm11, %xmm14
	pxor	%xmm12, %xmm14
	movdqa	%xmm1, %xmm12
	pshufb	%xmm13, %xmm12
	movdqu	128(%rsi), %xmm13
	pxor	%xmm11, %xmm12
	movdqa	%xmm1, %xmm11
	pshufb	%xmm14, %xmm11
	pxor	%xmm10, %xmm11
	movdqa	%xmm6, %xmm10
	pshufb	%xmm12, %xmm10
	movdqa	%xmm4, %xmm14
	pshufb	%xmm11, %xmm14
	pxor	%xmm10, %xmm14
	movdqa	%xmm8, %xmm10
	pshufb	%xmm12, %xmm10
	movdqa	%xmm7, %xmm12
	pshufb	%xmm11, %xmm12
	pxor	%xmm10, %xmm12
	movdqa	%xmm14, %xmm10
	pshufb	%xmm5, %xmm10
	pxor	%xmm12, %xmm10
	pshufb	%xmm9, %xmm14
	pxor	%xmm13, %xmm14
	pxor	%xmm10, %xmm14
	pshufb	%xmm5, %xmm10
	pxor	%xmm14, %xmm10
	pshufb	%xmm3, %xmm10
	movdqa	%xmm10, %xmm11
	pand	%xmm0, %xmm11
	psrlw	$4, %xmm10
	pand	%xmm0, %xmm10
	movdqa	%xmm2, %xmm12
	pshufb	%xmm11, %xmm12
	pxor	%xmm10, %xmm11
	movdqa	%xmm1, %xmm13
	pshufb	%xmm10, %xmm13
	pxor	%xmm12, %xmm13
	movdqa	%xmm1, %xmm14
	pshufb	%xmm11, %xmm14
	pxor	%xmm12, %xmm14
	movdqa	%xmm1, %xmm12
	pshufb	%xmm13, %xmm12
	pxor	%xmm11, %xmm12
	movdqa	%xmm1, %xmm11
	pshufb	%xmm14, %xmm11
	pxor	%xmm10, %xmm11
	pshufb	%xmm12, %xmm6
	pshufb	%xmm11, %xmm4
	pxor	%xmm6, %xmm4
	pshufb	%xmm12, %xmm8
	pshufb	%xmm11, %xmm7
	pxor	%xmm8, %xmm7
	movdqa	%xmm4, %xmm6
	pshufb	%xmm5, %xmm6
	pxor	%xmm7, %xmm6
	pshufb	%xmm9, %xmm4
	movdqu	144(%rsi), %xmm7
	pxor	%xmm7, %xmm4
	pxor	%xmm6, %xmm4
	pshufb	%xmm5, %xmm6
	pxor	%xmm4, %xmm6
	pshufb	%xmm3, %xmm6
	movdqa	%xmm6, %xmm3
	pand	%xmm0, %xmm3
	psrlw	$4, %xmm6
	pand	%xmm0, %xmm6
	pshufb	%xmm3, %xmm2
	pxor	%xmm6, %xmm3
	movdqa	%xmm1, %xmm0
	pshufb	%xmm6, %xmm0
	pxor	%xmm2, %xmm0
	movdqa	%xmm1, %xmm4
	pshufb	%xmm3, %xmm4
	pxor	%xmm2, %xmm4
	movdqa	%xmm1, %xmm2
	pshufb	%xmm0, %xmm2
	pxor	%xmm3, %xmm2
	pshufb	%xmm4, %xmm1
	pxor	%xmm6, %xmm1
	movdqa	.LCPI13069_12(%rip), %xmm0
	pshufb	%xmm2, %xmm0
	movdqu	160(%rsi), %xmm2
	pxor	%xmm2, %xmm0
	movdqa	.LCPI13069_13(%rip), %xmm2
	pshufb	%xmm1, %xmm2
	pxor	%xmm0, %xmm2
	movdqu	%xmm2, (%rdi)
	retq
.Lfunc_end13069:
	.size	"aes_block::Aes128::encrypt_block", .Lfunc_end13069-"aes_block::Aes128::encrypt_block"
	.cfi_endproc

	.section	.rodata.cst16,"aM",@progbits,16
	.p2align	4, 0x0
.LCPI3bdb9_0:
	.zero	1
	.zero	1
	.zero	1
	.zero	1
	.byte	3,2,1,0
	.zero	1
	.zero	1
	.zero	1
	.zero	1
	.zero	1
	.zero	1
	.zero	1
	.zero	1
.LCPI3bdb9_1:
	.byte	0,0,0,0,0,0,0,0,0,0,0,0,0,0,0,1
	.section	".text.login_keys::psk::psk_session","ax",@progbits
	.p2align	4
	.type	"login_keys::psk::psk_session",@function
"login_keys::psk::psk_session":
	.cfi_startproc
	pushq	%r15
	.cfi_def_cfa_offset 16
	pushq	%r14
	.cfi_def_cfa_offset 24
	pushq	%r13
	.cfi_def_cfa_offset 32
	pushq	%r12
	.cfi_def_cfa_offset 40
	pushq	%rbx
	.cfi_def_cfa_offset 48
	subq	$336, %rsp
	.cfi_def_cfa_offset 384
	.cfi_offset %rbx, -48
	.cfi_offset %r12, -40
	.cfi_offset %r13, -32
	.cfi_offset %r14, -24
	.cfi_offset %r15, -16
	movq	%rdx, %r15
	movq	%rdi, %rbx
	xorps	%xmm0, %xmm0
	movaps	%xmm0, 320(%rsp)
	movaps	%xmm0, 304(%rsp)
	movaps	%xmm0, 288(%rsp)
	movaps	%xmm0, 272(%rsp)
	movaps	%xmm0, 256(%rsp)
	movaps	%xmm0, 240(%rsp)
	movaps	%xmm0, 224(%rsp)
	movaps	%xmm0, 208(%rsp)
	movaps	%xmm0, 192(%rsp)
	movaps	%xmm0, 176(%rsp)
	movaps	%xmm0, 160(%rsp)
	leaq	160(%rsp), %r14
	movq	%r14, %rdi
	callq	"aes_block::Aes128::new"
	movups	(%r15), %xmm0
	movq	%rsp, %rdi
	movq	%r14, %rsi
	callq	"aes_block::Aes128::encrypt_block"
	movq	(%rsp), %r15
	movq	8(%rsp), %r12
	movq	%r12, %r8
	bswapq	%r8
	movq	%r15, %r13
	bswapq	%r13
	movq	%r13, %rsi
	movq	%r13, %r9
	movq	%r13, %r11
	movq	%r13, %rax
	movq	%r13, %rcx
	movq	%r13, %rdx
	movq	%r13, %rdi
	movq	%r13, %r10
	shldq	$8, %r8, %r10
	shldq	$16, %r8, %rsi
	shldq	$40, %r8, %r9
	movq	%r13, %xmm0
	shldq	$48, %r8, %r11
	shrq	$56, %rax
	shrq	$48, %rcx
	shrq	$40, %rdx
	shrq	$32, %rdi
	movq	%r8, %r13
	movq	%r8, %xmm1
	movd	%r8d, %xmm2
	shrq	$40, %r8
	shrq	$32, %r13
	movq	%r11, %xmm3
	movq	%r9, %xmm4
	punpcklbw	%xmm3, %xmm4
	pshufd	$0, %xmm4, %xmm3
	psrld	$8, %xmm2
	punpcklbw	%xmm1, %xmm2
	pslldq	$14, %xmm2
	pblendw	$127, %xmm3, %xmm2
	movq	%rsi, %xmm1
	movq	%r10, %xmm3
	punpcklbw	%xmm1, %xmm3
	pshufd	$68, %xmm3, %xmm1
	movd	%r13d, %xmm3
	movd	%r8d, %xmm4
	punpcklbw	%xmm3, %xmm4
	pslldq	$10, %xmm4
	pblendw	$223, %xmm1, %xmm4
	pblendw	$192, %xmm2, %xmm4
	movd	%edi, %xmm1
	movd	%edx, %xmm2
	punpcklbw	%xmm1, %xmm2
	movd	%ecx, %xmm1
	movd	%eax, %xmm3
	punpcklbw	%xmm1, %xmm3
	punpcklwd	%xmm2, %xmm3
	pshufb	.LCPI3bdb9_0(%rip), %xmm0
	pblendw	$243, %xmm3, %xmm0
	pblendw	$240, %xmm4, %xmm0
	pxor	.LCPI3bdb9_1(%rip), %xmm0
	movq	%rsp, %rdi
	movq	%r14, %rsi
	callq	"aes_block::Aes128::encrypt_block"
	movaps	(%rsp), %xmm0
	movaps	%xmm0, 16(%rsp)
	leaq	96(%rsp), %rdi
	movq	%r14, %rsi
	movq	%r15, %rdx
	movq	%r12, %rcx
	movl	$2, %r8d
	callq	"login_keys::psk::four_blocks"
	leaq	32(%rsp), %rdi
	movq	%r14, %rsi
	movq	%r15, %rdx
	movq	%r12, %rcx
	movl	$6, %r8d
	callq	"login_keys::psk::four_blocks"
	movaps	16(%rsp), %xmm0
	movups	%xmm0, (%rbx)
	movups	96(%rsp), %xmm0
	movups	112(%rsp), %xmm1
	movups	128(%rsp), %xmm2
	movups	144(%rsp), %xmm3
	movups	%xmm0, 16(%rbx)
	movups	%xmm1, 32(%rbx)
	movups	%xmm2, 48(%rbx)
	movups	%xmm3, 64(%rbx)
	movups	32(%rsp), %xmm0
	movups	48(%rsp), %xmm1
	movups	64(%rsp), %xmm2
	movups	80(%rsp), %xmm3
	movups	%xmm0, 80(%rbx)
	movups	%xmm1, 96(%rbx)
	movups	%xmm2, 112(%rbx)
	movups	%xmm3, 128(%rbx)
	addq	$336, %rsp
	.cfi_def_cfa_offset 48
	popq	%rbx
	.cfi_def_cfa_offset 40
	popq	%r12
	.cfi_def_cfa_offset 32
	popq	%r13
	.cfi_def_cfa_offset 24
	popq	%r14
	.cfi_def_cfa_offset 16
	popq	%r15
	.cfi_def_cfa_offset 8
	retq
.Lfunc_end3bdb9:
	.size	"login_keys::psk::psk_session", .Lfunc_end3bdb9-"login_keys::psk::psk_session"
	.cfi_endproc

	.section	.rodata.cst16,"aM",@progbits,16
	.p2align	4, 0x0
.LCPI6aab6_0:
	.zero	1
	.zero	1
	.byte	2,1
	.zero	1
	.zero	1
	.zero	1
	.zero	1
	.zero	1
	.zero	1
	.zero	1
	.zero	1
	.zero	1
	.zero	1
	.zero	1
	.zero	1
.LCPI6aab6_1:
	.byte	255,255,255,0,0,0,0
	.zero	1
	.zero	1
	.zero	1
	.zero	1
	.zero	1
	.zero	1
	.zero	1
	.zero	1
	.byte	0
.LCPI6aab6_2:
	.byte	128,128,128,0,1,2,3
	.zero	1
	.zero	1
	.zero	1
	.zero	1
	.zero	1
	.zero	1
	.zero	1
	.zero	1
	.byte	128
.LCPI6aab6_3:
	.byte	128,128,128,128,128,128,128,0,1,2,3,4,5,6,7,128
.LCPI6aab6_4:
	.byte	0,1,2,3,4,5,6,128,128,128,128,128,128,128,128,15
	.section	".text.login_keys::psk::four_blocks","ax",@progbits
	.p2align	4
	.type	"login_keys::psk::four_blocks",@function
"login_keys::psk::four_blocks":
	.cfi_startproc
	pushq	%rbp
	.cfi_def_cfa_offset 16
	pushq	%r15
	.cfi_def_cfa_offset 24
	pushq	%r14
	.cfi_def_cfa_offset 32
	pushq	%r13
	.cfi_def_cfa_offset 40
	pushq	%r12
	.cfi_def_cfa_offset 48
	pushq	%rbx
	.cfi_def_cfa_offset 56
	subq	$248, %rsp
	.cfi_def_cfa_offset 304
	.cfi_offset %rbx, -56
	.cfi_offset %r12, -48
	.cfi_offset %r13, -40
	.cfi_offset %r14, -32
	.cfi_offset %r15, -24
	.cfi_offset %rbp, -16
	movl	%r8d, %r15d
	movq	%rcx, %r12
	movq	%rsi, %r14
	movq	%rdi, 88(%rsp)
	xorps	%xmm0, %xmm0
	movaps	%xmm0, 224(%rsp)
	movaps	%xmm0, 208(%rsp)
	movaps	%xmm0, 192(%rsp)
	movaps	%xmm0, 176(%rsp)
	movaps	%xmm0, 96(%rsp)
	movaps	%xmm0, 112(%rsp)
	movaps	%xmm0, 128(%rsp)
	bswapq	%r12
	bswapq	%rdx
	movaps	%xmm0, 144(%rsp)
	movq	%rdx, %rax
	shrq	$48, %rax
	movd	%eax, %xmm0
	movq	%rdx, %rax
	shrq	$56, %rax
	movd	%eax, %xmm1
	punpcklbw	%xmm0, %xmm1
	movq	%rdx, %rax
	shrq	$40, %rax
	movq	%rdx, %xmm0
	movdqa	%xmm0, %xmm2
	psrlq	$24, %xmm2
	movq	%rdx, %rcx
	shrq	$32, %rcx
	movd	%ecx, %xmm3
	punpcklbw	%xmm2, %xmm3
	movdqa	%xmm0, %xmm5
	pshufb	.LCPI6aab6_0(%rip), %xmm5
	pblendw	$253, %xmm3, %xmm5
	movq	%rdx, %rcx
	shldq	$56, %r12, %rcx
	movq	%rcx, %xmm2
	movq	%rdx, %rcx
	shldq	$48, %r12, %rcx
	movq	%rcx, %xmm3
	punpcklbw	%xmm2, %xmm3
	psllq	$48, %xmm3
	movq	%rdx, %rcx
	shldq	$40, %r12, %rcx
	movq	%rcx, %xmm2
	movq	%rdx, %rcx
	shldq	$32, %r12, %rcx
	movq	%rcx, %xmm4
	punpcklbw	%xmm2, %xmm4
	pshufd	$80, %xmm4, %xmm2
	movq	%rdx, %rcx
	shldq	$24, %r12, %rcx
	movq	%rcx, %xmm4
	movq	%rdx, %rcx
	shldq	$16, %r12, %rcx
	pblendw	$8, %xmm3, %xmm2
	movq	%rcx, %xmm3
	shldq	$8, %r12, %rdx
	punpcklbw	%xmm4, %xmm3
	movq	%rdx, %xmm4
	punpcklbw	%xmm4, %xmm0
	punpcklwd	%xmm3, %xmm0
	pinsrb	$2, %eax, %xmm1
	pand	.LCPI6aab6_1(%rip), %xmm1
	pblendw	$12, %xmm2, %xmm0
	pshufb	.LCPI6aab6_2(%rip), %xmm5
	por	%xmm1, %xmm5
	pshufb	.LCPI6aab6_3(%rip), %xmm0
	pshufb	.LCPI6aab6_4(%rip), %xmm5
	movq	$0, 160(%rsp)
	por	%xmm0, %xmm5
	movl	%r15d, %eax
	xorb	%r12b, %al
	movzbl	%al, %eax
	movdqa	%xmm5, 64(%rsp)
	movdqa	%xmm5, %xmm0
	pinsrb	$15, %eax, %xmm0
	movq	%rsp, %rdi
	callq	"aes_block::Aes128::encrypt_block"
	movq	160(%rsp), %r13
	leaq	-49(%r13), %rax
	movb	$1, %bpl
	cmpq	$16, %rax
	jae	.LBB6aab6_2
	movb	$1, %bl
	jmp	.LBB6aab6_3
.LBB6aab6_2:
	movdqa	(%rsp), %xmm0
	movdqu	%xmm0, 96(%rsp,%r13)
	leaq	16(%r13), %rax
	movq	%rax, 160(%rsp)
	addq	$-33, %r13
	cmpq	$16, %r13
	setb	%bl
	movq	%rax, %r13
.LBB6aab6_3:
	leal	1(%r15), %eax
	xorb	%r12b, %al
	movzbl	%al, %eax
	movdqa	64(%rsp), %xmm0
	pinsrb	$15, %eax, %xmm0
	movq	%rsp, %rdi
	movq	%r14, %rsi
	callq	"aes_block::Aes128::encrypt_block"
	testb	%bl, %bl
	jne	.LBB6aab6_5
	movdqa	(%rsp), %xmm0
	movdqu	%xmm0, 96(%rsp,%r13)
	leaq	16(%r13), %rax
	movq	%rax, 160(%rsp)
	addq	$-33, %r13
	cmpq	$16, %r13
	setb	%bpl
	movq	%rax, %r13
.LBB6aab6_5:
	leal	2(%r15), %eax
	xorb	%r12b, %al
	movzbl	%al, %eax
	movdqa	64(%rsp), %xmm0
	pinsrb	$15, %eax, %xmm0
	movq	%rsp, %rdi
	movq	%r14, %rsi
	callq	"aes_block::Aes128::encrypt_block"
	movb	$1, %bl
	testb	%bpl, %bpl
	jne	.LBB6aab6_7
	movdqa	(%rsp), %xmm0
	movdqu	%xmm0, 96(%rsp,%r13)
	leaq	16(%r13), %rax
	movq	%rax, 160(%rsp)
	addq	$-33, %r13
	cmpq	$16, %r13
	setb	%bl
	movq	%rax, %r13
.LBB6aab6_7:
	addb	$3, %r15b
	xorb	%r12b, %r15b
	movzbl	%r15b, %eax
	movdqa	64(%rsp), %xmm0
	pinsrb	$15, %eax, %xmm0
	movq	%rsp, %rdi
	movq	%r14, %rsi
	callq	"aes_block::Aes128::encrypt_block"
	testb	%bl, %bl
	jne	.LBB6aab6_9
	movdqa	(%rsp), %xmm0
	movdqu	%xmm0, 96(%rsp,%r13)
	addq	$16, %r13
	movq	%r13, 160(%rsp)
.LBB6aab6_9:
	pxor	%xmm0, %xmm0
	movdqa	%xmm0, 48(%rsp)
	movdqa	%xmm0, 32(%rsp)
	movdqa	%xmm0, 16(%rsp)
	movdqa	%xmm0, (%rsp)
	movq	%rsp, %rdi
	leaq	96(%rsp), %rsi
	movq	%r13, %rdx
	callq	memcpy@PLT
	movaps	(%rsp), %xmm0
	movaps	16(%rsp), %xmm1
	movaps	32(%rsp), %xmm2
	movaps	48(%rsp), %xmm3
	movaps	%xmm3, 224(%rsp)
	movaps	%xmm2, 208(%rsp)
	movaps	%xmm1, 192(%rsp)
	movaps	%xmm0, 176(%rsp)
	movq	88(%rsp), %rax
	movups	%xmm3, 48(%rax)
	movups	%xmm2, 32(%rax)
	movups	%xmm1, 16(%rax)
	movups	%xmm0, (%rax)
	addq	$248, %rsp
	.cfi_def_cfa_offset 56
	popq	%rbx
	.cfi_def_cfa_offset 48
	popq	%r12
	.cfi_def_cfa_offset 40
	popq	%r13
	.cfi_def_cfa_offset 32
	popq	%r14
	.cfi_def_cfa_offset 24
	popq	%r15
	.cfi_def_cfa_offset 16
	popq	%rbp
	.cfi_def_cfa_offset 8
	retq
.Lfunc_end6aab6:
	.size	"login_keys::psk::four_blocks", .Lfunc_end6aab6-"login_keys::psk::four_blocks"
	.cfi_endproc

	.section	.rodata.cst16,"aM",@progbits,16
	.p2align	4, 0x0
.LCPI0abac_0:
	.byte	128,128,128,128,128,128,1,128,128,128,128,128,128,128,128,8
.LCPI0abac_1:
	.byte	128,128,128,4,128,128,128,128,15,128,128,128,128,128,128,128
.LCPI0abac_2:
	.byte	128,6,128,128,3,128,128,128,128,128,13,128,128,10,128,128
	.section	".text.cmac_mac::key::CmacKey::new","ax",@progbits
	.p2align	4
	.type	"cmac_mac::key::CmacKey::new",@function
"cmac_mac::key::CmacKey::new":
	.cfi_startproc
	pushq	%r15
	.cfi_def_cfa_offset 16
	pushq	%r14
	.cfi_def_cfa_offset 24
	pushq	%r13
	.cfi_def_cfa_offset 32
	pushq	%r12
	.cfi_def_cfa_offset 40
	pushq	%rbx
	.cfi_def_cfa_offset 48
	subq	$208, %rsp
	.cfi_def_cfa_offset 256
	.cfi_offset %rbx, -48
	.cfi_offset %r12, -40
	.cfi_offset %r13, -32
	.cfi_offset %r14, -24
	.cfi_offset %r15, -16
	movq	%rdi, %rbx
	xorps	%xmm0, %xmm0
	movaps	%xmm0, 192(%rsp)
	movaps	%xmm0, 176(%rsp)
	movaps	%xmm0, 160(%rsp)
	movaps	%xmm0, 144(%rsp)
	movaps	%xmm0, 128(%rsp)
	movaps	%xmm0, 112(%rsp)
	movaps	%xmm0, 96(%rsp)
	movaps	%xmm0, 80(%rsp)
	movaps	%xmm0, 64(%rsp)
	movaps	%xmm0, 48(%rsp)
	movaps	%xmm0, 32(%rsp)
	leaq	32(%rsp), %r14
	movq	%r14, %rdi
	callq	"aes_block::Aes128::new"
	movq	%rsp, %rdi
	xorps	%xmm0, %xmm0
	movq	%r14, %rsi
	callq	"aes_block::Aes128::encrypt_block"
	movq	(%rsp), %r15
	movq	8(%rsp), %rdx
	bswapq	%r15
	bswapq	%rdx
	leaq	(%rdx,%rdx), %rax
	movq	%r15, %rcx
	sarq	$63, %rcx
	andl	$135, %ecx
	xorq	%rax, %rcx
	movq	%r15, %rsi
	shrq	$55, %rsi
	movzbl	%sil, %esi
	movq	%rcx, %xmm0
	movq	%rax, %xmm1
	punpcklqdq	%xmm0, %xmm1
	movq	%rdx, %xmm0
	pshufd	$68, %xmm0, %xmm0
	pshufb	.LCPI0abac_0(%rip), %xmm1
	paddq	%xmm0, %xmm0
	movdqa	%xmm0, %xmm2
	pshufb	.LCPI0abac_1(%rip), %xmm2
	pshufb	.LCPI0abac_2(%rip), %xmm0
	por	%xmm2, %xmm0
	por	%xmm1, %xmm0
	pshufd	$238, %xmm0, %xmm1
	por	%xmm0, %xmm1
	movdqa	%xmm1, 16(%rsp)
	shrdq	$7, %r15, %rdx
	movq	%xmm1, %rax
	movabsq	$-72057594037927936, %rcx
	andq	%rcx, %rdx
	movl	%r15d, %edi
	andl	$32640, %edi
	shlq	$41, %rdi
	orq	%rsi, %rdi
	orq	%rdx, %rdi
	movl	%r15d, %edx
	andl	$8355840, %edx
	shlq	$25, %rdx
	orq	%rdi, %rdx
	movl	%r15d, %esi
	andl	$2139095040, %esi
	shlq	$9, %rsi
	orq	%rdx, %rsi
	movq	%r15, %rdx
	shrq	$7, %rdx
	andl	$-16777216, %edx
	orq	%rsi, %rdx
	movq	%r15, %rsi
	shrq	$23, %rsi
	andl	$16711680, %esi
	orq	%rdx, %rsi
	shrq	$39, %r15
	andl	$65280, %r15d
	orq	%rsi, %r15
	movq	%r15, %r12
	bswapq	%r12
	bswapq	%rax
	leaq	(%rax,%rax), %rsi
	movq	%r12, %rdx
	sarq	$63, %rdx
	andl	$135, %edx
	movl	%esi, %r13d
	xorl	%edx, %r13d
	movq	%r12, %rdx
	shrq	$55, %rdx
	movzbl	%dl, %edx
	shrq	$56, %rsi
	movq	%rax, %rdi
	shrq	$39, %rdi
	andl	$65280, %edi
	orq	%rsi, %rdi
	movq	%rax, %rsi
	shrq	$23, %rsi
	andl	$16711680, %esi
	orq	%rdi, %rsi
	movq	%rax, %rdi
	shrq	$7, %rdi
	andl	$-16777216, %edi
	orq	%rsi, %rdi
	movl	%eax, %esi
	andl	$2139095040, %esi
	shlq	$9, %rsi
	orq	%rdi, %rsi
	movl	%eax, %edi
	andl	$8355840, %edi
	shlq	$25, %rdi
	orq	%rsi, %rdi
	movl	%eax, %esi
	andl	$32640, %esi
	shlq	$41, %rsi
	orq	%rdi, %rsi
	shlq	$56, %r13
	orq	%rsi, %r13
	shrdq	$7, %r12, %rax
	andq	%rcx, %rax
	movl	%r12d, %ecx
	andl	$32640, %ecx
	shlq	$41, %rcx
	orq	%rdx, %rcx
	orq	%rax, %rcx
	movl	%r12d, %eax
	andl	$8355840, %eax
	shlq	$25, %rax
	orq	%rcx, %rax
	movl	%r12d, %ecx
	andl	$2139095040, %ecx
	shlq	$9, %rcx
	orq	%rax, %rcx
	movq	%r12, %rax
	shrq	$7, %rax
	andl	$-16777216, %eax
	orq	%rcx, %rax
	movq	%r12, %rcx
	shrq	$23, %rcx
	andl	$16711680, %ecx
	orq	%rax, %rcx
	shrq	$39, %r12
	andl	$65280, %r12d
	orq	%rcx, %r12
	movl	$176, %edx
	movq	%rbx, %rdi
	movq	%r14, %rsi
	callq	memcpy@PLT
	movq	%r15, 176(%rbx)
	movaps	16(%rsp), %xmm0
	movlps	%xmm0, 184(%rbx)
	movq	%r12, 192(%rbx)
	movq	%r13, 200(%rbx)
	addq	$208, %rsp
	.cfi_def_cfa_offset 48
	popq	%rbx
	.cfi_def_cfa_offset 40
	popq	%r12
	.cfi_def_cfa_offset 32
	popq	%r13
	.cfi_def_cfa_offset 24
	popq	%r14
	.cfi_def_cfa_offset 16
	popq	%r15
	.cfi_def_cfa_offset 8
	retq
.Lfunc_end0abac:
	.size	"cmac_mac::key::CmacKey::new", .Lfunc_end0abac-"cmac_mac::key::CmacKey::new"
	.cfi_endproc

	.section	".text.psk_ends::peer::turns::log_in::<#becd8de5e2060522>","ax",@progbits
	.p2align	4
	.type	"psk_ends::peer::turns::log_in::<#becd8de5e2060522>",@function
"psk_ends::peer::turns::log_in::<#becd8de5e2060522>":
	.cfi_startproc
	pushq	%rbp
	.cfi_def_cfa_offset 16
	pushq	%r15
	.cfi_def_cfa_offset 24
	pushq	%r14
	.cfi_def_cfa_offset 32
	pushq	%r13
	.cfi_def_cfa_offset 40
	pushq	%r12
	.cfi_def_cfa_offset 48
	pushq	%rbx
	.cfi_def_cfa_offset 56
	subq	$1304, %rsp
	.cfi_def_cfa_offset 1360
	.cfi_offset %rbx, -56
	.cfi_offset %r12, -48
	.cfi_offset %r13, -40
	.cfi_offset %r14, -32
	.cfi_offset %r15, -24
	.cfi_offset %rbp, -16
	movq	%r8, %rbp
	movq	%rcx, %rbx
	movq	%rdx, 8(%rsp)
	movq	%rsi, %r12
	movq	%rdi, 16(%rsp)
	leaq	744(%rsp), %rdi
	movl	$560, %edx
	movq	%r9, %rsi
	callq	memcpy@PLT
	cmpb	$1, 528(%r12)
	jne	.LBBa7a0e_2
	movq	520(%r12), %r15
	jmp	.LBBa7a0e_27
.LBBa7a0e_2:
	movq	16(%rbp), %r14
	movq	24(%rbp), %r15
	leaq	264(%r12), %r13
	movq	520(%r12), %rdx
	testq	%rdx, %rdx
	je	.LBBa7a0e_4
	movq	%r13, %rdi
	xorl	%esi, %esi
	callq	memset@PLT
	movq	$0, 520(%r12)
.LBBa7a0e_4:
	cmpq	$253, %r15
	jbe	.LBBa7a0e_6
	xorl	%r15d, %r15d
	jmp	.LBBa7a0e_27
.LBBa7a0e_6:
	movq	%r13, %rax
	subq	%r14, %rax
	cmpq	%r15, %rax
	jae	.LBBa7a0e_9
	cmpq	$4, %r15
	jb	.LBBa7a0e_8
	movq	%r12, %rax
	subq	%r14, %rax
	addq	$264, %rax
	cmpq	$32, %rax
	jae	.LBBa7a0e_12
.LBBa7a0e_8:
	xorl	%eax, %eax
.LBBa7a0e_21:
	movq	%r15, %rdx
	movq	%rax, %rcx
	andq	$3, %rdx
	je	.LBBa7a0e_24
	movq	%rax, %rcx
	.p2align	4
.LBBa7a0e_23:
	movzbl	(%r14,%rcx), %esi
	movb	%sil, (%r13,%rcx)
	incq	%rcx
	decq	%rdx
	jne	.LBBa7a0e_23
.LBBa7a0e_24:
	subq	%r15, %rax
	cmpq	$-4, %rax
	ja	.LBBa7a0e_26
	.p2align	4
.LBBa7a0e_25:
	movzbl	(%r14,%rcx), %eax
	movb	%al, 264(%r12,%rcx)
	movzbl	1(%r14,%rcx), %eax
	movb	%al, 265(%r12,%rcx)
	movzbl	2(%r14,%rcx), %eax
	movb	%al, 266(%r12,%rcx)
	movzbl	3(%r14,%rcx), %eax
	movb	%al, 267(%r12,%rcx)
	addq	$4, %rcx
	cmpq	%rcx, %r15
	jne	.LBBa7a0e_25
	jmp	.LBBa7a0e_26
.LBBa7a0e_9:
	movq	%r13, %rdi
	movq	%r14, %rsi
	movq	%r15, %rdx
	callq	memmove@PLT
.LBBa7a0e_26:
	movq	%r15, 520(%r12)
.LBBa7a0e_27:
	movups	(%rbp), %xmm0
	movaps	%xmm0, 160(%rsp)
	leaq	176(%rsp), %r13
	leaq	744(%rsp), %rsi
	movl	$560, %edx
	movq	%r13, %rdi
	callq	memcpy@PLT
	movq	8(%rsp), %rbp
	movups	(%rbp), %xmm0
	movaps	%xmm0, 112(%rsp)
	movq	256(%r12), %rcx
	leaq	264(%r12), %rax
	xorps	%xmm0, %xmm0
	movaps	%xmm0, 96(%rsp)
	movq	%rax, 24(%rsp)
	movq	%r15, 32(%rsp)
	leaq	160(%rsp), %r14
	movq	%r14, 40(%rsp)
	movq	$16, 48(%rsp)
	leaq	112(%rsp), %rax
	movq	%rax, 56(%rsp)
	movq	$16, 64(%rsp)
	leaq	96(%rsp), %rdi
	leaq	24(%rsp), %r8
	movl	$3, %r9d
	movq	%r13, %rsi
	movq	%r12, %rdx
	callq	"cmac_mac::key::CmacKey::tag"
	movq	$1, 24(%rsp)
	movaps	160(%rsp), %xmm0
	movaps	%xmm0, 112(%rsp)
	movups	(%rbp), %xmm1
	movaps	%xmm1, 128(%rsp)
	movaps	96(%rsp), %xmm2
	movaps	%xmm2, 144(%rsp)
	movq	256(%r12), %rax
	movups	%xmm1, 48(%rsp)
	movups	%xmm2, 64(%rsp)
	movups	%xmm0, 32(%rsp)
	movq	%r12, 80(%rsp)
	movq	%rax, 88(%rsp)
	movzbl	1360(%rsp), %ecx
	leaq	24(%rsp), %rsi
	movq	1368(%rsp), %rdi
	movl	$1, %edx
	callq	"psk_messages::writing::write_psk_into"
	movq	1376(%rsp), %rax
	movq	$0, (%rax)
	movq	$1, 8(%rax)
	movb	$2, (%rbx)
	leaq	1(%rbx), %rdi
	movl	$576, %edx
	movq	%r14, %rsi
	callq	memcpy@PLT
	movw	$0, 577(%rbx)
	movq	16(%rsp), %rax
	movw	$513, (%rax)
	movb	$0, 2(%rax)
	addq	$1304, %rsp
	.cfi_def_cfa_offset 56
	popq	%rbx
	.cfi_def_cfa_offset 48
	popq	%r12
	.cfi_def_cfa_offset 40
	popq	%r13
	.cfi_def_cfa_offset 32
	popq	%r14
	.cfi_def_cfa_offset 24
	popq	%r15
	.cfi_def_cfa_offset 16
	popq	%rbp
	.cfi_def_cfa_offset 8
	retq
.LBBa7a0e_12:
	.cfi_def_cfa_offset 1360
	cmpq	$32, %r15
	jae	.LBBa7a0e_14
	xorl	%eax, %eax
	jmp	.LBBa7a0e_18
.LBBa7a0e_14:
	movl	%r15d, %eax
	andl	$224, %eax
	xorl	%ecx, %ecx
	.p2align	4
.LBBa7a0e_15:
	movups	(%r14,%rcx), %xmm0
	movups	16(%r14,%rcx), %xmm1
	movups	%xmm0, 264(%r12,%rcx)
	movups	%xmm1, 280(%r12,%rcx)
	addq	$32, %rcx
	cmpq	%rcx, %rax
	jne	.LBBa7a0e_15
	cmpq	%rax, %r15
	je	.LBBa7a0e_26
	testb	$28, %r15b
	je	.LBBa7a0e_21
.LBBa7a0e_18:
	movq	%rax, %rcx
	movl	%r15d, %eax
	andl	$252, %eax
	.p2align	4
.LBBa7a0e_19:
	movl	(%r14,%rcx), %edx
	movl	%edx, (%r13,%rcx)
	addq	$4, %rcx
	cmpq	%rcx, %rax
	jne	.LBBa7a0e_19
	cmpq	%rax, %r15
	je	.LBBa7a0e_26
	jmp	.LBBa7a0e_21
.Lfunc_enda7a0e:
	.size	"psk_ends::peer::turns::log_in::<#becd8de5e2060522>", .Lfunc_enda7a0e-"psk_ends::peer::turns::log_in::<#becd8de5e2060522>"
	.cfi_endproc

	.section	".text.cmac_mac::key::CmacKey::tag","ax",@progbits
	.p2align	4
	.type	"cmac_mac::key::CmacKey::tag",@function
"cmac_mac::key::CmacKey::tag":
	.cfi_startproc
	pushq	%r15
	.cfi_def_cfa_offset 16
	pushq	%r14
	.cfi_def_cfa_offset 24
	pushq	%r13
	.cfi_def_cfa_offset 32
	pushq	%r12
	.cfi_def_cfa_offset 40
	pushq	%rbx
	.cfi_def_cfa_offset 48
	subq	$80, %rsp
	.cfi_def_cfa_offset 128
	.cfi_offset %rbx, -48
	.cfi_offset %r12, -40
	.cfi_offset %r13, -32
	.cfi_offset %r14, -24
	.cfi_offset %r15, -16
	movq	%r9, %r15
	movq	%r8, %r12
	movq	%rsi, %r14
	movq	%rdi, %rbx
	xorps	%xmm0, %xmm0
	movaps	%xmm0, 16(%rsp)
	movaps	%xmm0, (%rsp)
	movq	$0, 32(%rsp)
	movq	%rsp, %rdi
	callq	"cmac_mac::taken::ChainState::update"
	testq	%r15, %r15
	je	.LBB25efa_3
	shlq	$4, %r15
	xorl	%r13d, %r13d
	.p2align	4
.LBB25efa_2:
	movq	(%r12,%r13), %rdx
	movq	8(%r12,%r13), %rcx
	movq	%rsp, %rdi
	movq	%r14, %rsi
	callq	"cmac_mac::taken::ChainState::update"
	addq	$16, %r13
	cmpq	%r13, %r15
	jne	.LBB25efa_2
.LBB25efa_3:
	leaq	16(%rsp), %rdx
	movq	32(%rsp), %rcx
	leaq	48(%rsp), %rdi
	movq	%r14, %rsi
	callq	"cmac_mac::key::CmacKey::last_block"
	movaps	(%rsp), %xmm0
	xorps	48(%rsp), %xmm0
	leaq	64(%rsp), %rdi
	movq	%r14, %rsi
	callq	"aes_block::Aes128::encrypt_block"
	movaps	64(%rsp), %xmm0
	movups	%xmm0, (%rbx)
	addq	$80, %rsp
	.cfi_def_cfa_offset 48
	popq	%rbx
	.cfi_def_cfa_offset 40
	popq	%r12
	.cfi_def_cfa_offset 32
	popq	%r13
	.cfi_def_cfa_offset 24
	popq	%r14
	.cfi_def_cfa_offset 16
	popq	%r15
	.cfi_def_cfa_offset 8
	retq
.Lfunc_end25efa:
	.size	"cmac_mac::key::CmacKey::tag", .Lfunc_end25efa-"cmac_mac::key::CmacKey::tag"
	.cfi_endproc

	.section	".text.cmac_mac::taken::ChainState::update","ax",@progbits
	.p2align	4
	.type	"cmac_mac::taken::ChainState::update",@function
"cmac_mac::taken::ChainState::update":
	.cfi_startproc
	pushq	%rbp
	.cfi_def_cfa_offset 16
	pushq	%r15
	.cfi_def_cfa_offset 24
	pushq	%r14
	.cfi_def_cfa_offset 32
	pushq	%r13
	.cfi_def_cfa_offset 40
	pushq	%r12
	.cfi_def_cfa_offset 48
	pushq	%rbx
	.cfi_def_cfa_offset 56
	subq	$72, %rsp
	.cfi_def_cfa_offset 128
	.cfi_offset %rbx, -56
	.cfi_offset %r12, -48
	.cfi_offset %r13, -40
	.cfi_offset %r14, -32
	.cfi_offset %r15, -24
	.cfi_offset %rbp, -16
	movq	%rcx, %r14
	movq	%rdx, %r15
	movq	%rdi, %rbx
	movq	32(%rdi), %r12
	movl	$16, %edx
	subq	%r12, %rdx
	movq	%rcx, %r8
	addq	%r12, %rdi
	addq	$16, %rdi
	subq	%rdx, %r8
	jbe	.LBB56ef3_5
	movq	%rsi, %r13
	leaq	(%r15,%rdx), %rbp
	movq	%rdi, %rax
	subq	%r15, %rax
	cmpq	%rdx, %rax
	movq	%r12, 24(%rsp)
	jae	.LBB56ef3_8
	cmpq	$4, %rdx
	jb	.LBB56ef3_4
	leaq	(%r12,%rbx), %rax
	subq	%r15, %rax
	addq	$16, %rax
	cmpq	$32, %rax
	jae	.LBB56ef3_12
.LBB56ef3_4:
	xorl	%eax, %eax
	jmp	.LBB56ef3_36
.LBB56ef3_5:
	movq	%rdi, %rax
	subq	%r15, %rax
	cmpq	%r14, %rax
	jae	.LBB56ef3_9
	cmpq	$4, %r14
	jb	.LBB56ef3_7
	leaq	(%r12,%rbx), %rax
	subq	%r15, %rax
	addq	$16, %rax
	cmpq	$32, %rax
	jae	.LBB56ef3_14
.LBB56ef3_7:
	xorl	%eax, %eax
.LBB56ef3_29:
	movq	%r14, %rdx
	movq	%rax, %rcx
	andq	$3, %rdx
	je	.LBB56ef3_32
	movq	%rax, %rcx
	.p2align	4
.LBB56ef3_31:
	movzbl	(%r15,%rcx), %esi
	movb	%sil, (%rdi,%rcx)
	incq	%rcx
	decq	%rdx
	jne	.LBB56ef3_31
.LBB56ef3_32:
	subq	%r14, %rax
	cmpq	$-4, %rax
	ja	.LBB56ef3_35
	leaq	(%r12,%rbx), %rax
	addq	$19, %rax
	.p2align	4
.LBB56ef3_34:
	movzbl	(%r15,%rcx), %edx
	movb	%dl, -3(%rax,%rcx)
	movzbl	1(%r15,%rcx), %edx
	movb	%dl, -2(%rax,%rcx)
	movzbl	2(%r15,%rcx), %edx
	movb	%dl, -1(%rax,%rcx)
	movzbl	3(%r15,%rcx), %edx
	movb	%dl, (%rax,%rcx)
	addq	$4, %rcx
	cmpq	%rcx, %r14
	jne	.LBB56ef3_34
.LBB56ef3_35:
	addq	%r14, %r12
	jmp	.LBB56ef3_57
.LBB56ef3_8:
	movq	%r15, %rsi
	movq	%r8, %r12
	callq	memmove@PLT
	movq	%r12, %r8
	jmp	.LBB56ef3_38
.LBB56ef3_9:
	movq	%r15, %rsi
	movq	%r14, %rdx
	callq	memmove@PLT
	addq	%r14, %r12
	jmp	.LBB56ef3_57
.LBB56ef3_12:
	cmpq	$32, %rdx
	jae	.LBB56ef3_16
	xorl	%eax, %eax
	jmp	.LBB56ef3_20
.LBB56ef3_14:
	cmpq	$32, %r14
	jae	.LBB56ef3_22
	xorl	%eax, %eax
	jmp	.LBB56ef3_26
.LBB56ef3_16:
	movq	%rdx, %rax
	andq	$-32, %rax
	leaq	(%r12,%rbx), %rcx
	addq	$32, %rcx
	xorl	%esi, %esi
	.p2align	4
.LBB56ef3_17:
	movups	(%r15,%rsi), %xmm0
	movups	16(%r15,%rsi), %xmm1
	movups	%xmm0, -16(%rcx,%rsi)
	movups	%xmm1, (%rcx,%rsi)
	addq	$32, %rsi
	cmpq	%rsi, %rax
	jne	.LBB56ef3_17
	cmpq	%rax, %rdx
	je	.LBB56ef3_38
	testb	$28, %dl
	je	.LBB56ef3_36
.LBB56ef3_20:
	movq	%rax, %rcx
	movq	%rdx, %rax
	andq	$-4, %rax
	.p2align	4
.LBB56ef3_21:
	movl	(%r15,%rcx), %esi
	movl	%esi, (%rdi,%rcx)
	addq	$4, %rcx
	cmpq	%rcx, %rax
	jne	.LBB56ef3_21
	jmp	.LBB56ef3_37
.LBB56ef3_22:
	movq	%r14, %rax
	andq	$-32, %rax
	leaq	(%r12,%rbx), %rcx
	addq	$32, %rcx
	xorl	%edx, %edx
	.p2align	4
.LBB56ef3_23:
	movups	(%r15,%rdx), %xmm0
	movups	16(%r15,%rdx), %xmm1
	movups	%xmm0, -16(%rcx,%rdx)
	movups	%xmm1, (%rcx,%rdx)
	addq	$32, %rdx
	cmpq	%rdx, %rax
	jne	.LBB56ef3_23
	cmpq	%rax, %r14
	je	.LBB56ef3_35
	testb	$28, %r14b
	je	.LBB56ef3_29
.LBB56ef3_26:
	movq	%rax, %rcx
	movq	%r14, %rax
	andq	$-4, %rax
	.p2align	4
.LBB56ef3_27:
	movl	(%r15,%rcx), %edx
	movl	%edx, (%rdi,%rcx)
	addq	$4, %rcx
	cmpq	%rcx, %rax
	jne	.LBB56ef3_27
	cmpq	%rax, %r14
	je	.LBB56ef3_35
	jmp	.LBB56ef3_29
.LBB56ef3_36:
	movzbl	(%r15,%rax), %ecx
	movb	%cl, (%rdi,%rax)
	incq	%rax
.LBB56ef3_37:
	cmpq	%rax, %rdx
	jne	.LBB56ef3_36
.LBB56ef3_38:
	movq	$16, 32(%rbx)
	leaq	-1(%r8), %r12
	movq	%r12, %rax
	andq	$-16, %rax
	leaq	(%rax,%rbp), %rcx
	movq	%rcx, 56(%rsp)
	movq	%r8, 8(%rsp)
	movq	%rax, 16(%rsp)
	subq	%rax, %r8
	movq	%r8, 64(%rsp)
	shrq	$4, %r12
	movups	(%rbx), %xmm1
	movups	16(%rbx), %xmm0
	xorps	%xmm1, %xmm0
	leaq	32(%rsp), %rdi
	movq	%r13, %rsi
	callq	"aes_block::Aes128::encrypt_block"
	movaps	32(%rsp), %xmm1
	testq	%r12, %r12
	je	.LBB56ef3_40
	.p2align	4
.LBB56ef3_39:
	movups	(%rbp), %xmm0
	xorps	%xmm1, %xmm0
	leaq	32(%rsp), %rdi
	movq	%r13, %rsi
	callq	"aes_block::Aes128::encrypt_block"
	movaps	32(%rsp), %xmm1
	addq	$16, %rbp
	decq	%r12
	jne	.LBB56ef3_39
.LBB56ef3_40:
	movups	%xmm1, (%rbx)
	leaq	16(%rbx), %rdi
	movq	%rdi, %rax
	movq	56(%rsp), %rsi
	subq	%rsi, %rax
	xorps	%xmm0, %xmm0
	movups	%xmm0, (%rdi)
	movq	$0, 16(%rdi)
	movq	64(%rsp), %r12
	cmpq	%r12, %rax
	jae	.LBB56ef3_43
	cmpq	$4, %r12
	jae	.LBB56ef3_44
	xorl	%eax, %eax
	movq	24(%rsp), %r9
	movq	16(%rsp), %r11
	jmp	.LBB56ef3_55
.LBB56ef3_43:
	movq	%r12, %rdx
	callq	memmove@PLT
	jmp	.LBB56ef3_57
.LBB56ef3_44:
	movq	24(%rsp), %r9
	leaq	(%r9,%rbx), %rax
	movq	16(%rsp), %r11
	subq	%r11, %rax
	subq	%r15, %rax
	cmpq	$32, %rax
	jae	.LBB56ef3_46
	xorl	%eax, %eax
	jmp	.LBB56ef3_55
.LBB56ef3_46:
	cmpq	$32, %r12
	jae	.LBB56ef3_48
	xorl	%eax, %eax
	movq	8(%rsp), %r10
	jmp	.LBB56ef3_52
.LBB56ef3_48:
	movq	%r12, %rax
	andq	$-32, %rax
	movq	%r11, %rcx
	subq	%r9, %rcx
	addq	%r15, %rcx
	addq	$32, %rcx
	xorl	%edx, %edx
	movq	8(%rsp), %r10
	.p2align	4
.LBB56ef3_49:
	movups	-16(%rcx,%rdx), %xmm0
	movups	(%rcx,%rdx), %xmm1
	movups	%xmm0, 16(%rbx,%rdx)
	movups	%xmm1, 32(%rbx,%rdx)
	addq	$32, %rdx
	cmpq	%rdx, %rax
	jne	.LBB56ef3_49
	cmpq	%rax, %r12
	je	.LBB56ef3_57
	testb	$28, %r12b
	je	.LBB56ef3_55
.LBB56ef3_52:
	andl	$3, %r10d
	leaq	(%r9,%r14), %rcx
	subq	%rax, %rcx
	leaq	(%rax,%r11), %rsi
	leaq	(%rax,%rbx), %rdx
	addq	$16, %rdx
	movq	%r12, %rax
	subq	%r10, %rax
	subq	%r10, %rcx
	subq	%r11, %rcx
	addq	$-16, %rcx
	subq	%r9, %rsi
	addq	%r15, %rsi
	addq	$16, %rsi
	xorl	%edi, %edi
	.p2align	4
.LBB56ef3_53:
	movl	(%rsi,%rdi), %r8d
	movl	%r8d, (%rdx,%rdi)
	addq	$4, %rdi
	cmpq	%rdi, %rcx
	jne	.LBB56ef3_53
	testq	%r10, %r10
	je	.LBB56ef3_57
.LBB56ef3_55:
	addq	%r9, %r14
	subq	%r11, %r14
	addq	$16, %rax
	subq	%r9, %r11
	addq	%r11, %r15
	.p2align	4
.LBB56ef3_56:
	movzbl	(%r15,%rax), %ecx
	movb	%cl, (%rbx,%rax)
	incq	%rax
	cmpq	%rax, %r14
	jne	.LBB56ef3_56
.LBB56ef3_57:
	movq	%r12, 32(%rbx)
	addq	$72, %rsp
	.cfi_def_cfa_offset 56
	popq	%rbx
	.cfi_def_cfa_offset 48
	popq	%r12
	.cfi_def_cfa_offset 40
	popq	%r13
	.cfi_def_cfa_offset 32
	popq	%r14
	.cfi_def_cfa_offset 24
	popq	%r15
	.cfi_def_cfa_offset 16
	popq	%rbp
	.cfi_def_cfa_offset 8
	retq
.Lfunc_end56ef3:
	.size	"cmac_mac::taken::ChainState::update", .Lfunc_end56ef3-"cmac_mac::taken::ChainState::update"
	.cfi_endproc

	.section	".text.cmac_mac::key::CmacKey::last_block","ax",@progbits
	.p2align	4
	.type	"cmac_mac::key::CmacKey::last_block",@function
"cmac_mac::key::CmacKey::last_block":
	.cfi_startproc
	cmpq	$15, %rcx
	ja	.LBB44ce0_2
	movups	(%rdx), %xmm0
	movaps	%xmm0, -24(%rsp)
	movb	$-128, -24(%rsp,%rcx)
	movups	192(%rsi), %xmm0
	xorps	-24(%rsp), %xmm0
	movups	%xmm0, (%rdi)
	retq
.LBB44ce0_2:
	movups	(%rdx), %xmm1
	movups	176(%rsi), %xmm0
	xorps	%xmm1, %xmm0
	movups	%xmm0, (%rdi)
	retq
.Lfunc_end44ce0:
	.size	"cmac_mac::key::CmacKey::last_block", .Lfunc_end44ce0-"cmac_mac::key::CmacKey::last_block"
	.cfi_endproc

	.section	".text.psk_messages::writing::write_psk_into","ax",@progbits
	.p2align	4
	.type	"psk_messages::writing::write_psk_into",@function
"psk_messages::writing::write_psk_into":
	.cfi_startproc
	pushq	%rbp
	.cfi_def_cfa_offset 16
	pushq	%r15
	.cfi_def_cfa_offset 24
	pushq	%r14
	.cfi_def_cfa_offset 32
	pushq	%rbx
	.cfi_def_cfa_offset 40
	pushq	%rax
	.cfi_def_cfa_offset 48
	.cfi_offset %rbx, -40
	.cfi_offset %r14, -32
	.cfi_offset %r15, -24
	.cfi_offset %rbp, -16
	movq	%rsi, %r14
	movq	%rdi, %rbx
	movzbl	(%rsi), %eax
	leaq	.LJTI3700c_0(%rip), %rsi
	movslq	(%rsi,%rax,4), %rax
	addq	%rsi, %rax
	jmpq	*%rax
.LBB3700c_1:
	movq	32(%r14), %rax
	addq	$17, %rax
	jmp	.LBB3700c_5
.LBB3700c_2:
	movl	$54, %eax
	jmp	.LBB3700c_5
.LBB3700c_3:
	movl	$38, %eax
	jmp	.LBB3700c_5
.LBB3700c_4:
	movq	64(%r14), %rax
	addq	$49, %rax
.LBB3700c_5:
	addl	$5, %eax
	rolw	$8, %ax
	shll	$16, %eax
	movzbl	%cl, %ecx
	shll	$8, %ecx
	orl	%eax, %ecx
	movzbl	%dl, %eax
	leal	(%rcx,%rax), %ebp
	incl	%ebp
	movq	1504(%rbx), %rdx
	testq	%rdx, %rdx
	je	.LBB3700c_7
	movq	%rbx, %rdi
	xorl	%esi, %esi
	callq	memset@PLT
.LBB3700c_7:
	movl	%ebp, (%rbx)
	movb	$47, 4(%rbx)
	movq	$5, 1504(%rbx)
	movzbl	(%r14), %eax
	shlb	$6, %al
	movb	%al, 5(%rbx)
	movq	$6, 1504(%rbx)
	movzbl	(%r14), %ecx
	leaq	6(%rbx), %rax
	leaq	.LJTI3700c_1(%rip), %rdx
	movslq	(%rdx,%rcx,4), %rcx
	addq	%rdx, %rcx
	jmpq	*%rcx
.LBB3700c_8:
	leaq	8(%r14), %rcx
	movq	%rax, %rdx
	subq	%rcx, %rdx
	cmpq	$15, %rdx
	ja	.LBB3700c_24
	movzbl	8(%r14), %eax
	movb	%al, 6(%rbx)
	movzbl	9(%r14), %eax
	movb	%al, 7(%rbx)
	movzbl	10(%r14), %eax
	movb	%al, 8(%rbx)
	movzbl	11(%r14), %eax
	movb	%al, 9(%rbx)
	movzbl	12(%r14), %eax
	movb	%al, 10(%rbx)
	movzbl	13(%r14), %eax
	movb	%al, 11(%rbx)
	movzbl	14(%r14), %eax
	movb	%al, 12(%rbx)
	movzbl	15(%r14), %eax
	movb	%al, 13(%rbx)
	movzbl	16(%r14), %eax
	movb	%al, 14(%rbx)
	movzbl	17(%r14), %eax
	movb	%al, 15(%rbx)
	movzbl	18(%r14), %eax
	movb	%al, 16(%rbx)
	movzbl	19(%r14), %eax
	movb	%al, 17(%rbx)
	movzbl	20(%r14), %eax
	movb	%al, 18(%rbx)
	movzbl	21(%r14), %eax
	movb	%al, 19(%rbx)
	movzbl	22(%r14), %eax
	movb	%al, 20(%rbx)
	movzbl	23(%r14), %eax
	movb	%al, 21(%rbx)
	movq	$22, 1504(%rbx)
	movq	32(%r14), %r15
	cmpq	$1478, %r15
	jbe	.LBB3700c_25
	jmp	.LBB3700c_75
.LBB3700c_10:
	leaq	4(%r14), %rcx
	movq	%rax, %rdx
	subq	%rcx, %rdx
	cmpq	$15, %rdx
	ja	.LBB3700c_16
	movzbl	4(%r14), %eax
	movb	%al, 6(%rbx)
	movzbl	5(%r14), %eax
	movb	%al, 7(%rbx)
	movzbl	6(%r14), %eax
	movb	%al, 8(%rbx)
	movzbl	7(%r14), %eax
	movb	%al, 9(%rbx)
	movzbl	8(%r14), %eax
	movb	%al, 10(%rbx)
	movzbl	9(%r14), %eax
	movb	%al, 11(%rbx)
	movzbl	10(%r14), %eax
	movb	%al, 12(%rbx)
	movzbl	11(%r14), %eax
	movb	%al, 13(%rbx)
	movzbl	12(%r14), %eax
	movb	%al, 14(%rbx)
	movzbl	13(%r14), %eax
	movb	%al, 15(%rbx)
	movzbl	14(%r14), %eax
	movb	%al, 16(%rbx)
	movzbl	15(%r14), %eax
	movb	%al, 17(%rbx)
	movzbl	16(%r14), %eax
	movb	%al, 18(%rbx)
	movzbl	17(%r14), %eax
	movb	%al, 19(%rbx)
	movzbl	18(%r14), %eax
	movb	%al, 20(%rbx)
	movzbl	19(%r14), %eax
	movb	%al, 21(%rbx)
	jmp	.LBB3700c_17
.LBB3700c_12:
	leaq	4(%r14), %rcx
	movq	%rax, %rdx
	subq	%rcx, %rdx
	cmpq	$15, %rdx
	ja	.LBB3700c_21
	movzbl	4(%r14), %eax
	movb	%al, 6(%rbx)
	movzbl	5(%r14), %eax
	movb	%al, 7(%rbx)
	movzbl	6(%r14), %eax
	movb	%al, 8(%rbx)
	movzbl	7(%r14), %eax
	movb	%al, 9(%rbx)
	movzbl	8(%r14), %eax
	movb	%al, 10(%rbx)
	movzbl	9(%r14), %eax
	movb	%al, 11(%rbx)
	movzbl	10(%r14), %eax
	movb	%al, 12(%rbx)
	movzbl	11(%r14), %eax
	movb	%al, 13(%rbx)
	movzbl	12(%r14), %eax
	movb	%al, 14(%rbx)
	movzbl	13(%r14), %eax
	movb	%al, 15(%rbx)
	movzbl	14(%r14), %eax
	movb	%al, 16(%rbx)
	movzbl	15(%r14), %eax
	movb	%al, 17(%rbx)
	movzbl	16(%r14), %eax
	movb	%al, 18(%rbx)
	movzbl	17(%r14), %eax
	movb	%al, 19(%rbx)
	movzbl	18(%r14), %eax
	movb	%al, 20(%rbx)
	movzbl	19(%r14), %eax
	movb	%al, 21(%rbx)
	jmp	.LBB3700c_22
.LBB3700c_14:
	leaq	8(%r14), %rcx
	movq	%rax, %rdx
	subq	%rcx, %rdx
	cmpq	$15, %rdx
	ja	.LBB3700c_28
	movzbl	8(%r14), %eax
	movb	%al, 6(%rbx)
	movzbl	9(%r14), %eax
	movb	%al, 7(%rbx)
	movzbl	10(%r14), %eax
	movb	%al, 8(%rbx)
	movzbl	11(%r14), %eax
	movb	%al, 9(%rbx)
	movzbl	12(%r14), %eax
	movb	%al, 10(%rbx)
	movzbl	13(%r14), %eax
	movb	%al, 11(%rbx)
	movzbl	14(%r14), %eax
	movb	%al, 12(%rbx)
	movzbl	15(%r14), %eax
	movb	%al, 13(%rbx)
	movzbl	16(%r14), %eax
	movb	%al, 14(%rbx)
	movzbl	17(%r14), %eax
	movb	%al, 15(%rbx)
	movzbl	18(%r14), %eax
	movb	%al, 16(%rbx)
	movzbl	19(%r14), %eax
	movb	%al, 17(%rbx)
	movzbl	20(%r14), %eax
	movb	%al, 18(%rbx)
	movzbl	21(%r14), %eax
	movb	%al, 19(%rbx)
	movzbl	22(%r14), %eax
	movb	%al, 20(%rbx)
	movzbl	23(%r14), %eax
	movb	%al, 21(%rbx)
	jmp	.LBB3700c_29
.LBB3700c_16:
	movups	(%rcx), %xmm0
	movups	%xmm0, (%rax)
.LBB3700c_17:
	movq	$22, 1504(%rbx)
	leaq	20(%r14), %rax
	leaq	22(%rbx), %rcx
	movq	%rcx, %rdx
	subq	%rax, %rdx
	cmpq	$15, %rdx
	ja	.LBB3700c_19
	movzbl	20(%r14), %eax
	movb	%al, 22(%rbx)
	movzbl	21(%r14), %eax
	movb	%al, 23(%rbx)
	movzbl	22(%r14), %eax
	movb	%al, 24(%rbx)
	movzbl	23(%r14), %eax
	movb	%al, 25(%rbx)
	movzbl	24(%r14), %eax
	movb	%al, 26(%rbx)
	movzbl	25(%r14), %eax
	movb	%al, 27(%rbx)
	movzbl	26(%r14), %eax
	movb	%al, 28(%rbx)
	movzbl	27(%r14), %eax
	movb	%al, 29(%rbx)
	movzbl	28(%r14), %eax
	movb	%al, 30(%rbx)
	movzbl	29(%r14), %eax
	movb	%al, 31(%rbx)
	movzbl	30(%r14), %eax
	movb	%al, 32(%rbx)
	movzbl	31(%r14), %eax
	movb	%al, 33(%rbx)
	movzbl	32(%r14), %eax
	movb	%al, 34(%rbx)
	movzbl	33(%r14), %eax
	movb	%al, 35(%rbx)
	movzbl	34(%r14), %eax
	movb	%al, 36(%rbx)
	movzbl	35(%r14), %eax
	movb	%al, 37(%rbx)
	jmp	.LBB3700c_20
.LBB3700c_19:
	movups	(%rax), %xmm0
	movups	%xmm0, (%rcx)
.LBB3700c_20:
	movq	$38, 1504(%rbx)
	addq	$36, %r14
	jmp	.LBB3700c_23
.LBB3700c_21:
	movups	(%rcx), %xmm0
	movups	%xmm0, (%rax)
.LBB3700c_22:
	movq	$22, 1504(%rbx)
	addq	$20, %r14
.LBB3700c_23:
	movq	%rbx, %rdi
	movq	%r14, %rsi
	addq	$8, %rsp
	.cfi_def_cfa_offset 40
	popq	%rbx
	.cfi_def_cfa_offset 32
	popq	%r14
	.cfi_def_cfa_offset 24
	popq	%r15
	.cfi_def_cfa_offset 16
	popq	%rbp
	.cfi_def_cfa_offset 8
	jmp	"psk_messages::writing::put_channel"
.LBB3700c_24:
	.cfi_def_cfa_offset 48
	movups	(%rcx), %xmm0
	movups	%xmm0, (%rax)
	movq	$22, 1504(%rbx)
	movq	32(%r14), %r15
	cmpq	$1478, %r15
	ja	.LBB3700c_75
.LBB3700c_25:
	movq	24(%r14), %rsi
	leaq	22(%rbx), %rdi
	movq	%rdi, %rax
	subq	%rsi, %rax
	cmpq	%r15, %rax
	jae	.LBB3700c_38
	cmpq	$4, %r15
	jb	.LBB3700c_27
	movq	%rbx, %rax
	subq	%rsi, %rax
	addq	$22, %rax
	cmpq	$32, %rax
	jae	.LBB3700c_44
.LBB3700c_27:
	xorl	%eax, %eax
.LBB3700c_55:
	movq	%r15, %rdx
	movq	%rax, %rcx
	andq	$3, %rdx
	je	.LBB3700c_58
	movq	%rax, %rcx
	.p2align	4
.LBB3700c_57:
	movzbl	(%rsi,%rcx), %r8d
	movb	%r8b, (%rdi,%rcx)
	incq	%rcx
	decq	%rdx
	jne	.LBB3700c_57
.LBB3700c_58:
	subq	%r15, %rax
	cmpq	$-4, %rax
	ja	.LBB3700c_60
	.p2align	4
.LBB3700c_59:
	movzbl	(%rsi,%rcx), %eax
	movb	%al, 22(%rbx,%rcx)
	movzbl	1(%rsi,%rcx), %eax
	movb	%al, 23(%rbx,%rcx)
	movzbl	2(%rsi,%rcx), %eax
	movb	%al, 24(%rbx,%rcx)
	movzbl	3(%rsi,%rcx), %eax
	movb	%al, 25(%rbx,%rcx)
	addq	$4, %rcx
	cmpq	%rcx, %r15
	jne	.LBB3700c_59
.LBB3700c_60:
	addq	$22, %r15
	jmp	.LBB3700c_74
.LBB3700c_28:
	movups	(%rcx), %xmm0
	movups	%xmm0, (%rax)
.LBB3700c_29:
	movq	$22, 1504(%rbx)
	leaq	24(%r14), %rax
	leaq	22(%rbx), %rcx
	movq	%rcx, %rdx
	subq	%rax, %rdx
	cmpq	$15, %rdx
	ja	.LBB3700c_31
	movzbl	24(%r14), %eax
	movb	%al, 22(%rbx)
	movzbl	25(%r14), %eax
	movb	%al, 23(%rbx)
	movzbl	26(%r14), %eax
	movb	%al, 24(%rbx)
	movzbl	27(%r14), %eax
	movb	%al, 25(%rbx)
	movzbl	28(%r14), %eax
	movb	%al, 26(%rbx)
	movzbl	29(%r14), %eax
	movb	%al, 27(%rbx)
	movzbl	30(%r14), %eax
	movb	%al, 28(%rbx)
	movzbl	31(%r14), %eax
	movb	%al, 29(%rbx)
	movzbl	32(%r14), %eax
	movb	%al, 30(%rbx)
	movzbl	33(%r14), %eax
	movb	%al, 31(%rbx)
	movzbl	34(%r14), %eax
	movb	%al, 32(%rbx)
	movzbl	35(%r14), %eax
	movb	%al, 33(%rbx)
	movzbl	36(%r14), %eax
	movb	%al, 34(%rbx)
	movzbl	37(%r14), %eax
	movb	%al, 35(%rbx)
	movzbl	38(%r14), %eax
	movb	%al, 36(%rbx)
	movzbl	39(%r14), %eax
	movb	%al, 37(%rbx)
	jmp	.LBB3700c_32
.LBB3700c_31:
	movups	(%rax), %xmm0
	movups	%xmm0, (%rcx)
.LBB3700c_32:
	movq	$38, 1504(%rbx)
	leaq	40(%r14), %rax
	leaq	38(%rbx), %rcx
	movq	%rcx, %rdx
	subq	%rax, %rdx
	cmpq	$15, %rdx
	ja	.LBB3700c_34
	movzbl	40(%r14), %eax
	movb	%al, 38(%rbx)
	movzbl	41(%r14), %eax
	movb	%al, 39(%rbx)
	movzbl	42(%r14), %eax
	movb	%al, 40(%rbx)
	movzbl	43(%r14), %eax
	movb	%al, 41(%rbx)
	movzbl	44(%r14), %eax
	movb	%al, 42(%rbx)
	movzbl	45(%r14), %eax
	movb	%al, 43(%rbx)
	movzbl	46(%r14), %eax
	movb	%al, 44(%rbx)
	movzbl	47(%r14), %eax
	movb	%al, 45(%rbx)
	movzbl	48(%r14), %eax
	movb	%al, 46(%rbx)
	movzbl	49(%r14), %eax
	movb	%al, 47(%rbx)
	movzbl	50(%r14), %eax
	movb	%al, 48(%rbx)
	movzbl	51(%r14), %eax
	movb	%al, 49(%rbx)
	movzbl	52(%r14), %eax
	movb	%al, 50(%rbx)
	movzbl	53(%r14), %eax
	movb	%al, 51(%rbx)
	movzbl	54(%r14), %eax
	movb	%al, 52(%rbx)
	movzbl	55(%r14), %eax
	movb	%al, 53(%rbx)
	movq	$54, 1504(%rbx)
	movq	64(%r14), %r15
	cmpq	$1446, %r15
	jbe	.LBB3700c_35
	jmp	.LBB3700c_75
.LBB3700c_34:
	movups	(%rax), %xmm0
	movups	%xmm0, (%rcx)
	movq	$54, 1504(%rbx)
	movq	64(%r14), %r15
	cmpq	$1446, %r15
	ja	.LBB3700c_75
.LBB3700c_35:
	movq	56(%r14), %rsi
	leaq	54(%rbx), %rdi
	movq	%rdi, %rax
	subq	%rsi, %rax
	cmpq	%r15, %rax
	jae	.LBB3700c_39
	cmpq	$4, %r15
	jb	.LBB3700c_37
	movq	%rbx, %rax
	subq	%rsi, %rax
	addq	$54, %rax
	cmpq	$32, %rax
	jae	.LBB3700c_46
.LBB3700c_37:
	xorl	%eax, %eax
.LBB3700c_68:
	movq	%r15, %rdx
	movq	%rax, %rcx
	andq	$3, %rdx
	je	.LBB3700c_71
	movq	%rax, %rcx
	.p2align	4
.LBB3700c_70:
	movzbl	(%rsi,%rcx), %r8d
	movb	%r8b, (%rdi,%rcx)
	incq	%rcx
	decq	%rdx
	jne	.LBB3700c_70
.LBB3700c_71:
	subq	%r15, %rax
	cmpq	$-4, %rax
	ja	.LBB3700c_73
	.p2align	4
.LBB3700c_72:
	movzbl	(%rsi,%rcx), %eax
	movb	%al, 54(%rbx,%rcx)
	movzbl	1(%rsi,%rcx), %eax
	movb	%al, 55(%rbx,%rcx)
	movzbl	2(%rsi,%rcx), %eax
	movb	%al, 56(%rbx,%rcx)
	movzbl	3(%rsi,%rcx), %eax
	movb	%al, 57(%rbx,%rcx)
	addq	$4, %rcx
	cmpq	%rcx, %r15
	jne	.LBB3700c_72
	jmp	.LBB3700c_73
.LBB3700c_38:
	movq	%r15, %rdx
	callq	memmove@PLT
	addq	$22, %r15
	jmp	.LBB3700c_74
.LBB3700c_39:
	movq	%r15, %rdx
	callq	memmove@PLT
.LBB3700c_73:
	addq	$54, %r15
.LBB3700c_74:
	movq	%r15, 1504(%rbx)
.LBB3700c_75:
	addq	$8, %rsp
	.cfi_def_cfa_offset 40
	popq	%rbx
	.cfi_def_cfa_offset 32
	popq	%r14
	.cfi_def_cfa_offset 24
	popq	%r15
	.cfi_def_cfa_offset 16
	popq	%rbp
	.cfi_def_cfa_offset 8
	retq
.LBB3700c_44:
	.cfi_def_cfa_offset 48
	cmpq	$32, %r15
	jae	.LBB3700c_48
	xorl	%eax, %eax
	jmp	.LBB3700c_52
.LBB3700c_46:
	cmpq	$32, %r15
	jae	.LBB3700c_61
	xorl	%eax, %eax
	jmp	.LBB3700c_65
.LBB3700c_48:
	movl	%r15d, %eax
	andl	$2016, %eax
	xorl	%ecx, %ecx
	.p2align	4
.LBB3700c_49:
	movups	(%rsi,%rcx), %xmm0
	movups	16(%rsi,%rcx), %xmm1
	movups	%xmm0, 22(%rbx,%rcx)
	movups	%xmm1, 38(%rbx,%rcx)
	addq	$32, %rcx
	cmpq	%rcx, %rax
	jne	.LBB3700c_49
	cmpq	%rax, %r15
	je	.LBB3700c_60
	testb	$28, %r15b
	je	.LBB3700c_55
.LBB3700c_52:
	movq	%rax, %rcx
	movl	%r15d, %eax
	andl	$2044, %eax
	.p2align	4
.LBB3700c_53:
	movl	(%rsi,%rcx), %edx
	movl	%edx, (%rdi,%rcx)
	addq	$4, %rcx
	cmpq	%rcx, %rax
	jne	.LBB3700c_53
	cmpq	%rax, %r15
	je	.LBB3700c_60
	jmp	.LBB3700c_55
.LBB3700c_61:
	movl	%r15d, %eax
	andl	$2016, %eax
	xorl	%ecx, %ecx
	.p2align	4
.LBB3700c_62:
	movups	(%rsi,%rcx), %xmm0
	movups	16(%rsi,%rcx), %xmm1
	movups	%xmm0, 54(%rbx,%rcx)
	movups	%xmm1, 70(%rbx,%rcx)
	addq	$32, %rcx
	cmpq	%rcx, %rax
	jne	.LBB3700c_62
	cmpq	%rax, %r15
	je	.LBB3700c_73
	testb	$28, %r15b
	je	.LBB3700c_68
.LBB3700c_65:
	movq	%rax, %rcx
	movl	%r15d, %eax
	andl	$2044, %eax
	.p2align	4
.LBB3700c_66:
	movl	(%rsi,%rcx), %edx
	movl	%edx, (%rdi,%rcx)
	addq	$4, %rcx
	cmpq	%rcx, %rax
	jne	.LBB3700c_66
	cmpq	%rax, %r15
	je	.LBB3700c_73
	jmp	.LBB3700c_68
.Lfunc_end3700c:
	.size	"psk_messages::writing::write_psk_into", .Lfunc_end3700c-"psk_messages::writing::write_psk_into"
	.cfi_endproc
	.section	".rodata.psk_messages::writing::write_psk_into","a",@progbits
	.p2align	2, 0x0
.LJTI3700c_0:
	.long	.LBB3700c_1-.LJTI3700c_0
	.long	.LBB3700c_4-.LJTI3700c_0
	.long	.LBB3700c_2-.LJTI3700c_0
	.long	.LBB3700c_3-.LJTI3700c_0
.LJTI3700c_1:
	.long	.LBB3700c_8-.LJTI3700c_1
	.long	.LBB3700c_14-.LJTI3700c_1
	.long	.LBB3700c_10-.LJTI3700c_1
	.long	.LBB3700c_12-.LJTI3700c_1

	.section	".text.psk_messages::writing::put_channel","ax",@progbits
	.p2align	4
	.type	"psk_messages::writing::put_channel",@function
"psk_messages::writing::put_channel":
	.cfi_startproc
	movl	(%rsi), %ecx
	bswapl	%ecx
	movl	%ecx, -4(%rsp)
	movq	1504(%rdi), %rax
	leaq	-1497(%rax), %rdx
	cmpq	$4, %rdx
	jae	.LBB2c8fb_1
	leaq	-1485(%rax), %rcx
	cmpq	$16, %rcx
	jae	.LBB2c8fb_5
.LBB2c8fb_9:
	cmpq	$1500, %rax
	jne	.LBB2c8fb_10
.LBB2c8fb_11:
	retq
.LBB2c8fb_1:
	leaq	(%rdi,%rax), %rdx
	leaq	-4(%rsp), %r8
	subq	%r8, %rdx
	cmpq	$4, %rdx
	jae	.LBB2c8fb_3
	movl	-4(%rsp), %ecx
.LBB2c8fb_3:
	movl	%ecx, (%rdi,%rax)
	addq	$4, %rax
	movq	%rax, 1504(%rdi)
	leaq	-1485(%rax), %rcx
	cmpq	$16, %rcx
	jb	.LBB2c8fb_9
.LBB2c8fb_5:
	leaq	4(%rsi), %rdx
	leaq	(%rdi,%rax), %rcx
	movq	%rcx, %r8
	subq	%rdx, %r8
	cmpq	$15, %r8
	ja	.LBB2c8fb_7
	movzbl	4(%rsi), %edx
	movb	%dl, (%rcx)
	movzbl	5(%rsi), %edx
	movb	%dl, 1(%rcx)
	movzbl	6(%rsi), %edx
	movb	%dl, 2(%rcx)
	movzbl	7(%rsi), %edx
	movb	%dl, 3(%rcx)
	movzbl	8(%rsi), %edx
	movb	%dl, 4(%rcx)
	movzbl	9(%rsi), %edx
	movb	%dl, 5(%rcx)
	movzbl	10(%rsi), %edx
	movb	%dl, 6(%rcx)
	movzbl	11(%rsi), %edx
	movb	%dl, 7(%rcx)
	movzbl	12(%rsi), %edx
	movb	%dl, 8(%rcx)
	movzbl	13(%rsi), %edx
	movb	%dl, 9(%rcx)
	movzbl	14(%rsi), %edx
	movb	%dl, 10(%rcx)
	movzbl	15(%rsi), %edx
	movb	%dl, 11(%rcx)
	movzbl	16(%rsi), %edx
	movb	%dl, 12(%rcx)
	movzbl	17(%rsi), %edx
	movb	%dl, 13(%rcx)
	movzbl	18(%rsi), %edx
	movb	%dl, 14(%rcx)
	movzbl	19(%rsi), %edx
	movb	%dl, 15(%rcx)
	jmp	.LBB2c8fb_8
.LBB2c8fb_7:
	movups	(%rdx), %xmm0
	movups	%xmm0, (%rcx)
.LBB2c8fb_8:
	addq	$16, %rax
	movq	%rax, 1504(%rdi)
	cmpq	$1500, %rax
	je	.LBB2c8fb_11
.LBB2c8fb_10:
	movzbl	20(%rsi), %ecx
	movb	%cl, (%rdi,%rax)
	incq	%rax
	movq	%rax, 1504(%rdi)
	retq
.Lfunc_end2c8fb:
	.size	"psk_messages::writing::put_channel", .Lfunc_end2c8fb-"psk_messages::writing::put_channel"
	.cfi_endproc

	.section	".text.octet_lists::comparison::equal_in_full","ax",@progbits
	.p2align	4
	.type	"octet_lists::comparison::equal_in_full",@function
"octet_lists::comparison::equal_in_full":
	.cfi_startproc
	cmpq	%rcx, %rsi
	jne	.LBB48f2f_1
	testq	%rsi, %rsi
	je	.LBB48f2f_3
	cmpq	$4, %rsi
	jae	.LBB48f2f_7
	xorl	%ecx, %ecx
	xorl	%eax, %eax
	jmp	.LBB48f2f_6
.LBB48f2f_1:
	xorl	%eax, %eax
	retq
.LBB48f2f_3:
	movb	$1, %al
	retq
.LBB48f2f_7:
	cmpq	$32, %rsi
	jae	.LBB48f2f_9
	xorl	%eax, %eax
	xorl	%ecx, %ecx
	jmp	.LBB48f2f_13
.LBB48f2f_9:
	movq	%rsi, %rax
	andq	$-32, %rax
	pxor	%xmm0, %xmm0
	xorl	%ecx, %ecx
	pxor	%xmm1, %xmm1
	.p2align	4
.LBB48f2f_10:
	movdqu	(%rdi,%rcx), %xmm2
	movdqu	16(%rdi,%rcx), %xmm3
	movdqu	(%rdx,%rcx), %xmm4
	pxor	%xmm2, %xmm4
	por	%xmm4, %xmm1
	movdqu	16(%rdx,%rcx), %xmm2
	pxor	%xmm3, %xmm2
	por	%xmm2, %xmm0
	addq	$32, %rcx
	cmpq	%rcx, %rax
	jne	.LBB48f2f_10
	por	%xmm1, %xmm0
	pshufd	$238, %xmm0, %xmm1
	por	%xmm0, %xmm1
	pshufd	$85, %xmm1, %xmm0
	por	%xmm1, %xmm0
	movdqa	%xmm0, %xmm1
	psrld	$16, %xmm1
	por	%xmm0, %xmm1
	movdqa	%xmm1, %xmm0
	psrlw	$8, %xmm0
	por	%xmm1, %xmm0
	movd	%xmm0, %ecx
	cmpq	%rax, %rsi
	je	.LBB48f2f_17
	testb	$28, %sil
	je	.LBB48f2f_6
.LBB48f2f_13:
	movq	%rax, %r8
	movq	%rsi, %rax
	andq	$-4, %rax
	movzbl	%cl, %ecx
	movd	%ecx, %xmm0
	.p2align	4
.LBB48f2f_14:
	movl	(%rdx,%r8), %ecx
	xorl	(%rdi,%r8), %ecx
	movd	%ecx, %xmm1
	por	%xmm1, %xmm0
	addq	$4, %r8
	cmpq	%r8, %rax
	jne	.LBB48f2f_14
	movdqa	%xmm0, %xmm1
	psrld	$16, %xmm1
	por	%xmm0, %xmm1
	movdqa	%xmm1, %xmm0
	psrlw	$8, %xmm0
	por	%xmm1, %xmm0
	movd	%xmm0, %ecx
	jmp	.LBB48f2f_16
.LBB48f2f_6:
	movzbl	(%rdx,%rax), %r8d
	xorb	(%rdi,%rax), %r8b
	orb	%r8b, %cl
	incq	%rax
.LBB48f2f_16:
	cmpq	%rax, %rsi
	jne	.LBB48f2f_6
.LBB48f2f_17:
	testb	%cl, %cl
	sete	%al
	retq
.Lfunc_end48f2f:
	.size	"octet_lists::comparison::equal_in_full", .Lfunc_end48f2f-"octet_lists::comparison::equal_in_full"
	.cfi_endproc

	.section	.rodata.cst16,"aM",@progbits,16
	.p2align	4, 0x0
.LCPI26b27_0:
	.zero	1
	.zero	1
	.zero	1
	.zero	1
	.byte	3,2,1,0
	.zero	1
	.zero	1
	.zero	1
	.zero	1
	.zero	1
	.zero	1
	.zero	1
	.zero	1
	.section	".text.psk_ends::channel::open","ax",@progbits
	.p2align	4
	.type	"psk_ends::channel::open",@function
"psk_ends::channel::open":
	.cfi_startproc
	pushq	%rbp
	.cfi_def_cfa_offset 16
	pushq	%r15
	.cfi_def_cfa_offset 24
	pushq	%r14
	.cfi_def_cfa_offset 32
	pushq	%r13
	.cfi_def_cfa_offset 40
	pushq	%r12
	.cfi_def_cfa_offset 48
	pushq	%rbx
	.cfi_def_cfa_offset 56
	subq	$88, %rsp
	.cfi_def_cfa_offset 144
	.cfi_offset %rbx, -56
	.cfi_offset %r12, -48
	.cfi_offset %r13, -40
	.cfi_offset %r14, -32
	.cfi_offset %r15, -24
	.cfi_offset %rbp, -16
	movq	%rdx, %r14
	movq	%rsi, %r12
	movq	%rdi, %rbx
	movzbl	20(%rcx), %eax
	movb	%al, 15(%rsp)
	movl	(%rcx), %eax
	movl	$0, 80(%rsp)
	movq	$0, 72(%rsp)
	bswapl	%eax
	movl	%eax, 84(%rsp)
	leaq	4(%rcx), %r15
	xorps	%xmm0, %xmm0
	movaps	%xmm0, 32(%rsp)
	movaps	%xmm0, 48(%rsp)
	leaq	72(%rsp), %rax
	movq	%rax, 16(%rsp)
	movq	$16, 24(%rsp)
	leaq	32(%rsp), %r13
	leaq	48(%rsp), %rdx
	leaq	16(%rsp), %r8
	movl	$16, %ecx
	movl	$1, %r9d
	movq	%r13, %rdi
	movq	%rbx, %rsi
	callq	"cmac_mac::key::CmacKey::tag"
	movdqa	32(%rsp), %xmm0
	movdqa	%xmm0, 16(%rsp)
	leaq	16(%rsp), %rdx
	leaq	15(%rsp), %r9
	movq	%r13, %rdi
	movq	%rbx, %rsi
	movq	%r12, %rcx
	movq	%r14, %r8
	callq	"eax_mode::tag_over"
	movl	$16, %esi
	movl	$16, %ecx
	movq	%r13, %rdi
	movq	%r15, %rdx
	callq	"octet_lists::comparison::equal_in_full"
	testb	%al, %al
	je	.LBB26b27_1
	movaps	16(%rsp), %xmm0
	movaps	%xmm0, 32(%rsp)
	movq	40(%rsp), %r9
	bswapq	%r9
	movq	32(%rsp), %r14
	bswapq	%r14
	movq	%r14, %rdi
	movq	%r14, %r10
	movq	%r14, %r11
	movq	%r14, %rcx
	movq	%r14, %rdx
	movq	%r14, %rsi
	movq	%r14, %r8
	movq	%r14, %xmm0
	shldq	$8, %r9, %r14
	shldq	$16, %r9, %rdi
	shldq	$40, %r9, %r10
	shldq	$48, %r9, %r11
	shrq	$56, %rcx
	shrq	$48, %rdx
	shrq	$40, %rsi
	shrq	$32, %r8
	movq	%r9, %r15
	movq	%r9, %xmm1
	movd	%r9d, %xmm2
	shrq	$40, %r9
	shrq	$32, %r15
	movq	%r11, %xmm3
	movq	%r10, %xmm4
	punpcklbw	%xmm3, %xmm4
	pshufd	$0, %xmm4, %xmm3
	psrld	$8, %xmm2
	punpcklbw	%xmm1, %xmm2
	pslldq	$14, %xmm2
	pblendw	$127, %xmm3, %xmm2
	movq	%rdi, %xmm1
	movq	%r14, %xmm3
	punpcklbw	%xmm1, %xmm3
	pshufd	$68, %xmm3, %xmm1
	movd	%r15d, %xmm3
	movd	%r9d, %xmm4
	punpcklbw	%xmm3, %xmm4
	pslldq	$10, %xmm4
	pblendw	$223, %xmm1, %xmm4
	pblendw	$192, %xmm2, %xmm4
	movd	%r8d, %xmm1
	movd	%esi, %xmm2
	punpcklbw	%xmm1, %xmm2
	movd	%edx, %xmm1
	movd	%ecx, %xmm3
	punpcklbw	%xmm1, %xmm3
	movzbl	15(%rsp), %ebp
	punpcklwd	%xmm2, %xmm3
	pshufb	.LCPI26b27_0(%rip), %xmm0
	pblendw	$243, %xmm3, %xmm0
	pblendw	$240, %xmm4, %xmm0
	leaq	48(%rsp), %rdi
	movq	%rbx, %rsi
	movl	%eax, %ebx
	callq	"aes_block::Aes128::encrypt_block"
	movl	%ebp, %edx
	movl	%ebx, %eax
	xorb	48(%rsp), %dl
	jmp	.LBB26b27_3
.LBB26b27_1:
	xorl	%edx, %edx
.LBB26b27_3:
	addq	$88, %rsp
	.cfi_def_cfa_offset 56
	popq	%rbx
	.cfi_def_cfa_offset 48
	popq	%r12
	.cfi_def_cfa_offset 40
	popq	%r13
	.cfi_def_cfa_offset 32
	popq	%r14
	.cfi_def_cfa_offset 24
	popq	%r15
	.cfi_def_cfa_offset 16
	popq	%rbp
	.cfi_def_cfa_offset 8
	retq
.Lfunc_end26b27:
	.size	"psk_ends::channel::open", .Lfunc_end26b27-"psk_ends::channel::open"
	.cfi_endproc

	.section	".text.eax_mode::tag_over","ax",@progbits
	.p2align	4
	.type	"eax_mode::tag_over",@function
"eax_mode::tag_over":
	.cfi_startproc
	pushq	%r15
	.cfi_def_cfa_offset 16
	pushq	%r14
	.cfi_def_cfa_offset 24
	pushq	%rbx
	.cfi_def_cfa_offset 32
	subq	$64, %rsp
	.cfi_def_cfa_offset 96
	.cfi_offset %rbx, -32
	.cfi_offset %r14, -24
	.cfi_offset %r15, -16
	movq	%r9, %r15
	movq	%rsi, %r14
	movq	%rdi, %rbx
	xorps	%xmm0, %xmm0
	movaps	%xmm0, 16(%rsp)
	movq	$0, (%rsp)
	movq	$0, 7(%rsp)
	movb	$1, 15(%rsp)
	movq	%rcx, 32(%rsp)
	movq	%r8, 40(%rsp)
	movups	(%rdx), %xmm0
	movaps	%xmm0, 48(%rsp)
	leaq	16(%rsp), %rdi
	movq	%rsp, %rdx
	leaq	32(%rsp), %r8
	movl	$16, %ecx
	movl	$1, %r9d
	callq	"cmac_mac::key::CmacKey::tag"
	movaps	48(%rsp), %xmm0
	xorps	16(%rsp), %xmm0
	movaps	%xmm0, 48(%rsp)
	xorps	%xmm0, %xmm0
	movaps	%xmm0, 16(%rsp)
	movq	$0, (%rsp)
	movq	$0, 7(%rsp)
	movb	$2, 15(%rsp)
	movq	%r15, 32(%rsp)
	movq	$1, 40(%rsp)
	leaq	16(%rsp), %rdi
	movq	%rsp, %rdx
	leaq	32(%rsp), %r8
	movl	$16, %ecx
	movl	$1, %r9d
	movq	%r14, %rsi
	callq	"cmac_mac::key::CmacKey::tag"
	movaps	48(%rsp), %xmm0
	xorps	16(%rsp), %xmm0
	movups	%xmm0, (%rbx)
	addq	$64, %rsp
	.cfi_def_cfa_offset 32
	popq	%rbx
	.cfi_def_cfa_offset 24
	popq	%r14
	.cfi_def_cfa_offset 16
	popq	%r15
	.cfi_def_cfa_offset 8
	retq
.Lfunc_end880d9:
	.size	"eax_mode::tag_over", .Lfunc_end880d9-"eax_mode::tag_over"
	.cfi_endproc

	.section	.rodata.cst16,"aM",@progbits,16
	.p2align	4, 0x0
.LCPI3b561_0:
	.zero	1
	.zero	1
	.zero	1
	.zero	1
	.byte	3,2,1,0
	.zero	1
	.zero	1
	.zero	1
	.zero	1
	.zero	1
	.zero	1
	.zero	1
	.zero	1
	.section	".text.psk_ends::channel::seal_in::<#becd8de5e2060522>","ax",@progbits
	.p2align	4
	.type	"psk_ends::channel::seal_in::<#becd8de5e2060522>",@function
"psk_ends::channel::seal_in::<#becd8de5e2060522>":
	.cfi_startproc
	pushq	%rbp
	.cfi_def_cfa_offset 16
	pushq	%r15
	.cfi_def_cfa_offset 24
	pushq	%r14
	.cfi_def_cfa_offset 32
	pushq	%r13
	.cfi_def_cfa_offset 40
	pushq	%r12
	.cfi_def_cfa_offset 48
	pushq	%rbx
	.cfi_def_cfa_offset 56
	subq	$88, %rsp
	.cfi_def_cfa_offset 144
	.cfi_offset %rbx, -56
	.cfi_offset %r12, -48
	.cfi_offset %r13, -40
	.cfi_offset %r14, -32
	.cfi_offset %r15, -24
	.cfi_offset %rbp, -16
	movq	%r8, %r14
	movl	%ecx, %ebp
	movq	%rsi, %r15
	movq	%rdi, %rbx
	movq	1504(%rdi), %rax
	cmpq	$22, %rax
	movl	$22, %r12d
	cmovbq	%rax, %r12
	shlb	$6, %bpl
	movq	$0, 39(%rsp)
	movq	$0, 32(%rsp)
	movb	%dl, 47(%rsp)
	xorps	%xmm0, %xmm0
	movaps	%xmm0, (%rsp)
	movaps	%xmm0, 16(%rsp)
	leaq	32(%rsp), %rax
	movq	%rax, 48(%rsp)
	movq	$16, 56(%rsp)
	movq	%rsp, %rdi
	leaq	16(%rsp), %rdx
	leaq	48(%rsp), %r8
	movl	$16, %ecx
	movl	$1, %r9d
	callq	"cmac_mac::key::CmacKey::tag"
	movq	(%rsp), %r9
	movq	8(%rsp), %rdi
	movq	%r9, 16(%rsp)
	movq	%rdi, 24(%rsp)
	bswapq	%rdi
	bswapq	%r9
	movq	%r9, %rsi
	movq	%r9, %r10
	movq	%r9, %r13
	movq	%r9, %rax
	movq	%r9, %rcx
	movq	%r9, %rdx
	movq	%r9, %r8
	movq	%r9, %r11
	shldq	$8, %rdi, %r11
	shldq	$16, %rdi, %rsi
	shldq	$40, %rdi, %r10
	shldq	$48, %rdi, %r13
	movq	%r9, %xmm0
	shrq	$56, %rax
	shrq	$48, %rcx
	shrq	$40, %rdx
	shrq	$32, %r8
	movq	%rdi, %r9
	movq	%rdi, %xmm1
	movd	%edi, %xmm2
	shrq	$40, %rdi
	shrq	$32, %r9
	movq	%r13, %xmm3
	movq	%r10, %xmm4
	punpcklbw	%xmm3, %xmm4
	pshufd	$0, %xmm4, %xmm3
	psrld	$8, %xmm2
	punpcklbw	%xmm1, %xmm2
	pslldq	$14, %xmm2
	pblendw	$127, %xmm3, %xmm2
	movq	%rsi, %xmm1
	movq	%r11, %xmm3
	punpcklbw	%xmm1, %xmm3
	pshufd	$68, %xmm3, %xmm1
	movd	%r9d, %xmm3
	movd	%edi, %xmm4
	punpcklbw	%xmm3, %xmm4
	pslldq	$10, %xmm4
	pblendw	$223, %xmm1, %xmm4
	pblendw	$192, %xmm2, %xmm4
	movd	%r8d, %xmm1
	movd	%edx, %xmm2
	punpcklbw	%xmm1, %xmm2
	movd	%ecx, %xmm1
	movd	%eax, %xmm3
	punpcklbw	%xmm1, %xmm3
	punpcklwd	%xmm2, %xmm3
	pshufb	.LCPI3b561_0(%rip), %xmm0
	pblendw	$243, %xmm3, %xmm0
	pblendw	$240, %xmm4, %xmm0
	movq	%rsp, %rdi
	movq	%r15, %rsi
	callq	"aes_block::Aes128::encrypt_block"
	xorb	(%rsp), %bpl
	movb	%bpl, (%rsp)
	leaq	68(%rsp), %r13
	leaq	16(%rsp), %rdx
	movq	%rsp, %r9
	movq	%r13, %rdi
	movq	%r15, %rsi
	movq	%rbx, %rcx
	movq	%r12, %r8
	callq	"eax_mode::tag_over"
	movq	(%r14), %rax
	cmpq	$1, %rax
	jbe	.LBB3b561_1
	movq	1504(%rbx), %rax
	cmpq	$17, %rax
	jae	.LBB3b561_3
.LBB3b561_4:
	leaq	-1501(%rax), %rcx
	cmpq	$-17, %rcx
	jbe	.LBB3b561_5
.LBB3b561_9:
	cmpq	$1500, %rax
	je	.LBB3b561_11
.LBB3b561_10:
	movzbl	(%rsp), %ecx
	movb	%cl, (%rbx,%rax)
	incq	%rax
	movq	%rax, 1504(%rbx)
.LBB3b561_11:
	addq	$88, %rsp
	.cfi_def_cfa_offset 56
	popq	%rbx
	.cfi_def_cfa_offset 48
	popq	%r12
	.cfi_def_cfa_offset 40
	popq	%r13
	.cfi_def_cfa_offset 32
	popq	%r14
	.cfi_def_cfa_offset 24
	popq	%r15
	.cfi_def_cfa_offset 16
	popq	%rbp
	.cfi_def_cfa_offset 8
	retq
.LBB3b561_1:
	.cfi_def_cfa_offset 144
	incq	%rax
	movq	%rax, (%r14)
	movq	1504(%rbx), %rax
	cmpq	$17, %rax
	jb	.LBB3b561_4
.LBB3b561_3:
	pxor	%xmm0, %xmm0
	movdqu	%xmm0, -17(%rbx,%rax)
	movb	$0, -1(%rbx,%rax)
	addq	$-17, %rax
	movq	%rax, 1504(%rbx)
	leaq	-1501(%rax), %rcx
	cmpq	$-17, %rcx
	ja	.LBB3b561_9
.LBB3b561_5:
	leaq	(%rbx,%rax), %rcx
	movq	%rcx, %rdx
	subq	%r13, %rdx
	cmpq	$15, %rdx
	ja	.LBB3b561_7
	movdqu	68(%rsp), %xmm0
	jmp	.LBB3b561_8
.LBB3b561_7:
	movdqu	(%r13), %xmm0
.LBB3b561_8:
	movdqu	%xmm0, (%rcx)
	addq	$16, %rax
	movq	%rax, 1504(%rbx)
	cmpq	$1500, %rax
	jne	.LBB3b561_10
	jmp	.LBB3b561_11
.Lfunc_end3b561:
	.size	"psk_ends::channel::seal_in::<#becd8de5e2060522>", .Lfunc_end3b561-"psk_ends::channel::seal_in::<#becd8de5e2060522>"
	.cfi_endproc

	.section	".text.gpsk_ends::peer::GpskPeer::handle_step::<#e0641de541981142>","ax",@progbits
	.p2align	4
	.type	"gpsk_ends::peer::GpskPeer::handle_step::<#e0641de541981142>",@function
"gpsk_ends::peer::GpskPeer::handle_step::<#e0641de541981142>":
	.cfi_startproc
	pushq	%rbp
	.cfi_def_cfa_offset 16
	pushq	%r15
	.cfi_def_cfa_offset 24
	pushq	%r14
	.cfi_def_cfa_offset 32
	pushq	%r13
	.cfi_def_cfa_offset 40
	pushq	%r12
	.cfi_def_cfa_offset 48
	pushq	%rbx
	.cfi_def_cfa_offset 56
	subq	$440, %rsp
	.cfi_def_cfa_offset 496
	.cfi_offset %rbx, -56
	.cfi_offset %r12, -48
	.cfi_offset %r13, -40
	.cfi_offset %r14, -32
	.cfi_offset %r15, -24
	.cfi_offset %rbp, -16
	movq	%r9, %r14
	movq	%rdx, %r9
	movq	%rdi, %rbx
	movb	$0, 36(%rsp)
	movw	$0, 34(%rsp)
	movzbl	656(%rsi), %eax
	cmpl	$2, %eax
	je	.LBB6e120_6
	cmpl	$1, %eax
	jne	.LBB6e120_2
	movq	%r8, %r15
	addq	$-5, %rcx
	movzbl	1(%r9), %ebp
	addq	$5, %r9
	xorps	%xmm0, %xmm0
	movaps	%xmm0, 48(%rsp)
	movaps	%xmm0, 64(%rsp)
	movaps	%xmm0, 80(%rsp)
	movaps	%xmm0, 96(%rsp)
	movaps	%xmm0, 112(%rsp)
	leaq	48(%rsp), %rdi
	movq	%rsi, %r12
	movq	%r9, %rdx
	callq	"gpsk_ends::peer::gpsk1::fresh_reads"
	cmpb	$1, 48(%rsp)
	jne	.LBB6e120_5
	movzbl	49(%rsp), %eax
	xorl	%edx, %edx
	xorl	%ecx, %ecx
	testb	%cl, %cl
	jne	.LBB6e120_9
	jmp	.LBB6e120_8
.LBB6e120_6:
	leaq	664(%rsi), %rax
	leaq	1152(%rsi), %r10
	leaq	624(%rsi), %rdx
	movq	%r14, 16(%rsp)
	movq	%r8, 8(%rsp)
	movq	%rcx, (%rsp)
	leaq	34(%rsp), %rdi
	movq	%rax, %rcx
	movq	%r10, %r8
	callq	"gpsk_ends::peer::turns::known_reads::<#e0641de541981142>"
	movzbl	34(%rsp), %ecx
	movzbl	35(%rsp), %eax
	movzbl	36(%rsp), %edx
	testb	%cl, %cl
	jne	.LBB6e120_9
	jmp	.LBB6e120_8
.LBB6e120_2:
	movb	$22, %al
.LBB6e120_8:
	xorps	%xmm0, %xmm0
	movups	%xmm0, (%r14)
	xorl	%ecx, %ecx
	xorl	%edx, %edx
.LBB6e120_9:
	movb	%cl, (%rbx)
	movb	%al, 1(%rbx)
	movb	%dl, 2(%rbx)
	addq	$440, %rsp
	.cfi_def_cfa_offset 56
	popq	%rbx
	.cfi_def_cfa_offset 48
	popq	%r12
	.cfi_def_cfa_offset 40
	popq	%r13
	.cfi_def_cfa_offset 32
	popq	%r14
	.cfi_def_cfa_offset 24
	popq	%r15
	.cfi_def_cfa_offset 16
	popq	%rbp
	.cfi_def_cfa_offset 8
	retq
.LBB6e120_5:
	.cfi_def_cfa_offset 496
	leaq	656(%r12), %rax
	movq	%rax, 40(%rsp)
	leaq	624(%r12), %r13
	movq	120(%rsp), %rsi
	movq	%rsi, 192(%rsp)
	movups	56(%rsp), %xmm0
	movups	72(%rsp), %xmm1
	movups	88(%rsp), %xmm2
	movups	104(%rsp), %xmm3
	movaps	%xmm3, 176(%rsp)
	movaps	%xmm2, 160(%rsp)
	movaps	%xmm1, 144(%rsp)
	movaps	%xmm0, 128(%rsp)
	leaq	144(%rsp), %rax
	leaq	552(%r12), %rdx
	movq	256(%r12), %rdi
	movq	616(%r12), %rcx
	movaps	128(%rsp), %xmm0
	movups	%xmm0, 16(%rsp)
	movq	%rax, 8(%rsp)
	movq	%rdi, (%rsp)
	leaq	208(%rsp), %rdi
	movq	%r13, %r8
	movq	%r12, %r9
	callq	"login_keys::gpsk::gpsk_keys"
	movq	%r14, 16(%rsp)
	movq	%r15, 8(%rsp)
	movzbl	%bpl, %eax
	movl	%eax, (%rsp)
	leaq	37(%rsp), %rdi
	leaq	128(%rsp), %r8
	movq	%r12, %rsi
	movq	%r13, %rdx
	movq	40(%rsp), %rcx
	leaq	208(%rsp), %r9
	callq	"gpsk_ends::peer::turns::expand::<#e0641de541981142>"
	movzbl	37(%rsp), %ecx
	movzbl	38(%rsp), %eax
	movzbl	39(%rsp), %edx
	testb	%cl, %cl
	jne	.LBB6e120_9
	jmp	.LBB6e120_8
.Lfunc_end6e120:
	.size	"gpsk_ends::peer::GpskPeer::handle_step::<#e0641de541981142>", .Lfunc_end6e120-"gpsk_ends::peer::GpskPeer::handle_step::<#e0641de541981142>"
	.cfi_endproc

	.section	".text.gpsk_ends::peer::gpsk1::fresh_reads","ax",@progbits
	.p2align	4
	.type	"gpsk_ends::peer::gpsk1::fresh_reads",@function
"gpsk_ends::peer::gpsk1::fresh_reads":
	.cfi_startproc
	pushq	%rbp
	.cfi_def_cfa_offset 16
	pushq	%r15
	.cfi_def_cfa_offset 24
	pushq	%r14
	.cfi_def_cfa_offset 32
	pushq	%r13
	.cfi_def_cfa_offset 40
	pushq	%r12
	.cfi_def_cfa_offset 48
	pushq	%rbx
	.cfi_def_cfa_offset 56
	subq	$344, %rsp
	.cfi_def_cfa_offset 400
	.cfi_offset %rbx, -56
	.cfi_offset %r12, -48
	.cfi_offset %r13, -40
	.cfi_offset %r14, -32
	.cfi_offset %r15, -24
	.cfi_offset %rbp, -16
	movq	%rsi, %r12
	movq	%rdi, %rbx
	xorps	%xmm0, %xmm0
	movaps	%xmm0, 112(%rsp)
	movaps	%xmm0, 96(%rsp)
	movl	$0, 32(%rsp)
	movl	$0, 35(%rsp)
	movaps	%xmm0, 64(%rsp)
	movaps	%xmm0, 80(%rsp)
	movl	$0, 24(%rsp)
	movl	$0, 27(%rsp)
	movaps	%xmm0, 272(%rsp)
	movaps	%xmm0, 256(%rsp)
	movaps	%xmm0, 240(%rsp)
	movaps	%xmm0, 224(%rsp)
	movaps	%xmm0, 208(%rsp)
	movaps	%xmm0, 192(%rsp)
	movaps	%xmm0, 176(%rsp)
	movaps	%xmm0, 160(%rsp)
	movaps	%xmm0, 144(%rsp)
	movaps	%xmm0, 128(%rsp)
	movq	$0, 288(%rsp)
	leaq	128(%rsp), %rdi
	xorl	%r13d, %r13d
	movq	%rdx, %rsi
	movq	%rcx, %rdx
	xorl	%ecx, %ecx
	xorl	%r8d, %r8d
	callq	"gpsk_messages::reading::read_gpsk_message"
	movzbl	128(%rsp), %ecx
	movzbl	129(%rsp), %r8d
	movzbl	136(%rsp), %eax
	movq	144(%rsp), %r14
	movq	152(%rsp), %r15
	movaps	160(%rsp), %xmm0
	movaps	%xmm0, 304(%rsp)
	movdqa	176(%rsp), %xmm0
	movdqa	%xmm0, 320(%rsp)
	movb	$1, %bpl
	cmpb	$1, %cl
	jne	.LBB88bce_3
	xorl	%esi, %esi
	xorl	%r15d, %r15d
	jmp	.LBB88bce_2
.LBB88bce_3:
	testb	%al, %al
	je	.LBB88bce_5
	movb	$22, %r8b
	xorl	%esi, %esi
	xorl	%r15d, %r15d
	xorl	%r13d, %r13d
.LBB88bce_2:
	xorl	%ecx, %ecx
	xorl	%eax, %eax
.LBB88bce_39:
	movb	%bpl, (%rbx)
	movb	%r8b, 1(%rbx)
	movq	%rsi, 8(%rbx)
	movq	%r15, 16(%rbx)
	movaps	96(%rsp), %xmm0
	movaps	112(%rsp), %xmm1
	movups	%xmm0, 24(%rbx)
	movups	%xmm1, 40(%rbx)
	movq	%r13, 56(%rbx)
	movq	%rcx, 64(%rbx)
	movb	%al, 72(%rbx)
	movl	32(%rsp), %eax
	movl	35(%rsp), %ecx
	movl	%eax, 73(%rbx)
	movl	%ecx, 76(%rbx)
	addq	$344, %rsp
	.cfi_def_cfa_offset 56
	popq	%rbx
	.cfi_def_cfa_offset 48
	popq	%r12
	.cfi_def_cfa_offset 40
	popq	%r13
	.cfi_def_cfa_offset 32
	popq	%r14
	.cfi_def_cfa_offset 24
	popq	%r15
	.cfi_def_cfa_offset 16
	popq	%rbp
	.cfi_def_cfa_offset 8
	retq
.LBB88bce_5:
	.cfi_def_cfa_offset 400
	movq	192(%rsp), %r13
	movq	200(%rsp), %rcx
	cmpb	$1, 528(%r12)
	jne	.LBB88bce_19
	movb	$23, %r8b
	movb	$1, %bpl
	cmpq	%r15, 520(%r12)
	jne	.LBB88bce_7
	leaq	264(%r12), %rdi
	cmpq	$4, %r15
	jae	.LBB88bce_9
	testq	%r15, %r15
	je	.LBB88bce_19
	movzbl	(%rdi), %eax
	cmpb	(%r14), %al
	jne	.LBB88bce_13
	cmpq	$1, %r15
	je	.LBB88bce_19
	movq	%rcx, %rdx
	movzbl	265(%r12), %ecx
	movl	$1, %eax
	cmpb	1(%r14), %cl
	movq	%rdx, %rcx
	jne	.LBB88bce_18
	cmpq	$2, %r15
	je	.LBB88bce_19
	movzbl	266(%r12), %ecx
	movl	$2, %eax
	cmpb	2(%r14), %cl
	movq	%rdx, %rcx
	je	.LBB88bce_19
	jmp	.LBB88bce_18
.LBB88bce_9:
	movl	(%rdi), %eax
	cmpl	(%r14), %eax
	jne	.LBB88bce_7
	movq	%r15, %rsi
	movq	%r14, %rdx
	movq	%rcx, 16(%rsp)
	callq	"core::cmp::slices::groups_equal::<i8,31'core::cmp::numbers::U8PartialEq{}>"
	movq	16(%rsp), %rcx
	movb	$23, %r8b
	testb	%al, %al
	je	.LBB88bce_7
.LBB88bce_19:
	pxor	%xmm0, %xmm0
	movdqa	%xmm0, 128(%rsp)
	movdqa	%xmm0, 144(%rsp)
	movl	$0, 40(%rsp)
	movl	$0, 43(%rsp)
	movb	$24, %r8b
	movb	$1, %bpl
	cmpq	$6, %rcx
	jae	.LBB88bce_21
	xorl	%esi, %esi
	xorl	%r15d, %r15d
	xorl	%r13d, %r13d
	movq	$0, 16(%rsp)
	xorl	%eax, %eax
	jmp	.LBB88bce_37
.LBB88bce_21:
	movq	%r14, 56(%rsp)
	movq	%rcx, 16(%rsp)
	movq	%rcx, %rbp
	movq	%r13, 48(%rsp)
	jmp	.LBB88bce_22
	.p2align	4
.LBB88bce_35:
	addq	$6, %r13
	addq	$-6, %rbp
	cmpq	$6, %rbp
	jb	.LBB88bce_36
.LBB88bce_22:
	movl	$0, 8(%rsp)
	movw	$256, 12(%rsp)
	movd	(%r13), %xmm0
	movdqa	%xmm0, %xmm1
	psrld	$16, %xmm1
	por	%xmm0, %xmm1
	movdqa	%xmm1, %xmm0
	psrlw	$8, %xmm0
	por	%xmm1, %xmm0
	movd	%xmm0, %r14d
	testb	%r14b, %r14b
	jne	.LBB88bce_29
	leaq	8(%rsp), %rdx
	movl	$6, %esi
	movq	%r13, %rdi
	callq	"core::cmp::slices::groups_equal::<i8,31'core::cmp::numbers::U8PartialEq{}>"
	movb	$24, %r8b
	testb	%al, %al
	je	.LBB88bce_29
	movq	544(%r12), %rax
	xorl	%ecx, %ecx
	.p2align	4
.LBB88bce_25:
	cmpq	%rcx, %rax
	je	.LBB88bce_29
	cmpb	$1, 536(%r12,%rcx)
	leaq	1(%rcx), %rcx
	jne	.LBB88bce_25
	jmp	.LBB88bce_27
	.p2align	4
.LBB88bce_29:
	movb	$0, 12(%rsp)
	movl	$0, 8(%rsp)
	movb	$2, 13(%rsp)
	testb	%r14b, %r14b
	jne	.LBB88bce_35
	leaq	8(%rsp), %rdx
	movl	$6, %esi
	movq	%r13, %rdi
	callq	"core::cmp::slices::groups_equal::<i8,31'core::cmp::numbers::U8PartialEq{}>"
	movb	$24, %r8b
	testb	%al, %al
	je	.LBB88bce_35
	movq	544(%r12), %rax
	xorl	%ecx, %ecx
	.p2align	4
.LBB88bce_32:
	cmpq	%rcx, %rax
	je	.LBB88bce_35
	cmpb	$2, 536(%r12,%rcx)
	leaq	1(%rcx), %rcx
	jne	.LBB88bce_32
	movb	$1, %al
	jmp	.LBB88bce_28
.LBB88bce_27:
	xorl	%eax, %eax
.LBB88bce_28:
	movaps	304(%rsp), %xmm0
	movaps	320(%rsp), %xmm1
	movaps	%xmm1, 144(%rsp)
	movaps	%xmm0, 128(%rsp)
	movl	$0, 40(%rsp)
	movl	$0, 43(%rsp)
	xorl	%ebp, %ebp
	xorl	%r8d, %r8d
	movq	56(%rsp), %rsi
	movq	48(%rsp), %r13
.LBB88bce_37:
	movdqa	128(%rsp), %xmm0
	movaps	144(%rsp), %xmm1
	movaps	%xmm1, 80(%rsp)
	movdqa	%xmm0, 64(%rsp)
	movl	40(%rsp), %ecx
	movl	43(%rsp), %edx
	movl	%ecx, 24(%rsp)
	movl	%edx, 27(%rsp)
	jmp	.LBB88bce_38
.LBB88bce_36:
	xorl	%esi, %esi
	xorl	%r15d, %r15d
	xorl	%r13d, %r13d
	movq	$0, 16(%rsp)
	xorl	%eax, %eax
	movb	$1, %bpl
	jmp	.LBB88bce_37
.LBB88bce_13:
	xorl	%eax, %eax
.LBB88bce_18:
	cmpq	%r15, %rax
	jae	.LBB88bce_19
.LBB88bce_7:
	xorl	%esi, %esi
	xorl	%r15d, %r15d
	xorl	%r13d, %r13d
	movq	$0, 16(%rsp)
	xorl	%eax, %eax
.LBB88bce_38:
	movdqa	64(%rsp), %xmm0
	movaps	80(%rsp), %xmm1
	movaps	%xmm1, 112(%rsp)
	movdqa	%xmm0, 96(%rsp)
	movl	24(%rsp), %ecx
	movl	27(%rsp), %edx
	movl	%ecx, 32(%rsp)
	movl	%edx, 35(%rsp)
	movq	16(%rsp), %rcx
	jmp	.LBB88bce_39
.Lfunc_end88bce:
	.size	"gpsk_ends::peer::gpsk1::fresh_reads", .Lfunc_end88bce-"gpsk_ends::peer::gpsk1::fresh_reads"
	.cfi_endproc

	.section	".text.gpsk_messages::reading::read_gpsk_message","ax",@progbits
	.p2align	4
	.type	"gpsk_messages::reading::read_gpsk_message",@function
"gpsk_messages::reading::read_gpsk_message":
	.cfi_startproc
	pushq	%rbp
	.cfi_def_cfa_offset 16
	pushq	%r15
	.cfi_def_cfa_offset 24
	pushq	%r14
	.cfi_def_cfa_offset 32
	pushq	%r13
	.cfi_def_cfa_offset 40
	pushq	%r12
	.cfi_def_cfa_offset 48
	pushq	%rbx
	.cfi_def_cfa_offset 56
	subq	$344, %rsp
	.cfi_def_cfa_offset 400
	.cfi_offset %rbx, -56
	.cfi_offset %r12, -48
	.cfi_offset %r13, -40
	.cfi_offset %r14, -32
	.cfi_offset %r15, -24
	.cfi_offset %rbp, -16
	xorps	%xmm0, %xmm0
	movaps	%xmm0, 272(%rsp)
	movl	$0, 112(%rsp)
	movl	$0, 115(%rsp)
	movaps	%xmm0, 304(%rsp)
	movl	$0, 128(%rsp)
	movl	$0, 131(%rsp)
	movaps	%xmm0, 288(%rsp)
	movl	$0, 120(%rsp)
	movl	$0, 123(%rsp)
	testq	%rdx, %rdx
	je	.LBB5c95d_53
	movzbl	(%rsi), %eax
	decl	%eax
	cmpl	$5, %eax
	ja	.LBB5c95d_53
	leaq	.LJTI5c95d_0(%rip), %r9
	movslq	(%r9,%rax,4), %rax
	addq	%r9, %rax
	jmpq	*%rax
.LBB5c95d_3:
	movaps	%xmm0, 208(%rsp)
	cmpq	$3, %rdx
	jb	.LBB5c95d_8
	addq	$-3, %rdx
	movzwl	1(%rsi), %eax
	rolw	$8, %ax
	movzwl	%ax, %r10d
	subq	%r10, %rdx
	setb	%al
	cmpl	$254, %r10d
	setae	%cl
	orb	%al, %cl
	jne	.LBB5c95d_8
	cmpq	$32, %rdx
	jb	.LBB5c95d_8
	movq	%rdx, %rax
	andq	$-2, %rax
	cmpq	$32, %rax
	je	.LBB5c95d_8
	addq	$3, %rsi
	leaq	(%rsi,%r10), %rax
	addq	$-34, %rdx
	movzwl	32(%rax), %r8d
	movl	%r8d, %ecx
	rolw	$8, %cx
	movzwl	%cx, %ecx
	cmpq	%rcx, %rdx
	jae	.LBB5c95d_66
.LBB5c95d_8:
	movaps	%xmm0, 80(%rsp)
	movl	$0, (%rsp)
	movl	$0, 3(%rsp)
	movq	$0, 16(%rsp)
	xorl	%esi, %esi
	movq	$0, 32(%rsp)
	movq	$0, 8(%rsp)
	xorl	%r12d, %r12d
	xorl	%r8d, %r8d
	xorl	%edx, %edx
.LBB5c95d_9:
	movq	$0, 40(%rsp)
	jmp	.LBB5c95d_42
.LBB5c95d_10:
	cmpq	$5, %rdx
	jne	.LBB5c95d_53
	movl	1(%rsi), %r15d
	bswapl	%r15d
	movb	$4, %al
	xorl	%esi, %esi
	xorl	%r9d, %r9d
.LBB5c95d_12:
	movq	$0, 8(%rsp)
.LBB5c95d_13:
	xorl	%r12d, %r12d
.LBB5c95d_14:
	movq	%r9, 32(%rsp)
	movaps	%xmm0, 208(%rsp)
	movl	$0, 176(%rsp)
	movl	$0, 179(%rsp)
	movq	$0, 192(%rsp)
	movq	$0, 64(%rsp)
	movq	$0, 56(%rsp)
	movq	$0, 48(%rsp)
	xorl	%ecx, %ecx
	movq	$0, 72(%rsp)
	xorl	%ebp, %ebp
	xorl	%r13d, %r13d
	xorl	%r11d, %r11d
	xorl	%r9d, %r9d
	xorl	%r10d, %r10d
	xorl	%edx, %edx
	xorl	%r8d, %r8d
	movzbl	%al, %r14d
	leal	-2(%r14), %ebx
	cmpl	$4, %ebx
	jb	.LBB5c95d_49
	jmp	.LBB5c95d_46
.LBB5c95d_15:
	movaps	%xmm0, 208(%rsp)
	cmpq	$33, %rdx
	jb	.LBB5c95d_41
	leaq	-1(%rdx), %rax
	movq	%rax, %rcx
	andq	$-32, %rcx
	cmpq	$32, %rcx
	je	.LBB5c95d_41
	andq	$-2, %rax
	cmpq	$64, %rax
	je	.LBB5c95d_41
	addq	$-67, %rdx
	movzwl	65(%rsi), %eax
	rolw	$8, %ax
	movzwl	%ax, %r9d
	subq	%r9, %rdx
	setae	%al
	cmpl	$254, %r9d
	setb	%cl
	testb	%al, %cl
	je	.LBB5c95d_41
	cmpq	$6, %rdx
	jb	.LBB5c95d_41
	leaq	(%rsi,%r9), %rcx
	addq	$67, %rcx
	cmpb	$0, (%rcx)
	jne	.LBB5c95d_41
	cmpb	$0, 1(%rcx)
	jne	.LBB5c95d_41
	cmpb	$0, 2(%rcx)
	jne	.LBB5c95d_41
	cmpb	$0, 3(%rcx)
	jne	.LBB5c95d_41
	cmpb	$0, 4(%rcx)
	jne	.LBB5c95d_41
	movq	%rdx, %r8
	movq	%rdi, %rax
	movq	%rcx, %rdx
	movzbl	5(%rcx), %ecx
	cmpl	$1, %ecx
	je	.LBB5c95d_82
	cmpl	$2, %ecx
	movq	%rax, %rdi
	jne	.LBB5c95d_41
	movb	$1, %r11b
	movl	$32, %ecx
	jmp	.LBB5c95d_83
.LBB5c95d_28:
	cmpq	$3, %rdx
	jb	.LBB5c95d_53
	movzwl	1(%rsi), %eax
	rolw	$8, %ax
	addq	$-3, %rdx
	movzwl	%ax, %r9d
	movq	%rdx, %r12
	subq	%r9, %r12
	jb	.LBB5c95d_53
	cmpb	$1, %cl
	jne	.LBB5c95d_62
	movzbl	%r8b, %eax
	cmpq	%rax, %r12
	jne	.LBB5c95d_53
	jmp	.LBB5c95d_64
.LBB5c95d_32:
	movaps	%xmm0, 320(%rsp)
	movl	$0, 136(%rsp)
	movl	$0, 139(%rsp)
	cmpq	$3, %rdx
	jb	.LBB5c95d_41
	addq	$-3, %rdx
	movzwl	1(%rsi), %eax
	rolw	$8, %ax
	movzwl	%ax, %r15d
	subq	%r15, %rdx
	setb	%al
	cmpl	$254, %r15d
	setae	%cl
	orb	%al, %cl
	jne	.LBB5c95d_41
	cmpq	$2, %rdx
	jb	.LBB5c95d_41
	leaq	(%rsi,%r15), %rax
	addq	$3, %rax
	addq	$-2, %rdx
	movq	%rax, %r8
	movzwl	(%rax), %eax
	rolw	$8, %ax
	movzwl	%ax, %r12d
	subq	%r12, %rdx
	setae	%al
	cmpl	$254, %r12d
	setb	%cl
	testb	%al, %cl
	je	.LBB5c95d_41
	cmpq	$32, %rdx
	jb	.LBB5c95d_41
	addq	$2, %r8
	movups	(%r8,%r12), %xmm0
	movaps	%xmm0, 176(%rsp)
	movq	%rdx, %rax
	andq	$-32, %rax
	cmpq	$32, %rax
	je	.LBB5c95d_40
	leaq	(%r8,%r12), %r10
	movq	16(%r8,%r12), %rbx
	movq	%r8, 8(%rsp)
	movq	24(%r8,%r12), %r13
	movq	32(%r10), %r8
	movq	40(%r10), %r14
	movzbl	48(%r10), %r9d
	movl	52(%r10), %eax
	movl	%eax, 171(%rsp)
	movl	49(%r10), %eax
	movl	%eax, 168(%rsp)
	movq	%rdx, %rax
	andq	$-2, %rax
	cmpq	$64, %rax
	je	.LBB5c95d_40
	addq	$-66, %rdx
	movzwl	64(%r10), %eax
	movl	%eax, %ecx
	rolw	$8, %cx
	movzwl	%cx, %r11d
	movq	%r11, 72(%rsp)
	subq	%r11, %rdx
	jae	.LBB5c95d_72
.LBB5c95d_40:
	xorps	%xmm0, %xmm0
.LBB5c95d_41:
	movaps	%xmm0, 80(%rsp)
	movl	$0, (%rsp)
	movl	$0, 3(%rsp)
	movq	$0, 16(%rsp)
	movq	$0, 40(%rsp)
	xorl	%esi, %esi
	movq	$0, 32(%rsp)
	movq	$0, 8(%rsp)
	xorl	%r12d, %r12d
	xorl	%r8d, %r8d
	xorl	%edx, %edx
.LBB5c95d_42:
	xorl	%r10d, %r10d
	xorl	%r9d, %r9d
	xorl	%r11d, %r11d
	xorl	%r13d, %r13d
	xorl	%ebp, %ebp
	xorl	%r14d, %r14d
	movq	$0, 24(%rsp)
.LBB5c95d_43:
	xorl	%ecx, %ecx
	movq	$0, 48(%rsp)
	movq	$0, 56(%rsp)
	movq	$0, 64(%rsp)
.LBB5c95d_44:
	movaps	80(%rsp), %xmm0
	movaps	%xmm0, 208(%rsp)
	movl	(%rsp), %eax
	movl	3(%rsp), %ebx
	movl	%eax, 176(%rsp)
	movl	%ebx, 179(%rsp)
	cmpb	$0, 16(%rsp)
	je	.LBB5c95d_51
	xorl	%r15d, %r15d
	movq	%r14, 72(%rsp)
	movzbl	24(%rsp), %eax
	movq	%rax, 192(%rsp)
	movq	40(%rsp), %rax
	movzbl	%al, %r14d
	leal	-2(%r14), %ebx
	cmpl	$4, %ebx
	jb	.LBB5c95d_49
.LBB5c95d_46:
	movq	%rdx, %rbx
	testl	%r14d, %r14d
	je	.LBB5c95d_48
	movq	72(%rsp), %rbx
.LBB5c95d_48:
	cmpq	$120, %rbx
	ja	.LBB5c95d_59
.LBB5c95d_49:
	movq	%rcx, 240(%rsp)
	movq	%rbp, 248(%rsp)
	movq	%rdx, 256(%rsp)
	movq	%r13, 264(%rsp)
	movq	%r11, 144(%rsp)
	movq	%r10, 152(%rsp)
	movq	%r9, 160(%rsp)
	movq	%r8, 104(%rsp)
	movq	%rsi, 16(%rsp)
	movq	32(%rsp), %rax
	movaps	208(%rsp), %xmm0
	movaps	%xmm0, 288(%rsp)
	movl	176(%rsp), %ebx
	movl	179(%rsp), %ebp
	movl	%ebx, 120(%rsp)
	movl	%ebp, 123(%rsp)
	movl	$0, 24(%rsp)
	movl	$0, 40(%rsp)
.LBB5c95d_50:
	movq	%r12, 200(%rsp)
	movq	%rax, 32(%rsp)
	movl	%r15d, 96(%rsp)
	movaps	288(%rsp), %xmm0
	movaps	%xmm0, 304(%rsp)
	movl	120(%rsp), %eax
	movl	123(%rsp), %r15d
	movl	%eax, 128(%rsp)
	movl	%r15d, 131(%rsp)
	movl	%r14d, %edx
	movq	160(%rsp), %r10
	movq	152(%rsp), %r11
	movq	144(%rsp), %rcx
	movq	264(%rsp), %rsi
	movq	256(%rsp), %rax
	movq	248(%rsp), %rbp
	movq	72(%rsp), %rbx
	movq	240(%rsp), %r8
	movq	48(%rsp), %r15
	movq	64(%rsp), %r9
	movq	56(%rsp), %r12
	movq	192(%rsp), %r13
	jmp	.LBB5c95d_55
.LBB5c95d_51:
	movb	$19, %al
	movl	%eax, 40(%rsp)
	movb	$1, %al
	movl	%eax, 24(%rsp)
	movq	$0, 16(%rsp)
	movq	$0, 32(%rsp)
	movq	$0, 8(%rsp)
	movq	$0, 200(%rsp)
	movq	$0, 104(%rsp)
	xorl	%eax, %eax
	xorl	%r11d, %r11d
	xorl	%r10d, %r10d
	xorl	%ecx, %ecx
	xorl	%esi, %esi
	xorl	%ebp, %ebp
	xorl	%edx, %edx
	xorl	%ebx, %ebx
	xorl	%r13d, %r13d
	xorl	%r8d, %r8d
	xorl	%r15d, %r15d
	xorl	%r12d, %r12d
	xorl	%r9d, %r9d
	jmp	.LBB5c95d_54
.LBB5c95d_52:
	cmpq	$5, %rdx
	jae	.LBB5c95d_56
.LBB5c95d_53:
	movq	$0, 16(%rsp)
	movb	$19, %al
	movl	%eax, 40(%rsp)
	movb	$1, %al
	movl	%eax, 24(%rsp)
	movq	$0, 32(%rsp)
	movq	$0, 8(%rsp)
	movq	$0, 200(%rsp)
	movq	$0, 104(%rsp)
	xorl	%eax, %eax
	xorl	%r11d, %r11d
	xorl	%r10d, %r10d
	xorl	%ecx, %ecx
	xorl	%esi, %esi
	xorl	%ebp, %ebp
	xorl	%ebx, %ebx
	xorl	%r13d, %r13d
	xorl	%r8d, %r8d
	xorl	%r15d, %r15d
	xorl	%r12d, %r12d
	xorl	%r9d, %r9d
	xorl	%edx, %edx
.LBB5c95d_54:
	movl	$0, 96(%rsp)
.LBB5c95d_55:
	movl	128(%rsp), %r14d
	movl	%r14d, 112(%rsp)
	movl	131(%rsp), %r14d
	movl	%r14d, 115(%rsp)
	movaps	304(%rsp), %xmm0
	movaps	%xmm0, 272(%rsp)
	movl	24(%rsp), %r14d
	movb	%r14b, (%rdi)
	movl	40(%rsp), %r14d
	movb	%r14b, 1(%rdi)
	movl	%edx, 8(%rdi)
	movl	96(%rsp), %edx
	movl	%edx, 12(%rdi)
	movq	16(%rsp), %rdx
	movq	%rdx, 16(%rdi)
	movq	32(%rsp), %rdx
	movq	%rdx, 24(%rdi)
	movq	8(%rsp), %rdx
	movq	%rdx, 32(%rdi)
	movq	200(%rsp), %rdx
	movq	%rdx, 40(%rdi)
	movaps	272(%rsp), %xmm0
	movups	%xmm0, 48(%rdi)
	movq	104(%rsp), %rdx
	movq	%rdx, 64(%rdi)
	movq	%rax, 72(%rdi)
	movq	%r11, 80(%rdi)
	movq	%r10, 88(%rdi)
	movb	%cl, 96(%rdi)
	movl	112(%rsp), %eax
	movl	115(%rsp), %edx
	movl	%eax, 97(%rdi)
	movl	%edx, 100(%rdi)
	movq	%rsi, 104(%rdi)
	movq	%rbp, 112(%rdi)
	movq	%rbx, 120(%rdi)
	movq	%r13, 128(%rdi)
	movq	%r8, 136(%rdi)
	movq	%r15, 144(%rdi)
	movq	%r12, 152(%rdi)
	movq	%r9, 160(%rdi)
	addq	$344, %rsp
	.cfi_def_cfa_offset 56
	popq	%rbx
	.cfi_def_cfa_offset 48
	popq	%r12
	.cfi_def_cfa_offset 40
	popq	%r13
	.cfi_def_cfa_offset 32
	popq	%r14
	.cfi_def_cfa_offset 24
	popq	%r15
	.cfi_def_cfa_offset 16
	popq	%rbp
	.cfi_def_cfa_offset 8
	retq
.LBB5c95d_56:
	.cfi_def_cfa_offset 400
	leaq	-5(%rdx), %r9
	movl	1(%rsi), %r15d
	addq	$5, %rsi
	bswapl	%r15d
	cmpb	$1, %cl
	jne	.LBB5c95d_60
	movzbl	%r8b, %ecx
	cmpq	%rcx, %r9
	jne	.LBB5c95d_53
	movb	$5, %al
	jmp	.LBB5c95d_12
.LBB5c95d_59:
	movq	$0, 16(%rsp)
	movb	$20, %al
	movl	%eax, 40(%rsp)
	movb	$1, %al
	movl	%eax, 24(%rsp)
	xorl	%eax, %eax
	movq	$0, 8(%rsp)
	xorl	%r12d, %r12d
	movq	$0, 104(%rsp)
	movq	$0, 256(%rsp)
	movq	$0, 152(%rsp)
	movq	$0, 160(%rsp)
	movq	$0, 144(%rsp)
	movq	$0, 264(%rsp)
	movq	$0, 248(%rsp)
	movq	$0, 72(%rsp)
	movq	$0, 192(%rsp)
	movq	$0, 240(%rsp)
	movq	$0, 48(%rsp)
	movq	$0, 56(%rsp)
	movq	$0, 64(%rsp)
	xorl	%r14d, %r14d
	xorl	%r15d, %r15d
	jmp	.LBB5c95d_50
.LBB5c95d_60:
	movb	$5, %al
	movq	$0, 8(%rsp)
	cmpq	$21, %rdx
	je	.LBB5c95d_13
	movl	$0, %r12d
	cmpq	$37, %rdx
	je	.LBB5c95d_14
	jmp	.LBB5c95d_53
.LBB5c95d_62:
	cmpq	$32, %r12
	je	.LBB5c95d_64
	cmpq	$16, %r12
	jne	.LBB5c95d_53
.LBB5c95d_64:
	leaq	(%rsi,%r9), %rax
	addq	$3, %rax
	movq	%rax, 8(%rsp)
	addq	$3, %rsi
	xorl	%r15d, %r15d
	movb	$3, %al
	jmp	.LBB5c95d_14
.LBB5c95d_66:
	testw	%r8w, %r8w
	je	.LBB5c95d_8
	imull	$43691, %ecx, %r8d
	shrl	$17, %r8d
	andl	$-2, %r8d
	leal	(%r8,%r8,2), %r8d
	movl	%ecx, %r9d
	subl	%r8d, %r9d
	testw	%r9w, %r9w
	jne	.LBB5c95d_8
	cmpq	%rcx, %rdx
	jne	.LBB5c95d_70
	leaq	34(%rax), %r8
	movq	(%rax), %rcx
	movq	%rcx, 8(%rsp)
	movq	8(%rax), %r12
	movups	16(%rax), %xmm0
	movaps	%xmm0, 208(%rsp)
	movb	$1, %al
	movq	%rax, 16(%rsp)
	jmp	.LBB5c95d_71
.LBB5c95d_70:
	movq	$0, 8(%rsp)
	xorl	%r12d, %r12d
	xorl	%r8d, %r8d
	xorl	%edx, %edx
	xorl	%esi, %esi
	xorl	%r10d, %r10d
	movq	$0, 16(%rsp)
.LBB5c95d_71:
	movq	%r10, 32(%rsp)
	movaps	208(%rsp), %xmm0
	movaps	%xmm0, 80(%rsp)
	movl	$0, (%rsp)
	movl	$0, 3(%rsp)
	jmp	.LBB5c95d_9
.LBB5c95d_72:
	testw	%ax, %ax
	je	.LBB5c95d_40
	movq	72(%rsp), %rcx
	imull	$43691, %ecx, %eax
	shrl	$17, %eax
	andl	$-2, %eax
	leal	(%rax,%rax,2), %eax
	subl	%eax, %ecx
	testw	%cx, %cx
	jne	.LBB5c95d_40
	movq	%r9, 144(%rsp)
	movq	%r8, 152(%rsp)
	movq	%r14, 160(%rsp)
	movq	%rbx, 104(%rsp)
	movq	%rsi, %rbp
	movq	%rdi, 96(%rsp)
	movq	56(%r10), %r14
	movq	%r10, %rbx
	movq	72(%rsp), %rax
	leaq	(%r10,%rax), %rsi
	addq	$66, %rsi
	leaq	208(%rsp), %rdi
	callq	"gpsk_messages::fields::suite_field"
	cmpb	$1, 208(%rsp)
	jne	.LBB5c95d_77
	movq	232(%rsp), %rsi
	cmpq	$2, %rsi
	jb	.LBB5c95d_77
	movq	224(%rsp), %rax
	addq	$-2, %rsi
	movq	%rax, %rcx
	movzwl	(%rax), %eax
	rolw	$8, %ax
	movzwl	%ax, %edx
	movq	%rdx, 48(%rsp)
	subq	%rdx, %rsi
	jae	.LBB5c95d_78
.LBB5c95d_77:
	xorps	%xmm0, %xmm0
	movaps	%xmm0, 80(%rsp)
	movl	$0, (%rsp)
	movl	$0, 3(%rsp)
	movq	$0, 16(%rsp)
	movq	$0, 40(%rsp)
	xorl	%esi, %esi
	movq	$0, 32(%rsp)
	movq	$0, 8(%rsp)
	xorl	%r12d, %r12d
	xorl	%r8d, %r8d
	xorl	%edx, %edx
	xorl	%r10d, %r10d
	xorl	%r9d, %r9d
	xorl	%r11d, %r11d
	xorl	%r13d, %r13d
	xorl	%ebp, %ebp
	xorl	%r14d, %r14d
	movq	$0, 24(%rsp)
	xorl	%ecx, %ecx
	movq	$0, 48(%rsp)
	movq	$0, 56(%rsp)
	movq	$0, 64(%rsp)
	movq	96(%rsp), %rdi
	jmp	.LBB5c95d_44
.LBB5c95d_78:
	movzbl	216(%rsp), %edx
	xorl	%eax, %eax
	movq	%rdx, 24(%rsp)
	testb	%dl, %dl
	setne	%al
	shll	$4, %eax
	addq	$16, %rax
	movq	%rsi, 64(%rsp)
	cmpq	%rax, %rsi
	jne	.LBB5c95d_80
	addq	$3, %rbp
	addq	$66, %rbx
	movq	48(%rsp), %rax
	addq	%rcx, %rax
	addq	$2, %rax
	movq	%rax, 56(%rsp)
	addq	$2, %rcx
	movaps	176(%rsp), %xmm0
	movaps	%xmm0, 320(%rsp)
	movl	168(%rsp), %eax
	movl	171(%rsp), %edx
	movl	%eax, 136(%rsp)
	movl	%edx, 139(%rsp)
	movb	$1, %al
	movq	%rax, 16(%rsp)
	jmp	.LBB5c95d_81
.LBB5c95d_80:
	movq	$0, 104(%rsp)
	xorl	%r13d, %r13d
	movq	$0, 152(%rsp)
	movq	$0, 160(%rsp)
	movq	$0, 144(%rsp)
	xorl	%r14d, %r14d
	xorl	%ecx, %ecx
	movq	$0, 48(%rsp)
	xorl	%ebx, %ebx
	movq	$0, 72(%rsp)
	movq	$0, 8(%rsp)
	xorl	%r12d, %r12d
	xorl	%ebp, %ebp
	xorl	%r15d, %r15d
	movq	$0, 24(%rsp)
	movq	$0, 56(%rsp)
	movq	$0, 64(%rsp)
	movq	$0, 16(%rsp)
.LBB5c95d_81:
	movq	%r15, 32(%rsp)
	movaps	320(%rsp), %xmm0
	movaps	%xmm0, 80(%rsp)
	movl	136(%rsp), %eax
	movl	139(%rsp), %edx
	movl	%eax, (%rsp)
	movl	%edx, 3(%rsp)
	movq	16(%rsp), %rax
	movq	%rax, 40(%rsp)
	movq	96(%rsp), %rdi
	movq	%rbp, %rsi
	movq	%r13, %rdx
	movq	104(%rsp), %r8
	movq	160(%rsp), %r9
	movq	152(%rsp), %r10
	movq	144(%rsp), %r11
	movq	%r14, %r13
	movq	%rbx, %rbp
	movq	72(%rsp), %r14
	jmp	.LBB5c95d_44
.LBB5c95d_82:
	xorl	%r11d, %r11d
	movl	$16, %ecx
.LBB5c95d_83:
	movq	%rcx, 24(%rsp)
	cmpq	$8, %r8
	jb	.LBB5c95d_85
	addq	$-8, %r8
	movzwl	6(%rdx), %edi
	rolw	$8, %di
	movzwl	%di, %edi
	subq	%rdi, %r8
	jae	.LBB5c95d_86
.LBB5c95d_85:
	movaps	%xmm0, 80(%rsp)
	movl	$0, (%rsp)
	movl	$0, 3(%rsp)
	movq	$0, 16(%rsp)
	movq	$0, 40(%rsp)
	xorl	%esi, %esi
	movq	$0, 32(%rsp)
	movq	$0, 8(%rsp)
	xorl	%r12d, %r12d
	xorl	%r8d, %r8d
	xorl	%edx, %edx
	xorl	%r10d, %r10d
	xorl	%r9d, %r9d
	xorl	%r11d, %r11d
	xorl	%r13d, %r13d
	xorl	%ebp, %ebp
	xorl	%r14d, %r14d
	movq	$0, 24(%rsp)
	jmp	.LBB5c95d_90
.LBB5c95d_86:
	movq	%rdi, %rbp
	cmpq	24(%rsp), %r8
	jne	.LBB5c95d_88
	leaq	33(%rsi), %rdi
	leaq	67(%rsi), %r10
	leaq	(%rdx,%rbp), %r14
	addq	$8, %r14
	addq	$8, %rdx
	movq	%rdx, %r13
	movq	9(%rsi), %rcx
	movq	17(%rsi), %rdx
	movq	%rdx, 8(%rsp)
	movq	25(%rsi), %r12
	movq	49(%rsi), %r8
	movq	57(%rsi), %rdx
	movq	1(%rsi), %rsi
	movups	(%rdi), %xmm0
	movaps	%xmm0, 208(%rsp)
	movb	$2, %dil
	movq	%rdi, 40(%rsp)
	movb	$1, %dil
	movq	%rdi, 16(%rsp)
	jmp	.LBB5c95d_89
.LBB5c95d_88:
	xorl	%esi, %esi
	xorl	%ecx, %ecx
	movq	$0, 8(%rsp)
	xorl	%r12d, %r12d
	xorl	%r8d, %r8d
	xorl	%edx, %edx
	xorl	%r13d, %r13d
	xorl	%ebp, %ebp
	xorl	%r10d, %r10d
	xorl	%r9d, %r9d
	xorl	%r11d, %r11d
	xorl	%r14d, %r14d
	movq	$0, 24(%rsp)
	movq	$0, 16(%rsp)
	movq	$0, 40(%rsp)
.LBB5c95d_89:
	movq	%rcx, 32(%rsp)
	movaps	208(%rsp), %xmm0
	movaps	%xmm0, 80(%rsp)
	movl	$0, (%rsp)
	movl	$0, 3(%rsp)
.LBB5c95d_90:
	movq	%rax, %rdi
	jmp	.LBB5c95d_43
.Lfunc_end5c95d:
	.size	"gpsk_messages::reading::read_gpsk_message", .Lfunc_end5c95d-"gpsk_messages::reading::read_gpsk_message"
	.cfi_endproc
	.section	".rodata.gpsk_messages::reading::read_gpsk_message","a",@progbits
	.p2align	2, 0x0
.LJTI5c95d_0:
	.long	.LBB5c95d_3-.LJTI5c95d_0
	.long	.LBB5c95d_32-.LJTI5c95d_0
	.long	.LBB5c95d_15-.LJTI5c95d_0
	.long	.LBB5c95d_28-.LJTI5c95d_0
	.long	.LBB5c95d_10-.LJTI5c95d_0
	.long	.LBB5c95d_52-.LJTI5c95d_0

	.section	".text.gpsk_messages::fields::suite_field","ax",@progbits
	.p2align	4
	.type	"gpsk_messages::fields::suite_field",@function
"gpsk_messages::fields::suite_field":
	.cfi_startproc
	movl	$0, -5(%rsp)
	movl	$0, -8(%rsp)
	cmpq	$6, %rdx
	jb	.LBB4b980_1
	cmpb	$0, (%rsi)
	jne	.LBB4b980_1
	cmpb	$0, 1(%rsi)
	jne	.LBB4b980_1
	cmpb	$0, 2(%rsi)
	jne	.LBB4b980_1
	cmpb	$0, 3(%rsi)
	jne	.LBB4b980_1
	cmpb	$0, 4(%rsi)
	je	.LBB4b980_7
.LBB4b980_1:
	xorl	%eax, %eax
	xorl	%ecx, %ecx
	xorl	%edx, %edx
	xorl	%esi, %esi
.LBB4b980_12:
	movq	%rcx, (%rdi)
	movb	%al, 8(%rdi)
	movl	-8(%rsp), %eax
	movl	-5(%rsp), %ecx
	movl	%eax, 9(%rdi)
	movl	%ecx, 12(%rdi)
	movq	%rsi, 16(%rdi)
	movq	%rdx, 24(%rdi)
	retq
.LBB4b980_7:
	movzbl	5(%rsi), %eax
	cmpl	$1, %eax
	je	.LBB4b980_8
	cmpl	$2, %eax
	jne	.LBB4b980_13
	movb	$1, %al
	jmp	.LBB4b980_11
.LBB4b980_8:
	xorl	%eax, %eax
.LBB4b980_11:
	addq	$-6, %rdx
	addq	$6, %rsi
	movl	$1, %ecx
	jmp	.LBB4b980_12
.LBB4b980_13:
	xorps	%xmm0, %xmm0
	movups	%xmm0, 16(%rdi)
	movups	%xmm0, (%rdi)
	retq
.Lfunc_end4b980:
	.size	"gpsk_messages::fields::suite_field", .Lfunc_end4b980-"gpsk_messages::fields::suite_field"
	.cfi_endproc

	.section	".text.login_keys::gpsk::gpsk_keys","ax",@progbits
	.p2align	4
	.type	"login_keys::gpsk::gpsk_keys",@function
"login_keys::gpsk::gpsk_keys":
	.cfi_startproc
	pushq	%rbp
	.cfi_def_cfa_offset 16
	pushq	%r15
	.cfi_def_cfa_offset 24
	pushq	%r14
	.cfi_def_cfa_offset 32
	pushq	%r13
	.cfi_def_cfa_offset 40
	pushq	%r12
	.cfi_def_cfa_offset 48
	pushq	%rbx
	.cfi_def_cfa_offset 56
	subq	$1960, %rsp
	.cfi_def_cfa_offset 2016
	.cfi_offset %rbx, -56
	.cfi_offset %r12, -48
	.cfi_offset %r13, -40
	.cfi_offset %r14, -32
	.cfi_offset %r15, -24
	.cfi_offset %rbp, -16
	movq	%r9, %r12
	movq	%r8, %rbx
	movq	%rcx, %r14
	movq	%rdx, %r15
	movl	%esi, %ebp
	movq	%rdi, 8(%rsp)
	xorps	%xmm0, %xmm0
	movaps	%xmm0, 1008(%rsp)
	movaps	%xmm0, 992(%rsp)
	movaps	%xmm0, 976(%rsp)
	movaps	%xmm0, 960(%rsp)
	movaps	%xmm0, 944(%rsp)
	movaps	%xmm0, 928(%rsp)
	movaps	%xmm0, 912(%rsp)
	movaps	%xmm0, 896(%rsp)
	movaps	%xmm0, 880(%rsp)
	movaps	%xmm0, 864(%rsp)
	movaps	%xmm0, 848(%rsp)
	movaps	%xmm0, 832(%rsp)
	movaps	%xmm0, 816(%rsp)
	movaps	%xmm0, 800(%rsp)
	movq	$0, 1024(%rsp)
	movaps	%xmm0, 16(%rsp)
	movaps	%xmm0, 32(%rsp)
	movq	$0, 48(%rsp)
	movaps	%xmm0, 544(%rsp)
	movaps	%xmm0, 528(%rsp)
	movaps	%xmm0, 512(%rsp)
	movaps	%xmm0, 496(%rsp)
	movaps	%xmm0, 480(%rsp)
	movaps	%xmm0, 464(%rsp)
	movaps	%xmm0, 448(%rsp)
	movaps	%xmm0, 432(%rsp)
	movaps	%xmm0, 416(%rsp)
	movaps	%xmm0, 400(%rsp)
	movaps	%xmm0, 384(%rsp)
	movaps	%xmm0, 368(%rsp)
	movaps	%xmm0, 352(%rsp)
	movq	$0, 560(%rsp)
	movaps	%xmm0, 64(%rsp)
	movaps	%xmm0, 80(%rsp)
	movq	$0, 96(%rsp)
	movaps	%xmm0, 576(%rsp)
	movaps	%xmm0, 592(%rsp)
	movaps	%xmm0, 608(%rsp)
	movaps	%xmm0, 624(%rsp)
	movaps	%xmm0, 640(%rsp)
	movaps	%xmm0, 656(%rsp)
	movaps	%xmm0, 672(%rsp)
	movaps	%xmm0, 688(%rsp)
	movaps	%xmm0, 704(%rsp)
	movaps	%xmm0, 720(%rsp)
	movaps	%xmm0, 736(%rsp)
	movaps	%xmm0, 752(%rsp)
	movaps	%xmm0, 768(%rsp)
	movq	$0, 783(%rsp)
	leaq	1048(%rsp), %r13
	movl	$640, %edx
	movq	%r13, %rdi
	xorl	%esi, %esi
	callq	memset@PLT
	movw	$256, 1044(%rsp)
	movl	%r14d, %eax
	rolw	$8, %ax
	movw	%ax, 1046(%rsp)
	movq	%r13, %rdi
	movq	%r15, %rsi
	movq	%r14, %rdx
	callq	memcpy@PLT
	cmpb	$1, %bpl
	movb	$2, %al
	sbbb	$0, %al
	movl	$0, 1048(%rsp,%r14)
	movb	$0, 1052(%rsp,%r14)
	movb	%al, 1053(%rsp,%r14)
	leaq	(%rsp,%r14), %rax
	addq	$1054, %rax
	movq	%rax, %rcx
	subq	%rbx, %rcx
	cmpq	$31, %rcx
	ja	.LBB8df2d_2
	leaq	(%rsp,%r14), %rax
	addq	$1044, %rax
	movups	(%rbx), %xmm0
	movups	%xmm0, 10(%rax)
	movups	16(%rbx), %xmm0
	movups	%xmm0, 26(%rax)
	jmp	.LBB8df2d_3
.LBB8df2d_2:
	movups	(%rbx), %xmm0
	movups	16(%rbx), %xmm1
	movups	%xmm1, 16(%rax)
	movups	%xmm0, (%rax)
.LBB8df2d_3:
	movq	2040(%rsp), %rbx
	movq	2032(%rsp), %r13
	leaq	(%rsp,%r14), %rdi
	addq	$1086, %rdi
	movq	%r12, %rsi
	movq	2016(%rsp), %r12
	movq	%r12, %rdx
	callq	memcpy@PLT
	addq	%r14, %r12
	addq	$42, %r12
	leaq	(%rsp,%r12), %rax
	addq	$1044, %rax
	movq	%rax, %rcx
	movq	2024(%rsp), %rdx
	subq	%rdx, %rcx
	cmpq	$31, %rcx
	ja	.LBB8df2d_5
	movups	(%rdx), %xmm0
	movups	%xmm0, (%rax)
	movups	16(%rdx), %xmm0
	movups	%xmm0, 16(%rax)
	jmp	.LBB8df2d_6
.LBB8df2d_5:
	movups	(%rdx), %xmm0
	movups	16(%rdx), %xmm1
	movups	%xmm1, 16(%rax)
	movups	%xmm0, (%rax)
.LBB8df2d_6:
	leaq	(%rsp,%r12), %rdi
	addq	$1076, %rdi
	movq	%r13, %rsi
	movq	%rbx, %rdx
	callq	memcpy@PLT
	addq	%rbx, %r12
	addq	$32, %r12
	movzbl	%bpl, %r13d
	leaq	64(%rsp), %rdi
	leaq	1044(%rsp), %rcx
	movl	%r13d, %esi
	movq	%r15, %rdx
	movq	%r12, %r8
	callq	"login_keys::gpsk::master_key"
	movaps	64(%rsp), %xmm0
	movaps	80(%rsp), %xmm1
	movaps	%xmm1, 32(%rsp)
	movaps	%xmm0, 16(%rsp)
	movq	96(%rsp), %rdx
	movq	%rdx, 48(%rsp)
	xorps	%xmm0, %xmm0
	movaps	%xmm0, 320(%rsp)
	movaps	%xmm0, 304(%rsp)
	movaps	%xmm0, 288(%rsp)
	movaps	%xmm0, 272(%rsp)
	movaps	%xmm0, 256(%rsp)
	movaps	%xmm0, 240(%rsp)
	movaps	%xmm0, 224(%rsp)
	movaps	%xmm0, 208(%rsp)
	movaps	%xmm0, 192(%rsp)
	movaps	%xmm0, 176(%rsp)
	movaps	%xmm0, 160(%rsp)
	movaps	%xmm0, 144(%rsp)
	movaps	%xmm0, 128(%rsp)
	movq	$0, 335(%rsp)
	testb	%bpl, %bpl
	je	.LBB8df2d_7
	leaq	1688(%rsp), %rbx
	leaq	16(%rsp), %rsi
	movq	%rbx, %rdi
	callq	"hmac_mac::key_block"
	leaq	1752(%rsp), %r15
	movq	%r15, %rdi
	movq	%rbx, %rsi
	movl	$54, %edx
	callq	"hmac_mac::keyed_hash"
	leaq	1856(%rsp), %rdi
	movq	%rbx, %rsi
	movl	$92, %edx
	callq	"hmac_mac::keyed_hash"
	leaq	135(%rsp), %rdi
	movl	$208, %edx
	movq	%r15, %rsi
	callq	memcpy@PLT
	jmp	.LBB8df2d_9
.LBB8df2d_7:
	movaps	%xmm0, 112(%rsp)
	leaq	112(%rsp), %rbx
	leaq	16(%rsp), %rsi
	movq	%rbx, %rdi
	callq	memcpy@PLT
	leaq	128(%rsp), %rdi
	movq	%rbx, %rsi
	callq	"cmac_mac::key::CmacKey::new"
.LBB8df2d_9:
	leaq	576(%rsp), %rbx
	leaq	128(%rsp), %rsi
	movl	$215, %edx
	movq	%rbx, %rdi
	callq	memcpy@PLT
	movb	%bpl, 352(%rsp)
	leaq	353(%rsp), %rdi
	movl	$215, %edx
	movq	%rbx, %rsi
	callq	memcpy@PLT
	leaq	(%rsp,%r14), %r8
	addq	$1052, %r8
	addq	$8, %r14
	subq	%r14, %r12
	leaq	800(%rsp), %rbx
	leaq	16(%rsp), %rdx
	leaq	352(%rsp), %rcx
	movq	%rbx, %rdi
	movl	%r13d, %esi
	movq	%r12, %r9
	callq	"login_keys::gpsk::derive_keys"
	movl	$232, %edx
	movq	8(%rsp), %rdi
	movq	%rbx, %rsi
	callq	memcpy@PLT
	addq	$1960, %rsp
	.cfi_def_cfa_offset 56
	popq	%rbx
	.cfi_def_cfa_offset 48
	popq	%r12
	.cfi_def_cfa_offset 40
	popq	%r13
	.cfi_def_cfa_offset 32
	popq	%r14
	.cfi_def_cfa_offset 24
	popq	%r15
	.cfi_def_cfa_offset 16
	popq	%rbp
	.cfi_def_cfa_offset 8
	retq
.Lfunc_end8df2d:
	.size	"login_keys::gpsk::gpsk_keys", .Lfunc_end8df2d-"login_keys::gpsk::gpsk_keys"
	.cfi_endproc

	.section	".text.login_keys::gpsk::master_key","ax",@progbits
	.p2align	4
	.type	"login_keys::gpsk::master_key",@function
"login_keys::gpsk::master_key":
	.cfi_startproc
	pushq	%rbp
	.cfi_def_cfa_offset 16
	pushq	%r15
	.cfi_def_cfa_offset 24
	pushq	%r14
	.cfi_def_cfa_offset 32
	pushq	%r13
	.cfi_def_cfa_offset 40
	pushq	%r12
	.cfi_def_cfa_offset 48
	pushq	%rbx
	.cfi_def_cfa_offset 56
	subq	$328, %rsp
	.cfi_def_cfa_offset 384
	.cfi_offset %rbx, -56
	.cfi_offset %r12, -48
	.cfi_offset %r13, -40
	.cfi_offset %r14, -32
	.cfi_offset %r15, -24
	.cfi_offset %rbp, -16
	movq	%r8, %r14
	movq	%rcx, %r15
	movq	%rdx, %rax
	movq	%rdi, %rbx
	testb	%sil, %sil
	je	.LBB2eb57_1
	leaq	56(%rsp), %r12
	movl	$32, %ebp
	movl	$32, %edx
	movq	%r12, %rdi
	movq	%rax, %rsi
	callq	"hmac_mac::key_block"
	leaq	120(%rsp), %r13
	movq	%r13, %rdi
	movq	%r12, %rsi
	movl	$54, %edx
	callq	"hmac_mac::keyed_hash"
	leaq	224(%rsp), %rdi
	movq	%r12, %rsi
	movl	$92, %edx
	callq	"hmac_mac::keyed_hash"
	leaq	56(%rsp), %r12
	movq	%r12, %rdi
	movq	%r13, %rsi
	movq	%r15, %rdx
	movq	%r14, %rcx
	callq	"hmac_mac::digest_after"
	leaq	16(%rsp), %rdi
	movl	$32, %ecx
	leaq	224(%rsp), %rsi
	movq	%r12, %rdx
	callq	"hmac_mac::digest_after"
	jmp	.LBB2eb57_3
.LBB2eb57_1:
	xorps	%xmm0, %xmm0
	movaps	%xmm0, (%rsp)
	leaq	120(%rsp), %r12
	movq	%r12, %rdi
	movq	%rax, %rsi
	callq	"cmac_mac::key::CmacKey::new"
	movq	%rsp, %rdi
	movq	%r12, %rsi
	movq	%r15, %rdx
	movq	%r14, %rcx
	callq	"cmac_mac::key::CmacKey::tag_whole"
	xorps	%xmm0, %xmm0
	movaps	%xmm0, 32(%rsp)
	movaps	(%rsp), %xmm0
	movaps	%xmm0, 16(%rsp)
	movl	$16, %ebp
.LBB2eb57_3:
	movaps	16(%rsp), %xmm0
	movaps	32(%rsp), %xmm1
	movups	%xmm1, 16(%rbx)
	movups	%xmm0, (%rbx)
	movq	%rbp, 32(%rbx)
	addq	$328, %rsp
	.cfi_def_cfa_offset 56
	popq	%rbx
	.cfi_def_cfa_offset 48
	popq	%r12
	.cfi_def_cfa_offset 40
	popq	%r13
	.cfi_def_cfa_offset 32
	popq	%r14
	.cfi_def_cfa_offset 24
	popq	%r15
	.cfi_def_cfa_offset 16
	popq	%rbp
	.cfi_def_cfa_offset 8
	retq
.Lfunc_end2eb57:
	.size	"login_keys::gpsk::master_key", .Lfunc_end2eb57-"login_keys::gpsk::master_key"
	.cfi_endproc

	.section	".text.cmac_mac::key::CmacKey::tag_whole","ax",@progbits
	.p2align	4
	.type	"cmac_mac::key::CmacKey::tag_whole",@function
"cmac_mac::key::CmacKey::tag_whole":
	.cfi_startproc
	pushq	%rbp
	.cfi_def_cfa_offset 16
	pushq	%r15
	.cfi_def_cfa_offset 24
	pushq	%r14
	.cfi_def_cfa_offset 32
	pushq	%r13
	.cfi_def_cfa_offset 40
	pushq	%r12
	.cfi_def_cfa_offset 48
	pushq	%rbx
	.cfi_def_cfa_offset 56
	subq	$120, %rsp
	.cfi_def_cfa_offset 176
	.cfi_offset %rbx, -56
	.cfi_offset %r12, -48
	.cfi_offset %r13, -40
	.cfi_offset %r14, -32
	.cfi_offset %r15, -24
	.cfi_offset %rbp, -16
	movq	%rcx, %r15
	movq	%rdx, %r12
	movq	%rsi, %r14
	cmpq	$1, %rcx
	movq	%rcx, %r13
	adcq	$-1, %r13
	movq	%rdi, 56(%rsp)
	movq	%r13, %rbx
	shrq	$4, %rbx
	pxor	%xmm0, %xmm0
	je	.LBB5f7ec_1
	pxor	%xmm1, %xmm1
	movq	%r12, %rbp
	.p2align	4
.LBB5f7ec_3:
	movdqu	(%rbp), %xmm0
	pxor	%xmm1, %xmm0
	leaq	16(%rsp), %rdi
	movq	%r14, %rsi
	callq	"aes_block::Aes128::encrypt_block"
	movdqa	16(%rsp), %xmm1
	addq	$16, %rbp
	decq	%rbx
	jne	.LBB5f7ec_3
	movsd	16(%rsp), %xmm2
	movsd	24(%rsp), %xmm3
	pextrb	$15, %xmm1, %eax
	movl	%eax, 12(%rsp)
	pextrb	$14, %xmm1, %eax
	movl	%eax, 8(%rsp)
	pextrb	$13, %xmm1, %ebp
	pextrb	$12, %xmm1, %ebx
	pxor	%xmm0, %xmm0
	jmp	.LBB5f7ec_5
.LBB5f7ec_1:
	xorl	%ebx, %ebx
	xorl	%ebp, %ebp
	movl	$0, 8(%rsp)
	movl	$0, 12(%rsp)
	xorps	%xmm2, %xmm2
	xorps	%xmm3, %xmm3
.LBB5f7ec_5:
	movaps	%xmm2, 64(%rsp)
	movaps	%xmm3, 80(%rsp)
	andq	$-16, %r13
	subq	%r13, %r15
	addq	%r13, %r12
	movlps	%xmm2, 32(%rsp)
	movss	%xmm3, 40(%rsp)
	movdqa	%xmm0, 16(%rsp)
	leaq	16(%rsp), %rdi
	movq	%r12, %rsi
	movq	%r15, %rdx
	callq	memcpy@PLT
	movaps	16(%rsp), %xmm0
	movaps	%xmm0, 96(%rsp)
	leaq	32(%rsp), %rdi
	leaq	96(%rsp), %rdx
	movq	%r14, %rsi
	movq	%r15, %rcx
	callq	"cmac_mac::key::CmacKey::last_block"
	movdqa	64(%rsp), %xmm0
	punpcklqdq	80(%rsp), %xmm0
	movzbl	%bl, %eax
	pinsrb	$12, %eax, %xmm0
	movzbl	%bpl, %eax
	pinsrb	$13, %eax, %xmm0
	movzbl	8(%rsp), %eax
	pinsrb	$14, %eax, %xmm0
	movzbl	12(%rsp), %eax
	pinsrb	$15, %eax, %xmm0
	pxor	32(%rsp), %xmm0
	leaq	16(%rsp), %rdi
	movq	%r14, %rsi
	callq	"aes_block::Aes128::encrypt_block"
	movaps	16(%rsp), %xmm0
	movq	56(%rsp), %rax
	movups	%xmm0, (%rax)
	addq	$120, %rsp
	.cfi_def_cfa_offset 56
	popq	%rbx
	.cfi_def_cfa_offset 48
	popq	%r12
	.cfi_def_cfa_offset 40
	popq	%r13
	.cfi_def_cfa_offset 32
	popq	%r14
	.cfi_def_cfa_offset 24
	popq	%r15
	.cfi_def_cfa_offset 16
	popq	%rbp
	.cfi_def_cfa_offset 8
	retq
.Lfunc_end5f7ec:
	.size	"cmac_mac::key::CmacKey::tag_whole", .Lfunc_end5f7ec-"cmac_mac::key::CmacKey::tag_whole"
	.cfi_endproc

	.section	.rodata.cst16,"aM",@progbits,16
	.p2align	4, 0x0
.LCPId927e_0:
	.long	1779033703
	.long	3144134277
	.long	1013904242
	.long	2773480762
.LCPId927e_1:
	.long	1359893119
	.long	2600822924
	.long	528734635
	.long	1541459225
.LCPId927e_2:
	.byte	0,0,0,0,0,0,255,0,0,0,0,0,0,255,0,0
.LCPId927e_3:
	.byte	0,0,0,0,255,0,0,0,255,255,255,255,255,255,255,255
.LCPId927e_4:
	.byte	128,128,128,4,128,128,128,128,128,128,13,128,128,128,128,128
.LCPId927e_5:
	.byte	128,6,128,128,128,128,128,128,15,128,128,128,128,128,128,128
.LCPId927e_6:
	.byte	3,2,1,0,7,6,5,4,11,10,9,8,15,14,13,12
	.section	".text.hmac_mac::key_block","ax",@progbits
	.p2align	4
	.type	"hmac_mac::key_block",@function
"hmac_mac::key_block":
	.cfi_startproc
	pushq	%r15
	.cfi_def_cfa_offset 16
	pushq	%r14
	.cfi_def_cfa_offset 24
	pushq	%rbx
	.cfi_def_cfa_offset 32
	subq	$272, %rsp
	.cfi_def_cfa_offset 304
	.cfi_offset %rbx, -32
	.cfi_offset %r14, -24
	.cfi_offset %r15, -16
	movq	%rdi, %rbx
	xorps	%xmm0, %xmm0
	cmpq	$64, %rdx
	ja	.LBBd927e_2
	movaps	%xmm0, 96(%rsp)
	movaps	%xmm0, 80(%rsp)
	movaps	%xmm0, 64(%rsp)
	movaps	%xmm0, 48(%rsp)
	leaq	48(%rsp), %rdi
	callq	memcpy@PLT
	movdqa	48(%rsp), %xmm0
	movdqa	64(%rsp), %xmm1
	movdqa	80(%rsp), %xmm2
	movdqa	96(%rsp), %xmm3
	movdqa	%xmm2, 16(%rsp)
	movdqa	%xmm3, 32(%rsp)
	jmp	.LBBd927e_3
.LBBd927e_2:
	movaps	%xmm0, 240(%rsp)
	movaps	%xmm0, 224(%rsp)
	movaps	%xmm0, 208(%rsp)
	movaps	%xmm0, 192(%rsp)
	movq	$0, 256(%rsp)
	movaps	.LCPId927e_0(%rip), %xmm0
	movaps	%xmm0, 160(%rsp)
	movaps	.LCPId927e_1(%rip), %xmm0
	movaps	%xmm0, 176(%rsp)
	leaq	160(%rsp), %rdi
	callq	"sha2::block256::Core256::update"
	movq	256(%rsp), %r15
	movq	%r15, 144(%rsp)
	movaps	240(%rsp), %xmm0
	movaps	%xmm0, 128(%rsp)
	movaps	224(%rsp), %xmm0
	movaps	%xmm0, 112(%rsp)
	movaps	160(%rsp), %xmm0
	movaps	176(%rsp), %xmm1
	movaps	192(%rsp), %xmm2
	movaps	208(%rsp), %xmm3
	movaps	%xmm3, 96(%rsp)
	movaps	%xmm2, 80(%rsp)
	movaps	%xmm1, 64(%rsp)
	movaps	%xmm0, 48(%rsp)
	movl	$55, %edx
	subl	%r15d, %edx
	andl	$63, %edx
	incq	%rdx
	leaq	.Lstatic.13(%rip), %rsi
	leaq	48(%rsp), %r14
	movq	%r14, %rdi
	callq	"sha2::block256::Core256::update"
	movq	%r15, %xmm0
	pshufd	$68, %xmm0, %xmm1
	movdqa	%xmm0, %xmm2
	psllq	$11, %xmm2
	movdqa	%xmm1, %xmm3
	psllq	$59, %xmm3
	pblendw	$15, %xmm2, %xmm3
	psllq	$43, %xmm0
	movdqa	%xmm1, %xmm2
	psllq	$27, %xmm2
	pblendw	$15, %xmm0, %xmm2
	pand	.LCPId927e_2(%rip), %xmm2
	pand	.LCPId927e_3(%rip), %xmm3
	psllq	$3, %xmm1
	movdqa	%xmm1, %xmm0
	pshufb	.LCPId927e_4(%rip), %xmm0
	por	%xmm2, %xmm0
	pshufb	.LCPId927e_5(%rip), %xmm1
	por	%xmm3, %xmm1
	por	%xmm0, %xmm1
	pshufd	$238, %xmm1, %xmm0
	por	%xmm1, %xmm0
	movq	%xmm0, 8(%rsp)
	leaq	8(%rsp), %rsi
	movl	$8, %edx
	movq	%r14, %rdi
	callq	"sha2::block256::Core256::update"
	movdqa	.LCPId927e_6(%rip), %xmm2
	movdqa	48(%rsp), %xmm0
	movdqa	64(%rsp), %xmm1
	pshufb	%xmm2, %xmm0
	pshufb	%xmm2, %xmm1
	pxor	%xmm2, %xmm2
	movdqa	%xmm2, 16(%rsp)
	movdqa	%xmm2, 32(%rsp)
.LBBd927e_3:
	movdqu	%xmm0, (%rbx)
	movdqu	%xmm1, 16(%rbx)
	movaps	16(%rsp), %xmm0
	movaps	32(%rsp), %xmm1
	movups	%xmm0, 32(%rbx)
	movups	%xmm1, 48(%rbx)
	addq	$272, %rsp
	.cfi_def_cfa_offset 32
	popq	%rbx
	.cfi_def_cfa_offset 24
	popq	%r14
	.cfi_def_cfa_offset 16
	popq	%r15
	.cfi_def_cfa_offset 8
	retq
.Lfunc_endd927e:
	.size	"hmac_mac::key_block", .Lfunc_endd927e-"hmac_mac::key_block"
	.cfi_endproc

	.section	".text.sha2::block256::Core256::update","ax",@progbits
	.p2align	4
	.type	"sha2::block256::Core256::update",@function
"sha2::block256::Core256::update":
	.cfi_startproc
	pushq	%rbp
	.cfi_def_cfa_offset 16
	pushq	%r15
	.cfi_def_cfa_offset 24
	pushq	%r14
	.cfi_def_cfa_offset 32
	pushq	%r13
	.cfi_def_cfa_offset 40
	pushq	%r12
	.cfi_def_cfa_offset 48
	pushq	%rbx
	.cfi_def_cfa_offset 56
	pushq	%rax
	.cfi_def_cfa_offset 64
	.cfi_offset %rbx, -56
	.cfi_offset %r12, -48
	.cfi_offset %r13, -40
	.cfi_offset %r14, -32
	.cfi_offset %r15, -24
	.cfi_offset %rbp, -16
	movq	%rdx, %rbx
	movq	%rsi, %r14
	movq	%rdi, %r15
	movq	96(%rdi), %rax
	leaq	(%rax,%rdx), %rcx
	movq	%rcx, 96(%rdi)
	andq	$63, %rax
	je	.LBB42bd9_5
	movl	$64, %r12d
	subq	%rax, %r12
	leaq	(%r15,%rax), %rdi
	addq	$32, %rdi
	movq	%rdi, %rcx
	subq	%r14, %rcx
	cmpq	%r12, %rbx
	jae	.LBB42bd9_6
	cmpq	%rbx, %rcx
	jae	.LBB42bd9_9
	cmpq	$4, %rbx
	jb	.LBB42bd9_4
	leaq	(%rax,%r15), %rcx
	subq	%r14, %rcx
	addq	$32, %rcx
	cmpq	$32, %rcx
	jae	.LBB42bd9_15
.LBB42bd9_4:
	xorl	%ecx, %ecx
.LBB42bd9_26:
	movq	%rbx, %rsi
	movq	%rcx, %rdx
	andq	$3, %rsi
	je	.LBB42bd9_29
	movq	%rcx, %rdx
	.p2align	4
.LBB42bd9_28:
	movzbl	(%r14,%rdx), %r8d
	movb	%r8b, (%rdi,%rdx)
	incq	%rdx
	decq	%rsi
	jne	.LBB42bd9_28
.LBB42bd9_29:
	subq	%rbx, %rcx
	cmpq	$-4, %rcx
	ja	.LBB42bd9_59
	addq	%r15, %rax
	addq	$35, %rax
	.p2align	4
.LBB42bd9_31:
	movzbl	(%r14,%rdx), %ecx
	movb	%cl, -3(%rax,%rdx)
	movzbl	1(%r14,%rdx), %ecx
	movb	%cl, -2(%rax,%rdx)
	movzbl	2(%r14,%rdx), %ecx
	movb	%cl, -1(%rax,%rdx)
	movzbl	3(%r14,%rdx), %ecx
	movb	%cl, (%rax,%rdx)
	addq	$4, %rdx
	cmpq	%rdx, %rbx
	jne	.LBB42bd9_31
	jmp	.LBB42bd9_59
.LBB42bd9_5:
	xorl	%r12d, %r12d
	jmp	.LBB42bd9_42
.LBB42bd9_6:
	leaq	32(%r15), %r13
	cmpq	%r12, %rcx
	jae	.LBB42bd9_10
	cmpl	$60, %eax
	jbe	.LBB42bd9_13
	xorl	%eax, %eax
	jmp	.LBB42bd9_40
.LBB42bd9_9:
	movq	%r14, %rsi
	movq	%rbx, %rdx
	jmp	.LBB42bd9_48
.LBB42bd9_10:
	movq	%r14, %rsi
	movq	%r12, %rdx
	callq	memmove@PLT
	jmp	.LBB42bd9_41
.LBB42bd9_13:
	leaq	(%rax,%r15), %rcx
	subq	%r14, %rcx
	addq	$32, %rcx
	cmpq	$16, %rcx
	jae	.LBB42bd9_17
	xorl	%eax, %eax
	jmp	.LBB42bd9_40
.LBB42bd9_15:
	cmpq	$32, %rbx
	jae	.LBB42bd9_19
	xorl	%ecx, %ecx
	jmp	.LBB42bd9_23
.LBB42bd9_17:
	cmpl	$48, %eax
	jbe	.LBB42bd9_32
	xorl	%eax, %eax
	jmp	.LBB42bd9_37
.LBB42bd9_19:
	movq	%rbx, %rcx
	andq	$-32, %rcx
	leaq	(%rax,%r15), %rdx
	addq	$48, %rdx
	xorl	%esi, %esi
	.p2align	4
.LBB42bd9_20:
	movups	(%r14,%rsi), %xmm0
	movups	16(%r14,%rsi), %xmm1
	movups	%xmm0, -16(%rdx,%rsi)
	movups	%xmm1, (%rdx,%rsi)
	addq	$32, %rsi
	cmpq	%rsi, %rcx
	jne	.LBB42bd9_20
	cmpq	%rcx, %rbx
	je	.LBB42bd9_59
	testb	$28, %bl
	je	.LBB42bd9_26
.LBB42bd9_23:
	movq	%rcx, %rdx
	movq	%rbx, %rcx
	andq	$-4, %rcx
	.p2align	4
.LBB42bd9_24:
	movl	(%r14,%rdx), %esi
	movl	%esi, (%rdi,%rdx)
	addq	$4, %rdx
	cmpq	%rdx, %rcx
	jne	.LBB42bd9_24
	cmpq	%rcx, %rbx
	je	.LBB42bd9_59
	jmp	.LBB42bd9_26
.LBB42bd9_32:
	movl	%r12d, %eax
	andl	$-16, %eax
	movups	(%r14), %xmm0
	movups	%xmm0, (%rdi)
	cmpq	$16, %rax
	je	.LBB42bd9_35
	movups	16(%r14), %xmm0
	movups	%xmm0, 16(%rdi)
	cmpl	$32, %eax
	je	.LBB42bd9_35
	movups	32(%r14), %xmm0
	movups	%xmm0, 32(%rdi)
.LBB42bd9_35:
	cmpl	%eax, %r12d
	je	.LBB42bd9_41
	testb	$12, %r12b
	je	.LBB42bd9_40
.LBB42bd9_37:
	movq	%rax, %rcx
	movl	%r12d, %eax
	andl	$-4, %eax
	.p2align	4
.LBB42bd9_38:
	movl	(%r14,%rcx), %edx
	movl	%edx, (%rdi,%rcx)
	addq	$4, %rcx
	cmpq	%rcx, %rax
	jne	.LBB42bd9_38
	cmpl	%eax, %r12d
	je	.LBB42bd9_41
	.p2align	4
.LBB42bd9_40:
	movzbl	(%r14,%rax), %ecx
	movb	%cl, (%rdi,%rax)
	incq	%rax
	cmpq	%rax, %r12
	jne	.LBB42bd9_40
.LBB42bd9_41:
	movq	%r15, %rdi
	movq	%r13, %rsi
	callq	"sha2::block256::compress"
.LBB42bd9_42:
	movq	%rbx, (%rsp)
	subq	%r12, %rbx
	movq	%rbx, %rbp
	shrq	$6, %rbp
	je	.LBB42bd9_45
	leaq	(%r14,%r12), %r13
	.p2align	4
.LBB42bd9_44:
	movq	%r15, %rdi
	movq	%r13, %rsi
	callq	"sha2::block256::compress"
	addq	$64, %r13
	decq	%rbp
	jne	.LBB42bd9_44
.LBB42bd9_45:
	andq	$-64, %rbx
	leaq	(%rbx,%r12), %rcx
	leaq	(%r14,%rcx), %rsi
	movq	(%rsp), %rdx
	subq	%rcx, %rdx
	leaq	32(%r15), %rdi
	movq	%rdi, %rax
	subq	%rsi, %rax
	cmpq	%rdx, %rax
	jae	.LBB42bd9_48
	cmpq	$4, %rdx
	jb	.LBB42bd9_47
	addq	%r14, %r12
	addq	%rbx, %r12
	movq	%r15, %rax
	subq	%r12, %rax
	addq	$32, %rax
	cmpq	$32, %rax
	jae	.LBB42bd9_51
.LBB42bd9_47:
	xorl	%eax, %eax
	jmp	.LBB42bd9_61
.LBB42bd9_48:
	addq	$8, %rsp
	.cfi_def_cfa_offset 56
	popq	%rbx
	.cfi_def_cfa_offset 48
	popq	%r12
	.cfi_def_cfa_offset 40
	popq	%r13
	.cfi_def_cfa_offset 32
	popq	%r14
	.cfi_def_cfa_offset 24
	popq	%r15
	.cfi_def_cfa_offset 16
	popq	%rbp
	.cfi_def_cfa_offset 8
	jmp	memmove@PLT
.LBB42bd9_51:
	.cfi_def_cfa_offset 64
	cmpq	$32, %rdx
	jae	.LBB42bd9_53
	xorl	%eax, %eax
	jmp	.LBB42bd9_57
.LBB42bd9_53:
	movq	%rdx, %rax
	andq	$-32, %rax
	addq	%r14, %rcx
	addq	$16, %rcx
	xorl	%r8d, %r8d
	.p2align	4
.LBB42bd9_54:
	movups	-16(%rcx,%r8), %xmm0
	movups	(%rcx,%r8), %xmm1
	movups	%xmm0, 32(%r15,%r8)
	movups	%xmm1, 48(%r15,%r8)
	addq	$32, %r8
	cmpq	%r8, %rax
	jne	.LBB42bd9_54
	cmpq	%rax, %rdx
	je	.LBB42bd9_59
	testb	$28, %dl
	je	.LBB42bd9_61
.LBB42bd9_57:
	movq	%rax, %rcx
	movq	%rdx, %rax
	andq	$-4, %rax
	.p2align	4
.LBB42bd9_58:
	movl	(%rsi,%rcx), %r8d
	movl	%r8d, (%rdi,%rcx)
	addq	$4, %rcx
	cmpq	%rcx, %rax
	jne	.LBB42bd9_58
	jmp	.LBB42bd9_60
.LBB42bd9_59:
	addq	$8, %rsp
	.cfi_def_cfa_offset 56
	popq	%rbx
	.cfi_def_cfa_offset 48
	popq	%r12
	.cfi_def_cfa_offset 40
	popq	%r13
	.cfi_def_cfa_offset 32
	popq	%r14
	.cfi_def_cfa_offset 24
	popq	%r15
	.cfi_def_cfa_offset 16
	popq	%rbp
	.cfi_def_cfa_offset 8
	retq
.LBB42bd9_60:
	.cfi_def_cfa_offset 64
	cmpq	%rax, %rdx
	je	.LBB42bd9_59
.LBB42bd9_61:
	movzbl	(%rsi,%rax), %ecx
	movb	%cl, (%rdi,%rax)
	incq	%rax
	jmp	.LBB42bd9_60
.Lfunc_end42bd9:
	.size	"sha2::block256::Core256::update", .Lfunc_end42bd9-"sha2::block256::Core256::update"
	.cfi_endproc

	.section	".text.sha2::block256::compress","ax",@progbits
	.p2align	4
	.type	"sha2::block256::compress",@function
"sha2::block256::compress":
	.cfi_startproc
	pushq	%rbp
	.cfi_def_cfa_offset 16
	pushq	%r15
	.cfi_def_cfa_offset 24
	pushq	%r14
	.cfi_def_cfa_offset 32
	pushq	%r13
	.cfi_def_cfa_offset 40
	pushq	%r12
	.cfi_def_cfa_offset 48
	pushq	%rbx
	.cfi_def_cfa_offset 56
	.cfi_offset %rbx, -56
	.cfi_offset %r12, -48
	.cfi_offset %r13, -40
	.cfi_offset %r14, -32
	.cfi_offset %r15, -24
	.cfi_offset %rbp, -16
	movl	(%rsi), %ebx
	movq	%rsi, %r14
	bswapl	%ebx
	movl	8(%rdi), %r11d
	movl	(%rdi), %r10d
	movl	16(%rdi), %r8d
	movl	%r8d, %ecx
	shldl	$18, %ecx, %ecx
	movl	4(%rdi), %esi
	xorl	%r8d, %ecx
	shldl	$27, %ecx, %ecx
	movl	20(%rdi), %edx
	xorl	%r8d, %ecx
	shldl	$26, %ecx, %ecx
	movl	24(%rdi), %eax
	movq	%rdi, %r15
	movl	%eax, %edi
	xorl	%edx, %edi
	andl	%r8d, %edi
	xorl	%eax, %edi
	movl	28(%r15), %r9d
	movq	%r15, -8(%rsp)
	movl	%ebx, -72(%rsp)
	addl	%ebx, %r9d
	addl	%ecx, %r9d
	addl	%edi, %r9d
	addl	$1116352408, %r9d
	movl	%r10d, %ebx
	shldl	$23, %ebx, %ebx
	xorl	%r10d, %ebx
	shldl	$21, %ebx, %ebx
	xorl	%r10d, %ebx
	shldl	$30, %ebx, %ebx
	movl	%esi, %ecx
	xorl	%r10d, %ecx
	movl	%r11d, %edi
	xorl	%esi, %edi
	andl	%ecx, %edi
	xorl	%esi, %edi
	addl	%ebx, %edi
	addl	%r9d, %edi
	addl	12(%r15), %r9d
	movl	4(%r14), %r15d
	movl	%r9d, %ebx
	shldl	$18, %ebx, %ebx
	bswapl	%r15d
	xorl	%r9d, %ebx
	shldl	$27, %ebx, %ebx
	xorl	%r9d, %ebx
	shldl	$26, %ebx, %ebx
	movl	%edx, %ebp
	xorl	%r8d, %ebp
	andl	%r9d, %ebp
	xorl	%edx, %ebp
	movl	%r15d, -40(%rsp)
	addl	%r15d, %eax
	addl	%ebp, %eax
	movl	%edi, %ebp
	shldl	$23, %ebp, %ebp
	xorl	%edi, %ebp
	shldl	$21, %ebp, %ebp
	leal	(%rax,%rbx), %r15d
	addl	%eax, %ebx
	addl	$1899447441, %ebx
	xorl	%edi, %ebp
	shldl	$30, %ebp, %ebp
	movl	%edi, %eax
	xorl	%r10d, %eax
	andl	%eax, %ecx
	xorl	%r10d, %ecx
	addl	%ebp, %ecx
	addl	%ebx, %ecx
	movl	8(%r14), %r12d
	bswapl	%r12d
	leal	(%r11,%r15), %ebx
	addl	$1899447441, %ebx
	movl	%ebx, %r11d
	shldl	$18, %r11d, %r11d
	xorl	%ebx, %r11d
	shldl	$27, %r11d, %r11d
	movl	%r9d, %ebp
	xorl	%r8d, %ebp
	andl	%ebx, %ebp
	xorl	%r8d, %ebp
	movl	%r12d, -44(%rsp)
	addl	%r12d, %edx
	addl	%ebp, %edx
	xorl	%ebx, %r11d
	shldl	$26, %r11d, %r11d
	movl	%ecx, %ebp
	shldl	$23, %ebp, %ebp
	leal	(%rdx,%r11), %r15d
	addl	%edx, %r11d
	addl	$-1245643825, %r11d
	xorl	%ecx, %ebp
	shldl	$21, %ebp, %ebp
	xorl	%ecx, %ebp
	shldl	$30, %ebp, %ebp
	movl	%ecx, %edx
	xorl	%edi, %edx
	andl	%edx, %eax
	xorl	%edi, %eax
	addl	%ebp, %eax
	addl	%r11d, %eax
	leal	(%rsi,%r15), %r11d
	addl	$-1245643825, %r11d
	movl	12(%r14), %r15d
	bswapl	%r15d
	movl	%r11d, %esi
	shldl	$18, %esi, %esi
	movl	%ebx, %ebp
	xorl	%r9d, %ebp
	andl	%r11d, %ebp
	xorl	%r9d, %ebp
	movl	%r15d, -48(%rsp)
	addl	%r15d, %r8d
	addl	%ebp, %r8d
	xorl	%r11d, %esi
	shldl	$27, %esi, %esi
	xorl	%r11d, %esi
	shldl	$26, %esi, %esi
	leal	(%r8,%rsi), %r12d
	addl	%r8d, %esi
	addl	$-373957723, %esi
	movl	%eax, %r8d
	shldl	$23, %r8d, %r8d
	xorl	%eax, %r8d
	shldl	$21, %r8d, %r8d
	xorl	%eax, %r8d
	shldl	$30, %r8d, %r8d
	movl	%eax, %r15d
	xorl	%ecx, %r15d
	andl	%r15d, %edx
	xorl	%ecx, %edx
	addl	%r8d, %edx
	addl	%esi, %edx
	leal	(%r10,%r12), %esi
	addl	$-373957723, %esi
	movl	%esi, %r8d
	shldl	$18, %r8d, %r8d
	xorl	%esi, %r8d
	shldl	$27, %r8d, %r8d
	movq	%r14, %r12
	movl	16(%r14), %ebp
	bswapl	%ebp
	xorl	%esi, %r8d
	shldl	$26, %r8d, %r8d
	movl	%r11d, %r10d
	xorl	%ebx, %r10d
	andl	%esi, %r10d
	xorl	%ebx, %r10d
	movl	%ebp, -52(%rsp)
	addl	%ebp, %r9d
	movl	%edx, %ebp
	shldl	$23, %ebp, %ebp
	addl	%r10d, %r9d
	xorl	%edx, %ebp
	shldl	$21, %ebp, %ebp
	addl	%r9d, %r8d
	addl	$961987163, %r8d
	xorl	%edx, %ebp
	shldl	$30, %ebp, %ebp
	movl	%edx, %r14d
	xorl	%eax, %r14d
	andl	%r14d, %r15d
	xorl	%eax, %r15d
	addl	%ebp, %r15d
	addl	%r8d, %r15d
	addl	%r8d, %edi
	movl	20(%r12), %ebp
	bswapl	%ebp
	movl	%edi, %r8d
	shldl	$18, %r8d, %r8d
	xorl	%edi, %r8d
	shldl	$27, %r8d, %r8d
	movl	%esi, %r9d
	xorl	%r11d, %r9d
	andl	%edi, %r9d
	xorl	%r11d, %r9d
	movl	%ebp, -56(%rsp)
	addl	%ebp, %ebx
	addl	%r9d, %ebx
	xorl	%edi, %r8d
	shldl	$26, %r8d, %r8d
	addl	%ebx, %r8d
	addl	$1508970993, %r8d
	movl	%r15d, %ebx
	shldl	$23, %ebx, %ebx
	xorl	%r15d, %ebx
	shldl	$21, %ebx, %ebx
	xorl	%r15d, %ebx
	shldl	$30, %ebx, %ebx
	movl	%r15d, %r9d
	xorl	%edx, %r9d
	andl	%r9d, %r14d
	xorl	%edx, %r14d
	addl	%ebx, %r14d
	addl	%r8d, %r14d
	addl	%r8d, %ecx
	movl	%ecx, %r8d
	shldl	$18, %r8d, %r8d
	xorl	%ecx, %r8d
	shldl	$27, %r8d, %r8d
	movl	24(%r12), %ebp
	bswapl	%ebp
	xorl	%ecx, %r8d
	shldl	$26, %r8d, %r8d
	movl	%edi, %ebx
	xorl	%esi, %ebx
	andl	%ecx, %ebx
	xorl	%esi, %ebx
	movl	%ebp, -64(%rsp)
	addl	%ebp, %r11d
	movl	%r14d, %ebp
	shldl	$23, %ebp, %ebp
	addl	%ebx, %r11d
	xorl	%r14d, %ebp
	shldl	$21, %ebp, %ebp
	addl	%r11d, %r8d
	addl	$-1841331548, %r8d
	xorl	%r14d, %ebp
	shldl	$30, %ebp, %ebp
	movl	%r14d, %r11d
	xorl	%r15d, %r11d
	andl	%r11d, %r9d
	xorl	%r15d, %r9d
	addl	%ebp, %r9d
	addl	%r8d, %r9d
	addl	%r8d, %eax
	movl	28(%r12), %ebp
	bswapl	%ebp
	movl	%eax, %r8d
	shldl	$18, %r8d, %r8d
	xorl	%eax, %r8d
	shldl	$27, %r8d, %r8d
	movl	%ecx, %ebx
	xorl	%edi, %ebx
	andl	%eax, %ebx
	xorl	%edi, %ebx
	movl	%ebp, -60(%rsp)
	addl	%ebp, %esi
	addl	%ebx, %esi
	xorl	%eax, %r8d
	shldl	$26, %r8d, %r8d
	addl	%r8d, %esi
	addl	$-1424204075, %esi
	movl	%r9d, %r8d
	shldl	$23, %r8d, %r8d
	xorl	%r9d, %r8d
	shldl	$21, %r8d, %r8d
	xorl	%r9d, %r8d
	shldl	$30, %r8d, %r8d
	movl	%r9d, %ebp
	xorl	%r14d, %ebp
	andl	%ebp, %r11d
	xorl	%r14d, %r11d
	addl	%r8d, %r11d
	addl	%esi, %r11d
	addl	%esi, %edx
	movl	%edx, %esi
	shldl	$18, %esi, %esi
	xorl	%edx, %esi
	shldl	$27, %esi, %esi
	movl	32(%r12), %r10d
	bswapl	%r10d
	xorl	%edx, %esi
	shldl	$26, %esi, %esi
	movl	%eax, %r8d
	xorl	%ecx, %r8d
	andl	%edx, %r8d
	xorl	%ecx, %r8d
	movl	%r10d, -36(%rsp)
	addl	%r10d, %edi
	movl	%r11d, %r10d
	shldl	$23, %r10d, %r10d
	addl	%r8d, %edi
	xorl	%r11d, %r10d
	shldl	$21, %r10d, %r10d
	addl	%edi, %esi
	addl	$-670586216, %esi
	xorl	%r11d, %r10d
	shldl	$30, %r10d, %r10d
	movl	%r11d, %r13d
	xorl	%r9d, %r13d
	andl	%r13d, %ebp
	xorl	%r9d, %ebp
	addl	%r10d, %ebp
	addl	%esi, %ebp
	addl	%esi, %r15d
	movl	36(%r12), %esi
	movq	%r12, %rbx
	bswapl	%esi
	movl	%esi, %r8d
	movl	%esi, -68(%rsp)
	movl	%r15d, %esi
	shldl	$18, %esi, %esi
	xorl	%r15d, %esi
	shldl	$27, %esi, %esi
	movl	%edx, %edi
	xorl	%eax, %edi
	andl	%r15d, %edi
	xorl	%eax, %edi
	addl	%r8d, %ecx
	addl	%edi, %ecx
	xorl	%r15d, %esi
	shldl	$26, %esi, %esi
	addl	%esi, %ecx
	addl	$310598401, %ecx
	movl	%ebp, %esi
	shldl	$23, %esi, %esi
	xorl	%ebp, %esi
	shldl	$21, %esi, %esi
	xorl	%ebp, %esi
	shldl	$30, %esi, %esi
	movl	%ebp, %r10d
	xorl	%r11d, %r10d
	andl	%r10d, %r13d
	xorl	%r11d, %r13d
	addl	%esi, %r13d
	addl	%ecx, %r13d
	addl	%ecx, %r14d
	movl	%r14d, %ecx
	shldl	$18, %ecx, %ecx
	xorl	%r14d, %ecx
	shldl	$27, %ecx, %ecx
	movl	40(%r12), %edi
	bswapl	%edi
	xorl	%r14d, %ecx
	shldl	$26, %ecx, %ecx
	movl	%r15d, %esi
	xorl	%edx, %esi
	andl	%r14d, %esi
	xorl	%edx, %esi
	movl	%edi, -88(%rsp)
	addl	%edi, %eax
	movl	%r13d, %edi
	shldl	$23, %edi, %edi
	addl	%esi, %eax
	xorl	%r13d, %edi
	shldl	$21, %edi, %edi
	addl	%ecx, %eax
	addl	$607225278, %eax
	xorl	%r13d, %edi
	shldl	$30, %edi, %edi
	movl	%r13d, %r12d
	xorl	%ebp, %r12d
	andl	%r12d, %r10d
	xorl	%ebp, %r10d
	addl	%edi, %r10d
	addl	%eax, %r10d
	addl	%eax, %r9d
	movl	44(%rbx), %esi
	bswapl	%esi
	movl	%r9d, %eax
	shldl	$18, %eax, %eax
	xorl	%r9d, %eax
	shldl	$27, %eax, %eax
	movl	%r14d, %ecx
	xorl	%r15d, %ecx
	andl	%r9d, %ecx
	xorl	%r15d, %ecx
	movl	%esi, -108(%rsp)
	addl	%esi, %edx
	addl	%ecx, %edx
	xorl	%r9d, %eax
	shldl	$26, %eax, %eax
	addl	%edx, %eax
	addl	$1426881987, %eax
	movl	%r10d, %ecx
	shldl	$23, %ecx, %ecx
	xorl	%r10d, %ecx
	shldl	$21, %ecx, %ecx
	xorl	%r10d, %ecx
	shldl	$30, %ecx, %ecx
	movl	%r10d, %r8d
	xorl	%r13d, %r8d
	andl	%r8d, %r12d
	xorl	%r13d, %r12d
	addl	%ecx, %r12d
	addl	%eax, %r12d
	addl	%eax, %r11d
	movl	%r11d, %eax
	shldl	$18, %eax, %eax
	xorl	%r11d, %eax
	shldl	$27, %eax, %eax
	movl	48(%rbx), %edx
	bswapl	%edx
	xorl	%r11d, %eax
	shldl	$26, %eax, %eax
	movl	%r9d, %ecx
	xorl	%r14d, %ecx
	andl	%r11d, %ecx
	xorl	%r14d, %ecx
	movl	%edx, -92(%rsp)
	addl	%edx, %r15d
	movl	%r12d, %edx
	shldl	$23, %edx, %edx
	addl	%ecx, %r15d
	xorl	%r12d, %edx
	shldl	$21, %edx, %edx
	addl	%r15d, %eax
	addl	$1925078388, %eax
	xorl	%r12d, %edx
	shldl	$30, %edx, %edx
	movl	%r12d, %esi
	xorl	%r10d, %esi
	andl	%esi, %r8d
	xorl	%r10d, %r8d
	addl	%edx, %r8d
	addl	%eax, %r8d
	addl	%eax, %ebp
	movl	52(%rbx), %edx
	bswapl	%edx
	movl	%ebp, %eax
	shldl	$18, %eax, %eax
	xorl	%ebp, %eax
	shldl	$27, %eax, %eax
	movl	%r11d, %ecx
	xorl	%r9d, %ecx
	andl	%ebp, %ecx
	xorl	%r9d, %ecx
	movl	%edx, -80(%rsp)
	addl	%edx, %r14d
	addl	%ecx, %r14d
	xorl	%ebp, %eax
	shldl	$26, %eax, %eax
	addl	%r14d, %eax
	addl	$-2132889090, %eax
	movl	%r8d, %edx
	shldl	$23, %edx, %edx
	xorl	%r8d, %edx
	shldl	$21, %edx, %edx
	xorl	%r8d, %edx
	shldl	$30, %edx, %edx
	movl	%r8d, %ecx
	xorl	%r12d, %ecx
	andl	%ecx, %esi
	xorl	%r12d, %esi
	addl	%edx, %esi
	addl	%eax, %esi
	addl	%eax, %r13d
	movl	%r13d, %eax
	shldl	$18, %eax, %eax
	xorl	%r13d, %eax
	shldl	$27, %eax, %eax
	movl	56(%rbx), %edi
	bswapl	%edi
	xorl	%r13d, %eax
	shldl	$26, %eax, %eax
	movl	%ebp, %edx
	xorl	%r11d, %edx
	andl	%r13d, %edx
	xorl	%r11d, %edx
	movl	%edi, %r15d
	addl	%edi, %r9d
	movl	%esi, %edi
	shldl	$23, %edi, %edi
	addl	%edx, %r9d
	xorl	%esi, %edi
	shldl	$21, %edi, %edi
	leal	(%rax,%r9), %edx
	addl	$-1680079193, %edx
	xorl	%esi, %edi
	shldl	$30, %edi, %edi
	movl	%esi, %eax
	xorl	%r8d, %eax
	andl	%eax, %ecx
	xorl	%r8d, %ecx
	addl	%edi, %ecx
	addl	%edx, %ecx
	addl	%edx, %r10d
	movl	60(%rbx), %r9d
	bswapl	%r9d
	movl	%r10d, %edx
	shldl	$18, %edx, %edx
	xorl	%r10d, %edx
	shldl	$27, %edx, %edx
	movl	%r13d, %edi
	xorl	%ebp, %edi
	andl	%r10d, %edi
	xorl	%ebp, %edi
	movl	%r9d, -84(%rsp)
	addl	%r9d, %r11d
	addl	%edi, %r11d
	movl	%r10d, %ebx
	xorl	%r10d, %edx
	shldl	$26, %edx, %edx
	leal	(%rdx,%r11), %edi
	addl	$-1046744716, %edi
	movl	-68(%rsp), %r11d
	movl	%ecx, %r9d
	shldl	$23, %r9d, %r9d
	xorl	%ecx, %r9d
	shldl	$21, %r9d, %r9d
	xorl	%ecx, %r9d
	shldl	$30, %r9d, %r9d
	movl	%ecx, %edx
	xorl	%esi, %edx
	andl	%eax, %edx
	xorl	%esi, %edx
	addl	%r9d, %edx
	addl	%edi, %edx
	addl	%edi, %r12d
	movq	-8(%rsp), %rax
	movdqu	(%rax), %xmm1
	movdqu	16(%rax), %xmm0
	xorl	%r10d, %r10d
	.p2align	4
.LBBb0cdf_1:
	movq	%r10, -104(%rsp)
	movl	%r15d, %edi
	movl	%r15d, -28(%rsp)
	movl	%r15d, %eax
	shldl	$30, %eax, %eax
	xorl	%r15d, %eax
	shldl	$15, %eax, %eax
	shrl	$10, %edi
	movl	-40(%rsp), %r14d
	movl	%r14d, %r9d
	shldl	$21, %r9d, %r9d
	xorl	%eax, %edi
	xorl	%r14d, %r9d
	shldl	$25, %r9d, %r9d
	movl	%r14d, %eax
	shrl	$3, %eax
	xorl	%r9d, %eax
	movl	-72(%rsp), %r9d
	movl	%r11d, -68(%rsp)
	addl	%r11d, %r9d
	addl	%edi, %r9d
	movl	%r12d, %edi
	shldl	$18, %edi, %edi
	addl	%eax, %r9d
	movl	%r9d, %r11d
	movl	%r9d, -72(%rsp)
	xorl	%r12d, %edi
	shldl	$27, %edi, %edi
	movl	%r13d, %r9d
	movl	%ebx, %r15d
	xorl	%ebx, %r9d
	andl	%r12d, %r9d
	xorl	%r13d, %r9d
	addl	%ebp, %r9d
	xorl	%r12d, %edi
	shldl	$26, %edi, %edi
	addl	%edi, %r9d
	movl	%edx, %edi
	shldl	$23, %edi, %edi
	xorl	%edx, %edi
	shldl	$21, %edi, %edi
	xorl	%edx, %edi
	shldl	$30, %edi, %edi
	movl	%ecx, %ebx
	xorl	%edx, %ebx
	movl	%ebx, -112(%rsp)
	movl	%esi, %eax
	xorl	%ecx, %eax
	andl	%ebx, %eax
	xorl	%ecx, %eax
	addl	%edi, %eax
	leaq	.Lstatic.12(%rip), %rbx
	addl	64(%r10,%rbx), %r9d
	addl	%r11d, %r9d
	movl	-84(%rsp), %r10d
	movl	%r10d, %edi
	shldl	$30, %edi, %edi
	addl	%r9d, %eax
	xorl	%r10d, %edi
	shldl	$15, %edi, %edi
	addl	%r8d, %r9d
	shrl	$10, %r10d
	xorl	%edi, %r10d
	movl	-44(%rsp), %ebp
	movl	%ebp, %edi
	shldl	$21, %edi, %edi
	xorl	%ebp, %edi
	shldl	$25, %edi, %edi
	movl	%ebp, %r11d
	shrl	$3, %r11d
	xorl	%edi, %r11d
	movl	%r9d, %edi
	shldl	$18, %edi, %edi
	addl	-88(%rsp), %r14d
	xorl	%r9d, %edi
	shldl	$27, %edi, %edi
	addl	%r10d, %r14d
	xorl	%r9d, %edi
	shldl	$26, %edi, %edi
	addl	%r11d, %r14d
	movl	%r15d, %r10d
	xorl	%r12d, %r10d
	andl	%r9d, %r10d
	xorl	%r15d, %r10d
	movl	%r15d, %r8d
	movq	-104(%rsp), %r11
	addl	68(%r11,%rbx), %r13d
	addl	%r14d, %r13d
	addl	%r10d, %r13d
	movl	%eax, %r10d
	shldl	$23, %r10d, %r10d
	addl	%edi, %r13d
	xorl	%eax, %r10d
	shldl	$21, %r10d, %r10d
	xorl	%eax, %r10d
	shldl	$30, %r10d, %r10d
	movl	%eax, %ebx
	xorl	%edx, %ebx
	movl	-112(%rsp), %edi
	andl	%ebx, %edi
	xorl	%edx, %edi
	addl	%r10d, %edi
	addl	%r13d, %edi
	movl	%edi, -112(%rsp)
	movl	-72(%rsp), %r15d
	movl	%r15d, %edi
	shldl	$30, %edi, %edi
	addl	%esi, %r13d
	xorl	%r15d, %edi
	movl	%r15d, %r10d
	shldl	$15, %edi, %edi
	movl	-48(%rsp), %r15d
	movl	%r15d, %esi
	shldl	$21, %esi, %esi
	shrl	$10, %r10d
	xorl	%r15d, %esi
	shldl	$25, %esi, %esi
	xorl	%edi, %r10d
	movl	%r15d, %edi
	shrl	$3, %edi
	xorl	%esi, %edi
	addl	-108(%rsp), %ebp
	movl	%r13d, %esi
	shldl	$18, %esi, %esi
	addl	%edi, %ebp
	xorl	%r13d, %esi
	shldl	$27, %esi, %esi
	addl	%r10d, %ebp
	movl	%r9d, %edi
	xorl	%r12d, %edi
	andl	%r13d, %edi
	xorl	%r12d, %edi
	movq	-104(%rsp), %r10
	leaq	.Lstatic.12(%rip), %r11
	addl	72(%r10,%r11), %r8d
	addl	%ebp, %r8d
	addl	%edi, %r8d
	xorl	%r13d, %esi
	shldl	$26, %esi, %esi
	addl	%esi, %r8d
	movl	-112(%rsp), %edi
	movl	%edi, %esi
	shldl	$23, %esi, %esi
	xorl	%edi, %esi
	shldl	$21, %esi, %esi
	xorl	%edi, %esi
	shldl	$30, %esi, %esi
	xorl	%eax, %edi
	movl	%ebx, %r11d
	andl	%edi, %r11d
	xorl	%eax, %r11d
	addl	%esi, %r11d
	addl	%r8d, %r11d
	addl	%ecx, %r8d
	movl	%r14d, -40(%rsp)
	movl	%r14d, %ecx
	shldl	$30, %ecx, %ecx
	xorl	%r14d, %ecx
	shldl	$15, %ecx, %ecx
	movl	%r14d, %esi
	shrl	$10, %esi
	movl	-52(%rsp), %r14d
	movl	%r14d, %r10d
	shldl	$21, %r10d, %r10d
	xorl	%ecx, %esi
	xorl	%r14d, %r10d
	shldl	$25, %r10d, %r10d
	movl	%r14d, %ecx
	shrl	$3, %ecx
	xorl	%r10d, %ecx
	movl	%r15d, %ebx
	addl	-92(%rsp), %ebx
	addl	%ecx, %ebx
	movl	%r8d, -96(%rsp)
	movl	%r8d, %ecx
	shldl	$18, %ecx, %ecx
	addl	%esi, %ebx
	xorl	%r8d, %ecx
	shldl	$27, %ecx, %ecx
	xorl	%r8d, %ecx
	shldl	$26, %ecx, %ecx
	movl	%r13d, %esi
	xorl	%r9d, %esi
	andl	%r8d, %esi
	movq	-104(%rsp), %r10
	leaq	.Lstatic.12(%rip), %r15
	addl	76(%r10,%r15), %r12d
	xorl	%r9d, %esi
	movl	%r11d, %r15d
	movl	%r11d, %r10d
	shldl	$23, %r10d, %r10d
	addl	%ebx, %r12d
	xorl	%r11d, %r10d
	shldl	$21, %r10d, %r10d
	addl	%esi, %r12d
	xorl	%r11d, %r10d
	shldl	$30, %r10d, %r10d
	addl	%ecx, %r12d
	movl	%r11d, %r8d
	movl	-112(%rsp), %ecx
	xorl	%ecx, %r8d
	andl	%r8d, %edi
	xorl	%ecx, %edi
	addl	%r10d, %edi
	addl	%r12d, %edi
	addl	%edx, %r12d
	movl	%ebp, -44(%rsp)
	movl	%ebp, %ecx
	shldl	$30, %ecx, %ecx
	xorl	%ebp, %ecx
	shldl	$15, %ecx, %ecx
	movl	%ebp, %edx
	shrl	$10, %edx
	xorl	%ecx, %edx
	movl	-56(%rsp), %r10d
	movl	%r10d, %ecx
	shldl	$21, %ecx, %ecx
	xorl	%r10d, %ecx
	shldl	$25, %ecx, %ecx
	movl	%r10d, %esi
	shrl	$3, %esi
	xorl	%ecx, %esi
	addl	-80(%rsp), %r14d
	addl	%esi, %r14d
	addl	%edx, %r14d
	movl	%r12d, %ecx
	shldl	$18, %ecx, %ecx
	xorl	%r12d, %ecx
	shldl	$27, %ecx, %ecx
	xorl	%r12d, %ecx
	shldl	$26, %ecx, %ecx
	movl	-96(%rsp), %r11d
	movl	%r11d, %edx
	xorl	%r13d, %edx
	andl	%r12d, %edx
	xorl	%r13d, %edx
	movq	-104(%rsp), %rsi
	leaq	.Lstatic.12(%rip), %rbp
	addl	80(%rsi,%rbp), %r9d
	addl	%r14d, %r9d
	movl	%edi, %esi
	shldl	$23, %esi, %esi
	addl	%edx, %r9d
	xorl	%edi, %esi
	shldl	$21, %esi, %esi
	addl	%ecx, %r9d
	xorl	%edi, %esi
	shldl	$30, %esi, %esi
	movl	%edi, %ebp
	movl	%r15d, -76(%rsp)
	xorl	%r15d, %ebp
	andl	%ebp, %r8d
	xorl	%r15d, %r8d
	addl	%esi, %r8d
	movl	%r8d, %r15d
	movl	%ebx, -48(%rsp)
	movl	%ebx, %ecx
	shldl	$30, %ecx, %ecx
	addl	%r9d, %r15d
	xorl	%ebx, %ecx
	shldl	$15, %ecx, %ecx
	addl	%eax, %r9d
	movl	%ebx, %eax
	shrl	$10, %eax
	xorl	%ecx, %eax
	movl	-64(%rsp), %esi
	movl	%esi, %ecx
	shldl	$21, %ecx, %ecx
	xorl	%esi, %ecx
	shldl	$25, %ecx, %ecx
	movl	%esi, %edx
	movl	%esi, %ebx
	shrl	$3, %edx
	xorl	%ecx, %edx
	movl	%r9d, %ecx
	shldl	$18, %ecx, %ecx
	addl	-28(%rsp), %r10d
	xorl	%r9d, %ecx
	shldl	$27, %ecx, %ecx
	addl	%edx, %r10d
	xorl	%r9d, %ecx
	shldl	$26, %ecx, %ecx
	addl	%eax, %r10d
	movl	%r12d, %eax
	xorl	%r11d, %eax
	andl	%r9d, %eax
	movl	%r9d, -16(%rsp)
	xorl	%r11d, %eax
	movl	%r11d, %r8d
	movq	-104(%rsp), %rdx
	leaq	.Lstatic.12(%rip), %rsi
	addl	84(%rdx,%rsi), %r13d
	addl	%r10d, %r13d
	addl	%eax, %r13d
	movl	%r15d, %eax
	shldl	$23, %eax, %eax
	addl	%ecx, %r13d
	xorl	%r15d, %eax
	shldl	$21, %eax, %eax
	xorl	%r15d, %eax
	shldl	$30, %eax, %eax
	movl	%r15d, %ecx
	movl	%edi, -12(%rsp)
	xorl	%edi, %ecx
	andl	%ecx, %ebp
	movl	%ecx, %r11d
	xorl	%edi, %ebp
	addl	%eax, %ebp
	addl	%r13d, %ebp
	movl	%r14d, %eax
	shldl	$30, %eax, %eax
	addl	-112(%rsp), %r13d
	xorl	%r14d, %eax
	movl	%r14d, -52(%rsp)
	shldl	$15, %eax, %eax
	movl	-60(%rsp), %edx
	movl	%edx, %ecx
	shldl	$21, %ecx, %ecx
	shrl	$10, %r14d
	xorl	%edx, %ecx
	shldl	$25, %ecx, %ecx
	xorl	%eax, %r14d
	movl	%edx, %eax
	shrl	$3, %eax
	xorl	%ecx, %eax
	movl	%ebx, %ecx
	addl	-84(%rsp), %ecx
	movl	%r13d, %edx
	shldl	$18, %edx, %edx
	addl	%eax, %ecx
	xorl	%r13d, %edx
	shldl	$27, %edx, %edx
	addl	%r14d, %ecx
	movl	%ecx, %esi
	movl	%ecx, -64(%rsp)
	xorl	%r13d, %edx
	shldl	$26, %edx, %edx
	xorl	%r12d, %r9d
	movq	-104(%rsp), %rcx
	leaq	.Lstatic.12(%rip), %rdi
	addl	88(%rcx,%rdi), %r8d
	andl	%r13d, %r9d
	movl	%ebp, %ecx
	shldl	$23, %ecx, %ecx
	xorl	%r12d, %r9d
	xorl	%ebp, %ecx
	shldl	$21, %ecx, %ecx
	addl	%esi, %r8d
	xorl	%ebp, %ecx
	movl	%ebp, %esi
	movl	%ebp, -32(%rsp)
	shldl	$30, %ecx, %ecx
	addl	%r9d, %r8d
	movl	%r10d, %eax
	shldl	$30, %eax, %eax
	addl	%edx, %r8d
	xorl	%r10d, %eax
	movl	%r10d, -56(%rsp)
	shldl	$15, %eax, %eax
	movl	-36(%rsp), %r9d
	movl	%r9d, %edi
	shldl	$21, %edi, %edi
	xorl	%r15d, %esi
	movl	%esi, -20(%rsp)
	xorl	%r9d, %edi
	shldl	$25, %edi, %edi
	movl	%edi, -24(%rsp)
	movl	%r11d, %r9d
	andl	%esi, %r9d
	movl	-68(%rsp), %esi
	movl	%esi, %r14d
	shldl	$21, %r14d, %r14d
	xorl	%r15d, %r9d
	xorl	%esi, %r14d
	shldl	$25, %r14d, %r14d
	addl	%ecx, %r9d
	movl	-88(%rsp), %ecx
	movl	%ecx, %esi
	shldl	$21, %esi, %esi
	addl	%r8d, %r9d
	xorl	%ecx, %esi
	shldl	$25, %esi, %esi
	addl	-76(%rsp), %r8d
	movl	-108(%rsp), %ebp
	movl	%ebp, %r11d
	shldl	$21, %r11d, %r11d
	xorl	%ebp, %r11d
	shldl	$25, %r11d, %r11d
	shrl	$10, %r10d
	movl	-92(%rsp), %edi
	movl	%edi, %ebx
	shldl	$21, %ebx, %ebx
	xorl	%eax, %r10d
	xorl	%edi, %ebx
	shldl	$25, %ebx, %ebx
	movl	-80(%rsp), %ecx
	movl	%ecx, %eax
	shldl	$21, %eax, %eax
	xorl	%ecx, %eax
	shldl	$25, %eax, %eax
	shrl	$3, %ecx
	xorl	%eax, %ecx
	addl	%edi, %ecx
	movl	%ecx, -76(%rsp)
	shrl	$3, %edi
	xorl	%ebx, %edi
	addl	%ebp, %edi
	movl	%edi, -92(%rsp)
	shrl	$3, %ebp
	xorl	%r11d, %ebp
	movl	-88(%rsp), %eax
	addl	%eax, %ebp
	movl	%ebp, -108(%rsp)
	shrl	$3, %eax
	xorl	%esi, %eax
	movl	-68(%rsp), %ecx
	addl	%ecx, %eax
	movl	%eax, -112(%rsp)
	movl	%ecx, %eax
	shrl	$3, %eax
	xorl	%r14d, %eax
	movl	-36(%rsp), %ecx
	addl	%ecx, %eax
	movl	%eax, %edi
	movl	%ecx, %eax
	shrl	$3, %eax
	xorl	-24(%rsp), %eax
	movl	-60(%rsp), %ebp
	addl	-72(%rsp), %ebp
	addl	%eax, %ebp
	addl	%r10d, %ebp
	movl	%r8d, %eax
	shldl	$18, %eax, %eax
	xorl	%r8d, %eax
	shldl	$27, %eax, %eax
	movq	-104(%rsp), %rcx
	leaq	.Lstatic.12(%rip), %r10
	movl	92(%rcx,%r10), %r11d
	addl	%ebp, %r11d
	addl	%r12d, %r11d
	xorl	%r8d, %eax
	shldl	$26, %eax, %eax
	movl	%r13d, %ecx
	movl	-16(%rsp), %ebx
	xorl	%ebx, %ecx
	andl	%r8d, %ecx
	movl	%r8d, %r12d
	movl	%r8d, -96(%rsp)
	xorl	%ebx, %ecx
	addl	%ecx, %r11d
	movl	%r9d, %r8d
	movl	%r9d, %ecx
	shldl	$23, %ecx, %ecx
	addl	%eax, %r11d
	xorl	%r9d, %ecx
	shldl	$21, %ecx, %ecx
	xorl	%r9d, %ecx
	shldl	$30, %ecx, %ecx
	movl	%r9d, %esi
	movl	-32(%rsp), %eax
	xorl	%eax, %esi
	movl	-20(%rsp), %edx
	andl	%esi, %edx
	xorl	%eax, %edx
	addl	%ecx, %edx
	addl	%r11d, %edx
	movl	-64(%rsp), %ecx
	movl	%ecx, %eax
	shldl	$30, %eax, %eax
	addl	-12(%rsp), %r11d
	xorl	%ecx, %eax
	shldl	$15, %eax, %eax
	shrl	$10, %ecx
	xorl	%eax, %ecx
	addl	-40(%rsp), %edi
	addl	%ecx, %edi
	movl	%edi, %r14d
	movl	%r11d, %eax
	shldl	$18, %eax, %eax
	xorl	%r11d, %eax
	shldl	$27, %eax, %eax
	xorl	%r11d, %eax
	shldl	$26, %eax, %eax
	movq	-104(%rsp), %rcx
	movl	96(%rcx,%r10), %ecx
	addl	%edi, %ecx
	addl	%ebx, %ecx
	movl	%r12d, %edi
	xorl	%r13d, %edi
	andl	%r11d, %edi
	xorl	%r13d, %edi
	movl	%ebp, -60(%rsp)
	movl	%ebp, %r9d
	shldl	$30, %r9d, %r9d
	addl	%edi, %ecx
	xorl	%ebp, %r9d
	shldl	$15, %r9d, %r9d
	addl	%eax, %ecx
	shrl	$10, %ebp
	xorl	%r9d, %ebp
	movl	-112(%rsp), %edi
	addl	-44(%rsp), %edi
	addl	%ebp, %edi
	movl	%edi, -112(%rsp)
	movq	-104(%rsp), %rax
	movl	100(%rax,%r10), %r12d
	addl	%edi, %r12d
	addl	%r13d, %r12d
	movl	%edx, %eax
	shldl	$23, %eax, %eax
	xorl	%edx, %eax
	shldl	$21, %eax, %eax
	xorl	%edx, %eax
	shldl	$30, %eax, %eax
	movl	%edx, %r13d
	xorl	%r8d, %r13d
	andl	%r13d, %esi
	xorl	%r8d, %esi
	addl	%eax, %esi
	addl	%ecx, %esi
	addl	%r15d, %ecx
	movl	-28(%rsp), %r9d
	movl	%r9d, %eax
	shldl	$21, %eax, %eax
	xorl	%r9d, %eax
	movl	%ecx, %edi
	shldl	$18, %edi, %edi
	shldl	$25, %eax, %eax
	movl	%r9d, %ebx
	shrl	$3, %ebx
	xorl	%eax, %ebx
	xorl	%ecx, %edi
	shldl	$27, %edi, %edi
	addl	-80(%rsp), %ebx
	movl	%ebx, -80(%rsp)
	xorl	%ecx, %edi
	shldl	$26, %edi, %edi
	movl	%r11d, %eax
	movl	-96(%rsp), %ebx
	xorl	%ebx, %eax
	andl	%ecx, %eax
	xorl	%ebx, %eax
	addl	%eax, %r12d
	movl	%r14d, -88(%rsp)
	movl	%r14d, %eax
	shldl	$30, %eax, %eax
	addl	%edi, %r12d
	xorl	%r14d, %eax
	shldl	$15, %eax, %eax
	movl	%r14d, %edi
	shrl	$10, %edi
	xorl	%eax, %edi
	movl	-108(%rsp), %eax
	addl	-48(%rsp), %eax
	addl	%edi, %eax
	movl	%eax, %ebp
	movl	%eax, -108(%rsp)
	movl	%esi, %eax
	shldl	$23, %eax, %eax
	xorl	%esi, %eax
	shldl	$21, %eax, %eax
	xorl	%esi, %eax
	shldl	$30, %eax, %eax
	movq	-104(%rsp), %rdi
	movl	104(%rdi,%r10), %r15d
	addl	%ebp, %r15d
	addl	%ebx, %r15d
	movl	%esi, %r10d
	xorl	%edx, %r10d
	andl	%r10d, %r13d
	xorl	%edx, %r13d
	addl	%eax, %r13d
	addl	%r12d, %r13d
	addl	-32(%rsp), %r12d
	movl	-84(%rsp), %edi
	movl	%edi, %eax
	shldl	$21, %eax, %eax
	xorl	%edi, %eax
	shldl	$25, %eax, %eax
	movl	%edi, %ebp
	movl	%edi, %ebx
	shrl	$3, %ebp
	xorl	%eax, %ebp
	movl	%r12d, %eax
	shldl	$18, %eax, %eax
	addl	%r9d, %ebp
	movl	%ebp, -96(%rsp)
	xorl	%r12d, %eax
	shldl	$27, %eax, %eax
	movl	-72(%rsp), %r9d
	movl	%r9d, %edi
	shldl	$21, %edi, %edi
	xorl	%r9d, %edi
	shldl	$25, %edi, %edi
	shrl	$3, %r9d
	xorl	%edi, %r9d
	xorl	%r12d, %eax
	shldl	$26, %eax, %eax
	addl	%ebx, %r9d
	movl	%r9d, -84(%rsp)
	movl	%ecx, %edi
	xorl	%r11d, %edi
	andl	%r12d, %edi
	xorl	%r11d, %edi
	movl	%r13d, %ebx
	shldl	$23, %ebx, %ebx
	addl	%edi, %r15d
	xorl	%r13d, %ebx
	shldl	$21, %ebx, %ebx
	addl	%eax, %r15d
	xorl	%r13d, %ebx
	shldl	$30, %ebx, %ebx
	movl	%r13d, %r14d
	xorl	%esi, %r14d
	andl	%r14d, %r10d
	xorl	%esi, %r10d
	addl	%ebx, %r10d
	movl	-112(%rsp), %edi
	movl	%edi, %eax
	shldl	$30, %eax, %eax
	addl	%r15d, %r10d
	xorl	%edi, %eax
	shldl	$15, %eax, %eax
	addl	%r8d, %r15d
	shrl	$10, %edi
	xorl	%eax, %edi
	movl	-92(%rsp), %ebx
	addl	-52(%rsp), %ebx
	addl	%edi, %ebx
	movq	-104(%rsp), %rax
	leaq	.Lstatic.12(%rip), %rbp
	movl	108(%rax,%rbp), %eax
	addl	%ebx, %eax
	movl	%ebx, %r9d
	addl	%r11d, %eax
	movl	%r15d, %edi
	shldl	$18, %edi, %edi
	xorl	%r15d, %edi
	shldl	$27, %edi, %edi
	xorl	%r15d, %edi
	shldl	$26, %edi, %edi
	movl	%r12d, %r11d
	xorl	%ecx, %r11d
	andl	%r15d, %r11d
	movl	%r10d, %ebx
	shldl	$23, %ebx, %ebx
	xorl	%ecx, %r11d
	xorl	%r10d, %ebx
	shldl	$21, %ebx, %ebx
	addl	%r11d, %eax
	xorl	%r10d, %ebx
	shldl	$30, %ebx, %ebx
	addl	%edi, %eax
	movl	%r10d, %r8d
	xorl	%r13d, %r8d
	andl	%r8d, %r14d
	xorl	%r13d, %r14d
	addl	%ebx, %r14d
	addl	%eax, %r14d
	addl	%edx, %eax
	movl	-108(%rsp), %edi
	movl	%edi, %edx
	shldl	$30, %edx, %edx
	xorl	%edi, %edx
	shldl	$15, %edx, %edx
	shrl	$10, %edi
	xorl	%edx, %edi
	movl	-76(%rsp), %r11d
	addl	-56(%rsp), %r11d
	addl	%edi, %r11d
	movl	%eax, %edx
	shldl	$18, %edx, %edx
	movq	-104(%rsp), %rdi
	movl	112(%rdi,%rbp), %ebp
	addl	%r11d, %ebp
	addl	%ecx, %ebp
	xorl	%eax, %edx
	shldl	$27, %edx, %edx
	movl	%r15d, %ecx
	xorl	%r12d, %ecx
	andl	%eax, %ecx
	xorl	%r12d, %ecx
	addl	%ecx, %ebp
	xorl	%eax, %edx
	shldl	$26, %edx, %edx
	addl	%edx, %ebp
	movl	%r14d, %ecx
	shldl	$23, %ecx, %ecx
	xorl	%r14d, %ecx
	shldl	$21, %ecx, %ecx
	xorl	%r14d, %ecx
	shldl	$30, %ecx, %ecx
	movl	%r14d, %edx
	xorl	%r10d, %edx
	andl	%edx, %r8d
	movl	%r9d, -92(%rsp)
	movl	%r9d, %edi
	shldl	$30, %edi, %edi
	xorl	%r10d, %r8d
	xorl	%r9d, %edi
	shldl	$15, %edi, %edi
	addl	%ecx, %r8d
	movl	%r9d, %ecx
	shrl	$10, %ecx
	xorl	%edi, %ecx
	movl	-80(%rsp), %ebx
	addl	-64(%rsp), %ebx
	addl	%ecx, %ebx
	movl	%ebx, -80(%rsp)
	movq	-104(%rsp), %rcx
	leaq	.Lstatic.12(%rip), %rdi
	movl	116(%rcx,%rdi), %ecx
	addl	%ebx, %ecx
	addl	%r12d, %ecx
	movl	%r11d, -76(%rsp)
	movl	%r11d, %edi
	shldl	$30, %edi, %edi
	xorl	%r11d, %edi
	shldl	$15, %edi, %edi
	shrl	$10, %r11d
	xorl	%edi, %r11d
	movl	-96(%rsp), %r9d
	addl	-60(%rsp), %r9d
	addl	%r11d, %r9d
	movl	%r9d, -96(%rsp)
	movl	%ebx, %edi
	shldl	$30, %edi, %edi
	xorl	%ebx, %edi
	shldl	$15, %edi, %edi
	movl	%ebx, %r11d
	shrl	$10, %r11d
	xorl	%edi, %r11d
	movl	-84(%rsp), %edi
	addl	-88(%rsp), %edi
	addl	%r11d, %edi
	movl	%edi, %r11d
	addl	%ebp, %r8d
	addl	%esi, %ebp
	movl	%eax, %esi
	xorl	%r15d, %esi
	movq	-104(%rsp), %rdi
	leaq	.Lstatic.12(%rip), %rbx
	movl	120(%rdi,%rbx), %r12d
	addl	%r9d, %r12d
	addl	%r15d, %r12d
	andl	%ebp, %esi
	xorl	%r15d, %esi
	addl	%ecx, %esi
	movl	%ebp, %ecx
	shldl	$18, %ecx, %ecx
	xorl	%ebp, %ecx
	shldl	$27, %ecx, %ecx
	xorl	%ebp, %ecx
	shldl	$26, %ecx, %ecx
	addl	%ecx, %esi
	movq	-104(%rsp), %rcx
	movl	124(%rcx,%rbx), %r15d
	addl	%r11d, %r15d
	movl	%r11d, %r9d
	movl	%r8d, %edi
	shldl	$23, %edi, %edi
	xorl	%r8d, %edi
	shldl	$21, %edi, %edi
	addl	%esi, %r13d
	movl	%r13d, %ecx
	shldl	$18, %ecx, %ecx
	addl	%eax, %r15d
	movl	%ebp, %r11d
	xorl	%eax, %r11d
	andl	%r13d, %r11d
	xorl	%eax, %r11d
	xorl	%r13d, %ecx
	shldl	$27, %ecx, %ecx
	addl	%r12d, %r11d
	xorl	%r13d, %ecx
	shldl	$26, %ecx, %ecx
	addl	%ecx, %r11d
	xorl	%r8d, %edi
	shldl	$30, %edi, %edi
	movl	%r8d, %ecx
	xorl	%r14d, %ecx
	andl	%ecx, %edx
	addl	%r11d, %r10d
	movl	%r10d, %eax
	shldl	$18, %eax, %eax
	xorl	%r14d, %edx
	xorl	%r10d, %eax
	shldl	$27, %eax, %eax
	addl	%edi, %edx
	xorl	%r10d, %eax
	shldl	$26, %eax, %eax
	addl	%edx, %esi
	movl	%r13d, %r12d
	xorl	%ebp, %r12d
	movl	%r10d, %ebx
	andl	%r10d, %r12d
	xorl	%ebp, %r12d
	movl	%esi, %edx
	shldl	$23, %edx, %edx
	addl	%r15d, %r12d
	xorl	%esi, %edx
	shldl	$21, %edx, %edx
	addl	%eax, %r12d
	xorl	%esi, %edx
	shldl	$30, %edx, %edx
	movl	%esi, %eax
	xorl	%r8d, %eax
	andl	%eax, %ecx
	xorl	%r8d, %ecx
	addl	%edx, %ecx
	addl	%r11d, %ecx
	movl	%ecx, %edx
	xorl	%esi, %edx
	andl	%eax, %edx
	movl	%ecx, %eax
	shldl	$23, %eax, %eax
	xorl	%ecx, %eax
	shldl	$21, %eax, %eax
	xorl	%ecx, %eax
	shldl	$30, %eax, %eax
	xorl	%esi, %edx
	addl	%eax, %edx
	addl	%r12d, %edx
	addl	%r14d, %r12d
	movl	-88(%rsp), %eax
	movl	%eax, -36(%rsp)
	movl	-112(%rsp), %r11d
	movl	-108(%rsp), %eax
	movl	%eax, -88(%rsp)
	movl	-92(%rsp), %eax
	movl	%eax, -108(%rsp)
	movl	-76(%rsp), %eax
	movl	%eax, -92(%rsp)
	movq	-104(%rsp), %r10
	addq	$64, %r10
	movl	-96(%rsp), %r15d
	movl	%r9d, -84(%rsp)
	cmpq	$192, %r10
	jne	.LBBb0cdf_1
	movd	%edx, %xmm2
	pinsrd	$1, %ecx, %xmm2
	pinsrd	$2, %esi, %xmm2
	pinsrd	$3, %r8d, %xmm2
	movd	%r12d, %xmm3
	pinsrd	$1, %ebx, %xmm3
	pinsrd	$2, %r13d, %xmm3
	pinsrd	$3, %ebp, %xmm3
	paddd	%xmm1, %xmm2
	paddd	%xmm0, %xmm3
	movq	-8(%rsp), %rax
	movdqu	%xmm2, (%rax)
	movdqu	%xmm3, 16(%rax)
	popq	%rbx
	.cfi_def_cfa_offset 48
	popq	%r12
	.cfi_def_cfa_offset 40
	popq	%r13
	.cfi_def_cfa_offset 32
	popq	%r14
	.cfi_def_cfa_offset 24
	popq	%r15
	.cfi_def_cfa_offset 16
	popq	%rbp
	.cfi_def_cfa_offset 8
	retq
.Lfunc_endb0cdf:
	.size	"sha2::block256::compress", .Lfunc_endb0cdf-"sha2::block256::compress"
	.cfi_endproc

	.section	.rodata.cst16,"aM",@progbits,16
	.p2align	4, 0x0
.LCPId0636_0:
	.long	1779033703
	.long	3144134277
	.long	1013904242
	.long	2773480762
.LCPId0636_1:
	.long	1359893119
	.long	2600822924
	.long	528734635
	.long	1541459225
	.section	".text.hmac_mac::keyed_hash","ax",@progbits
	.p2align	4
	.type	"hmac_mac::keyed_hash",@function
"hmac_mac::keyed_hash":
	.cfi_startproc
	pushq	%rbx
	.cfi_def_cfa_offset 16
	subq	$176, %rsp
	.cfi_def_cfa_offset 192
	.cfi_offset %rbx, -16
	movq	%rdi, %rbx
	movdqu	(%rsi), %xmm0
	movdqu	16(%rsi), %xmm1
	movdqu	32(%rsi), %xmm2
	movdqu	48(%rsi), %xmm3
	movd	%edx, %xmm4
	pxor	%xmm5, %xmm5
	pshufb	%xmm5, %xmm4
	pxor	%xmm4, %xmm3
	pxor	%xmm4, %xmm2
	pxor	%xmm4, %xmm1
	pxor	%xmm0, %xmm4
	movdqa	%xmm4, 112(%rsp)
	movdqa	%xmm1, 128(%rsp)
	movdqa	%xmm2, 144(%rsp)
	movdqa	%xmm3, 160(%rsp)
	movdqa	%xmm5, 32(%rsp)
	movdqa	%xmm5, 48(%rsp)
	movdqa	%xmm5, 64(%rsp)
	movdqa	%xmm5, 80(%rsp)
	movq	$0, 96(%rsp)
	movaps	.LCPId0636_0(%rip), %xmm0
	movaps	%xmm0, (%rsp)
	movaps	.LCPId0636_1(%rip), %xmm0
	movaps	%xmm0, 16(%rsp)
	movq	%rsp, %rdi
	leaq	112(%rsp), %rsi
	movl	$64, %edx
	callq	"sha2::block256::Core256::update"
	movq	96(%rsp), %rax
	movq	%rax, 96(%rbx)
	movaps	80(%rsp), %xmm0
	movups	%xmm0, 80(%rbx)
	movaps	64(%rsp), %xmm0
	movups	%xmm0, 64(%rbx)
	movaps	(%rsp), %xmm0
	movaps	16(%rsp), %xmm1
	movaps	32(%rsp), %xmm2
	movaps	48(%rsp), %xmm3
	movups	%xmm3, 48(%rbx)
	movups	%xmm2, 32(%rbx)
	movups	%xmm1, 16(%rbx)
	movups	%xmm0, (%rbx)
	addq	$176, %rsp
	.cfi_def_cfa_offset 16
	popq	%rbx
	.cfi_def_cfa_offset 8
	retq
.Lfunc_endd0636:
	.size	"hmac_mac::keyed_hash", .Lfunc_endd0636-"hmac_mac::keyed_hash"
	.cfi_endproc

	.section	.rodata.cst16,"aM",@progbits,16
	.p2align	4, 0x0
.LCPI39535_0:
	.byte	0,0,0,0,0,0,255,0,0,0,0,0,0,255,0,0
.LCPI39535_1:
	.byte	0,0,0,0,255,0,0,0,255,255,255,255,255,255,255,255
.LCPI39535_2:
	.byte	128,128,128,4,128,128,128,128,128,128,13,128,128,128,128,128
.LCPI39535_3:
	.byte	128,6,128,128,128,128,128,128,15,128,128,128,128,128,128,128
.LCPI39535_4:
	.byte	3,2,1,0,7,6,5,4,11,10,9,8,15,14,13,12
	.section	".text.hmac_mac::digest_after","ax",@progbits
	.p2align	4
	.type	"hmac_mac::digest_after",@function
"hmac_mac::digest_after":
	.cfi_startproc
	pushq	%r15
	.cfi_def_cfa_offset 16
	pushq	%r14
	.cfi_def_cfa_offset 24
	pushq	%rbx
	.cfi_def_cfa_offset 32
	subq	$416, %rsp
	.cfi_def_cfa_offset 448
	.cfi_offset %rbx, -32
	.cfi_offset %r14, -24
	.cfi_offset %r15, -16
	movq	%rdi, %rbx
	movups	(%rsi), %xmm0
	movups	16(%rsi), %xmm1
	movaps	%xmm1, 336(%rsp)
	movaps	%xmm0, 320(%rsp)
	movups	32(%rsi), %xmm2
	movups	48(%rsi), %xmm3
	movups	64(%rsi), %xmm4
	movups	80(%rsi), %xmm5
	movaps	%xmm2, 352(%rsp)
	movaps	%xmm3, 368(%rsp)
	movaps	%xmm4, 384(%rsp)
	movaps	%xmm5, 400(%rsp)
	movq	96(%rsi), %rax
	movups	%xmm1, 23(%rsp)
	movups	%xmm2, 39(%rsp)
	movups	%xmm3, 55(%rsp)
	movups	%xmm4, 71(%rsp)
	movups	%xmm5, 87(%rsp)
	movups	%xmm0, 7(%rsp)
	movups	87(%rsp), %xmm0
	movaps	%xmm0, 304(%rsp)
	movups	71(%rsp), %xmm0
	movaps	%xmm0, 288(%rsp)
	movups	7(%rsp), %xmm0
	movups	23(%rsp), %xmm1
	movups	39(%rsp), %xmm2
	movups	55(%rsp), %xmm3
	movaps	%xmm3, 272(%rsp)
	movaps	%xmm2, 256(%rsp)
	movaps	%xmm1, 240(%rsp)
	movaps	%xmm0, 224(%rsp)
	movaps	304(%rsp), %xmm0
	movaps	%xmm0, 192(%rsp)
	movaps	288(%rsp), %xmm0
	movaps	%xmm0, 176(%rsp)
	movaps	224(%rsp), %xmm0
	movaps	240(%rsp), %xmm1
	movaps	256(%rsp), %xmm2
	movaps	272(%rsp), %xmm3
	movaps	%xmm3, 160(%rsp)
	movaps	%xmm2, 144(%rsp)
	movaps	%xmm1, 128(%rsp)
	movaps	%xmm0, 112(%rsp)
	movq	%rax, 208(%rsp)
	leaq	112(%rsp), %rdi
	movq	%rdx, %rsi
	movq	%rcx, %rdx
	callq	"sha2::block256::Core256::update"
	movq	208(%rsp), %r15
	movq	%r15, 96(%rsp)
	movaps	192(%rsp), %xmm0
	movaps	%xmm0, 80(%rsp)
	movaps	176(%rsp), %xmm0
	movaps	%xmm0, 64(%rsp)
	movaps	112(%rsp), %xmm0
	movaps	128(%rsp), %xmm1
	movaps	144(%rsp), %xmm2
	movaps	160(%rsp), %xmm3
	movaps	%xmm3, 48(%rsp)
	movaps	%xmm2, 32(%rsp)
	movaps	%xmm1, 16(%rsp)
	movaps	%xmm0, (%rsp)
	movl	$55, %edx
	subl	%r15d, %edx
	andl	$63, %edx
	incq	%rdx
	leaq	.Lstatic.13(%rip), %rsi
	movq	%rsp, %r14
	movq	%r14, %rdi
	callq	"sha2::block256::Core256::update"
	movq	%r15, %xmm0
	pshufd	$68, %xmm0, %xmm1
	movdqa	%xmm0, %xmm2
	psllq	$11, %xmm2
	movdqa	%xmm1, %xmm3
	psllq	$59, %xmm3
	pblendw	$15, %xmm2, %xmm3
	psllq	$43, %xmm0
	movdqa	%xmm1, %xmm2
	psllq	$27, %xmm2
	pblendw	$15, %xmm0, %xmm2
	pand	.LCPI39535_0(%rip), %xmm2
	pand	.LCPI39535_1(%rip), %xmm3
	psllq	$3, %xmm1
	movdqa	%xmm1, %xmm0
	pshufb	.LCPI39535_2(%rip), %xmm0
	por	%xmm2, %xmm0
	pshufb	.LCPI39535_3(%rip), %xmm1
	por	%xmm3, %xmm1
	por	%xmm0, %xmm1
	pshufd	$238, %xmm1, %xmm0
	por	%xmm1, %xmm0
	movq	%xmm0, 320(%rsp)
	leaq	320(%rsp), %rsi
	movl	$8, %edx
	movq	%r14, %rdi
	callq	"sha2::block256::Core256::update"
	movdqa	.LCPI39535_4(%rip), %xmm0
	movdqa	(%rsp), %xmm1
	movdqa	16(%rsp), %xmm2
	pshufb	%xmm0, %xmm1
	pshufb	%xmm0, %xmm2
	movdqu	%xmm1, (%rbx)
	movdqu	%xmm2, 16(%rbx)
	addq	$416, %rsp
	.cfi_def_cfa_offset 32
	popq	%rbx
	.cfi_def_cfa_offset 24
	popq	%r14
	.cfi_def_cfa_offset 16
	popq	%r15
	.cfi_def_cfa_offset 8
	retq
.Lfunc_end39535:
	.size	"hmac_mac::digest_after", .Lfunc_end39535-"hmac_mac::digest_after"
	.cfi_endproc

	.section	".text.login_keys::gpsk::derive_keys","ax",@progbits
	.p2align	4
	.type	"login_keys::gpsk::derive_keys",@function
"login_keys::gpsk::derive_keys":
	.cfi_startproc
	pushq	%rbp
	.cfi_def_cfa_offset 16
	pushq	%r15
	.cfi_def_cfa_offset 24
	pushq	%r14
	.cfi_def_cfa_offset 32
	pushq	%rbx
	.cfi_def_cfa_offset 40
	subq	$520, %rsp
	.cfi_def_cfa_offset 560
	.cfi_offset %rbx, -40
	.cfi_offset %r14, -32
	.cfi_offset %r15, -24
	.cfi_offset %rbp, -16
	movq	%r9, %rax
	movl	%esi, %ebp
	movq	%rdi, %rbx
	movq	32(%rdx), %r15
	movups	(%rdx), %xmm0
	movups	16(%rdx), %xmm1
	movaps	%xmm1, 48(%rsp)
	movaps	%xmm0, 32(%rsp)
	xorps	%xmm0, %xmm0
	movaps	%xmm0, 80(%rsp)
	movaps	%xmm0, 96(%rsp)
	movaps	%xmm0, 112(%rsp)
	movaps	%xmm0, 128(%rsp)
	movaps	%xmm0, 144(%rsp)
	movaps	%xmm0, 160(%rsp)
	movaps	%xmm0, 176(%rsp)
	movaps	%xmm0, 192(%rsp)
	movaps	%xmm0, 208(%rsp)
	movaps	%xmm0, 224(%rsp)
	movaps	%xmm0, 240(%rsp)
	movaps	%xmm0, 256(%rsp)
	movq	$0, 272(%rsp)
	leaq	80(%rsp), %r14
	movq	%r14, 8(%rsp)
	movq	$0, (%rsp)
	leaq	24(%rsp), %r9
	movl	$160, %esi
	movl	%ebp, %edi
	movq	%rcx, %rdx
	movq	%r8, %rcx
	movq	%rax, %r8
	callq	"login_keys::gpsk::derivation::derive"
	movq	%r15, 64(%rsp)
	movq	272(%rsp), %r8
	leaq	288(%rsp), %r15
	leaq	32(%rsp), %rdx
	movq	%r15, %rdi
	movl	%ebp, %esi
	movq	%r14, %rcx
	callq	"login_keys::gpsk::cut_keys"
	movl	$232, %edx
	movq	%rbx, %rdi
	movq	%r15, %rsi
	callq	memcpy@PLT
	addq	$520, %rsp
	.cfi_def_cfa_offset 40
	popq	%rbx
	.cfi_def_cfa_offset 32
	popq	%r14
	.cfi_def_cfa_offset 24
	popq	%r15
	.cfi_def_cfa_offset 16
	popq	%rbp
	.cfi_def_cfa_offset 8
	retq
.Lfunc_end29a3e:
	.size	"login_keys::gpsk::derive_keys", .Lfunc_end29a3e-"login_keys::gpsk::derive_keys"
	.cfi_endproc

	.section	".text.login_keys::gpsk::derivation::derive","ax",@progbits
	.p2align	4
	.type	"login_keys::gpsk::derivation::derive",@function
"login_keys::gpsk::derivation::derive":
	.cfi_startproc
	pushq	%rbp
	.cfi_def_cfa_offset 16
	pushq	%r15
	.cfi_def_cfa_offset 24
	pushq	%r14
	.cfi_def_cfa_offset 32
	pushq	%r13
	.cfi_def_cfa_offset 40
	pushq	%r12
	.cfi_def_cfa_offset 48
	pushq	%rbx
	.cfi_def_cfa_offset 56
	subq	$248, %rsp
	.cfi_def_cfa_offset 304
	.cfi_offset %rbx, -56
	.cfi_offset %r12, -48
	.cfi_offset %r13, -40
	.cfi_offset %r14, -32
	.cfi_offset %r15, -24
	.cfi_offset %rbp, -16
	movq	%r9, 8(%rsp)
	movq	%r8, (%rsp)
	movq	%rcx, %r15
	movq	%rdx, %r12
	movq	312(%rsp), %r8
	xorps	%xmm0, %xmm0
	movaps	%xmm0, 32(%rsp)
	movaps	%xmm0, 16(%rsp)
	movq	$0, 48(%rsp)
	movaps	%xmm0, 64(%rsp)
	testb	%dil, %dil
	setne	%al
	sete	%cl
	xorb	$5, %cl
	movl	%esi, %edx
	shrb	%cl, %dl
	movaps	%xmm0, 80(%rsp)
	movzbl	%dl, %ecx
	shlb	$4, %al
	orb	$15, %al
	xorl	%r14d, %r14d
	testb	%sil, %al
	setne	%r14b
	addq	%rcx, %r14
	movq	%rsi, 56(%rsp)
	je	.LBBfae6a_1
	xorl	%ebx, %ebx
	cmpq	$0, 304(%rsp)
	jne	.LBBfae6a_9
	jmp	.LBBfae6a_3
	.p2align	4
.LBBfae6a_14:
	incq	%rbx
	cmpq	%rbx, %r14
	je	.LBBfae6a_15
.LBBfae6a_9:
	leal	1(%rbx), %eax
	rolw	$8, %ax
	movw	%ax, (%r15)
	xorps	%xmm0, %xmm0
	movaps	%xmm0, 160(%rsp)
	movaps	%xmm0, 144(%rsp)
	cmpb	$0, (%r12)
	je	.LBBfae6a_10
	leaq	144(%rsp), %rdi
	leaq	8(%r12), %rsi
	movq	%r15, %rdx
	movq	(%rsp), %rcx
	movq	8(%rsp), %r8
	movq	304(%rsp), %r9
	callq	"login_keys::gpsk::mac_key::hmac_tag"
	movaps	144(%rsp), %xmm0
	movaps	160(%rsp), %xmm1
	movaps	%xmm1, 112(%rsp)
	movaps	%xmm0, 96(%rsp)
	movl	$32, %ebp
	jmp	.LBBfae6a_12
	.p2align	4
.LBBfae6a_10:
	leaq	216(%rsp), %rdi
	leaq	1(%r12), %rsi
	movq	%r15, %rdx
	movq	(%rsp), %rcx
	movq	8(%rsp), %r8
	movq	304(%rsp), %r9
	callq	"login_keys::gpsk::mac_key::cmac_tag"
	leaq	232(%rsp), %rax
	xorps	%xmm0, %xmm0
	movups	%xmm0, (%rax)
	movups	216(%rsp), %xmm0
	movups	232(%rsp), %xmm1
	movaps	%xmm1, 112(%rsp)
	movaps	%xmm0, 96(%rsp)
	movl	$16, %ebp
.LBBfae6a_12:
	movaps	96(%rsp), %xmm0
	movaps	112(%rsp), %xmm1
	movaps	%xmm1, 80(%rsp)
	movaps	%xmm0, 64(%rsp)
	movaps	%xmm1, 32(%rsp)
	movaps	%xmm0, 16(%rsp)
	movq	%rbp, 48(%rsp)
	movq	312(%rsp), %r8
	movq	192(%r8), %r13
	movl	$192, %eax
	subq	%r13, %rax
	cmpq	%rbp, %rax
	jb	.LBBfae6a_14
	leaq	(%r8,%r13), %rdi
	leaq	16(%rsp), %rsi
	movq	%rbp, %rdx
	callq	memcpy@PLT
	movq	312(%rsp), %r8
	addq	%rbp, %r13
	movq	%r13, 192(%r8)
	jmp	.LBBfae6a_14
	.p2align	4
.LBBfae6a_8:
	incq	%rbx
	cmpq	%rbx, %r14
	je	.LBBfae6a_15
.LBBfae6a_3:
	leal	1(%rbx), %eax
	rolw	$8, %ax
	movw	%ax, (%r15)
	xorps	%xmm0, %xmm0
	movaps	%xmm0, 128(%rsp)
	cmpb	$0, (%r12)
	je	.LBBfae6a_5
	leaq	216(%rsp), %r13
	movq	%r13, %rdi
	leaq	8(%r12), %rsi
	movq	%r15, %rdx
	movq	(%rsp), %rcx
	callq	"hmac_mac::digest_after"
	leaq	176(%rsp), %rdi
	movl	$32, %ebp
	movl	$32, %ecx
	leaq	112(%r12), %rsi
	movq	%r13, %rdx
	callq	"hmac_mac::digest_after"
	jmp	.LBBfae6a_6
	.p2align	4
.LBBfae6a_5:
	leaq	128(%rsp), %rdi
	leaq	1(%r12), %rsi
	movq	%r15, %rdx
	movq	(%rsp), %rcx
	callq	"cmac_mac::key::CmacKey::tag_whole"
	leaq	192(%rsp), %rax
	xorps	%xmm0, %xmm0
	movups	%xmm0, (%rax)
	movaps	128(%rsp), %xmm0
	movaps	%xmm0, 176(%rsp)
	movl	$16, %ebp
.LBBfae6a_6:
	movaps	176(%rsp), %xmm0
	movaps	192(%rsp), %xmm1
	movaps	%xmm0, 64(%rsp)
	movaps	%xmm1, 80(%rsp)
	movaps	%xmm1, 32(%rsp)
	movaps	%xmm0, 16(%rsp)
	movq	%rbp, 48(%rsp)
	movq	312(%rsp), %r8
	movq	192(%r8), %r13
	movl	$192, %eax
	subq	%r13, %rax
	cmpq	%rbp, %rax
	jb	.LBBfae6a_8
	leaq	(%r8,%r13), %rdi
	leaq	16(%rsp), %rsi
	movq	%rbp, %rdx
	callq	memcpy@PLT
	movq	312(%rsp), %r8
	addq	%rbp, %r13
	movq	%r13, 192(%r8)
	jmp	.LBBfae6a_8
.LBBfae6a_1:
	movq	192(%r8), %r13
.LBBfae6a_15:
	movq	56(%rsp), %rbx
	subq	%rbx, %r13
	jbe	.LBBfae6a_17
	leaq	(%r8,%rbx), %rdi
	xorl	%esi, %esi
	movq	%r13, %rdx
	movq	%r8, %r14
	callq	memset@PLT
	movq	%rbx, 192(%r14)
.LBBfae6a_17:
	addq	$248, %rsp
	.cfi_def_cfa_offset 56
	popq	%rbx
	.cfi_def_cfa_offset 48
	popq	%r12
	.cfi_def_cfa_offset 40
	popq	%r13
	.cfi_def_cfa_offset 32
	popq	%r14
	.cfi_def_cfa_offset 24
	popq	%r15
	.cfi_def_cfa_offset 16
	popq	%rbp
	.cfi_def_cfa_offset 8
	retq
.Lfunc_endfae6a:
	.size	"login_keys::gpsk::derivation::derive", .Lfunc_endfae6a-"login_keys::gpsk::derivation::derive"
	.cfi_endproc

	.section	".text.login_keys::gpsk::mac_key::cmac_tag","ax",@progbits
	.p2align	4
	.type	"login_keys::gpsk::mac_key::cmac_tag",@function
"login_keys::gpsk::mac_key::cmac_tag":
	.cfi_startproc
	pushq	%rbx
	.cfi_def_cfa_offset 16
	subq	$16, %rsp
	.cfi_def_cfa_offset 32
	.cfi_offset %rbx, -16
	movq	%rdi, %rbx
	xorps	%xmm0, %xmm0
	movaps	%xmm0, (%rsp)
	movq	%rsp, %rdi
	callq	"cmac_mac::key::CmacKey::tag"
	movaps	(%rsp), %xmm0
	movups	%xmm0, (%rbx)
	addq	$16, %rsp
	.cfi_def_cfa_offset 16
	popq	%rbx
	.cfi_def_cfa_offset 8
	retq
.Lfunc_end76b1f:
	.size	"login_keys::gpsk::mac_key::cmac_tag", .Lfunc_end76b1f-"login_keys::gpsk::mac_key::cmac_tag"
	.cfi_endproc

	.section	.rodata.cst16,"aM",@progbits,16
	.p2align	4, 0x0
.LCPIdcd8c_0:
	.byte	128,128,128,4,128,128,128,128,128,128,13,128,128,128,128,128
.LCPIdcd8c_1:
	.byte	0,0,0,0,0,0,255,0,0,0,0,0,0,255,0,0
.LCPIdcd8c_2:
	.byte	128,6,128,128,128,128,128,128,15,128,128,128,128,128,128,128
.LCPIdcd8c_3:
	.byte	0,0,0,0,255,0,0,0,255,255,255,255,255,255,255,255
.LCPIdcd8c_4:
	.byte	3,2,1,0,7,6,5,4,11,10,9,8,15,14,13,12
	.section	".text.login_keys::gpsk::mac_key::hmac_tag","ax",@progbits
	.p2align	4
	.type	"login_keys::gpsk::mac_key::hmac_tag",@function
"login_keys::gpsk::mac_key::hmac_tag":
	.cfi_startproc
	pushq	%r15
	.cfi_def_cfa_offset 16
	pushq	%r14
	.cfi_def_cfa_offset 24
	pushq	%r13
	.cfi_def_cfa_offset 32
	pushq	%r12
	.cfi_def_cfa_offset 40
	pushq	%rbx
	.cfi_def_cfa_offset 48
	subq	$656, %rsp
	.cfi_def_cfa_offset 704
	.cfi_offset %rbx, -48
	.cfi_offset %r12, -40
	.cfi_offset %r13, -32
	.cfi_offset %r14, -24
	.cfi_offset %r15, -16
	movq	%r9, %r14
	movq	%r8, %r15
	movq	%rdi, %rbx
	movups	(%rsi), %xmm0
	movups	16(%rsi), %xmm1
	movaps	%xmm1, 16(%rsp)
	movaps	%xmm0, (%rsp)
	movups	32(%rsi), %xmm2
	movups	48(%rsi), %xmm3
	movups	64(%rsi), %xmm4
	movups	80(%rsi), %xmm5
	movaps	%xmm2, 32(%rsp)
	movaps	%xmm3, 48(%rsp)
	movaps	%xmm4, 64(%rsp)
	movaps	%xmm5, 80(%rsp)
	movq	96(%rsi), %rax
	movups	%xmm1, 135(%rsp)
	movups	%xmm2, 151(%rsp)
	movups	%xmm3, 167(%rsp)
	movups	%xmm4, 183(%rsp)
	movups	%xmm5, 199(%rsp)
	movups	%xmm0, 119(%rsp)
	movups	199(%rsp), %xmm0
	movups	%xmm0, 87(%rsp)
	movups	183(%rsp), %xmm0
	movups	%xmm0, 71(%rsp)
	movups	119(%rsp), %xmm0
	movups	135(%rsp), %xmm1
	movups	151(%rsp), %xmm2
	movups	167(%rsp), %xmm3
	movups	%xmm3, 55(%rsp)
	movups	%xmm2, 39(%rsp)
	movups	%xmm1, 23(%rsp)
	movups	%xmm0, 7(%rsp)
	movups	87(%rsp), %xmm0
	movaps	%xmm0, 432(%rsp)
	movups	71(%rsp), %xmm0
	movaps	%xmm0, 416(%rsp)
	movups	7(%rsp), %xmm0
	movups	23(%rsp), %xmm1
	movups	39(%rsp), %xmm2
	movups	55(%rsp), %xmm3
	movaps	%xmm3, 400(%rsp)
	movaps	%xmm2, 384(%rsp)
	movaps	%xmm1, 368(%rsp)
	movaps	%xmm0, 352(%rsp)
	movups	104(%rsi), %xmm0
	movups	120(%rsi), %xmm1
	movaps	%xmm1, 16(%rsp)
	movaps	%xmm0, (%rsp)
	movups	136(%rsi), %xmm2
	movups	152(%rsi), %xmm3
	movups	168(%rsi), %xmm4
	movups	184(%rsi), %xmm5
	movaps	%xmm2, 32(%rsp)
	movaps	%xmm3, 48(%rsp)
	movaps	%xmm4, 64(%rsp)
	movaps	%xmm5, 80(%rsp)
	movq	200(%rsi), %rsi
	movups	%xmm1, 135(%rsp)
	movups	%xmm2, 151(%rsp)
	movups	%xmm3, 167(%rsp)
	movups	%xmm4, 183(%rsp)
	movups	%xmm5, 199(%rsp)
	movups	%xmm0, 119(%rsp)
	movups	199(%rsp), %xmm0
	movups	%xmm0, 87(%rsp)
	movups	183(%rsp), %xmm0
	movups	%xmm0, 71(%rsp)
	movups	119(%rsp), %xmm0
	movups	135(%rsp), %xmm1
	movups	151(%rsp), %xmm2
	movups	167(%rsp), %xmm3
	movups	%xmm3, 55(%rsp)
	movups	%xmm2, 39(%rsp)
	movups	%xmm1, 23(%rsp)
	movups	%xmm0, 7(%rsp)
	movups	87(%rsp), %xmm0
	movaps	%xmm0, 336(%rsp)
	movups	71(%rsp), %xmm0
	movaps	%xmm0, 320(%rsp)
	movups	7(%rsp), %xmm0
	movups	23(%rsp), %xmm1
	movups	39(%rsp), %xmm2
	movups	55(%rsp), %xmm3
	movaps	%xmm3, 304(%rsp)
	movaps	%xmm2, 288(%rsp)
	movaps	%xmm1, 272(%rsp)
	movaps	%xmm0, 256(%rsp)
	movaps	432(%rsp), %xmm0
	movaps	%xmm0, 528(%rsp)
	movaps	416(%rsp), %xmm0
	movaps	%xmm0, 512(%rsp)
	movaps	352(%rsp), %xmm0
	movaps	368(%rsp), %xmm1
	movaps	384(%rsp), %xmm2
	movaps	400(%rsp), %xmm3
	movaps	%xmm3, 496(%rsp)
	movaps	%xmm2, 480(%rsp)
	movaps	%xmm1, 464(%rsp)
	movaps	%xmm0, 448(%rsp)
	movq	%rax, 544(%rsp)
	leaq	552(%rsp), %r12
	movaps	336(%rsp), %xmm0
	movups	%xmm0, 632(%rsp)
	movaps	320(%rsp), %xmm0
	movups	%xmm0, 616(%rsp)
	movaps	256(%rsp), %xmm0
	movaps	272(%rsp), %xmm1
	movaps	288(%rsp), %xmm2
	movaps	304(%rsp), %xmm3
	movups	%xmm3, 600(%rsp)
	movups	%xmm2, 584(%rsp)
	movups	%xmm1, 568(%rsp)
	movups	%xmm0, 552(%rsp)
	movq	%rsi, 648(%rsp)
	leaq	448(%rsp), %rdi
	movq	%rdx, %rsi
	movq	%rcx, %rdx
	callq	"sha2::block256::Core256::update"
	testq	%r14, %r14
	je	.LBBdcd8c_3
	shlq	$4, %r14
	xorl	%r13d, %r13d
	.p2align	4
.LBBdcd8c_2:
	movq	(%r15,%r13), %rsi
	movq	8(%r15,%r13), %rdx
	leaq	448(%rsp), %rdi
	callq	"sha2::block256::Core256::update"
	addq	$16, %r13
	cmpq	%r13, %r14
	jne	.LBBdcd8c_2
.LBBdcd8c_3:
	movq	544(%rsp), %r13
	movq	648(%rsp), %rax
	movaps	528(%rsp), %xmm0
	movaps	%xmm0, 192(%rsp)
	movaps	512(%rsp), %xmm0
	movaps	%xmm0, 176(%rsp)
	movaps	448(%rsp), %xmm0
	movaps	464(%rsp), %xmm1
	movaps	480(%rsp), %xmm2
	movaps	496(%rsp), %xmm3
	movaps	%xmm3, 160(%rsp)
	movaps	%xmm2, 144(%rsp)
	movaps	%xmm1, 128(%rsp)
	movaps	%xmm0, 112(%rsp)
	movq	%r13, 208(%rsp)
	movups	(%r12), %xmm0
	movups	16(%r12), %xmm1
	movups	32(%r12), %xmm2
	movups	48(%r12), %xmm3
	movaps	%xmm0, (%rsp)
	movaps	%xmm1, 16(%rsp)
	movaps	%xmm2, 32(%rsp)
	movaps	%xmm3, 48(%rsp)
	movups	64(%r12), %xmm0
	movaps	%xmm0, 64(%rsp)
	movups	80(%r12), %xmm0
	movaps	%xmm0, 80(%rsp)
	movq	%rax, 96(%rsp)
	movl	$55, %r14d
	movl	$55, %edx
	subl	%r13d, %edx
	andl	$63, %edx
	incq	%rdx
	leaq	.Lstatic.13(%rip), %r15
	leaq	112(%rsp), %r12
	movq	%r12, %rdi
	movq	%r15, %rsi
	callq	"sha2::block256::Core256::update"
	movq	%r13, %xmm0
	pshufd	$68, %xmm0, %xmm1
	movdqa	%xmm0, %xmm2
	psllq	$11, %xmm2
	movdqa	%xmm1, %xmm3
	psllq	$59, %xmm3
	pblendw	$15, %xmm2, %xmm3
	psllq	$43, %xmm0
	movdqa	%xmm1, %xmm2
	psllq	$27, %xmm2
	pblendw	$15, %xmm0, %xmm2
	psllq	$3, %xmm1
	movdqa	%xmm1, %xmm0
	pshufb	.LCPIdcd8c_0(%rip), %xmm0
	pand	.LCPIdcd8c_1(%rip), %xmm2
	por	%xmm0, %xmm2
	pshufb	.LCPIdcd8c_2(%rip), %xmm1
	pand	.LCPIdcd8c_3(%rip), %xmm3
	por	%xmm1, %xmm3
	por	%xmm2, %xmm3
	pshufd	$238, %xmm3, %xmm0
	por	%xmm3, %xmm0
	movq	%xmm0, 224(%rsp)
	leaq	224(%rsp), %rsi
	movl	$8, %edx
	movq	%r12, %rdi
	callq	"sha2::block256::Core256::update"
	movdqa	112(%rsp), %xmm0
	movdqa	128(%rsp), %xmm1
	movdqa	.LCPIdcd8c_4(%rip), %xmm2
	pshufb	%xmm2, %xmm0
	pshufb	%xmm2, %xmm1
	movdqa	%xmm0, 224(%rsp)
	movdqa	%xmm1, 240(%rsp)
	movq	%rsp, %rdi
	leaq	224(%rsp), %rsi
	movl	$32, %edx
	callq	"sha2::block256::Core256::update"
	movq	96(%rsp), %r13
	movq	%r13, 208(%rsp)
	movaps	80(%rsp), %xmm0
	movaps	%xmm0, 192(%rsp)
	movaps	64(%rsp), %xmm0
	movaps	%xmm0, 176(%rsp)
	movaps	(%rsp), %xmm0
	movaps	16(%rsp), %xmm1
	movaps	32(%rsp), %xmm2
	movaps	48(%rsp), %xmm3
	movaps	%xmm3, 160(%rsp)
	movaps	%xmm2, 144(%rsp)
	movaps	%xmm1, 128(%rsp)
	movaps	%xmm0, 112(%rsp)
	subl	%r13d, %r14d
	andl	$63, %r14d
	incq	%r14
	leaq	112(%rsp), %r12
	movq	%r12, %rdi
	movq	%r15, %rsi
	movq	%r14, %rdx
	callq	"sha2::block256::Core256::update"
	movq	%r13, %xmm0
	pshufd	$68, %xmm0, %xmm1
	movdqa	%xmm0, %xmm2
	psllq	$11, %xmm2
	movdqa	%xmm1, %xmm3
	psllq	$59, %xmm3
	pblendw	$15, %xmm2, %xmm3
	psllq	$43, %xmm0
	movdqa	%xmm1, %xmm2
	psllq	$27, %xmm2
	pblendw	$15, %xmm0, %xmm2
	psllq	$3, %xmm1
	movdqa	%xmm1, %xmm0
	pshufb	.LCPIdcd8c_0(%rip), %xmm0
	pand	.LCPIdcd8c_1(%rip), %xmm2
	por	%xmm0, %xmm2
	pshufb	.LCPIdcd8c_2(%rip), %xmm1
	pand	.LCPIdcd8c_3(%rip), %xmm3
	por	%xmm1, %xmm3
	por	%xmm2, %xmm3
	pshufd	$238, %xmm3, %xmm0
	por	%xmm3, %xmm0
	movq	%xmm0, 216(%rsp)
	leaq	216(%rsp), %rsi
	movl	$8, %edx
	movq	%r12, %rdi
	callq	"sha2::block256::Core256::update"
	movdqa	112(%rsp), %xmm0
	movdqa	128(%rsp), %xmm1
	movdqa	.LCPIdcd8c_4(%rip), %xmm2
	pshufb	%xmm2, %xmm0
	pshufb	%xmm2, %xmm1
	movdqu	%xmm0, (%rbx)
	movdqu	%xmm1, 16(%rbx)
	addq	$656, %rsp
	.cfi_def_cfa_offset 48
	popq	%rbx
	.cfi_def_cfa_offset 40
	popq	%r12
	.cfi_def_cfa_offset 32
	popq	%r13
	.cfi_def_cfa_offset 24
	popq	%r14
	.cfi_def_cfa_offset 16
	popq	%r15
	.cfi_def_cfa_offset 8
	retq
.Lfunc_enddcd8c:
	.size	"login_keys::gpsk::mac_key::hmac_tag", .Lfunc_enddcd8c-"login_keys::gpsk::mac_key::hmac_tag"
	.cfi_endproc

	.section	".text.login_keys::gpsk::cut_keys","ax",@progbits
	.p2align	4
	.type	"login_keys::gpsk::cut_keys",@function
"login_keys::gpsk::cut_keys":
	.cfi_startproc
	pushq	%rbp
	.cfi_def_cfa_offset 16
	pushq	%r15
	.cfi_def_cfa_offset 24
	pushq	%r14
	.cfi_def_cfa_offset 32
	pushq	%r13
	.cfi_def_cfa_offset 40
	pushq	%r12
	.cfi_def_cfa_offset 48
	pushq	%rbx
	.cfi_def_cfa_offset 56
	subq	$328, %rsp
	.cfi_def_cfa_offset 384
	.cfi_offset %rbx, -56
	.cfi_offset %r12, -48
	.cfi_offset %r13, -40
	.cfi_offset %r14, -32
	.cfi_offset %r15, -24
	.cfi_offset %rbp, -16
	movq	%r8, %r12
	movq	%rcx, %r14
	movq	%rdx, %r15
	movq	%rdi, 24(%rsp)
	xorl	%edx, %edx
	testb	%sil, %sil
	setne	%dl
	shll	$4, %edx
	leaq	16(%rdx), %rbp
	leaq	144(%rdx), %r13
	leaq	128(%rcx), %rbx
	leaq	(%rsp,%rdx), %rdi
	addq	$72, %rdi
	xorq	$24, %rdx
	xorl	%esi, %esi
	callq	memset@PLT
	leaq	56(%rsp), %rdi
	movq	%rbx, %rsi
	movq	%rbp, %rdx
	callq	memcpy@PLT
	movq	%rbp, 88(%rsp)
	subq	%r13, %r12
	xorps	%xmm0, %xmm0
	movaps	%xmm0, (%rsp)
	movq	$0, 16(%rsp)
	cmpq	$16, %r12
	ja	.LBBd2c6a_2
	addq	%r14, %r13
	movq	%rsp, %rdi
	movq	%r13, %rsi
	movq	%r12, %rdx
	callq	memcpy@PLT
	movq	%r12, 16(%rsp)
.LBBd2c6a_2:
	movq	16(%rsp), %rax
	movq	%rax, 48(%rsp)
	movaps	(%rsp), %xmm0
	movaps	%xmm0, 32(%rsp)
	movq	32(%r15), %rax
	movq	%rax, 128(%rsp)
	movups	(%r15), %xmm0
	movups	16(%r15), %xmm1
	movaps	%xmm1, 112(%rsp)
	movaps	%xmm0, 96(%rsp)
	movups	(%r14), %xmm0
	movups	16(%r14), %xmm1
	movups	32(%r14), %xmm2
	movups	48(%r14), %xmm3
	movups	%xmm0, 136(%rsp)
	movups	%xmm1, 152(%rsp)
	movups	%xmm2, 168(%rsp)
	movups	%xmm3, 184(%rsp)
	movups	64(%r14), %xmm0
	movups	80(%r14), %xmm1
	movups	96(%r14), %xmm2
	movups	112(%r14), %xmm3
	movups	%xmm0, 200(%rsp)
	movups	%xmm1, 216(%rsp)
	movups	%xmm2, 232(%rsp)
	movups	%xmm3, 248(%rsp)
	movups	56(%rsp), %xmm0
	movups	72(%rsp), %xmm1
	movups	%xmm0, 264(%rsp)
	movups	%xmm1, 280(%rsp)
	movq	88(%rsp), %rax
	movq	%rax, 296(%rsp)
	movaps	32(%rsp), %xmm0
	movaps	%xmm0, 304(%rsp)
	movq	48(%rsp), %rax
	movq	%rax, 320(%rsp)
	leaq	96(%rsp), %rsi
	movl	$232, %edx
	movq	24(%rsp), %rdi
	callq	memcpy@PLT
	addq	$328, %rsp
	.cfi_def_cfa_offset 56
	popq	%rbx
	.cfi_def_cfa_offset 48
	popq	%r12
	.cfi_def_cfa_offset 40
	popq	%r13
	.cfi_def_cfa_offset 32
	popq	%r14
	.cfi_def_cfa_offset 24
	popq	%r15
	.cfi_def_cfa_offset 16
	popq	%rbp
	.cfi_def_cfa_offset 8
	retq
.Lfunc_endd2c6a:
	.size	"login_keys::gpsk::cut_keys", .Lfunc_endd2c6a-"login_keys::gpsk::cut_keys"
	.cfi_endproc

	.section	".text.gpsk_ends::peer::turns::expand::<#e0641de541981142>","ax",@progbits
	.p2align	4
	.type	"gpsk_ends::peer::turns::expand::<#e0641de541981142>",@function
"gpsk_ends::peer::turns::expand::<#e0641de541981142>":
	.cfi_startproc
	pushq	%rbp
	.cfi_def_cfa_offset 16
	pushq	%r15
	.cfi_def_cfa_offset 24
	pushq	%r14
	.cfi_def_cfa_offset 32
	pushq	%r13
	.cfi_def_cfa_offset 40
	pushq	%r12
	.cfi_def_cfa_offset 48
	pushq	%rbx
	.cfi_def_cfa_offset 56
	subq	$1000, %rsp
	.cfi_def_cfa_offset 1056
	.cfi_offset %rbx, -56
	.cfi_offset %r12, -48
	.cfi_offset %r13, -40
	.cfi_offset %r14, -32
	.cfi_offset %r15, -24
	.cfi_offset %rbp, -16
	movq	%r8, %r14
	movq	%rcx, %r15
	movq	%rdx, %r13
	movq	%rsi, 40(%rsp)
	movq	%rdi, %rbx
	movb	$0, 38(%rsp)
	movw	$0, 36(%rsp)
	leaq	280(%rsp), %rdi
	movl	$232, %edx
	movq	%r9, %rsi
	callq	memcpy@PLT
	movzbl	64(%r14), %r12d
	leaq	448(%rsp), %rsi
	movq	480(%rsp), %rdx
	xorps	%xmm0, %xmm0
	movaps	%xmm0, 256(%rsp)
	movaps	%xmm0, 240(%rsp)
	movaps	%xmm0, 224(%rsp)
	movaps	%xmm0, 208(%rsp)
	movaps	%xmm0, 192(%rsp)
	movaps	%xmm0, 176(%rsp)
	movaps	%xmm0, 160(%rsp)
	movaps	%xmm0, 144(%rsp)
	movaps	%xmm0, 128(%rsp)
	movaps	%xmm0, 112(%rsp)
	movaps	%xmm0, 96(%rsp)
	movaps	%xmm0, 80(%rsp)
	movaps	%xmm0, 64(%rsp)
	movq	$0, 271(%rsp)
	testb	%r12b, %r12b
	je	.LBB7999b_1
	leaq	512(%rsp), %rbp
	movq	%rbp, %rdi
	callq	"hmac_mac::key_block"
	leaq	576(%rsp), %rdi
	movq	%rbp, %rsi
	movl	$54, %edx
	callq	"hmac_mac::keyed_hash"
	leaq	680(%rsp), %rdi
	movq	%rbp, %rsi
	movl	$92, %edx
	callq	"hmac_mac::keyed_hash"
	leaq	71(%rsp), %rdi
	movl	$208, %edx
	leaq	576(%rsp), %rsi
	callq	memcpy@PLT
	jmp	.LBB7999b_3
.LBB7999b_1:
	movaps	%xmm0, 48(%rsp)
	leaq	48(%rsp), %rbp
	movq	%rbp, %rdi
	callq	memcpy@PLT
	leaq	64(%rsp), %rdi
	movq	%rbp, %rsi
	callq	"cmac_mac::key::CmacKey::new"
.LBB7999b_3:
	movb	%r12b, 784(%rsp)
	leaq	785(%rsp), %rdi
	leaq	64(%rsp), %rsi
	movl	$215, %edx
	callq	memcpy@PLT
	movq	1072(%rsp), %rax
	movq	%rax, 24(%rsp)
	movq	1064(%rsp), %rax
	movq	%rax, 16(%rsp)
	movzbl	1056(%rsp), %eax
	movl	%eax, 8(%rsp)
	leaq	784(%rsp), %rax
	movq	%rax, (%rsp)
	leaq	36(%rsp), %rdi
	leaq	280(%rsp), %r9
	movq	40(%rsp), %rsi
	movq	%r13, %rdx
	movq	%r15, %rcx
	movq	%r14, %r8
	callq	"gpsk_ends::peer::turns::log_in::<#e0641de541981142>"
	movzbl	36(%rsp), %eax
	movb	%al, (%rbx)
	movzbl	37(%rsp), %eax
	movb	%al, 1(%rbx)
	movzbl	38(%rsp), %eax
	movb	%al, 2(%rbx)
	addq	$1000, %rsp
	.cfi_def_cfa_offset 56
	popq	%rbx
	.cfi_def_cfa_offset 48
	popq	%r12
	.cfi_def_cfa_offset 40
	popq	%r13
	.cfi_def_cfa_offset 32
	popq	%r14
	.cfi_def_cfa_offset 24
	popq	%r15
	.cfi_def_cfa_offset 16
	popq	%rbp
	.cfi_def_cfa_offset 8
	retq
.Lfunc_end7999b:
	.size	"gpsk_ends::peer::turns::expand::<#e0641de541981142>", .Lfunc_end7999b-"gpsk_ends::peer::turns::expand::<#e0641de541981142>"
	.cfi_endproc

	.section	".text.gpsk_ends::peer::turns::log_in::<#e0641de541981142>","ax",@progbits
	.p2align	4
	.type	"gpsk_ends::peer::turns::log_in::<#e0641de541981142>",@function
"gpsk_ends::peer::turns::log_in::<#e0641de541981142>":
	.cfi_startproc
	pushq	%rbp
	.cfi_def_cfa_offset 16
	pushq	%r15
	.cfi_def_cfa_offset 24
	pushq	%r14
	.cfi_def_cfa_offset 32
	pushq	%r13
	.cfi_def_cfa_offset 40
	pushq	%r12
	.cfi_def_cfa_offset 48
	pushq	%rbx
	.cfi_def_cfa_offset 56
	subq	$1128, %rsp
	.cfi_def_cfa_offset 1184
	.cfi_offset %rbx, -56
	.cfi_offset %r12, -48
	.cfi_offset %r13, -40
	.cfi_offset %r14, -32
	.cfi_offset %r15, -24
	.cfi_offset %rbp, -16
	movq	%r8, %r12
	movq	%rcx, 24(%rsp)
	movq	%rdx, 8(%rsp)
	movq	%rsi, %r13
	movq	%rdi, 16(%rsp)
	movq	1208(%rsp), %r15
	movq	1184(%rsp), %rbx
	leaq	896(%rsp), %rdi
	movl	$232, %edx
	movq	%r9, %rsi
	callq	memcpy@PLT
	movzbl	(%rbx), %eax
	movb	%al, 7(%rsp)
	incq	%rbx
	leaq	681(%rsp), %rdi
	movl	$215, %edx
	movq	%rbx, %rsi
	callq	memcpy@PLT
	movq	$0, 224(%rsp)
	cmpb	$0, 528(%r13)
	jne	.LBBe23de_25
	movq	(%r12), %rbp
	movq	8(%r12), %r14
	leaq	264(%r13), %rbx
	movq	520(%r13), %rdx
	testq	%rdx, %rdx
	je	.LBBe23de_3
	movq	%rbx, %rdi
	xorl	%esi, %esi
	callq	memset@PLT
	movq	$0, 520(%r13)
.LBBe23de_3:
	cmpq	$253, %r14
	ja	.LBBe23de_25
	movq	%rbx, %rax
	subq	%rbp, %rax
	cmpq	%r14, %rax
	jae	.LBBe23de_7
	cmpq	$4, %r14
	jb	.LBBe23de_6
	movq	%r13, %rax
	subq	%rbp, %rax
	addq	$264, %rax
	cmpq	$32, %rax
	jae	.LBBe23de_10
.LBBe23de_6:
	xorl	%eax, %eax
.LBBe23de_19:
	movq	%r14, %rdx
	movq	%rax, %rcx
	andq	$3, %rdx
	je	.LBBe23de_22
	movq	%rax, %rcx
	.p2align	4
.LBBe23de_21:
	movzbl	(%rbp,%rcx), %esi
	movb	%sil, (%rbx,%rcx)
	incq	%rcx
	decq	%rdx
	jne	.LBBe23de_21
.LBBe23de_22:
	subq	%r14, %rax
	cmpq	$-4, %rax
	ja	.LBBe23de_24
	.p2align	4
.LBBe23de_23:
	movzbl	(%rbp,%rcx), %eax
	movb	%al, 264(%r13,%rcx)
	movzbl	1(%rbp,%rcx), %eax
	movb	%al, 265(%r13,%rcx)
	movzbl	2(%rbp,%rcx), %eax
	movb	%al, 266(%r13,%rcx)
	movzbl	3(%rbp,%rcx), %eax
	movb	%al, 267(%r13,%rcx)
	addq	$4, %rcx
	cmpq	%rcx, %r14
	jne	.LBBe23de_23
	jmp	.LBBe23de_24
.LBBe23de_7:
	movq	%rbx, %rdi
	movq	%rbp, %rsi
	movq	%r14, %rdx
	callq	memmove@PLT
.LBBe23de_24:
	movq	%r14, 520(%r13)
.LBBe23de_25:
	movzbl	64(%r12), %ebp
	movups	16(%r12), %xmm0
	movups	32(%r12), %xmm1
	movaps	%xmm1, 208(%rsp)
	movaps	%xmm0, 192(%rsp)
	leaq	224(%rsp), %rbx
	movb	%bpl, 224(%rsp)
	leaq	232(%rsp), %rdi
	leaq	896(%rsp), %rsi
	movl	$232, %edx
	callq	memcpy@PLT
	movzbl	7(%rsp), %eax
	movb	%al, 464(%rsp)
	leaq	465(%rsp), %rdi
	leaq	681(%rsp), %rsi
	movl	$215, %edx
	callq	memcpy@PLT
	movups	48(%r12), %xmm0
	movq	$0, (%r15)
	addq	$8, %r15
	xorps	%xmm1, %xmm1
	movaps	%xmm1, 144(%rsp)
	movaps	%xmm1, 128(%rsp)
	movaps	%xmm1, 112(%rsp)
	movaps	%xmm1, 96(%rsp)
	movaps	%xmm1, 80(%rsp)
	movaps	%xmm1, 64(%rsp)
	movaps	%xmm1, 48(%rsp)
	movaps	%xmm1, 32(%rsp)
	leaq	264(%r13), %rax
	movq	256(%r13), %rcx
	movq	520(%r13), %rdx
	movq	8(%rsp), %rsi
	movups	(%rsi), %xmm1
	movups	16(%rsi), %xmm2
	movups	%xmm2, 88(%rsp)
	movups	%xmm1, 72(%rsp)
	movaps	192(%rsp), %xmm1
	movaps	208(%rsp), %xmm2
	movups	%xmm1, 104(%rsp)
	movups	%xmm2, 120(%rsp)
	xorl	%esi, %esi
	testb	%bpl, %bpl
	setne	%sil
	leaq	.Lstatic.10(%rip), %rdi
	leaq	.Lstatic.14(%rip), %r8
	cmoveq	%rdi, %r8
	shll	$4, %esi
	addq	$16, %rsi
	movl	$1, 32(%rsp)
	movq	%r13, 40(%rsp)
	movq	%rcx, 48(%rsp)
	movq	%rax, 56(%rsp)
	movq	%rdx, 64(%rsp)
	movups	%xmm0, 136(%rsp)
	movb	%bpl, 152(%rsp)
	leaq	.Lstatic.0(%rip), %rax
	movq	%rax, 160(%rsp)
	movq	$0, 168(%rsp)
	movq	%r8, 176(%rsp)
	movq	%rsi, 184(%rsp)
	movzbl	1192(%rsp), %ecx
	leaq	32(%rsp), %rsi
	movq	%rbx, %rdi
	movl	$1, %edx
	movq	1200(%rsp), %r8
	movq	%r15, %r9
	callq	"gpsk_ends::keys::Keys::seal::<#e0641de541981142>"
	movq	24(%rsp), %rbx
	movq	$2, (%rbx)
	leaq	8(%rbx), %rdi
	leaq	192(%rsp), %rsi
	movl	$488, %edx
	callq	memcpy@PLT
	movw	$0, 496(%rbx)
	movq	16(%rsp), %rax
	movw	$513, (%rax)
	movb	$0, 2(%rax)
	addq	$1128, %rsp
	.cfi_def_cfa_offset 56
	popq	%rbx
	.cfi_def_cfa_offset 48
	popq	%r12
	.cfi_def_cfa_offset 40
	popq	%r13
	.cfi_def_cfa_offset 32
	popq	%r14
	.cfi_def_cfa_offset 24
	popq	%r15
	.cfi_def_cfa_offset 16
	popq	%rbp
	.cfi_def_cfa_offset 8
	retq
.LBBe23de_10:
	.cfi_def_cfa_offset 1184
	cmpq	$32, %r14
	jae	.LBBe23de_12
	xorl	%eax, %eax
	jmp	.LBBe23de_16
.LBBe23de_12:
	movl	%r14d, %eax
	andl	$224, %eax
	xorl	%ecx, %ecx
	.p2align	4
.LBBe23de_13:
	movups	(%rbp,%rcx), %xmm0
	movups	16(%rbp,%rcx), %xmm1
	movups	%xmm0, 264(%r13,%rcx)
	movups	%xmm1, 280(%r13,%rcx)
	addq	$32, %rcx
	cmpq	%rcx, %rax
	jne	.LBBe23de_13
	cmpq	%rax, %r14
	je	.LBBe23de_24
	testb	$28, %r14b
	je	.LBBe23de_19
.LBBe23de_16:
	movq	%rax, %rcx
	movl	%r14d, %eax
	andl	$252, %eax
	.p2align	4
.LBBe23de_17:
	movl	(%rbp,%rcx), %edx
	movl	%edx, (%rbx,%rcx)
	addq	$4, %rcx
	cmpq	%rcx, %rax
	jne	.LBBe23de_17
	cmpq	%rax, %r14
	je	.LBBe23de_24
	jmp	.LBBe23de_19
.Lfunc_ende23de:
	.size	"gpsk_ends::peer::turns::log_in::<#e0641de541981142>", .Lfunc_ende23de-"gpsk_ends::peer::turns::log_in::<#e0641de541981142>"
	.cfi_endproc

	.section	".text.gpsk_ends::keys::Keys::seal::<#e0641de541981142>","ax",@progbits
	.p2align	4
	.type	"gpsk_ends::keys::Keys::seal::<#e0641de541981142>",@function
"gpsk_ends::keys::Keys::seal::<#e0641de541981142>":
	.cfi_startproc
	pushq	%r15
	.cfi_def_cfa_offset 16
	pushq	%r14
	.cfi_def_cfa_offset 24
	pushq	%r13
	.cfi_def_cfa_offset 32
	pushq	%r12
	.cfi_def_cfa_offset 40
	pushq	%rbx
	.cfi_def_cfa_offset 48
	subq	$128, %rsp
	.cfi_def_cfa_offset 176
	.cfi_offset %rbx, -48
	.cfi_offset %r12, -40
	.cfi_offset %r13, -32
	.cfi_offset %r14, -24
	.cfi_offset %r15, -16
	movq	%r9, %r14
	movq	%r8, %rbx
	movq	%rdi, %r15
	movq	$0, 80(%rsp)
	xorl	%r12d, %r12d
	cmpb	$0, (%rdi)
	setne	%r12b
	movq	%r8, %rdi
	callq	"gpsk_messages::writing::write_gpsk_into"
	movq	1504(%rbx), %rcx
	shll	$4, %r12d
	addq	$16, %r12
	movq	%rcx, %r13
	subq	%r12, %r13
	jb	.LBBe92e4_2
	leaq	(%rbx,%r13), %rdi
	xorl	%esi, %esi
	movq	%r12, %rdx
	callq	memset@PLT
	movq	%r13, 1504(%rbx)
	movq	%r13, %rcx
.LBBe92e4_2:
	leaq	6(%rbx), %rdx
	addq	$-6, %rcx
	xorps	%xmm0, %xmm0
	movaps	%xmm0, (%rsp)
	cmpb	$0, 240(%r15)
	je	.LBBe92e4_3
	leaq	248(%r15), %rsi
	addq	$352, %r15
	leaq	96(%rsp), %r13
	movq	%r13, %rdi
	callq	"hmac_mac::digest_after"
	leaq	16(%rsp), %rdi
	movl	$32, %r12d
	movl	$32, %ecx
	movq	%r15, %rsi
	movq	%r13, %rdx
	callq	"hmac_mac::digest_after"
	jmp	.LBBe92e4_5
.LBBe92e4_3:
	addq	$241, %r15
	movq	%rsp, %rdi
	movq	%r15, %rsi
	callq	"cmac_mac::key::CmacKey::tag_whole"
	xorps	%xmm0, %xmm0
	movaps	%xmm0, 32(%rsp)
	movaps	(%rsp), %xmm0
	movaps	%xmm0, 16(%rsp)
	movl	$16, %r12d
.LBBe92e4_5:
	movaps	16(%rsp), %xmm0
	movaps	32(%rsp), %xmm1
	movaps	%xmm0, 48(%rsp)
	movaps	%xmm1, 64(%rsp)
	movq	%r12, 80(%rsp)
	movq	$1, (%r14)
	movq	1504(%rbx), %r14
	movl	$1500, %eax
	subq	%r14, %rax
	cmpq	%r12, %rax
	jb	.LBBe92e4_7
	leaq	(%rbx,%r14), %rdi
	leaq	48(%rsp), %rsi
	movq	%r12, %rdx
	callq	memcpy@PLT
	addq	%r12, %r14
	movq	%r14, 1504(%rbx)
.LBBe92e4_7:
	addq	$128, %rsp
	.cfi_def_cfa_offset 48
	popq	%rbx
	.cfi_def_cfa_offset 40
	popq	%r12
	.cfi_def_cfa_offset 32
	popq	%r13
	.cfi_def_cfa_offset 24
	popq	%r14
	.cfi_def_cfa_offset 16
	popq	%r15
	.cfi_def_cfa_offset 8
	retq
.Lfunc_ende92e4:
	.size	"gpsk_ends::keys::Keys::seal::<#e0641de541981142>", .Lfunc_ende92e4-"gpsk_ends::keys::Keys::seal::<#e0641de541981142>"
	.cfi_endproc

	.section	".text.gpsk_messages::writing::write_gpsk_into","ax",@progbits
	.p2align	4
	.type	"gpsk_messages::writing::write_gpsk_into",@function
"gpsk_messages::writing::write_gpsk_into":
	.cfi_startproc
	pushq	%rbp
	.cfi_def_cfa_offset 16
	pushq	%r15
	.cfi_def_cfa_offset 24
	pushq	%r14
	.cfi_def_cfa_offset 32
	pushq	%r12
	.cfi_def_cfa_offset 40
	pushq	%rbx
	.cfi_def_cfa_offset 48
	.cfi_offset %rbx, -48
	.cfi_offset %r12, -40
	.cfi_offset %r14, -32
	.cfi_offset %r15, -24
	.cfi_offset %rbp, -16
	movq	%rsi, %r14
	movq	%rdi, %rbx
	movzbl	(%rsi), %eax
	leaq	.LJTI6b812_0(%rip), %rsi
	movslq	(%rsi,%rax,4), %rax
	addq	%rsi, %rax
	jmpq	*%rax
.LBB6b812_1:
	movq	16(%r14), %rax
	movq	64(%r14), %rsi
	addq	%rsi, %rax
	addq	$37, %rax
	jmp	.LBB6b812_7
.LBB6b812_2:
	movl	$5, %eax
	jmp	.LBB6b812_7
.LBB6b812_3:
	movq	80(%r14), %rax
	movq	120(%r14), %rsi
	addq	104(%r14), %rax
	addq	%rsi, %rax
	addq	$75, %rax
	jmp	.LBB6b812_7
.LBB6b812_4:
	movq	16(%r14), %rax
	movq	32(%r14), %rsi
	addq	%rsi, %rax
	addq	$3, %rax
	jmp	.LBB6b812_7
.LBB6b812_5:
	movq	16(%r14), %rax
	addq	32(%r14), %rax
	addq	112(%r14), %rax
	movq	152(%r14), %rsi
	addq	136(%r14), %rax
	addq	%rsi, %rax
	addq	$79, %rax
	jmp	.LBB6b812_7
.LBB6b812_6:
	movq	16(%r14), %rax
	addq	$5, %rax
.LBB6b812_7:
	addl	$5, %eax
	rolw	$8, %ax
	shll	$16, %eax
	movzbl	%cl, %ecx
	shll	$8, %ecx
	orl	%eax, %ecx
	movzbl	%dl, %eax
	leal	(%rcx,%rax), %ebp
	incl	%ebp
	movq	1504(%rbx), %rdx
	testq	%rdx, %rdx
	je	.LBB6b812_9
	movq	%rbx, %rdi
	xorl	%esi, %esi
	callq	memset@PLT
.LBB6b812_9:
	movl	%ebp, (%rbx)
	movb	$51, 4(%rbx)
	movq	$5, 1504(%rbx)
	movzbl	(%r14), %eax
	incb	%al
	movb	%al, 5(%rbx)
	movq	$6, 1504(%rbx)
	movzbl	(%r14), %eax
	leaq	.LJTI6b812_1(%rip), %rcx
	movslq	(%rcx,%rax,4), %rax
	addq	%rcx, %rax
	jmpq	*%rax
.LBB6b812_10:
	movq	8(%r14), %rsi
	movq	16(%r14), %rdx
	movq	%rbx, %rdi
	callq	"gpsk_messages::writing::put_sized"
	leaq	24(%r14), %rsi
	movq	%rbx, %rdi
	callq	"gpsk_messages::writing::put_rand"
	movq	56(%r14), %rsi
	movq	64(%r14), %rdx
	movq	%rbx, %rdi
	popq	%rbx
	.cfi_def_cfa_offset 40
	popq	%r12
	.cfi_def_cfa_offset 32
	popq	%r14
	.cfi_def_cfa_offset 24
	popq	%r15
	.cfi_def_cfa_offset 16
	popq	%rbp
	.cfi_def_cfa_offset 8
	jmp	"gpsk_messages::writing::put_sized"
.LBB6b812_11:
	.cfi_def_cfa_offset 48
	movl	4(%r14), %eax
	bswapl	%eax
	movl	%eax, 6(%rbx)
	movq	$10, 1504(%rbx)
	jmp	.LBB6b812_60
.LBB6b812_12:
	leaq	8(%r14), %rsi
	leaq	40(%r14), %r15
	movq	%rbx, %rdi
	callq	"gpsk_messages::writing::put_rand"
	movq	%rbx, %rdi
	movq	%r15, %rsi
	callq	"gpsk_messages::writing::put_rand"
	movq	72(%r14), %rsi
	movq	80(%r14), %rdx
	movq	%rbx, %rdi
	callq	"gpsk_messages::writing::put_sized"
	movq	96(%r14), %rdx
	movq	104(%r14), %rcx
	movq	112(%r14), %r8
	movq	120(%r14), %r9
	movzbl	88(%r14), %esi
	jmp	.LBB6b812_18
.LBB6b812_13:
	movq	8(%r14), %rsi
	movq	16(%r14), %rdx
	movq	%rbx, %rdi
	callq	"gpsk_messages::writing::put_sized"
	movq	32(%r14), %r15
	movq	1504(%rbx), %r12
	movl	$1500, %eax
	subq	%r12, %rax
	cmpq	%r15, %rax
	jb	.LBB6b812_60
	movq	24(%r14), %rsi
	leaq	(%rbx,%r12), %rdi
	movq	%rdi, %rax
	subq	%rsi, %rax
	cmpq	%r15, %rax
	jae	.LBB6b812_23
	cmpq	$4, %r15
	jb	.LBB6b812_16
	cmpq	$32, %rax
	jae	.LBB6b812_29
.LBB6b812_16:
	xorl	%eax, %eax
.LBB6b812_40:
	movq	%r15, %rdx
	movq	%rax, %rcx
	andq	$3, %rdx
	je	.LBB6b812_43
	movq	%rax, %rcx
	.p2align	4
.LBB6b812_42:
	movzbl	(%rsi,%rcx), %r8d
	movb	%r8b, (%rdi,%rcx)
	incq	%rcx
	decq	%rdx
	jne	.LBB6b812_42
.LBB6b812_43:
	subq	%r15, %rax
	cmpq	$-4, %rax
	ja	.LBB6b812_46
	leaq	(%r12,%rbx), %rax
	addq	$3, %rax
	.p2align	4
.LBB6b812_45:
	movzbl	(%rsi,%rcx), %edx
	movb	%dl, -3(%rax,%rcx)
	movzbl	1(%rsi,%rcx), %edx
	movb	%dl, -2(%rax,%rcx)
	movzbl	2(%rsi,%rcx), %edx
	movb	%dl, -1(%rax,%rcx)
	movzbl	3(%rsi,%rcx), %edx
	movb	%dl, (%rax,%rcx)
	addq	$4, %rcx
	cmpq	%rcx, %r15
	jne	.LBB6b812_45
	jmp	.LBB6b812_46
.LBB6b812_17:
	movq	8(%r14), %rsi
	movq	16(%r14), %rdx
	movq	%rbx, %rdi
	callq	"gpsk_messages::writing::put_sized"
	movq	24(%r14), %rsi
	movq	32(%r14), %rdx
	movq	%rbx, %rdi
	callq	"gpsk_messages::writing::put_sized"
	leaq	40(%r14), %rsi
	leaq	72(%r14), %r15
	movq	%rbx, %rdi
	callq	"gpsk_messages::writing::put_rand"
	movq	%rbx, %rdi
	movq	%r15, %rsi
	callq	"gpsk_messages::writing::put_rand"
	movq	104(%r14), %rsi
	movq	112(%r14), %rdx
	movq	%rbx, %rdi
	callq	"gpsk_messages::writing::put_sized"
	movq	128(%r14), %rdx
	movq	136(%r14), %rcx
	movq	144(%r14), %r8
	movq	152(%r14), %r9
	movzbl	120(%r14), %esi
.LBB6b812_18:
	movq	%rbx, %rdi
	popq	%rbx
	.cfi_def_cfa_offset 40
	popq	%r12
	.cfi_def_cfa_offset 32
	popq	%r14
	.cfi_def_cfa_offset 24
	popq	%r15
	.cfi_def_cfa_offset 16
	popq	%rbp
	.cfi_def_cfa_offset 8
	jmp	"gpsk_messages::writing::put_sealed"
.LBB6b812_19:
	.cfi_def_cfa_offset 48
	movl	4(%r14), %eax
	bswapl	%eax
	movl	%eax, 6(%rbx)
	movq	$10, 1504(%rbx)
	movq	16(%r14), %r15
	cmpq	$1490, %r15
	ja	.LBB6b812_60
	movq	8(%r14), %rsi
	leaq	10(%rbx), %rdi
	movq	%rdi, %rax
	subq	%rsi, %rax
	cmpq	%r15, %rax
	jae	.LBB6b812_24
	cmpq	$4, %r15
	jb	.LBB6b812_22
	movq	%rbx, %rax
	subq	%rsi, %rax
	addq	$10, %rax
	cmpq	$32, %rax
	jae	.LBB6b812_31
.LBB6b812_22:
	xorl	%eax, %eax
.LBB6b812_54:
	movq	%r15, %rdx
	movq	%rax, %rcx
	andq	$3, %rdx
	je	.LBB6b812_57
	movq	%rax, %rcx
	.p2align	4
.LBB6b812_56:
	movzbl	(%rsi,%rcx), %r8d
	movb	%r8b, (%rdi,%rcx)
	incq	%rcx
	decq	%rdx
	jne	.LBB6b812_56
.LBB6b812_57:
	subq	%r15, %rax
	cmpq	$-4, %rax
	ja	.LBB6b812_59
	.p2align	4
.LBB6b812_58:
	movzbl	(%rsi,%rcx), %eax
	movb	%al, 10(%rbx,%rcx)
	movzbl	1(%rsi,%rcx), %eax
	movb	%al, 11(%rbx,%rcx)
	movzbl	2(%rsi,%rcx), %eax
	movb	%al, 12(%rbx,%rcx)
	movzbl	3(%rsi,%rcx), %eax
	movb	%al, 13(%rbx,%rcx)
	addq	$4, %rcx
	cmpq	%rcx, %r15
	jne	.LBB6b812_58
	jmp	.LBB6b812_59
.LBB6b812_23:
	movq	%r15, %rdx
	callq	memmove@PLT
.LBB6b812_46:
	addq	%r15, %r12
	movq	%r12, 1504(%rbx)
	jmp	.LBB6b812_60
.LBB6b812_24:
	movq	%r15, %rdx
	callq	memmove@PLT
.LBB6b812_59:
	addq	$10, %r15
	movq	%r15, 1504(%rbx)
.LBB6b812_60:
	popq	%rbx
	.cfi_def_cfa_offset 40
	popq	%r12
	.cfi_def_cfa_offset 32
	popq	%r14
	.cfi_def_cfa_offset 24
	popq	%r15
	.cfi_def_cfa_offset 16
	popq	%rbp
	.cfi_def_cfa_offset 8
	retq
.LBB6b812_29:
	.cfi_def_cfa_offset 48
	cmpq	$32, %r15
	jae	.LBB6b812_33
	xorl	%eax, %eax
	jmp	.LBB6b812_37
.LBB6b812_31:
	cmpq	$32, %r15
	jae	.LBB6b812_47
	xorl	%eax, %eax
	jmp	.LBB6b812_51
.LBB6b812_33:
	movq	%r15, %rax
	andq	$-32, %rax
	leaq	(%r12,%rbx), %rcx
	addq	$16, %rcx
	xorl	%edx, %edx
.LBB6b812_34:
	movups	(%rsi,%rdx), %xmm0
	movups	16(%rsi,%rdx), %xmm1
	movups	%xmm0, -16(%rcx,%rdx)
	movups	%xmm1, (%rcx,%rdx)
	addq	$32, %rdx
	cmpq	%rdx, %rax
	jne	.LBB6b812_34
	cmpq	%rax, %r15
	je	.LBB6b812_46
	testb	$28, %r15b
	je	.LBB6b812_40
.LBB6b812_37:
	movq	%rax, %rcx
	movq	%r15, %rax
	andq	$-4, %rax
	.p2align	4
.LBB6b812_38:
	movl	(%rsi,%rcx), %edx
	movl	%edx, (%rdi,%rcx)
	addq	$4, %rcx
	cmpq	%rcx, %rax
	jne	.LBB6b812_38
	cmpq	%rax, %r15
	je	.LBB6b812_46
	jmp	.LBB6b812_40
.LBB6b812_47:
	movl	%r15d, %eax
	andl	$2016, %eax
	xorl	%ecx, %ecx
.LBB6b812_48:
	movups	(%rsi,%rcx), %xmm0
	movups	16(%rsi,%rcx), %xmm1
	movups	%xmm0, 10(%rbx,%rcx)
	movups	%xmm1, 26(%rbx,%rcx)
	addq	$32, %rcx
	cmpq	%rcx, %rax
	jne	.LBB6b812_48
	cmpq	%rax, %r15
	je	.LBB6b812_59
	testb	$28, %r15b
	je	.LBB6b812_54
.LBB6b812_51:
	movq	%rax, %rcx
	movl	%r15d, %eax
	andl	$2044, %eax
	.p2align	4
.LBB6b812_52:
	movl	(%rsi,%rcx), %edx
	movl	%edx, (%rdi,%rcx)
	addq	$4, %rcx
	cmpq	%rcx, %rax
	jne	.LBB6b812_52
	cmpq	%rax, %r15
	je	.LBB6b812_59
	jmp	.LBB6b812_54
.Lfunc_end6b812:
	.size	"gpsk_messages::writing::write_gpsk_into", .Lfunc_end6b812-"gpsk_messages::writing::write_gpsk_into"
	.cfi_endproc
	.section	".rodata.gpsk_messages::writing::write_gpsk_into","a",@progbits
	.p2align	2, 0x0
.LJTI6b812_0:
	.long	.LBB6b812_1-.LJTI6b812_0
	.long	.LBB6b812_5-.LJTI6b812_0
	.long	.LBB6b812_3-.LJTI6b812_0
	.long	.LBB6b812_4-.LJTI6b812_0
	.long	.LBB6b812_2-.LJTI6b812_0
	.long	.LBB6b812_6-.LJTI6b812_0
.LJTI6b812_1:
	.long	.LBB6b812_10-.LJTI6b812_1
	.long	.LBB6b812_17-.LJTI6b812_1
	.long	.LBB6b812_12-.LJTI6b812_1
	.long	.LBB6b812_13-.LJTI6b812_1
	.long	.LBB6b812_11-.LJTI6b812_1
	.long	.LBB6b812_19-.LJTI6b812_1

	.section	".text.gpsk_messages::writing::put_rand","ax",@progbits
	.p2align	4
	.type	"gpsk_messages::writing::put_rand",@function
"gpsk_messages::writing::put_rand":
	.cfi_startproc
	movq	1504(%rdi), %rax
	leaq	-1469(%rax), %rcx
	cmpq	$32, %rcx
	jb	.LBBa8d4a_5
	leaq	(%rdi,%rax), %rcx
	movq	%rcx, %rdx
	subq	%rsi, %rdx
	cmpq	$31, %rdx
	ja	.LBBa8d4a_3
	movzbl	(%rsi), %edx
	movb	%dl, (%rcx)
	movzbl	1(%rsi), %edx
	movb	%dl, 1(%rcx)
	movzbl	2(%rsi), %edx
	movb	%dl, 2(%rcx)
	movzbl	3(%rsi), %edx
	movb	%dl, 3(%rcx)
	movzbl	4(%rsi), %edx
	movb	%dl, 4(%rcx)
	movzbl	5(%rsi), %edx
	movb	%dl, 5(%rcx)
	movzbl	6(%rsi), %edx
	movb	%dl, 6(%rcx)
	movzbl	7(%rsi), %edx
	movb	%dl, 7(%rcx)
	movzbl	8(%rsi), %edx
	movb	%dl, 8(%rcx)
	movzbl	9(%rsi), %edx
	movb	%dl, 9(%rcx)
	movzbl	10(%rsi), %edx
	movb	%dl, 10(%rcx)
	movzbl	11(%rsi), %edx
	movb	%dl, 11(%rcx)
	movzbl	12(%rsi), %edx
	movb	%dl, 12(%rcx)
	movzbl	13(%rsi), %edx
	movb	%dl, 13(%rcx)
	movzbl	14(%rsi), %edx
	movb	%dl, 14(%rcx)
	movzbl	15(%rsi), %edx
	movb	%dl, 15(%rcx)
	movzbl	16(%rsi), %edx
	movb	%dl, 16(%rcx)
	movzbl	17(%rsi), %edx
	movb	%dl, 17(%rcx)
	movzbl	18(%rsi), %edx
	movb	%dl, 18(%rcx)
	movzbl	19(%rsi), %edx
	movb	%dl, 19(%rcx)
	movzbl	20(%rsi), %edx
	movb	%dl, 20(%rcx)
	movzbl	21(%rsi), %edx
	movb	%dl, 21(%rcx)
	movzbl	22(%rsi), %edx
	movb	%dl, 22(%rcx)
	movzbl	23(%rsi), %edx
	movb	%dl, 23(%rcx)
	movzbl	24(%rsi), %edx
	movb	%dl, 24(%rcx)
	movzbl	25(%rsi), %edx
	movb	%dl, 25(%rcx)
	movzbl	26(%rsi), %edx
	movb	%dl, 26(%rcx)
	movzbl	27(%rsi), %edx
	movb	%dl, 27(%rcx)
	movzbl	28(%rsi), %edx
	movb	%dl, 28(%rcx)
	movzbl	29(%rsi), %edx
	movb	%dl, 29(%rcx)
	movzbl	30(%rsi), %edx
	movb	%dl, 30(%rcx)
	movzbl	31(%rsi), %edx
	movb	%dl, 31(%rcx)
	jmp	.LBBa8d4a_4
.LBBa8d4a_3:
	movups	(%rsi), %xmm0
	movups	16(%rsi), %xmm1
	movups	%xmm1, 16(%rcx)
	movups	%xmm0, (%rcx)
.LBBa8d4a_4:
	addq	$32, %rax
	movq	%rax, 1504(%rdi)
.LBBa8d4a_5:
	retq
.Lfunc_enda8d4a:
	.size	"gpsk_messages::writing::put_rand", .Lfunc_enda8d4a-"gpsk_messages::writing::put_rand"
	.cfi_endproc

	.section	".text.gpsk_messages::writing::put_sealed","ax",@progbits
	.p2align	4
	.type	"gpsk_messages::writing::put_sealed",@function
"gpsk_messages::writing::put_sealed":
	.cfi_startproc
	pushq	%r15
	.cfi_def_cfa_offset 16
	pushq	%r14
	.cfi_def_cfa_offset 24
	pushq	%r12
	.cfi_def_cfa_offset 32
	pushq	%rbx
	.cfi_def_cfa_offset 40
	pushq	%rax
	.cfi_def_cfa_offset 48
	.cfi_offset %rbx, -40
	.cfi_offset %r12, -32
	.cfi_offset %r14, -24
	.cfi_offset %r15, -16
	movq	%r9, %rbx
	movq	%r8, %r15
	movq	%rdi, %r14
	movb	$0, 4(%rsp)
	movl	$0, (%rsp)
	movq	1504(%rdi), %rax
	leaq	-1495(%rax), %rdi
	cmpq	$6, %rdi
	jb	.LBBb87ee_2
	cmpb	$1, %sil
	movb	$2, %sil
	sbbb	$0, %sil
	movzbl	4(%rsp), %edi
	movb	%dil, 4(%r14,%rax)
	movl	(%rsp), %edi
	movl	%edi, (%r14,%rax)
	movb	%sil, 5(%r14,%rax)
	addq	$6, %rax
	movq	%rax, 1504(%r14)
.LBBb87ee_2:
	movq	%r14, %rdi
	movq	%rdx, %rsi
	movq	%rcx, %rdx
	callq	"gpsk_messages::writing::put_sized"
	movq	1504(%r14), %r12
	movl	$1500, %eax
	subq	%r12, %rax
	cmpq	%rbx, %rax
	jb	.LBBb87ee_25
	leaq	(%r14,%r12), %rdi
	movq	%rdi, %rax
	subq	%r15, %rax
	cmpq	%rbx, %rax
	jae	.LBBb87ee_6
	cmpq	$4, %rbx
	jb	.LBBb87ee_5
	cmpq	$32, %rax
	jae	.LBBb87ee_9
.LBBb87ee_5:
	xorl	%eax, %eax
.LBBb87ee_18:
	movq	%rbx, %rdx
	movq	%rax, %rcx
	andq	$3, %rdx
	je	.LBBb87ee_21
	movq	%rax, %rcx
	.p2align	4
.LBBb87ee_20:
	movzbl	(%r15,%rcx), %esi
	movb	%sil, (%rdi,%rcx)
	incq	%rcx
	decq	%rdx
	jne	.LBBb87ee_20
.LBBb87ee_21:
	subq	%rbx, %rax
	cmpq	$-4, %rax
	ja	.LBBb87ee_24
	leaq	(%r12,%r14), %rax
	addq	$3, %rax
	.p2align	4
.LBBb87ee_23:
	movzbl	(%r15,%rcx), %edx
	movb	%dl, -3(%rax,%rcx)
	movzbl	1(%r15,%rcx), %edx
	movb	%dl, -2(%rax,%rcx)
	movzbl	2(%r15,%rcx), %edx
	movb	%dl, -1(%rax,%rcx)
	movzbl	3(%r15,%rcx), %edx
	movb	%dl, (%rax,%rcx)
	addq	$4, %rcx
	cmpq	%rcx, %rbx
	jne	.LBBb87ee_23
	jmp	.LBBb87ee_24
.LBBb87ee_6:
	movq	%r15, %rsi
	movq	%rbx, %rdx
	callq	memmove@PLT
.LBBb87ee_24:
	addq	%rbx, %r12
	movq	%r12, 1504(%r14)
.LBBb87ee_25:
	addq	$8, %rsp
	.cfi_def_cfa_offset 40
	popq	%rbx
	.cfi_def_cfa_offset 32
	popq	%r12
	.cfi_def_cfa_offset 24
	popq	%r14
	.cfi_def_cfa_offset 16
	popq	%r15
	.cfi_def_cfa_offset 8
	retq
.LBBb87ee_9:
	.cfi_def_cfa_offset 48
	cmpq	$32, %rbx
	jae	.LBBb87ee_11
	xorl	%eax, %eax
	jmp	.LBBb87ee_15
.LBBb87ee_11:
	movq	%rbx, %rax
	andq	$-32, %rax
	leaq	(%r12,%r14), %rcx
	addq	$16, %rcx
	xorl	%edx, %edx
	.p2align	4
.LBBb87ee_12:
	movups	(%r15,%rdx), %xmm0
	movups	16(%r15,%rdx), %xmm1
	movups	%xmm0, -16(%rcx,%rdx)
	movups	%xmm1, (%rcx,%rdx)
	addq	$32, %rdx
	cmpq	%rdx, %rax
	jne	.LBBb87ee_12
	cmpq	%rax, %rbx
	je	.LBBb87ee_24
	testb	$28, %bl
	je	.LBBb87ee_18
.LBBb87ee_15:
	movq	%rax, %rcx
	movq	%rbx, %rax
	andq	$-4, %rax
	.p2align	4
.LBBb87ee_16:
	movl	(%r15,%rcx), %edx
	movl	%edx, (%rdi,%rcx)
	addq	$4, %rcx
	cmpq	%rcx, %rax
	jne	.LBBb87ee_16
	cmpq	%rax, %rbx
	je	.LBBb87ee_24
	jmp	.LBBb87ee_18
.Lfunc_endb87ee:
	.size	"gpsk_messages::writing::put_sealed", .Lfunc_endb87ee-"gpsk_messages::writing::put_sealed"
	.cfi_endproc

	.section	".text.gpsk_messages::writing::put_sized","ax",@progbits
	.p2align	4
	.type	"gpsk_messages::writing::put_sized",@function
"gpsk_messages::writing::put_sized":
	.cfi_startproc
	pushq	%r15
	.cfi_def_cfa_offset 16
	pushq	%r14
	.cfi_def_cfa_offset 24
	pushq	%rbx
	.cfi_def_cfa_offset 32
	subq	$16, %rsp
	.cfi_def_cfa_offset 48
	.cfi_offset %rbx, -32
	.cfi_offset %r14, -24
	.cfi_offset %r15, -16
	movl	%edx, %eax
	rolw	$8, %ax
	movw	%ax, 14(%rsp)
	movq	1504(%rdi), %r14
	leaq	-1499(%r14), %rcx
	cmpq	$2, %rcx
	jb	.LBB7495d_4
	leaq	(%rdi,%r14), %rcx
	leaq	14(%rsp), %r8
	subq	%r8, %rcx
	cmpq	$2, %rcx
	jae	.LBB7495d_3
	movzwl	14(%rsp), %eax
.LBB7495d_3:
	movw	%ax, (%rdi,%r14)
	addq	$2, %r14
	movq	%r14, 1504(%rdi)
.LBB7495d_4:
	movl	$1500, %eax
	subq	%r14, %rax
	cmpq	%rdx, %rax
	jb	.LBB7495d_27
	leaq	(%rdi,%r14), %rax
	movq	%rax, %rcx
	subq	%rsi, %rcx
	cmpq	%rdx, %rcx
	jae	.LBB7495d_8
	cmpq	$4, %rdx
	jb	.LBB7495d_7
	cmpq	$32, %rcx
	jae	.LBB7495d_11
.LBB7495d_7:
	xorl	%ecx, %ecx
.LBB7495d_20:
	movq	%rdx, %r9
	movq	%rcx, %r8
	andq	$3, %r9
	je	.LBB7495d_23
	movq	%rcx, %r8
	.p2align	4
.LBB7495d_22:
	movzbl	(%rsi,%r8), %r10d
	movb	%r10b, (%rax,%r8)
	incq	%r8
	decq	%r9
	jne	.LBB7495d_22
.LBB7495d_23:
	subq	%rdx, %rcx
	cmpq	$-4, %rcx
	ja	.LBB7495d_26
	leaq	(%r14,%rdi), %rax
	addq	$3, %rax
	.p2align	4
.LBB7495d_25:
	movzbl	(%rsi,%r8), %ecx
	movb	%cl, -3(%rax,%r8)
	movzbl	1(%rsi,%r8), %ecx
	movb	%cl, -2(%rax,%r8)
	movzbl	2(%rsi,%r8), %ecx
	movb	%cl, -1(%rax,%r8)
	movzbl	3(%rsi,%r8), %ecx
	movb	%cl, (%rax,%r8)
	addq	$4, %r8
	cmpq	%r8, %rdx
	jne	.LBB7495d_25
	jmp	.LBB7495d_26
.LBB7495d_8:
	movq	%rdi, %r15
	movq	%rax, %rdi
	movq	%rdx, %rbx
	callq	memmove@PLT
	movq	%r15, %rdi
	movq	%rbx, %rdx
.LBB7495d_26:
	addq	%rdx, %r14
	movq	%r14, 1504(%rdi)
.LBB7495d_27:
	addq	$16, %rsp
	.cfi_def_cfa_offset 32
	popq	%rbx
	.cfi_def_cfa_offset 24
	popq	%r14
	.cfi_def_cfa_offset 16
	popq	%r15
	.cfi_def_cfa_offset 8
	retq
.LBB7495d_11:
	.cfi_def_cfa_offset 48
	cmpq	$32, %rdx
	jae	.LBB7495d_13
	xorl	%ecx, %ecx
	jmp	.LBB7495d_17
.LBB7495d_13:
	movq	%rdx, %rcx
	andq	$-32, %rcx
	leaq	(%r14,%rdi), %r8
	addq	$16, %r8
	xorl	%r9d, %r9d
	.p2align	4
.LBB7495d_14:
	movups	(%rsi,%r9), %xmm0
	movups	16(%rsi,%r9), %xmm1
	movups	%xmm0, -16(%r8,%r9)
	movups	%xmm1, (%r8,%r9)
	addq	$32, %r9
	cmpq	%r9, %rcx
	jne	.LBB7495d_14
	cmpq	%rcx, %rdx
	je	.LBB7495d_26
	testb	$28, %dl
	je	.LBB7495d_20
.LBB7495d_17:
	movq	%rcx, %r8
	movq	%rdx, %rcx
	andq	$-4, %rcx
	.p2align	4
.LBB7495d_18:
	movl	(%rsi,%r8), %r9d
	movl	%r9d, (%rax,%r8)
	addq	$4, %r8
	cmpq	%r8, %rcx
	jne	.LBB7495d_18
	cmpq	%rcx, %rdx
	je	.LBB7495d_26
	jmp	.LBB7495d_20
.Lfunc_end7495d:
	.size	"gpsk_messages::writing::put_sized", .Lfunc_end7495d-"gpsk_messages::writing::put_sized"
	.cfi_endproc

	.section	".text.gpsk_ends::peer::turns::known_reads::<#e0641de541981142>","ax",@progbits
	.p2align	4
	.type	"gpsk_ends::peer::turns::known_reads::<#e0641de541981142>",@function
"gpsk_ends::peer::turns::known_reads::<#e0641de541981142>":
	.cfi_startproc
	pushq	%rbp
	.cfi_def_cfa_offset 16
	pushq	%r15
	.cfi_def_cfa_offset 24
	pushq	%r14
	.cfi_def_cfa_offset 32
	pushq	%r13
	.cfi_def_cfa_offset 40
	pushq	%r12
	.cfi_def_cfa_offset 48
	pushq	%rbx
	.cfi_def_cfa_offset 56
	subq	$568, %rsp
	.cfi_def_cfa_offset 624
	.cfi_offset %rbx, -56
	.cfi_offset %r12, -48
	.cfi_offset %r13, -40
	.cfi_offset %r14, -32
	.cfi_offset %r15, -24
	.cfi_offset %rbp, -16
	movq	%rcx, %r13
	movq	%rdx, %r14
	movq	%rdi, %rbx
	movq	624(%rsp), %rdx
	movzbl	1(%r9), %eax
	addq	$5, %r9
	addq	$-5, %rdx
	movq	%rsi, 232(%rsp)
	movq	%r14, 240(%rsp)
	movq	%rcx, 248(%rsp)
	cmpb	$0, (%r8)
	je	.LBBfa406_4
	xorl	%r8d, %r8d
	cmpb	$0, 32(%r13)
	xorps	%xmm0, %xmm0
	movaps	%xmm0, 208(%rsp)
	movaps	%xmm0, 192(%rsp)
	movaps	%xmm0, 176(%rsp)
	movaps	%xmm0, 160(%rsp)
	movaps	%xmm0, 144(%rsp)
	movaps	%xmm0, 128(%rsp)
	movaps	%xmm0, 112(%rsp)
	movaps	%xmm0, 96(%rsp)
	movaps	%xmm0, 80(%rsp)
	movaps	%xmm0, 64(%rsp)
	movq	$0, 224(%rsp)
	setne	%r8b
	shll	$4, %r8d
	addl	$16, %r8d
	leaq	64(%rsp), %rdi
	movq	%r9, %rsi
	movl	$1, %ecx
	callq	"gpsk_messages::reading::read_gpsk_message"
	movzbl	65(%rsp), %eax
	cmpb	$1, 64(%rsp)
	movl	$22, %r12d
	cmovel	%eax, %r12d
.LBBfa406_2:
	xorl	%ecx, %ecx
.LBBfa406_3:
	xorl	%eax, %eax
	jmp	.LBBfa406_9
.LBBfa406_4:
	movq	%rsi, %r15
	movb	%al, 27(%rsp)
	movq	%rbx, 32(%rsp)
	movq	%r8, 56(%rsp)
	xorl	%r8d, %r8d
	cmpb	$0, 32(%r13)
	xorps	%xmm0, %xmm0
	movaps	%xmm0, 208(%rsp)
	movaps	%xmm0, 192(%rsp)
	movaps	%xmm0, 176(%rsp)
	movaps	%xmm0, 160(%rsp)
	movaps	%xmm0, 144(%rsp)
	movaps	%xmm0, 128(%rsp)
	movaps	%xmm0, 112(%rsp)
	movaps	%xmm0, 96(%rsp)
	movaps	%xmm0, 80(%rsp)
	movaps	%xmm0, 64(%rsp)
	movq	$0, 224(%rsp)
	setne	%r8b
	shll	$4, %r8d
	addl	$16, %r8d
	leaq	64(%rsp), %rdi
	movq	%r9, 40(%rsp)
	movq	%r9, %rsi
	movq	%rdx, 48(%rsp)
	movl	$1, %ecx
	callq	"gpsk_messages::reading::read_gpsk_message"
	movzbl	64(%rsp), %ebx
	movzbl	65(%rsp), %r12d
	movzbl	72(%rsp), %ebp
	movl	76(%rsp), %eax
	movl	%eax, 28(%rsp)
	leaq	416(%rsp), %rdi
	movl	$152, %edx
	leaq	80(%rsp), %rsi
	callq	memcpy@PLT
	cmpb	$1, %bl
	je	.LBBfa406_7
	leaq	32(%r13), %rbx
	movl	%ebp, 256(%rsp)
	movl	28(%rsp), %eax
	movl	%eax, 260(%rsp)
	leaq	264(%rsp), %r12
	leaq	416(%rsp), %rsi
	movl	$152, %edx
	movq	%r12, %rdi
	callq	memcpy@PLT
	movl	%ebp, %eax
	leaq	.LJTIfa406_0(%rip), %rcx
	movslq	(%rcx,%rax,4), %rax
	addq	%rcx, %rax
	jmpq	*%rax
.LBBfa406_6:
	movb	$22, %r12b
.LBBfa406_7:
	xorl	%eax, %eax
	xorl	%ecx, %ecx
.LBBfa406_8:
	movq	32(%rsp), %rbx
.LBBfa406_9:
	movb	%cl, (%rbx)
	movb	%r12b, 1(%rbx)
	movb	%al, 2(%rbx)
	addq	$568, %rsp
	.cfi_def_cfa_offset 56
	popq	%rbx
	.cfi_def_cfa_offset 48
	popq	%r12
	.cfi_def_cfa_offset 40
	popq	%r13
	.cfi_def_cfa_offset 32
	popq	%r14
	.cfi_def_cfa_offset 24
	popq	%r15
	.cfi_def_cfa_offset 16
	popq	%rbp
	.cfi_def_cfa_offset 8
	retq
.LBBfa406_10:
	.cfi_def_cfa_offset 624
	movq	632(%rsp), %rbp
	movq	%r12, %rdi
	movq	%r14, %rsi
	callq	"core::cmp::arrays::ArrayPartialEq::eq::<i8,=32,31'core::cmp::numbers::U8PartialEq{}>"
	movb	$25, %r12b
	testb	%al, %al
	movq	32(%rsp), %rbx
	je	.LBBfa406_24
	leaq	296(%rsp), %rdi
	movq	%r13, %rsi
	callq	"core::cmp::arrays::ArrayPartialEq::eq::<i8,=32,31'core::cmp::numbers::U8PartialEq{}>"
	testb	%al, %al
	je	.LBBfa406_24
	movq	520(%r15), %rsi
	cmpq	%rsi, 336(%rsp)
	jne	.LBBfa406_24
	leaq	264(%r15), %rax
	movq	328(%rsp), %rdi
	cmpq	$4, %rsi
	jae	.LBBfa406_25
	testq	%rsi, %rsi
	movq	40(%rsp), %rdx
	leaq	32(%r13), %r8
	je	.LBBfa406_29
	movzbl	(%rdi), %ecx
	cmpb	(%rax), %cl
	jne	.LBBfa406_27
	cmpq	$1, %rsi
	je	.LBBfa406_29
	movzbl	1(%rdi), %ecx
	movl	$1, %eax
	cmpb	265(%r15), %cl
	jne	.LBBfa406_28
	cmpq	$2, %rsi
	je	.LBBfa406_29
	movzbl	2(%rdi), %ecx
	movl	$2, %eax
	cmpb	266(%r15), %cl
	jne	.LBBfa406_28
	jmp	.LBBfa406_29
.LBBfa406_20:
	movl	28(%rsp), %ebp
	movq	%rbx, %r12
	movq	632(%rsp), %r15
	movq	640(%rsp), %r14
	addq	$272, %r13
	leaq	256(%rsp), %rsi
	movq	%r13, %rdi
	movq	40(%rsp), %rdx
	movq	48(%rsp), %rcx
	callq	"gpsk_ends::keys::is_tagged"
	testb	%al, %al
	movq	32(%rsp), %rbx
	je	.LBBfa406_23
	movq	%r14, %r9
	movq	$1, (%r14)
	addq	$8, %r9
	xorps	%xmm0, %xmm0
	movups	%xmm0, 200(%rsp)
	movups	%xmm0, 184(%rsp)
	movups	%xmm0, 168(%rsp)
	movups	%xmm0, 152(%rsp)
	movups	%xmm0, 136(%rsp)
	movups	%xmm0, 120(%rsp)
	movups	%xmm0, 104(%rsp)
	movups	%xmm0, 88(%rsp)
	movq	$0, 216(%rsp)
	xorl	%eax, %eax
	movq	%r12, %rdi
	cmpb	$0, (%r12)
	setne	%al
	leaq	.Lstatic.10(%rip), %rcx
	leaq	.Lstatic.14(%rip), %rdx
	cmoveq	%rcx, %rdx
	shll	$4, %eax
	addq	$16, %rax
	movl	$5, 64(%rsp)
	movl	%ebp, 68(%rsp)
	movq	%rdx, 72(%rsp)
	movq	%rax, 80(%rsp)
	movzbl	27(%rsp), %ecx
	leaq	64(%rsp), %rsi
	movl	$1, %edx
	movq	%r15, %r8
	callq	"gpsk_ends::keys::Keys::seal::<#e0641de541981142>"
	movq	56(%rsp), %rax
	movw	$1, (%rax)
	movb	$1, %cl
	movb	$3, %r12b
	jmp	.LBBfa406_3
.LBBfa406_22:
	movl	$4, 64(%rsp)
	movl	28(%rsp), %eax
	movl	%eax, 68(%rsp)
	xorps	%xmm0, %xmm0
	movups	%xmm0, 72(%rsp)
	movups	%xmm0, 88(%rsp)
	movups	%xmm0, 104(%rsp)
	movups	%xmm0, 120(%rsp)
	movups	%xmm0, 136(%rsp)
	movups	%xmm0, 152(%rsp)
	movups	%xmm0, 168(%rsp)
	movups	%xmm0, 184(%rsp)
	movups	%xmm0, 200(%rsp)
	movq	$0, 216(%rsp)
	movzbl	27(%rsp), %ecx
	leaq	64(%rsp), %rsi
	movq	632(%rsp), %rdi
	movl	$1, %edx
	callq	"gpsk_messages::writing::write_gpsk_into"
	movq	640(%rsp), %rax
	xorps	%xmm0, %xmm0
	movups	%xmm0, (%rax)
	movq	56(%rsp), %rax
	movw	$1, (%rax)
	movb	$1, %cl
	movb	$3, %r12b
	xorl	%eax, %eax
	jmp	.LBBfa406_8
.LBBfa406_23:
	movb	$28, %r12b
.LBBfa406_24:
	xorl	%eax, %eax
	xorl	%ecx, %ecx
	jmp	.LBBfa406_9
.LBBfa406_25:
	movl	(%rdi), %ecx
	cmpl	(%rax), %ecx
	jne	.LBBfa406_24
	movq	%rax, %rdx
	callq	"core::cmp::slices::groups_equal::<i8,31'core::cmp::numbers::U8PartialEq{}>"
	testb	%al, %al
	movq	40(%rsp), %rdx
	leaq	32(%r13), %r8
	je	.LBBfa406_24
	jmp	.LBBfa406_29
.LBBfa406_27:
	xorl	%eax, %eax
.LBBfa406_28:
	cmpq	%rsi, %rax
	jb	.LBBfa406_24
.LBBfa406_29:
	cmpb	$0, 344(%rsp)
	setne	%al
	cmpb	$0, (%r8)
	sete	%cl
	cmpb	%cl, %al
	je	.LBBfa406_24
	addq	$272, %r13
	leaq	256(%rsp), %rsi
	movq	%r13, %rdi
	movq	48(%rsp), %rcx
	callq	"gpsk_ends::keys::is_tagged"
	testb	%al, %al
	je	.LBBfa406_32
	movq	640(%rsp), %rax
	movq	%rax, 16(%rsp)
	movq	%rbp, 8(%rsp)
	movq	48(%rsp), %rax
	movq	%rax, (%rsp)
	movzbl	27(%rsp), %ecx
	leaq	64(%rsp), %rdi
	leaq	232(%rsp), %rsi
	leaq	256(%rsp), %r8
	movq	56(%rsp), %rdx
	movq	40(%rsp), %r9
	callq	"gpsk_ends::peer::turns::confirm_again::<#e0641de541981142>"
	movzbl	64(%rsp), %ecx
	movzbl	65(%rsp), %r12d
	movzbl	66(%rsp), %eax
	jmp	.LBBfa406_9
.LBBfa406_32:
	movb	$28, %r12b
	jmp	.LBBfa406_2
.Lfunc_endfa406:
	.size	"gpsk_ends::peer::turns::known_reads::<#e0641de541981142>", .Lfunc_endfa406-"gpsk_ends::peer::turns::known_reads::<#e0641de541981142>"
	.cfi_endproc
	.section	".rodata.gpsk_ends::peer::turns::known_reads::<#e0641de541981142>","a",@progbits
	.p2align	2, 0x0
.LJTIfa406_0:
	.long	.LBBfa406_6-.LJTIfa406_0
	.long	.LBBfa406_6-.LJTIfa406_0
	.long	.LBBfa406_10-.LJTIfa406_0
	.long	.LBBfa406_6-.LJTIfa406_0
	.long	.LBBfa406_22-.LJTIfa406_0
	.long	.LBBfa406_20-.LJTIfa406_0

	.section	".text.core::cmp::arrays::ArrayPartialEq::eq::<i8,=32,31'core::cmp::numbers::U8PartialEq{}>","ax",@progbits
	.p2align	4
	.type	"core::cmp::arrays::ArrayPartialEq::eq::<i8,=32,31'core::cmp::numbers::U8PartialEq{}>",@function
"core::cmp::arrays::ArrayPartialEq::eq::<i8,=32,31'core::cmp::numbers::U8PartialEq{}>":
	.cfi_startproc
	movdqu	(%rdi), %xmm0
	movdqu	16(%rdi), %xmm1
	movdqu	(%rsi), %xmm2
	pxor	%xmm0, %xmm2
	movdqu	16(%rsi), %xmm0
	pxor	%xmm1, %xmm0
	por	%xmm2, %xmm0
	ptest	%xmm0, %xmm0
	sete	%al
	retq
.Lfunc_endeca2a:
	.size	"core::cmp::arrays::ArrayPartialEq::eq::<i8,=32,31'core::cmp::numbers::U8PartialEq{}>", .Lfunc_endeca2a-"core::cmp::arrays::ArrayPartialEq::eq::<i8,=32,31'core::cmp::numbers::U8PartialEq{}>"
	.cfi_endproc

	.section	".text.gpsk_ends::keys::is_tagged","ax",@progbits
	.p2align	4
	.type	"gpsk_ends::keys::is_tagged",@function
"gpsk_ends::keys::is_tagged":
	.cfi_startproc
	pushq	%r15
	.cfi_def_cfa_offset 16
	pushq	%r14
	.cfi_def_cfa_offset 24
	pushq	%rbx
	.cfi_def_cfa_offset 32
	subq	$128, %rsp
	.cfi_def_cfa_offset 160
	.cfi_offset %rbx, -32
	.cfi_offset %r14, -24
	.cfi_offset %r15, -16
	movq	%rsi, %rbx
	movq	%rdi, %r14
	movzbl	(%rsi), %r15d
	leaq	.LJTIab795_0(%rip), %rax
	movslq	(%rax,%r15,4), %rsi
	addq	%rax, %rsi
	jmpq	*%rsi
.LBBab795_1:
	xorl	%eax, %eax
	jmp	.LBBab795_6
.LBBab795_3:
	movq	120(%rbx), %rax
	jmp	.LBBab795_6
.LBBab795_2:
	movq	152(%rbx), %rax
	jmp	.LBBab795_6
.LBBab795_5:
	movq	16(%rbx), %rax
	jmp	.LBBab795_6
.LBBab795_4:
	movq	32(%rbx), %rax
.LBBab795_6:
	incq	%rdx
	notq	%rax
	addq	%rax, %rcx
	xorps	%xmm0, %xmm0
	movaps	%xmm0, 32(%rsp)
	cmpb	$0, (%r14)
	je	.LBBab795_7
	leaq	8(%r14), %rsi
	addq	$112, %r14
	leaq	96(%rsp), %r15
	movq	%r15, %rdi
	callq	"hmac_mac::digest_after"
	movq	%rsp, %rdi
	movl	$32, %ecx
	movq	%r14, %rsi
	movq	%r15, %rdx
	callq	"hmac_mac::digest_after"
	movl	$32, %esi
	movzbl	(%rbx), %eax
	movaps	(%rsp), %xmm0
	movaps	16(%rsp), %xmm1
	movaps	%xmm0, 48(%rsp)
	movaps	%xmm1, 64(%rsp)
	movq	%rsi, 80(%rsp)
	leaq	.Lstatic.0(%rip), %rdx
	xorl	%ecx, %ecx
	movzbl	%al, %eax
	leaq	.LJTIab795_1(%rip), %rdi
	movslq	(%rdi,%rax,4), %rax
	addq	%rdi, %rax
	jmpq	*%rax
.LBBab795_7:
	incq	%r14
	leaq	32(%rsp), %rdi
	movq	%r14, %rsi
	callq	"cmac_mac::key::CmacKey::tag_whole"
	xorps	%xmm0, %xmm0
	movaps	%xmm0, 16(%rsp)
	movaps	32(%rsp), %xmm0
	movaps	%xmm0, (%rsp)
	movl	$16, %esi
	movaps	(%rsp), %xmm0
	movaps	16(%rsp), %xmm1
	movaps	%xmm0, 48(%rsp)
	movaps	%xmm1, 64(%rsp)
	movq	%rsi, 80(%rsp)
	leaq	.Lstatic.0(%rip), %rdx
	xorl	%ecx, %ecx
	leaq	.LJTIab795_1(%rip), %rax
	movslq	(%rax,%r15,4), %rdi
	addq	%rax, %rdi
	jmpq	*%rdi
.LBBab795_9:
	movq	144(%rbx), %rdx
	movq	152(%rbx), %rcx
	jmp	.LBBab795_13
.LBBab795_10:
	movq	112(%rbx), %rdx
	movq	120(%rbx), %rcx
	jmp	.LBBab795_13
.LBBab795_12:
	movq	8(%rbx), %rdx
	movq	16(%rbx), %rcx
	jmp	.LBBab795_13
.LBBab795_11:
	movq	24(%rbx), %rdx
	movq	32(%rbx), %rcx
.LBBab795_13:
	leaq	48(%rsp), %rdi
	callq	"octet_lists::comparison::equal_in_full"
	addq	$128, %rsp
	.cfi_def_cfa_offset 32
	popq	%rbx
	.cfi_def_cfa_offset 24
	popq	%r14
	.cfi_def_cfa_offset 16
	popq	%r15
	.cfi_def_cfa_offset 8
	retq
.Lfunc_endab795:
	.size	"gpsk_ends::keys::is_tagged", .Lfunc_endab795-"gpsk_ends::keys::is_tagged"
	.cfi_endproc
	.section	".rodata.gpsk_ends::keys::is_tagged","a",@progbits
	.p2align	2, 0x0
.LJTIab795_0:
	.long	.LBBab795_1-.LJTIab795_0
	.long	.LBBab795_2-.LJTIab795_0
	.long	.LBBab795_3-.LJTIab795_0
	.long	.LBBab795_4-.LJTIab795_0
	.long	.LBBab795_1-.LJTIab795_0
	.long	.LBBab795_5-.LJTIab795_0
.LJTIab795_1:
	.long	.LBBab795_13-.LJTIab795_1
	.long	.LBBab795_9-.LJTIab795_1
	.long	.LBBab795_10-.LJTIab795_1
	.long	.LBBab795_11-.LJTIab795_1
	.long	.LBBab795_13-.LJTIab795_1
	.long	.LBBab795_12-.LJTIab795_1

	.section	".text.gpsk_ends::peer::turns::confirm_again::<#e0641de541981142>","ax",@progbits
	.p2align	4
	.type	"gpsk_ends::peer::turns::confirm_again::<#e0641de541981142>",@function
"gpsk_ends::peer::turns::confirm_again::<#e0641de541981142>":
	.cfi_startproc
	pushq	%rbp
	.cfi_def_cfa_offset 16
	pushq	%r15
	.cfi_def_cfa_offset 24
	pushq	%r14
	.cfi_def_cfa_offset 32
	pushq	%rbx
	.cfi_def_cfa_offset 40
	subq	$168, %rsp
	.cfi_def_cfa_offset 208
	.cfi_offset %rbx, -40
	.cfi_offset %r14, -32
	.cfi_offset %r15, -24
	.cfi_offset %rbp, -16
	movl	%ecx, %ebp
	movq	%rdx, %r14
	movq	%rsi, %r15
	movq	%rdi, %rbx
	movq	208(%rsp), %rcx
	movl	$272, %edi
	addq	16(%rsi), %rdi
	movq	%r8, %rsi
	movq	%r9, %rdx
	callq	"gpsk_ends::keys::is_tagged"
	testb	%al, %al
	je	.LBB22a18_1
	movq	224(%rsp), %r9
	movq	216(%rsp), %r8
	movq	$1, (%r9)
	addq	$8, %r9
	movq	16(%r15), %rax
	xorps	%xmm0, %xmm0
	movaps	%xmm0, 144(%rsp)
	movaps	%xmm0, 128(%rsp)
	movaps	%xmm0, 112(%rsp)
	movaps	%xmm0, 96(%rsp)
	movaps	%xmm0, 80(%rsp)
	movaps	%xmm0, 64(%rsp)
	movaps	%xmm0, 48(%rsp)
	movaps	%xmm0, 32(%rsp)
	movaps	%xmm0, 16(%rsp)
	movaps	%xmm0, (%rsp)
	leaq	32(%rax), %rdi
	xorl	%ecx, %ecx
	cmpb	$0, 32(%rax)
	leaq	.Lstatic.10(%rip), %rax
	leaq	.Lstatic.14(%rip), %rdx
	cmoveq	%rax, %rdx
	setne	%cl
	shll	$4, %ecx
	addq	$16, %rcx
	movl	$3, (%rsp)
	leaq	.Lstatic.0(%rip), %rax
	movq	%rax, 8(%rsp)
	movq	%rdx, 24(%rsp)
	movq	%rcx, 32(%rsp)
	movzbl	%bpl, %ecx
	movq	%rsp, %rsi
	movl	$1, %edx
	callq	"gpsk_ends::keys::Keys::seal::<#e0641de541981142>"
	movw	$257, (%r14)
	movb	$1, %al
	movb	$4, %cl
	jmp	.LBB22a18_3
.LBB22a18_1:
	movb	$28, %cl
	xorl	%eax, %eax
.LBB22a18_3:
	movb	%al, (%rbx)
	movb	%cl, 1(%rbx)
	movb	%al, 2(%rbx)
	addq	$168, %rsp
	.cfi_def_cfa_offset 40
	popq	%rbx
	.cfi_def_cfa_offset 32
	popq	%r14
	.cfi_def_cfa_offset 24
	popq	%r15
	.cfi_def_cfa_offset 16
	popq	%rbp
	.cfi_def_cfa_offset 8
	retq
.Lfunc_end22a18:
	.size	"gpsk_ends::peer::turns::confirm_again::<#e0641de541981142>", .Lfunc_end22a18-"gpsk_ends::peer::turns::confirm_again::<#e0641de541981142>"
	.cfi_endproc

	.section	".text.peer_machine::machine::settle","ax",@progbits
	.p2align	4
	.type	"peer_machine::machine::settle",@function
"peer_machine::machine::settle":
	.cfi_startproc
	pushq	%rbp
	.cfi_def_cfa_offset 16
	pushq	%r15
	.cfi_def_cfa_offset 24
	pushq	%r14
	.cfi_def_cfa_offset 32
	pushq	%r13
	.cfi_def_cfa_offset 40
	pushq	%r12
	.cfi_def_cfa_offset 48
	pushq	%rbx
	.cfi_def_cfa_offset 56
	subq	$136, %rsp
	.cfi_def_cfa_offset 192
	.cfi_offset %rbx, -56
	.cfi_offset %r12, -48
	.cfi_offset %r13, -40
	.cfi_offset %r14, -32
	.cfi_offset %r15, -24
	.cfi_offset %rbp, -16
	movzbl	1(%r9), %eax
	movzbl	2(%r9), %r10d
	xorps	%xmm0, %xmm0
	cmpb	$0, (%r9)
	movaps	%xmm0, 96(%rsp)
	movaps	%xmm0, 80(%rsp)
	je	.LBB13c23_9
	movb	$1, 769(%rsi)
	movb	%cl, 770(%rsi)
	movb	%al, 771(%rsi)
	movb	%r10b, 772(%rsi)
	xorb	$4, %al
	orb	%r10b, %al
	jne	.LBB13c23_16
	movb	$11, 768(%rsi)
	movaps	%xmm0, 112(%rsp)
	movw	$0, 6(%rsp)
	movl	$0, 2(%rsp)
	leaq	.Lstatic.16(%rip), %rcx
	leaq	.Lstatic.17(%rip), %rax
	movq	$0, 48(%rsp)
	movq	$0, 16(%rsp)
	movw	$2820, (%rsp)
	movb	$2, 8(%rsp)
	movw	$0, 17(%rsp)
	movq	$0, 9(%rsp)
	movaps	%xmm0, 64(%rsp)
	testb	%dl, %dl
	cmovneq	%rcx, %rax
	je	.LBB13c23_32
	movzbl	%dl, %edx
	incq	%rdx
	movl	%edx, %r8d
	andl	$-2, %r8d
	xorl	%r9d, %r9d
	xorl	%ecx, %ecx
	jmp	.LBB13c23_5
	.p2align	4
.LBB13c23_4:
	addq	$2, %rcx
	movq	%rsi, %r9
	cmpq	%rcx, %r8
	je	.LBB13c23_33
.LBB13c23_5:
	movl	$8, %esi
	movl	$8, %r10d
	cmpq	$8, %r9
	jne	.LBB13c23_7
	cmpq	$8, %r10
	je	.LBB13c23_4
	jmp	.LBB13c23_8
	.p2align	4
.LBB13c23_7:
	movzbl	(%rax,%rcx), %r10d
	movb	%r10b, 64(%rsp,%r9)
	incq	%r9
	movq	%r9, 72(%rsp)
	movq	%r9, %r10
	cmpq	$8, %r10
	je	.LBB13c23_4
.LBB13c23_8:
	movzbl	1(%rax,%rcx), %esi
	movb	%sil, 64(%rsp,%r10)
	incq	%r10
	movq	%r10, 72(%rsp)
	movq	%r10, %rsi
	jmp	.LBB13c23_4
.LBB13c23_9:
	movaps	%xmm0, 64(%rsp)
	leaq	.Lstatic.16(%rip), %rsi
	leaq	.Lstatic.17(%rip), %rcx
	movq	$1, 16(%rsp)
	movaps	%xmm0, 32(%rsp)
	testb	%dl, %dl
	cmovneq	%rsi, %rcx
	je	.LBB13c23_22
	movzbl	%dl, %esi
	incq	%rsi
	movl	%esi, %r9d
	andl	$-2, %r9d
	xorl	%r10d, %r10d
	xorl	%edx, %edx
	jmp	.LBB13c23_12
	.p2align	4
.LBB13c23_11:
	addq	$2, %rdx
	movq	%r8, %r10
	cmpq	%rdx, %r9
	je	.LBB13c23_23
.LBB13c23_12:
	movl	$8, %r8d
	movl	$8, %r11d
	cmpq	$8, %r10
	jne	.LBB13c23_14
	cmpq	$8, %r11
	je	.LBB13c23_11
	jmp	.LBB13c23_15
	.p2align	4
.LBB13c23_14:
	movzbl	(%rcx,%rdx), %r11d
	movb	%r11b, 32(%rsp,%r10)
	incq	%r10
	movq	%r10, 40(%rsp)
	movq	%r10, %r11
	cmpq	$8, %r11
	je	.LBB13c23_11
.LBB13c23_15:
	movzbl	1(%rcx,%rdx), %r8d
	movb	%r8b, 32(%rsp,%r11)
	incq	%r11
	movq	%r11, 40(%rsp)
	movq	%r11, %r8
	jmp	.LBB13c23_11
.LBB13c23_16:
	movq	192(%rsp), %r14
	movb	$1, 773(%rsi)
	movb	%r8b, 774(%rsi)
	leaq	776(%rsi), %r15
	movq	1504(%r14), %rbx
	movq	2280(%rsi), %rax
	testq	%rax, %rax
	je	.LBB13c23_18
	movq	%rdi, %r12
	movq	%r15, %rdi
	movq	%rsi, %r13
	xorl	%esi, %esi
	movl	%edx, %ebp
	movq	%rax, %rdx
	callq	memset@PLT
	movq	%r13, %rsi
	movl	%ebp, %edx
	movq	%r12, %rdi
	movq	$0, 2280(%r13)
.LBB13c23_18:
	cmpq	$1500, %rbx
	ja	.LBB13c23_69
	movq	%r15, %rax
	subq	%r14, %rax
	cmpq	%rbx, %rax
	jae	.LBB13c23_41
	cmpq	$4, %rbx
	jb	.LBB13c23_21
	movq	%rsi, %rax
	subq	%r14, %rax
	addq	$776, %rax
	cmpq	$32, %rax
	jae	.LBB13c23_54
.LBB13c23_21:
	xorl	%eax, %eax
.LBB13c23_63:
	movq	%rbx, %r8
	movq	%rax, %rcx
	andq	$3, %r8
	je	.LBB13c23_66
	movq	%rax, %rcx
	.p2align	4
.LBB13c23_65:
	movzbl	(%r14,%rcx), %r9d
	movb	%r9b, (%r15,%rcx)
	incq	%rcx
	decq	%r8
	jne	.LBB13c23_65
.LBB13c23_66:
	subq	%rbx, %rax
	cmpq	$-4, %rax
	ja	.LBB13c23_68
	.p2align	4
.LBB13c23_67:
	movzbl	(%r14,%rcx), %eax
	movb	%al, 776(%rsi,%rcx)
	movzbl	1(%r14,%rcx), %eax
	movb	%al, 777(%rsi,%rcx)
	movzbl	2(%r14,%rcx), %eax
	movb	%al, 778(%rsi,%rcx)
	movzbl	3(%r14,%rcx), %eax
	movb	%al, 779(%rsi,%rcx)
	addq	$4, %rcx
	cmpq	%rcx, %rbx
	jne	.LBB13c23_67
	jmp	.LBB13c23_68
.LBB13c23_22:
	xorl	%r8d, %r8d
	xorl	%edx, %edx
	jmp	.LBB13c23_24
.LBB13c23_23:
	testb	$1, %sil
	je	.LBB13c23_26
.LBB13c23_24:
	cmpq	$8, %r8
	je	.LBB13c23_26
	movzbl	(%rcx,%rdx), %ecx
	movb	%cl, 32(%rsp,%r8)
	incq	%r8
	movq	%r8, 40(%rsp)
.LBB13c23_26:
	movq	32(%rsp), %rcx
	movq	%rcx, (%rsp)
	movq	40(%rsp), %rcx
	movq	%rcx, 8(%rsp)
	movb	%al, 17(%rsp)
	movq	8(%rsp), %rcx
	cmpq	$8, %rcx
	jne	.LBB13c23_28
	movb	$1, %dl
	xorl	%ecx, %ecx
	movaps	(%rsp), %xmm0
	jmp	.LBB13c23_88
.LBB13c23_28:
	movb	$4, (%rsp,%rcx)
	leaq	1(%rcx), %rax
	movq	%rax, 8(%rsp)
	cmpq	$8, %rax
	je	.LBB13c23_31
	movb	$9, 1(%rsp,%rcx)
	leaq	2(%rcx), %rax
	movq	%rax, 8(%rsp)
	cmpq	$8, %rax
	je	.LBB13c23_31
	movb	$1, 2(%rsp,%rcx)
	addq	$3, %rcx
	movq	%rcx, 8(%rsp)
.LBB13c23_31:
	movzbl	16(%rsp), %edx
	movzbl	17(%rsp), %eax
	movzbl	18(%rsp), %ecx
	movaps	(%rsp), %xmm0
	jmp	.LBB13c23_88
.LBB13c23_32:
	xorl	%esi, %esi
	xorl	%ecx, %ecx
	jmp	.LBB13c23_34
.LBB13c23_33:
	testb	$1, %dl
	je	.LBB13c23_36
.LBB13c23_34:
	cmpq	$8, %rsi
	je	.LBB13c23_36
	movzbl	(%rax,%rcx), %eax
	movb	%al, 64(%rsp,%rsi)
	incq	%rsi
	movq	%rsi, 72(%rsp)
.LBB13c23_36:
	movq	64(%rsp), %rax
	movq	%rax, 32(%rsp)
	movq	72(%rsp), %rax
	movq	%rax, 40(%rsp)
	movq	8(%rsp), %rdx
	testq	%rdx, %rdx
	je	.LBB13c23_38
	movq	40(%rsp), %rax
	cmpq	$8, %rax
	jne	.LBB13c23_39
.LBB13c23_38:
	xorl	%ecx, %ecx
	xorl	%eax, %eax
	xorl	%edx, %edx
	movaps	32(%rsp), %xmm0
	jmp	.LBB13c23_87
.LBB13c23_39:
	cmpq	$1, %rdx
	jne	.LBB13c23_42
	xorl	%ecx, %ecx
	jmp	.LBB13c23_49
.LBB13c23_41:
	movq	%rdi, %r12
	movq	%r15, %rdi
	movq	%rsi, %r15
	movq	%r14, %rsi
	movl	%edx, %ebp
	movq	%rbx, %rdx
	callq	memmove@PLT
	movq	%r15, %rsi
	movl	%ebp, %edx
	movq	%r12, %rdi
.LBB13c23_68:
	movq	%rbx, 2280(%rsi)
.LBB13c23_69:
	xorps	%xmm0, %xmm0
	movaps	%xmm0, 64(%rsp)
	leaq	.Lstatic.16(%rip), %rcx
	leaq	.Lstatic.17(%rip), %rax
	movq	$65536, 16(%rsp)
	movaps	%xmm0, 32(%rsp)
	testb	%dl, %dl
	cmovneq	%rcx, %rax
	je	.LBB13c23_76
	movzbl	%dl, %edx
	incq	%rdx
	movl	%edx, %r8d
	andl	$-2, %r8d
	xorl	%r9d, %r9d
	xorl	%ecx, %ecx
	jmp	.LBB13c23_72
	.p2align	4
.LBB13c23_71:
	addq	$2, %rcx
	movq	%rsi, %r9
	cmpq	%rcx, %r8
	je	.LBB13c23_77
.LBB13c23_72:
	movl	$8, %esi
	movl	$8, %r10d
	cmpq	$8, %r9
	jne	.LBB13c23_74
	cmpq	$8, %r10
	je	.LBB13c23_71
	jmp	.LBB13c23_75
	.p2align	4
.LBB13c23_74:
	movzbl	(%rax,%rcx), %r10d
	movb	%r10b, 32(%rsp,%r9)
	incq	%r9
	movq	%r9, 40(%rsp)
	movq	%r9, %r10
	cmpq	$8, %r10
	je	.LBB13c23_71
.LBB13c23_75:
	movzbl	1(%rax,%rcx), %esi
	movb	%sil, 32(%rsp,%r10)
	incq	%r10
	movq	%r10, 40(%rsp)
	movq	%r10, %rsi
	jmp	.LBB13c23_71
.LBB13c23_76:
	xorl	%esi, %esi
	xorl	%ecx, %ecx
	jmp	.LBB13c23_78
.LBB13c23_77:
	testb	$1, %dl
	je	.LBB13c23_80
.LBB13c23_78:
	cmpq	$8, %rsi
	je	.LBB13c23_80
	movzbl	(%rax,%rcx), %eax
	movb	%al, 32(%rsp,%rsi)
	incq	%rsi
	movq	%rsi, 40(%rsp)
.LBB13c23_80:
	movq	32(%rsp), %rax
	movq	%rax, (%rsp)
	movq	40(%rsp), %rax
	movq	%rax, 8(%rsp)
	movq	8(%rsp), %rax
	cmpq	$8, %rax
	jne	.LBB13c23_82
	movb	$1, %cl
	xorl	%eax, %eax
	xorl	%edx, %edx
	jmp	.LBB13c23_86
.LBB13c23_82:
	movb	$4, (%rsp,%rax)
	leaq	1(%rax), %rcx
	movq	%rcx, 8(%rsp)
	cmpq	$8, %rcx
	je	.LBB13c23_85
	movb	$8, 1(%rsp,%rax)
	leaq	2(%rax), %rcx
	movq	%rcx, 8(%rsp)
	cmpq	$8, %rcx
	je	.LBB13c23_85
	movb	$1, 2(%rsp,%rax)
	addq	$3, %rax
	movq	%rax, 8(%rsp)
.LBB13c23_85:
	movzbl	16(%rsp), %edx
	movzbl	17(%rsp), %eax
	movzbl	18(%rsp), %ecx
.LBB13c23_86:
	movaps	(%rsp), %xmm0
	jmp	.LBB13c23_87
.LBB13c23_42:
	movq	%rdx, %rsi
	andq	$-2, %rsi
	xorl	%ecx, %ecx
	movq	%rax, %r8
	jmp	.LBB13c23_44
	.p2align	4
.LBB13c23_43:
	addq	$2, %rcx
	movq	%rax, %r8
	cmpq	%rcx, %rsi
	je	.LBB13c23_48
.LBB13c23_44:
	movl	$8, %eax
	movl	$8, %r9d
	cmpq	$8, %r8
	jne	.LBB13c23_46
	cmpq	$8, %r9
	je	.LBB13c23_43
	jmp	.LBB13c23_47
	.p2align	4
.LBB13c23_46:
	movzbl	(%rsp,%rcx), %r9d
	movb	%r9b, 32(%rsp,%r8)
	incq	%r8
	movq	%r8, 40(%rsp)
	movq	%r8, %r9
	cmpq	$8, %r9
	je	.LBB13c23_43
.LBB13c23_47:
	movzbl	1(%rsp,%rcx), %eax
	movb	%al, 32(%rsp,%r9)
	incq	%r9
	movq	%r9, 40(%rsp)
	movq	%r9, %rax
	jmp	.LBB13c23_43
.LBB13c23_48:
	testb	$1, %dl
	je	.LBB13c23_51
.LBB13c23_49:
	cmpq	$8, %rax
	je	.LBB13c23_51
	movzbl	(%rsp,%rcx), %ecx
	movb	%cl, 32(%rsp,%rax)
	incq	%rax
	movq	%rax, 40(%rsp)
.LBB13c23_51:
	movzbl	48(%rsp), %edx
	movzbl	49(%rsp), %eax
	movzbl	50(%rsp), %ecx
	movaps	32(%rsp), %xmm0
.LBB13c23_87:
	movaps	%xmm0, 80(%rsp)
	movaps	80(%rsp), %xmm0
.LBB13c23_88:
	movaps	%xmm0, 96(%rsp)
	movaps	96(%rsp), %xmm0
	movups	%xmm0, (%rdi)
	movb	%dl, 16(%rdi)
	movb	%al, 17(%rdi)
	movb	%cl, 18(%rdi)
	addq	$136, %rsp
	.cfi_def_cfa_offset 56
	popq	%rbx
	.cfi_def_cfa_offset 48
	popq	%r12
	.cfi_def_cfa_offset 40
	popq	%r13
	.cfi_def_cfa_offset 32
	popq	%r14
	.cfi_def_cfa_offset 24
	popq	%r15
	.cfi_def_cfa_offset 16
	popq	%rbp
	.cfi_def_cfa_offset 8
	retq
.LBB13c23_54:
	.cfi_def_cfa_offset 192
	cmpq	$32, %rbx
	jae	.LBB13c23_56
	xorl	%eax, %eax
	jmp	.LBB13c23_60
.LBB13c23_56:
	movl	%ebx, %eax
	andl	$2016, %eax
	xorl	%ecx, %ecx
	.p2align	4
.LBB13c23_57:
	movups	(%r14,%rcx), %xmm0
	movups	16(%r14,%rcx), %xmm1
	movups	%xmm0, 776(%rsi,%rcx)
	movups	%xmm1, 792(%rsi,%rcx)
	addq	$32, %rcx
	cmpq	%rcx, %rax
	jne	.LBB13c23_57
	cmpq	%rax, %rbx
	je	.LBB13c23_68
	testb	$28, %bl
	je	.LBB13c23_63
.LBB13c23_60:
	movq	%rax, %rcx
	movl	%ebx, %eax
	andl	$2044, %eax
	.p2align	4
.LBB13c23_61:
	movl	(%r14,%rcx), %r8d
	movl	%r8d, (%r15,%rcx)
	addq	$4, %rcx
	cmpq	%rcx, %rax
	jne	.LBB13c23_61
	cmpq	%rax, %rbx
	je	.LBB13c23_68
	jmp	.LBB13c23_63
.Lfunc_end13c23:
	.size	"peer_machine::machine::settle", .Lfunc_end13c23-"peer_machine::machine::settle"
	.cfi_endproc

	.section	".text.tuvaddri_c::deliver::deliver_to_server","ax",@progbits
	.p2align	4
	.type	"tuvaddri_c::deliver::deliver_to_server",@function
"tuvaddri_c::deliver::deliver_to_server":
	.cfi_startproc
	pushq	%rbp
	.cfi_def_cfa_offset 16
	pushq	%r15
	.cfi_def_cfa_offset 24
	pushq	%r14
	.cfi_def_cfa_offset 32
	pushq	%r13
	.cfi_def_cfa_offset 40
	pushq	%r12
	.cfi_def_cfa_offset 48
	pushq	%rbx
	.cfi_def_cfa_offset 56
	subq	$1576, %rsp
	.cfi_def_cfa_offset 1632
	.cfi_offset %rbx, -56
	.cfi_offset %r12, -48
	.cfi_offset %r13, -40
	.cfi_offset %r14, -32
	.cfi_offset %r15, -24
	.cfi_offset %rbp, -16
	movq	%rcx, %r15
	movq	%rdx, %r12
	movq	%rsi, %r13
	movq	%rdi, %rbx
	leaq	64(%rsp), %r14
	movl	$1512, %edx
	movq	%r14, %rdi
	xorl	%esi, %esi
	callq	memset@PLT
	xorps	%xmm0, %xmm0
	movaps	%xmm0, 48(%rsp)
	movzbl	(%r13), %eax
	movl	$463, %ecx
	btl	%eax, %ecx
	jae	.LBB9b861_1
.LBB9b861_56:
	movb	$0, 2632(%r13)
	movb	$1, %al
	xorl	%r15d, %r15d
	xorl	%ebp, %ebp
	xorl	%ecx, %ecx
	xorl	%edi, %edi
	jmp	.LBB9b861_57
.LBB9b861_1:
	cmpl	$4, %eax
	jne	.LBB9b861_31
	testb	$1, 32(%r13)
	jne	.LBB9b861_4
	cmpb	$0, 35(%r13)
	je	.LBB9b861_56
.LBB9b861_4:
	leaq	8(%r13), %rsi
	movaps	%xmm0, 16(%rsp)
	movq	$0, 32(%rsp)
	cmpb	$1, 1904(%r13)
	jne	.LBB9b861_7
	movzbl	35(%r13), %eax
	movabsq	$8589407231, %rcx
	btq	%rax, %rcx
	jae	.LBB9b861_7
	leaq	16(%rsp), %rdi
	leaq	64(%rsp), %r8
	leaq	48(%rsp), %r9
	movq	%r12, %rdx
	movq	%r15, %rcx
	callq	"server_machine::machine::SizedServer::read::<#8eedcce04f265703>"
	jmp	.LBB9b861_8
.LBB9b861_31:
	leaq	8(%r13), %rsi
	movaps	%xmm0, 16(%rsp)
	movq	$0, 32(%rsp)
	cmpb	$1, 1904(%r13)
	jne	.LBB9b861_34
	movzbl	35(%r13), %eax
	movabsq	$8589407231, %rcx
	btq	%rax, %rcx
	jae	.LBB9b861_34
	leaq	16(%rsp), %rdi
	leaq	64(%rsp), %r8
	leaq	48(%rsp), %r9
	movq	%r12, %rdx
	movq	%r15, %rcx
	callq	"server_machine::machine::SizedServer::read::<#8eedcce04f265703>"
	jmp	.LBB9b861_35
.LBB9b861_34:
	leaq	16(%rsp), %rdi
	leaq	64(%rsp), %r8
	leaq	48(%rsp), %r9
	movq	%r12, %rdx
	movq	%r15, %rcx
	callq	"server_machine::machine::SizedServer::deliver_plain::<#8eedcce04f265703>"
.LBB9b861_35:
	movzbl	32(%rsp), %ebp
	movzbl	33(%rsp), %r8d
	movzbl	34(%rsp), %r15d
	movq	1568(%rsp), %r9
	movzbl	35(%r13), %edi
	movq	2624(%r13), %r12
	movb	%r15b, 2632(%r13)
	cmpb	$1, %r15b
	jne	.LBB9b861_30
	movq	1504(%r12), %rdx
	testq	%rdx, %rdx
	je	.LBB9b861_38
	movl	%edi, 12(%rsp)
	movq	%r12, %rdi
	xorl	%esi, %esi
	movl	%r8d, %r13d
	movq	%r9, 40(%rsp)
	callq	memset@PLT
	movq	40(%rsp), %r9
	movl	%r13d, %r8d
	movl	12(%rsp), %edi
	movq	$0, 1504(%r12)
.LBB9b861_38:
	cmpq	$1500, %r9
	ja	.LBB9b861_30
	movq	%r12, %rax
	subq	%r14, %rax
	cmpq	%r9, %rax
	jae	.LBB9b861_58
	cmpq	$4, %r9
	setb	%cl
	cmpq	$32, %rax
	setb	%al
	orb	%cl, %al
	je	.LBB9b861_42
	xorl	%eax, %eax
	jmp	.LBB9b861_51
.LBB9b861_7:
	leaq	16(%rsp), %rdi
	leaq	64(%rsp), %r8
	leaq	48(%rsp), %r9
	movq	%r12, %rdx
	movq	%r15, %rcx
	callq	"server_machine::machine::SizedServer::deliver_plain::<#8eedcce04f265703>"
.LBB9b861_8:
	movzbl	32(%rsp), %ebp
	movzbl	33(%rsp), %r8d
	movzbl	34(%rsp), %r15d
	movq	1568(%rsp), %r9
	movzbl	35(%r13), %edi
	movq	2624(%r13), %r12
	movb	%r15b, 2632(%r13)
	cmpb	$1, %r15b
	jne	.LBB9b861_30
	movq	1504(%r12), %rdx
	testq	%rdx, %rdx
	je	.LBB9b861_11
	movl	%edi, 12(%rsp)
	movq	%r12, %rdi
	xorl	%esi, %esi
	movl	%r8d, %r13d
	movq	%r9, 40(%rsp)
	callq	memset@PLT
	movq	40(%rsp), %r9
	movl	%r13d, %r8d
	movl	12(%rsp), %edi
	movq	$0, 1504(%r12)
.LBB9b861_11:
	cmpq	$1500, %r9
	ja	.LBB9b861_30
	movq	%r12, %rax
	subq	%r14, %rax
	cmpq	%r9, %rax
	jae	.LBB9b861_58
	cmpq	$4, %r9
	setb	%cl
	cmpq	$32, %rax
	setb	%al
	orb	%cl, %al
	je	.LBB9b861_15
	xorl	%eax, %eax
	jmp	.LBB9b861_24
.LBB9b861_58:
	leaq	64(%rsp), %rsi
	movl	%edi, 12(%rsp)
	movq	%r12, %rdi
	movq	%r9, %rdx
	movl	%r8d, %r13d
	movq	%r9, %r14
	callq	memmove@PLT
	movq	%r14, %r9
	movl	%r13d, %r8d
	movl	12(%rsp), %edi
.LBB9b861_29:
	movq	%r9, 1504(%r12)
.LBB9b861_30:
	xorl	%eax, %eax
	testb	%bpl, %bpl
	movzbl	%r8b, %ecx
	cmovel	%eax, %ecx
.LBB9b861_57:
	movb	%r15b, (%rbx)
	movb	%bpl, 1(%rbx)
	movb	%al, 2(%rbx)
	movb	%cl, 3(%rbx)
	movb	%dil, 4(%rbx)
	addq	$1576, %rsp
	.cfi_def_cfa_offset 56
	popq	%rbx
	.cfi_def_cfa_offset 48
	popq	%r12
	.cfi_def_cfa_offset 40
	popq	%r13
	.cfi_def_cfa_offset 32
	popq	%r14
	.cfi_def_cfa_offset 24
	popq	%r15
	.cfi_def_cfa_offset 16
	popq	%rbp
	.cfi_def_cfa_offset 8
	retq
.LBB9b861_42:
	.cfi_def_cfa_offset 1632
	cmpq	$32, %r9
	jae	.LBB9b861_44
	xorl	%eax, %eax
	jmp	.LBB9b861_48
.LBB9b861_15:
	cmpq	$32, %r9
	jae	.LBB9b861_17
	xorl	%eax, %eax
	jmp	.LBB9b861_21
.LBB9b861_44:
	movl	%r9d, %eax
	andl	$2016, %eax
	xorl	%ecx, %ecx
.LBB9b861_45:
	movups	64(%rsp,%rcx), %xmm0
	movups	80(%rsp,%rcx), %xmm1
	movups	%xmm0, (%r12,%rcx)
	movups	%xmm1, 16(%r12,%rcx)
	addq	$32, %rcx
	cmpq	%rcx, %rax
	jne	.LBB9b861_45
	cmpq	%rax, %r9
	je	.LBB9b861_29
	testb	$28, %r9b
	je	.LBB9b861_51
.LBB9b861_48:
	movq	%rax, %rcx
	movl	%r9d, %eax
	andl	$2044, %eax
.LBB9b861_49:
	movl	64(%rsp,%rcx), %edx
	movl	%edx, (%r12,%rcx)
	addq	$4, %rcx
	cmpq	%rcx, %rax
	jne	.LBB9b861_49
	cmpq	%rax, %r9
	je	.LBB9b861_29
.LBB9b861_51:
	movq	%r9, %rdx
	movq	%rax, %rcx
	andq	$3, %rdx
	je	.LBB9b861_54
	movq	%rax, %rcx
.LBB9b861_53:
	movzbl	64(%rsp,%rcx), %esi
	movb	%sil, (%r12,%rcx)
	incq	%rcx
	decq	%rdx
	jne	.LBB9b861_53
.LBB9b861_54:
	subq	%r9, %rax
	cmpq	$-4, %rax
	ja	.LBB9b861_29
.LBB9b861_55:
	movzbl	64(%rsp,%rcx), %eax
	movb	%al, (%r12,%rcx)
	movzbl	65(%rsp,%rcx), %eax
	movb	%al, 1(%r12,%rcx)
	movzbl	66(%rsp,%rcx), %eax
	movb	%al, 2(%r12,%rcx)
	movzbl	67(%rsp,%rcx), %eax
	movb	%al, 3(%r12,%rcx)
	addq	$4, %rcx
	cmpq	%rcx, %r9
	jne	.LBB9b861_55
	jmp	.LBB9b861_29
.LBB9b861_17:
	movl	%r9d, %eax
	andl	$2016, %eax
	xorl	%ecx, %ecx
.LBB9b861_18:
	movups	64(%rsp,%rcx), %xmm0
	movups	80(%rsp,%rcx), %xmm1
	movups	%xmm0, (%r12,%rcx)
	movups	%xmm1, 16(%r12,%rcx)
	addq	$32, %rcx
	cmpq	%rcx, %rax
	jne	.LBB9b861_18
	cmpq	%rax, %r9
	je	.LBB9b861_29
	testb	$28, %r9b
	je	.LBB9b861_24
.LBB9b861_21:
	movq	%rax, %rcx
	movl	%r9d, %eax
	andl	$2044, %eax
.LBB9b861_22:
	movl	64(%rsp,%rcx), %edx
	movl	%edx, (%r12,%rcx)
	addq	$4, %rcx
	cmpq	%rcx, %rax
	jne	.LBB9b861_22
	cmpq	%rax, %r9
	je	.LBB9b861_29
.LBB9b861_24:
	movq	%r9, %rdx
	movq	%rax, %rcx
	andq	$3, %rdx
	je	.LBB9b861_27
	movq	%rax, %rcx
.LBB9b861_26:
	movzbl	64(%rsp,%rcx), %esi
	movb	%sil, (%r12,%rcx)
	incq	%rcx
	decq	%rdx
	jne	.LBB9b861_26
.LBB9b861_27:
	subq	%r9, %rax
	cmpq	$-4, %rax
	ja	.LBB9b861_29
.LBB9b861_28:
	movzbl	64(%rsp,%rcx), %eax
	movb	%al, (%r12,%rcx)
	movzbl	65(%rsp,%rcx), %eax
	movb	%al, 1(%r12,%rcx)
	movzbl	66(%rsp,%rcx), %eax
	movb	%al, 2(%r12,%rcx)
	movzbl	67(%rsp,%rcx), %eax
	movb	%al, 3(%r12,%rcx)
	addq	$4, %rcx
	cmpq	%rcx, %r9
	jne	.LBB9b861_28
	jmp	.LBB9b861_29
.Lfunc_end9b861:
	.size	"tuvaddri_c::deliver::deliver_to_server", .Lfunc_end9b861-"tuvaddri_c::deliver::deliver_to_server"
	.cfi_endproc

	.section	.rodata.cst16,"aM",@progbits,16
	.p2align	4, 0x0
.LCPI455d5_0:
	.byte	1,8
	.zero	1
	.zero	1
	.zero	1
	.zero	1
	.zero	1
	.zero	1
	.zero	1
	.zero	1
	.zero	1
	.zero	1
	.zero	1
	.zero	1
	.zero	1
	.zero	1
.LCPI455d5_1:
	.quad	67842
	.quad	3
.LCPI455d5_2:
	.byte	1,8,0,0,0,0,0,0,0,0,0,0,0,0,0,0
	.section	".text.server_machine::machine::SizedServer::read::<#8eedcce04f265703>","ax",@progbits
	.p2align	4
	.type	"server_machine::machine::SizedServer::read::<#8eedcce04f265703>",@function
"server_machine::machine::SizedServer::read::<#8eedcce04f265703>":
	.cfi_startproc
	pushq	%rbp
	.cfi_def_cfa_offset 16
	pushq	%r15
	.cfi_def_cfa_offset 24
	pushq	%r14
	.cfi_def_cfa_offset 32
	pushq	%r13
	.cfi_def_cfa_offset 40
	pushq	%r12
	.cfi_def_cfa_offset 48
	pushq	%rbx
	.cfi_def_cfa_offset 56
	subq	$1752, %rsp
	.cfi_def_cfa_offset 1808
	.cfi_offset %rbx, -56
	.cfi_offset %r12, -48
	.cfi_offset %r13, -40
	.cfi_offset %r14, -32
	.cfi_offset %r15, -24
	.cfi_offset %rbp, -16
	movq	%r9, %r15
	movq	%r8, %r14
	movq	%rcx, %r13
	movq	%rdx, %rbp
	movq	%rsi, %r12
	movq	%rdi, %rbx
	xorps	%xmm0, %xmm0
	movaps	%xmm0, 224(%rsp)
	movaps	%xmm0, 208(%rsp)
	movaps	%xmm0, 192(%rsp)
	movaps	%xmm0, 64(%rsp)
	movq	$0, 80(%rsp)
	movaps	%xmm0, 32(%rsp)
	movq	$0, 48(%rsp)
	leaq	192(%rsp), %rdi
	movq	%rdx, %rsi
	movq	%rcx, %rdx
	callq	"eap_packet::packet::decode"
	cmpb	$1, 192(%rsp)
	jne	.LBB455d5_2
	leaq	64(%rsp), %rdi
	movq	%r12, %rsi
	movq	%rbp, %rdx
	movq	%r13, %rcx
	movq	%r14, %r8
	movq	%r15, %r9
	callq	"server_machine::machine::SizedServer::deliver_plain::<#8eedcce04f265703>"
	movdqa	80(%rsp), %xmm0
	movzbl	82(%rsp), %ebp
	jmp	.LBB455d5_26
.LBB455d5_2:
	movups	200(%rsp), %xmm0
	movups	216(%rsp), %xmm1
	movaps	%xmm0, 144(%rsp)
	movq	232(%rsp), %rax
	movq	%rax, 176(%rsp)
	movaps	%xmm1, 160(%rsp)
	cmpb	$1, 144(%rsp)
	jne	.LBB455d5_8
	xorps	%xmm0, %xmm0
	movaps	%xmm0, 96(%rsp)
	movq	$0, 112(%rsp)
	leaq	144(%rsp), %rdi
	callq	"eap_packet::expanded::is_bad_expanded"
	leaq	24(%r12), %rcx
	testb	%al, %al
	je	.LBB455d5_9
	xorps	%xmm0, %xmm0
	movups	%xmm0, (%r15)
	cmpb	$1, (%rcx)
	jne	.LBB455d5_6
	cmpb	$0, 27(%r12)
	je	.LBB455d5_27
.LBB455d5_6:
	movaps	.LCPI455d5_1(%rip), %xmm1
.LBB455d5_7:
	movd	.LCPI455d5_2(%rip), %xmm0
	xorl	%ebp, %ebp
	jmp	.LBB455d5_24
.LBB455d5_8:
	leaq	32(%rsp), %rdi
	movq	%r12, %rsi
	movq	%rbp, %rdx
	movq	%r13, %rcx
	movq	%r14, %r8
	movq	%r15, %r9
	callq	"server_machine::machine::SizedServer::deliver_plain::<#8eedcce04f265703>"
	movdqa	48(%rsp), %xmm0
	movzbl	50(%rsp), %ebp
	jmp	.LBB455d5_25
.LBB455d5_9:
	movq	%rcx, 136(%rsp)
	leaq	240(%rsp), %rdi
	movl	$1512, %edx
	xorl	%esi, %esi
	callq	memset@PLT
	cmpb	$-2, 146(%rsp)
	jne	.LBB455d5_20
	movq	160(%rsp), %rax
	cmpq	$7, %rax
	jb	.LBB455d5_20
	movq	152(%rsp), %rcx
	cmpl	$0, (%rcx)
	jne	.LBB455d5_20
	movq	%rax, 8(%rsp)
	leaq	.Lstatic.6(%rip), %rdx
	movl	$6, %esi
	movq	%rcx, (%rsp)
	movq	(%rsp), %rdi
	callq	"core::cmp::slices::groups_equal::<i8,31'core::cmp::numbers::U8PartialEq{}>"
	movq	(%rsp), %rsi
	movq	8(%rsp), %rdx
	testb	%al, %al
	je	.LBB455d5_20
	cmpb	$3, 6(%rsi)
	jne	.LBB455d5_20
	leaq	24(%r12), %rax
	cmpb	$1, (%rax)
	jne	.LBB455d5_16
	cmpb	$0, 27(%r12)
	je	.LBB455d5_18
.LBB455d5_16:
	cmpq	$5, 1560(%r12)
	jb	.LBB455d5_20
	cmpb	$-2, 60(%r12)
	jne	.LBB455d5_20
.LBB455d5_18:
	movzbl	145(%rsp), %ecx
	addq	$-7, %rdx
	xorps	%xmm0, %xmm0
	movaps	%xmm0, 16(%rsp)
	cmpq	$8, %rdx
	jb	.LBB455d5_42
	movq	%rcx, 128(%rsp)
	addq	$7, %rsi
	xorl	%r13d, %r13d
	xorl	%ebp, %ebp
	jmp	.LBB455d5_30
.LBB455d5_20:
	leaq	200(%rsp), %rdi
	leaq	240(%rsp), %rsi
	callq	"eap_packet::expanded::write_plain"
	testb	%al, %al
	je	.LBB455d5_23
	movq	1744(%rsp), %r13
.LBB455d5_22:
	leaq	240(%rsp), %rbp
.LBB455d5_23:
	leaq	96(%rsp), %rdi
	movq	%r12, %rsi
	movq	%rbp, %rdx
	movq	%r13, %rcx
	movq	%r14, %r8
	movq	%r15, %r9
	callq	"server_machine::machine::SizedServer::deliver_plain::<#8eedcce04f265703>"
	movzbl	114(%rsp), %ebp
	movzbl	%bpl, %esi
	movq	136(%rsp), %rdi
	movq	%r14, %rdx
	callq	"server_machine::expanded::wrap_sent::<=2>"
	movaps	96(%rsp), %xmm1
	movdqa	112(%rsp), %xmm0
.LBB455d5_24:
	movaps	%xmm1, 32(%rsp)
.LBB455d5_25:
	movaps	32(%rsp), %xmm1
	movaps	%xmm1, 64(%rsp)
.LBB455d5_26:
	movaps	64(%rsp), %xmm1
	movups	%xmm1, (%rbx)
	pextrb	$0, %xmm0, 16(%rbx)
	pextrb	$1, %xmm0, 17(%rbx)
	movb	%bpl, 18(%rbx)
	addq	$1752, %rsp
	.cfi_def_cfa_offset 56
	popq	%rbx
	.cfi_def_cfa_offset 48
	popq	%r12
	.cfi_def_cfa_offset 40
	popq	%r13
	.cfi_def_cfa_offset 32
	popq	%r14
	.cfi_def_cfa_offset 24
	popq	%r15
	.cfi_def_cfa_offset 16
	popq	%rbp
	.cfi_def_cfa_offset 8
	retq
.LBB455d5_27:
	.cfi_def_cfa_offset 1808
	xorps	%xmm1, %xmm1
	jmp	.LBB455d5_7
.LBB455d5_28:
	movq	%rbp, %rcx
.LBB455d5_29:
	addq	$8, %rsi
	addq	$-8, %rdx
	movq	%rcx, %rbp
	cmpq	$7, %rdx
	jbe	.LBB455d5_40
.LBB455d5_30:
	cmpl	$0, 1(%rsi)
	jne	.LBB455d5_28
	movq	%rdx, 8(%rsp)
	movq	%rsi, (%rsp)
	leaq	1(%rsi), %rdi
	leaq	.Lstatic.6(%rip), %rdx
	movl	$6, %esi
	callq	"core::cmp::slices::groups_equal::<i8,31'core::cmp::numbers::U8PartialEq{}>"
	testb	%al, %al
	je	.LBB455d5_37
	movq	(%rsp), %rsi
	movzbl	7(%rsi), %eax
	cmpl	$47, %eax
	movq	8(%rsp), %rdx
	je	.LBB455d5_34
	cmpl	$51, %eax
	jne	.LBB455d5_28
.LBB455d5_34:
	xorl	%ecx, %ecx
.LBB455d5_35:
	cmpq	%rcx, %rbp
	je	.LBB455d5_38
	cmpb	%al, 16(%rsp,%rcx)
	leaq	1(%rcx), %rcx
	jne	.LBB455d5_35
	jmp	.LBB455d5_28
.LBB455d5_37:
	movq	%rbp, %rcx
	movq	8(%rsp), %rdx
	movq	(%rsp), %rsi
	jmp	.LBB455d5_29
.LBB455d5_38:
	movl	$2, %ecx
	cmpq	$2, %rbp
	je	.LBB455d5_29
	movb	%al, 16(%rsp,%rbp)
	incq	%rbp
	movq	%rbp, 24(%rsp)
	movq	%rbp, %r13
	jmp	.LBB455d5_28
.LBB455d5_40:
	testq	%r13, %r13
	movq	128(%rsp), %rcx
	je	.LBB455d5_42
	leal	5(%r13), %eax
	rolw	$8, %ax
	shll	$16, %eax
	shll	$8, %ecx
	addl	%ecx, %eax
	addl	$2, %eax
	movl	%eax, 240(%rsp)
	movb	$3, 244(%rsp)
	leaq	245(%rsp), %rdi
	leaq	16(%rsp), %rsi
	movq	%r13, %rdx
	callq	memcpy@PLT
	addq	$5, %r13
	movq	%r13, 1744(%rsp)
	jmp	.LBB455d5_22
.LBB455d5_42:
	shll	$8, %ecx
	orl	$100663298, %ecx
	movl	%ecx, 240(%rsp)
	movw	$3, 244(%rsp)
	movq	$6, 1744(%rsp)
	movl	$6, %r13d
	jmp	.LBB455d5_22
.Lfunc_end455d5:
	.size	"server_machine::machine::SizedServer::read::<#8eedcce04f265703>", .Lfunc_end455d5-"server_machine::machine::SizedServer::read::<#8eedcce04f265703>"
	.cfi_endproc

	.section	".text.server_machine::expanded::wrap_sent::<=2>","ax",@progbits
	.p2align	4
	.type	"server_machine::expanded::wrap_sent::<=2>",@function
"server_machine::expanded::wrap_sent::<=2>":
	.cfi_startproc
	testl	%esi, %esi
	je	.LBBfcc03_29
	pushq	%rbp
	.cfi_def_cfa_offset 16
	pushq	%r15
	.cfi_def_cfa_offset 24
	pushq	%r14
	.cfi_def_cfa_offset 32
	pushq	%r13
	.cfi_def_cfa_offset 40
	pushq	%r12
	.cfi_def_cfa_offset 48
	pushq	%rbx
	.cfi_def_cfa_offset 56
	subq	$3032, %rsp
	.cfi_def_cfa_offset 3088
	.cfi_offset %rbx, -56
	.cfi_offset %r12, -48
	.cfi_offset %r13, -40
	.cfi_offset %r14, -32
	.cfi_offset %r15, -24
	.cfi_offset %rbp, -16
	movq	%rdx, %rbx
	movq	1504(%rdx), %r14
	testq	%r14, %r14
	je	.LBBfcc03_28
	cmpb	$1, (%rbx)
	jne	.LBBfcc03_28
	movq	%rdi, (%rsp)
	leaq	8(%rsp), %rdi
	xorl	%r15d, %r15d
	movl	$1512, %edx
	xorl	%esi, %esi
	callq	memset@PLT
	cmpq	$1500, %r14
	jbe	.LBBfcc03_5
	xorl	%r13d, %r13d
	xorl	%r12d, %r12d
	jmp	.LBBfcc03_6
.LBBfcc03_5:
	leaq	8(%rsp), %rdi
	movq	%rbx, %rsi
	movq	%r14, %rdx
	callq	memcpy@PLT
	movq	%r14, 1512(%rsp)
	movzbl	8(%rsp), %r12d
	movzbl	9(%rsp), %r13d
	movzwl	10(%rsp), %r15d
	rolw	$8, %r15w
.LBBfcc03_6:
	leaq	12(%rsp), %rsi
	leaq	1524(%rsp), %rdi
	movl	$1508, %edx
	callq	memcpy@PLT
	movzwl	%r15w, %ebp
	addl	$7, %r15d
	rolw	$8, %r15w
	movq	%rbx, %rdi
	xorl	%esi, %esi
	movq	%r14, %rdx
	callq	memset@PLT
	movb	%r12b, (%rbx)
	movb	%r13b, 1(%rbx)
	movw	%r15w, 2(%rbx)
	movb	$-2, 4(%rbx)
	movl	$0, 5(%rbx)
	movw	$0, 9(%rbx)
	movq	$11, 1504(%rbx)
	leaq	-4(%rbp), %rdx
	movl	$11, %r14d
	cmpq	$1489, %rdx
	ja	.LBBfcc03_8
	leaq	11(%rbx), %rdi
	leaq	1524(%rsp), %rsi
	callq	memcpy@PLT
	addq	$7, %rbp
	movq	%rbp, 1504(%rbx)
	movq	%rbp, %r14
.LBBfcc03_8:
	movq	(%rsp), %rax
	leaq	32(%rax), %r15
	movq	1536(%rax), %rdx
	testq	%rdx, %rdx
	je	.LBBfcc03_10
	movq	%r15, %rdi
	xorl	%esi, %esi
	callq	memset@PLT
	movq	(%rsp), %rax
	movq	$0, 1536(%rax)
.LBBfcc03_10:
	movq	%r15, %rcx
	subq	%rbx, %rcx
	cmpq	%r14, %rcx
	jae	.LBBfcc03_30
	movq	%rax, %rcx
	subq	%rbx, %rcx
	addq	$32, %rcx
	cmpq	$32, %rcx
	jae	.LBBfcc03_13
	xorl	%ecx, %ecx
	jmp	.LBBfcc03_22
.LBBfcc03_30:
	movq	%r15, %rdi
	movq	%rbx, %rsi
	movq	%r14, %rdx
	callq	memmove@PLT
	movq	(%rsp), %rax
	jmp	.LBBfcc03_27
.LBBfcc03_13:
	cmpl	$32, %r14d
	jae	.LBBfcc03_15
	xorl	%ecx, %ecx
	jmp	.LBBfcc03_19
.LBBfcc03_15:
	movl	%r14d, %ecx
	andl	$-32, %ecx
	xorl	%edx, %edx
	.p2align	4
.LBBfcc03_16:
	movups	(%rbx,%rdx), %xmm0
	movups	16(%rbx,%rdx), %xmm1
	movups	%xmm0, 32(%rax,%rdx)
	movups	%xmm1, 48(%rax,%rdx)
	addq	$32, %rdx
	cmpq	%rdx, %rcx
	jne	.LBBfcc03_16
	cmpl	%ecx, %r14d
	je	.LBBfcc03_27
	testb	$28, %r14b
	je	.LBBfcc03_22
.LBBfcc03_19:
	movq	%rcx, %rdx
	movl	%r14d, %ecx
	andl	$-4, %ecx
	.p2align	4
.LBBfcc03_20:
	movl	(%rbx,%rdx), %esi
	movl	%esi, (%r15,%rdx)
	addq	$4, %rdx
	cmpq	%rdx, %rcx
	jne	.LBBfcc03_20
	cmpl	%ecx, %r14d
	je	.LBBfcc03_27
.LBBfcc03_22:
	movq	%r14, %rsi
	movq	%rcx, %rdx
	andq	$3, %rsi
	je	.LBBfcc03_25
	movq	%rcx, %rdx
	.p2align	4
.LBBfcc03_24:
	movzbl	(%rbx,%rdx), %edi
	movb	%dil, (%r15,%rdx)
	incq	%rdx
	decq	%rsi
	jne	.LBBfcc03_24
.LBBfcc03_25:
	subl	%r14d, %ecx
	cmpl	$-4, %ecx
	ja	.LBBfcc03_27
	.p2align	4
.LBBfcc03_26:
	movzbl	(%rbx,%rdx), %ecx
	movb	%cl, 32(%rax,%rdx)
	movzbl	1(%rbx,%rdx), %ecx
	movb	%cl, 33(%rax,%rdx)
	movzbl	2(%rbx,%rdx), %ecx
	movb	%cl, 34(%rax,%rdx)
	movzbl	3(%rbx,%rdx), %ecx
	movb	%cl, 35(%rax,%rdx)
	addq	$4, %rdx
	cmpq	%rdx, %r14
	jne	.LBBfcc03_26
.LBBfcc03_27:
	movq	%r14, 1536(%rax)
.LBBfcc03_28:
	addq	$3032, %rsp
	.cfi_def_cfa_offset 56
	popq	%rbx
	.cfi_def_cfa_offset 48
	popq	%r12
	.cfi_def_cfa_offset 40
	popq	%r13
	.cfi_def_cfa_offset 32
	popq	%r14
	.cfi_def_cfa_offset 24
	popq	%r15
	.cfi_def_cfa_offset 16
	popq	%rbp
	.cfi_def_cfa_offset 8
	.cfi_restore %rbx
	.cfi_restore %r12
	.cfi_restore %r13
	.cfi_restore %r14
	.cfi_restore %r15
	.cfi_restore %rbp
.LBBfcc03_29:
	retq
.Lfunc_endfcc03:
	.size	"server_machine::expanded::wrap_sent::<=2>", .Lfunc_endfcc03-"server_machine::expanded::wrap_sent::<=2>"
	.cfi_endproc

	.section	.rodata.cst16,"aM",@progbits,16
	.p2align	4, 0x0
.LCPI119f3_0:
	.quad	67842
	.quad	3
.LCPI119f3_1:
	.quad	17371394
	.quad	4
.LCPI119f3_2:
	.zero	8
	.quad	5
.LCPI119f3_3:
	.quad	1164172202242
	.quad	6
	.section	".text.server_machine::machine::SizedServer::deliver_plain::<#8eedcce04f265703>","ax",@progbits
	.p2align	4
	.type	"server_machine::machine::SizedServer::deliver_plain::<#8eedcce04f265703>",@function
"server_machine::machine::SizedServer::deliver_plain::<#8eedcce04f265703>":
	.cfi_startproc
	pushq	%rbp
	.cfi_def_cfa_offset 16
	pushq	%r15
	.cfi_def_cfa_offset 24
	pushq	%r14
	.cfi_def_cfa_offset 32
	pushq	%r13
	.cfi_def_cfa_offset 40
	pushq	%r12
	.cfi_def_cfa_offset 48
	pushq	%rbx
	.cfi_def_cfa_offset 56
	subq	$216, %rsp
	.cfi_def_cfa_offset 272
	.cfi_offset %rbx, -56
	.cfi_offset %r12, -48
	.cfi_offset %r13, -40
	.cfi_offset %r14, -32
	.cfi_offset %r15, -24
	.cfi_offset %rbp, -16
	movq	%rsi, %r15
	pxor	%xmm0, %xmm0
	movdqa	%xmm0, 144(%rsp)
	movdqa	%xmm0, 128(%rsp)
	movdqa	%xmm0, 112(%rsp)
	movdqu	%xmm0, (%r9)
	movzbl	27(%rsi), %eax
	movzbl	%al, %esi
	movq	%rdi, %rbx
	movabsq	$8589407231, %rdi
	btq	%rsi, %rdi
	jae	.LBB119f3_24
	movq	%r9, %r12
	movq	%r8, %r14
	testb	%al, %al
	sete	%bpl
	andb	24(%r15), %bpl
	leaq	112(%rsp), %rdi
	movq	%rdx, %rsi
	movq	%rcx, %rdx
	callq	"eap_packet::packet::decode"
	cmpb	$1, 112(%rsp)
	jne	.LBB119f3_7
	movzbl	113(%rsp), %edx
	movzbl	%bpl, %eax
	movd	%eax, %xmm0
	pshufd	$68, %xmm0, %xmm1
	psllq	$63, %xmm1
	pxor	%xmm0, %xmm0
	pcmpgtq	%xmm1, %xmm0
	pandn	.LCPI119f3_0(%rip), %xmm0
.LBB119f3_3:
	movb	$1, %bpl
.LBB119f3_4:
	xorl	%eax, %eax
.LBB119f3_5:
	movdqu	%xmm0, (%rbx)
	movb	%bpl, 16(%rbx)
	movb	%dl, 17(%rbx)
	movb	%al, 18(%rbx)
.LBB119f3_6:
	addq	$216, %rsp
	.cfi_def_cfa_offset 56
	popq	%rbx
	.cfi_def_cfa_offset 48
	popq	%r12
	.cfi_def_cfa_offset 40
	popq	%r13
	.cfi_def_cfa_offset 32
	popq	%r14
	.cfi_def_cfa_offset 24
	popq	%r15
	.cfi_def_cfa_offset 16
	popq	%rbp
	.cfi_def_cfa_offset 8
	retq
.LBB119f3_7:
	.cfi_def_cfa_offset 272
	movzbl	120(%rsp), %edx
	movzbl	121(%rsp), %r9d
	movzbl	%r9b, %ecx
	movzbl	122(%rsp), %eax
	movq	128(%rsp), %rdi
	movq	136(%rsp), %rsi
	testb	%bpl, %bpl
	je	.LBB119f3_13
	pxor	%xmm0, %xmm0
	cmpb	$1, %dl
	jne	.LBB119f3_22
	movdqa	%xmm0, 32(%rsp)
	movq	$0, 48(%rsp)
	movdqa	%xmm0, 64(%rsp)
	movq	$0, 80(%rsp)
	movdqu	%xmm0, 176(%rsp)
	movdqu	%xmm0, 200(%rsp)
	movw	$257, 27(%r15)
	movb	%r9b, 29(%r15)
	cmpl	$1, %eax
	je	.LBB119f3_26
	cmpl	$3, %eax
	jne	.LBB119f3_27
	movq	$1, 88(%rsp)
	movq	%rdi, 96(%rsp)
	movq	%rsi, 104(%rsp)
	leaq	32(%rsp), %rdi
	leaq	88(%rsp), %r8
	movq	%r15, %rsi
	movl	$3, %edx
.LBB119f3_12:
	movq	%r14, %r9
	callq	"server_machine::machine::SizedServer::propose::<#575f94f35bca5e04>"
	movzbl	48(%rsp), %ebp
	movzbl	49(%rsp), %edx
	movzbl	50(%rsp), %eax
	movdqa	32(%rsp), %xmm0
	jmp	.LBB119f3_5
.LBB119f3_13:
	movdqa	.LCPI119f3_0(%rip), %xmm0
	movb	$1, %bpl
	cmpb	$1, %dl
	jne	.LBB119f3_23
	movb	$12, %dl
	cmpb	$1, 28(%r15)
	jne	.LBB119f3_4
	cmpb	%r9b, 29(%r15)
	jne	.LBB119f3_4
	movq	144(%rsp), %r10
	movq	152(%rsp), %r8
	pxor	%xmm0, %xmm0
	movdqa	%xmm0, 32(%rsp)
	movq	$0, 48(%rsp)
	movdqa	%xmm0, 64(%rsp)
	movq	$0, 80(%rsp)
	movdqu	%xmm0, 176(%rsp)
	cmpl	$3, %eax
	jne	.LBB119f3_18
	cmpb	$0, 32(%r15)
	je	.LBB119f3_32
.LBB119f3_18:
	movdqa	.LCPI119f3_0(%rip), %xmm0
	movb	$1, %bpl
	movb	$16, %dl
	cmpb	$1, 30(%r15)
	jne	.LBB119f3_4
	cmpb	%al, 31(%r15)
	jne	.LBB119f3_4
	cmpl	$1, %eax
	jne	.LBB119f3_33
	movb	$2, 32(%r15)
	movq	$0, 168(%rsp)
	leaq	64(%rsp), %rdi
	leaq	168(%rsp), %r8
	movq	%r15, %rsi
	xorl	%edx, %edx
	movq	%r14, %r9
	callq	"server_machine::machine::SizedServer::propose::<#575f94f35bca5e04>"
	movdqa	64(%rsp), %xmm0
	movzbl	80(%rsp), %ebp
	movzbl	81(%rsp), %edx
	movzbl	82(%rsp), %eax
	jmp	.LBB119f3_5
.LBB119f3_22:
	movb	$7, %dl
	jmp	.LBB119f3_3
.LBB119f3_23:
	movb	$7, %dl
	jmp	.LBB119f3_4
.LBB119f3_24:
	movdqu	%xmm0, (%rbx)
	movw	$4609, 16(%rbx)
	movb	$0, 18(%rbx)
	jmp	.LBB119f3_6
.LBB119f3_26:
	movb	$2, 32(%r15)
	movq	$0, 168(%rsp)
	leaq	64(%rsp), %rdi
	leaq	168(%rsp), %r8
	movq	%r15, %rsi
	movl	$2, %edx
	jmp	.LBB119f3_28
.LBB119f3_27:
	movq	$0, 192(%rsp)
	leaq	64(%rsp), %rdi
	leaq	192(%rsp), %r8
	movq	%r15, %rsi
	movl	$4, %edx
.LBB119f3_28:
	movq	%r14, %r9
	callq	"server_machine::machine::SizedServer::propose::<#575f94f35bca5e04>"
	movaps	64(%rsp), %xmm0
	movaps	%xmm0, 32(%rsp)
	movzbl	80(%rsp), %ebp
	movzbl	81(%rsp), %edx
	movzbl	82(%rsp), %eax
	movdqa	32(%rsp), %xmm0
	jmp	.LBB119f3_5
.LBB119f3_32:
	movq	$1, 88(%rsp)
	movq	%rdi, 96(%rsp)
	movq	%rsi, 104(%rsp)
	leaq	32(%rsp), %rdi
	leaq	88(%rsp), %r8
	movq	%r15, %rsi
	movl	$1, %edx
	jmp	.LBB119f3_12
.LBB119f3_33:
	movl	%ecx, %r13d
	movq	(%r15), %rdi
	movq	8(%r15), %rsi
	incb	%r9b
	leaq	1904(%r15), %rcx
	movq	2608(%r15), %rdx
	movq	%r12, 24(%rsp)
	movq	%r14, 16(%rsp)
	movq	%rdx, 8(%rsp)
	movq	%rcx, (%rsp)
	movzbl	%r9b, %r9d
	movl	%eax, %edx
	movq	%r10, %rcx
	callq	"eap_method::server_objects::call_server_method::<#80187fcbb1ba111c>"
	testb	%al, %al
	je	.LBB119f3_39
	movzbl	%al, %eax
	cmpl	$2, %eax
	jne	.LBB119f3_40
	movb	$2, 32(%r15)
	testb	$1, %dl
	je	.LBB119f3_42
	movb	$10, 27(%r15)
	movq	1504(%r14), %rdx
	testq	%rdx, %rdx
	je	.LBB119f3_38
	movq	%r14, %rdi
	xorl	%esi, %esi
	callq	memset@PLT
.LBB119f3_38:
	shll	$8, %r13d
	orl	$67108867, %r13d
	movabsq	$43152183554, %rax
	jmp	.LBB119f3_45
.LBB119f3_39:
	movdqa	.LCPI119f3_1(%rip), %xmm0
	jmp	.LBB119f3_5
.LBB119f3_40:
	cmpb	$0, 28(%r15)
	je	.LBB119f3_46
	movzbl	29(%r15), %eax
	incb	%al
	jmp	.LBB119f3_47
.LBB119f3_42:
	movb	$11, 27(%r15)
	movq	1504(%r14), %rdx
	testq	%rdx, %rdx
	je	.LBB119f3_44
	movq	%r14, %rdi
	xorl	%esi, %esi
	callq	memset@PLT
.LBB119f3_44:
	shll	$8, %r13d
	orl	$67108868, %r13d
	movabsq	$47447150850, %rax
.LBB119f3_45:
	movl	%r13d, (%r14)
	movdqa	.LCPI119f3_2(%rip), %xmm0
	pinsrq	$0, %rax, %xmm0
	movq	$4, 1504(%r14)
	jmp	.LBB119f3_72
.LBB119f3_46:
	movzbl	25(%r15), %eax
.LBB119f3_47:
	movb	$1, 28(%r15)
	movb	%al, 29(%r15)
	movb	$0, 33(%r15)
	leaq	56(%r15), %r13
	movq	1504(%r14), %r12
	movq	1560(%r15), %rdx
	testq	%rdx, %rdx
	je	.LBB119f3_49
	movq	%r13, %rdi
	xorl	%esi, %esi
	callq	memset@PLT
	movq	$0, 1560(%r15)
.LBB119f3_49:
	cmpq	$1500, %r12
	ja	.LBB119f3_71
	movq	%r13, %rax
	subq	%r14, %rax
	cmpq	%r12, %rax
	jae	.LBB119f3_53
	cmpq	$4, %r12
	jb	.LBB119f3_52
	movq	%r15, %rax
	subq	%r14, %rax
	addq	$56, %rax
	cmpq	$32, %rax
	jae	.LBB119f3_56
.LBB119f3_52:
	xorl	%eax, %eax
.LBB119f3_65:
	movq	%r12, %rdx
	movq	%rax, %rcx
	andq	$3, %rdx
	je	.LBB119f3_68
	movq	%rax, %rcx
.LBB119f3_67:
	movzbl	(%r14,%rcx), %esi
	movb	%sil, (%r13,%rcx)
	incq	%rcx
	decq	%rdx
	jne	.LBB119f3_67
.LBB119f3_68:
	subq	%r12, %rax
	cmpq	$-4, %rax
	ja	.LBB119f3_70
.LBB119f3_69:
	movzbl	(%r14,%rcx), %eax
	movb	%al, 56(%r15,%rcx)
	movzbl	1(%r14,%rcx), %eax
	movb	%al, 57(%r15,%rcx)
	movzbl	2(%r14,%rcx), %eax
	movb	%al, 58(%r15,%rcx)
	movzbl	3(%r14,%rcx), %eax
	movb	%al, 59(%r15,%rcx)
	addq	$4, %rcx
	cmpq	%rcx, %r12
	jne	.LBB119f3_69
	jmp	.LBB119f3_70
.LBB119f3_53:
	movq	%r13, %rdi
	movq	%r14, %rsi
	movq	%r12, %rdx
	callq	memmove@PLT
.LBB119f3_70:
	movq	%r12, 1560(%r15)
.LBB119f3_71:
	movb	$1, 32(%r15)
	movdqa	.LCPI119f3_3(%rip), %xmm0
.LBB119f3_72:
	movb	$1, %al
	xorl	%edx, %edx
	xorl	%ebp, %ebp
	jmp	.LBB119f3_5
.LBB119f3_56:
	cmpq	$32, %r12
	jae	.LBB119f3_58
	xorl	%eax, %eax
	jmp	.LBB119f3_62
.LBB119f3_58:
	movl	%r12d, %eax
	andl	$2016, %eax
	xorl	%ecx, %ecx
.LBB119f3_59:
	movdqu	(%r14,%rcx), %xmm0
	movdqu	16(%r14,%rcx), %xmm1
	movdqu	%xmm0, 56(%r15,%rcx)
	movdqu	%xmm1, 72(%r15,%rcx)
	addq	$32, %rcx
	cmpq	%rcx, %rax
	jne	.LBB119f3_59
	cmpq	%rax, %r12
	je	.LBB119f3_70
	testb	$28, %r12b
	je	.LBB119f3_65
.LBB119f3_62:
	movq	%rax, %rcx
	movl	%r12d, %eax
	andl	$2044, %eax
.LBB119f3_63:
	movl	(%r14,%rcx), %edx
	movl	%edx, (%r13,%rcx)
	addq	$4, %rcx
	cmpq	%rcx, %rax
	jne	.LBB119f3_63
	cmpq	%rax, %r12
	je	.LBB119f3_70
	jmp	.LBB119f3_65
.Lfunc_end119f3:
	.size	"server_machine::machine::SizedServer::deliver_plain::<#8eedcce04f265703>", .Lfunc_end119f3-"server_machine::machine::SizedServer::deliver_plain::<#8eedcce04f265703>"
	.cfi_endproc

	.section	".text.server_machine::machine::SizedServer::propose::<#575f94f35bca5e04>","ax",@progbits
	.p2align	4
	.type	"server_machine::machine::SizedServer::propose::<#575f94f35bca5e04>",@function
"server_machine::machine::SizedServer::propose::<#575f94f35bca5e04>":
	.cfi_startproc
	pushq	%rbp
	.cfi_def_cfa_offset 16
	pushq	%r15
	.cfi_def_cfa_offset 24
	pushq	%r14
	.cfi_def_cfa_offset 32
	pushq	%r13
	.cfi_def_cfa_offset 40
	pushq	%r12
	.cfi_def_cfa_offset 48
	pushq	%rbx
	.cfi_def_cfa_offset 56
	subq	$904, %rsp
	.cfi_def_cfa_offset 960
	.cfi_offset %rbx, -56
	.cfi_offset %r12, -48
	.cfi_offset %r13, -40
	.cfi_offset %r14, -32
	.cfi_offset %r15, -24
	.cfi_offset %rbp, -16
	movq	%r9, %r14
	movl	%ecx, %r13d
	movl	%edx, %r12d
	movq	%rsi, %r15
	movq	%rdi, %rbp
	movzbl	(%r8), %r9d
	movq	8(%r8), %rsi
	movq	16(%r8), %rdi
	xorps	%xmm0, %xmm0
	movaps	%xmm0, 48(%rsp)
	movq	1840(%r15), %rax
	testq	%rax, %rax
	je	.LBB264c5_14
	leaq	1832(%r15), %rcx
	movq	48(%r15), %rdx
	testb	%r9b, %r9b
	je	.LBB264c5_10
.LBB264c5_2:
	decq	%rax
	movzbl	(%rcx), %ebx
	incq	%rcx
	xorl	%r8d, %r8d
	.p2align	4
.LBB264c5_3:
	cmpq	%r8, %rdx
	je	.LBB264c5_6
	cmpb	%bl, 40(%r15,%r8)
	leaq	1(%r8), %r8
	jne	.LBB264c5_3
.LBB264c5_5:
	testq	%rax, %rax
	jne	.LBB264c5_2
	jmp	.LBB264c5_14
	.p2align	4
.LBB264c5_6:
	xorl	%r8d, %r8d
	.p2align	4
.LBB264c5_7:
	cmpq	%r8, %rdi
	je	.LBB264c5_5
	cmpb	%bl, (%rsi,%r8)
	leaq	1(%r8), %r8
	jne	.LBB264c5_7
.LBB264c5_9:
	movb	$1, %sil
	jmp	.LBB264c5_15
	.p2align	4
.LBB264c5_10:
	decq	%rax
	movzbl	(%rcx), %ebx
	incq	%rcx
	xorl	%esi, %esi
	.p2align	4
.LBB264c5_11:
	cmpq	%rsi, %rdx
	je	.LBB264c5_9
	cmpb	%bl, 40(%r15,%rsi)
	leaq	1(%rsi), %rsi
	jne	.LBB264c5_11
	xorl	%esi, %esi
	movl	$0, %ebx
	testq	%rax, %rax
	jne	.LBB264c5_10
	jmp	.LBB264c5_15
.LBB264c5_14:
	xorl	%esi, %esi
	xorl	%ebx, %ebx
.LBB264c5_15:
	testb	%sil, %sil
	je	.LBB264c5_22
	movl	%r13d, 44(%rsp)
	movl	%r12d, 12(%rsp)
	movq	%rbp, 32(%rsp)
	movq	(%r15), %r13
	movq	8(%r15), %rbp
	movq	1824(%r15), %r12
	leaq	640(%rsp), %rdi
	movl	$264, %edx
	xorl	%esi, %esi
	callq	memset@PLT
	cmpq	$253, %r12
	ja	.LBB264c5_18
	leaq	1568(%r15), %rsi
	leaq	640(%rsp), %rdi
	movq	%r12, %rdx
	callq	memcpy@PLT
	movq	%r12, 896(%rsp)
.LBB264c5_18:
	movq	1856(%r15), %r12
	xorps	%xmm0, %xmm0
	movaps	%xmm0, 16(%rsp)
	cmpq	$2, %r12
	ja	.LBB264c5_20
	leaq	1848(%r15), %rsi
	leaq	16(%rsp), %rdi
	movq	%r12, %rdx
	callq	memcpy@PLT
	movq	%r12, 24(%rsp)
.LBB264c5_20:
	leaq	64(%rsp), %r12
	leaq	640(%rsp), %rsi
	movl	$264, %edx
	movq	%r12, %rdi
	callq	memcpy@PLT
	movaps	16(%rsp), %xmm0
	movups	%xmm0, 328(%rsp)
	leaq	352(%rsp), %rdi
	movl	$280, %edx
	movq	%r12, %rsi
	callq	memcpy@PLT
	cmpb	$0, 28(%r15)
	je	.LBB264c5_35
	movzbl	29(%r15), %r12d
	incb	%r12b
	testq	%rbp, %rbp
	jne	.LBB264c5_36
	jmp	.LBB264c5_39
.LBB264c5_22:
	xorps	%xmm0, %xmm0
	movaps	%xmm0, 640(%rsp)
	movb	$11, 27(%r15)
	movq	1504(%r14), %rdx
	testq	%rdx, %rdx
	je	.LBB264c5_24
	movq	%r14, %rdi
	xorl	%esi, %esi
	callq	memset@PLT
	xorps	%xmm0, %xmm0
.LBB264c5_24:
	movzbl	%r13b, %eax
	shll	$8, %eax
	orl	$67108868, %eax
	movl	%eax, (%r14)
	movq	$4, 1504(%r14)
	movzbl	%r12b, %eax
	shll	$3, %eax
	leaq	".Lswitch.table.server_machine::machine::SizedServer::propose::<#575f94f35bca5e04>.303"(%rip), %rcx
	movq	(%rax,%rcx), %rdx
	leaq	".Lswitch.table.server_machine::machine::SizedServer::propose::<#575f94f35bca5e04>.304"(%rip), %rcx
	movq	(%rax,%rcx), %rax
	movq	$65536, 80(%rsp)
	movaps	%xmm0, 352(%rsp)
	andq	$-2, %rdx
	xorl	%edi, %edi
	xorl	%ecx, %ecx
	jmp	.LBB264c5_26
	.p2align	4
.LBB264c5_25:
	addq	$2, %rcx
	movq	%rsi, %rdi
	cmpq	%rcx, %rdx
	je	.LBB264c5_30
.LBB264c5_26:
	movl	$8, %esi
	movl	$8, %r8d
	cmpq	$8, %rdi
	jne	.LBB264c5_28
	cmpq	$8, %r8
	je	.LBB264c5_25
	jmp	.LBB264c5_29
	.p2align	4
.LBB264c5_28:
	movzbl	(%rax,%rcx), %r8d
	movb	%r8b, 352(%rsp,%rdi)
	incq	%rdi
	movq	%rdi, 360(%rsp)
	movq	%rdi, %r8
	cmpq	$8, %r8
	je	.LBB264c5_25
.LBB264c5_29:
	movzbl	1(%rax,%rcx), %esi
	movb	%sil, 352(%rsp,%r8)
	incq	%r8
	movq	%r8, 360(%rsp)
	movq	%r8, %rsi
	jmp	.LBB264c5_25
.LBB264c5_30:
	addb	$-3, %r12b
	cmpb	$-2, %r12b
	jb	.LBB264c5_33
	cmpq	$8, %rsi
	je	.LBB264c5_33
	movzbl	(%rax,%rcx), %eax
	movb	%al, 352(%rsp,%rsi)
	incq	%rsi
	movq	%rsi, 360(%rsp)
.LBB264c5_33:
	movq	352(%rsp), %rax
	movq	%rax, 64(%rsp)
	movq	360(%rsp), %rax
	movq	%rax, 72(%rsp)
	movq	72(%rsp), %rax
	cmpq	$8, %rax
	jne	.LBB264c5_56
	movb	$1, %al
	xorl	%ecx, %ecx
	xorl	%edx, %edx
	jmp	.LBB264c5_57
.LBB264c5_35:
	movzbl	25(%r15), %r12d
	testq	%rbp, %rbp
	je	.LBB264c5_39
.LBB264c5_36:
	leaq	1864(%r15), %rdx
	.p2align	4
.LBB264c5_37:
	cmpb	$0, (%r13)
	setne	%al
	shlb	$2, %al
	addb	$47, %al
	cmpb	%bl, %al
	je	.LBB264c5_54
	addq	$1256, %r13
	decq	%rbp
	jne	.LBB264c5_37
.LBB264c5_39:
	xorps	%xmm0, %xmm0
	movaps	%xmm0, 16(%rsp)
	movaps	%xmm0, 640(%rsp)
	movb	$11, 27(%r15)
	movq	1504(%r14), %rdx
	testq	%rdx, %rdx
	je	.LBB264c5_41
	movq	%r14, %rdi
	xorl	%esi, %esi
	callq	memset@PLT
	xorps	%xmm0, %xmm0
.LBB264c5_41:
	movzbl	44(%rsp), %eax
	shll	$8, %eax
	orl	$67108868, %eax
	movl	%eax, (%r14)
	movq	$4, 1504(%r14)
	movl	12(%rsp), %r9d
	movzbl	%r9b, %eax
	shll	$3, %eax
	leaq	".Lswitch.table.server_machine::machine::SizedServer::propose::<#575f94f35bca5e04>.303"(%rip), %rcx
	movq	(%rax,%rcx), %rdx
	leaq	".Lswitch.table.server_machine::machine::SizedServer::propose::<#575f94f35bca5e04>.304"(%rip), %rcx
	movq	(%rax,%rcx), %rax
	movq	$65536, 80(%rsp)
	movaps	%xmm0, 352(%rsp)
	andq	$-2, %rdx
	xorl	%edi, %edi
	xorl	%ecx, %ecx
	movq	32(%rsp), %rbp
	jmp	.LBB264c5_43
	.p2align	4
.LBB264c5_42:
	addq	$2, %rcx
	movq	%rsi, %rdi
	cmpq	%rcx, %rdx
	je	.LBB264c5_47
.LBB264c5_43:
	movl	$8, %esi
	movl	$8, %r8d
	cmpq	$8, %rdi
	jne	.LBB264c5_45
	cmpq	$8, %r8
	je	.LBB264c5_42
	jmp	.LBB264c5_46
	.p2align	4
.LBB264c5_45:
	movzbl	(%rax,%rcx), %r8d
	movb	%r8b, 352(%rsp,%rdi)
	incq	%rdi
	movq	%rdi, 360(%rsp)
	movq	%rdi, %r8
	cmpq	$8, %r8
	je	.LBB264c5_42
.LBB264c5_46:
	movzbl	1(%rax,%rcx), %esi
	movb	%sil, 352(%rsp,%r8)
	incq	%r8
	movq	%r8, 360(%rsp)
	movq	%r8, %rsi
	jmp	.LBB264c5_42
.LBB264c5_47:
	addb	$-3, %r9b
	cmpb	$-2, %r9b
	jb	.LBB264c5_50
	cmpq	$8, %rsi
	je	.LBB264c5_50
	movzbl	(%rax,%rcx), %eax
	movb	%al, 352(%rsp,%rsi)
	incq	%rsi
	movq	%rsi, 360(%rsp)
.LBB264c5_50:
	movq	352(%rsp), %rax
	movq	%rax, 64(%rsp)
	movq	360(%rsp), %rax
	movq	%rax, 72(%rsp)
	movq	72(%rsp), %rax
	cmpq	$8, %rax
	jne	.LBB264c5_52
	movb	$1, %al
	xorl	%ecx, %ecx
	xorl	%edx, %edx
	jmp	.LBB264c5_53
.LBB264c5_52:
	movb	$11, 64(%rsp,%rax)
	incq	%rax
	movq	%rax, 72(%rsp)
	movzbl	80(%rsp), %edx
	movzbl	81(%rsp), %ecx
	movzbl	82(%rsp), %eax
.LBB264c5_53:
	movq	64(%rsp), %rsi
	movq	%rsi, 16(%rsp)
	movq	72(%rsp), %rsi
	movq	%rsi, 24(%rsp)
	jmp	.LBB264c5_102
.LBB264c5_54:
	leaq	352(%rsp), %rsi
	movq	%r13, %rdi
	callq	"end_objects::objects::ServerObjectServerMethod::begin"
	movzbl	%r12b, %esi
	movq	%r13, %rdi
	movq	%r14, %rdx
	callq	"end_objects::objects::ServerObjectServerMethod::first_into"
	xorps	%xmm0, %xmm0
	movaps	%xmm0, 16(%rsp)
	cmpb	$0, 28(%r15)
	je	.LBB264c5_58
	movzbl	29(%r15), %eax
	incb	%al
	jmp	.LBB264c5_59
.LBB264c5_56:
	movb	$11, 64(%rsp,%rax)
	incq	%rax
	movq	%rax, 72(%rsp)
	movzbl	80(%rsp), %edx
	movzbl	81(%rsp), %ecx
	movzbl	82(%rsp), %eax
.LBB264c5_57:
	movq	64(%rsp), %rsi
	movq	%rsi, 48(%rsp)
	movq	72(%rsp), %rsi
	jmp	.LBB264c5_103
.LBB264c5_58:
	movzbl	25(%r15), %eax
.LBB264c5_59:
	movq	32(%rsp), %rbp
	movb	$1, 28(%r15)
	movb	%al, 29(%r15)
	movb	$0, 33(%r15)
	leaq	56(%r15), %r13
	movq	1504(%r14), %r12
	movq	1560(%r15), %rdx
	testq	%rdx, %rdx
	je	.LBB264c5_61
	movq	%r13, %rdi
	xorl	%esi, %esi
	callq	memset@PLT
	movq	$0, 1560(%r15)
.LBB264c5_61:
	cmpq	$1500, %r12
	ja	.LBB264c5_83
	movq	%r13, %rax
	subq	%r14, %rax
	cmpq	%r12, %rax
	jae	.LBB264c5_65
	cmpq	$4, %r12
	jb	.LBB264c5_64
	movq	%r15, %rax
	subq	%r14, %rax
	addq	$56, %rax
	cmpq	$32, %rax
	jae	.LBB264c5_68
.LBB264c5_64:
	xorl	%eax, %eax
.LBB264c5_77:
	movq	%r12, %rdx
	movq	%rax, %rcx
	andq	$3, %rdx
	je	.LBB264c5_80
	movq	%rax, %rcx
	.p2align	4
.LBB264c5_79:
	movzbl	(%r14,%rcx), %esi
	movb	%sil, (%r13,%rcx)
	incq	%rcx
	decq	%rdx
	jne	.LBB264c5_79
.LBB264c5_80:
	subq	%r12, %rax
	cmpq	$-4, %rax
	ja	.LBB264c5_82
	.p2align	4
.LBB264c5_81:
	movzbl	(%r14,%rcx), %eax
	movb	%al, 56(%r15,%rcx)
	movzbl	1(%r14,%rcx), %eax
	movb	%al, 57(%r15,%rcx)
	movzbl	2(%r14,%rcx), %eax
	movb	%al, 58(%r15,%rcx)
	movzbl	3(%r14,%rcx), %eax
	movb	%al, 59(%r15,%rcx)
	addq	$4, %rcx
	cmpq	%rcx, %r12
	jne	.LBB264c5_81
	jmp	.LBB264c5_82
.LBB264c5_65:
	movq	%r13, %rdi
	movq	%r14, %rsi
	movq	%r12, %rdx
	callq	memmove@PLT
.LBB264c5_82:
	movq	%r12, 1560(%r15)
.LBB264c5_83:
	movb	$1, 30(%r15)
	movb	%bl, 31(%r15)
	movb	$0, 32(%r15)
	movq	48(%r15), %rax
	cmpq	$2, %rax
	je	.LBB264c5_85
	movb	%bl, 40(%r15,%rax)
	incq	%rax
	movq	%rax, 48(%r15)
.LBB264c5_85:
	xorps	%xmm0, %xmm0
	movaps	%xmm0, 640(%rsp)
	movl	12(%rsp), %r9d
	movzbl	%r9b, %eax
	shll	$3, %eax
	leaq	".Lswitch.table.server_machine::machine::SizedServer::propose::<#575f94f35bca5e04>.303"(%rip), %rcx
	movq	(%rax,%rcx), %rdx
	leaq	".Lswitch.table.server_machine::machine::SizedServer::propose::<#575f94f35bca5e04>.304"(%rip), %rcx
	movq	(%rax,%rcx), %rax
	movq	$65536, 80(%rsp)
	movaps	%xmm0, 352(%rsp)
	andq	$-2, %rdx
	xorl	%edi, %edi
	xorl	%ecx, %ecx
	jmp	.LBB264c5_87
	.p2align	4
.LBB264c5_86:
	addq	$2, %rcx
	movq	%rsi, %rdi
	cmpq	%rcx, %rdx
	je	.LBB264c5_91
.LBB264c5_87:
	movl	$8, %esi
	movl	$8, %r8d
	cmpq	$8, %rdi
	jne	.LBB264c5_89
	cmpq	$8, %r8
	je	.LBB264c5_86
	jmp	.LBB264c5_90
	.p2align	4
.LBB264c5_89:
	movzbl	(%rax,%rcx), %r8d
	movb	%r8b, 352(%rsp,%rdi)
	incq	%rdi
	movq	%rdi, 360(%rsp)
	movq	%rdi, %r8
	cmpq	$8, %r8
	je	.LBB264c5_86
.LBB264c5_90:
	movzbl	1(%rax,%rcx), %esi
	movb	%sil, 352(%rsp,%r8)
	incq	%r8
	movq	%r8, 360(%rsp)
	movq	%r8, %rsi
	jmp	.LBB264c5_86
.LBB264c5_91:
	addb	$-3, %r9b
	cmpb	$-2, %r9b
	jb	.LBB264c5_94
	cmpq	$8, %rsi
	je	.LBB264c5_94
	movzbl	(%rax,%rcx), %eax
	movb	%al, 352(%rsp,%rsi)
	incq	%rsi
	movq	%rsi, 360(%rsp)
.LBB264c5_94:
	movq	352(%rsp), %rax
	movq	%rax, 64(%rsp)
	movq	360(%rsp), %rax
	movq	%rax, 72(%rsp)
	movq	72(%rsp), %rax
	cmpq	$8, %rax
	jne	.LBB264c5_96
	movb	$1, %al
	xorl	%ecx, %ecx
	xorl	%edx, %edx
	jmp	.LBB264c5_101
.LBB264c5_96:
	movb	$13, 64(%rsp,%rax)
	leaq	1(%rax), %rcx
	movq	%rcx, 72(%rsp)
	cmpq	$8, %rcx
	je	.LBB264c5_100
	movb	$14, 65(%rsp,%rax)
	leaq	2(%rax), %rcx
	movq	%rcx, 72(%rsp)
	cmpq	$8, %rcx
	je	.LBB264c5_100
	movb	$15, 66(%rsp,%rax)
	leaq	3(%rax), %rcx
	movq	%rcx, 72(%rsp)
	cmpq	$8, %rcx
	je	.LBB264c5_100
	movb	$1, 67(%rsp,%rax)
	addq	$4, %rax
	movq	%rax, 72(%rsp)
.LBB264c5_100:
	movzbl	80(%rsp), %edx
	movzbl	81(%rsp), %ecx
	movzbl	82(%rsp), %eax
.LBB264c5_101:
	movaps	64(%rsp), %xmm0
	movaps	%xmm0, 16(%rsp)
.LBB264c5_102:
	movq	16(%rsp), %rsi
	movq	%rsi, 48(%rsp)
	movq	24(%rsp), %rsi
.LBB264c5_103:
	movq	%rsi, 56(%rsp)
	movq	48(%rsp), %rsi
	movq	%rsi, (%rbp)
	movq	56(%rsp), %rsi
	movq	%rsi, 8(%rbp)
	movb	%dl, 16(%rbp)
	movb	%cl, 17(%rbp)
	movb	%al, 18(%rbp)
	addq	$904, %rsp
	.cfi_def_cfa_offset 56
	popq	%rbx
	.cfi_def_cfa_offset 48
	popq	%r12
	.cfi_def_cfa_offset 40
	popq	%r13
	.cfi_def_cfa_offset 32
	popq	%r14
	.cfi_def_cfa_offset 24
	popq	%r15
	.cfi_def_cfa_offset 16
	popq	%rbp
	.cfi_def_cfa_offset 8
	retq
.LBB264c5_68:
	.cfi_def_cfa_offset 960
	cmpq	$32, %r12
	jae	.LBB264c5_70
	xorl	%eax, %eax
	jmp	.LBB264c5_74
.LBB264c5_70:
	movl	%r12d, %eax
	andl	$2016, %eax
	xorl	%ecx, %ecx
.LBB264c5_71:
	movups	(%r14,%rcx), %xmm0
	movups	16(%r14,%rcx), %xmm1
	movups	%xmm0, 56(%r15,%rcx)
	movups	%xmm1, 72(%r15,%rcx)
	addq	$32, %rcx
	cmpq	%rcx, %rax
	jne	.LBB264c5_71
	cmpq	%rax, %r12
	je	.LBB264c5_82
	testb	$28, %r12b
	je	.LBB264c5_77
.LBB264c5_74:
	movq	%rax, %rcx
	movl	%r12d, %eax
	andl	$2044, %eax
	.p2align	4
.LBB264c5_75:
	movl	(%r14,%rcx), %edx
	movl	%edx, (%r13,%rcx)
	addq	$4, %rcx
	cmpq	%rcx, %rax
	jne	.LBB264c5_75
	cmpq	%rax, %r12
	je	.LBB264c5_82
	jmp	.LBB264c5_77
.Lfunc_end264c5:
	.size	"server_machine::machine::SizedServer::propose::<#575f94f35bca5e04>", .Lfunc_end264c5-"server_machine::machine::SizedServer::propose::<#575f94f35bca5e04>"
	.cfi_endproc

	.section	".text.end_objects::objects::ServerObjectServerMethod::first_into","ax",@progbits
	.p2align	4
	.type	"end_objects::objects::ServerObjectServerMethod::first_into",@function
"end_objects::objects::ServerObjectServerMethod::first_into":
	.cfi_startproc
	pushq	%r14
	.cfi_def_cfa_offset 16
	pushq	%rbx
	.cfi_def_cfa_offset 24
	subq	$232, %rsp
	.cfi_def_cfa_offset 256
	.cfi_offset %rbx, -24
	.cfi_offset %r14, -16
	leaq	8(%rdi), %rax
	cmpb	$0, (%rdi)
	je	.LBBe3a2c_1
	cmpb	$1, 320(%rdi)
	jne	.LBBe3a2c_15
	cmpb	$0, 321(%rdi)
	jne	.LBBe3a2c_15
	xorps	%xmm0, %xmm0
	movaps	%xmm0, 208(%rsp)
	movaps	%xmm0, 192(%rsp)
	movaps	%xmm0, 176(%rsp)
	movaps	%xmm0, 160(%rsp)
	movaps	%xmm0, 144(%rsp)
	movaps	%xmm0, 128(%rsp)
	movaps	%xmm0, 112(%rsp)
	movaps	%xmm0, 96(%rsp)
	movaps	%xmm0, 80(%rsp)
	movaps	%xmm0, 64(%rsp)
	movaps	%xmm0, 32(%rsp)
	movq	$0, 48(%rsp)
	movq	280(%rdi), %rcx
	testq	%rcx, %rcx
	je	.LBBe3a2c_14
	xorl	%r8d, %r8d
	xorl	%r9d, %r9d
	jmp	.LBBe3a2c_8
	.p2align	4
.LBBe3a2c_11:
	movzwl	4(%rsp), %r10d
	movw	%r10w, 4(%r11)
	movl	(%rsp), %r10d
	movl	%r10d, (%r11)
.LBBe3a2c_12:
	addq	$6, %r8
	movq	%r8, 48(%rsp)
.LBBe3a2c_13:
	incq	%r9
	cmpq	%r9, %rcx
	je	.LBBe3a2c_14
.LBBe3a2c_8:
	movzbl	272(%rdi,%r9), %r10d
	movb	$0, 4(%rsp)
	movl	$0, (%rsp)
	movb	%r10b, 5(%rsp)
	leaq	-13(%r8), %r11
	cmpq	$-7, %r11
	ja	.LBBe3a2c_13
	leaq	(%rsp,%r8), %r11
	addq	$32, %r11
	movq	%rsp, %rbx
	movq	%r11, %r14
	subq	%rbx, %r14
	cmpq	$5, %r14
	ja	.LBBe3a2c_11
	movb	$0, 4(%r11)
	movl	$0, (%r11)
	movb	%r10b, 5(%r11)
	jmp	.LBBe3a2c_12
.LBBe3a2c_1:
	cmpb	$1, (%rax)
	jne	.LBBe3a2c_15
	cmpb	$0, 328(%rdi)
	je	.LBBe3a2c_3
.LBBe3a2c_15:
	movq	1504(%rdx), %rax
	testq	%rax, %rax
	je	.LBBe3a2c_17
	movq	%rdx, %rdi
	xorl	%esi, %esi
	movq	%rdx, %rbx
	movq	%rax, %rdx
	callq	memset@PLT
	movq	$0, 1504(%rbx)
.LBBe3a2c_17:
	addq	$232, %rsp
	.cfi_def_cfa_offset 24
	popq	%rbx
	.cfi_def_cfa_offset 16
	popq	%r14
	.cfi_def_cfa_offset 8
	retq
.LBBe3a2c_14:
	.cfi_def_cfa_offset 256
	movaps	32(%rsp), %xmm0
	movaps	%xmm0, (%rsp)
	movq	48(%rsp), %rcx
	movq	%rcx, 16(%rsp)
	movq	264(%rdi), %r8
	movl	$0, 64(%rsp)
	movq	%rax, 72(%rsp)
	movq	%r8, 80(%rsp)
	movups	288(%rdi), %xmm0
	movups	304(%rdi), %xmm1
	movups	%xmm1, 104(%rsp)
	movups	%xmm0, 88(%rsp)
	movq	%rsp, %rax
	movq	%rax, 120(%rsp)
	movq	%rcx, 128(%rsp)
	movzbl	%sil, %ecx
	leaq	64(%rsp), %rsi
	movq	%rdi, %rbx
	movq	%rdx, %rdi
	xorl	%edx, %edx
	callq	"gpsk_messages::writing::write_gpsk_into"
	movb	$1, 321(%rbx)
	addq	$232, %rsp
	.cfi_def_cfa_offset 24
	popq	%rbx
	.cfi_def_cfa_offset 16
	popq	%r14
	.cfi_def_cfa_offset 8
	retq
.LBBe3a2c_3:
	.cfi_def_cfa_offset 256
	leaq	16(%rdi), %rax
	xorps	%xmm0, %xmm0
	movaps	%xmm0, 112(%rsp)
	movaps	%xmm0, 96(%rsp)
	movaps	%xmm0, 80(%rsp)
	movaps	%xmm0, 64(%rsp)
	movq	$0, 128(%rsp)
	movups	296(%rdi), %xmm0
	movups	%xmm0, 72(%rsp)
	movq	272(%rdi), %rcx
	movq	%rax, 88(%rsp)
	movq	%rcx, 96(%rsp)
	movzbl	%sil, %ecx
	leaq	64(%rsp), %rsi
	movq	%rdi, %rbx
	movq	%rdx, %rdi
	xorl	%edx, %edx
	callq	"psk_messages::writing::write_psk_into"
	movb	$1, 328(%rbx)
	addq	$232, %rsp
	.cfi_def_cfa_offset 24
	popq	%rbx
	.cfi_def_cfa_offset 16
	popq	%r14
	.cfi_def_cfa_offset 8
	retq
.Lfunc_ende3a2c:
	.size	"end_objects::objects::ServerObjectServerMethod::first_into", .Lfunc_ende3a2c-"end_objects::objects::ServerObjectServerMethod::first_into"
	.cfi_endproc

	.section	".text.eap_method::server_objects::call_server_method::<#80187fcbb1ba111c>","ax",@progbits
	.p2align	4
	.type	"eap_method::server_objects::call_server_method::<#80187fcbb1ba111c>",@function
"eap_method::server_objects::call_server_method::<#80187fcbb1ba111c>":
	.cfi_startproc
	pushq	%rbp
	.cfi_def_cfa_offset 16
	pushq	%r14
	.cfi_def_cfa_offset 24
	pushq	%rbx
	.cfi_def_cfa_offset 32
	subq	$32, %rsp
	.cfi_def_cfa_offset 64
	.cfi_offset %rbx, -32
	.cfi_offset %r14, -24
	.cfi_offset %rbp, -16
	movq	88(%rsp), %r11
	testq	%rsi, %rsi
	je	.LBBaced1_1
	movq	80(%rsp), %rbx
	movq	72(%rsp), %rax
	movq	64(%rsp), %r10
	movzbl	(%rdi), %ebp
	testb	%bpl, %bpl
	setne	%r14b
	shlb	$2, %r14b
	addb	$47, %r14b
	cmpb	%dl, %r14b
	jne	.LBBaced1_6
	addq	$8, %rdi
	testb	%bpl, %bpl
	je	.LBBaced1_4
	movq	%r11, 8(%rsp)
	movq	%rbx, (%rsp)
	movzbl	%r9b, %r9d
	movq	%rcx, %rsi
	movq	%r8, %rdx
	movl	%r9d, %ecx
	movq	%r10, %r8
	movq	%rax, %r9
	callq	"gpsk_ends::server::GpskServer::handle_step::<#e0641de541981142>"
	jmp	.LBBaced1_7
.LBBaced1_1:
	xorps	%xmm0, %xmm0
	movups	%xmm0, (%r11)
	movb	$22, %dl
	xorl	%eax, %eax
	jmp	.LBBaced1_8
.LBBaced1_6:
	decq	%rsi
	addq	$1256, %rdi
	movq	%r11, 24(%rsp)
	movq	%rbx, 16(%rsp)
	movq	%rax, 8(%rsp)
	movq	%r10, (%rsp)
	movzbl	%dl, %edx
	movzbl	%r9b, %r9d
	callq	"eap_method::server_objects::call_server_method::<#80187fcbb1ba111c>"
	jmp	.LBBaced1_7
.LBBaced1_4:
	movq	%r11, 8(%rsp)
	movq	%rbx, (%rsp)
	movzbl	%r9b, %r9d
	movq	%rcx, %rsi
	movq	%r8, %rdx
	movl	%r9d, %ecx
	movq	%r10, %r8
	movq	%rax, %r9
	callq	"psk_ends::server::PskServer::handle_step::<#becd8de5e2060522>"
.LBBaced1_7:
.LBBaced1_8:
	addq	$32, %rsp
	.cfi_def_cfa_offset 32
	popq	%rbx
	.cfi_def_cfa_offset 24
	popq	%r14
	.cfi_def_cfa_offset 16
	popq	%rbp
	.cfi_def_cfa_offset 8
	retq
.Lfunc_endaced1:
	.size	"eap_method::server_objects::call_server_method::<#80187fcbb1ba111c>", .Lfunc_endaced1-"eap_method::server_objects::call_server_method::<#80187fcbb1ba111c>"
	.cfi_endproc

	.section	".text.psk_ends::server::PskServer::handle_step::<#becd8de5e2060522>","ax",@progbits
	.p2align	4
	.type	"psk_ends::server::PskServer::handle_step::<#becd8de5e2060522>",@function
"psk_ends::server::PskServer::handle_step::<#becd8de5e2060522>":
	.cfi_startproc
	pushq	%rbp
	.cfi_def_cfa_offset 16
	pushq	%r15
	.cfi_def_cfa_offset 24
	pushq	%r14
	.cfi_def_cfa_offset 32
	pushq	%r13
	.cfi_def_cfa_offset 40
	pushq	%r12
	.cfi_def_cfa_offset 48
	pushq	%rbx
	.cfi_def_cfa_offset 56
	subq	$840, %rsp
	.cfi_def_cfa_offset 896
	.cfi_offset %rbx, -56
	.cfi_offset %r12, -48
	.cfi_offset %r13, -40
	.cfi_offset %r14, -32
	.cfi_offset %r15, -24
	.cfi_offset %rbp, -16
	movq	%r9, %r13
	movq	%r8, %rbx
	movl	%ecx, %ebp
	movq	%rdx, %r12
	movq	%rsi, %r15
	movq	%rdi, %r14
	leaq	176(%rsp), %rdi
	movl	$312, %edx
	xorl	%esi, %esi
	callq	memset@PLT
	movzbl	(%r14), %eax
	testl	%eax, %eax
	je	.LBB738a9_5
	cmpl	$2, %eax
	jne	.LBB738a9_6
	cmpb	$0, 1240(%r14)
	jne	.LBB738a9_8
	xorps	%xmm0, %xmm0
	movaps	%xmm0, 64(%rsp)
	movaps	%xmm0, 48(%rsp)
	movaps	%xmm0, 32(%rsp)
	movaps	%xmm0, 16(%rsp)
	movaps	%xmm0, (%rsp)
	leaq	5(%r15), %rsi
	leaq	-5(%r12), %rdx
	movq	%rsp, %rdi
	callq	"psk_messages::reading::read_psk_message"
	movzbl	(%rsp), %ecx
	movzbl	1(%rsp), %edx
	movzbl	8(%rsp), %eax
	movups	12(%rsp), %xmm0
	movaps	%xmm0, 96(%rsp)
	movups	28(%rsp), %xmm0
	movaps	%xmm0, 112(%rsp)
	movups	44(%rsp), %xmm0
	movaps	%xmm0, 128(%rsp)
	movups	60(%rsp), %xmm0
	movaps	%xmm0, 144(%rsp)
	movl	76(%rsp), %esi
	movl	%esi, 160(%rsp)
	cmpb	$1, %cl
	jne	.LBB738a9_14
.LBB738a9_28:
	xorl	%eax, %eax
	cmpb	$2, %al
	jne	.LBB738a9_29
	jmp	.LBB738a9_32
.LBB738a9_5:
	movb	$22, %dl
	jmp	.LBB738a9_9
.LBB738a9_6:
	movzbl	320(%r14), %eax
	testl	%eax, %eax
	je	.LBB738a9_8
	cmpl	$2, %eax
	jne	.LBB738a9_12
.LBB738a9_8:
	xorps	%xmm0, %xmm0
	movaps	%xmm0, 64(%rsp)
	movaps	%xmm0, 48(%rsp)
	movaps	%xmm0, 32(%rsp)
	movaps	%xmm0, 16(%rsp)
	movaps	%xmm0, (%rsp)
	addq	$5, %r15
	addq	$-5, %r12
	movq	%rsp, %rdi
	movq	%r15, %rsi
	movq	%r12, %rdx
	callq	"psk_messages::reading::read_psk_message"
	cmpb	$1, (%rsp)
	movzbl	1(%rsp), %eax
	movl	$22, %edx
	cmovel	%eax, %edx
.LBB738a9_9:
	xorl	%eax, %eax
.LBB738a9_10:
	xorps	%xmm0, %xmm0
	movq	904(%rsp), %rcx
	movups	%xmm0, (%rcx)
.LBB738a9_11:
	addq	$840, %rsp
	.cfi_def_cfa_offset 56
	popq	%rbx
	.cfi_def_cfa_offset 48
	popq	%r12
	.cfi_def_cfa_offset 40
	popq	%r13
	.cfi_def_cfa_offset 32
	popq	%r14
	.cfi_def_cfa_offset 24
	popq	%r15
	.cfi_def_cfa_offset 16
	popq	%rbp
	.cfi_def_cfa_offset 8
	retq
.LBB738a9_12:
	.cfi_def_cfa_offset 896
	leaq	8(%r14), %rsi
	leaq	176(%rsp), %rdi
	movq	%r15, %rdx
	movq	%r12, %rcx
	movq	%rbx, %r8
	movq	%r13, %r9
	callq	"psk_ends::server::psk3::asked_reads"
	cmpb	$1, 176(%rsp)
	jne	.LBB738a9_22
	movzbl	177(%rsp), %edx
	jmp	.LBB738a9_9
.LBB738a9_14:
	cmpb	$3, %al
	jne	.LBB738a9_24
	movq	128(%rsp), %rax
	movq	%rax, 32(%rsp)
	movaps	96(%rsp), %xmm0
	movaps	112(%rsp), %xmm1
	movaps	%xmm1, 16(%rsp)
	movaps	%xmm0, (%rsp)
	cmpq	$22, %r12
	movl	$22, %ebx
	cmovbq	%r12, %rbx
	movups	288(%r14), %xmm0
	movaps	%xmm0, 80(%rsp)
	movl	(%rsp), %eax
	movb	$25, %dl
	cmpl	80(%rsp), %eax
	jne	.LBB738a9_28
	movq	%rsp, %rdi
	leaq	80(%rsp), %rdx
	movl	$16, %esi
	callq	"core::cmp::slices::groups_equal::<i8,31'core::cmp::numbers::U8PartialEq{}>"
	movb	$25, %dl
	testb	%al, %al
	je	.LBB738a9_28
	movb	$27, %dl
	cmpl	$1, 16(%rsp)
	jne	.LBB738a9_28
	leaq	16(%rsp), %rcx
	leaq	1025(%r14), %rdi
	movq	%r15, %rsi
	movq	%rbx, %rdx
	callq	"psk_ends::channel::open"
	testb	%al, %al
	je	.LBB738a9_26
	movl	%edx, %eax
	shrb	$6, %al
	je	.LBB738a9_27
	movl	%edx, %ecx
	andb	$32, %cl
	shrb	$5, %cl
	cmpb	$1, %al
	sete	%al
	orb	%cl, %al
	je	.LBB738a9_31
	movb	$30, %dl
	xorl	%eax, %eax
	cmpb	$2, %al
	jne	.LBB738a9_29
	jmp	.LBB738a9_32
.LBB738a9_22:
	cmpb	$0, 184(%rsp)
	je	.LBB738a9_25
	leaq	192(%rsp), %rbx
	leaq	488(%rsp), %r15
	movq	%r15, %rdi
	movq	%rbx, %rsi
	callq	"psk_ends::server::login::UserPsk2::keys"
	movzbl	%bpl, %ecx
	movq	%r14, %rdi
	movq	%rbx, %rsi
	movq	%r15, %rdx
	movq	896(%rsp), %r8
	movq	904(%rsp), %r9
	callq	"psk_ends::server::turns::log_in::<#becd8de5e2060522>"
	cmpb	$2, %al
	jne	.LBB738a9_29
	jmp	.LBB738a9_32
.LBB738a9_24:
	movb	$22, %dl
	xorl	%eax, %eax
	cmpb	$2, %al
	je	.LBB738a9_32
.LBB738a9_29:
	movzbl	%al, %ecx
	cmpl	$1, %ecx
	jne	.LBB738a9_10
	xorl	%edx, %edx
	jmp	.LBB738a9_11
.LBB738a9_25:
	xorps	%xmm0, %xmm0
	movq	904(%rsp), %rax
	movups	%xmm0, (%rax)
	movb	$2, 320(%r14)
	movb	$2, %al
	xorl	%edx, %edx
.LBB738a9_32:
	andb	$1, %dl
	jmp	.LBB738a9_11
.LBB738a9_26:
	movb	$28, %dl
	xorl	%eax, %eax
	cmpb	$2, %al
	jne	.LBB738a9_29
	jmp	.LBB738a9_32
.LBB738a9_27:
	movb	$29, %dl
	jmp	.LBB738a9_28
.LBB738a9_31:
	movq	904(%rsp), %rax
	movq	$0, 8(%rax)
	movq	$1, (%rax)
	cmpb	$2, 672(%r14)
	sete	%al
	cmpb	$-64, %dl
	setl	%dl
	andb	%al, %dl
	movb	$1, 1240(%r14)
	movb	%dl, 1241(%r14)
	movb	$2, %al
	cmpb	$2, %al
	jne	.LBB738a9_29
	jmp	.LBB738a9_32
.Lfunc_end738a9:
	.size	"psk_ends::server::PskServer::handle_step::<#becd8de5e2060522>", .Lfunc_end738a9-"psk_ends::server::PskServer::handle_step::<#becd8de5e2060522>"
	.cfi_endproc

	.section	".text.psk_ends::server::psk3::asked_reads","ax",@progbits
	.p2align	4
	.type	"psk_ends::server::psk3::asked_reads",@function
"psk_ends::server::psk3::asked_reads":
	.cfi_startproc
	pushq	%rbp
	.cfi_def_cfa_offset 16
	pushq	%r15
	.cfi_def_cfa_offset 24
	pushq	%r14
	.cfi_def_cfa_offset 32
	pushq	%r13
	.cfi_def_cfa_offset 40
	pushq	%r12
	.cfi_def_cfa_offset 48
	pushq	%rbx
	.cfi_def_cfa_offset 56
	subq	$1368, %rsp
	.cfi_def_cfa_offset 1424
	.cfi_offset %rbx, -56
	.cfi_offset %r12, -48
	.cfi_offset %r13, -40
	.cfi_offset %r14, -32
	.cfi_offset %r15, -24
	.cfi_offset %rbp, -16
	movq	%r9, %r13
	movq	%r8, 8(%rsp)
	movq	%rcx, %rbp
	movq	%rdx, %r12
	movq	%rsi, %r15
	movq	%rdi, %rbx
	leaq	1080(%rsp), %rdi
	xorl	%r14d, %r14d
	movl	$288, %edx
	xorl	%esi, %esi
	callq	memset@PLT
	leaq	792(%rsp), %rdi
	movl	$288, %edx
	xorl	%esi, %esi
	callq	memset@PLT
	xorps	%xmm0, %xmm0
	movaps	%xmm0, 320(%rsp)
	movaps	%xmm0, 304(%rsp)
	movaps	%xmm0, 288(%rsp)
	movaps	%xmm0, 272(%rsp)
	movaps	%xmm0, 256(%rsp)
	addq	$5, %r12
	addq	$-5, %rbp
	leaq	256(%rsp), %rdi
	movq	%r12, %rsi
	movq	%rbp, %rdx
	callq	"psk_messages::reading::read_psk_message"
	movzbl	256(%rsp), %ecx
	movzbl	257(%rsp), %ebp
	movzbl	264(%rsp), %eax
	movups	268(%rsp), %xmm0
	movaps	%xmm0, 144(%rsp)
	movups	284(%rsp), %xmm0
	movaps	%xmm0, 160(%rsp)
	movups	300(%rsp), %xmm0
	movaps	%xmm0, 176(%rsp)
	movups	316(%rsp), %xmm0
	movaps	%xmm0, 192(%rsp)
	movl	332(%rsp), %edx
	movl	%edx, 208(%rsp)
	movb	$1, %r12b
	cmpb	$1, %cl
	jne	.LBB4e079_2
	xorl	%r13d, %r13d
	jmp	.LBB4e079_15
.LBB4e079_2:
	cmpb	$1, %al
	jne	.LBB4e079_8
	movq	%r13, (%rsp)
	movups	148(%rsp), %xmm0
	movups	164(%rsp), %xmm1
	movups	180(%rsp), %xmm2
	movups	196(%rsp), %xmm3
	movaps	%xmm3, 64(%rsp)
	movaps	%xmm2, 48(%rsp)
	movaps	%xmm1, 32(%rsp)
	movaps	%xmm0, 16(%rsp)
	movups	280(%r15), %xmm0
	movaps	%xmm0, 80(%rsp)
	movl	16(%rsp), %eax
	movb	$25, %bpl
	movb	$1, %r12b
	xorl	%r13d, %r13d
	cmpl	80(%rsp), %eax
	jne	.LBB4e079_9
	leaq	16(%rsp), %rdi
	leaq	80(%rsp), %rdx
	movl	$16, %esi
	callq	"core::cmp::slices::groups_equal::<i8,31'core::cmp::numbers::U8PartialEq{}>"
	xorl	%r13d, %r13d
	movl	$0, %r14d
	testb	%al, %al
	je	.LBB4e079_14
	leaq	256(%rsp), %rdi
	xorl	%r12d, %r12d
	movl	$288, %edx
	xorl	%esi, %esi
	callq	memset@PLT
	movq	64(%rsp), %rbp
	movq	72(%rsp), %r13
	movq	8(%rsp), %rdi
	movq	(%rsp), %rsi
	movq	%rbp, %rdx
	movq	%r13, %rcx
	movl	$47, %r8d
	callq	"login_setup::users::find_user"
	testb	%al, %al
	je	.LBB4e079_10
	movq	%rdx, %r14
	leaq	272(%rdx), %rsi
	leaq	552(%rsp), %r12
	movq	%r12, %rdi
	callq	"psk_ends::keys::long_keys"
	leaq	584(%rsp), %rdi
	movq	%r12, %rsi
	callq	"cmac_mac::key::CmacKey::new"
	movq	256(%r15), %rax
	leaq	280(%r15), %rcx
	movups	(%rcx), %xmm0
	movaps	%xmm0, 224(%rsp)
	leaq	32(%rsp), %rcx
	xorps	%xmm0, %xmm0
	movaps	%xmm0, 240(%rsp)
	movq	%r15, 96(%rsp)
	movq	%rax, 104(%rsp)
	leaq	224(%rsp), %rax
	movq	%rax, 112(%rsp)
	movq	$16, 120(%rsp)
	movq	%rcx, 128(%rsp)
	movq	$16, 136(%rsp)
	leaq	240(%rsp), %r15
	leaq	96(%rsp), %r8
	movl	$3, %r9d
	movq	%r15, %rdi
	leaq	584(%rsp), %rsi
	movq	%rbp, %rdx
	movq	%r13, %rcx
	callq	"cmac_mac::key::CmacKey::tag"
	leaq	48(%rsp), %rdx
	movl	$16, %esi
	movl	$16, %ecx
	movq	%r15, %rdi
	callq	"octet_lists::comparison::equal_in_full"
	testb	%al, %al
	je	.LBB4e079_11
	movaps	16(%rsp), %xmm0
	movaps	32(%rsp), %xmm1
	movaps	48(%rsp), %xmm2
	movaps	64(%rsp), %xmm3
	movaps	%xmm3, 304(%rsp)
	movaps	%xmm2, 288(%rsp)
	movaps	%xmm1, 272(%rsp)
	movaps	%xmm0, 256(%rsp)
	leaq	320(%rsp), %rdi
	leaq	584(%rsp), %rsi
	movl	$208, %edx
	callq	memcpy@PLT
	movups	568(%rsp), %xmm0
	movaps	%xmm0, 528(%rsp)
	movl	$1, %r13d
	xorl	%r12d, %r12d
	xorl	%ebp, %ebp
	jmp	.LBB4e079_13
.LBB4e079_8:
	movb	$22, %bpl
	xorl	%r14d, %r14d
	xorl	%r13d, %r13d
	jmp	.LBB4e079_15
.LBB4e079_9:
	xorl	%r14d, %r14d
	jmp	.LBB4e079_14
.LBB4e079_10:
	xorl	%ebp, %ebp
	xorl	%r13d, %r13d
	jmp	.LBB4e079_12
.LBB4e079_11:
	leaq	256(%rsp), %rdi
	xorl	%r13d, %r13d
	movl	$288, %edx
	xorl	%esi, %esi
	callq	memset@PLT
	movb	$28, %bpl
	movb	$1, %r12b
.LBB4e079_12:
	xorl	%r14d, %r14d
.LBB4e079_13:
	leaq	792(%rsp), %rdi
	leaq	256(%rsp), %rsi
	movl	$288, %edx
	callq	memcpy@PLT
.LBB4e079_14:
	leaq	1080(%rsp), %rdi
	leaq	792(%rsp), %rsi
	movl	$288, %edx
	callq	memcpy@PLT
.LBB4e079_15:
	movb	%r12b, (%rbx)
	movb	%bpl, 1(%rbx)
	movq	%r13, 8(%rbx)
	movq	%r14, 16(%rbx)
	addq	$24, %rbx
	leaq	1080(%rsp), %rsi
	movl	$288, %edx
	movq	%rbx, %rdi
	callq	memcpy@PLT
	addq	$1368, %rsp
	.cfi_def_cfa_offset 56
	popq	%rbx
	.cfi_def_cfa_offset 48
	popq	%r12
	.cfi_def_cfa_offset 40
	popq	%r13
	.cfi_def_cfa_offset 32
	popq	%r14
	.cfi_def_cfa_offset 24
	popq	%r15
	.cfi_def_cfa_offset 16
	popq	%rbp
	.cfi_def_cfa_offset 8
	retq
.Lfunc_end4e079:
	.size	"psk_ends::server::psk3::asked_reads", .Lfunc_end4e079-"psk_ends::server::psk3::asked_reads"
	.cfi_endproc

	.section	".text.psk_ends::server::login::UserPsk2::keys","ax",@progbits
	.p2align	4
	.type	"psk_ends::server::login::UserPsk2::keys",@function
"psk_ends::server::login::UserPsk2::keys":
	.cfi_startproc
	pushq	%r15
	.cfi_def_cfa_offset 16
	pushq	%r14
	.cfi_def_cfa_offset 24
	pushq	%r12
	.cfi_def_cfa_offset 32
	pushq	%rbx
	.cfi_def_cfa_offset 40
	subq	$712, %rsp
	.cfi_def_cfa_offset 752
	.cfi_offset %rbx, -40
	.cfi_offset %r12, -32
	.cfi_offset %r14, -24
	.cfi_offset %r15, -16
	movq	%rdi, %rbx
	leaq	280(%rsi), %rax
	leaq	24(%rsi), %rdx
	leaq	8(%rsp), %r14
	movq	%r14, %rdi
	movq	%rax, %rsi
	callq	"login_keys::psk::psk_session"
	leaq	504(%rsp), %r15
	movq	%r15, %rdi
	movq	%r14, %rsi
	callq	"cmac_mac::key::CmacKey::new"
	leaq	152(%rsp), %r12
	movl	$144, %edx
	movq	%r12, %rdi
	movq	%r14, %rsi
	callq	memcpy@PLT
	leaq	296(%rsp), %rdi
	movl	$208, %edx
	movq	%r15, %rsi
	callq	memcpy@PLT
	movl	$352, %edx
	movq	%rbx, %rdi
	movq	%r12, %rsi
	callq	memcpy@PLT
	addq	$712, %rsp
	.cfi_def_cfa_offset 40
	popq	%rbx
	.cfi_def_cfa_offset 32
	popq	%r12
	.cfi_def_cfa_offset 24
	popq	%r14
	.cfi_def_cfa_offset 16
	popq	%r15
	.cfi_def_cfa_offset 8
	retq
.Lfunc_endde552:
	.size	"psk_ends::server::login::UserPsk2::keys", .Lfunc_endde552-"psk_ends::server::login::UserPsk2::keys"
	.cfi_endproc

	.section	".text.psk_ends::server::turns::log_in::<#becd8de5e2060522>","ax",@progbits
	.p2align	4
	.type	"psk_ends::server::turns::log_in::<#becd8de5e2060522>",@function
"psk_ends::server::turns::log_in::<#becd8de5e2060522>":
	.cfi_startproc
	pushq	%rbp
	.cfi_def_cfa_offset 16
	pushq	%r15
	.cfi_def_cfa_offset 24
	pushq	%r14
	.cfi_def_cfa_offset 32
	pushq	%r13
	.cfi_def_cfa_offset 40
	pushq	%r12
	.cfi_def_cfa_offset 48
	pushq	%rbx
	.cfi_def_cfa_offset 56
	subq	$1624, %rsp
	.cfi_def_cfa_offset 1680
	.cfi_offset %rbx, -56
	.cfi_offset %r12, -48
	.cfi_offset %r13, -40
	.cfi_offset %r14, -32
	.cfi_offset %r15, -24
	.cfi_offset %rbp, -16
	movq	%r9, %r15
	movq	%r8, %rbx
	movl	%ecx, %ebp
	movq	%rdx, %rax
	movq	%rsi, %r13
	movq	%rdi, %r14
	leaq	664(%rsp), %rdi
	movl	$352, %edx
	movq	%rax, %rsi
	callq	memcpy@PLT
	movb	$22, %dl
	cmpb	$1, (%r14)
	jne	.LBB9b85f_11
	cmpb	$1, 320(%r14)
	jne	.LBB9b85f_11
	movq	264(%r14), %r12
	leaq	72(%rsp), %rdi
	movl	$264, %edx
	xorl	%esi, %esi
	callq	memset@PLT
	cmpq	$253, %r12
	ja	.LBB9b85f_4
	leaq	72(%rsp), %rdi
	leaq	8(%r14), %rsi
	movq	%r12, %rdx
	callq	memcpy@PLT
	movq	%r12, 328(%rsp)
.LBB9b85f_4:
	movq	%rbx, 8(%rsp)
	movq	280(%r14), %r12
	xorps	%xmm0, %xmm0
	movaps	%xmm0, 32(%rsp)
	cmpq	$2, %r12
	ja	.LBB9b85f_6
	leaq	272(%r14), %rsi
	leaq	32(%rsp), %rdi
	movq	%r12, %rdx
	callq	memcpy@PLT
	movq	%r12, 40(%rsp)
.LBB9b85f_6:
	leaq	384(%rsp), %r12
	leaq	72(%rsp), %rsi
	movl	$264, %edx
	movq	%r12, %rdi
	callq	memcpy@PLT
	movaps	32(%rsp), %xmm0
	movups	%xmm0, 648(%rsp)
	leaq	72(%rsp), %rbx
	movl	$280, %edx
	movq	%rbx, %rdi
	movq	%r12, %rsi
	callq	memcpy@PLT
	movups	288(%r14), %xmm0
	movups	304(%r14), %xmm1
	movups	%xmm0, 352(%rsp)
	movups	%xmm1, 368(%rsp)
	leaq	1312(%rsp), %r12
	movl	$312, %edx
	movq	%r12, %rdi
	movq	%rbx, %rsi
	callq	memcpy@PLT
	leaq	1016(%rsp), %rbx
	movl	$296, %edx
	movq	%rbx, %rdi
	movq	%r13, %rsi
	callq	memcpy@PLT
	leaq	664(%rsp), %rcx
	movq	%r14, %rdi
	movq	%r12, %rsi
	movq	%rbx, %rdx
	callq	"psk_ends::server::turns::settle"
	cmpb	$2, (%r14)
	jne	.LBB9b85f_12
	leaq	288(%r14), %rbx
	leaq	8(%r15), %r13
	movq	$0, 8(%r15)
	movq	$1, (%r15)
	leaq	673(%r14), %rsi
	movq	264(%r14), %rcx
	leaq	656(%r14), %rax
	xorps	%xmm0, %xmm0
	movaps	%xmm0, 16(%rsp)
	movq	%rax, 72(%rsp)
	movq	$16, 80(%rsp)
	leaq	16(%rsp), %rdi
	leaq	72(%rsp), %r8
	movl	$1, %r9d
	leaq	8(%r14), %rdx
	callq	"cmac_mac::key::CmacKey::tag"
	xorps	%xmm2, %xmm2
	movups	%xmm2, 128(%rsp)
	movups	(%rbx), %xmm0
	movaps	%xmm0, 32(%rsp)
	movaps	16(%rsp), %xmm1
	movaps	%xmm1, 48(%rsp)
	movups	%xmm2, 112(%rsp)
	movl	$2, 72(%rsp)
	movups	%xmm0, 76(%rsp)
	movups	%xmm1, 92(%rsp)
	movl	$0, 108(%rsp)
	movzbl	%bpl, %ecx
	leaq	72(%rsp), %rsi
	movq	8(%rsp), %rbx
	movq	%rbx, %rdi
	xorl	%edx, %edx
	callq	"psk_messages::writing::write_psk_into"
	movq	8(%r15), %rax
	cmpq	$1, %rax
	ja	.LBB9b85f_9
	incq	%rax
	movq	%rax, (%r13)
.LBB9b85f_9:
	movzbl	672(%r14), %ecx
	addq	$1025, %r14
	movq	%rbx, %rdi
	movq	%r14, %rsi
	xorl	%edx, %edx
	movq	%r13, %r8
	callq	"psk_ends::channel::seal_in::<#becd8de5e2060522>"
	xorl	%edx, %edx
	movb	$1, %al
	jmp	.LBB9b85f_13
.LBB9b85f_11:
	xorl	%eax, %eax
.LBB9b85f_13:
	addq	$1624, %rsp
	.cfi_def_cfa_offset 56
	popq	%rbx
	.cfi_def_cfa_offset 48
	popq	%r12
	.cfi_def_cfa_offset 40
	popq	%r13
	.cfi_def_cfa_offset 32
	popq	%r14
	.cfi_def_cfa_offset 24
	popq	%r15
	.cfi_def_cfa_offset 16
	popq	%rbp
	.cfi_def_cfa_offset 8
	retq
.LBB9b85f_12:
	.cfi_def_cfa_offset 1680
	xorl	%eax, %eax
	movb	$22, %dl
	jmp	.LBB9b85f_13
.Lfunc_end9b85f:
	.size	"psk_ends::server::turns::log_in::<#becd8de5e2060522>", .Lfunc_end9b85f-"psk_ends::server::turns::log_in::<#becd8de5e2060522>"
	.cfi_endproc

	.section	".text.psk_ends::server::turns::settle","ax",@progbits
	.p2align	4
	.type	"psk_ends::server::turns::settle",@function
"psk_ends::server::turns::settle":
	.cfi_startproc
	pushq	%rbp
	.cfi_def_cfa_offset 16
	pushq	%r15
	.cfi_def_cfa_offset 24
	pushq	%r14
	.cfi_def_cfa_offset 32
	pushq	%r13
	.cfi_def_cfa_offset 40
	pushq	%r12
	.cfi_def_cfa_offset 48
	pushq	%rbx
	.cfi_def_cfa_offset 56
	subq	$1816, %rsp
	.cfi_def_cfa_offset 1872
	.cfi_offset %rbx, -56
	.cfi_offset %r12, -48
	.cfi_offset %r13, -40
	.cfi_offset %r14, -32
	.cfi_offset %r15, -24
	.cfi_offset %rbp, -16
	movq	%rcx, 8(%rsp)
	movq	%rdx, %r15
	movq	%rsi, (%rsp)
	movq	%rdi, %rbx
	movq	(%rdx), %r12
	movq	56(%rdx), %r13
	movq	64(%rdx), %r14
	leaq	224(%rsp), %rdi
	movl	$264, %edx
	xorl	%esi, %esi
	callq	memset@PLT
	cmpq	$253, %r14
	ja	.LBBc4343_2
	leaq	224(%rsp), %rdi
	movq	%r13, %rsi
	movq	%r14, %rdx
	callq	memcpy@PLT
	movq	%r14, 480(%rsp)
.LBBc4343_2:
	movq	336(%r12), %r14
	xorps	%xmm0, %xmm0
	movaps	%xmm0, 64(%rsp)
	movaps	%xmm0, 48(%rsp)
	movaps	%xmm0, 32(%rsp)
	movaps	%xmm0, 16(%rsp)
	movq	$0, 80(%rsp)
	cmpq	$64, %r14
	ja	.LBBc4343_4
	leaq	272(%r12), %rsi
	leaq	16(%rsp), %rdi
	movq	%r14, %rdx
	callq	memcpy@PLT
	movq	%r14, 80(%rsp)
.LBBc4343_4:
	leaq	800(%rsp), %r14
	leaq	72(%r15), %r13
	movzbl	344(%r12), %ebp
	orb	$2, %bpl
	leaq	488(%rsp), %r12
	movl	$312, %edx
	movq	%r12, %rdi
	movq	(%rsp), %rsi
	callq	memcpy@PLT
	leaq	224(%rsp), %rsi
	movl	$264, %edx
	movq	%r14, %rdi
	callq	memcpy@PLT
	movaps	16(%rsp), %xmm0
	movaps	32(%rsp), %xmm1
	movaps	48(%rsp), %xmm2
	movaps	64(%rsp), %xmm3
	movups	%xmm0, 1064(%rsp)
	movups	%xmm1, 1080(%rsp)
	movups	%xmm2, 1096(%rsp)
	movups	%xmm3, 1112(%rsp)
	movq	80(%rsp), %rax
	movq	%rax, 1128(%rsp)
	movups	24(%r15), %xmm0
	movups	%xmm0, 1136(%rsp)
	leaq	1152(%rsp), %r14
	movl	$664, %edx
	movq	%r14, %rdi
	movq	%r12, %rsi
	callq	memcpy@PLT
	leaq	16(%rsp), %r15
	movl	$208, %edx
	movq	%r15, %rdi
	movq	%r13, %rsi
	callq	memcpy@PLT
	leaq	488(%rsp), %r12
	movl	$352, %edx
	movq	%r12, %rdi
	movq	8(%rsp), %rsi
	callq	memcpy@PLT
	movq	$2, (%rbx)
	leaq	8(%rbx), %rdi
	movl	$664, %edx
	movq	%r14, %rsi
	callq	memcpy@PLT
	movb	%bpl, 672(%rbx)
	leaq	673(%rbx), %rdi
	movl	$208, %edx
	movq	%r15, %rsi
	callq	memcpy@PLT
	leaq	881(%rbx), %rdi
	movl	$352, %edx
	movq	%r12, %rsi
	callq	memcpy@PLT
	movq	$0, 1233(%rbx)
	movb	$0, 1241(%rbx)
	addq	$1816, %rsp
	.cfi_def_cfa_offset 56
	popq	%rbx
	.cfi_def_cfa_offset 48
	popq	%r12
	.cfi_def_cfa_offset 40
	popq	%r13
	.cfi_def_cfa_offset 32
	popq	%r14
	.cfi_def_cfa_offset 24
	popq	%r15
	.cfi_def_cfa_offset 16
	popq	%rbp
	.cfi_def_cfa_offset 8
	retq
.Lfunc_endc4343:
	.size	"psk_ends::server::turns::settle", .Lfunc_endc4343-"psk_ends::server::turns::settle"
	.cfi_endproc

	.section	".text.gpsk_ends::server::GpskServer::handle_step::<#e0641de541981142>","ax",@progbits
	.p2align	4
	.type	"gpsk_ends::server::GpskServer::handle_step::<#e0641de541981142>",@function
"gpsk_ends::server::GpskServer::handle_step::<#e0641de541981142>":
	.cfi_startproc
	pushq	%rbp
	.cfi_def_cfa_offset 16
	pushq	%r15
	.cfi_def_cfa_offset 24
	pushq	%r14
	.cfi_def_cfa_offset 32
	pushq	%r13
	.cfi_def_cfa_offset 40
	pushq	%r12
	.cfi_def_cfa_offset 48
	pushq	%rbx
	.cfi_def_cfa_offset 56
	subq	$696, %rsp
	.cfi_def_cfa_offset 752
	.cfi_offset %rbx, -56
	.cfi_offset %r12, -48
	.cfi_offset %r13, -40
	.cfi_offset %r14, -32
	.cfi_offset %r15, -24
	.cfi_offset %rbp, -16
	movq	%rdx, %rax
	movq	760(%rsp), %r13
	movzbl	312(%rdi), %r10d
	movb	$22, %dl
	testl	%r10d, %r10d
	je	.LBB48d58_10
	addq	$5, %rsi
	addq	$-5, %rax
	cmpl	$2, %r10d
	jne	.LBB48d58_6
	movzbl	1144(%rdi), %ecx
	cmpl	$2, %ecx
	je	.LBB48d58_8
	cmpl	$1, %ecx
	movq	%rax, 72(%rsp)
	movq	%rdi, 40(%rsp)
	jne	.LBB48d58_13
	xorl	%r8d, %r8d
	cmpb	$0, 688(%rdi)
	xorps	%xmm0, %xmm0
	movaps	%xmm0, 224(%rsp)
	movaps	%xmm0, 208(%rsp)
	movaps	%xmm0, 192(%rsp)
	movaps	%xmm0, 176(%rsp)
	movaps	%xmm0, 160(%rsp)
	movaps	%xmm0, 144(%rsp)
	movaps	%xmm0, 128(%rsp)
	movaps	%xmm0, 112(%rsp)
	movaps	%xmm0, 96(%rsp)
	movaps	%xmm0, 80(%rsp)
	movq	$0, 240(%rsp)
	leaq	96(%rsp), %r15
	setne	%r8b
	shll	$4, %r8d
	addl	$16, %r8d
	leaq	80(%rsp), %rdi
	movq	%rsi, %r14
	movq	%rax, %rdx
	movl	$1, %ecx
	callq	"gpsk_messages::reading::read_gpsk_message"
	movzbl	80(%rsp), %ebx
	movzbl	81(%rsp), %r13d
	movzbl	88(%rsp), %ebp
	movl	92(%rsp), %r12d
	leaq	360(%rsp), %rdi
	movl	$152, %edx
	movq	%r15, %rsi
	callq	memcpy@PLT
	cmpb	$1, %bl
	jne	.LBB48d58_27
	xorl	%eax, %eax
	movl	%r13d, %edx
	movq	760(%rsp), %r13
	jmp	.LBB48d58_67
.LBB48d58_6:
	movzbl	313(%rdi), %edx
	leaq	.LJTI48d58_0(%rip), %r10
	movslq	(%r10,%rdx,4), %rdx
	addq	%r10, %rdx
	jmpq	*%rdx
.LBB48d58_7:
	xorps	%xmm0, %xmm0
	movaps	%xmm0, 224(%rsp)
	movaps	%xmm0, 208(%rsp)
	movaps	%xmm0, 192(%rsp)
	movaps	%xmm0, 176(%rsp)
	movaps	%xmm0, 160(%rsp)
	movaps	%xmm0, 144(%rsp)
	movaps	%xmm0, 128(%rsp)
	movaps	%xmm0, 112(%rsp)
	movaps	%xmm0, 96(%rsp)
	movaps	%xmm0, 80(%rsp)
	movq	$0, 240(%rsp)
	leaq	80(%rsp), %rdi
	movq	%rax, %rdx
	xorl	%ecx, %ecx
	xorl	%r8d, %r8d
	jmp	.LBB48d58_9
.LBB48d58_8:
	xorl	%r8d, %r8d
	cmpb	$0, 688(%rdi)
	xorps	%xmm0, %xmm0
	movaps	%xmm0, 224(%rsp)
	movaps	%xmm0, 208(%rsp)
	movaps	%xmm0, 192(%rsp)
	movaps	%xmm0, 176(%rsp)
	movaps	%xmm0, 160(%rsp)
	movaps	%xmm0, 144(%rsp)
	movaps	%xmm0, 128(%rsp)
	movaps	%xmm0, 112(%rsp)
	movaps	%xmm0, 96(%rsp)
	movaps	%xmm0, 80(%rsp)
	movq	$0, 240(%rsp)
	setne	%r8b
	shll	$4, %r8d
	addl	$16, %r8d
	leaq	80(%rsp), %rdi
	movq	%rax, %rdx
	movl	$1, %ecx
.LBB48d58_9:
	callq	"gpsk_messages::reading::read_gpsk_message"
	cmpb	$1, 80(%rsp)
	movzbl	81(%rsp), %eax
	movl	$22, %edx
	cmovel	%eax, %edx
.LBB48d58_10:
	xorl	%eax, %eax
.LBB48d58_11:
	xorps	%xmm0, %xmm0
	movups	%xmm0, (%r13)
.LBB48d58_12:
	addq	$696, %rsp
	.cfi_def_cfa_offset 56
	popq	%rbx
	.cfi_def_cfa_offset 48
	popq	%r12
	.cfi_def_cfa_offset 40
	popq	%r13
	.cfi_def_cfa_offset 32
	popq	%r14
	.cfi_def_cfa_offset 24
	popq	%r15
	.cfi_def_cfa_offset 16
	popq	%rbp
	.cfi_def_cfa_offset 8
	retq
.LBB48d58_13:
	.cfi_def_cfa_offset 752
	xorl	%r8d, %r8d
	cmpb	$0, 688(%rdi)
	xorps	%xmm0, %xmm0
	movaps	%xmm0, 224(%rsp)
	movaps	%xmm0, 208(%rsp)
	movaps	%xmm0, 192(%rsp)
	movaps	%xmm0, 176(%rsp)
	movaps	%xmm0, 160(%rsp)
	movaps	%xmm0, 144(%rsp)
	movaps	%xmm0, 128(%rsp)
	movaps	%xmm0, 112(%rsp)
	movaps	%xmm0, 96(%rsp)
	movaps	%xmm0, 80(%rsp)
	movq	$0, 240(%rsp)
	leaq	96(%rsp), %r15
	setne	%r8b
	shll	$4, %r8d
	addl	$16, %r8d
	leaq	80(%rsp), %rdi
	movq	%rsi, %r14
	movq	%rax, %rdx
	movl	$1, %ecx
	callq	"gpsk_messages::reading::read_gpsk_message"
	movzbl	80(%rsp), %ebx
	movzbl	81(%rsp), %r12d
	movzbl	88(%rsp), %r13d
	movl	92(%rsp), %ebp
	leaq	360(%rsp), %rdi
	movl	$152, %edx
	movq	%r15, %rsi
	callq	memcpy@PLT
	cmpb	$1, %bl
	jne	.LBB48d58_30
	xorl	%eax, %eax
	movl	%r12d, %edx
	movq	760(%rsp), %r13
	jmp	.LBB48d58_67
.LBB48d58_15:
	movq	%r8, 56(%rsp)
	movq	%r9, 312(%rsp)
	movl	%ecx, 68(%rsp)
	movq	%rdi, 40(%rsp)
	movq	$0, 360(%rsp)
	xorps	%xmm0, %xmm0
	movaps	%xmm0, 224(%rsp)
	movaps	%xmm0, 208(%rsp)
	movaps	%xmm0, 192(%rsp)
	movaps	%xmm0, 176(%rsp)
	movaps	%xmm0, 160(%rsp)
	movaps	%xmm0, 144(%rsp)
	movaps	%xmm0, 128(%rsp)
	movaps	%xmm0, 112(%rsp)
	movaps	%xmm0, 96(%rsp)
	movaps	%xmm0, 80(%rsp)
	movq	$0, 240(%rsp)
	leaq	96(%rsp), %r15
	leaq	80(%rsp), %rdi
	xorl	%ebp, %ebp
	movq	%rsi, 352(%rsp)
	movq	%rax, 72(%rsp)
	movq	%rax, %rdx
	xorl	%ecx, %ecx
	xorl	%r8d, %r8d
	callq	"gpsk_messages::reading::read_gpsk_message"
	movzbl	80(%rsp), %r13d
	movzbl	81(%rsp), %r12d
	movzbl	88(%rsp), %ebx
	movl	92(%rsp), %r14d
	leaq	376(%rsp), %rdi
	movl	$152, %edx
	movq	%r15, %rsi
	callq	memcpy@PLT
	movl	%r12d, %edx
	movb	%r13b, 360(%rsp)
	movb	%dl, 361(%rsp)
	movl	%ebx, 368(%rsp)
	movl	%r14d, 372(%rsp)
	cmpb	$1, %r13b
	movq	760(%rsp), %r13
	je	.LBB48d58_66
	xorps	%xmm0, %xmm0
	movaps	%xmm0, 288(%rsp)
	movaps	%xmm0, 272(%rsp)
	movaps	%xmm0, 256(%rsp)
	movaps	%xmm0, 240(%rsp)
	movaps	%xmm0, 224(%rsp)
	movaps	%xmm0, 208(%rsp)
	movaps	%xmm0, 192(%rsp)
	movaps	%xmm0, 176(%rsp)
	movaps	%xmm0, 160(%rsp)
	movaps	%xmm0, 144(%rsp)
	movaps	%xmm0, 128(%rsp)
	movaps	%xmm0, 112(%rsp)
	movaps	%xmm0, 96(%rsp)
	movaps	%xmm0, 80(%rsp)
	movq	$0, 304(%rsp)
	cmpb	$1, %bl
	jne	.LBB48d58_39
	movq	40(%rsp), %rcx
	movq	256(%rcx), %r15
	cmpq	%r15, 400(%rsp)
	jne	.LBB48d58_64
	movq	392(%rsp), %rdi
	cmpq	$4, %r15
	jae	.LBB48d58_41
	testq	%r15, %r15
	je	.LBB48d58_45
	movzbl	(%rdi), %eax
	cmpb	(%rcx), %al
	jne	.LBB48d58_43
	cmpq	$1, %r15
	je	.LBB48d58_45
	movzbl	1(%rdi), %edx
	movl	$1, %eax
	cmpb	1(%rcx), %dl
	jne	.LBB48d58_44
	cmpq	$2, %r15
	je	.LBB48d58_45
	movzbl	2(%rdi), %edx
	movl	$2, %eax
	cmpb	2(%rcx), %dl
	jne	.LBB48d58_44
	jmp	.LBB48d58_45
.LBB48d58_25:
	movq	%rdi, %rbx
	xorps	%xmm0, %xmm0
	movaps	%xmm0, 224(%rsp)
	movaps	%xmm0, 208(%rsp)
	movaps	%xmm0, 192(%rsp)
	movaps	%xmm0, 176(%rsp)
	movaps	%xmm0, 160(%rsp)
	movaps	%xmm0, 144(%rsp)
	movaps	%xmm0, 128(%rsp)
	movaps	%xmm0, 112(%rsp)
	movaps	%xmm0, 96(%rsp)
	movaps	%xmm0, 80(%rsp)
	movq	$0, 240(%rsp)
	leaq	80(%rsp), %rdi
	movq	%rax, %rdx
	xorl	%ecx, %ecx
	xorl	%r8d, %r8d
	callq	"gpsk_messages::reading::read_gpsk_message"
	cmpb	$1, 80(%rsp)
	jne	.LBB48d58_35
	movzbl	81(%rsp), %edx
	jmp	.LBB48d58_10
.LBB48d58_27:
	movl	%ebp, 80(%rsp)
	movl	%r12d, 84(%rsp)
	leaq	88(%rsp), %rdi
	leaq	360(%rsp), %rsi
	movl	$152, %edx
	callq	memcpy@PLT
	cmpl	$3, %ebp
	jne	.LBB48d58_34
	movq	40(%rsp), %rax
	leaq	928(%rax), %rdi
	leaq	80(%rsp), %rsi
	movq	%r14, %rdx
	movq	72(%rsp), %rcx
	callq	"gpsk_ends::keys::is_tagged"
	testb	%al, %al
	movq	760(%rsp), %r13
	je	.LBB48d58_38
	movq	$1, (%r13)
	movq	$0, 8(%r13)
	movq	40(%rsp), %rax
	movw	$258, 1144(%rax)
	movb	$1, %dl
	movb	$2, %al
	jmp	.LBB48d58_67
.LBB48d58_30:
	movl	%r13d, 80(%rsp)
	movl	%ebp, 84(%rsp)
	leaq	88(%rsp), %rdi
	leaq	360(%rsp), %rsi
	movl	$152, %edx
	callq	memcpy@PLT
	cmpl	$5, %r13d
	jne	.LBB48d58_34
	cmpl	$3, %ebp
	movq	760(%rsp), %r13
	jne	.LBB48d58_40
	movq	40(%rsp), %rax
	leaq	928(%rax), %rdi
	leaq	80(%rsp), %rsi
	movq	%r14, %rdx
	movq	72(%rsp), %rcx
	callq	"gpsk_ends::keys::is_tagged"
	testb	%al, %al
	je	.LBB48d58_38
	movq	$1, (%r13)
	movq	$0, 8(%r13)
	movq	40(%rsp), %rax
	movw	$2, 1144(%rax)
	movb	$2, %al
	xorl	%edx, %edx
	jmp	.LBB48d58_67
.LBB48d58_34:
	movb	$22, %dl
	xorl	%eax, %eax
	movq	760(%rsp), %r13
	jmp	.LBB48d58_67
.LBB48d58_35:
	cmpb	$4, 88(%rsp)
	movb	$22, %dl
	jne	.LBB48d58_10
	movb	$25, %dl
	cmpl	$1, 92(%rsp)
	jne	.LBB48d58_10
	xorps	%xmm0, %xmm0
	movups	%xmm0, (%r13)
	movb	$3, 313(%rbx)
	movb	$2, %al
	xorl	%edx, %edx
	jmp	.LBB48d58_70
.LBB48d58_38:
	movb	$28, %dl
	xorl	%eax, %eax
	jmp	.LBB48d58_67
.LBB48d58_39:
	movb	$22, %dl
	jmp	.LBB48d58_65
.LBB48d58_40:
	movb	$25, %dl
	xorl	%eax, %eax
	jmp	.LBB48d58_67
.LBB48d58_41:
	movl	(%rdi), %eax
	cmpl	(%rcx), %eax
	jne	.LBB48d58_64
	movq	%r15, %rsi
	movq	40(%rsp), %rdx
	callq	"core::cmp::slices::groups_equal::<i8,31'core::cmp::numbers::U8PartialEq{}>"
	movq	40(%rsp), %rcx
	testb	%al, %al
	jne	.LBB48d58_45
	jmp	.LBB48d58_64
.LBB48d58_43:
	xorl	%eax, %eax
.LBB48d58_44:
	cmpq	%r15, %rax
	jb	.LBB48d58_64
.LBB48d58_45:
	leaq	440(%rsp), %rdi
	leaq	280(%rcx), %rbx
	movq	%rbx, %rsi
	callq	"core::cmp::arrays::ArrayPartialEq::eq::<i8,=32,31'core::cmp::numbers::U8PartialEq{}>"
	movq	40(%rsp), %rdx
	testb	%al, %al
	je	.LBB48d58_64
	xorps	%xmm0, %xmm0
	movaps	%xmm0, 320(%rsp)
	movq	$0, 336(%rsp)
	movq	272(%rdx), %rbp
	testq	%rbp, %rbp
	je	.LBB48d58_54
	xorl	%eax, %eax
	xorl	%ecx, %ecx
	jmp	.LBB48d58_51
.LBB48d58_48:
	movzwl	52(%rsp), %esi
	movw	%si, 4(%rdi)
	movl	48(%rsp), %esi
	movl	%esi, (%rdi)
.LBB48d58_49:
	addq	$6, %rax
	movq	%rax, 336(%rsp)
.LBB48d58_50:
	incq	%rcx
	cmpq	%rcx, %rbp
	je	.LBB48d58_54
.LBB48d58_51:
	movzbl	264(%rdx,%rcx), %esi
	movb	$0, 52(%rsp)
	movl	$0, 48(%rsp)
	movb	%sil, 53(%rsp)
	leaq	-13(%rax), %rdi
	cmpq	$-7, %rdi
	ja	.LBB48d58_50
	leaq	(%rsp,%rax), %rdi
	addq	$320, %rdi
	leaq	48(%rsp), %r8
	movq	%rdi, %r9
	subq	%r8, %r9
	cmpq	$5, %r9
	ja	.LBB48d58_48
	movb	$0, 4(%rdi)
	movl	$0, (%rdi)
	movb	%sil, 5(%rdi)
	jmp	.LBB48d58_49
.LBB48d58_54:
	movaps	320(%rsp), %xmm0
	movaps	%xmm0, 528(%rsp)
	movq	336(%rsp), %rax
	movq	%rax, 544(%rsp)
	cmpq	%rax, 480(%rsp)
	jne	.LBB48d58_64
	movq	472(%rsp), %rcx
	cmpq	$4, %rax
	jae	.LBB48d58_62
	testq	%rax, %rax
	je	.LBB48d58_71
	movzbl	(%rcx), %esi
	cmpb	528(%rsp), %sil
	movq	312(%rsp), %rsi
	movq	56(%rsp), %rdi
	jne	.LBB48d58_72
	cmpq	$1, %rax
	je	.LBB48d58_75
	movzbl	1(%rcx), %r9d
	movl	$1, %r8d
	cmpb	529(%rsp), %r9b
	jne	.LBB48d58_73
	cmpq	$2, %rax
	je	.LBB48d58_75
	movzbl	2(%rcx), %ecx
	movl	$2, %r8d
	cmpb	530(%rsp), %cl
	jne	.LBB48d58_73
	jmp	.LBB48d58_75
.LBB48d58_62:
	movl	(%rcx), %edx
	cmpl	528(%rsp), %edx
	jne	.LBB48d58_64
	leaq	528(%rsp), %rdx
	movq	%rcx, %rdi
	movq	%rax, %rsi
	callq	"core::cmp::slices::groups_equal::<i8,31'core::cmp::numbers::U8PartialEq{}>"
	movq	40(%rsp), %rdx
	testb	%al, %al
	movq	312(%rsp), %rsi
	movq	56(%rsp), %rdi
	jne	.LBB48d58_75
.LBB48d58_64:
	movb	$25, %dl
.LBB48d58_65:
	xorl	%ebp, %ebp
.LBB48d58_66:
	movl	%ebp, %eax
.LBB48d58_67:
	cmpb	$2, %al
	je	.LBB48d58_70
	movzbl	%al, %ecx
	cmpl	$1, %ecx
	jne	.LBB48d58_11
	xorl	%edx, %edx
	jmp	.LBB48d58_12
.LBB48d58_70:
	andb	$1, %dl
	jmp	.LBB48d58_12
.LBB48d58_71:
	movq	312(%rsp), %rsi
	movq	56(%rsp), %rdi
	jmp	.LBB48d58_75
.LBB48d58_72:
	xorl	%r8d, %r8d
.LBB48d58_73:
	cmpq	%rax, %r8
	jae	.LBB48d58_75
	xorl	%ebp, %ebp
	movb	$25, %dl
	jmp	.LBB48d58_66
.LBB48d58_75:
	leaq	312(%rdx), %r8
	movzbl	488(%rsp), %r12d
	cmpb	$1, %r12b
	movb	$2, %al
	sbbb	$0, %al
	xorl	%ecx, %ecx
.LBB48d58_76:
	cmpq	%rcx, %rbp
	je	.LBB48d58_80
	cmpb	%al, 264(%rdx,%rcx)
	leaq	1(%rcx), %rcx
	jne	.LBB48d58_76
	movq	%r8, 56(%rsp)
	movq	376(%rsp), %rdx
	movq	384(%rsp), %r14
	movq	%rdx, %rbp
	movq	%r14, %rcx
	movl	$51, %r8d
	callq	"login_setup::users::find_user"
	cmpb	$1, %al
	jne	.LBB48d58_81
	movq	%r14, %rsi
	movq	%rdx, %r14
	addq	$272, %rdx
	movq	336(%r14), %rcx
	leaq	408(%rsp), %r8
	movq	%r15, 24(%rsp)
	movq	%rbx, %rax
	movq	40(%rsp), %rbx
	movq	%rbx, 16(%rsp)
	movq	%rax, 8(%rsp)
	movq	%rsi, (%rsp)
	movzbl	%r12b, %esi
	leaq	80(%rsp), %r15
	movq	%r15, %rdi
	movq	%rbp, %r9
	callq	"login_keys::gpsk::gpsk_keys"
	movq	%r13, 32(%rsp)
	movq	752(%rsp), %rax
	movq	%rax, 24(%rsp)
	movq	72(%rsp), %rax
	movq	%rax, 16(%rsp)
	movq	352(%rsp), %rax
	movq	%rax, 8(%rsp)
	leaq	368(%rsp), %rax
	movq	%rax, (%rsp)
	movzbl	68(%rsp), %r9d
	movq	%rbx, %rdi
	movq	56(%rsp), %rsi
	leaq	376(%rsp), %rdx
	movq	%r14, %rcx
	movq	%r15, %r8
	callq	"gpsk_ends::server::gpsk2::check::<#e0641de541981142>"
	movl	%eax, %ebp
	jmp	.LBB48d58_66
.LBB48d58_80:
	movb	$26, %dl
	jmp	.LBB48d58_65
.LBB48d58_81:
	xorps	%xmm0, %xmm0
	movups	%xmm0, 664(%rsp)
	movups	%xmm0, 648(%rsp)
	movups	%xmm0, 632(%rsp)
	movups	%xmm0, 616(%rsp)
	movups	%xmm0, 600(%rsp)
	movups	%xmm0, 584(%rsp)
	movups	%xmm0, 568(%rsp)
	movups	%xmm0, 552(%rsp)
	movups	%xmm0, 536(%rsp)
	movq	$0, 680(%rsp)
	movabsq	$4294967300, %rax
	movq	%rax, 528(%rsp)
	movzbl	68(%rsp), %ecx
	leaq	528(%rsp), %rsi
	movq	752(%rsp), %rdi
	xorl	%edx, %edx
	callq	"gpsk_messages::writing::write_gpsk_into"
	xorps	%xmm0, %xmm0
	movups	%xmm0, (%r13)
	movq	40(%rsp), %rdi
	movw	$513, 312(%rdi)
	addq	$320, %rdi
	movl	$826, %edx
	xorl	%esi, %esi
	callq	memset@PLT
	xorl	%edx, %edx
	movb	$1, %bpl
	jmp	.LBB48d58_66
.Lfunc_end48d58:
	.size	"gpsk_ends::server::GpskServer::handle_step::<#e0641de541981142>", .Lfunc_end48d58-"gpsk_ends::server::GpskServer::handle_step::<#e0641de541981142>"
	.cfi_endproc
	.section	".rodata.gpsk_ends::server::GpskServer::handle_step::<#e0641de541981142>","a",@progbits
	.p2align	2, 0x0
.LJTI48d58_0:
	.long	.LBB48d58_7-.LJTI48d58_0
	.long	.LBB48d58_15-.LJTI48d58_0
	.long	.LBB48d58_25-.LJTI48d58_0
	.long	.LBB48d58_7-.LJTI48d58_0

	.section	".text.gpsk_ends::server::gpsk2::check::<#e0641de541981142>","ax",@progbits
	.p2align	4
	.type	"gpsk_ends::server::gpsk2::check::<#e0641de541981142>",@function
"gpsk_ends::server::gpsk2::check::<#e0641de541981142>":
	.cfi_startproc
	pushq	%rbp
	.cfi_def_cfa_offset 16
	pushq	%r15
	.cfi_def_cfa_offset 24
	pushq	%r14
	.cfi_def_cfa_offset 32
	pushq	%r13
	.cfi_def_cfa_offset 40
	pushq	%r12
	.cfi_def_cfa_offset 48
	pushq	%rbx
	.cfi_def_cfa_offset 56
	subq	$1224, %rsp
	.cfi_def_cfa_offset 1280
	.cfi_offset %rbx, -56
	.cfi_offset %r12, -48
	.cfi_offset %r13, -40
	.cfi_offset %r14, -32
	.cfi_offset %r15, -24
	.cfi_offset %rbp, -16
	movl	%r9d, %ebp
	movq	%rcx, 40(%rsp)
	movq	%rdx, %r14
	movq	%rsi, 32(%rsp)
	movq	%rdi, %r12
	movq	$0, 288(%rsp)
	leaq	504(%rsp), %rdi
	movl	$232, %edx
	movq	%r8, %rsi
	callq	memcpy@PLT
	movzbl	112(%r14), %r15d
	leaq	672(%rsp), %rsi
	movq	704(%rsp), %rdx
	xorps	%xmm0, %xmm0
	movaps	%xmm0, 256(%rsp)
	movaps	%xmm0, 240(%rsp)
	movaps	%xmm0, 224(%rsp)
	movaps	%xmm0, 208(%rsp)
	movaps	%xmm0, 192(%rsp)
	movaps	%xmm0, 176(%rsp)
	movaps	%xmm0, 160(%rsp)
	movaps	%xmm0, 144(%rsp)
	movaps	%xmm0, 128(%rsp)
	movaps	%xmm0, 112(%rsp)
	movaps	%xmm0, 96(%rsp)
	movaps	%xmm0, 80(%rsp)
	movaps	%xmm0, 64(%rsp)
	movq	$0, 271(%rsp)
	testb	%r15b, %r15b
	je	.LBB1cd8e_1
	leaq	736(%rsp), %r13
	movq	%r13, %rdi
	callq	"hmac_mac::key_block"
	leaq	1016(%rsp), %rbx
	movq	%rbx, %rdi
	movq	%r13, %rsi
	movl	$54, %edx
	callq	"hmac_mac::keyed_hash"
	leaq	1120(%rsp), %rdi
	movq	%r13, %rsi
	movl	$92, %edx
	callq	"hmac_mac::keyed_hash"
	leaq	71(%rsp), %rdi
	movl	$208, %edx
	movq	%rbx, %rsi
	callq	memcpy@PLT
	jmp	.LBB1cd8e_3
.LBB1cd8e_1:
	movaps	%xmm0, 48(%rsp)
	leaq	48(%rsp), %r13
	movq	%r13, %rdi
	callq	memcpy@PLT
	leaq	64(%rsp), %rdi
	movq	%r13, %rsi
	callq	"cmac_mac::key::CmacKey::new"
.LBB1cd8e_3:
	leaq	289(%rsp), %rbx
	leaq	64(%rsp), %rsi
	movl	$215, %edx
	movq	%rbx, %rdi
	callq	memcpy@PLT
	movb	%r15b, 800(%rsp)
	leaq	801(%rsp), %rdi
	movl	$215, %edx
	movq	%rbx, %rsi
	callq	memcpy@PLT
	leaq	800(%rsp), %rdi
	movq	1280(%rsp), %rsi
	movq	1288(%rsp), %rdx
	movq	1296(%rsp), %rcx
	callq	"gpsk_ends::keys::is_tagged"
	testb	%al, %al
	je	.LBB1cd8e_4
	movq	1312(%rsp), %rax
	movq	1304(%rsp), %rcx
	movb	%r15b, 288(%rsp)
	movq	%rax, 16(%rsp)
	movq	%rcx, 8(%rsp)
	movzbl	%bpl, %eax
	movl	%eax, (%rsp)
	leaq	504(%rsp), %r8
	leaq	288(%rsp), %r9
	movq	%r12, %rdi
	movq	32(%rsp), %rsi
	movq	%r14, %rdx
	movq	40(%rsp), %rcx
	callq	"gpsk_ends::server::gpsk2::log_in::<#e0641de541981142>"
	jmp	.LBB1cd8e_6
.LBB1cd8e_4:
	movb	$28, %dl
	xorl	%eax, %eax
.LBB1cd8e_6:
	addq	$1224, %rsp
	.cfi_def_cfa_offset 56
	popq	%rbx
	.cfi_def_cfa_offset 48
	popq	%r12
	.cfi_def_cfa_offset 40
	popq	%r13
	.cfi_def_cfa_offset 32
	popq	%r14
	.cfi_def_cfa_offset 24
	popq	%r15
	.cfi_def_cfa_offset 16
	popq	%rbp
	.cfi_def_cfa_offset 8
	retq
.Lfunc_end1cd8e:
	.size	"gpsk_ends::server::gpsk2::check::<#e0641de541981142>", .Lfunc_end1cd8e-"gpsk_ends::server::gpsk2::check::<#e0641de541981142>"
	.cfi_endproc

	.section	".text.gpsk_ends::server::gpsk2::log_in::<#e0641de541981142>","ax",@progbits
	.p2align	4
	.type	"gpsk_ends::server::gpsk2::log_in::<#e0641de541981142>",@function
"gpsk_ends::server::gpsk2::log_in::<#e0641de541981142>":
	.cfi_startproc
	pushq	%rbp
	.cfi_def_cfa_offset 16
	pushq	%r15
	.cfi_def_cfa_offset 24
	pushq	%r14
	.cfi_def_cfa_offset 32
	pushq	%r13
	.cfi_def_cfa_offset 40
	pushq	%r12
	.cfi_def_cfa_offset 48
	pushq	%rbx
	.cfi_def_cfa_offset 56
	subq	$680, %rsp
	.cfi_def_cfa_offset 736
	.cfi_offset %rbx, -56
	.cfi_offset %r12, -48
	.cfi_offset %r13, -40
	.cfi_offset %r14, -32
	.cfi_offset %r15, -24
	.cfi_offset %rbp, -16
	movq	%r9, %r12
	movq	%rcx, %r15
	movq	%rdx, %r13
	movq	%rsi, %rbx
	movq	%rdi, %r14
	leaq	448(%rsp), %rbp
	movl	$232, %edx
	movq	%rbp, %rdi
	movq	%r8, %rsi
	callq	memcpy@PLT
	movzbl	(%r12), %eax
	movb	%al, 232(%rsp)
	leaq	233(%rsp), %rdi
	incq	%r12
	movl	$215, %edx
	movq	%r12, %rsi
	callq	memcpy@PLT
	leaq	232(%rsp), %r8
	movq	%rbx, %rdi
	movq	%r13, %rsi
	movq	%r15, %rdx
	movq	%rbp, %rcx
	callq	"gpsk_ends::server::gpsk2::settle"
	cmpb	$2, (%rbx)
	jne	.LBBc1a4a_1
	movq	752(%rsp), %r9
	movq	744(%rsp), %r8
	movzbl	736(%rsp), %eax
	movzbl	344(%r15), %ecx
	movq	$1, (%r9)
	addq	$8, %r9
	cmpb	$1, %cl
	jne	.LBBc1a4a_4
	xorps	%xmm0, %xmm0
	movups	%xmm0, 136(%rsp)
	movups	%xmm0, 120(%rsp)
	movups	%xmm0, 104(%rsp)
	movups	%xmm0, 88(%rsp)
	movups	%xmm0, 72(%rsp)
	movups	%xmm0, 56(%rsp)
	movups	%xmm0, 40(%rsp)
	movups	%xmm0, 24(%rsp)
	movq	$0, 152(%rsp)
	xorl	%ecx, %ecx
	cmpb	$0, 376(%rbx)
	leaq	376(%rbx), %rdi
	setne	%cl
	leaq	.Lstatic.10(%rip), %rdx
	leaq	.Lstatic.14(%rip), %rsi
	cmoveq	%rdx, %rsi
	shll	$4, %ecx
	addq	$16, %rcx
	movabsq	$12884901893, %rdx
	movq	%rdx, (%rsp)
	movq	%rsi, 8(%rsp)
	movq	%rcx, 16(%rsp)
	movzbl	%al, %ecx
	movq	%rsp, %rsi
	xorl	%ebp, %ebp
	xorl	%edx, %edx
	callq	"gpsk_ends::keys::Keys::seal::<#e0641de541981142>"
	jmp	.LBBc1a4a_5
.LBBc1a4a_1:
	movb	$22, %dl
	xorl	%eax, %eax
	jmp	.LBBc1a4a_6
.LBBc1a4a_4:
	leaq	376(%rbx), %rdi
	xorps	%xmm0, %xmm0
	movaps	%xmm0, (%rsp)
	movaps	%xmm0, 16(%rsp)
	movaps	%xmm0, 32(%rsp)
	movaps	%xmm0, 48(%rsp)
	movaps	%xmm0, 64(%rsp)
	movaps	%xmm0, 80(%rsp)
	movaps	%xmm0, 96(%rsp)
	movaps	%xmm0, 112(%rsp)
	movaps	%xmm0, 128(%rsp)
	movaps	%xmm0, 144(%rsp)
	movzbl	376(%rbx), %ecx
	movups	344(%rbx), %xmm0
	movups	360(%rbx), %xmm1
	movaps	%xmm1, 176(%rsp)
	movaps	%xmm0, 160(%rsp)
	movups	280(%r14), %xmm0
	movups	296(%r14), %xmm1
	movaps	%xmm0, 192(%rsp)
	movaps	%xmm1, 208(%rsp)
	movq	256(%r14), %rdx
	xorl	%esi, %esi
	testb	%cl, %cl
	setne	%sil
	leaq	.Lstatic.10(%rip), %r10
	leaq	.Lstatic.14(%rip), %r11
	cmoveq	%r10, %r11
	shll	$4, %esi
	addq	$16, %rsi
	movl	$2, (%rsp)
	movaps	160(%rsp), %xmm0
	movaps	176(%rsp), %xmm1
	movaps	192(%rsp), %xmm2
	movaps	208(%rsp), %xmm3
	movups	%xmm3, 56(%rsp)
	movups	%xmm2, 40(%rsp)
	movups	%xmm1, 24(%rsp)
	movups	%xmm0, 8(%rsp)
	movq	%r14, 72(%rsp)
	movq	%rdx, 80(%rsp)
	movb	%cl, 88(%rsp)
	leaq	.Lstatic.0(%rip), %rcx
	movq	%rcx, 96(%rsp)
	movq	%r11, 112(%rsp)
	movq	%rsi, 120(%rsp)
	movzbl	%al, %ecx
	movq	%rsp, %rsi
	xorl	%edx, %edx
	callq	"gpsk_ends::keys::Keys::seal::<#e0641de541981142>"
	movb	$1, %bpl
.LBBc1a4a_5:
	movb	%bpl, 832(%rbx)
	movb	$0, 833(%rbx)
	movb	$1, %al
	xorl	%edx, %edx
.LBBc1a4a_6:
	addq	$680, %rsp
	.cfi_def_cfa_offset 56
	popq	%rbx
	.cfi_def_cfa_offset 48
	popq	%r12
	.cfi_def_cfa_offset 40
	popq	%r13
	.cfi_def_cfa_offset 32
	popq	%r14
	.cfi_def_cfa_offset 24
	popq	%r15
	.cfi_def_cfa_offset 16
	popq	%rbp
	.cfi_def_cfa_offset 8
	retq
.Lfunc_endc1a4a:
	.size	"gpsk_ends::server::gpsk2::log_in::<#e0641de541981142>", .Lfunc_endc1a4a-"gpsk_ends::server::gpsk2::log_in::<#e0641de541981142>"
	.cfi_endproc

	.section	".text.gpsk_ends::server::gpsk2::settle","ax",@progbits
	.p2align	4
	.type	"gpsk_ends::server::gpsk2::settle",@function
"gpsk_ends::server::gpsk2::settle":
	.cfi_startproc
	pushq	%rbp
	.cfi_def_cfa_offset 16
	pushq	%r15
	.cfi_def_cfa_offset 24
	pushq	%r14
	.cfi_def_cfa_offset 32
	pushq	%r13
	.cfi_def_cfa_offset 40
	pushq	%r12
	.cfi_def_cfa_offset 48
	pushq	%rbx
	.cfi_def_cfa_offset 56
	subq	$1448, %rsp
	.cfi_def_cfa_offset 1504
	.cfi_offset %rbx, -56
	.cfi_offset %r12, -48
	.cfi_offset %r13, -40
	.cfi_offset %r14, -32
	.cfi_offset %r15, -24
	.cfi_offset %rbp, -16
	movq	%r8, %r14
	movq	%rcx, 8(%rsp)
	movq	%rdx, %r13
	movq	%rsi, %r12
	movq	%rdi, %rbx
	movzbl	(%r8), %eax
	movb	%al, 7(%rsp)
	leaq	336(%rsp), %rdi
	movl	$368, %edx
	xorl	%esi, %esi
	callq	memset@PLT
	xorps	%xmm0, %xmm0
	movaps	%xmm0, 96(%rsp)
	movaps	%xmm0, 112(%rsp)
	movaps	%xmm0, 128(%rsp)
	movaps	%xmm0, 144(%rsp)
	movaps	%xmm0, 160(%rsp)
	movaps	%xmm0, 176(%rsp)
	movaps	%xmm0, 192(%rsp)
	movaps	%xmm0, 208(%rsp)
	movaps	%xmm0, 224(%rsp)
	movaps	%xmm0, 240(%rsp)
	movaps	%xmm0, 256(%rsp)
	movaps	%xmm0, 272(%rsp)
	movaps	%xmm0, 288(%rsp)
	movaps	%xmm0, 304(%rsp)
	movups	%xmm0, 319(%rsp)
	movq	(%r12), %r15
	movq	8(%r12), %rbp
	leaq	704(%rsp), %rdi
	movl	$264, %edx
	xorl	%esi, %esi
	callq	memset@PLT
	cmpq	$253, %rbp
	ja	.LBB5d6ad_2
	leaq	704(%rsp), %rdi
	movq	%r15, %rsi
	movq	%rbp, %rdx
	callq	memcpy@PLT
	movq	%rbp, 960(%rsp)
.LBB5d6ad_2:
	leaq	968(%rsp), %rdi
	leaq	704(%rsp), %rsi
	movl	$264, %edx
	callq	memcpy@PLT
	movq	336(%r13), %rbp
	xorps	%xmm0, %xmm0
	movaps	%xmm0, 64(%rsp)
	movaps	%xmm0, 48(%rsp)
	movaps	%xmm0, 32(%rsp)
	movaps	%xmm0, 16(%rsp)
	movq	$0, 80(%rsp)
	cmpq	$64, %rbp
	ja	.LBB5d6ad_4
	addq	$272, %r13
	leaq	16(%rsp), %rdi
	movq	%r13, %rsi
	movq	%rbp, %rdx
	callq	memcpy@PLT
	movq	%rbp, 80(%rsp)
.LBB5d6ad_4:
	incq	%r14
	movzbl	112(%r12), %ebp
	leaq	336(%rsp), %r13
	leaq	968(%rsp), %rsi
	movl	$264, %edx
	movq	%r13, %rdi
	callq	memcpy@PLT
	movaps	16(%rsp), %xmm0
	movaps	32(%rsp), %xmm1
	movaps	48(%rsp), %xmm2
	movaps	64(%rsp), %xmm3
	movups	%xmm0, 600(%rsp)
	movups	%xmm1, 616(%rsp)
	movups	%xmm2, 632(%rsp)
	movups	%xmm3, 648(%rsp)
	movq	80(%rsp), %rax
	movq	%rax, 664(%rsp)
	movups	32(%r12), %xmm0
	movups	48(%r12), %xmm1
	movups	%xmm0, 672(%rsp)
	movups	%xmm1, 688(%rsp)
	leaq	103(%rsp), %rdi
	movl	$232, %edx
	movq	8(%rsp), %rsi
	callq	memcpy@PLT
	leaq	1233(%rsp), %r15
	movl	$215, %edx
	movq	%r15, %rdi
	movq	%r14, %rsi
	callq	memcpy@PLT
	movw	$2, (%rbx)
	leaq	8(%rbx), %rdi
	movl	$368, %edx
	movq	%r13, %rsi
	callq	memcpy@PLT
	movb	%bpl, 376(%rbx)
	leaq	377(%rbx), %rdi
	leaq	96(%rsp), %rsi
	movl	$239, %edx
	callq	memcpy@PLT
	movzbl	7(%rsp), %eax
	movb	%al, 616(%rbx)
	leaq	617(%rbx), %rdi
	movl	$215, %edx
	movq	%r15, %rsi
	callq	memcpy@PLT
	movw	$1, 832(%rbx)
	addq	$1448, %rsp
	.cfi_def_cfa_offset 56
	popq	%rbx
	.cfi_def_cfa_offset 48
	popq	%r12
	.cfi_def_cfa_offset 40
	popq	%r13
	.cfi_def_cfa_offset 32
	popq	%r14
	.cfi_def_cfa_offset 24
	popq	%r15
	.cfi_def_cfa_offset 16
	popq	%rbp
	.cfi_def_cfa_offset 8
	retq
.Lfunc_end5d6ad:
	.size	"gpsk_ends::server::gpsk2::settle", .Lfunc_end5d6ad-"gpsk_ends::server::gpsk2::settle"
	.cfi_endproc

	.section	".text.tuvaddri_c::failure::peer_failure","ax",@progbits
	.p2align	4
	.type	"tuvaddri_c::failure::peer_failure",@function
"tuvaddri_c::failure::peer_failure":
	.cfi_startproc
	pushq	%r15
	.cfi_def_cfa_offset 16
	pushq	%r14
	.cfi_def_cfa_offset 24
	pushq	%r12
	.cfi_def_cfa_offset 32
	pushq	%rbx
	.cfi_def_cfa_offset 40
	subq	$1784, %rsp
	.cfi_def_cfa_offset 1824
	.cfi_offset %rbx, -40
	.cfi_offset %r12, -32
	.cfi_offset %r14, -24
	.cfi_offset %r15, -16
	movl	%r9d, %ebx
	movl	%r8d, %eax
	testb	$1, %dil
	je	.LBBc3a76_11
	cmpb	$0, (%rsi)
	movzbl	664(%rsi), %edi
	je	.LBBc3a76_5
	cmpb	$2, %dil
	jne	.LBBc3a76_11
	cmpb	$1, 1160(%rsi)
	jne	.LBBc3a76_11
	cmpb	$0, 1161(%rsi)
	je	.LBBc3a76_8
	jmp	.LBBc3a76_11
.LBBc3a76_5:
	cmpb	$2, %dil
	jne	.LBBc3a76_11
	cmpb	$1, 1241(%rsi)
	jne	.LBBc3a76_11
	cmpb	$0, 1242(%rsi)
	jne	.LBBc3a76_11
.LBBc3a76_8:
	xorps	%xmm0, %xmm0
	movaps	%xmm0, 256(%rsp)
	movaps	%xmm0, 240(%rsp)
	movaps	%xmm0, 224(%rsp)
	leaq	224(%rsp), %rdi
	movq	%rdx, %r14
	movq	%rdx, %rsi
	movq	%rcx, %rbx
	movq	%rcx, %rdx
	callq	"eap_packet::packet::decode"
	cmpb	$1, 224(%rsp)
	jne	.LBBc3a76_12
.LBBc3a76_9:
	xorl	%ebx, %ebx
.LBBc3a76_10:
	movb	$3, %al
.LBBc3a76_11:
	movl	%ebx, %edx
	addq	$1784, %rsp
	.cfi_def_cfa_offset 40
	popq	%rbx
	.cfi_def_cfa_offset 32
	popq	%r12
	.cfi_def_cfa_offset 24
	popq	%r14
	.cfi_def_cfa_offset 16
	popq	%r15
	.cfi_def_cfa_offset 8
	retq
.LBBc3a76_12:
	.cfi_def_cfa_offset 1824
	leaq	232(%rsp), %r15
	leaq	272(%rsp), %r12
	movl	$1512, %edx
	movq	%r12, %rdi
	xorl	%esi, %esi
	callq	memset@PLT
	movq	%r15, %rdi
	movq	%r12, %rsi
	callq	"eap_packet::expanded::write_plain"
	testb	%al, %al
	je	.LBBc3a76_21
	movq	1776(%rsp), %rax
	cmpq	$4, %rax
	jb	.LBBc3a76_9
	movzbl	272(%rsp), %ecx
	leal	-5(%rcx), %edx
	cmpb	$-4, %dl
	jb	.LBBc3a76_9
	movzwl	274(%rsp), %edi
	movl	%edi, %edx
	rolw	$8, %dx
	movzwl	%dx, %edx
	xorl	%esi, %esi
	cmpw	$5, %dx
	setae	%sil
	xorl	%r8d, %r8d
	cmpl	$1024, %edi
	sete	%r8b
	cmpb	$3, %cl
	cmovael	%r8d, %esi
	xorl	%ebx, %ebx
	cmpl	$1500, %edx
	ja	.LBBc3a76_10
	testb	%sil, %sil
	je	.LBBc3a76_10
	cmpq	%rdx, %rax
	jb	.LBBc3a76_10
	cmpb	$2, %cl
	jne	.LBBc3a76_10
	cmpb	$51, 276(%rsp)
	jne	.LBBc3a76_10
	movzwl	274(%rsp), %eax
	rolw	$8, %ax
	movzwl	%ax, %edx
	addq	$-5, %rdx
	leaq	277(%rsp), %rsi
	jmp	.LBBc3a76_25
.LBBc3a76_21:
	xorps	%xmm0, %xmm0
	movaps	%xmm0, 208(%rsp)
	movaps	%xmm0, 192(%rsp)
	movaps	%xmm0, 176(%rsp)
	leaq	176(%rsp), %rdi
	movq	%r14, %rsi
	movq	%rbx, %rdx
	callq	"eap_packet::packet::decode"
	xorl	%ebx, %ebx
	cmpb	$1, 176(%rsp)
	je	.LBBc3a76_10
	cmpb	$1, 184(%rsp)
	jne	.LBBc3a76_10
	cmpb	$51, 186(%rsp)
	jne	.LBBc3a76_10
	movq	192(%rsp), %rsi
	movq	200(%rsp), %rdx
.LBBc3a76_25:
	xorps	%xmm0, %xmm0
	movaps	%xmm0, 144(%rsp)
	movaps	%xmm0, 128(%rsp)
	movaps	%xmm0, 112(%rsp)
	movaps	%xmm0, 96(%rsp)
	movaps	%xmm0, 80(%rsp)
	movaps	%xmm0, 64(%rsp)
	movaps	%xmm0, 48(%rsp)
	movaps	%xmm0, 32(%rsp)
	movaps	%xmm0, 16(%rsp)
	movaps	%xmm0, (%rsp)
	movq	$0, 160(%rsp)
	movq	%rsp, %rdi
	xorl	%ebx, %ebx
	xorl	%ecx, %ecx
	xorl	%r8d, %r8d
	callq	"gpsk_messages::reading::read_gpsk_message"
	cmpb	$0, (%rsp)
	jne	.LBBc3a76_10
	movzbl	8(%rsp), %eax
	cmpl	$4, %eax
	jb	.LBBc3a76_9
	cmpl	$5, %eax
	movl	12(%rsp), %eax
	xorl	%ebx, %ebx
	cmpl	$4, %eax
	cmovbl	%eax, %ebx
	jmp	.LBBc3a76_10
.Lfunc_endc3a76:
	.size	"tuvaddri_c::failure::peer_failure", .Lfunc_endc3a76-"tuvaddri_c::failure::peer_failure"
	.cfi_endproc

	.section	".text.eap_method::peer_objects::start_one::<#807681be332d694b>","ax",@progbits
	.p2align	4
	.type	"eap_method::peer_objects::start_one::<#807681be332d694b>",@function
"eap_method::peer_objects::start_one::<#807681be332d694b>":
	.cfi_startproc
	pushq	%rbp
	.cfi_def_cfa_offset 16
	pushq	%r15
	.cfi_def_cfa_offset 24
	pushq	%r14
	.cfi_def_cfa_offset 32
	pushq	%r12
	.cfi_def_cfa_offset 40
	pushq	%rbx
	.cfi_def_cfa_offset 48
	subq	$1248, %rsp
	.cfi_def_cfa_offset 1296
	.cfi_offset %rbx, -48
	.cfi_offset %r12, -40
	.cfi_offset %r14, -32
	.cfi_offset %r15, -24
	.cfi_offset %rbp, -16
	movq	%rdi, %rbx
	cmpb	$0, (%rdi)
	setne	%al
	shlb	$2, %al
	addb	$47, %al
	movq	544(%rsi), %rcx
	xorl	%edx, %edx
	.p2align	4
.LBB34e17_1:
	cmpq	%rdx, %rcx
	je	.LBB34e17_7
	cmpb	%al, 536(%rsi,%rdx)
	leaq	1(%rdx), %rdx
	jne	.LBB34e17_1
	movzbl	%al, %edx
	leaq	624(%rsp), %r14
	movq	%r14, %rdi
	movq	%rsi, %r15
	callq	"eap_method::peer_objects::credential_for"
	movq	%rsp, %r12
	movl	$624, %edx
	movq	%r12, %rdi
	movq	%r14, %rsi
	callq	memcpy@PLT
	movzbl	(%rbx), %ebp
	leaq	8(%rbx), %rdi
	movq	%r12, %rsi
	callq	"eap_method::peer_side::PeerSide::set"
	movups	728(%r15), %xmm0
	movups	744(%r15), %xmm1
	movups	%xmm1, 648(%rbx)
	movups	%xmm0, 632(%rbx)
	testb	%bpl, %bpl
	je	.LBB34e17_4
	movq	$1, 664(%rbx)
	addq	$672, %rbx
	movl	$490, %edx
	jmp	.LBB34e17_6
.LBB34e17_4:
	movb	$1, 664(%rbx)
	addq	$665, %rbx
	movl	$578, %edx
.LBB34e17_6:
	movq	%rbx, %rdi
	xorl	%esi, %esi
	callq	memset@PLT
.LBB34e17_7:
	addq	$1248, %rsp
	.cfi_def_cfa_offset 48
	popq	%rbx
	.cfi_def_cfa_offset 40
	popq	%r12
	.cfi_def_cfa_offset 32
	popq	%r14
	.cfi_def_cfa_offset 24
	popq	%r15
	.cfi_def_cfa_offset 16
	popq	%rbp
	.cfi_def_cfa_offset 8
	retq
.Lfunc_end34e17:
	.size	"eap_method::peer_objects::start_one::<#807681be332d694b>", .Lfunc_end34e17-"eap_method::peer_objects::start_one::<#807681be332d694b>"
	.cfi_endproc

	.section	".text.eap_method::peer_objects::credential_for","ax",@progbits
	.p2align	4
	.type	"eap_method::peer_objects::credential_for",@function
"eap_method::peer_objects::credential_for":
	.cfi_startproc
	pushq	%rbp
	.cfi_def_cfa_offset 16
	pushq	%r15
	.cfi_def_cfa_offset 24
	pushq	%r14
	.cfi_def_cfa_offset 32
	pushq	%r12
	.cfi_def_cfa_offset 40
	pushq	%rbx
	.cfi_def_cfa_offset 48
	subq	$1152, %rsp
	.cfi_def_cfa_offset 1200
	.cfi_offset %rbx, -48
	.cfi_offset %r12, -40
	.cfi_offset %r14, -32
	.cfi_offset %r15, -24
	.cfi_offset %rbp, -16
	movl	%edx, %ebp
	movq	%rsi, %r14
	movq	%rdi, %rbx
	movq	256(%rsi), %r15
	leaq	96(%rsp), %rdi
	movl	$264, %edx
	xorl	%esi, %esi
	callq	memset@PLT
	cmpq	$253, %r15
	ja	.LBBfa811_2
	leaq	96(%rsp), %rdi
	movq	%r14, %rsi
	movq	%r15, %rdx
	callq	memcpy@PLT
	movq	%r15, 352(%rsp)
.LBBfa811_2:
	leaq	624(%rsp), %rdi
	movl	$264, %edx
	xorl	%esi, %esi
	callq	memset@PLT
	movzbl	264(%r14), %r12d
	testq	%r12, %r12
	je	.LBBfa811_6
	movq	528(%r14), %r15
	leaq	360(%rsp), %rdi
	movl	$264, %edx
	xorl	%esi, %esi
	callq	memset@PLT
	cmpq	$253, %r15
	ja	.LBBfa811_5
	leaq	272(%r14), %rsi
	leaq	360(%rsp), %rdi
	movq	%r15, %rdx
	callq	memcpy@PLT
	movq	%r15, 616(%rsp)
.LBBfa811_5:
	leaq	624(%rsp), %rdi
	leaq	360(%rsp), %rsi
	movl	$264, %edx
	callq	memcpy@PLT
.LBBfa811_6:
	leaq	888(%rsp), %rdi
	leaq	624(%rsp), %rsi
	movl	$264, %edx
	callq	memcpy@PLT
	movq	560(%r14), %r15
	xorps	%xmm0, %xmm0
	movaps	%xmm0, (%rsp)
	cmpq	$2, %r15
	ja	.LBBfa811_8
	leaq	552(%r14), %rsi
	movq	%rsp, %rdi
	movq	%r15, %rdx
	callq	memcpy@PLT
	movq	%r15, 8(%rsp)
.LBBfa811_8:
	cmpb	$51, %bpl
	je	.LBBfa811_11
	movzbl	%bpl, %eax
	cmpl	$47, %eax
	jne	.LBBfa811_13
	movzbl	568(%r14), %eax
	addq	$576, %r14
	jmp	.LBBfa811_12
.LBBfa811_11:
	movzbl	648(%r14), %eax
	addq	$656, %r14
.LBBfa811_12:
	xorl	%esi, %esi
	cmpb	$1, %al
	cmoveq	%r14, %rsi
	testb	%al, %al
	je	.LBBfa811_13
	movq	64(%rsi), %r14
	xorps	%xmm0, %xmm0
	movaps	%xmm0, 64(%rsp)
	movaps	%xmm0, 48(%rsp)
	movaps	%xmm0, 32(%rsp)
	movaps	%xmm0, 16(%rsp)
	movq	$0, 80(%rsp)
	cmpq	$64, %r14
	ja	.LBBfa811_16
	leaq	16(%rsp), %rdi
	movq	%r14, %rdx
	callq	memcpy@PLT
	movq	%r14, 80(%rsp)
	jmp	.LBBfa811_16
.LBBfa811_13:
	xorps	%xmm0, %xmm0
	movaps	%xmm0, 64(%rsp)
	movaps	%xmm0, 48(%rsp)
	movaps	%xmm0, 32(%rsp)
	movaps	%xmm0, 16(%rsp)
	movq	$0, 80(%rsp)
.LBBfa811_16:
	leaq	96(%rsp), %rsi
	movl	$264, %edx
	movq	%rbx, %rdi
	callq	memcpy@PLT
	movq	%r12, 264(%rbx)
	leaq	272(%rbx), %rdi
	leaq	888(%rsp), %rsi
	movl	$264, %edx
	callq	memcpy@PLT
	movaps	(%rsp), %xmm0
	movups	%xmm0, 536(%rbx)
	movq	80(%rsp), %rax
	movq	%rax, 616(%rbx)
	movaps	16(%rsp), %xmm0
	movaps	32(%rsp), %xmm1
	movaps	48(%rsp), %xmm2
	movaps	64(%rsp), %xmm3
	movups	%xmm3, 600(%rbx)
	movups	%xmm2, 584(%rbx)
	movups	%xmm1, 568(%rbx)
	movups	%xmm0, 552(%rbx)
	addq	$1152, %rsp
	.cfi_def_cfa_offset 48
	popq	%rbx
	.cfi_def_cfa_offset 40
	popq	%r12
	.cfi_def_cfa_offset 32
	popq	%r14
	.cfi_def_cfa_offset 24
	popq	%r15
	.cfi_def_cfa_offset 16
	popq	%rbp
	.cfi_def_cfa_offset 8
	retq
.Lfunc_endfa811:
	.size	"eap_method::peer_objects::credential_for", .Lfunc_endfa811-"eap_method::peer_objects::credential_for"
	.cfi_endproc

	.section	".text.eap_method::peer_side::PeerSide::set","ax",@progbits
	.p2align	4
	.type	"eap_method::peer_side::PeerSide::set",@function
"eap_method::peer_side::PeerSide::set":
	.cfi_startproc
	pushq	%r15
	.cfi_def_cfa_offset 16
	pushq	%r14
	.cfi_def_cfa_offset 24
	pushq	%r12
	.cfi_def_cfa_offset 32
	pushq	%rbx
	.cfi_def_cfa_offset 40
	pushq	%rax
	.cfi_def_cfa_offset 48
	.cfi_offset %rbx, -40
	.cfi_offset %r12, -32
	.cfi_offset %r14, -24
	.cfi_offset %r15, -16
	movq	%rsi, %r14
	movq	%rdi, %rbx
	movq	256(%rsi), %r15
	movq	256(%rdi), %rdx
	testq	%rdx, %rdx
	je	.LBBc41ce_2
	movq	%rbx, %rdi
	xorl	%esi, %esi
	callq	memset@PLT
	movq	$0, 256(%rbx)
.LBBc41ce_2:
	cmpq	$253, %r15
	ja	.LBBc41ce_22
	movq	%rbx, %rax
	subq	%r14, %rax
	cmpq	%r15, %rax
	jae	.LBBc41ce_6
	cmpq	$4, %r15
	setb	%cl
	cmpq	$32, %rax
	setb	%al
	orb	%cl, %al
	je	.LBBc41ce_7
	xorl	%eax, %eax
	jmp	.LBBc41ce_16
.LBBc41ce_6:
	movq	%rbx, %rdi
	movq	%r14, %rsi
	movq	%r15, %rdx
	callq	memmove@PLT
	jmp	.LBBc41ce_21
.LBBc41ce_7:
	cmpq	$32, %r15
	jae	.LBBc41ce_9
	xorl	%eax, %eax
	jmp	.LBBc41ce_13
.LBBc41ce_9:
	movl	%r15d, %eax
	andl	$224, %eax
	xorl	%ecx, %ecx
	.p2align	4
.LBBc41ce_10:
	movups	(%r14,%rcx), %xmm0
	movups	16(%r14,%rcx), %xmm1
	movups	%xmm0, (%rbx,%rcx)
	movups	%xmm1, 16(%rbx,%rcx)
	addq	$32, %rcx
	cmpq	%rcx, %rax
	jne	.LBBc41ce_10
	cmpq	%rax, %r15
	je	.LBBc41ce_21
	testb	$28, %r15b
	je	.LBBc41ce_16
.LBBc41ce_13:
	movq	%rax, %rcx
	movl	%r15d, %eax
	andl	$252, %eax
	.p2align	4
.LBBc41ce_14:
	movl	(%r14,%rcx), %edx
	movl	%edx, (%rbx,%rcx)
	addq	$4, %rcx
	cmpq	%rcx, %rax
	jne	.LBBc41ce_14
	cmpq	%rax, %r15
	je	.LBBc41ce_21
.LBBc41ce_16:
	movq	%r15, %rdx
	movq	%rax, %rcx
	andq	$3, %rdx
	je	.LBBc41ce_19
	movq	%rax, %rcx
	.p2align	4
.LBBc41ce_18:
	movzbl	(%r14,%rcx), %esi
	movb	%sil, (%rbx,%rcx)
	incq	%rcx
	decq	%rdx
	jne	.LBBc41ce_18
.LBBc41ce_19:
	subq	%r15, %rax
	cmpq	$-4, %rax
	ja	.LBBc41ce_21
	.p2align	4
.LBBc41ce_20:
	movzbl	(%r14,%rcx), %eax
	movb	%al, (%rbx,%rcx)
	movzbl	1(%r14,%rcx), %eax
	movb	%al, 1(%rbx,%rcx)
	movzbl	2(%r14,%rcx), %eax
	movb	%al, 2(%rbx,%rcx)
	movzbl	3(%r14,%rcx), %eax
	movb	%al, 3(%rbx,%rcx)
	addq	$4, %rcx
	cmpq	%rcx, %r15
	jne	.LBBc41ce_20
.LBBc41ce_21:
	movq	%r15, 256(%rbx)
.LBBc41ce_22:
	leaq	536(%rbx), %r12
	movq	544(%r14), %r15
	movq	544(%rbx), %rdx
	testq	%rdx, %rdx
	je	.LBBc41ce_24
	movq	%r12, %rdi
	xorl	%esi, %esi
	callq	memset@PLT
	movq	$0, 544(%rbx)
.LBBc41ce_24:
	cmpq	$2, %r15
	ja	.LBBc41ce_30
	leaq	536(%r14), %rsi
	movq	%r12, %rax
	subq	%rsi, %rax
	cmpq	%r15, %rax
	jae	.LBBc41ce_28
	xorl	%eax, %eax
	.p2align	4
.LBBc41ce_27:
	movzbl	(%rsi,%rax), %ecx
	movb	%cl, (%r12,%rax)
	incq	%rax
	cmpq	%rax, %r15
	jne	.LBBc41ce_27
	jmp	.LBBc41ce_29
.LBBc41ce_28:
	movq	%r12, %rdi
	movq	%r15, %rdx
	callq	memmove@PLT
.LBBc41ce_29:
	movq	%r15, 544(%rbx)
.LBBc41ce_30:
	leaq	552(%rbx), %r12
	movq	616(%r14), %r15
	movq	616(%rbx), %rdx
	testq	%rdx, %rdx
	je	.LBBc41ce_32
	movq	%r12, %rdi
	xorl	%esi, %esi
	callq	memset@PLT
	movq	$0, 616(%rbx)
.LBBc41ce_32:
	cmpq	$64, %r15
	ja	.LBBc41ce_52
	leaq	552(%r14), %rsi
	movq	%r12, %rax
	subq	%rsi, %rax
	cmpq	%r15, %rax
	jae	.LBBc41ce_36
	cmpq	$4, %r15
	setb	%al
	movq	%rbx, %rcx
	subq	%r14, %rcx
	cmpq	$32, %rcx
	setb	%cl
	orb	%al, %cl
	je	.LBBc41ce_37
	xorl	%eax, %eax
	jmp	.LBBc41ce_46
.LBBc41ce_36:
	movq	%r12, %rdi
	movq	%r15, %rdx
	callq	memmove@PLT
	jmp	.LBBc41ce_51
.LBBc41ce_37:
	cmpq	$32, %r15
	jae	.LBBc41ce_39
	xorl	%eax, %eax
	jmp	.LBBc41ce_43
.LBBc41ce_39:
	movl	%r15d, %eax
	andl	$96, %eax
	xorl	%ecx, %ecx
	.p2align	4
.LBBc41ce_40:
	movups	552(%r14,%rcx), %xmm0
	movups	568(%r14,%rcx), %xmm1
	movups	%xmm0, 552(%rbx,%rcx)
	movups	%xmm1, 568(%rbx,%rcx)
	addq	$32, %rcx
	cmpq	%rcx, %rax
	jne	.LBBc41ce_40
	cmpq	%rax, %r15
	je	.LBBc41ce_51
	testb	$28, %r15b
	je	.LBBc41ce_46
.LBBc41ce_43:
	movq	%rax, %rcx
	movl	%r15d, %eax
	andl	$124, %eax
	.p2align	4
.LBBc41ce_44:
	movl	(%rsi,%rcx), %edx
	movl	%edx, (%r12,%rcx)
	addq	$4, %rcx
	cmpq	%rcx, %rax
	jne	.LBBc41ce_44
	cmpq	%rax, %r15
	je	.LBBc41ce_51
.LBBc41ce_46:
	movq	%r15, %rdx
	movq	%rax, %rcx
	andq	$3, %rdx
	je	.LBBc41ce_49
	movq	%rax, %rcx
	.p2align	4
.LBBc41ce_48:
	movzbl	(%rsi,%rcx), %edi
	movb	%dil, (%r12,%rcx)
	incq	%rcx
	decq	%rdx
	jne	.LBBc41ce_48
.LBBc41ce_49:
	subq	%r15, %rax
	cmpq	$-4, %rax
	ja	.LBBc41ce_51
	.p2align	4
.LBBc41ce_50:
	movzbl	552(%r14,%rcx), %eax
	movb	%al, 552(%rbx,%rcx)
	movzbl	553(%r14,%rcx), %eax
	movb	%al, 553(%rbx,%rcx)
	movzbl	554(%r14,%rcx), %eax
	movb	%al, 554(%rbx,%rcx)
	movzbl	555(%r14,%rcx), %eax
	movb	%al, 555(%rbx,%rcx)
	addq	$4, %rcx
	cmpq	%rcx, %r15
	jne	.LBBc41ce_50
.LBBc41ce_51:
	movq	%r15, 616(%rbx)
.LBBc41ce_52:
	cmpb	$0, 264(%r14)
	je	.LBBc41ce_59
	movb	$1, 528(%rbx)
	leaq	264(%rbx), %r12
	movq	528(%r14), %r15
	movq	520(%rbx), %rdx
	testq	%rdx, %rdx
	je	.LBBc41ce_55
	movq	%r12, %rdi
	xorl	%esi, %esi
	callq	memset@PLT
	movq	$0, 520(%rbx)
.LBBc41ce_55:
	cmpq	$253, %r15
	ja	.LBBc41ce_79
	leaq	272(%r14), %rsi
	movq	%r12, %rax
	subq	%rsi, %rax
	cmpq	%r15, %rax
	jae	.LBBc41ce_61
	cmpq	$4, %r15
	jb	.LBBc41ce_58
	movq	%rbx, %rax
	subq	%r14, %rax
	addq	$-8, %rax
	cmpq	$32, %rax
	jae	.LBBc41ce_64
.LBBc41ce_58:
	xorl	%eax, %eax
.LBBc41ce_73:
	movq	%r15, %rdx
	movq	%rax, %rcx
	andq	$3, %rdx
	je	.LBBc41ce_76
	movq	%rax, %rcx
	.p2align	4
.LBBc41ce_75:
	movzbl	(%rsi,%rcx), %edi
	movb	%dil, (%r12,%rcx)
	incq	%rcx
	decq	%rdx
	jne	.LBBc41ce_75
.LBBc41ce_76:
	subq	%r15, %rax
	cmpq	$-4, %rax
	ja	.LBBc41ce_78
	.p2align	4
.LBBc41ce_77:
	movzbl	272(%r14,%rcx), %eax
	movb	%al, 264(%rbx,%rcx)
	movzbl	273(%r14,%rcx), %eax
	movb	%al, 265(%rbx,%rcx)
	movzbl	274(%r14,%rcx), %eax
	movb	%al, 266(%rbx,%rcx)
	movzbl	275(%r14,%rcx), %eax
	movb	%al, 267(%rbx,%rcx)
	addq	$4, %rcx
	cmpq	%rcx, %r15
	jne	.LBBc41ce_77
	jmp	.LBBc41ce_78
.LBBc41ce_59:
	movb	$0, 528(%rbx)
	movq	520(%rbx), %rdx
	testq	%rdx, %rdx
	je	.LBBc41ce_79
	leaq	264(%rbx), %rdi
	xorl	%esi, %esi
	callq	memset@PLT
	movq	$0, 520(%rbx)
	jmp	.LBBc41ce_79
.LBBc41ce_61:
	movq	%r12, %rdi
	movq	%r15, %rdx
	callq	memmove@PLT
.LBBc41ce_78:
	movq	%r15, 520(%rbx)
.LBBc41ce_79:
	addq	$8, %rsp
	.cfi_def_cfa_offset 40
	popq	%rbx
	.cfi_def_cfa_offset 32
	popq	%r12
	.cfi_def_cfa_offset 24
	popq	%r14
	.cfi_def_cfa_offset 16
	popq	%r15
	.cfi_def_cfa_offset 8
	retq
.LBBc41ce_64:
	.cfi_def_cfa_offset 48
	cmpq	$32, %r15
	jae	.LBBc41ce_66
	xorl	%eax, %eax
	jmp	.LBBc41ce_70
.LBBc41ce_66:
	movl	%r15d, %eax
	andl	$224, %eax
	xorl	%ecx, %ecx
	.p2align	4
.LBBc41ce_67:
	movups	272(%r14,%rcx), %xmm0
	movups	288(%r14,%rcx), %xmm1
	movups	%xmm0, 264(%rbx,%rcx)
	movups	%xmm1, 280(%rbx,%rcx)
	addq	$32, %rcx
	cmpq	%rcx, %rax
	jne	.LBBc41ce_67
	cmpq	%rax, %r15
	je	.LBBc41ce_78
	testb	$28, %r15b
	je	.LBBc41ce_73
.LBBc41ce_70:
	movq	%rax, %rcx
	movl	%r15d, %eax
	andl	$252, %eax
	.p2align	4
.LBBc41ce_71:
	movl	(%rsi,%rcx), %edx
	movl	%edx, (%r12,%rcx)
	addq	$4, %rcx
	cmpq	%rcx, %rax
	jne	.LBBc41ce_71
	cmpq	%rax, %r15
	je	.LBBc41ce_78
	jmp	.LBBc41ce_73
.Lfunc_endc41ce:
	.size	"eap_method::peer_side::PeerSide::set", .Lfunc_endc41ce-"eap_method::peer_side::PeerSide::set"
	.cfi_endproc

	.section	".text.tuvaddri_c::restart::restart_server","ax",@progbits
	.p2align	4
	.type	"tuvaddri_c::restart::restart_server",@function
"tuvaddri_c::restart::restart_server":
	.cfi_startproc
	pushq	%rbp
	.cfi_def_cfa_offset 16
	pushq	%r15
	.cfi_def_cfa_offset 24
	pushq	%r14
	.cfi_def_cfa_offset 32
	pushq	%r13
	.cfi_def_cfa_offset 40
	pushq	%r12
	.cfi_def_cfa_offset 48
	pushq	%rbx
	.cfi_def_cfa_offset 56
	subq	$1512, %rsp
	.cfi_def_cfa_offset 1568
	.cfi_offset %rbx, -56
	.cfi_offset %r12, -48
	.cfi_offset %r13, -40
	.cfi_offset %r14, -32
	.cfi_offset %r15, -24
	.cfi_offset %rbp, -16
	movzbl	(%rsi), %eax
	movl	$463, %ecx
	btl	%eax, %ecx
	jae	.LBB2658f_1
.LBB2658f_33:
	movb	$0, 2632(%rsi)
	movb	$1, %al
	xorl	%r12d, %r12d
	xorl	%ebp, %ebp
.LBB2658f_34:
	movb	%r12b, (%rdi)
	movb	$0, 1(%rdi)
	movb	%al, 2(%rdi)
	movb	$0, 3(%rdi)
	movb	%bpl, 4(%rdi)
	addq	$1512, %rsp
	.cfi_def_cfa_offset 56
	popq	%rbx
	.cfi_def_cfa_offset 48
	popq	%r12
	.cfi_def_cfa_offset 40
	popq	%r13
	.cfi_def_cfa_offset 32
	popq	%r14
	.cfi_def_cfa_offset 24
	popq	%r15
	.cfi_def_cfa_offset 16
	popq	%rbp
	.cfi_def_cfa_offset 8
	retq
.LBB2658f_1:
	.cfi_def_cfa_offset 1568
	cmpl	$4, %eax
	jne	.LBB2658f_24
	movq	1848(%rsi), %rax
	testq	%rax, %rax
	je	.LBB2658f_8
	movq	8(%rsi), %rcx
	movq	16(%rsi), %r8
	leaq	1840(%rsi), %r9
	incq	%r8
.LBB2658f_5:
	decq	%rax
	movzbl	(%r9), %r10d
	incq	%r9
	movq	%r8, %r11
	movq	%rcx, %rbx
	.p2align	4
.LBB2658f_6:
	decq	%r11
	je	.LBB2658f_33
	cmpb	$0, (%rbx)
	leaq	1256(%rbx), %rbx
	setne	%bpl
	shlb	$2, %bpl
	addb	$47, %bpl
	cmpb	%r10b, %bpl
	jne	.LBB2658f_6
	testq	%rax, %rax
	jne	.LBB2658f_5
.LBB2658f_8:
	movq	%rdi, %r15
	leaq	8(%rsi), %rbx
	movq	%rsp, %rdi
	xorl	%r13d, %r13d
	movq	%rdx, %r14
	movl	$1512, %edx
	movq	%rsi, %r12
	xorl	%esi, %esi
	callq	memset@PLT
	movq	%rbx, %rdi
	movq	%r14, %rsi
	callq	"server_machine::machine::SizedServer::make_again::<#575f94f35bca5e04>"
	movq	%r12, %rax
	cmpb	$1, 32(%r12)
	je	.LBB2658f_15
	movzbl	33(%rax), %ecx
	movzbl	%cl, %ebx
	movq	1504(%rsp), %rdx
	testq	%rdx, %rdx
	je	.LBB2658f_11
	movq	%rsp, %rdi
	xorl	%esi, %esi
	callq	memset@PLT
	movq	%r12, %rax
.LBB2658f_11:
	movl	%ebx, %ecx
	shll	$8, %ecx
	orl	$83886081, %ecx
	movl	%ecx, (%rsp)
	movb	$1, 4(%rsp)
	movq	$5, 1504(%rsp)
	movw	$257, 35(%rax)
	movb	%bl, 37(%rax)
	movl	$65793, 38(%rax)
	leaq	64(%rax), %rbx
	movq	1568(%rax), %rdx
	testq	%rdx, %rdx
	je	.LBB2658f_13
	movq	%rbx, %rdi
	xorl	%esi, %esi
	callq	memset@PLT
	movq	%r12, %rax
.LBB2658f_13:
	movzbl	4(%rsp), %ecx
	movb	%cl, 4(%rbx)
	movl	(%rsp), %ecx
	movl	%ecx, (%rbx)
	movq	$5, 1568(%rax)
	movq	56(%rax), %rdx
	movb	$1, %r13b
	testq	%rdx, %rdx
	je	.LBB2658f_15
	leaq	48(%rax), %rdi
	xorl	%esi, %esi
	callq	memset@PLT
	movq	%r12, %rax
	movq	$0, 56(%r12)
.LBB2658f_15:
	movq	2624(%rax), %rbx
	movq	1504(%rbx), %rdx
	testq	%rdx, %rdx
	je	.LBB2658f_17
	movq	%rbx, %rdi
	xorl	%esi, %esi
	callq	memset@PLT
	movq	%r12, %rax
	movq	$0, 1504(%rbx)
	movq	2624(%r12), %rbx
.LBB2658f_17:
	movq	%r15, %rdi
	movq	1504(%rsp), %r14
	movzbl	35(%rax), %ebp
	movb	%r13b, 2632(%rax)
	testb	%r13b, %r13b
	je	.LBB2658f_18
	movq	1504(%rbx), %rdx
	testq	%rdx, %rdx
	je	.LBB2658f_21
	movq	%rbx, %rdi
	xorl	%esi, %esi
	callq	memset@PLT
	movq	%r15, %rdi
	movq	$0, 1504(%rbx)
.LBB2658f_21:
	movb	$1, %r12b
	cmpq	$1500, %r14
	jbe	.LBB2658f_23
	xorl	%eax, %eax
	jmp	.LBB2658f_34
.LBB2658f_24:
	movq	1848(%rsi), %rax
	testq	%rax, %rax
	je	.LBB2658f_30
	movq	8(%rsi), %rcx
	movq	16(%rsi), %r8
	leaq	1840(%rsi), %r9
	incq	%r8
.LBB2658f_27:
	decq	%rax
	movzbl	(%r9), %r10d
	incq	%r9
	movq	%r8, %r11
	movq	%rcx, %rbx
	.p2align	4
.LBB2658f_28:
	decq	%r11
	je	.LBB2658f_33
	cmpb	$0, (%rbx)
	leaq	1256(%rbx), %rbx
	setne	%bpl
	shlb	$2, %bpl
	addb	$47, %bpl
	cmpb	%r10b, %bpl
	jne	.LBB2658f_28
	testq	%rax, %rax
	jne	.LBB2658f_27
.LBB2658f_30:
	movq	%rdi, %r14
	leaq	8(%rsi), %rdi
	movq	%rsi, %r15
	movq	%rdx, %rsi
	callq	"server_machine::machine::SizedServer::make_again::<#575f94f35bca5e04>"
	movq	%r15, %rax
	movq	2624(%r15), %rbx
	movq	1504(%rbx), %rdx
	testq	%rdx, %rdx
	je	.LBB2658f_32
	movq	%rbx, %rdi
	xorl	%esi, %esi
	callq	memset@PLT
	movq	%r15, %rax
	movq	$0, 1504(%rbx)
.LBB2658f_32:
	movzbl	35(%rax), %ebp
	movb	$0, 2632(%rax)
	xorl	%r12d, %r12d
	xorl	%eax, %eax
	movq	%r14, %rdi
	jmp	.LBB2658f_34
.LBB2658f_18:
	xorl	%r12d, %r12d
	xorl	%eax, %eax
	jmp	.LBB2658f_34
.LBB2658f_23:
	movq	%rsp, %rsi
	movq	%rbx, %rdi
	movq	%r14, %rdx
	callq	memcpy@PLT
	movq	%r15, %rdi
	movq	%r14, 1504(%rbx)
	xorl	%eax, %eax
	jmp	.LBB2658f_34
.Lfunc_end2658f:
	.size	"tuvaddri_c::restart::restart_server", .Lfunc_end2658f-"tuvaddri_c::restart::restart_server"
	.cfi_endproc

	.section	.rodata.cst16,"aM",@progbits,16
	.p2align	4, 0x0
.LCPIe0596_0:
	.byte	26,1
	.zero	1
	.byte	0
	.zero	1
	.zero	1
	.zero	1
	.zero	1
	.zero	1
	.zero	1
	.zero	1
	.zero	1
	.zero	1
	.zero	1
	.zero	1
	.zero	1
.LCPIe0596_1:
	.byte	26,1,0,0,0,0,0,0,0,0,0,0,0,0,0,0
	.section	".text.pass_through::machine::PassThrough::from_backend_step","ax",@progbits
	.p2align	4
	.type	"pass_through::machine::PassThrough::from_backend_step",@function
"pass_through::machine::PassThrough::from_backend_step":
	.cfi_startproc
	pushq	%rbp
	.cfi_def_cfa_offset 16
	pushq	%r15
	.cfi_def_cfa_offset 24
	pushq	%r14
	.cfi_def_cfa_offset 32
	pushq	%r13
	.cfi_def_cfa_offset 40
	pushq	%r12
	.cfi_def_cfa_offset 48
	pushq	%rbx
	.cfi_def_cfa_offset 56
	subq	$72, %rsp
	.cfi_def_cfa_offset 128
	.cfi_offset %rbx, -56
	.cfi_offset %r12, -48
	.cfi_offset %r13, -40
	.cfi_offset %r14, -32
	.cfi_offset %r15, -24
	.cfi_offset %rbp, -16
	movzbl	2(%rsi), %r10d
	movb	$18, %r9b
	movb	$1, %al
	xorl	%r15d, %r15d
	xorl	%r13d, %r13d
	xorl	%ebp, %ebp
	movl	$1064828927, %r11d
	btq	%r10, %r11
	jae	.LBBe0596_3
	movb	$17, %r9b
	xorl	%ebp, %ebp
	xorl	%r13d, %r13d
	xorl	%r15d, %r15d
	xorl	%ebx, %ebx
.LBBe0596_2:
	movb	%r13b, (%rdi)
	movl	%ebp, 1(%rdi)
	movb	$0, 7(%rdi)
	movw	$0, 5(%rdi)
	movq	%r15, 8(%rdi)
	movb	%al, 16(%rdi)
	movb	%r9b, 17(%rdi)
	movb	%bl, 18(%rdi)
	addq	$72, %rsp
	.cfi_def_cfa_offset 56
	popq	%rbx
	.cfi_def_cfa_offset 48
	popq	%r12
	.cfi_def_cfa_offset 40
	popq	%r13
	.cfi_def_cfa_offset 32
	popq	%r14
	.cfi_def_cfa_offset 24
	popq	%r15
	.cfi_def_cfa_offset 16
	popq	%rbp
	.cfi_def_cfa_offset 8
	retq
.LBBe0596_3:
	.cfi_def_cfa_offset 128
	movabsq	$7516717056, %r11
	btq	%r10, %r11
	movl	$0, %ebx
	jb	.LBBe0596_2
	movq	%r8, %r15
	movq	%rsi, 8(%rsp)
	movq	%rdi, %r12
	pxor	%xmm0, %xmm0
	movdqa	%xmm0, 48(%rsp)
	movdqa	%xmm0, 32(%rsp)
	movdqa	%xmm0, 16(%rsp)
	leaq	16(%rsp), %rdi
	movq	%rdx, %rsi
	movq	%rcx, %rdx
	callq	"eap_packet::packet::decode"
	cmpb	$1, 16(%rsp)
	jne	.LBBe0596_7
	movb	$1, %al
	movzbl	17(%rsp), %r9d
.LBBe0596_6:
	xorl	%ebp, %ebp
	xorl	%r13d, %r13d
	xorl	%r15d, %r15d
	xorl	%ebx, %ebx
	movq	%r12, %rdi
	jmp	.LBBe0596_2
.LBBe0596_7:
	movzbl	24(%rsp), %eax
	movq	48(%rsp), %r14
	movq	56(%rsp), %r10
	movzbl	%al, %ecx
	leaq	.LJTIe0596_0(%rip), %rdx
	movslq	(%rdx,%rcx,4), %rcx
	addq	%rdx, %rcx
	jmpq	*%rcx
.LBBe0596_8:
	movzbl	25(%rsp), %ebx
	movq	%r15, %rdi
	movq	1504(%r15), %rdx
	testq	%rdx, %rdx
	je	.LBBe0596_10
	xorl	%esi, %esi
	movq	%r10, %r13
	callq	memset@PLT
	movq	%r13, %r10
	movq	%r15, %rdi
	movq	$0, 1504(%r15)
.LBBe0596_10:
	cmpq	$1500, %r10
	movq	8(%rsp), %rax
	ja	.LBBe0596_79
	movq	%rdi, %rcx
	subq	%r14, %rcx
	cmpq	%r10, %rcx
	jae	.LBBe0596_29
	cmpq	$4, %r10
	setb	%dl
	cmpq	$32, %rcx
	setb	%cl
	orb	%dl, %cl
	je	.LBBe0596_34
	xorl	%ecx, %ecx
	jmp	.LBBe0596_73
.LBBe0596_14:
	movq	%r15, %rax
	movq	1504(%r15), %rdx
	testq	%rdx, %rdx
	je	.LBBe0596_16
	movq	%rax, %rdi
	xorl	%esi, %esi
	movq	%r10, %rbx
	callq	memset@PLT
	movq	%rbx, %r10
	movq	%r15, %rax
	movq	$0, 1504(%r15)
.LBBe0596_16:
	cmpq	$1500, %r10
	movq	%r12, %rdi
	movq	8(%rsp), %rcx
	ja	.LBBe0596_49
	movq	%rax, %rdx
	subq	%r14, %rdx
	cmpq	%r10, %rdx
	jae	.LBBe0596_27
	cmpq	$4, %r10
	setb	%sil
	cmpq	$32, %rdx
	setb	%dl
	orb	%sil, %dl
	je	.LBBe0596_30
	xorl	%edx, %edx
	jmp	.LBBe0596_43
.LBBe0596_20:
	movq	%r15, %rax
	movq	1504(%r15), %rdx
	testq	%rdx, %rdx
	je	.LBBe0596_22
	movq	%rax, %rdi
	xorl	%esi, %esi
	movq	%r10, %rbx
	callq	memset@PLT
	movq	%rbx, %r10
	movq	%r15, %rax
	movq	$0, 1504(%r15)
.LBBe0596_22:
	cmpq	$1500, %r10
	movq	%r12, %rdi
	movq	8(%rsp), %rcx
	ja	.LBBe0596_63
	movq	%rax, %rdx
	subq	%r14, %rdx
	cmpq	%r10, %rdx
	jae	.LBBe0596_28
	cmpq	$4, %r10
	setb	%sil
	cmpq	$32, %rdx
	setb	%dl
	orb	%sil, %dl
	je	.LBBe0596_32
	xorl	%edx, %edx
	jmp	.LBBe0596_57
.LBBe0596_26:
	movb	$7, %r9b
	jmp	.LBBe0596_6
.LBBe0596_27:
	movq	%rax, %rdi
	movq	%r14, %rsi
	movq	%r10, %rdx
	movq	%r10, %rbx
	callq	memmove@PLT
	movq	%rbx, %r10
	movq	%r15, %rax
	movq	8(%rsp), %rcx
	movq	%r12, %rdi
	jmp	.LBBe0596_48
.LBBe0596_28:
	movq	%rax, %rdi
	movq	%r14, %rsi
	movq	%r10, %rdx
	movq	%r10, %rbx
	callq	memmove@PLT
	movq	%rbx, %r10
	movq	%r15, %rax
	movq	8(%rsp), %rcx
	movq	%r12, %rdi
	jmp	.LBBe0596_62
.LBBe0596_29:
	movq	%r14, %rsi
	movq	%r10, %rdx
	movq	%r10, %r13
	callq	memmove@PLT
	movq	%r13, %r10
	movq	%r15, %rdi
	movq	8(%rsp), %rax
	jmp	.LBBe0596_78
.LBBe0596_30:
	cmpq	$32, %r10
	jae	.LBBe0596_36
	xorl	%edx, %edx
	jmp	.LBBe0596_40
.LBBe0596_32:
	cmpq	$32, %r10
	jae	.LBBe0596_50
	xorl	%edx, %edx
	jmp	.LBBe0596_54
.LBBe0596_34:
	cmpq	$32, %r10
	jae	.LBBe0596_66
	xorl	%ecx, %ecx
	jmp	.LBBe0596_70
.LBBe0596_36:
	movl	%r10d, %edx
	andl	$2016, %edx
	xorl	%esi, %esi
.LBBe0596_37:
	movdqu	(%r14,%rsi), %xmm0
	movups	16(%r14,%rsi), %xmm1
	movdqu	%xmm0, (%rax,%rsi)
	movups	%xmm1, 16(%rax,%rsi)
	addq	$32, %rsi
	cmpq	%rsi, %rdx
	jne	.LBBe0596_37
	cmpq	%rdx, %r10
	je	.LBBe0596_48
	testb	$28, %r10b
	je	.LBBe0596_43
.LBBe0596_40:
	movq	%rdx, %rsi
	movl	%r10d, %edx
	andl	$2044, %edx
.LBBe0596_41:
	movl	(%r14,%rsi), %r8d
	movl	%r8d, (%rax,%rsi)
	addq	$4, %rsi
	cmpq	%rsi, %rdx
	jne	.LBBe0596_41
	cmpq	%rdx, %r10
	je	.LBBe0596_48
.LBBe0596_43:
	movq	%r10, %r8
	movq	%rdx, %rsi
	andq	$3, %r8
	je	.LBBe0596_46
	movq	%rdx, %rsi
.LBBe0596_45:
	movzbl	(%r14,%rsi), %r9d
	movb	%r9b, (%rax,%rsi)
	incq	%rsi
	decq	%r8
	jne	.LBBe0596_45
.LBBe0596_46:
	subq	%r10, %rdx
	cmpq	$-4, %rdx
	ja	.LBBe0596_48
.LBBe0596_47:
	movzbl	(%r14,%rsi), %edx
	movb	%dl, (%rax,%rsi)
	movzbl	1(%r14,%rsi), %edx
	movb	%dl, 1(%rax,%rsi)
	movzbl	2(%r14,%rsi), %edx
	movb	%dl, 2(%rax,%rsi)
	movzbl	3(%r14,%rsi), %edx
	movb	%dl, 3(%rax,%rsi)
	addq	$4, %rsi
	cmpq	%rsi, %r10
	jne	.LBBe0596_47
.LBBe0596_48:
	movq	%r10, 1504(%rax)
.LBBe0596_49:
	movb	$30, 2(%rcx)
	movb	$1, %bl
	movl	$1, %r15d
	movb	$30, %r13b
	jmp	.LBBe0596_64
.LBBe0596_50:
	movl	%r10d, %edx
	andl	$2016, %edx
	xorl	%esi, %esi
.LBBe0596_51:
	movdqu	(%r14,%rsi), %xmm0
	movups	16(%r14,%rsi), %xmm1
	movdqu	%xmm0, (%rax,%rsi)
	movups	%xmm1, 16(%rax,%rsi)
	addq	$32, %rsi
	cmpq	%rsi, %rdx
	jne	.LBBe0596_51
	cmpq	%rdx, %r10
	je	.LBBe0596_62
	testb	$28, %r10b
	je	.LBBe0596_57
.LBBe0596_54:
	movq	%rdx, %rsi
	movl	%r10d, %edx
	andl	$2044, %edx
.LBBe0596_55:
	movl	(%r14,%rsi), %r8d
	movl	%r8d, (%rax,%rsi)
	addq	$4, %rsi
	cmpq	%rsi, %rdx
	jne	.LBBe0596_55
	cmpq	%rdx, %r10
	je	.LBBe0596_62
.LBBe0596_57:
	movq	%r10, %r8
	movq	%rdx, %rsi
	andq	$3, %r8
	je	.LBBe0596_60
	movq	%rdx, %rsi
.LBBe0596_59:
	movzbl	(%r14,%rsi), %r9d
	movb	%r9b, (%rax,%rsi)
	incq	%rsi
	decq	%r8
	jne	.LBBe0596_59
.LBBe0596_60:
	subq	%r10, %rdx
	cmpq	$-4, %rdx
	ja	.LBBe0596_62
.LBBe0596_61:
	movzbl	(%r14,%rsi), %edx
	movb	%dl, (%rax,%rsi)
	movzbl	1(%r14,%rsi), %edx
	movb	%dl, 1(%rax,%rsi)
	movzbl	2(%r14,%rsi), %edx
	movb	%dl, 2(%rax,%rsi)
	movzbl	3(%r14,%rsi), %edx
	movb	%dl, 3(%rax,%rsi)
	addq	$4, %rsi
	cmpq	%rsi, %r10
	jne	.LBBe0596_61
.LBBe0596_62:
	movq	%r10, 1504(%rax)
.LBBe0596_63:
	movb	$31, 2(%rcx)
	movb	$1, %bl
	movl	$1, %r15d
	movb	$31, %r13b
.LBBe0596_64:
	xorl	%ebp, %ebp
.LBBe0596_65:
	xorl	%eax, %eax
	xorl	%r9d, %r9d
	jmp	.LBBe0596_2
.LBBe0596_66:
	movl	%r10d, %ecx
	andl	$2016, %ecx
	xorl	%edx, %edx
.LBBe0596_67:
	movdqu	(%r14,%rdx), %xmm0
	movups	16(%r14,%rdx), %xmm1
	movdqu	%xmm0, (%rdi,%rdx)
	movups	%xmm1, 16(%rdi,%rdx)
	addq	$32, %rdx
	cmpq	%rdx, %rcx
	jne	.LBBe0596_67
	cmpq	%rcx, %r10
	je	.LBBe0596_78
	testb	$28, %r10b
	je	.LBBe0596_73
.LBBe0596_70:
	movq	%rcx, %rdx
	movl	%r10d, %ecx
	andl	$2044, %ecx
.LBBe0596_71:
	movl	(%r14,%rdx), %esi
	movl	%esi, (%rdi,%rdx)
	addq	$4, %rdx
	cmpq	%rdx, %rcx
	jne	.LBBe0596_71
	cmpq	%rcx, %r10
	je	.LBBe0596_78
.LBBe0596_73:
	movq	%r10, %rsi
	movq	%rcx, %rdx
	andq	$3, %rsi
	je	.LBBe0596_76
	movq	%rcx, %rdx
.LBBe0596_75:
	movzbl	(%r14,%rdx), %r8d
	movb	%r8b, (%rdi,%rdx)
	incq	%rdx
	decq	%rsi
	jne	.LBBe0596_75
.LBBe0596_76:
	subq	%r10, %rcx
	cmpq	$-4, %rcx
	ja	.LBBe0596_78
.LBBe0596_77:
	movzbl	(%r14,%rdx), %ecx
	movb	%cl, (%rdi,%rdx)
	movzbl	1(%r14,%rdx), %ecx
	movb	%cl, 1(%rdi,%rdx)
	movzbl	2(%r14,%rdx), %ecx
	movb	%cl, 2(%rdi,%rdx)
	movzbl	3(%r14,%rdx), %ecx
	movb	%cl, 3(%rdi,%rdx)
	addq	$4, %rdx
	cmpq	%rdx, %r10
	jne	.LBBe0596_77
.LBBe0596_78:
	movq	%r10, 1504(%rdi)
.LBBe0596_79:
	movzbl	%bl, %ecx
	movd	.LCPIe0596_1(%rip), %xmm0
	pinsrb	$2, %ecx, %xmm0
	movd	%xmm0, 2(%rax)
	leaq	8(%rax), %r9
	movq	1512(%rax), %rdx
	testq	%rdx, %rdx
	je	.LBBe0596_81
	movq	%r9, %rdi
	xorl	%esi, %esi
	movq	%r10, %rbx
	movq	%r9, %r15
	callq	memset@PLT
	movq	%r15, %r9
	movq	%rbx, %r10
	movq	8(%rsp), %rax
	movq	$0, 1512(%rax)
.LBBe0596_81:
	movb	$1, %bl
	movl	$3, %r15d
	movb	$24, %r13b
	movl	$6681, %ebp
	cmpq	$1500, %r10
	jbe	.LBBe0596_83
	xorl	%eax, %eax
	xorl	%r9d, %r9d
	movq	%r12, %rdi
	jmp	.LBBe0596_2
.LBBe0596_83:
	movq	%r9, %rcx
	subq	%r14, %rcx
	cmpq	%r10, %rcx
	jae	.LBBe0596_86
	cmpq	$4, %r10
	movq	%r12, %rdi
	jb	.LBBe0596_85
	movq	%rax, %rcx
	subq	%r14, %rcx
	addq	$8, %rcx
	cmpq	$32, %rcx
	jae	.LBBe0596_89
.LBBe0596_85:
	xorl	%ecx, %ecx
.LBBe0596_98:
	movq	%r10, %rsi
	movq	%rcx, %rdx
	andq	$3, %rsi
	je	.LBBe0596_101
	movq	%rcx, %rdx
.LBBe0596_100:
	movzbl	(%r14,%rdx), %r8d
	movb	%r8b, (%r9,%rdx)
	incq	%rdx
	decq	%rsi
	jne	.LBBe0596_100
.LBBe0596_101:
	subq	%r10, %rcx
	cmpq	$-4, %rcx
	ja	.LBBe0596_103
.LBBe0596_102:
	movzbl	(%r14,%rdx), %ecx
	movb	%cl, 8(%rax,%rdx)
	movzbl	1(%r14,%rdx), %ecx
	movb	%cl, 9(%rax,%rdx)
	movzbl	2(%r14,%rdx), %ecx
	movb	%cl, 10(%rax,%rdx)
	movzbl	3(%r14,%rdx), %ecx
	movb	%cl, 11(%rax,%rdx)
	addq	$4, %rdx
	cmpq	%rdx, %r10
	jne	.LBBe0596_102
.LBBe0596_103:
	movq	%r10, 1512(%rax)
	jmp	.LBBe0596_65
.LBBe0596_86:
	movq	%r9, %rdi
	movq	%r14, %rsi
	movq	%r10, %rdx
	movq	%r10, %r14
	callq	memmove@PLT
	movq	8(%rsp), %rax
	movq	%r12, %rdi
	movq	%r14, 1512(%rax)
	jmp	.LBBe0596_65
.LBBe0596_89:
	cmpq	$32, %r10
	jae	.LBBe0596_91
	xorl	%ecx, %ecx
	jmp	.LBBe0596_95
.LBBe0596_91:
	movl	%r10d, %ecx
	andl	$2016, %ecx
	xorl	%edx, %edx
.LBBe0596_92:
	movdqu	(%r14,%rdx), %xmm0
	movups	16(%r14,%rdx), %xmm1
	movdqu	%xmm0, 8(%rax,%rdx)
	movups	%xmm1, 24(%rax,%rdx)
	addq	$32, %rdx
	cmpq	%rdx, %rcx
	jne	.LBBe0596_92
	cmpq	%rcx, %r10
	je	.LBBe0596_103
	testb	$28, %r10b
	je	.LBBe0596_98
.LBBe0596_95:
	movq	%rcx, %rdx
	movl	%r10d, %ecx
	andl	$2044, %ecx
.LBBe0596_96:
	movl	(%r14,%rdx), %esi
	movl	%esi, (%r9,%rdx)
	addq	$4, %rdx
	cmpq	%rdx, %rcx
	jne	.LBBe0596_96
	cmpq	%rcx, %r10
	je	.LBBe0596_103
	jmp	.LBBe0596_98
.Lfunc_ende0596:
	.size	"pass_through::machine::PassThrough::from_backend_step", .Lfunc_ende0596-"pass_through::machine::PassThrough::from_backend_step"
	.cfi_endproc
	.section	".rodata.pass_through::machine::PassThrough::from_backend_step","a",@progbits
	.p2align	2, 0x0
.LJTIe0596_0:
	.long	.LBBe0596_8-.LJTIe0596_0
	.long	.LBBe0596_26-.LJTIe0596_0
	.long	.LBBe0596_14-.LJTIe0596_0
	.long	.LBBe0596_20-.LJTIe0596_0

	.section	".text.pass_through::machine::PassThrough::from_peer_step","ax",@progbits
	.p2align	4
	.type	"pass_through::machine::PassThrough::from_peer_step",@function
"pass_through::machine::PassThrough::from_peer_step":
	.cfi_startproc
	pushq	%r15
	.cfi_def_cfa_offset 16
	pushq	%r14
	.cfi_def_cfa_offset 24
	pushq	%r13
	.cfi_def_cfa_offset 32
	pushq	%r12
	.cfi_def_cfa_offset 40
	pushq	%rbx
	.cfi_def_cfa_offset 48
	subq	$48, %rsp
	.cfi_def_cfa_offset 96
	.cfi_offset %rbx, -48
	.cfi_offset %r12, -40
	.cfi_offset %r13, -32
	.cfi_offset %r14, -24
	.cfi_offset %r15, -16
	movzbl	2(%rsi), %r9d
	movb	$1, %al
	leaq	.LJTI405eb_0(%rip), %r10
	movslq	(%r10,%r9,4), %r9
	addq	%r10, %r9
	jmpq	*%r9
.LBB405eb_1:
	movb	$17, %dl
.LBB405eb_2:
	xorl	%ecx, %ecx
	xorl	%r8d, %r8d
.LBB405eb_3:
	xorl	%esi, %esi
.LBB405eb_4:
	movq	%rcx, (%rdi)
	movq	%r8, 8(%rdi)
	movb	%al, 16(%rdi)
	movb	%dl, 17(%rdi)
	movb	%sil, 18(%rdi)
	addq	$48, %rsp
	.cfi_def_cfa_offset 48
	popq	%rbx
	.cfi_def_cfa_offset 40
	popq	%r12
	.cfi_def_cfa_offset 32
	popq	%r13
	.cfi_def_cfa_offset 24
	popq	%r14
	.cfi_def_cfa_offset 16
	popq	%r15
	.cfi_def_cfa_offset 8
	retq
.LBB405eb_5:
	.cfi_def_cfa_offset 96
	movb	$18, %dl
	jmp	.LBB405eb_2
.LBB405eb_6:
	movq	%r8, %r13
	movq	%rsi, %r12
	movq	%rdi, %r15
	xorps	%xmm0, %xmm0
	movaps	%xmm0, 32(%rsp)
	movaps	%xmm0, 16(%rsp)
	movaps	%xmm0, (%rsp)
	movq	%rsp, %rdi
	movq	%rdx, %rsi
	movq	%rcx, %rdx
	callq	"eap_packet::packet::decode"
	cmpb	$1, (%rsp)
	jne	.LBB405eb_10
	movb	$1, %al
	movl	$1711387, %ecx
	movzbl	1(%rsp), %edx
	xorl	%esi, %esi
	movq	%r15, %rdi
	movl	$3, %r8d
	jmp	.LBB405eb_4
.LBB405eb_8:
	movq	%r8, %r13
	movq	%rsi, %r12
	movq	%rdi, %r15
	xorps	%xmm0, %xmm0
	movaps	%xmm0, 32(%rsp)
	movaps	%xmm0, 16(%rsp)
	movaps	%xmm0, (%rsp)
	movq	%rsp, %rdi
	movq	%rdx, %rsi
	movq	%rcx, %rdx
	callq	"eap_packet::packet::decode"
	cmpb	$1, (%rsp)
	jne	.LBB405eb_19
	movb	$1, %al
	movl	$3, %r8d
	movl	$67842, %ecx
	movzbl	1(%rsp), %edx
	xorl	%esi, %esi
	movq	%r15, %rdi
	jmp	.LBB405eb_4
.LBB405eb_10:
	movb	$1, %al
	movl	$1711387, %ecx
	cmpb	$1, 8(%rsp)
	movq	%r15, %rdi
	jne	.LBB405eb_29
	movb	$12, %dl
	cmpb	$1, 3(%r12)
	jne	.LBB405eb_32
	movq	%r12, %rsi
	movzbl	9(%rsp), %r8d
	cmpb	%r8b, 4(%r12)
	jne	.LBB405eb_32
	movq	32(%rsp), %r14
	movq	40(%rsp), %rbx
	movq	%r13, %rax
	movq	1504(%r13), %rdx
	testq	%rdx, %rdx
	je	.LBB405eb_15
	movq	%rax, %rdi
	xorl	%esi, %esi
	callq	memset@PLT
	movq	%r13, %rax
	movq	%r12, %rsi
	movq	%r15, %rdi
	movq	$0, 1504(%r13)
.LBB405eb_15:
	cmpq	$1500, %rbx
	ja	.LBB405eb_51
	movq	%rax, %rcx
	subq	%r14, %rcx
	cmpq	%rbx, %rcx
	jae	.LBB405eb_34
	cmpq	$4, %rbx
	setb	%dl
	cmpq	$32, %rcx
	setb	%cl
	orb	%dl, %cl
	je	.LBB405eb_35
	xorl	%ecx, %ecx
	jmp	.LBB405eb_45
.LBB405eb_19:
	movb	$1, %al
	movl	$3, %r8d
	movl	$67842, %ecx
	cmpb	$1, 8(%rsp)
	movq	%r15, %rdi
	jne	.LBB405eb_30
	movb	$12, %dl
	cmpb	$1, 3(%r12)
	jne	.LBB405eb_3
	movq	%r12, %rsi
	movzbl	9(%rsp), %r9d
	cmpb	%r9b, 4(%r12)
	jne	.LBB405eb_3
	cmpb	$1, 10(%rsp)
	jne	.LBB405eb_33
	movq	32(%rsp), %r14
	movq	40(%rsp), %rbx
	movq	%r13, %rax
	movq	1504(%r13), %rdx
	testq	%rdx, %rdx
	je	.LBB405eb_25
	movq	%rax, %rdi
	xorl	%esi, %esi
	callq	memset@PLT
	movq	%r13, %rax
	movq	%r12, %rsi
	movq	%r15, %rdi
	movq	$0, 1504(%r13)
.LBB405eb_25:
	cmpq	$1500, %rbx
	ja	.LBB405eb_67
	movq	%rax, %rcx
	subq	%r14, %rcx
	cmpq	%rbx, %rcx
	jae	.LBB405eb_37
	cmpq	$4, %rbx
	setb	%dl
	cmpq	$32, %rcx
	setb	%cl
	orb	%dl, %cl
	je	.LBB405eb_52
	xorl	%ecx, %ecx
	jmp	.LBB405eb_61
.LBB405eb_29:
	movb	$7, %dl
	xorl	%esi, %esi
	movl	$3, %r8d
	jmp	.LBB405eb_4
.LBB405eb_30:
	movb	$7, %dl
	jmp	.LBB405eb_3
.LBB405eb_32:
	xorl	%esi, %esi
	movl	$3, %r8d
	jmp	.LBB405eb_4
.LBB405eb_33:
	movb	$16, %dl
	jmp	.LBB405eb_3
.LBB405eb_34:
	movq	%rax, %rdi
	movq	%r14, %rsi
	movq	%rbx, %rdx
	callq	memmove@PLT
	movq	%r13, %rax
	movq	%r12, %rsi
	movq	%r15, %rdi
	jmp	.LBB405eb_50
.LBB405eb_35:
	cmpq	$32, %rbx
	jae	.LBB405eb_38
	xorl	%ecx, %ecx
	jmp	.LBB405eb_42
.LBB405eb_37:
	movq	%rax, %rdi
	movq	%r14, %rsi
	movq	%rbx, %rdx
	callq	memmove@PLT
	movq	%r13, %rax
	movq	%r12, %rsi
	movq	%r15, %rdi
	jmp	.LBB405eb_66
.LBB405eb_38:
	movl	%ebx, %ecx
	andl	$2016, %ecx
	xorl	%edx, %edx
.LBB405eb_39:
	movups	(%r14,%rdx), %xmm0
	movups	16(%r14,%rdx), %xmm1
	movups	%xmm0, (%rax,%rdx)
	movups	%xmm1, 16(%rax,%rdx)
	addq	$32, %rdx
	cmpq	%rdx, %rcx
	jne	.LBB405eb_39
	cmpq	%rcx, %rbx
	je	.LBB405eb_50
	testb	$28, %bl
	je	.LBB405eb_45
.LBB405eb_42:
	movq	%rcx, %rdx
	movl	%ebx, %ecx
	andl	$2044, %ecx
.LBB405eb_43:
	movl	(%r14,%rdx), %r8d
	movl	%r8d, (%rax,%rdx)
	addq	$4, %rdx
	cmpq	%rdx, %rcx
	jne	.LBB405eb_43
	cmpq	%rcx, %rbx
	je	.LBB405eb_50
.LBB405eb_45:
	movq	%rbx, %r8
	movq	%rcx, %rdx
	andq	$3, %r8
	je	.LBB405eb_48
	movq	%rcx, %rdx
.LBB405eb_47:
	movzbl	(%r14,%rdx), %r9d
	movb	%r9b, (%rax,%rdx)
	incq	%rdx
	decq	%r8
	jne	.LBB405eb_47
.LBB405eb_48:
	subq	%rbx, %rcx
	cmpq	$-4, %rcx
	ja	.LBB405eb_50
.LBB405eb_49:
	movzbl	(%r14,%rdx), %ecx
	movb	%cl, (%rax,%rdx)
	movzbl	1(%r14,%rdx), %ecx
	movb	%cl, 1(%rax,%rdx)
	movzbl	2(%r14,%rdx), %ecx
	movb	%cl, 2(%rax,%rdx)
	movzbl	3(%r14,%rdx), %ecx
	movb	%cl, 3(%rax,%rdx)
	addq	$4, %rdx
	cmpq	%rdx, %rbx
	jne	.LBB405eb_49
.LBB405eb_50:
	movq	%rbx, 1504(%rax)
.LBB405eb_51:
	movb	$23, 2(%rsi)
	movb	$1, %sil
	movl	$1512987, %ecx
	xorl	%eax, %eax
	xorl	%edx, %edx
	movl	$3, %r8d
	jmp	.LBB405eb_4
.LBB405eb_52:
	cmpq	$32, %rbx
	jae	.LBB405eb_54
	xorl	%ecx, %ecx
	jmp	.LBB405eb_58
.LBB405eb_54:
	movl	%ebx, %ecx
	andl	$2016, %ecx
	xorl	%edx, %edx
.LBB405eb_55:
	movups	(%r14,%rdx), %xmm0
	movups	16(%r14,%rdx), %xmm1
	movups	%xmm0, (%rax,%rdx)
	movups	%xmm1, 16(%rax,%rdx)
	addq	$32, %rdx
	cmpq	%rdx, %rcx
	jne	.LBB405eb_55
	cmpq	%rcx, %rbx
	movq	%r15, %rdi
	movq	%r12, %rsi
	je	.LBB405eb_66
	testb	$28, %bl
	je	.LBB405eb_61
.LBB405eb_58:
	movq	%rcx, %rdx
	movl	%ebx, %ecx
	andl	$2044, %ecx
.LBB405eb_59:
	movl	(%r14,%rdx), %r8d
	movl	%r8d, (%rax,%rdx)
	addq	$4, %rdx
	cmpq	%rdx, %rcx
	jne	.LBB405eb_59
	cmpq	%rcx, %rbx
	je	.LBB405eb_66
.LBB405eb_61:
	movq	%rbx, %r8
	movq	%rcx, %rdx
	andq	$3, %r8
	je	.LBB405eb_64
	movq	%rcx, %rdx
.LBB405eb_63:
	movzbl	(%r14,%rdx), %r9d
	movb	%r9b, (%rax,%rdx)
	incq	%rdx
	decq	%r8
	jne	.LBB405eb_63
.LBB405eb_64:
	subq	%rbx, %rcx
	cmpq	$-4, %rcx
	ja	.LBB405eb_66
.LBB405eb_65:
	movzbl	(%r14,%rdx), %ecx
	movb	%cl, (%rax,%rdx)
	movzbl	1(%r14,%rdx), %ecx
	movb	%cl, 1(%rax,%rdx)
	movzbl	2(%r14,%rdx), %ecx
	movb	%cl, 2(%rax,%rdx)
	movzbl	3(%r14,%rdx), %ecx
	movb	%cl, 3(%rax,%rdx)
	addq	$4, %rdx
	cmpq	%rdx, %rbx
	jne	.LBB405eb_65
.LBB405eb_66:
	movq	%rbx, 1504(%rax)
.LBB405eb_67:
	movb	$23, 2(%rsi)
	movb	$1, %sil
	movl	$7, %r8d
	movabsq	$6498204116979970, %rcx
	xorl	%eax, %eax
	xorl	%edx, %edx
	jmp	.LBB405eb_4
.Lfunc_end405eb:
	.size	"pass_through::machine::PassThrough::from_peer_step", .Lfunc_end405eb-"pass_through::machine::PassThrough::from_peer_step"
	.cfi_endproc
	.section	".rodata.pass_through::machine::PassThrough::from_peer_step","a",@progbits
	.p2align	2, 0x0
.LJTI405eb_0:
	.long	.LBB405eb_1-.LJTI405eb_0
	.long	.LBB405eb_8-.LJTI405eb_0
	.long	.LBB405eb_1-.LJTI405eb_0
	.long	.LBB405eb_1-.LJTI405eb_0
	.long	.LBB405eb_1-.LJTI405eb_0
	.long	.LBB405eb_1-.LJTI405eb_0
	.long	.LBB405eb_1-.LJTI405eb_0
	.long	.LBB405eb_1-.LJTI405eb_0
	.long	.LBB405eb_1-.LJTI405eb_0
	.long	.LBB405eb_1-.LJTI405eb_0
	.long	.LBB405eb_1-.LJTI405eb_0
	.long	.LBB405eb_1-.LJTI405eb_0
	.long	.LBB405eb_1-.LJTI405eb_0
	.long	.LBB405eb_1-.LJTI405eb_0
	.long	.LBB405eb_1-.LJTI405eb_0
	.long	.LBB405eb_1-.LJTI405eb_0
	.long	.LBB405eb_1-.LJTI405eb_0
	.long	.LBB405eb_1-.LJTI405eb_0
	.long	.LBB405eb_1-.LJTI405eb_0
	.long	.LBB405eb_5-.LJTI405eb_0
	.long	.LBB405eb_1-.LJTI405eb_0
	.long	.LBB405eb_1-.LJTI405eb_0
	.long	.LBB405eb_1-.LJTI405eb_0
	.long	.LBB405eb_1-.LJTI405eb_0
	.long	.LBB405eb_1-.LJTI405eb_0
	.long	.LBB405eb_1-.LJTI405eb_0
	.long	.LBB405eb_6-.LJTI405eb_0
	.long	.LBB405eb_1-.LJTI405eb_0
	.long	.LBB405eb_1-.LJTI405eb_0
	.long	.LBB405eb_1-.LJTI405eb_0
	.long	.LBB405eb_5-.LJTI405eb_0
	.long	.LBB405eb_5-.LJTI405eb_0
	.long	.LBB405eb_5-.LJTI405eb_0

	.section	".text.pass_through::machine::PassThrough::timeout_step","ax",@progbits
	.p2align	4
	.type	"pass_through::machine::PassThrough::timeout_step",@function
"pass_through::machine::PassThrough::timeout_step":
	.cfi_startproc
	pushq	%r15
	.cfi_def_cfa_offset 16
	pushq	%r14
	.cfi_def_cfa_offset 24
	pushq	%r12
	.cfi_def_cfa_offset 32
	pushq	%rbx
	.cfi_def_cfa_offset 40
	subq	$24, %rsp
	.cfi_def_cfa_offset 64
	.cfi_offset %rbx, -40
	.cfi_offset %r12, -32
	.cfi_offset %r14, -24
	.cfi_offset %r15, -16
	movq	%rdx, %r15
	movq	%rsi, %r14
	movq	%rdi, %rbx
	cmpb	$1, 2(%rsi)
	jne	.LBB143bd_3
	movzbl	5(%r14), %eax
	incb	%al
	movb	%al, 5(%r14)
	cmpb	1(%r14), %al
	jbe	.LBB143bd_5
	movb	$19, 2(%r14)
	movw	$0, 4(%rsp)
	movl	$0, (%rsp)
	movb	$19, %cl
	xorl	%eax, %eax
	jmp	.LBB143bd_41
.LBB143bd_3:
	movzbl	5(%r14), %eax
	incb	%al
	movb	%al, 5(%r14)
	cmpb	1(%r14), %al
	jbe	.LBB143bd_11
	movb	$32, 2(%r14)
	movw	$0, 4(%rsp)
	movl	$0, (%rsp)
	movb	$32, %cl
	xorl	%eax, %eax
	jmp	.LBB143bd_56
.LBB143bd_5:
	movq	1512(%r14), %r12
	movq	1504(%r15), %rdx
	testq	%rdx, %rdx
	je	.LBB143bd_7
	movq	%r15, %rdi
	xorl	%esi, %esi
	callq	memset@PLT
	movq	$0, 1504(%r15)
.LBB143bd_7:
	cmpq	$1500, %r12
	ja	.LBB143bd_40
	leaq	8(%r14), %rsi
	movq	%r15, %rax
	subq	%rsi, %rax
	cmpq	%r12, %rax
	jae	.LBB143bd_17
	cmpq	$4, %r12
	jb	.LBB143bd_10
	movq	%r15, %rax
	subq	%r14, %rax
	addq	$-8, %rax
	cmpq	$32, %rax
	jae	.LBB143bd_23
.LBB143bd_10:
	xorl	%eax, %eax
.LBB143bd_34:
	movq	%r12, %rdx
	movq	%rax, %rcx
	andq	$3, %rdx
	je	.LBB143bd_37
	movq	%rax, %rcx
	.p2align	4
.LBB143bd_36:
	movzbl	(%rsi,%rcx), %edi
	movb	%dil, (%r15,%rcx)
	incq	%rcx
	decq	%rdx
	jne	.LBB143bd_36
.LBB143bd_37:
	subq	%r12, %rax
	cmpq	$-4, %rax
	ja	.LBB143bd_39
	.p2align	4
.LBB143bd_38:
	movzbl	8(%r14,%rcx), %eax
	movb	%al, (%r15,%rcx)
	movzbl	9(%r14,%rcx), %eax
	movb	%al, 1(%r15,%rcx)
	movzbl	10(%r14,%rcx), %eax
	movb	%al, 2(%r15,%rcx)
	movzbl	11(%r14,%rcx), %eax
	movb	%al, 3(%r15,%rcx)
	addq	$4, %rcx
	cmpq	%rcx, %r12
	jne	.LBB143bd_38
	jmp	.LBB143bd_39
.LBB143bd_11:
	movq	1512(%r14), %r12
	movq	1504(%r15), %rdx
	testq	%rdx, %rdx
	je	.LBB143bd_13
	movq	%r15, %rdi
	xorl	%esi, %esi
	callq	memset@PLT
	movq	$0, 1504(%r15)
.LBB143bd_13:
	cmpq	$1500, %r12
	ja	.LBB143bd_55
	leaq	8(%r14), %rsi
	movq	%r15, %rax
	subq	%rsi, %rax
	cmpq	%r12, %rax
	jae	.LBB143bd_18
	cmpq	$4, %r12
	jb	.LBB143bd_16
	movq	%r15, %rax
	subq	%r14, %rax
	addq	$-8, %rax
	cmpq	$32, %rax
	jae	.LBB143bd_25
.LBB143bd_16:
	xorl	%eax, %eax
.LBB143bd_49:
	movq	%r12, %rdx
	movq	%rax, %rcx
	andq	$3, %rdx
	je	.LBB143bd_52
	movq	%rax, %rcx
	.p2align	4
.LBB143bd_51:
	movzbl	(%rsi,%rcx), %edi
	movb	%dil, (%r15,%rcx)
	incq	%rcx
	decq	%rdx
	jne	.LBB143bd_51
.LBB143bd_52:
	subq	%r12, %rax
	cmpq	$-4, %rax
	ja	.LBB143bd_54
	.p2align	4
.LBB143bd_53:
	movzbl	8(%r14,%rcx), %eax
	movb	%al, (%r15,%rcx)
	movzbl	9(%r14,%rcx), %eax
	movb	%al, 1(%r15,%rcx)
	movzbl	10(%r14,%rcx), %eax
	movb	%al, 2(%r15,%rcx)
	movzbl	11(%r14,%rcx), %eax
	movb	%al, 3(%r15,%rcx)
	addq	$4, %rcx
	cmpq	%rcx, %r12
	jne	.LBB143bd_53
	jmp	.LBB143bd_54
.LBB143bd_17:
	movq	%r15, %rdi
	movq	%r12, %rdx
	callq	memmove@PLT
.LBB143bd_39:
	movq	%r12, 1504(%r15)
.LBB143bd_40:
	movb	$1, 2(%r14)
	movw	$0, 4(%rsp)
	movl	$0, (%rsp)
	movb	$1, %cl
	movb	$1, %al
.LBB143bd_41:
	movzwl	4(%rsp), %edx
	movw	%dx, 12(%rsp)
	movl	(%rsp), %edx
	movl	%edx, 8(%rsp)
	movl	$0, 16(%rsp)
	movl	$0, 19(%rsp)
	movb	$7, %dl
	jmp	.LBB143bd_57
.LBB143bd_18:
	movq	%r15, %rdi
	movq	%r12, %rdx
	callq	memmove@PLT
.LBB143bd_54:
	movq	%r12, 1504(%r15)
.LBB143bd_55:
	movb	$26, 2(%r14)
	movw	$0, 4(%rsp)
	movl	$0, (%rsp)
	movb	$1, %al
	movb	$26, %cl
.LBB143bd_56:
	movzwl	4(%rsp), %edx
	movw	%dx, 12(%rsp)
	movl	(%rsp), %edx
	movl	%edx, 8(%rsp)
	movl	$0, 16(%rsp)
	movl	$0, 19(%rsp)
	movb	$28, %dl
.LBB143bd_57:
	movb	%dl, (%rbx)
	movb	%cl, 1(%rbx)
	movl	8(%rsp), %ecx
	movl	%ecx, 2(%rbx)
	movzwl	12(%rsp), %ecx
	movw	%cx, 6(%rbx)
	movb	$2, 8(%rbx)
	movl	16(%rsp), %ecx
	movl	19(%rsp), %edx
	movl	%ecx, 9(%rbx)
	movl	%edx, 12(%rbx)
	movw	$0, 16(%rbx)
	movb	%al, 18(%rbx)
	addq	$24, %rsp
	.cfi_def_cfa_offset 40
	popq	%rbx
	.cfi_def_cfa_offset 32
	popq	%r12
	.cfi_def_cfa_offset 24
	popq	%r14
	.cfi_def_cfa_offset 16
	popq	%r15
	.cfi_def_cfa_offset 8
	retq
.LBB143bd_23:
	.cfi_def_cfa_offset 64
	cmpq	$32, %r12
	jae	.LBB143bd_27
	xorl	%eax, %eax
	jmp	.LBB143bd_31
.LBB143bd_25:
	cmpq	$32, %r12
	jae	.LBB143bd_42
	xorl	%eax, %eax
	jmp	.LBB143bd_46
.LBB143bd_27:
	movl	%r12d, %eax
	andl	$2016, %eax
	xorl	%ecx, %ecx
	.p2align	4
.LBB143bd_28:
	movups	8(%r14,%rcx), %xmm0
	movups	24(%r14,%rcx), %xmm1
	movups	%xmm0, (%r15,%rcx)
	movups	%xmm1, 16(%r15,%rcx)
	addq	$32, %rcx
	cmpq	%rcx, %rax
	jne	.LBB143bd_28
	cmpq	%rax, %r12
	je	.LBB143bd_39
	testb	$28, %r12b
	je	.LBB143bd_34
.LBB143bd_31:
	movq	%rax, %rcx
	movl	%r12d, %eax
	andl	$2044, %eax
	.p2align	4
.LBB143bd_32:
	movl	(%rsi,%rcx), %edx
	movl	%edx, (%r15,%rcx)
	addq	$4, %rcx
	cmpq	%rcx, %rax
	jne	.LBB143bd_32
	cmpq	%rax, %r12
	je	.LBB143bd_39
	jmp	.LBB143bd_34
.LBB143bd_42:
	movl	%r12d, %eax
	andl	$2016, %eax
	xorl	%ecx, %ecx
	.p2align	4
.LBB143bd_43:
	movups	8(%r14,%rcx), %xmm0
	movups	24(%r14,%rcx), %xmm1
	movups	%xmm0, (%r15,%rcx)
	movups	%xmm1, 16(%r15,%rcx)
	addq	$32, %rcx
	cmpq	%rcx, %rax
	jne	.LBB143bd_43
	cmpq	%rax, %r12
	je	.LBB143bd_54
	testb	$28, %r12b
	je	.LBB143bd_49
.LBB143bd_46:
	movq	%rax, %rcx
	movl	%r12d, %eax
	andl	$2044, %eax
	.p2align	4
.LBB143bd_47:
	movl	(%rsi,%rcx), %edx
	movl	%edx, (%r15,%rcx)
	addq	$4, %rcx
	cmpq	%rcx, %rax
	jne	.LBB143bd_47
	cmpq	%rax, %r12
	je	.LBB143bd_54
	jmp	.LBB143bd_49
.Lfunc_end143bd:
	.size	"pass_through::machine::PassThrough::timeout_step", .Lfunc_end143bd-"pass_through::machine::PassThrough::timeout_step"
	.cfi_endproc

	.section	".text.end_objects::refusals::peer_refusal","ax",@progbits
	.p2align	4
	.type	"end_objects::refusals::peer_refusal",@function
"end_objects::refusals::peer_refusal":
	.cfi_startproc
	pushq	%rbp
	.cfi_def_cfa_offset 16
	pushq	%r15
	.cfi_def_cfa_offset 24
	pushq	%r14
	.cfi_def_cfa_offset 32
	pushq	%r13
	.cfi_def_cfa_offset 40
	pushq	%r12
	.cfi_def_cfa_offset 48
	pushq	%rbx
	.cfi_def_cfa_offset 56
	subq	$72, %rsp
	.cfi_def_cfa_offset 128
	.cfi_offset %rbx, -56
	.cfi_offset %r12, -48
	.cfi_offset %r13, -40
	.cfi_offset %r14, -32
	.cfi_offset %r15, -24
	.cfi_offset %rbp, -16
	movq	%rdi, %rbx
	xorps	%xmm0, %xmm0
	movaps	%xmm0, 32(%rsp)
	movzbl	72(%rdi), %r13d
	testq	%r13, %r13
	je	.LBB9a4f5_1
.LBB9a4f5_3:
	movq	48(%rbx), %r15
	movq	64(%rbx), %r12
	xorl	%r14d, %r14d
	testq	%r12, %r12
	je	.LBB9a4f5_4
	testq	%r15, %r15
	movl	$51, %ecx
	movl	$12083, %eax
	cmoveq	%rcx, %rax
	setne	%r14b
	incq	%r14
	movq	%rax, 16(%rsp)
	movq	%r14, 24(%rsp)
	testq	%r13, %r13
	je	.LBB9a4f5_8
.LBB9a4f5_7:
	movzbl	73(%rbx), %ecx
	cmpl	$1, %ecx
	movl	$2, %eax
	sbbq	$0, %rax
	shll	$8, %ecx
	orq	%r13, %rcx
	jmp	.LBB9a4f5_9
.LBB9a4f5_1:
	cmpb	$0, 73(%rbx)
	je	.LBB9a4f5_3
	movq	48(%rbx), %r15
	movq	64(%rbx), %r12
	movb	$1, %bpl
	xorl	%r14d, %r14d
	testq	%r12, %r12
	jne	.LBB9a4f5_22
	jmp	.LBB9a4f5_21
.LBB9a4f5_4:
	testq	%r15, %r15
	setne	%r14b
	movl	$47, %eax
	cmoveq	%r15, %rax
	movq	%rax, 16(%rsp)
	movq	%r14, 24(%rsp)
	testq	%r13, %r13
	jne	.LBB9a4f5_7
.LBB9a4f5_8:
	movaps	%xmm0, (%rsp)
	movq	%rsp, %rdi
	leaq	16(%rsp), %rsi
	movq	%r14, %rdx
	callq	memcpy@PLT
	testq	%r14, %r14
	movl	$12083, %ecx
	cmovneq	(%rsp), %rcx
	movl	$2, %eax
	cmovneq	%r14, %rax
.LBB9a4f5_9:
	movq	%rcx, 56(%rsp)
	movq	%rax, 64(%rsp)
	xorl	%ecx, %ecx
	jmp	.LBB9a4f5_10
	.p2align	4
.LBB9a4f5_12:
	incq	%rcx
	cmpq	%rcx, %rax
	je	.LBB9a4f5_13
.LBB9a4f5_10:
	movzbl	56(%rsp,%rcx), %edx
	cmpl	$51, %edx
	je	.LBB9a4f5_12
	cmpl	$47, %edx
	je	.LBB9a4f5_12
.LBB9a4f5_18:
	movb	$1, %bpl
	xorl	%r14d, %r14d
	testq	%r12, %r12
	je	.LBB9a4f5_21
.LBB9a4f5_22:
	testq	%r15, %r15
	movl	$51, %ecx
	movl	$12083, %eax
	cmoveq	%rcx, %rax
	setne	%r14b
	incq	%r14
	movq	%rax, 16(%rsp)
	movq	%r14, 24(%rsp)
	testq	%r13, %r13
	je	.LBB9a4f5_25
.LBB9a4f5_24:
	movzbl	73(%rbx), %ecx
	cmpl	$1, %ecx
	movl	$2, %eax
	sbbq	$0, %rax
	shll	$8, %ecx
	orq	%r13, %rcx
	movq	%rcx, 32(%rsp)
	movq	%rax, 40(%rsp)
	testq	%r12, %r12
	je	.LBB9a4f5_29
.LBB9a4f5_27:
	xorl	%ecx, %ecx
	xorl	%esi, %esi
	testq	%r15, %r15
	sete	%r8b
	movl	$47, %edx
	cmovel	%ecx, %edx
	movq	64(%rbx), %rdi
	addq	$-32, %rdi
	movb	$1, %cl
	cmpq	$33, %rdi
	jae	.LBB9a4f5_46
	movb	%r8b, %sil
	movl	$2, %edi
	subq	%rsi, %rdi
	movb	$51, %sil
	testb	%r8b, %r8b
	je	.LBB9a4f5_35
	jmp	.LBB9a4f5_38
.LBB9a4f5_13:
	leaq	56(%rsp), %rcx
.LBB9a4f5_15:
	movq	%rcx, %rdx
	movq	%rax, %rsi
	incq	%rcx
	decq	%rax
	movzbl	(%rdx), %edi
	movl	$1, %r8d
	.p2align	4
.LBB9a4f5_16:
	cmpq	%r8, %rsi
	je	.LBB9a4f5_14
	cmpb	%dil, (%rdx,%r8)
	leaq	1(%r8), %r8
	jne	.LBB9a4f5_16
	jmp	.LBB9a4f5_18
	.p2align	4
.LBB9a4f5_14:
	testq	%rax, %rax
	jne	.LBB9a4f5_15
	movq	%r13, %rax
	orq	%r12, %rax
	orq	%r15, %rax
	sete	%bpl
	xorl	%r14d, %r14d
	testq	%r12, %r12
	jne	.LBB9a4f5_22
.LBB9a4f5_21:
	testq	%r15, %r15
	setne	%r14b
	movl	$47, %eax
	cmoveq	%r15, %rax
	movq	%rax, 16(%rsp)
	movq	%r14, 24(%rsp)
	testq	%r13, %r13
	jne	.LBB9a4f5_24
.LBB9a4f5_25:
	xorps	%xmm0, %xmm0
	movaps	%xmm0, (%rsp)
	movq	%rsp, %rdi
	leaq	16(%rsp), %rsi
	movq	%r14, %rdx
	callq	memcpy@PLT
	testq	%r14, %r14
	movl	$12083, %ecx
	cmovneq	(%rsp), %rcx
	movl	$2, %eax
	cmovneq	%r14, %rax
	movq	%rcx, 32(%rsp)
	movq	%rax, 40(%rsp)
	testq	%r12, %r12
	jne	.LBB9a4f5_27
.LBB9a4f5_29:
	xorl	%edx, %edx
	testq	%r15, %r15
	movl	$47, %esi
	cmovel	%edx, %esi
	je	.LBB9a4f5_30
	movb	$1, %r8b
	cmpq	$16, 48(%rbx)
	jne	.LBB9a4f5_32
	movl	$1, %edi
	xorl	%edx, %edx
	testb	%r8b, %r8b
	jne	.LBB9a4f5_38
.LBB9a4f5_35:
	xorl	%ecx, %ecx
	cmpb	$47, %dl
	setne	%cl
	shll	$4, %ecx
	movq	48(%rcx,%rbx), %r8
	movb	$1, %cl
	cmpb	$47, %dl
	jne	.LBB9a4f5_37
	cmpq	$16, %r8
	je	.LBB9a4f5_38
	jmp	.LBB9a4f5_46
.LBB9a4f5_30:
	xorl	%edi, %edi
	jmp	.LBB9a4f5_38
.LBB9a4f5_32:
	movb	$1, %cl
	jmp	.LBB9a4f5_46
.LBB9a4f5_37:
	cmpq	$64, %r8
	ja	.LBB9a4f5_46
.LBB9a4f5_38:
	xorl	%r8d, %r8d
	jmp	.LBB9a4f5_39
	.p2align	4
.LBB9a4f5_41:
	incq	%r8
	cmpq	%r8, %rax
	je	.LBB9a4f5_42
.LBB9a4f5_39:
	movb	$1, %cl
	testq	%rdi, %rdi
	je	.LBB9a4f5_46
	movzbl	32(%rsp,%r8), %r9d
	cmpb	%r9b, %sil
	je	.LBB9a4f5_41
	cmpl	$1, %edi
	je	.LBB9a4f5_46
	cmpb	%r9b, %dl
	je	.LBB9a4f5_41
	cmpl	$2, %edi
	jne	.LBB9a4f5_41
	jmp	.LBB9a4f5_46
.LBB9a4f5_42:
	xorl	%ecx, %ecx
.LBB9a4f5_46:
	cmpq	$80, (%rbx)
	sete	%dl
	setne	%al
	orb	%al, %bpl
	movb	$1, %al
	jne	.LBB9a4f5_59
	cmpb	$0, 74(%rbx)
	movzbl	75(%rbx), %edi
	je	.LBB9a4f5_48
	movzwl	74(%rbx), %esi
	cmpb	$1, %dil
	movl	$2, %edi
	sbbq	$0, %rdi
	leal	-1(%rsi), %r8d
	movb	$2, %dl
	cmpb	$2, %r8b
	jae	.LBB9a4f5_59
.LBB9a4f5_52:
	cmpq	$1, %rdi
	je	.LBB9a4f5_53
	movl	%esi, %r8d
	shrl	$8, %r8d
	decb	%r8b
	cmpb	$1, %r8b
	ja	.LBB9a4f5_59
	cmpq	$2, %rdi
	jne	.LBB9a4f5_59
.LBB9a4f5_53:
	cmpq	$1, %rdi
	je	.LBB9a4f5_55
	movl	%esi, %edi
	shrl	$8, %edi
	cmpb	%sil, %dil
	je	.LBB9a4f5_59
.LBB9a4f5_55:
	movq	16(%rbx), %rsi
	decq	%rsi
	movb	$3, %dl
	cmpq	$252, %rsi
	ja	.LBB9a4f5_59
	xorl	%edx, %edx
	testb	%cl, %cl
	setne	%dl
	cmpq	$254, 32(%rbx)
	setae	%al
	leal	(%rdx,%rdx,4), %esi
	movl	$4, %edx
	cmovbl	%esi, %edx
	orb	%cl, %al
	jmp	.LBB9a4f5_59
.LBB9a4f5_48:
	movb	$2, %dl
	testb	%dil, %dil
	jne	.LBB9a4f5_59
	movl	$2, %edi
	movl	$513, %esi
	leal	-1(%rsi), %r8d
	movb	$2, %dl
	cmpb	$2, %r8b
	jb	.LBB9a4f5_52
.LBB9a4f5_59:
	addq	$72, %rsp
	.cfi_def_cfa_offset 56
	popq	%rbx
	.cfi_def_cfa_offset 48
	popq	%r12
	.cfi_def_cfa_offset 40
	popq	%r13
	.cfi_def_cfa_offset 32
	popq	%r14
	.cfi_def_cfa_offset 24
	popq	%r15
	.cfi_def_cfa_offset 16
	popq	%rbp
	.cfi_def_cfa_offset 8
	retq
.Lfunc_end9a4f5:
	.size	"end_objects::refusals::peer_refusal", .Lfunc_end9a4f5-"end_objects::refusals::peer_refusal"
	.cfi_endproc

	.section	".text.end_objects::constructors::peer_objects","ax",@progbits
	.p2align	4
	.type	"end_objects::constructors::peer_objects",@function
"end_objects::constructors::peer_objects":
	.cfi_startproc
	pushq	%rbp
	.cfi_def_cfa_offset 16
	pushq	%r15
	.cfi_def_cfa_offset 24
	pushq	%r14
	.cfi_def_cfa_offset 32
	pushq	%r13
	.cfi_def_cfa_offset 40
	pushq	%r12
	.cfi_def_cfa_offset 48
	pushq	%rbx
	.cfi_def_cfa_offset 56
	subq	$2552, %rsp
	.cfi_def_cfa_offset 2608
	.cfi_offset %rbx, -56
	.cfi_offset %r12, -48
	.cfi_offset %r13, -40
	.cfi_offset %r14, -32
	.cfi_offset %r15, -24
	.cfi_offset %rbp, -16
	movq	%rsi, 64(%rsp)
	xorps	%xmm0, %xmm0
	movaps	%xmm0, 16(%rsp)
	movq	$0, 32(%rsp)
	testq	%rdx, %rdx
	je	.LBB5a84c_13
	movabsq	$7390522465428506, %rax
	cmpq	%rax, %rdx
	ja	.LBB5a84c_11
	movq	%rdi, %rbx
	imulq	$1248, %rdx, %rdi
	movl	$8, %esi
	movq	%rdx, %r12
	callq	rattle_alloc@PLT
	movq	%rbx, %rdi
	testb	$1, %al
	je	.LBB5a84c_11
	movq	%rdx, %r13
	movq	%rdi, 48(%rsp)
	movq	%rdx, 16(%rsp)
	movq	$0, 24(%rsp)
	movq	%r12, 32(%rsp)
	leaq	1232(%rsp), %rbp
	xorl	%ebx, %ebx
	xorl	%r15d, %r15d
	movq	%r12, 56(%rsp)
	jmp	.LBB5a84c_4
	.p2align	4
.LBB5a84c_6:
	movl	$1160, %edx
	xorl	%esi, %esi
	callq	memset@PLT
	movl	$1, %r14d
.LBB5a84c_7:
	leaq	1312(%rsp), %r13
	leaq	72(%rsp), %rsi
	movl	$1240, %edx
	movq	%r13, %rdi
	callq	memcpy@PLT
	leaq	72(%rsp), %rdi
	movl	$1240, %edx
	movq	%r13, %rsi
	callq	memcpy@PLT
	cmpq	%r15, 32(%rsp)
	movq	%r12, %r13
	je	.LBB5a84c_8
.LBB5a84c_10:
	imulq	$1248, %r15, %rax
	movq	%r14, (%r13,%rax)
	leaq	(%rax,%r13), %rdi
	addq	$8, %rdi
	leaq	72(%rsp), %rsi
	movl	$1240, %edx
	callq	memcpy@PLT
	incq	%r15
	movq	%r15, 24(%rsp)
	leaq	1312(%rsp), %rdi
	movl	$1240, %edx
	xorl	%esi, %esi
	callq	memset@PLT
	incq	%rbx
	movq	56(%rsp), %r12
	cmpq	%rbx, %r12
	je	.LBB5a84c_14
.LBB5a84c_4:
	movq	64(%rsp), %rax
	movzbl	(%rax,%rbx), %eax
	xorps	%xmm0, %xmm0
	movups	%xmm0, 64(%rbp)
	movups	%xmm0, 48(%rbp)
	movups	%xmm0, 32(%rbp)
	movups	%xmm0, 16(%rbp)
	movups	%xmm0, (%rbp)
	movq	%r13, %r12
	leaq	72(%rsp), %rdi
	cmpb	$47, %al
	jne	.LBB5a84c_6
	xorl	%r14d, %r14d
	movl	$1240, %edx
	xorl	%esi, %esi
	callq	memset@PLT
	jmp	.LBB5a84c_7
.LBB5a84c_8:
	leaq	16(%rsp), %rdi
	callq	"std_alloc::vec::Vec::grow_amortized::<#7a0cad832922b3ee>"
	testb	%al, %al
	je	.LBB5a84c_15
	movq	16(%rsp), %r13
	movq	24(%rsp), %r15
	jmp	.LBB5a84c_10
.LBB5a84c_11:
	movb	$1, (%rdi)
	xorps	%xmm0, %xmm0
	movups	%xmm0, 8(%rdi)
	movq	$0, 24(%rdi)
	jmp	.LBB5a84c_12
.LBB5a84c_13:
	movq	%rdi, 48(%rsp)
	leaq	8(%rsp), %rax
	movq	%rax, 16(%rsp)
	movups	%xmm0, 24(%rsp)
.LBB5a84c_14:
	movq	48(%rsp), %rcx
	movb	$0, (%rcx)
	movq	16(%rsp), %rax
	movq	%rax, 8(%rcx)
	movq	24(%rsp), %rax
	movq	%rax, 16(%rcx)
	movq	32(%rsp), %rax
	movq	%rax, 24(%rcx)
.LBB5a84c_12:
	addq	$2552, %rsp
	.cfi_def_cfa_offset 56
	popq	%rbx
	.cfi_def_cfa_offset 48
	popq	%r12
	.cfi_def_cfa_offset 40
	popq	%r13
	.cfi_def_cfa_offset 32
	popq	%r14
	.cfi_def_cfa_offset 24
	popq	%r15
	.cfi_def_cfa_offset 16
	popq	%rbp
	.cfi_def_cfa_offset 8
	retq
.LBB5a84c_15:
	.cfi_def_cfa_offset 2608
	cmpq	$0, 32(%rsp)
	je	.LBB5a84c_17
	movq	16(%rsp), %rdi
	callq	rattle_dealloc@PLT
.LBB5a84c_17:
	movq	48(%rsp), %rax
	movb	$1, (%rax)
	xorps	%xmm0, %xmm0
	movups	%xmm0, 8(%rax)
	movq	$0, 24(%rax)
	jmp	.LBB5a84c_12
.Lfunc_end5a84c:
	.size	"end_objects::constructors::peer_objects", .Lfunc_end5a84c-"end_objects::constructors::peer_objects"
	.cfi_endproc

	.section	".text.unlikely.std_alloc::vec::Vec::grow_amortized::<#7a0cad832922b3ee>","ax",@progbits
	.p2align	4
	.type	"std_alloc::vec::Vec::grow_amortized::<#7a0cad832922b3ee>",@function
"std_alloc::vec::Vec::grow_amortized::<#7a0cad832922b3ee>":
	.cfi_startproc
	movq	8(%rdi), %rax
	cmpq	$-1, %rax
	je	.LBB93603_5
	pushq	%r14
	.cfi_def_cfa_offset 16
	pushq	%rbx
	.cfi_def_cfa_offset 24
	pushq	%rax
	.cfi_def_cfa_offset 32
	.cfi_offset %rbx, -24
	.cfi_offset %r14, -16
	movq	16(%rdi), %rcx
	leaq	1(%rax), %rbx
	movq	%rcx, %rsi
	shrq	$62, %rsi
	leaq	(%rcx,%rcx), %rdx
	cmpq	%rdx, %rbx
	cmovaq	%rbx, %rdx
	testq	%rsi, %rsi
	cmoveq	%rdx, %rbx
	movabsq	$7390522465428506, %rsi
	cmpq	%rsi, %rbx
	ja	.LBB93603_6
	testq	%rcx, %rcx
	je	.LBB93603_8
	movq	%rdi, %r14
	movq	(%rdi), %rdi
	imulq	$1248, %rax, %rsi
	imulq	$1248, %rbx, %rdx
	movl	$8, %ecx
	callq	rattle_realloc@PLT
	testb	$1, %al
	je	.LBB93603_6
.LBB93603_9:
	movq	%rdx, (%r14)
	movq	%rbx, 16(%r14)
	movb	$1, %al
	addq	$8, %rsp
	.cfi_def_cfa_offset 24
	popq	%rbx
	.cfi_def_cfa_offset 16
	popq	%r14
	.cfi_def_cfa_offset 8
	.cfi_restore %rbx
	.cfi_restore %r14
	retq
.LBB93603_5:
	xorl	%eax, %eax
	retq
.LBB93603_8:
	.cfi_def_cfa_offset 32
	.cfi_offset %rbx, -24
	.cfi_offset %r14, -16
	movq	%rdi, %r14
	imulq	$1248, %rdx, %rdi
	movl	$8, %esi
	callq	rattle_alloc@PLT
	testb	$1, %al
	jne	.LBB93603_9
.LBB93603_6:
	xorl	%eax, %eax
	addq	$8, %rsp
	.cfi_def_cfa_offset 24
	popq	%rbx
	.cfi_def_cfa_offset 16
	popq	%r14
	.cfi_def_cfa_offset 8
	.cfi_restore %rbx
	.cfi_restore %r14
	retq
.Lfunc_end93603:
	.size	"std_alloc::vec::Vec::grow_amortized::<#7a0cad832922b3ee>", .Lfunc_end93603-"std_alloc::vec::Vec::grow_amortized::<#7a0cad832922b3ee>"
	.cfi_endproc

	.section	".text.end_objects::settings::peer_setup","ax",@progbits
	.p2align	4
	.type	"end_objects::settings::peer_setup",@function
"end_objects::settings::peer_setup":
	.cfi_startproc
	pushq	%rbp
	.cfi_def_cfa_offset 16
	pushq	%r15
	.cfi_def_cfa_offset 24
	pushq	%r14
	.cfi_def_cfa_offset 32
	pushq	%r13
	.cfi_def_cfa_offset 40
	pushq	%r12
	.cfi_def_cfa_offset 48
	pushq	%rbx
	.cfi_def_cfa_offset 56
	subq	$1416, %rsp
	.cfi_def_cfa_offset 1472
	.cfi_offset %rbx, -56
	.cfi_offset %r12, -48
	.cfi_offset %r13, -40
	.cfi_offset %r14, -32
	.cfi_offset %r15, -24
	.cfi_offset %rbp, -16
	movq	%rdx, 184(%rsp)
	movq	%rsi, %r15
	movq	%rdi, %rbx
	xorps	%xmm0, %xmm0
	movaps	%xmm0, 320(%rsp)
	movaps	%xmm0, 304(%rsp)
	movaps	%xmm0, 288(%rsp)
	movaps	%xmm0, 272(%rsp)
	movq	$0, 336(%rsp)
	movaps	%xmm0, 192(%rsp)
	movaps	%xmm0, 208(%rsp)
	movaps	%xmm0, 224(%rsp)
	movaps	%xmm0, 240(%rsp)
	movq	$0, 256(%rsp)
	movaps	%xmm0, 512(%rsp)
	movaps	%xmm0, 528(%rsp)
	movaps	%xmm0, 432(%rsp)
	movaps	%xmm0, 448(%rsp)
	movaps	%xmm0, 464(%rsp)
	movaps	%xmm0, 480(%rsp)
	movq	$0, 496(%rsp)
	movaps	%xmm0, 352(%rsp)
	movaps	%xmm0, 368(%rsp)
	movaps	%xmm0, 384(%rsp)
	movaps	%xmm0, 400(%rsp)
	movq	$0, 416(%rsp)
	movq	8(%rsi), %r13
	movq	16(%rsi), %r12
	leaq	624(%rsp), %rdi
	movl	$264, %edx
	xorl	%esi, %esi
	callq	memset@PLT
	cmpq	$253, %r12
	ja	.LBB2b1d9_2
	leaq	624(%rsp), %rdi
	movq	%r13, %rsi
	movq	%r12, %rdx
	callq	memcpy@PLT
	movq	%r12, 880(%rsp)
.LBB2b1d9_2:
	movq	24(%r15), %r13
	movq	32(%r15), %r12
	leaq	1152(%rsp), %rdi
	xorl	%r14d, %r14d
	movl	$264, %edx
	xorl	%esi, %esi
	callq	memset@PLT
	testq	%r12, %r12
	je	.LBB2b1d9_6
	leaq	888(%rsp), %rdi
	movl	$264, %edx
	xorl	%esi, %esi
	callq	memset@PLT
	cmpq	$253, %r12
	ja	.LBB2b1d9_5
	leaq	888(%rsp), %rdi
	movq	%r13, %rsi
	movq	%r12, %rdx
	callq	memcpy@PLT
	movq	%r12, 1144(%rsp)
.LBB2b1d9_5:
	leaq	1152(%rsp), %rdi
	leaq	888(%rsp), %rsi
	movl	$264, %edx
	callq	memcpy@PLT
	movl	$1, %r14d
.LBB2b1d9_6:
	movq	48(%r15), %r13
	movq	64(%r15), %r12
	xorl	%ebp, %ebp
	testq	%r12, %r12
	je	.LBB2b1d9_7
	testq	%r13, %r13
	movl	$51, %ecx
	movl	$12083, %eax
	cmoveq	%rcx, %rax
	setne	%bpl
	incq	%rbp
	jmp	.LBB2b1d9_9
.LBB2b1d9_7:
	testq	%r13, %r13
	setne	%bpl
	movl	$47, %eax
	cmoveq	%r13, %rax
.LBB2b1d9_9:
	movq	%r14, 176(%rsp)
	movq	%rax, 96(%rsp)
	movq	%rbp, 104(%rsp)
	movzbl	72(%r15), %eax
	testq	%rax, %rax
	je	.LBB2b1d9_11
	movzbl	73(%r15), %r14d
	cmpl	$1, %r14d
	movl	$2, %ecx
	sbbq	$0, %rcx
	movq	%rcx, 88(%rsp)
	shll	$8, %r14d
	orq	%rax, %r14
	jmp	.LBB2b1d9_12
.LBB2b1d9_11:
	xorps	%xmm0, %xmm0
	movaps	%xmm0, (%rsp)
	movq	%rsp, %rdi
	leaq	96(%rsp), %rsi
	movq	%rbp, %rdx
	callq	memcpy@PLT
	testq	%rbp, %rbp
	movl	$12083, %r14d
	cmovneq	(%rsp), %r14
	movl	$2, %eax
	cmovneq	%rbp, %rax
	movq	%rax, 88(%rsp)
.LBB2b1d9_12:
	movzwl	74(%r15), %ebp
	movq	40(%r15), %rsi
	xorps	%xmm4, %xmm4
	movaps	%xmm4, 48(%rsp)
	movaps	%xmm4, 32(%rsp)
	movaps	%xmm4, 16(%rsp)
	movaps	%xmm4, (%rsp)
	movq	$0, 64(%rsp)
	testq	%r13, %r13
	je	.LBB2b1d9_13
	movaps	%xmm4, 592(%rsp)
	movaps	%xmm4, 576(%rsp)
	movaps	%xmm4, 560(%rsp)
	movaps	%xmm4, 544(%rsp)
	movq	$0, 608(%rsp)
	cmpq	$64, %r13
	ja	.LBB2b1d9_16
	leaq	544(%rsp), %rdi
	movq	%r13, %rdx
	callq	memcpy@PLT
	xorps	%xmm4, %xmm4
	movq	%r13, 608(%rsp)
.LBB2b1d9_16:
	movq	608(%rsp), %rax
	movq	%rax, 64(%rsp)
	movaps	544(%rsp), %xmm0
	movaps	560(%rsp), %xmm1
	movaps	576(%rsp), %xmm2
	movaps	592(%rsp), %xmm3
	movaps	%xmm3, 48(%rsp)
	movaps	%xmm2, 32(%rsp)
	movaps	%xmm1, 16(%rsp)
	movaps	%xmm0, (%rsp)
	movl	$1, %eax
	movq	%rax, 80(%rsp)
	jmp	.LBB2b1d9_17
.LBB2b1d9_13:
	movq	$0, 80(%rsp)
.LBB2b1d9_17:
	movq	64(%rsp), %rax
	movq	%rax, 496(%rsp)
	movaps	(%rsp), %xmm0
	movaps	16(%rsp), %xmm1
	movaps	32(%rsp), %xmm2
	movaps	48(%rsp), %xmm3
	movaps	%xmm3, 480(%rsp)
	movaps	%xmm2, 464(%rsp)
	movaps	%xmm1, 448(%rsp)
	movaps	%xmm0, 432(%rsp)
	movq	56(%r15), %rsi
	movaps	%xmm4, 144(%rsp)
	movaps	%xmm4, 128(%rsp)
	movaps	%xmm4, 112(%rsp)
	movaps	%xmm4, 96(%rsp)
	movq	$0, 160(%rsp)
	testq	%r12, %r12
	je	.LBB2b1d9_18
	xorps	%xmm0, %xmm0
	movaps	%xmm0, 48(%rsp)
	movaps	%xmm0, 32(%rsp)
	movaps	%xmm0, 16(%rsp)
	movaps	%xmm0, (%rsp)
	movq	$0, 64(%rsp)
	cmpq	$64, %r12
	ja	.LBB2b1d9_21
	movq	%rsp, %rdi
	movq	%r12, %rdx
	callq	memcpy@PLT
	movq	%r12, 64(%rsp)
.LBB2b1d9_21:
	movq	64(%rsp), %rax
	movq	%rax, 160(%rsp)
	movaps	(%rsp), %xmm0
	movaps	16(%rsp), %xmm1
	movaps	32(%rsp), %xmm2
	movaps	48(%rsp), %xmm3
	movaps	%xmm3, 144(%rsp)
	movaps	%xmm2, 128(%rsp)
	movaps	%xmm1, 112(%rsp)
	movaps	%xmm0, 96(%rsp)
	movl	$1, %r12d
	jmp	.LBB2b1d9_22
.LBB2b1d9_18:
	xorl	%r12d, %r12d
.LBB2b1d9_22:
	movzwl	%bp, %eax
	cmpl	$256, %eax
	movl	$2, %r13d
	sbbq	$0, %r13
	movl	$2, %ecx
	testb	%bpl, %bpl
	cmoveq	%rcx, %r13
	movl	$513, %ebp
	cmovnel	%eax, %ebp
	movq	160(%rsp), %rax
	movq	%rax, 416(%rsp)
	movaps	96(%rsp), %xmm0
	movaps	112(%rsp), %xmm1
	movaps	128(%rsp), %xmm2
	movaps	144(%rsp), %xmm3
	movaps	%xmm3, 400(%rsp)
	movaps	%xmm2, 384(%rsp)
	movaps	%xmm1, 368(%rsp)
	movaps	%xmm0, 352(%rsp)
	movzbl	76(%r15), %r15d
	movq	496(%rsp), %rax
	movq	%rax, 336(%rsp)
	movaps	432(%rsp), %xmm0
	movaps	448(%rsp), %xmm1
	movaps	464(%rsp), %xmm2
	movaps	480(%rsp), %xmm3
	movaps	%xmm3, 320(%rsp)
	movaps	%xmm2, 304(%rsp)
	movaps	%xmm1, 288(%rsp)
	movaps	%xmm0, 272(%rsp)
	movq	416(%rsp), %rax
	movq	%rax, 256(%rsp)
	movaps	352(%rsp), %xmm0
	movaps	368(%rsp), %xmm1
	movaps	384(%rsp), %xmm2
	movaps	400(%rsp), %xmm3
	movaps	%xmm3, 240(%rsp)
	movaps	%xmm2, 224(%rsp)
	movaps	%xmm1, 208(%rsp)
	movaps	%xmm0, 192(%rsp)
	movq	184(%rsp), %rax
	movups	(%rax), %xmm0
	movups	16(%rax), %xmm1
	movaps	%xmm1, 528(%rsp)
	movaps	%xmm0, 512(%rsp)
	leaq	624(%rsp), %rsi
	movl	$264, %edx
	movq	%rbx, %rdi
	callq	memcpy@PLT
	movq	176(%rsp), %rax
	movq	%rax, 264(%rbx)
	leaq	272(%rbx), %rdi
	leaq	1152(%rsp), %rsi
	movl	$264, %edx
	callq	memcpy@PLT
	testb	%r15b, %r15b
	movzwl	%bp, %eax
	movq	%r14, 536(%rbx)
	movq	88(%rsp), %rcx
	movq	%rcx, 544(%rbx)
	movq	%rax, 552(%rbx)
	movq	%r13, 560(%rbx)
	movq	80(%rsp), %rax
	movq	%rax, 568(%rbx)
	movaps	272(%rsp), %xmm0
	movaps	288(%rsp), %xmm1
	movaps	304(%rsp), %xmm2
	movaps	320(%rsp), %xmm3
	movups	%xmm0, 576(%rbx)
	movups	%xmm1, 592(%rbx)
	movups	%xmm2, 608(%rbx)
	movups	%xmm3, 624(%rbx)
	movq	336(%rsp), %rax
	movq	%rax, 640(%rbx)
	movq	%r12, 648(%rbx)
	movaps	192(%rsp), %xmm0
	movaps	208(%rsp), %xmm1
	movaps	224(%rsp), %xmm2
	movaps	240(%rsp), %xmm3
	movups	%xmm0, 656(%rbx)
	movups	%xmm1, 672(%rbx)
	movups	%xmm2, 688(%rbx)
	movups	%xmm3, 704(%rbx)
	movq	256(%rsp), %rax
	movq	%rax, 720(%rbx)
	movaps	512(%rsp), %xmm0
	movaps	528(%rsp), %xmm1
	movups	%xmm1, 744(%rbx)
	movups	%xmm0, 728(%rbx)
	setne	760(%rbx)
	movl	$0, 761(%rbx)
	movl	$0, 764(%rbx)
	addq	$1416, %rsp
	.cfi_def_cfa_offset 56
	popq	%rbx
	.cfi_def_cfa_offset 48
	popq	%r12
	.cfi_def_cfa_offset 40
	popq	%r13
	.cfi_def_cfa_offset 32
	popq	%r14
	.cfi_def_cfa_offset 24
	popq	%r15
	.cfi_def_cfa_offset 16
	popq	%rbp
	.cfi_def_cfa_offset 8
	retq
.Lfunc_end2b1d9:
	.size	"end_objects::settings::peer_setup", .Lfunc_end2b1d9-"end_objects::settings::peer_setup"
	.cfi_endproc

	.section	.rodata.cst16,"aM",@progbits,16
	.p2align	4, 0x0
.LCPI5ab7a_0:
	.byte	1,1
	.zero	1
	.byte	0
	.zero	1
	.zero	1
	.zero	1
	.zero	1
	.zero	1
	.zero	1
	.zero	1
	.zero	1
	.zero	1
	.zero	1
	.zero	1
	.zero	1
.LCPI5ab7a_1:
	.byte	1,1,0,0,0,0,0,0,0,0,0,0,0,0,0,0
	.section	".text.switch_port::machine::SwitchPort::connect","ax",@progbits
	.p2align	4
	.type	"switch_port::machine::SwitchPort::connect",@function
"switch_port::machine::SwitchPort::connect":
	.cfi_startproc
	pushq	%rbp
	.cfi_def_cfa_offset 16
	pushq	%r15
	.cfi_def_cfa_offset 24
	pushq	%r14
	.cfi_def_cfa_offset 32
	pushq	%r13
	.cfi_def_cfa_offset 40
	pushq	%r12
	.cfi_def_cfa_offset 48
	pushq	%rbx
	.cfi_def_cfa_offset 56
	pushq	%rax
	.cfi_def_cfa_offset 64
	.cfi_offset %rbx, -56
	.cfi_offset %r12, -48
	.cfi_offset %r13, -40
	.cfi_offset %r14, -32
	.cfi_offset %r15, -24
	.cfi_offset %rbp, -16
	movq	%rdx, %r15
	movq	%rsi, %r14
	movq	%rdi, %rbx
	movzbl	1544(%rsi), %eax
	cmpb	16(%rsi), %al
	jae	.LBB5ab7a_9
	incb	%al
	movb	%al, 1544(%r14)
	movzbl	24(%r14), %ebp
	movq	1504(%r15), %rdx
	testq	%rdx, %rdx
	je	.LBB5ab7a_3
	movq	%r15, %rdi
	xorl	%esi, %esi
	callq	memset@PLT
.LBB5ab7a_3:
	shll	$8, %ebp
	orl	$83886081, %ebp
	movl	%ebp, (%r15)
	movb	$1, 4(%r15)
	movq	$5, 1504(%r15)
	movd	.LCPI5ab7a_1(%rip), %xmm0
	pinsrb	$2, 24(%r14), %xmm0
	movd	%xmm0, 26(%r14)
	leaq	32(%r14), %r13
	movq	1504(%r15), %r12
	movq	1536(%r14), %rdx
	testq	%rdx, %rdx
	je	.LBB5ab7a_5
	movq	%r13, %rdi
	xorl	%esi, %esi
	callq	memset@PLT
	movq	$0, 1536(%r14)
.LBB5ab7a_5:
	cmpq	$1500, %r12
	ja	.LBB5ab7a_19
	movq	%r13, %rax
	subq	%r15, %rax
	cmpq	%r12, %rax
	jae	.LBB5ab7a_17
	cmpq	$4, %r12
	jb	.LBB5ab7a_8
	movq	%r14, %rax
	subq	%r15, %rax
	addq	$32, %rax
	cmpq	$32, %rax
	jae	.LBB5ab7a_24
.LBB5ab7a_8:
	xorl	%eax, %eax
.LBB5ab7a_35:
	movq	%r12, %rdx
	movq	%rax, %rcx
	andq	$3, %rdx
	je	.LBB5ab7a_38
	movq	%rax, %rcx
	.p2align	4
.LBB5ab7a_37:
	movzbl	(%r15,%rcx), %esi
	movb	%sil, (%r13,%rcx)
	incq	%rcx
	decq	%rdx
	jne	.LBB5ab7a_37
.LBB5ab7a_38:
	subq	%r12, %rax
	cmpq	$-4, %rax
	ja	.LBB5ab7a_18
	.p2align	4
.LBB5ab7a_39:
	movzbl	(%r15,%rcx), %eax
	movb	%al, 32(%r14,%rcx)
	movzbl	1(%r15,%rcx), %eax
	movb	%al, 33(%r14,%rcx)
	movzbl	2(%r15,%rcx), %eax
	movb	%al, 34(%r14,%rcx)
	movzbl	3(%r15,%rcx), %eax
	movb	%al, 35(%r14,%rcx)
	addq	$4, %rcx
	cmpq	%rcx, %r12
	jne	.LBB5ab7a_39
	jmp	.LBB5ab7a_18
.LBB5ab7a_9:
	movb	$0, 22(%r14)
	movb	$1, 1544(%r14)
	movzbl	24(%r14), %ebp
	movq	1504(%r15), %rdx
	testq	%rdx, %rdx
	je	.LBB5ab7a_11
	movq	%r15, %rdi
	xorl	%esi, %esi
	callq	memset@PLT
.LBB5ab7a_11:
	shll	$8, %ebp
	orl	$83886081, %ebp
	movl	%ebp, (%r15)
	movb	$1, 4(%r15)
	movq	$5, 1504(%r15)
	movd	.LCPI5ab7a_1(%rip), %xmm0
	pinsrb	$2, 24(%r14), %xmm0
	movd	%xmm0, 26(%r14)
	leaq	32(%r14), %r13
	movq	1504(%r15), %r12
	movq	1536(%r14), %rdx
	testq	%rdx, %rdx
	je	.LBB5ab7a_13
	movq	%r13, %rdi
	xorl	%esi, %esi
	callq	memset@PLT
	movq	$0, 1536(%r14)
.LBB5ab7a_13:
	cmpq	$1500, %r12
	ja	.LBB5ab7a_19
	movq	%r13, %rax
	subq	%r15, %rax
	cmpq	%r12, %rax
	jae	.LBB5ab7a_17
	cmpq	$4, %r12
	jb	.LBB5ab7a_16
	movq	%r14, %rax
	subq	%r15, %rax
	addq	$32, %rax
	cmpq	$32, %rax
	jae	.LBB5ab7a_26
.LBB5ab7a_16:
	xorl	%eax, %eax
.LBB5ab7a_47:
	movq	%r12, %rdx
	movq	%rax, %rcx
	andq	$3, %rdx
	je	.LBB5ab7a_50
	movq	%rax, %rcx
	.p2align	4
.LBB5ab7a_49:
	movzbl	(%r15,%rcx), %esi
	movb	%sil, (%r13,%rcx)
	incq	%rcx
	decq	%rdx
	jne	.LBB5ab7a_49
.LBB5ab7a_50:
	subq	%r12, %rax
	cmpq	$-4, %rax
	ja	.LBB5ab7a_18
	.p2align	4
.LBB5ab7a_51:
	movzbl	(%r15,%rcx), %eax
	movb	%al, 32(%r14,%rcx)
	movzbl	1(%r15,%rcx), %eax
	movb	%al, 33(%r14,%rcx)
	movzbl	2(%r15,%rcx), %eax
	movb	%al, 34(%r14,%rcx)
	movzbl	3(%r15,%rcx), %eax
	movb	%al, 35(%r14,%rcx)
	addq	$4, %rcx
	cmpq	%rcx, %r12
	jne	.LBB5ab7a_51
	jmp	.LBB5ab7a_18
.LBB5ab7a_17:
	movq	%r13, %rdi
	movq	%r15, %rsi
	movq	%r12, %rdx
	callq	memmove@PLT
.LBB5ab7a_18:
	movq	%r12, 1536(%r14)
.LBB5ab7a_19:
	movb	$1, 21(%r14)
	movl	8(%r14), %eax
	movl	%eax, 1548(%r14)
	movw	$1, (%rbx)
	movb	$0, 2(%rbx)
	addq	$8, %rsp
	.cfi_def_cfa_offset 56
	popq	%rbx
	.cfi_def_cfa_offset 48
	popq	%r12
	.cfi_def_cfa_offset 40
	popq	%r13
	.cfi_def_cfa_offset 32
	popq	%r14
	.cfi_def_cfa_offset 24
	popq	%r15
	.cfi_def_cfa_offset 16
	popq	%rbp
	.cfi_def_cfa_offset 8
	retq
.LBB5ab7a_24:
	.cfi_def_cfa_offset 64
	cmpq	$32, %r12
	jae	.LBB5ab7a_28
	xorl	%eax, %eax
	jmp	.LBB5ab7a_32
.LBB5ab7a_26:
	cmpq	$32, %r12
	jae	.LBB5ab7a_40
	xorl	%eax, %eax
	jmp	.LBB5ab7a_44
.LBB5ab7a_28:
	movl	%r12d, %eax
	andl	$2016, %eax
	xorl	%ecx, %ecx
	.p2align	4
.LBB5ab7a_29:
	movdqu	(%r15,%rcx), %xmm0
	movups	16(%r15,%rcx), %xmm1
	movdqu	%xmm0, 32(%r14,%rcx)
	movups	%xmm1, 48(%r14,%rcx)
	addq	$32, %rcx
	cmpq	%rcx, %rax
	jne	.LBB5ab7a_29
	cmpq	%rax, %r12
	je	.LBB5ab7a_18
	testb	$28, %r12b
	je	.LBB5ab7a_35
.LBB5ab7a_32:
	movq	%rax, %rcx
	movl	%r12d, %eax
	andl	$2044, %eax
	.p2align	4
.LBB5ab7a_33:
	movl	(%r15,%rcx), %edx
	movl	%edx, (%r13,%rcx)
	addq	$4, %rcx
	cmpq	%rcx, %rax
	jne	.LBB5ab7a_33
	cmpq	%rax, %r12
	je	.LBB5ab7a_18
	jmp	.LBB5ab7a_35
.LBB5ab7a_40:
	movl	%r12d, %eax
	andl	$2016, %eax
	xorl	%ecx, %ecx
	.p2align	4
.LBB5ab7a_41:
	movdqu	(%r15,%rcx), %xmm0
	movups	16(%r15,%rcx), %xmm1
	movdqu	%xmm0, 32(%r14,%rcx)
	movups	%xmm1, 48(%r14,%rcx)
	addq	$32, %rcx
	cmpq	%rcx, %rax
	jne	.LBB5ab7a_41
	cmpq	%rax, %r12
	je	.LBB5ab7a_18
	testb	$28, %r12b
	je	.LBB5ab7a_47
.LBB5ab7a_44:
	movq	%rax, %rcx
	movl	%r12d, %eax
	andl	$2044, %eax
	.p2align	4
.LBB5ab7a_45:
	movl	(%r15,%rcx), %edx
	movl	%edx, (%r13,%rcx)
	addq	$4, %rcx
	cmpq	%rcx, %rax
	jne	.LBB5ab7a_45
	cmpq	%rax, %r12
	je	.LBB5ab7a_18
	jmp	.LBB5ab7a_47
.Lfunc_end5ab7a:
	.size	"switch_port::machine::SwitchPort::connect", .Lfunc_end5ab7a-"switch_port::machine::SwitchPort::connect"
	.cfi_endproc

	.section	".text.tuvaddri_c::port_turn::TuvPortTurn::of","ax",@progbits
	.p2align	4
	.type	"tuvaddri_c::port_turn::TuvPortTurn::of",@function
"tuvaddri_c::port_turn::TuvPortTurn::of":
	.cfi_startproc
	pushq	%rbp
	.cfi_def_cfa_offset 16
	pushq	%r15
	.cfi_def_cfa_offset 24
	pushq	%r14
	.cfi_def_cfa_offset 32
	pushq	%r13
	.cfi_def_cfa_offset 40
	pushq	%r12
	.cfi_def_cfa_offset 48
	pushq	%rbx
	.cfi_def_cfa_offset 56
	pushq	%rax
	.cfi_def_cfa_offset 64
	.cfi_offset %rbx, -56
	.cfi_offset %r12, -48
	.cfi_offset %r13, -40
	.cfi_offset %r14, -32
	.cfi_offset %r15, -24
	.cfi_offset %rbp, -16
	movq	%r9, %r14
	movq	%rdi, %rbx
	movq	64(%rsp), %r15
	movzbl	(%rsi), %edi
	movzbl	1(%rsi), %r10d
	movzbl	2(%rsi), %eax
	movzbl	21(%r8), %r12d
	movzbl	22(%r8), %esi
	movb	%sil, 7(%rsp)
	movzbl	%r12b, %esi
	leaq	.LJTI36cb1_0(%rip), %r9
	movslq	(%r9,%rsi,4), %rsi
	addq	%r9, %rsi
	jmpq	*%rsi
.LBB36cb1_1:
	movb	$1, %r13b
	movl	%edi, %esi
	leaq	.LJTI36cb1_1(%rip), %rdi
	movslq	(%rdi,%rsi,4), %rsi
	addq	%rdi, %rsi
	jmpq	*%rsi
.LBB36cb1_2:
	movb	$8, %r13b
	xorl	%r12d, %r12d
	movl	%edi, %esi
	leaq	.LJTI36cb1_1(%rip), %rdi
	movslq	(%rdi,%rsi,4), %rsi
	addq	%rdi, %rsi
	jmpq	*%rsi
.LBB36cb1_3:
	movb	$5, %r13b
	xorl	%r12d, %r12d
	movl	%edi, %esi
	leaq	.LJTI36cb1_1(%rip), %rdi
	movslq	(%rdi,%rsi,4), %rsi
	addq	%rdi, %rsi
	jmpq	*%rsi
.LBB36cb1_4:
	movb	$7, %r13b
	xorl	%r12d, %r12d
	movl	%edi, %esi
	leaq	.LJTI36cb1_1(%rip), %rdi
	movslq	(%rdi,%rsi,4), %rsi
	addq	%rdi, %rsi
	jmpq	*%rsi
.LBB36cb1_5:
	cmpb	$23, 26(%r8)
	sete	%r12b
	movb	$4, %r13b
	movl	%edi, %esi
	leaq	.LJTI36cb1_1(%rip), %rdi
	movslq	(%rdi,%rsi,4), %rsi
	addq	%rdi, %rsi
	jmpq	*%rsi
.LBB36cb1_6:
	movb	$9, %r13b
	xorl	%r12d, %r12d
	movl	%edi, %esi
	leaq	.LJTI36cb1_1(%rip), %rdi
	movslq	(%rdi,%rsi,4), %rsi
	addq	%rdi, %rsi
	jmpq	*%rsi
.LBB36cb1_7:
	movb	$0, (%r15)
	xorl	%eax, %eax
	xorl	%r10d, %r10d
	jmp	.LBB36cb1_28
.LBB36cb1_8:
	movq	1504(%r14), %rax
	testq	%rax, %rax
	je	.LBB36cb1_10
	movq	%r14, %rdi
	xorl	%esi, %esi
	movl	%r12d, %r15d
	movl	%r13d, %r12d
	movq	%rdx, %rbp
	movq	%rax, %rdx
	movq	%rcx, %r13
	callq	memset@PLT
	movq	%r13, %rcx
	movq	%rbp, %rdx
	movl	%r12d, %r13d
	movl	%r15d, %r12d
	movq	64(%rsp), %r15
	movq	$0, 1504(%r14)
.LBB36cb1_10:
	cmpq	$1504, %rcx
	ja	.LBB36cb1_46
	movq	%r14, %rax
	subq	%rdx, %rax
	cmpq	%rcx, %rax
	jae	.LBB36cb1_23
	cmpq	$4, %rcx
	setb	%sil
	cmpq	$32, %rax
	setb	%al
	orb	%sil, %al
	je	.LBB36cb1_29
	xorl	%eax, %eax
	jmp	.LBB36cb1_40
.LBB36cb1_14:
	movzbl	%r10b, %edx
	movb	$0, (%r15)
	movl	%edx, %edx
	leaq	.LJTI36cb1_2(%rip), %rsi
	movslq	(%rsi,%rdx,4), %rdx
	addq	%rsi, %rdx
	jmpq	*%rdx
.LBB36cb1_15:
	testb	%al, %al
	sete	%al
	xorb	$65, %al
.LBB36cb1_16:
	movb	$1, %r10b
	jmp	.LBB36cb1_28
.LBB36cb1_17:
	movq	1504(%r14), %rax
	testq	%rax, %rax
	je	.LBB36cb1_19
	movq	%r14, %rdi
	xorl	%esi, %esi
	movl	%r12d, %r15d
	movl	%r13d, %r12d
	movq	%rdx, %rbp
	movq	%rax, %rdx
	movq	%rcx, %r13
	callq	memset@PLT
	movq	%r13, %rcx
	movq	%rbp, %rdx
	movl	%r12d, %r13d
	movl	%r15d, %r12d
	movq	64(%rsp), %r15
.LBB36cb1_19:
	movzwl	%cx, %eax
	orl	$33554432, %eax
	bswapl	%eax
	movl	%eax, (%r14)
	movq	$4, 1504(%r14)
	cmpq	$1500, %rcx
	ja	.LBB36cb1_63
	leaq	4(%r14), %rdi
	movq	%rdi, %rax
	subq	%rdx, %rax
	cmpq	%rcx, %rax
	jae	.LBB36cb1_24
	cmpq	$4, %rcx
	jb	.LBB36cb1_22
	movq	%r14, %rax
	subq	%rdx, %rax
	addq	$4, %rax
	cmpq	$32, %rax
	jae	.LBB36cb1_48
.LBB36cb1_22:
	xorl	%eax, %eax
.LBB36cb1_57:
	movq	%rcx, %rsi
	movq	%rax, %r9
	andq	$3, %rsi
	je	.LBB36cb1_60
	movq	%rax, %r9
	.p2align	4
.LBB36cb1_59:
	movzbl	(%rdx,%r9), %r8d
	movb	%r8b, (%rdi,%r9)
	incq	%r9
	decq	%rsi
	jne	.LBB36cb1_59
.LBB36cb1_60:
	subq	%rcx, %rax
	cmpq	$-4, %rax
	ja	.LBB36cb1_62
	.p2align	4
.LBB36cb1_61:
	movzbl	(%rdx,%r9), %eax
	movb	%al, 4(%r14,%r9)
	movzbl	1(%rdx,%r9), %eax
	movb	%al, 5(%r14,%r9)
	movzbl	2(%rdx,%r9), %eax
	movb	%al, 6(%r14,%r9)
	movzbl	3(%rdx,%r9), %eax
	movb	%al, 7(%r14,%r9)
	addq	$4, %r9
	cmpq	%r9, %rcx
	jne	.LBB36cb1_61
	jmp	.LBB36cb1_62
.LBB36cb1_23:
	movq	%r14, %rdi
	movq	%rdx, %rsi
	movq	%rcx, %rdx
	movq	%rcx, %rbp
	callq	memmove@PLT
	movq	%rbp, %rcx
	jmp	.LBB36cb1_45
.LBB36cb1_24:
	movq	%rdx, %rsi
	movq	%rcx, %rdx
	movq	%rcx, %rbp
	callq	memmove@PLT
	movq	%rbp, %rcx
.LBB36cb1_62:
	addq	$4, %rcx
	movq	%rcx, 1504(%r14)
.LBB36cb1_63:
	movb	$1, (%r15)
	movb	$1, %sil
	xorl	%eax, %eax
	xorl	%r10d, %r10d
	xorl	%edx, %edx
	jmp	.LBB36cb1_64
.LBB36cb1_25:
	movb	$1, %r10b
	movb	$68, %al
	jmp	.LBB36cb1_28
.LBB36cb1_26:
	movb	$66, %al
	jmp	.LBB36cb1_28
.LBB36cb1_27:
	movb	$1, %r10b
	movb	$67, %al
.LBB36cb1_28:
	xorl	%edx, %edx
	jmp	.LBB36cb1_47
.LBB36cb1_29:
	cmpq	$32, %rcx
	jae	.LBB36cb1_33
	xorl	%eax, %eax
	jmp	.LBB36cb1_37
.LBB36cb1_33:
	movl	%ecx, %eax
	andl	$2016, %eax
	xorl	%esi, %esi
	.p2align	4
.LBB36cb1_34:
	movups	(%rdx,%rsi), %xmm0
	movups	16(%rdx,%rsi), %xmm1
	movups	%xmm0, (%r14,%rsi)
	movups	%xmm1, 16(%r14,%rsi)
	addq	$32, %rsi
	cmpq	%rsi, %rax
	jne	.LBB36cb1_34
	cmpq	%rax, %rcx
	je	.LBB36cb1_45
	testb	$28, %cl
	je	.LBB36cb1_40
.LBB36cb1_37:
	movq	%rax, %rdi
	movl	%ecx, %eax
	andl	$2044, %eax
	.p2align	4
.LBB36cb1_38:
	movl	(%rdx,%rdi), %esi
	movl	%esi, (%r14,%rdi)
	addq	$4, %rdi
	cmpq	%rdi, %rax
	jne	.LBB36cb1_38
	cmpq	%rax, %rcx
	je	.LBB36cb1_45
.LBB36cb1_40:
	movq	%rcx, %rsi
	movq	%rax, %r8
	andq	$3, %rsi
	je	.LBB36cb1_43
	movq	%rax, %r8
	.p2align	4
.LBB36cb1_42:
	movzbl	(%rdx,%r8), %edi
	movb	%dil, (%r14,%r8)
	incq	%r8
	decq	%rsi
	jne	.LBB36cb1_42
.LBB36cb1_43:
	subq	%rcx, %rax
	cmpq	$-4, %rax
	ja	.LBB36cb1_45
	.p2align	4
.LBB36cb1_44:
	movzbl	(%rdx,%r8), %eax
	movb	%al, (%r14,%r8)
	movzbl	1(%rdx,%r8), %eax
	movb	%al, 1(%r14,%r8)
	movzbl	2(%rdx,%r8), %eax
	movb	%al, 2(%r14,%r8)
	movzbl	3(%rdx,%r8), %eax
	movb	%al, 3(%r14,%r8)
	addq	$4, %r8
	cmpq	%r8, %rcx
	jne	.LBB36cb1_44
.LBB36cb1_45:
	movq	%rcx, 1504(%r14)
.LBB36cb1_46:
	movb	$1, (%r15)
	movb	$1, %dl
	xorl	%eax, %eax
	xorl	%r10d, %r10d
.LBB36cb1_47:
	xorl	%esi, %esi
.LBB36cb1_64:
	movb	%sil, (%rbx)
	movb	%dl, 1(%rbx)
	movb	%r10b, 2(%rbx)
	movb	$0, 3(%rbx)
	movzbl	7(%rsp), %ecx
	movb	%cl, 4(%rbx)
	movb	%r12b, 5(%rbx)
	movb	%al, 6(%rbx)
	movb	%r13b, 7(%rbx)
	addq	$8, %rsp
	.cfi_def_cfa_offset 56
	popq	%rbx
	.cfi_def_cfa_offset 48
	popq	%r12
	.cfi_def_cfa_offset 40
	popq	%r13
	.cfi_def_cfa_offset 32
	popq	%r14
	.cfi_def_cfa_offset 24
	popq	%r15
	.cfi_def_cfa_offset 16
	popq	%rbp
	.cfi_def_cfa_offset 8
	retq
.LBB36cb1_48:
	.cfi_def_cfa_offset 64
	cmpq	$32, %rcx
	jae	.LBB36cb1_50
	xorl	%eax, %eax
	jmp	.LBB36cb1_54
.LBB36cb1_50:
	movl	%ecx, %eax
	andl	$2016, %eax
	xorl	%esi, %esi
	.p2align	4
.LBB36cb1_51:
	movups	(%rdx,%rsi), %xmm0
	movups	16(%rdx,%rsi), %xmm1
	movups	%xmm0, 4(%r14,%rsi)
	movups	%xmm1, 20(%r14,%rsi)
	addq	$32, %rsi
	cmpq	%rsi, %rax
	jne	.LBB36cb1_51
	cmpq	%rax, %rcx
	je	.LBB36cb1_62
	testb	$28, %cl
	je	.LBB36cb1_57
.LBB36cb1_54:
	movq	%rax, %r8
	movl	%ecx, %eax
	andl	$2044, %eax
	.p2align	4
.LBB36cb1_55:
	movl	(%rdx,%r8), %esi
	movl	%esi, (%rdi,%r8)
	addq	$4, %r8
	cmpq	%r8, %rax
	jne	.LBB36cb1_55
	cmpq	%rax, %rcx
	je	.LBB36cb1_62
	jmp	.LBB36cb1_57
.Lfunc_end36cb1:
	.size	"tuvaddri_c::port_turn::TuvPortTurn::of", .Lfunc_end36cb1-"tuvaddri_c::port_turn::TuvPortTurn::of"
	.cfi_endproc
	.section	".rodata.tuvaddri_c::port_turn::TuvPortTurn::of","a",@progbits
	.p2align	2, 0x0
.LJTI36cb1_0:
	.long	.LBB36cb1_1-.LJTI36cb1_0
	.long	.LBB36cb1_5-.LJTI36cb1_0
	.long	.LBB36cb1_3-.LJTI36cb1_0
	.long	.LBB36cb1_4-.LJTI36cb1_0
	.long	.LBB36cb1_2-.LJTI36cb1_0
	.long	.LBB36cb1_6-.LJTI36cb1_0
.LJTI36cb1_1:
	.long	.LBB36cb1_7-.LJTI36cb1_1
	.long	.LBB36cb1_17-.LJTI36cb1_1
	.long	.LBB36cb1_8-.LJTI36cb1_1
	.long	.LBB36cb1_14-.LJTI36cb1_1
.LJTI36cb1_2:
	.long	.LBB36cb1_15-.LJTI36cb1_2
	.long	.LBB36cb1_26-.LJTI36cb1_2
	.long	.LBB36cb1_27-.LJTI36cb1_2
	.long	.LBB36cb1_16-.LJTI36cb1_2
	.long	.LBB36cb1_25-.LJTI36cb1_2

	.section	".text.tuvaddri_c::sent::empty_frame","ax",@progbits
	.p2align	4
	.type	"tuvaddri_c::sent::empty_frame",@function
"tuvaddri_c::sent::empty_frame":
	.cfi_startproc
	pushq	%r14
	.cfi_def_cfa_offset 16
	pushq	%rbx
	.cfi_def_cfa_offset 24
	pushq	%rax
	.cfi_def_cfa_offset 32
	.cfi_offset %rbx, -24
	.cfi_offset %r14, -16
	movl	$1512, %edi
	movl	$8, %esi
	callq	rattle_alloc@PLT
	testb	$1, %al
	je	.LBBcd59a_1
	movq	%rdx, %rbx
	movl	$1512, %edx
	movq	%rbx, %rdi
	xorl	%esi, %esi
	movq	%rax, %r14
	callq	memset@PLT
	movq	%r14, %rax
	jmp	.LBBcd59a_3
.LBBcd59a_1:
	xorl	%ebx, %ebx
.LBBcd59a_3:
	andb	$1, %al
	movq	%rbx, %rdx
	addq	$8, %rsp
	.cfi_def_cfa_offset 24
	popq	%rbx
	.cfi_def_cfa_offset 16
	popq	%r14
	.cfi_def_cfa_offset 8
	retq
.Lfunc_endcd59a:
	.size	"tuvaddri_c::sent::empty_frame", .Lfunc_endcd59a-"tuvaddri_c::sent::empty_frame"
	.cfi_endproc

	.section	.rodata.cst16,"aM",@progbits,16
	.p2align	4, 0x0
.LCPI97d51_0:
	.byte	1,1
	.zero	1
	.byte	0
	.zero	1
	.zero	1
	.zero	1
	.zero	1
	.zero	1
	.zero	1
	.zero	1
	.zero	1
	.zero	1
	.zero	1
	.zero	1
	.zero	1
.LCPI97d51_1:
	.byte	1,1,0,0,0,0,0,0,0,0,0,0,0,0,0,0
	.section	".text.switch_port::machine::SwitchPort::begin","ax",@progbits
	.p2align	4
	.type	"switch_port::machine::SwitchPort::begin",@function
"switch_port::machine::SwitchPort::begin":
	.cfi_startproc
	pushq	%rbp
	.cfi_def_cfa_offset 16
	pushq	%r15
	.cfi_def_cfa_offset 24
	pushq	%r14
	.cfi_def_cfa_offset 32
	pushq	%r13
	.cfi_def_cfa_offset 40
	pushq	%r12
	.cfi_def_cfa_offset 48
	pushq	%rbx
	.cfi_def_cfa_offset 56
	pushq	%rax
	.cfi_def_cfa_offset 64
	.cfi_offset %rbx, -56
	.cfi_offset %r12, -48
	.cfi_offset %r13, -40
	.cfi_offset %r14, -32
	.cfi_offset %r15, -24
	.cfi_offset %rbp, -16
	movq	%rdx, %r15
	movq	%rsi, %r14
	movq	%rdi, %rbx
	movzbl	20(%rsi), %eax
	cmpl	$2, %eax
	je	.LBB97d51_5
	cmpl	$1, %eax
	jne	.LBB97d51_8
	movq	1504(%r15), %rdx
	testq	%rdx, %rdx
	je	.LBB97d51_4
	movq	%r15, %rdi
	xorl	%esi, %esi
	callq	memset@PLT
.LBB97d51_4:
	movl	$67108867, (%r15)
	movq	$4, 1504(%r15)
	movw	$260, 21(%r14)
	jmp	.LBB97d51_35
.LBB97d51_5:
	movq	1504(%r15), %rdx
	testq	%rdx, %rdx
	je	.LBB97d51_7
	movq	%r15, %rdi
	xorl	%esi, %esi
	callq	memset@PLT
.LBB97d51_7:
	movl	$67108868, (%r15)
	movq	$4, 1504(%r15)
	movw	$5, 21(%r14)
	jmp	.LBB97d51_35
.LBB97d51_8:
	movb	$0, 22(%r14)
	movb	$1, 1544(%r14)
	movzbl	24(%r14), %ebp
	movq	1504(%r15), %rdx
	testq	%rdx, %rdx
	je	.LBB97d51_10
	movq	%r15, %rdi
	xorl	%esi, %esi
	callq	memset@PLT
.LBB97d51_10:
	shll	$8, %ebp
	orl	$83886081, %ebp
	movl	%ebp, (%r15)
	movb	$1, 4(%r15)
	movq	$5, 1504(%r15)
	movd	.LCPI97d51_1(%rip), %xmm0
	pinsrb	$2, 24(%r14), %xmm0
	movd	%xmm0, 26(%r14)
	leaq	32(%r14), %r13
	movq	1504(%r15), %r12
	movq	1536(%r14), %rdx
	testq	%rdx, %rdx
	je	.LBB97d51_12
	movq	%r13, %rdi
	xorl	%esi, %esi
	callq	memset@PLT
	movq	$0, 1536(%r14)
.LBB97d51_12:
	cmpq	$1500, %r12
	ja	.LBB97d51_34
	movq	%r13, %rax
	subq	%r15, %rax
	cmpq	%r12, %rax
	jae	.LBB97d51_16
	cmpq	$4, %r12
	jb	.LBB97d51_15
	movq	%r14, %rax
	subq	%r15, %rax
	addq	$32, %rax
	cmpq	$32, %rax
	jae	.LBB97d51_19
.LBB97d51_15:
	xorl	%eax, %eax
.LBB97d51_28:
	movq	%r12, %rdx
	movq	%rax, %rcx
	andq	$3, %rdx
	je	.LBB97d51_31
	movq	%rax, %rcx
	.p2align	4
.LBB97d51_30:
	movzbl	(%r15,%rcx), %esi
	movb	%sil, (%r13,%rcx)
	incq	%rcx
	decq	%rdx
	jne	.LBB97d51_30
.LBB97d51_31:
	subq	%r12, %rax
	cmpq	$-4, %rax
	ja	.LBB97d51_33
	.p2align	4
.LBB97d51_32:
	movzbl	(%r15,%rcx), %eax
	movb	%al, 32(%r14,%rcx)
	movzbl	1(%r15,%rcx), %eax
	movb	%al, 33(%r14,%rcx)
	movzbl	2(%r15,%rcx), %eax
	movb	%al, 34(%r14,%rcx)
	movzbl	3(%r15,%rcx), %eax
	movb	%al, 35(%r14,%rcx)
	addq	$4, %rcx
	cmpq	%rcx, %r12
	jne	.LBB97d51_32
	jmp	.LBB97d51_33
.LBB97d51_16:
	movq	%r13, %rdi
	movq	%r15, %rsi
	movq	%r12, %rdx
	callq	memmove@PLT
.LBB97d51_33:
	movq	%r12, 1536(%r14)
.LBB97d51_34:
	movb	$1, 21(%r14)
	movl	8(%r14), %eax
	movl	%eax, 1548(%r14)
.LBB97d51_35:
	movw	$1, (%rbx)
	movb	$0, 2(%rbx)
	addq	$8, %rsp
	.cfi_def_cfa_offset 56
	popq	%rbx
	.cfi_def_cfa_offset 48
	popq	%r12
	.cfi_def_cfa_offset 40
	popq	%r13
	.cfi_def_cfa_offset 32
	popq	%r14
	.cfi_def_cfa_offset 24
	popq	%r15
	.cfi_def_cfa_offset 16
	popq	%rbp
	.cfi_def_cfa_offset 8
	retq
.LBB97d51_19:
	.cfi_def_cfa_offset 64
	cmpq	$32, %r12
	jae	.LBB97d51_21
	xorl	%eax, %eax
	jmp	.LBB97d51_25
.LBB97d51_21:
	movl	%r12d, %eax
	andl	$2016, %eax
	xorl	%ecx, %ecx
	.p2align	4
.LBB97d51_22:
	movdqu	(%r15,%rcx), %xmm0
	movups	16(%r15,%rcx), %xmm1
	movdqu	%xmm0, 32(%r14,%rcx)
	movups	%xmm1, 48(%r14,%rcx)
	addq	$32, %rcx
	cmpq	%rcx, %rax
	jne	.LBB97d51_22
	cmpq	%rax, %r12
	je	.LBB97d51_33
	testb	$28, %r12b
	je	.LBB97d51_28
.LBB97d51_25:
	movq	%rax, %rcx
	movl	%r12d, %eax
	andl	$2044, %eax
	.p2align	4
.LBB97d51_26:
	movl	(%r15,%rcx), %edx
	movl	%edx, (%r13,%rcx)
	addq	$4, %rcx
	cmpq	%rcx, %rax
	jne	.LBB97d51_26
	cmpq	%rax, %r12
	je	.LBB97d51_33
	jmp	.LBB97d51_28
.Lfunc_end97d51:
	.size	"switch_port::machine::SwitchPort::begin", .Lfunc_end97d51-"switch_port::machine::SwitchPort::begin"
	.cfi_endproc

	.section	".text.tuvaddri_c::by_method::add_users::<#d37c63745cf5a212>","ax",@progbits
	.p2align	4
	.type	"tuvaddri_c::by_method::add_users::<#d37c63745cf5a212>",@function
"tuvaddri_c::by_method::add_users::<#d37c63745cf5a212>":
	.cfi_startproc
	cmpq	$0, 32(%rsi)
	je	.LBBb99c1_18
	pushq	%r15
	.cfi_def_cfa_offset 16
	pushq	%r14
	.cfi_def_cfa_offset 24
	pushq	%r12
	.cfi_def_cfa_offset 32
	pushq	%rbx
	.cfi_def_cfa_offset 40
	subq	$1416, %rsp
	.cfi_def_cfa_offset 1456
	.cfi_offset %rbx, -40
	.cfi_offset %r12, -32
	.cfi_offset %r14, -24
	.cfi_offset %r15, -16
	movq	%rdi, %rbx
	movq	48(%rsi), %rax
	cmpq	$0, 64(%rsi)
	je	.LBBb99c1_2
	leaq	1904(%rbx), %r14
	testq	%rax, %rax
	je	.LBBb99c1_7
	leaq	360(%rsp), %r12
	movq	%r12, %rdi
	movq	%rsi, %r15
	movl	$51, %edx
	callq	"end_objects::settings::user_of"
	leaq	8(%rsp), %rdi
	movl	$352, %edx
	movq	%r12, %rsi
	callq	memcpy@PLT
	movq	2608(%rbx), %r12
	cmpq	$2, %r12
	sete	%al
	cmpq	$16, %r12
	setae	%cl
	orb	%al, %cl
	jne	.LBBb99c1_13
	movq	264(%rsp), %rcx
	movl	272(%rsp), %r8d
	leaq	8(%rsp), %rdx
	movq	%r14, %rdi
	movq	%r12, %rsi
	callq	"login_setup::users::find_user"
	testb	$1, %al
	jne	.LBBb99c1_13
	imulq	$352, %r12, %rdi
	addq	%r14, %rdi
	leaq	360(%rsp), %rsi
	movl	$352, %edx
	callq	memcpy@PLT
	incq	%r12
	movq	%r12, 2608(%rbx)
.LBBb99c1_13:
	leaq	360(%rsp), %r12
	movq	%r12, %rdi
	movq	%r15, %rsi
	movl	$47, %edx
	callq	"end_objects::settings::user_of"
	leaq	8(%rsp), %rdi
	movl	$352, %edx
	movq	%r12, %rsi
	callq	memcpy@PLT
	movq	2608(%rbx), %r15
	cmpq	$2, %r15
	sete	%al
	cmpq	$16, %r15
	setae	%cl
	orb	%al, %cl
	jne	.LBBb99c1_17
	movq	264(%rsp), %rcx
	movl	272(%rsp), %r8d
	leaq	8(%rsp), %rdx
	movq	%r14, %rdi
	movq	%r15, %rsi
	callq	"login_setup::users::find_user"
	testb	$1, %al
	jne	.LBBb99c1_17
	imulq	$352, %r15, %rax
	addq	%rax, %r14
	leaq	360(%rsp), %rsi
	jmp	.LBBb99c1_16
.LBBb99c1_2:
	testq	%rax, %rax
	je	.LBBb99c1_17
	leaq	1064(%rsp), %r14
	movq	%r14, %rdi
	movl	$47, %edx
	callq	"end_objects::settings::user_of"
	leaq	8(%rsp), %rdi
	movl	$352, %edx
	movq	%r14, %rsi
	callq	memcpy@PLT
	movq	2608(%rbx), %r14
	cmpq	$2, %r14
	sete	%al
	cmpq	$16, %r14
	setae	%cl
	orb	%al, %cl
	jne	.LBBb99c1_17
	leaq	1904(%rbx), %r15
	movq	264(%rsp), %rcx
	movl	272(%rsp), %r8d
	leaq	8(%rsp), %rdx
	movq	%r15, %rdi
	movq	%r14, %rsi
	callq	"login_setup::users::find_user"
	testb	$1, %al
	jne	.LBBb99c1_17
	imulq	$352, %r14, %rax
	addq	%rax, %r15
	leaq	1064(%rsp), %rsi
	movl	$352, %edx
	movq	%r15, %rdi
	callq	memcpy@PLT
	incq	%r14
	movq	%r14, 2608(%rbx)
	jmp	.LBBb99c1_17
.LBBb99c1_7:
	leaq	712(%rsp), %r15
	movq	%r15, %rdi
	movl	$51, %edx
	callq	"end_objects::settings::user_of"
	leaq	8(%rsp), %rdi
	movl	$352, %edx
	movq	%r15, %rsi
	callq	memcpy@PLT
	movq	2608(%rbx), %r15
	cmpq	$2, %r15
	sete	%al
	cmpq	$16, %r15
	setae	%cl
	orb	%al, %cl
	jne	.LBBb99c1_17
	movq	264(%rsp), %rcx
	movl	272(%rsp), %r8d
	leaq	8(%rsp), %rdx
	movq	%r14, %rdi
	movq	%r15, %rsi
	callq	"login_setup::users::find_user"
	testb	$1, %al
	jne	.LBBb99c1_17
	imulq	$352, %r15, %rax
	addq	%rax, %r14
	leaq	712(%rsp), %rsi
.LBBb99c1_16:
	movl	$352, %edx
	movq	%r14, %rdi
	callq	memcpy@PLT
	incq	%r15
	movq	%r15, 2608(%rbx)
.LBBb99c1_17:
	addq	$1416, %rsp
	.cfi_def_cfa_offset 40
	popq	%rbx
	.cfi_def_cfa_offset 32
	popq	%r12
	.cfi_def_cfa_offset 24
	popq	%r14
	.cfi_def_cfa_offset 16
	popq	%r15
	.cfi_def_cfa_offset 8
	.cfi_restore %rbx
	.cfi_restore %r12
	.cfi_restore %r14
	.cfi_restore %r15
.LBBb99c1_18:
	retq
.Lfunc_endb99c1:
	.size	"tuvaddri_c::by_method::add_users::<#d37c63745cf5a212>", .Lfunc_endb99c1-"tuvaddri_c::by_method::add_users::<#d37c63745cf5a212>"
	.cfi_endproc

	.section	".text.tuvaddri_c::users::put","ax",@progbits
	.p2align	4
	.type	"tuvaddri_c::users::put",@function
"tuvaddri_c::users::put":
	.cfi_startproc
	pushq	%r15
	.cfi_def_cfa_offset 16
	pushq	%r14
	.cfi_def_cfa_offset 24
	pushq	%rbx
	.cfi_def_cfa_offset 32
	subq	$704, %rsp
	.cfi_def_cfa_offset 736
	.cfi_offset %rbx, -32
	.cfi_offset %r14, -24
	.cfi_offset %r15, -16
	movq	%rsi, %r14
	movq	%rdi, %rbx
	movl	$712, %edx
	xorl	%esi, %esi
	callq	memset@PLT
	cmpq	$0, 32(%r14)
	je	.LBB40ac3_12
	movq	48(%r14), %rax
	cmpq	$0, 64(%r14)
	je	.LBB40ac3_2
	leaq	352(%rsp), %r15
	movq	%r15, %rdi
	testq	%rax, %rax
	je	.LBB40ac3_4
	movq	%r14, %rsi
	movl	$51, %edx
	callq	"end_objects::settings::user_of"
	movq	%rsp, %rdi
	movl	$352, %edx
	movq	%r15, %rsi
	callq	memcpy@PLT
	movq	704(%rbx), %r15
	cmpq	$2, %r15
	sete	%al
	cmpq	$16, %r15
	setae	%cl
	orb	%al, %cl
	jne	.LBB40ac3_8
	movq	256(%rsp), %rcx
	movl	264(%rsp), %r8d
	movq	%rsp, %rdx
	movq	%rbx, %rdi
	movq	%r15, %rsi
	callq	"login_setup::users::find_user"
	testb	$1, %al
	jne	.LBB40ac3_8
	imulq	$352, %r15, %rdi
	addq	%rbx, %rdi
	leaq	352(%rsp), %rsi
	movl	$352, %edx
	callq	memcpy@PLT
	incq	%r15
	movq	%r15, 704(%rbx)
	jmp	.LBB40ac3_8
.LBB40ac3_2:
	testq	%rax, %rax
	je	.LBB40ac3_12
.LBB40ac3_8:
	leaq	352(%rsp), %r15
	movq	%r15, %rdi
	movq	%r14, %rsi
	movl	$47, %edx
	jmp	.LBB40ac3_9
.LBB40ac3_4:
	movq	%r14, %rsi
	movl	$51, %edx
.LBB40ac3_9:
	callq	"end_objects::settings::user_of"
	movq	%rsp, %rdi
	movl	$352, %edx
	movq	%r15, %rsi
	callq	memcpy@PLT
	movq	704(%rbx), %r14
	cmpq	$2, %r14
	sete	%al
	cmpq	$16, %r14
	setae	%cl
	orb	%al, %cl
	jne	.LBB40ac3_12
	movq	256(%rsp), %rcx
	movl	264(%rsp), %r8d
	movq	%rsp, %rdx
	movq	%rbx, %rdi
	movq	%r14, %rsi
	callq	"login_setup::users::find_user"
	testb	$1, %al
	jne	.LBB40ac3_12
	imulq	$352, %r14, %rdi
	addq	%rbx, %rdi
	leaq	352(%rsp), %rsi
	movl	$352, %edx
	callq	memcpy@PLT
	incq	%r14
	movq	%r14, 704(%rbx)
.LBB40ac3_12:
	addq	$704, %rsp
	.cfi_def_cfa_offset 32
	popq	%rbx
	.cfi_def_cfa_offset 24
	popq	%r14
	.cfi_def_cfa_offset 16
	popq	%r15
	.cfi_def_cfa_offset 8
	retq
.Lfunc_end40ac3:
	.size	"tuvaddri_c::users::put", .Lfunc_end40ac3-"tuvaddri_c::users::put"
	.cfi_endproc

	.section	".text.supplicant::machine::Supplicant::deliver::<#807681be332d694b>","ax",@progbits
	.p2align	4
	.type	"supplicant::machine::Supplicant::deliver::<#807681be332d694b>",@function
"supplicant::machine::Supplicant::deliver::<#807681be332d694b>":
	.cfi_startproc
	pushq	%rbp
	.cfi_def_cfa_offset 16
	pushq	%r15
	.cfi_def_cfa_offset 24
	pushq	%r14
	.cfi_def_cfa_offset 32
	pushq	%r13
	.cfi_def_cfa_offset 40
	pushq	%r12
	.cfi_def_cfa_offset 48
	pushq	%rbx
	.cfi_def_cfa_offset 56
	subq	$2216, %rsp
	.cfi_def_cfa_offset 2272
	.cfi_offset %rbx, -56
	.cfi_offset %r12, -48
	.cfi_offset %r13, -40
	.cfi_offset %r14, -32
	.cfi_offset %r15, -24
	.cfi_offset %rbp, -16
	movq	%r9, %r15
	movl	%r8d, %ebp
	movq	%rcx, %r12
	movq	%rdx, %r13
	movq	%rsi, %r14
	movq	%rdi, %rbx
	leaq	704(%rsp), %rdi
	movl	$1512, %edx
	xorl	%esi, %esi
	callq	memset@PLT
	leaq	32(%r14), %rsi
	xorps	%xmm0, %xmm0
	movaps	%xmm0, 16(%rsp)
	movq	$0, 32(%rsp)
	movaps	%xmm0, (%rsp)
	cmpb	$1, 792(%r14)
	jne	.LBBcf1db_2
	leaq	16(%rsp), %rdi
	leaq	704(%rsp), %r8
	movq	%rsp, %r9
	movq	%r13, %rdx
	movq	%r12, %rcx
	callq	"peer_machine::machine::PeerMachine::read::<#f75f5811e3b75c76>"
	cmpb	$1, 32(%rsp)
	je	.LBBcf1db_4
.LBBcf1db_5:
	movzbl	34(%rsp), %r13d
	cmpb	$1, %r13b
	jne	.LBBcf1db_11
	movq	2208(%rsp), %r12
	movq	1504(%r15), %rdx
	testq	%rdx, %rdx
	je	.LBBcf1db_8
	movq	%r15, %rdi
	xorl	%esi, %esi
	callq	memset@PLT
.LBBcf1db_8:
	movzwl	%r12w, %eax
	orl	$33554432, %eax
	bswapl	%eax
	movl	%eax, (%r15)
	movq	$4, 1504(%r15)
	cmpq	$1500, %r12
	ja	.LBBcf1db_10
	leaq	4(%r15), %rdi
	leaq	704(%rsp), %rsi
	movq	%r12, %rdx
	callq	memcpy@PLT
	addq	$4, %r12
	movq	%r12, 1504(%r15)
	jmp	.LBBcf1db_10
.LBBcf1db_2:
	leaq	16(%rsp), %rdi
	leaq	704(%rsp), %r8
	movq	%rsp, %r9
	movq	%r13, %rdx
	movq	%r12, %rcx
	callq	"peer_machine::machine::PeerMachine::receive_octets::<#f75f5811e3b75c76>"
	cmpb	$1, 32(%rsp)
	jne	.LBBcf1db_5
.LBBcf1db_4:
	movzbl	33(%rsp), %eax
	movzbl	%bpl, %ecx
	movd	%ecx, %xmm0
	movl	$1, %ecx
	pinsrb	$1, %ecx, %xmm0
	movb	$0, (%rbx)
	movl	$4, %ecx
	pinsrb	$2, %ecx, %xmm0
	movzbl	%al, %eax
	pinsrb	$3, %eax, %xmm0
	movd	%xmm0, 1(%rbx)
	jmp	.LBBcf1db_22
.LBBcf1db_11:
	movzbl	800(%r14), %eax
	movabsq	$8589407231, %rcx
	btq	%rax, %rcx
	jae	.LBBcf1db_12
.LBBcf1db_10:
	movl	8(%r14), %eax
.LBBcf1db_20:
	movl	%eax, 28(%r14)
.LBBcf1db_21:
	movzbl	%bpl, %eax
	movzbl	%r13b, %ecx
	movd	%ecx, %xmm0
	pinsrb	$1, %eax, %xmm0
	movd	%xmm0, (%rbx)
	movb	$0, 4(%rbx)
.LBBcf1db_22:
	addq	$2216, %rsp
	.cfi_def_cfa_offset 56
	popq	%rbx
	.cfi_def_cfa_offset 48
	popq	%r12
	.cfi_def_cfa_offset 40
	popq	%r13
	.cfi_def_cfa_offset 32
	popq	%r14
	.cfi_def_cfa_offset 24
	popq	%r15
	.cfi_def_cfa_offset 16
	popq	%rbp
	.cfi_def_cfa_offset 8
	retq
.LBBcf1db_12:
	.cfi_def_cfa_offset 2272
	movl	$526336, %ecx
	btq	%rax, %rcx
	jae	.LBBcf1db_13
.LBBcf1db_19:
	movw	$5, 22(%r14)
	movl	12(%r14), %eax
	jmp	.LBBcf1db_20
.LBBcf1db_13:
	cmpb	$1, 801(%r14)
	jne	.LBBcf1db_19
	movzbl	802(%r14), %eax
	movq	2328(%r14), %rcx
	movq	$-1248, %rsi
	addq	2320(%r14), %rsi
	incq	%rcx
.LBBcf1db_15:
	decq	%rcx
	je	.LBBcf1db_19
	addq	$1248, %rsi
	cmpb	$0, (%rsi)
	setne	%dl
	shlb	$2, %dl
	addb	$47, %dl
	cmpb	%dl, %al
	jne	.LBBcf1db_15
	leaq	16(%rsp), %rdi
	callq	"end_objects::objects::PeerObjectPeerMethod::report"
	cmpb	$1, 16(%rsp)
	jne	.LBBcf1db_19
	movw	$260, 22(%r14)
	jmp	.LBBcf1db_21
.Lfunc_endcf1db:
	.size	"supplicant::machine::Supplicant::deliver::<#807681be332d694b>", .Lfunc_endcf1db-"supplicant::machine::Supplicant::deliver::<#807681be332d694b>"
	.cfi_endproc

	.section	.rodata.cst16,"aM",@progbits,16
	.p2align	4, 0x0
.LCPI68108_0:
	.quad	67842
	.quad	3
.LCPI68108_1:
	.byte	1,8
	.zero	1
	.zero	1
	.zero	1
	.zero	1
	.zero	1
	.zero	1
	.zero	1
	.zero	1
	.zero	1
	.zero	1
	.zero	1
	.zero	1
	.zero	1
	.zero	1
.LCPI68108_2:
	.byte	1,8,0,0,0,0,0,0,0,0,0,0,0,0,0,0
	.section	".text.peer_machine::machine::PeerMachine::read::<#f75f5811e3b75c76>","ax",@progbits
	.p2align	4
	.type	"peer_machine::machine::PeerMachine::read::<#f75f5811e3b75c76>",@function
"peer_machine::machine::PeerMachine::read::<#f75f5811e3b75c76>":
	.cfi_startproc
	pushq	%rbp
	.cfi_def_cfa_offset 16
	pushq	%r15
	.cfi_def_cfa_offset 24
	pushq	%r14
	.cfi_def_cfa_offset 32
	pushq	%r13
	.cfi_def_cfa_offset 40
	pushq	%r12
	.cfi_def_cfa_offset 48
	pushq	%rbx
	.cfi_def_cfa_offset 56
	subq	$200, %rsp
	.cfi_def_cfa_offset 256
	.cfi_offset %rbx, -56
	.cfi_offset %r12, -48
	.cfi_offset %r13, -40
	.cfi_offset %r14, -32
	.cfi_offset %r15, -24
	.cfi_offset %rbp, -16
	movq	%r9, %r13
	movq	%r8, %r14
	movq	%rcx, %r12
	movq	%rdx, %rbp
	movq	%rsi, %r15
	movq	%rdi, %rbx
	xorps	%xmm0, %xmm0
	movaps	%xmm0, 176(%rsp)
	movaps	%xmm0, 160(%rsp)
	movaps	%xmm0, 144(%rsp)
	movaps	%xmm0, 16(%rsp)
	movq	$0, 32(%rsp)
	leaq	144(%rsp), %rdi
	movq	%rdx, %rsi
	movq	%rcx, %rdx
	callq	"eap_packet::packet::decode"
	movzbl	152(%rsp), %eax
	orb	144(%rsp), %al
	jne	.LBB68108_4
	leaq	153(%rsp), %rax
	movzbl	768(%r15), %ecx
	movabsq	$8589407231, %rdx
	btq	%rcx, %rdx
	jae	.LBB68108_4
	movb	$0, 104(%rsp)
	movups	(%rax), %xmm0
	movups	16(%rax), %xmm1
	movups	%xmm0, 105(%rsp)
	movups	%xmm1, 121(%rsp)
	movq	31(%rax), %rax
	movq	%rax, 136(%rsp)
	xorps	%xmm0, %xmm0
	movaps	%xmm0, 48(%rsp)
	movq	$0, 64(%rsp)
	leaq	104(%rsp), %rdi
	callq	"eap_packet::expanded::is_bad_expanded"
	testb	%al, %al
	je	.LBB68108_5
	movaps	.LCPI68108_0(%rip), %xmm1
	movd	.LCPI68108_2(%rip), %xmm0
	xorl	%ebp, %ebp
	jmp	.LBB68108_14
.LBB68108_4:
	leaq	16(%rsp), %rdi
	movq	%r15, %rsi
	movq	%rbp, %rdx
	movq	%r12, %rcx
	movq	%r14, %r8
	movq	%r13, %r9
	callq	"peer_machine::machine::PeerMachine::receive_octets::<#f75f5811e3b75c76>"
	movdqa	32(%rsp), %xmm0
	movzbl	34(%rsp), %ebp
	jmp	.LBB68108_15
.LBB68108_5:
	cmpb	$-2, 106(%rsp)
	jne	.LBB68108_8
	movq	$0, 96(%rsp)
	cmpb	$1, 773(%r15)
	jne	.LBB68108_9
	movzbl	774(%r15), %eax
	cmpb	105(%rsp), %al
	sete	%al
	movl	%eax, 12(%rsp)
	jmp	.LBB68108_10
.LBB68108_8:
	leaq	48(%rsp), %rdi
	movq	%r15, %rsi
	movq	%rbp, %rdx
	movq	%r12, %rcx
	movq	%r14, %r8
	movq	%r13, %r9
	callq	"peer_machine::machine::PeerMachine::receive_octets::<#f75f5811e3b75c76>"
	movdqa	64(%rsp), %xmm0
	movzbl	66(%rsp), %ebp
	jmp	.LBB68108_13
.LBB68108_9:
	movl	$0, 12(%rsp)
.LBB68108_10:
	movq	%r13, (%rsp)
	leaq	80(%rsp), %rdi
	leaq	104(%rsp), %rdx
	movq	%r15, %rsi
	movq	%rbp, %rcx
	movq	%r12, %r8
	movq	%r14, %r9
	callq	"peer_machine::machine::PeerMachine::receive_plain::<#f75f5811e3b75c76>"
	movzbl	98(%rsp), %ebp
	movl	%ebp, %eax
	xorb	$1, %al
	orb	12(%rsp), %al
	jne	.LBB68108_12
	movq	%r15, %rdi
	movq	%r14, %rsi
	callq	"peer_machine::machine::express"
.LBB68108_12:
	movq	96(%rsp), %xmm0
	movups	80(%rsp), %xmm1
	movaps	%xmm1, 48(%rsp)
.LBB68108_13:
	movaps	48(%rsp), %xmm1
.LBB68108_14:
	movaps	%xmm1, 16(%rsp)
.LBB68108_15:
	movaps	16(%rsp), %xmm1
	movups	%xmm1, (%rbx)
	pextrb	$0, %xmm0, 16(%rbx)
	pextrb	$1, %xmm0, 17(%rbx)
	movb	%bpl, 18(%rbx)
	addq	$200, %rsp
	.cfi_def_cfa_offset 56
	popq	%rbx
	.cfi_def_cfa_offset 48
	popq	%r12
	.cfi_def_cfa_offset 40
	popq	%r13
	.cfi_def_cfa_offset 32
	popq	%r14
	.cfi_def_cfa_offset 24
	popq	%r15
	.cfi_def_cfa_offset 16
	popq	%rbp
	.cfi_def_cfa_offset 8
	retq
.Lfunc_end68108:
	.size	"peer_machine::machine::PeerMachine::read::<#f75f5811e3b75c76>", .Lfunc_end68108-"peer_machine::machine::PeerMachine::read::<#f75f5811e3b75c76>"
	.cfi_endproc

	.section	".text.peer_machine::machine::PeerMachine::receive_plain::<#f75f5811e3b75c76>","ax",@progbits
	.p2align	4
	.type	"peer_machine::machine::PeerMachine::receive_plain::<#f75f5811e3b75c76>",@function
"peer_machine::machine::PeerMachine::receive_plain::<#f75f5811e3b75c76>":
	.cfi_startproc
	pushq	%rbp
	.cfi_def_cfa_offset 16
	pushq	%r15
	.cfi_def_cfa_offset 24
	pushq	%r14
	.cfi_def_cfa_offset 32
	pushq	%r13
	.cfi_def_cfa_offset 40
	pushq	%r12
	.cfi_def_cfa_offset 48
	pushq	%rbx
	.cfi_def_cfa_offset 56
	subq	$1544, %rsp
	.cfi_def_cfa_offset 1600
	.cfi_offset %rbx, -56
	.cfi_offset %r12, -48
	.cfi_offset %r13, -40
	.cfi_offset %r14, -32
	.cfi_offset %r15, -24
	.cfi_offset %rbp, -16
	movq	%r9, %r14
	movq	%r8, 24(%rsp)
	movq	%rcx, %rbp
	movq	%rdx, %r15
	movq	%rsi, %r12
	movq	%rdi, %rbx
	xorps	%xmm0, %xmm0
	movaps	%xmm0, (%rsp)
	movq	$0, 16(%rsp)
	leaq	32(%rsp), %r13
	movl	$1512, %edx
	movq	%r13, %rdi
	xorl	%esi, %esi
	callq	memset@PLT
	movq	%r15, %rdi
	movq	%r13, %rsi
	callq	"eap_packet::expanded::write_plain"
	testb	%al, %al
	je	.LBB6098e_2
	movq	1536(%rsp), %rcx
	movq	%rsp, %rdi
	leaq	32(%rsp), %rdx
	movq	%r12, %rsi
	jmp	.LBB6098e_3
.LBB6098e_2:
	movq	%rsp, %rdi
	movq	%r12, %rsi
	movq	%rbp, %rdx
	movq	24(%rsp), %rcx
.LBB6098e_3:
	movq	%r14, %r8
	movq	1600(%rsp), %r9
	callq	"peer_machine::machine::PeerMachine::receive_octets::<#f75f5811e3b75c76>"
	movzwl	16(%rsp), %eax
	movzbl	18(%rsp), %ecx
	movaps	(%rsp), %xmm0
	movups	%xmm0, (%rbx)
	movw	%ax, 16(%rbx)
	movb	%cl, 18(%rbx)
	addq	$1544, %rsp
	.cfi_def_cfa_offset 56
	popq	%rbx
	.cfi_def_cfa_offset 48
	popq	%r12
	.cfi_def_cfa_offset 40
	popq	%r13
	.cfi_def_cfa_offset 32
	popq	%r14
	.cfi_def_cfa_offset 24
	popq	%r15
	.cfi_def_cfa_offset 16
	popq	%rbp
	.cfi_def_cfa_offset 8
	retq
.Lfunc_end6098e:
	.size	"peer_machine::machine::PeerMachine::receive_plain::<#f75f5811e3b75c76>", .Lfunc_end6098e-"peer_machine::machine::PeerMachine::receive_plain::<#f75f5811e3b75c76>"
	.cfi_endproc

	.section	.rodata.cst16,"aM",@progbits,16
	.p2align	4, 0x0
.LCPI85996_0:
	.quad	67842
	.quad	3
.LCPI85996_1:
	.quad	2818
	.quad	2
.LCPI85996_2:
	.quad	2562
	.quad	2
.LCPI85996_3:
	.quad	17303298
	.quad	4
	.section	".text.peer_machine::machine::PeerMachine::receive_octets::<#f75f5811e3b75c76>","ax",@progbits
	.p2align	4
	.type	"peer_machine::machine::PeerMachine::receive_octets::<#f75f5811e3b75c76>",@function
"peer_machine::machine::PeerMachine::receive_octets::<#f75f5811e3b75c76>":
	.cfi_startproc
	pushq	%rbp
	.cfi_def_cfa_offset 16
	pushq	%r15
	.cfi_def_cfa_offset 24
	pushq	%r14
	.cfi_def_cfa_offset 32
	pushq	%r13
	.cfi_def_cfa_offset 40
	pushq	%r12
	.cfi_def_cfa_offset 48
	pushq	%rbx
	.cfi_def_cfa_offset 56
	subq	$216, %rsp
	.cfi_def_cfa_offset 272
	.cfi_offset %rbx, -56
	.cfi_offset %r12, -48
	.cfi_offset %r13, -40
	.cfi_offset %r14, -32
	.cfi_offset %r15, -24
	.cfi_offset %rbp, -16
	pxor	%xmm0, %xmm0
	movdqa	%xmm0, 192(%rsp)
	movdqa	%xmm0, 176(%rsp)
	movdqa	%xmm0, 160(%rsp)
	movzbl	768(%rsi), %eax
	movq	%rsi, %r14
	movq	%rdi, %rbx
	movabsq	$8589407231, %rsi
	btq	%rax, %rsi
	jae	.LBB85996_25
	movq	%r9, %r12
	movq	%r8, %r15
	leaq	160(%rsp), %rdi
	movq	%rdx, %rsi
	movq	%rcx, %rdx
	callq	"eap_packet::packet::decode"
	cmpb	$1, 160(%rsp)
	jne	.LBB85996_6
	movaps	.LCPI85996_0(%rip), %xmm2
	movb	$1, %al
	movzbl	161(%rsp), %ecx
.LBB85996_3:
	xorl	%ebp, %ebp
.LBB85996_4:
	movups	%xmm2, (%rbx)
	movb	%al, 16(%rbx)
	movb	%cl, 17(%rbx)
	movb	%bpl, 18(%rbx)
.LBB85996_5:
	addq	$216, %rsp
	.cfi_def_cfa_offset 56
	popq	%rbx
	.cfi_def_cfa_offset 48
	popq	%r12
	.cfi_def_cfa_offset 40
	popq	%r13
	.cfi_def_cfa_offset 32
	popq	%r14
	.cfi_def_cfa_offset 24
	popq	%r15
	.cfi_def_cfa_offset 16
	popq	%rbp
	.cfi_def_cfa_offset 8
	retq
.LBB85996_6:
	.cfi_def_cfa_offset 272
	movzbl	168(%rsp), %eax
	movzbl	%al, %edx
	movzbl	169(%rsp), %ebp
	cmpb	$1, 773(%r14)
	jne	.LBB85996_8
	cmpb	%bpl, 774(%r14)
	sete	%cl
	jmp	.LBB85996_9
.LBB85996_8:
	xorl	%ecx, %ecx
.LBB85996_9:
	movaps	.LCPI85996_0(%rip), %xmm2
	movl	%edx, %edx
	leaq	.LJTI85996_0(%rip), %rsi
	movslq	(%rsi,%rdx,4), %rdx
	addq	%rsi, %rdx
	jmpq	*%rdx
.LBB85996_10:
	testb	%cl, %cl
	je	.LBB85996_26
	movq	2280(%r14), %r12
	movq	1504(%r15), %rdx
	testq	%rdx, %rdx
	je	.LBB85996_13
	movq	%r15, %rdi
	xorl	%esi, %esi
	callq	memset@PLT
	movq	$0, 1504(%r15)
.LBB85996_13:
	movaps	.LCPI85996_3(%rip), %xmm2
	movb	$1, %bpl
	cmpq	$1500, %r12
	ja	.LBB85996_77
	leaq	776(%r14), %rsi
	movq	%r15, %rax
	subq	%rsi, %rax
	cmpq	%r12, %rax
	jae	.LBB85996_46
	cmpq	$4, %r12
	jb	.LBB85996_16
	movq	%r15, %rax
	subq	%r14, %rax
	addq	$-776, %rax
	cmpq	$32, %rax
	jae	.LBB85996_61
.LBB85996_16:
	xorl	%eax, %eax
.LBB85996_71:
	movq	%r12, %rdx
	movq	%rax, %rcx
	andq	$3, %rdx
	je	.LBB85996_74
	movq	%rax, %rcx
	.p2align	4
.LBB85996_73:
	movzbl	(%rsi,%rcx), %edi
	movb	%dil, (%r15,%rcx)
	incq	%rcx
	decq	%rdx
	jne	.LBB85996_73
.LBB85996_74:
	subq	%r12, %rax
	cmpq	$-4, %rax
	ja	.LBB85996_76
.LBB85996_75:
	movzbl	776(%r14,%rcx), %eax
	movb	%al, (%r15,%rcx)
	movzbl	777(%r14,%rcx), %eax
	movb	%al, 1(%r15,%rcx)
	movzbl	778(%r14,%rcx), %eax
	movb	%al, 2(%r15,%rcx)
	movzbl	779(%r14,%rcx), %eax
	movb	%al, 3(%r15,%rcx)
	addq	$4, %rcx
	cmpq	%rcx, %r12
	jne	.LBB85996_75
	jmp	.LBB85996_76
.LBB85996_17:
	movb	$1, %al
	testb	%cl, %cl
	je	.LBB85996_23
	cmpb	$0, 772(%r14)
	je	.LBB85996_31
	movb	$10, 768(%r14)
	movaps	.LCPI85996_2(%rip), %xmm2
	jmp	.LBB85996_34
.LBB85996_20:
	movb	$1, %al
	testb	%cl, %cl
	je	.LBB85996_23
	cmpb	$2, 772(%r14)
	jne	.LBB85996_29
	movb	$14, %cl
	jmp	.LBB85996_3
.LBB85996_23:
	movb	$12, %cl
	jmp	.LBB85996_3
.LBB85996_24:
	movb	$7, %cl
	jmp	.LBB85996_3
.LBB85996_25:
	movdqu	%xmm0, (%rbx)
	movw	$4609, 16(%rbx)
	movb	$0, 18(%rbx)
	jmp	.LBB85996_5
.LBB85996_26:
	movzbl	170(%rsp), %r13d
	movq	192(%rsp), %r8
	movq	200(%rsp), %r9
	cmpb	$0, 769(%r14)
	je	.LBB85996_35
	movb	$1, %al
	cmpl	$2, %r13d
	jne	.LBB85996_43
	movb	$9, %cl
	jmp	.LBB85996_3
.LBB85996_29:
	cmpb	$2, 771(%r14)
	jne	.LBB85996_33
	movb	$15, %cl
	jmp	.LBB85996_3
.LBB85996_31:
	cmpb	$2, 771(%r14)
	jne	.LBB85996_33
	movb	$13, %cl
	jmp	.LBB85996_3
.LBB85996_33:
	movb	$11, 768(%r14)
	movaps	.LCPI85996_1(%rip), %xmm2
.LBB85996_34:
	xorl	%eax, %eax
	xorl	%ecx, %ecx
	jmp	.LBB85996_3
.LBB85996_35:
	pxor	%xmm0, %xmm0
	movdqa	%xmm0, 96(%rsp)
	movq	$0, 112(%rsp)
	movdqa	%xmm0, 64(%rsp)
	movq	$0, 80(%rsp)
	movdqa	%xmm0, 128(%rsp)
	movq	$0, 144(%rsp)
	cmpl	$2, %r13d
	je	.LBB85996_48
	cmpl	$1, %r13d
	jne	.LBB85996_53
	movq	256(%r14), %r12
	leal	5(%r12), %eax
	rolw	$8, %ax
	shll	$16, %eax
	movl	%ebp, %ecx
	shll	$8, %ecx
	leal	(%rax,%rcx), %r13d
	addl	$2, %r13d
	movq	1504(%r15), %rdx
	testq	%rdx, %rdx
	je	.LBB85996_39
	movq	%r15, %rdi
	xorl	%esi, %esi
	callq	memset@PLT
.LBB85996_39:
	movl	%r13d, (%r15)
	movb	$1, 4(%r15)
	movq	$5, 1504(%r15)
	cmpq	$1495, %r12
	ja	.LBB85996_102
	leaq	5(%r15), %rdi
	movq	%rdi, %rax
	subq	%r14, %rax
	cmpq	%r12, %rax
	jae	.LBB85996_63
	cmpq	$4, %r12
	jb	.LBB85996_42
	movq	%r15, %rax
	subq	%r14, %rax
	addq	$5, %rax
	cmpq	$32, %rax
	jae	.LBB85996_87
.LBB85996_42:
	xorl	%eax, %eax
.LBB85996_96:
	movq	%r12, %rdx
	movq	%rax, %rcx
	andq	$3, %rdx
	je	.LBB85996_99
	movq	%rax, %rcx
.LBB85996_98:
	movzbl	(%r14,%rcx), %esi
	movb	%sil, (%rdi,%rcx)
	incq	%rcx
	decq	%rdx
	jne	.LBB85996_98
.LBB85996_99:
	subq	%r12, %rax
	cmpq	$-4, %rax
	ja	.LBB85996_101
.LBB85996_100:
	movzbl	(%r14,%rcx), %eax
	movb	%al, 5(%r15,%rcx)
	movzbl	1(%r14,%rcx), %eax
	movb	%al, 6(%r15,%rcx)
	movzbl	2(%r14,%rcx), %eax
	movb	%al, 7(%r15,%rcx)
	movzbl	3(%r14,%rcx), %eax
	movb	%al, 8(%r15,%rcx)
	addq	$4, %rcx
	cmpq	%rcx, %r12
	jne	.LBB85996_100
	jmp	.LBB85996_101
.LBB85996_43:
	cmpb	770(%r14), %r13b
	jne	.LBB85996_47
	cmpb	$4, 771(%r14)
	jne	.LBB85996_57
	movb	$10, %cl
	jmp	.LBB85996_3
.LBB85996_46:
	movq	%r15, %rdi
	movq	%r12, %rdx
	callq	memmove@PLT
	movaps	.LCPI85996_3(%rip), %xmm2
.LBB85996_76:
	movq	%r12, 1504(%r15)
.LBB85996_77:
	xorl	%eax, %eax
	xorl	%ecx, %ecx
	jmp	.LBB85996_4
.LBB85996_47:
	movb	$11, %cl
	jmp	.LBB85996_3
.LBB85996_48:
	movl	%ebp, %r12d
	shll	$8, %r12d
	orl	$83886082, %r12d
	movq	1504(%r15), %rdx
	testq	%rdx, %rdx
	je	.LBB85996_50
	movq	%r15, %rdi
	xorl	%esi, %esi
	callq	memset@PLT
.LBB85996_50:
	movl	%r12d, (%r15)
	movb	$2, 4(%r15)
	movq	$5, 1504(%r15)
	leaq	64(%rsp), %rdi
	movq	%r14, %rsi
	movl	$6, %edx
	movl	%ebp, %ecx
	movq	%r15, %r8
	callq	"peer_machine::machine::respond"
	movdqa	80(%rsp), %xmm0
	movzbl	82(%rsp), %ebp
	jmp	.LBB85996_84
.LBB85996_53:
	leaq	536(%r14), %rsi
	movq	544(%r14), %rdx
	xorl	%eax, %eax
.LBB85996_54:
	cmpq	%rax, %rdx
	je	.LBB85996_58
	cmpb	%r13b, 536(%r14,%rax)
	leaq	1(%rax), %rax
	jne	.LBB85996_54
	pxor	%xmm0, %xmm0
	movdqa	%xmm0, 32(%rsp)
	movq	$0, 48(%rsp)
	movq	2288(%r14), %rsi
	movq	2296(%r14), %rdx
	movq	%r12, 8(%rsp)
	movq	%r15, (%rsp)
	leaq	29(%rsp), %rdi
	movl	%r13d, %ecx
	callq	"eap_method::peer_objects::call_peer_method::<#c8f2ed81ce9f52e6>"
	movzbl	29(%rsp), %eax
	movb	%al, 26(%rsp)
	movzwl	30(%rsp), %eax
	movw	%ax, 27(%rsp)
	movq	%r15, (%rsp)
	leaq	32(%rsp), %rdi
	leaq	26(%rsp), %r9
	movq	%r14, %rsi
	movl	$1, %edx
	movl	%r13d, %ecx
	movl	%ebp, %r8d
	callq	"peer_machine::machine::settle"
	movaps	32(%rsp), %xmm1
	movdqa	48(%rsp), %xmm0
	movaps	%xmm1, 128(%rsp)
	movzbl	50(%rsp), %ebp
	jmp	.LBB85996_83
.LBB85996_57:
	pxor	%xmm0, %xmm0
	movdqa	%xmm0, 32(%rsp)
	movq	$0, 48(%rsp)
	movq	2288(%r14), %rsi
	movq	2296(%r14), %rdx
	movq	%r12, 8(%rsp)
	movq	%r15, (%rsp)
	leaq	96(%rsp), %rdi
	movl	%r13d, %ecx
	callq	"eap_method::peer_objects::call_peer_method::<#c8f2ed81ce9f52e6>"
	movzbl	96(%rsp), %eax
	movb	%al, 64(%rsp)
	movzwl	97(%rsp), %eax
	movw	%ax, 65(%rsp)
	movq	%r15, (%rsp)
	leaq	32(%rsp), %rdi
	leaq	64(%rsp), %r9
	movq	%r14, %rsi
	xorl	%edx, %edx
	movl	%r13d, %ecx
	movl	%ebp, %r8d
	callq	"peer_machine::machine::settle"
	movaps	32(%rsp), %xmm2
	movzbl	48(%rsp), %eax
	movzbl	49(%rsp), %ecx
	movzbl	50(%rsp), %ebp
	jmp	.LBB85996_4
.LBB85996_58:
	testq	%rdx, %rdx
	je	.LBB85996_78
	pxor	%xmm0, %xmm0
	movdqa	%xmm0, 32(%rsp)
	cmpq	$2, %rdx
	jbe	.LBB85996_79
	xorl	%r8d, %r8d
	xorl	%eax, %eax
	jmp	.LBB85996_80
.LBB85996_61:
	cmpq	$32, %r12
	jae	.LBB85996_64
	xorl	%eax, %eax
	jmp	.LBB85996_68
.LBB85996_63:
	movq	%r14, %rsi
	movq	%r12, %rdx
	callq	memmove@PLT
.LBB85996_101:
	addq	$5, %r12
	movq	%r12, 1504(%r15)
.LBB85996_102:
	leaq	96(%rsp), %rdi
	movq	%r14, %rsi
	movl	$5, %edx
	movl	%ebp, %ecx
	movq	%r15, %r8
	callq	"peer_machine::machine::respond"
	movdqa	112(%rsp), %xmm0
	movzbl	114(%rsp), %ebp
	jmp	.LBB85996_103
.LBB85996_64:
	movl	%r12d, %eax
	andl	$2016, %eax
	xorl	%ecx, %ecx
.LBB85996_65:
	movdqu	776(%r14,%rcx), %xmm0
	movups	792(%r14,%rcx), %xmm1
	movdqu	%xmm0, (%r15,%rcx)
	movups	%xmm1, 16(%r15,%rcx)
	addq	$32, %rcx
	cmpq	%rcx, %rax
	jne	.LBB85996_65
	cmpq	%rax, %r12
	je	.LBB85996_76
	testb	$28, %r12b
	je	.LBB85996_71
.LBB85996_68:
	movq	%rax, %rcx
	movl	%r12d, %eax
	andl	$2044, %eax
.LBB85996_69:
	movl	(%rsi,%rcx), %edx
	movl	%edx, (%r15,%rcx)
	addq	$4, %rcx
	cmpq	%rcx, %rax
	jne	.LBB85996_69
	cmpq	%rax, %r12
	je	.LBB85996_76
	jmp	.LBB85996_71
.LBB85996_78:
	movl	$1, %r8d
	xorl	%eax, %eax
	jmp	.LBB85996_80
.LBB85996_79:
	leaq	32(%rsp), %rdi
	movq	%rdx, %r12
	callq	memcpy@PLT
	movq	%r12, %r8
	movq	32(%rsp), %rax
.LBB85996_80:
	movq	%rax, 32(%rsp)
	movq	%r8, 40(%rsp)
	leal	5(%r8), %eax
	rolw	$8, %ax
	shll	$16, %eax
	movl	%ebp, %ecx
	shll	$8, %ecx
	leal	(%rax,%rcx), %r12d
	addl	$2, %r12d
	movq	1504(%r15), %rdx
	testq	%rdx, %rdx
	je	.LBB85996_82
	movq	%r15, %rdi
	xorl	%esi, %esi
	movq	%r8, %r13
	callq	memset@PLT
	movq	%r13, %r8
.LBB85996_82:
	movl	%r12d, (%r15)
	movb	$3, 4(%r15)
	leaq	5(%r15), %rdi
	leaq	32(%rsp), %rsi
	movq	%r8, %rdx
	movq	%r8, %r12
	callq	memcpy@PLT
	addq	$5, %r12
	movq	%r12, 1504(%r15)
	leaq	128(%rsp), %rdi
	movq	%r14, %rsi
	movl	$3, %edx
	movl	%ebp, %ecx
	movq	%r15, %r8
	callq	"peer_machine::machine::respond"
	movdqa	144(%rsp), %xmm0
	movzbl	146(%rsp), %ebp
.LBB85996_83:
	movaps	128(%rsp), %xmm1
	movaps	%xmm1, 64(%rsp)
.LBB85996_84:
	movaps	64(%rsp), %xmm1
	movaps	%xmm1, 96(%rsp)
.LBB85996_103:
	movaps	96(%rsp), %xmm2
	movd	%xmm0, %eax
	pextrb	$1, %xmm0, %ecx
	jmp	.LBB85996_4
.LBB85996_87:
	cmpq	$32, %r12
	jae	.LBB85996_89
	xorl	%eax, %eax
	jmp	.LBB85996_93
.LBB85996_89:
	movl	%r12d, %eax
	andl	$2016, %eax
	xorl	%ecx, %ecx
.LBB85996_90:
	movdqu	(%r14,%rcx), %xmm0
	movups	16(%r14,%rcx), %xmm1
	movdqu	%xmm0, 5(%r15,%rcx)
	movups	%xmm1, 21(%r15,%rcx)
	addq	$32, %rcx
	cmpq	%rcx, %rax
	jne	.LBB85996_90
	cmpq	%rax, %r12
	je	.LBB85996_101
	testb	$28, %r12b
	je	.LBB85996_96
.LBB85996_93:
	movq	%rax, %rcx
	movl	%r12d, %eax
	andl	$2044, %eax
.LBB85996_94:
	movl	(%r14,%rcx), %edx
	movl	%edx, (%rdi,%rcx)
	addq	$4, %rcx
	cmpq	%rcx, %rax
	jne	.LBB85996_94
	cmpq	%rax, %r12
	je	.LBB85996_101
	jmp	.LBB85996_96
.Lfunc_end85996:
	.size	"peer_machine::machine::PeerMachine::receive_octets::<#f75f5811e3b75c76>", .Lfunc_end85996-"peer_machine::machine::PeerMachine::receive_octets::<#f75f5811e3b75c76>"
	.cfi_endproc
	.section	".rodata.peer_machine::machine::PeerMachine::receive_octets::<#f75f5811e3b75c76>","a",@progbits
	.p2align	2, 0x0
.LJTI85996_0:
	.long	.LBB85996_10-.LJTI85996_0
	.long	.LBB85996_24-.LJTI85996_0
	.long	.LBB85996_17-.LJTI85996_0
	.long	.LBB85996_20-.LJTI85996_0

	.section	".text.eap_method::peer_objects::call_peer_method::<#c8f2ed81ce9f52e6>","ax",@progbits
	.p2align	4
	.type	"eap_method::peer_objects::call_peer_method::<#c8f2ed81ce9f52e6>",@function
"eap_method::peer_objects::call_peer_method::<#c8f2ed81ce9f52e6>":
	.cfi_startproc
	pushq	%rbx
	.cfi_def_cfa_offset 16
	subq	$32, %rsp
	.cfi_def_cfa_offset 48
	.cfi_offset %rbx, -16
	movq	%rdi, %rbx
	movq	56(%rsp), %rax
	testq	%rdx, %rdx
	je	.LBBe5c89_1
	movq	48(%rsp), %r10
	movzbl	(%rsi), %edi
	testb	%dil, %dil
	setne	%r11b
	shlb	$2, %r11b
	addb	$47, %r11b
	cmpb	%cl, %r11b
	jne	.LBBe5c89_6
	addq	$8, %rsi
	testb	%dil, %dil
	je	.LBBe5c89_4
	movb	$0, 28(%rsp)
	movw	$0, 26(%rsp)
	leaq	26(%rsp), %rdi
	movq	%r8, %rdx
	movq	%r9, %rcx
	movq	%r10, %r8
	movq	%rax, %r9
	callq	"gpsk_ends::peer::GpskPeer::handle_step::<#e0641de541981142>"
	movzbl	26(%rsp), %eax
	movzbl	27(%rsp), %ecx
	movzbl	28(%rsp), %edx
	jmp	.LBBe5c89_7
.LBBe5c89_1:
	xorps	%xmm0, %xmm0
	movups	%xmm0, (%rax)
	movb	$22, %cl
	xorl	%eax, %eax
	xorl	%edx, %edx
	jmp	.LBBe5c89_7
.LBBe5c89_6:
	decq	%rdx
	addq	$1248, %rsi
	movq	%rax, 8(%rsp)
	movq	%r10, (%rsp)
	movzbl	%cl, %ecx
	leaq	29(%rsp), %rdi
	callq	"eap_method::peer_objects::call_peer_method::<#c8f2ed81ce9f52e6>"
	movzbl	29(%rsp), %eax
	movzbl	30(%rsp), %ecx
	movzbl	31(%rsp), %edx
	jmp	.LBBe5c89_7
.LBBe5c89_4:
	movb	$0, 24(%rsp)
	movw	$0, 22(%rsp)
	leaq	22(%rsp), %rdi
	movq	%r8, %rdx
	movq	%r9, %rcx
	movq	%r10, %r8
	movq	%rax, %r9
	callq	"psk_ends::peer::PskPeer::handle_step::<#becd8de5e2060522>"
	movzbl	22(%rsp), %eax
	movzbl	23(%rsp), %ecx
	movzbl	24(%rsp), %edx
.LBBe5c89_7:
	movb	%al, (%rbx)
	movb	%cl, 1(%rbx)
	movb	%dl, 2(%rbx)
	addq	$32, %rsp
	.cfi_def_cfa_offset 16
	popq	%rbx
	.cfi_def_cfa_offset 8
	retq
.Lfunc_ende5c89:
	.size	"eap_method::peer_objects::call_peer_method::<#c8f2ed81ce9f52e6>", .Lfunc_ende5c89-"eap_method::peer_objects::call_peer_method::<#c8f2ed81ce9f52e6>"
	.cfi_endproc

	.section	".text.end_objects::objects::PeerObjectPeerMethod::report","ax",@progbits
	.p2align	4
	.type	"end_objects::objects::PeerObjectPeerMethod::report",@function
"end_objects::objects::PeerObjectPeerMethod::report":
	.cfi_startproc
	pushq	%r15
	.cfi_def_cfa_offset 16
	pushq	%r14
	.cfi_def_cfa_offset 24
	pushq	%r12
	.cfi_def_cfa_offset 32
	pushq	%rbx
	.cfi_def_cfa_offset 40
	subq	$2024, %rsp
	.cfi_def_cfa_offset 2064
	.cfi_offset %rbx, -40
	.cfi_offset %r12, -32
	.cfi_offset %r14, -24
	.cfi_offset %r15, -16
	movq	%rdi, %rbx
	leaq	8(%rsi), %r14
	cmpb	$0, (%rsi)
	movzbl	664(%rsi), %eax
	je	.LBB9e9f9_1
	cmpb	$2, %al
	jne	.LBB9e9f9_17
	cmpb	$1, 1160(%rsi)
	jne	.LBB9e9f9_17
	cmpb	$1, 1161(%rsi)
	jne	.LBB9e9f9_17
	movl	$0, 1752(%rsp)
	movl	$0, 1755(%rsp)
	movq	%rsi, %r12
	movq	264(%rsi), %r15
	leaq	152(%rsp), %rdi
	movl	$264, %edx
	xorl	%esi, %esi
	callq	memset@PLT
	cmpq	$253, %r15
	ja	.LBB9e9f9_14
	leaq	152(%rsp), %rdi
	movq	%r14, %rsi
	movq	%r15, %rdx
	callq	memcpy@PLT
	movq	%r15, 408(%rsp)
.LBB9e9f9_14:
	movq	528(%r12), %r14
	leaq	1216(%rsp), %rdi
	movl	$264, %edx
	xorl	%esi, %esi
	callq	memset@PLT
	cmpq	$253, %r14
	ja	.LBB9e9f9_16
	leaq	272(%r12), %rsi
	leaq	1216(%rsp), %rdi
	movq	%r14, %rdx
	callq	memcpy@PLT
	movq	%r14, 1472(%rsp)
.LBB9e9f9_16:
	cmpb	$1, 704(%r12)
	movb	$2, %r14b
	sbbb	$0, %r14b
	leaq	1759(%rsp), %rdi
	leaq	152(%rsp), %rsi
	movl	$264, %edx
	callq	memcpy@PLT
	movups	752(%r12), %xmm0
	movups	768(%r12), %xmm1
	movups	784(%r12), %xmm2
	movups	800(%r12), %xmm3
	movaps	%xmm0, 80(%rsp)
	movaps	%xmm1, 96(%rsp)
	movaps	%xmm2, 112(%rsp)
	movaps	%xmm3, 128(%rsp)
	movups	816(%r12), %xmm0
	movups	832(%r12), %xmm1
	movups	848(%r12), %xmm2
	movups	864(%r12), %xmm3
	movaps	%xmm0, 16(%rsp)
	movaps	%xmm1, 32(%rsp)
	movaps	%xmm2, 48(%rsp)
	movaps	%xmm3, 64(%rsp)
	leaq	681(%rsp), %rdi
	leaq	1752(%rsp), %rsi
	movl	$271, %edx
	callq	memcpy@PLT
	leaq	416(%rsp), %rdi
	leaq	1216(%rsp), %rsi
	movl	$264, %edx
	callq	memcpy@PLT
	movl	$0, 8(%rsp)
	movl	$0, 11(%rsp)
	movb	$51, %al
	movl	$1, %r15d
	jmp	.LBB9e9f9_19
.LBB9e9f9_1:
	cmpb	$2, %al
	jne	.LBB9e9f9_17
	cmpb	$1, 1241(%rsi)
	jne	.LBB9e9f9_17
	cmpb	$1, 1242(%rsi)
	jne	.LBB9e9f9_17
	movl	$0, 1480(%rsp)
	movl	$0, 1483(%rsp)
	movq	%rsi, %r12
	movq	264(%rsi), %r15
	leaq	152(%rsp), %rdi
	movl	$264, %edx
	xorl	%esi, %esi
	callq	memset@PLT
	cmpq	$253, %r15
	ja	.LBB9e9f9_6
	leaq	152(%rsp), %rdi
	movq	%r14, %rsi
	movq	%r15, %rdx
	callq	memcpy@PLT
	movq	%r15, 408(%rsp)
.LBB9e9f9_6:
	movq	528(%r12), %r14
	leaq	952(%rsp), %rdi
	movl	$264, %edx
	xorl	%esi, %esi
	callq	memset@PLT
	cmpq	$253, %r14
	ja	.LBB9e9f9_8
	leaq	272(%r12), %rsi
	leaq	952(%rsp), %rdi
	movq	%r14, %rdx
	callq	memcpy@PLT
	movq	%r14, 1208(%rsp)
.LBB9e9f9_8:
	leaq	1487(%rsp), %rdi
	leaq	152(%rsp), %rsi
	movl	$264, %edx
	callq	memcpy@PLT
	movups	905(%r12), %xmm0
	movups	921(%r12), %xmm1
	movups	937(%r12), %xmm2
	movups	953(%r12), %xmm3
	movaps	%xmm0, 80(%rsp)
	movaps	%xmm1, 96(%rsp)
	movaps	%xmm2, 112(%rsp)
	movaps	%xmm3, 128(%rsp)
	movups	969(%r12), %xmm0
	movups	985(%r12), %xmm1
	movups	1001(%r12), %xmm2
	movups	1017(%r12), %xmm3
	movaps	%xmm0, 16(%rsp)
	movaps	%xmm1, 32(%rsp)
	movaps	%xmm2, 48(%rsp)
	movaps	%xmm3, 64(%rsp)
	leaq	681(%rsp), %rdi
	leaq	1480(%rsp), %rsi
	movl	$271, %edx
	callq	memcpy@PLT
	leaq	416(%rsp), %rdi
	leaq	952(%rsp), %rsi
	movl	$264, %edx
	callq	memcpy@PLT
	movl	$0, 8(%rsp)
	movl	$0, 11(%rsp)
	movb	$47, %al
	movl	$1, %r15d
	jmp	.LBB9e9f9_18
.LBB9e9f9_17:
	leaq	681(%rsp), %rdi
	xorl	%r15d, %r15d
	movl	$271, %edx
	xorl	%esi, %esi
	callq	memset@PLT
	leaq	416(%rsp), %rdi
	movl	$264, %edx
	xorl	%esi, %esi
	callq	memset@PLT
	xorps	%xmm0, %xmm0
	movaps	%xmm0, 80(%rsp)
	movaps	%xmm0, 96(%rsp)
	movaps	%xmm0, 112(%rsp)
	movaps	%xmm0, 128(%rsp)
	movaps	%xmm0, 16(%rsp)
	movaps	%xmm0, 32(%rsp)
	movaps	%xmm0, 48(%rsp)
	movaps	%xmm0, 64(%rsp)
	movl	$0, 8(%rsp)
	movl	$0, 11(%rsp)
	xorl	%eax, %eax
.LBB9e9f9_18:
	xorl	%r14d, %r14d
.LBB9e9f9_19:
	movq	%r15, (%rbx)
	movb	%al, 8(%rbx)
	leaq	9(%rbx), %rdi
	leaq	681(%rsp), %rsi
	movl	$271, %edx
	callq	memcpy@PLT
	leaq	280(%rbx), %rdi
	leaq	416(%rsp), %rsi
	movl	$264, %edx
	callq	memcpy@PLT
	movb	%r14b, 544(%rbx)
	movaps	80(%rsp), %xmm0
	movaps	96(%rsp), %xmm1
	movaps	112(%rsp), %xmm2
	movaps	128(%rsp), %xmm3
	movups	%xmm3, 593(%rbx)
	movups	%xmm2, 577(%rbx)
	movups	%xmm1, 561(%rbx)
	movups	%xmm0, 545(%rbx)
	movaps	16(%rsp), %xmm0
	movaps	32(%rsp), %xmm1
	movaps	48(%rsp), %xmm2
	movaps	64(%rsp), %xmm3
	movups	%xmm3, 657(%rbx)
	movups	%xmm2, 641(%rbx)
	movups	%xmm1, 625(%rbx)
	movups	%xmm0, 609(%rbx)
	movl	8(%rsp), %eax
	movl	11(%rsp), %ecx
	movl	%eax, 673(%rbx)
	movl	%ecx, 676(%rbx)
	addq	$2024, %rsp
	.cfi_def_cfa_offset 40
	popq	%rbx
	.cfi_def_cfa_offset 32
	popq	%r12
	.cfi_def_cfa_offset 24
	popq	%r14
	.cfi_def_cfa_offset 16
	popq	%r15
	.cfi_def_cfa_offset 8
	retq
.Lfunc_end9e9f9:
	.size	"end_objects::objects::PeerObjectPeerMethod::report", .Lfunc_end9e9f9-"end_objects::objects::PeerObjectPeerMethod::report"
	.cfi_endproc

	.section	".text.tuvaddri_c::held::object_of","ax",@progbits
	.p2align	4
	.type	"tuvaddri_c::held::object_of",@function
"tuvaddri_c::held::object_of":
	.cfi_startproc
	movzbl	(%rdi), %eax
	leaq	.LJTIdf5e7_0(%rip), %rcx
	movslq	(%rcx,%rax,4), %rax
	addq	%rcx, %rax
	jmpq	*%rax
.LBBdf5e7_1:
	xorl	%eax, %eax
	xorl	%edi, %edi
	movq	%rdi, %rdx
	retq
.LBBdf5e7_16:
	cmpb	$0, 38(%rdi)
	je	.LBBdf5e7_10
	movzbl	39(%rdi), %eax
	movq	16(%rdi), %rdx
	movq	$-1256, %rcx
	addq	8(%rdi), %rcx
	incq	%rdx
	.p2align	4
.LBBdf5e7_18:
	decq	%rdx
	je	.LBBdf5e7_10
	addq	$1256, %rcx
	cmpb	$0, (%rcx)
	setne	%sil
	shlb	$2, %sil
	addb	$47, %sil
	cmpb	%al, %sil
	jne	.LBBdf5e7_18
	jmp	.LBBdf5e7_14
.LBBdf5e7_4:
	cmpb	$0, 777(%rdi)
	je	.LBBdf5e7_5
	movzbl	778(%rdi), %eax
	movq	2304(%rdi), %rdx
	movq	$-1248, %rcx
	addq	2296(%rdi), %rcx
	incq	%rdx
	.p2align	4
.LBBdf5e7_7:
	decq	%rdx
	je	.LBBdf5e7_5
	addq	$1248, %rcx
	cmpb	$0, (%rcx)
	setne	%sil
	shlb	$2, %sil
	addb	$47, %sil
	cmpb	%al, %sil
	jne	.LBBdf5e7_7
	jmp	.LBBdf5e7_24
.LBBdf5e7_9:
	cmpb	$0, 38(%rdi)
	je	.LBBdf5e7_10
	movzbl	39(%rdi), %eax
	movq	16(%rdi), %rdx
	movq	$-1256, %rcx
	addq	8(%rdi), %rcx
	incq	%rdx
	.p2align	4
.LBBdf5e7_12:
	decq	%rdx
	je	.LBBdf5e7_10
	addq	$1256, %rcx
	cmpb	$0, (%rcx)
	setne	%sil
	shlb	$2, %sil
	addb	$47, %sil
	cmpb	%al, %sil
	jne	.LBBdf5e7_12
.LBBdf5e7_14:
	movb	$1, %dl
	jmp	.LBBdf5e7_15
.LBBdf5e7_10:
	xorl	%edx, %edx
	xorl	%ecx, %ecx
.LBBdf5e7_15:
	leal	(%rdx,%rdx), %eax
	xorl	%edi, %edi
	testb	%dl, %dl
	cmovneq	%rcx, %rdi
	movq	%rdi, %rdx
	retq
.LBBdf5e7_20:
	cmpb	$0, 809(%rdi)
	je	.LBBdf5e7_5
	movzbl	810(%rdi), %eax
	movq	2336(%rdi), %rdx
	movq	$-1248, %rcx
	addq	2328(%rdi), %rcx
	incq	%rdx
	.p2align	4
.LBBdf5e7_22:
	decq	%rdx
	je	.LBBdf5e7_5
	addq	$1248, %rcx
	cmpb	$0, (%rcx)
	setne	%sil
	shlb	$2, %sil
	addb	$47, %sil
	cmpb	%al, %sil
	jne	.LBBdf5e7_22
.LBBdf5e7_24:
	movb	$1, %al
	jmp	.LBBdf5e7_25
.LBBdf5e7_5:
	xorl	%eax, %eax
	xorl	%ecx, %ecx
.LBBdf5e7_25:
	xorl	%edi, %edi
	testb	%al, %al
	cmovneq	%rcx, %rdi
	movq	%rdi, %rdx
	retq
.LBBdf5e7_3:
	addq	$8, %rdi
	movb	$2, %al
	movq	%rdi, %rdx
	retq
.LBBdf5e7_2:
	addq	$8, %rdi
	movb	$1, %al
	movq	%rdi, %rdx
	retq
.Lfunc_enddf5e7:
	.size	"tuvaddri_c::held::object_of", .Lfunc_enddf5e7-"tuvaddri_c::held::object_of"
	.cfi_endproc
	.section	".rodata.tuvaddri_c::held::object_of","a",@progbits
	.p2align	2, 0x0
.LJTIdf5e7_0:
	.long	.LBBdf5e7_1-.LJTIdf5e7_0
	.long	.LBBdf5e7_2-.LJTIdf5e7_0
	.long	.LBBdf5e7_3-.LJTIdf5e7_0
	.long	.LBBdf5e7_4-.LJTIdf5e7_0
	.long	.LBBdf5e7_9-.LJTIdf5e7_0
	.long	.LBBdf5e7_16-.LJTIdf5e7_0
	.long	.LBBdf5e7_1-.LJTIdf5e7_0
	.long	.LBBdf5e7_20-.LJTIdf5e7_0
	.long	.LBBdf5e7_1-.LJTIdf5e7_0

	.section	".text.end_objects::objects::ServerObjectServerMethod::report","ax",@progbits
	.p2align	4
	.type	"end_objects::objects::ServerObjectServerMethod::report",@function
"end_objects::objects::ServerObjectServerMethod::report":
	.cfi_startproc
	pushq	%r15
	.cfi_def_cfa_offset 16
	pushq	%r14
	.cfi_def_cfa_offset 24
	pushq	%r12
	.cfi_def_cfa_offset 32
	pushq	%rbx
	.cfi_def_cfa_offset 40
	subq	$2024, %rsp
	.cfi_def_cfa_offset 2064
	.cfi_offset %rbx, -40
	.cfi_offset %r12, -32
	.cfi_offset %r14, -24
	.cfi_offset %r15, -16
	movq	%rsi, %r14
	movq	%rdi, %rbx
	leaq	8(%rsi), %r15
	cmpb	$0, (%rsi)
	je	.LBB2160d_1
	cmpb	$2, 320(%r14)
	jne	.LBB2160d_17
	cmpb	$2, 1152(%r14)
	jne	.LBB2160d_17
	cmpb	$1, 1153(%r14)
	jne	.LBB2160d_17
	movl	$0, 1752(%rsp)
	movl	$0, 1755(%rsp)
	movq	584(%r14), %r12
	leaq	152(%rsp), %rdi
	movl	$264, %edx
	xorl	%esi, %esi
	callq	memset@PLT
	cmpq	$253, %r12
	ja	.LBB2160d_14
	leaq	328(%r14), %rsi
	leaq	152(%rsp), %rdi
	movq	%r12, %rdx
	callq	memcpy@PLT
	movq	%r12, 408(%rsp)
.LBB2160d_14:
	movq	264(%r14), %r12
	leaq	1216(%rsp), %rdi
	movl	$264, %edx
	xorl	%esi, %esi
	callq	memset@PLT
	cmpq	$253, %r12
	ja	.LBB2160d_16
	leaq	1216(%rsp), %rdi
	movq	%r15, %rsi
	movq	%r12, %rdx
	callq	memcpy@PLT
	movq	%r12, 1472(%rsp)
.LBB2160d_16:
	cmpb	$1, 696(%r14)
	movb	$2, %r15b
	sbbb	$0, %r15b
	leaq	1759(%rsp), %rdi
	leaq	152(%rsp), %rsi
	movl	$264, %edx
	callq	memcpy@PLT
	movups	744(%r14), %xmm0
	movups	760(%r14), %xmm1
	movups	776(%r14), %xmm2
	movups	792(%r14), %xmm3
	movaps	%xmm0, 80(%rsp)
	movaps	%xmm1, 96(%rsp)
	movaps	%xmm2, 112(%rsp)
	movaps	%xmm3, 128(%rsp)
	movups	808(%r14), %xmm0
	movups	824(%r14), %xmm1
	movups	840(%r14), %xmm2
	movups	856(%r14), %xmm3
	movaps	%xmm0, 16(%rsp)
	movaps	%xmm1, 32(%rsp)
	movaps	%xmm2, 48(%rsp)
	movaps	%xmm3, 64(%rsp)
	leaq	681(%rsp), %rdi
	leaq	1752(%rsp), %rsi
	movl	$271, %edx
	callq	memcpy@PLT
	leaq	416(%rsp), %rdi
	leaq	1216(%rsp), %rsi
	movl	$264, %edx
	callq	memcpy@PLT
	movl	$0, 8(%rsp)
	movl	$0, 11(%rsp)
	movb	$51, %al
	movl	$1, %r14d
	jmp	.LBB2160d_19
.LBB2160d_1:
	cmpb	$2, (%r15)
	jne	.LBB2160d_17
	cmpb	$1, 1248(%r14)
	jne	.LBB2160d_17
	cmpb	$1, 1249(%r14)
	jne	.LBB2160d_17
	movl	$0, 1480(%rsp)
	movl	$0, 1483(%rsp)
	movq	584(%r14), %r15
	leaq	152(%rsp), %rdi
	movl	$264, %edx
	xorl	%esi, %esi
	callq	memset@PLT
	cmpq	$253, %r15
	ja	.LBB2160d_6
	leaq	328(%r14), %rsi
	leaq	152(%rsp), %rdi
	movq	%r15, %rdx
	callq	memcpy@PLT
	movq	%r15, 408(%rsp)
.LBB2160d_6:
	movq	272(%r14), %r15
	leaq	952(%rsp), %rdi
	movl	$264, %edx
	xorl	%esi, %esi
	callq	memset@PLT
	cmpq	$253, %r15
	ja	.LBB2160d_8
	leaq	16(%r14), %rsi
	leaq	952(%rsp), %rdi
	movq	%r15, %rdx
	callq	memcpy@PLT
	movq	%r15, 1208(%rsp)
.LBB2160d_8:
	leaq	1487(%rsp), %rdi
	leaq	152(%rsp), %rsi
	movl	$264, %edx
	callq	memcpy@PLT
	leaq	681(%rsp), %rdi
	leaq	1480(%rsp), %rsi
	movl	$271, %edx
	callq	memcpy@PLT
	leaq	416(%rsp), %rdi
	leaq	952(%rsp), %rsi
	movl	$264, %edx
	callq	memcpy@PLT
	movups	905(%r14), %xmm0
	movups	921(%r14), %xmm1
	movups	937(%r14), %xmm2
	movups	953(%r14), %xmm3
	movaps	%xmm0, 80(%rsp)
	movaps	%xmm1, 96(%rsp)
	movaps	%xmm2, 112(%rsp)
	movaps	%xmm3, 128(%rsp)
	movups	969(%r14), %xmm0
	movups	985(%r14), %xmm1
	movups	1001(%r14), %xmm2
	movups	1017(%r14), %xmm3
	movaps	%xmm3, 64(%rsp)
	movaps	%xmm2, 48(%rsp)
	movaps	%xmm1, 32(%rsp)
	movaps	%xmm0, 16(%rsp)
	movl	$0, 8(%rsp)
	movl	$0, 11(%rsp)
	movb	$47, %al
	movl	$1, %r14d
	jmp	.LBB2160d_18
.LBB2160d_17:
	leaq	681(%rsp), %rdi
	xorl	%r14d, %r14d
	movl	$271, %edx
	xorl	%esi, %esi
	callq	memset@PLT
	leaq	416(%rsp), %rdi
	movl	$264, %edx
	xorl	%esi, %esi
	callq	memset@PLT
	xorps	%xmm0, %xmm0
	movaps	%xmm0, 80(%rsp)
	movaps	%xmm0, 96(%rsp)
	movaps	%xmm0, 112(%rsp)
	movaps	%xmm0, 128(%rsp)
	movaps	%xmm0, 16(%rsp)
	movaps	%xmm0, 32(%rsp)
	movaps	%xmm0, 48(%rsp)
	movaps	%xmm0, 64(%rsp)
	movl	$0, 8(%rsp)
	movl	$0, 11(%rsp)
	xorl	%eax, %eax
.LBB2160d_18:
	xorl	%r15d, %r15d
.LBB2160d_19:
	movq	%r14, (%rbx)
	movb	%al, 8(%rbx)
	leaq	9(%rbx), %rdi
	leaq	681(%rsp), %rsi
	movl	$271, %edx
	callq	memcpy@PLT
	leaq	280(%rbx), %rdi
	leaq	416(%rsp), %rsi
	movl	$264, %edx
	callq	memcpy@PLT
	movb	%r15b, 544(%rbx)
	movaps	80(%rsp), %xmm0
	movaps	96(%rsp), %xmm1
	movaps	112(%rsp), %xmm2
	movaps	128(%rsp), %xmm3
	movups	%xmm3, 593(%rbx)
	movups	%xmm2, 577(%rbx)
	movups	%xmm1, 561(%rbx)
	movups	%xmm0, 545(%rbx)
	movaps	16(%rsp), %xmm0
	movaps	32(%rsp), %xmm1
	movaps	48(%rsp), %xmm2
	movaps	64(%rsp), %xmm3
	movups	%xmm3, 657(%rbx)
	movups	%xmm2, 641(%rbx)
	movups	%xmm1, 625(%rbx)
	movups	%xmm0, 609(%rbx)
	movl	8(%rsp), %eax
	movl	11(%rsp), %ecx
	movl	%eax, 673(%rbx)
	movl	%ecx, 676(%rbx)
	addq	$2024, %rsp
	.cfi_def_cfa_offset 40
	popq	%rbx
	.cfi_def_cfa_offset 32
	popq	%r12
	.cfi_def_cfa_offset 24
	popq	%r14
	.cfi_def_cfa_offset 16
	popq	%r15
	.cfi_def_cfa_offset 8
	retq
.Lfunc_end2160d:
	.size	"end_objects::objects::ServerObjectServerMethod::report", .Lfunc_end2160d-"end_objects::objects::ServerObjectServerMethod::report"
	.cfi_endproc

	.section	".text.tuvaddri_c::held::Object::nonces","ax",@progbits
	.p2align	4
	.type	"tuvaddri_c::held::Object::nonces",@function
"tuvaddri_c::held::Object::nonces":
	.cfi_startproc
	subq	$72, %rsp
	.cfi_def_cfa_offset 80
	xorps	%xmm0, %xmm0
	movaps	%xmm0, 48(%rsp)
	movaps	%xmm0, 32(%rsp)
	movaps	%xmm0, (%rsp)
	movaps	%xmm0, 16(%rsp)
	movzbl	%sil, %eax
	testb	%al, %al
	je	.LBBce1f6_1
	cmpl	$2, %eax
	jne	.LBBce1f6_3
	cmpb	$0, (%rdx)
	je	.LBBce1f6_16
	cmpb	$2, 320(%rdx)
	jne	.LBBce1f6_19
	cmpb	$2, 1152(%rdx)
	jne	.LBBce1f6_19
	cmpb	$0, 1153(%rdx)
	je	.LBBce1f6_19
	movups	664(%rdx), %xmm0
	movups	680(%rdx), %xmm1
	movaps	%xmm1, -16(%rsp)
	movaps	%xmm0, -32(%rsp)
	movups	288(%rdx), %xmm0
	movups	304(%rdx), %xmm1
	movaps	%xmm0, -64(%rsp)
	movaps	%xmm1, -48(%rsp)
	movl	$32, %ecx
	jmp	.LBBce1f6_25
.LBBce1f6_1:
	movq	%rax, %rcx
	jmp	.LBBce1f6_28
.LBBce1f6_3:
	cmpb	$0, (%rdx)
	movzbl	664(%rdx), %eax
	je	.LBBce1f6_4
	cmpb	$2, %al
	jne	.LBBce1f6_7
	cmpb	$1, 1160(%rdx)
	jne	.LBBce1f6_7
	cmpb	$0, 1161(%rdx)
	je	.LBBce1f6_7
	movups	632(%rdx), %xmm0
	movups	648(%rdx), %xmm1
	movaps	%xmm1, -80(%rsp)
	movaps	%xmm0, -96(%rsp)
	movups	672(%rdx), %xmm0
	movups	688(%rdx), %xmm1
	movaps	%xmm0, -128(%rsp)
	movaps	%xmm1, -112(%rsp)
	movl	$32, %ecx
	jmp	.LBBce1f6_13
.LBBce1f6_16:
	cmpb	$2, 8(%rdx)
	jne	.LBBce1f6_19
	cmpb	$1, 1248(%rdx)
	jne	.LBBce1f6_19
	cmpb	$0, 1249(%rdx)
	je	.LBBce1f6_19
	movaps	%xmm0, -16(%rsp)
	movups	664(%rdx), %xmm1
	movaps	%xmm1, -32(%rsp)
	movaps	%xmm0, -48(%rsp)
	movups	296(%rdx), %xmm0
	movaps	%xmm0, -64(%rsp)
	movl	$16, %ecx
.LBBce1f6_25:
	movl	$1, %eax
	jmp	.LBBce1f6_26
.LBBce1f6_19:
	movaps	%xmm0, -16(%rsp)
	movaps	%xmm0, -32(%rsp)
	movaps	%xmm0, -64(%rsp)
	movaps	%xmm0, -48(%rsp)
	xorl	%eax, %eax
	xorl	%ecx, %ecx
.LBBce1f6_26:
	movaps	-32(%rsp), %xmm0
	movaps	-16(%rsp), %xmm1
	movaps	%xmm1, 48(%rsp)
	movaps	%xmm0, 32(%rsp)
	movaps	-64(%rsp), %xmm0
	movaps	-48(%rsp), %xmm1
	jmp	.LBBce1f6_27
.LBBce1f6_4:
	cmpb	$2, %al
	jne	.LBBce1f6_7
	cmpb	$1, 1241(%rdx)
	jne	.LBBce1f6_7
	cmpb	$0, 1242(%rdx)
	je	.LBBce1f6_7
	movaps	%xmm0, -80(%rsp)
	movups	632(%rdx), %xmm1
	movaps	%xmm1, -96(%rsp)
	movaps	%xmm0, -112(%rsp)
	movups	665(%rdx), %xmm0
	movaps	%xmm0, -128(%rsp)
	movl	$16, %ecx
.LBBce1f6_13:
	movl	$1, %eax
	jmp	.LBBce1f6_14
.LBBce1f6_7:
	movaps	%xmm0, -80(%rsp)
	movaps	%xmm0, -96(%rsp)
	movaps	%xmm0, -128(%rsp)
	movaps	%xmm0, -112(%rsp)
	xorl	%eax, %eax
	xorl	%ecx, %ecx
.LBBce1f6_14:
	movaps	-96(%rsp), %xmm0
	movaps	-80(%rsp), %xmm1
	movaps	%xmm1, 48(%rsp)
	movaps	%xmm0, 32(%rsp)
	movaps	-128(%rsp), %xmm0
	movaps	-112(%rsp), %xmm1
.LBBce1f6_27:
	movaps	%xmm0, (%rsp)
	movaps	%xmm1, 16(%rsp)
.LBBce1f6_28:
	movq	%rax, (%rdi)
	movaps	32(%rsp), %xmm0
	movaps	48(%rsp), %xmm1
	movups	%xmm0, 8(%rdi)
	movups	%xmm1, 24(%rdi)
	movq	%rcx, 40(%rdi)
	movaps	(%rsp), %xmm0
	movaps	16(%rsp), %xmm1
	movups	%xmm0, 48(%rdi)
	movups	%xmm1, 64(%rdi)
	movq	%rcx, 80(%rdi)
	addq	$72, %rsp
	.cfi_def_cfa_offset 8
	retq
.Lfunc_endce1f6:
	.size	"tuvaddri_c::held::Object::nonces", .Lfunc_endce1f6-"tuvaddri_c::held::Object::nonces"
	.cfi_endproc

	.section	".text.tuvaddri_c::gpsk::gpsk_id","ax",@progbits
	.p2align	4
	.type	"tuvaddri_c::gpsk::gpsk_id",@function
"tuvaddri_c::gpsk::gpsk_id":
	.cfi_startproc
	pushq	%rbp
	.cfi_def_cfa_offset 16
	pushq	%r15
	.cfi_def_cfa_offset 24
	pushq	%r14
	.cfi_def_cfa_offset 32
	pushq	%rbx
	.cfi_def_cfa_offset 40
	subq	$1464, %rsp
	.cfi_def_cfa_offset 1504
	.cfi_offset %rbx, -40
	.cfi_offset %r14, -32
	.cfi_offset %r15, -24
	.cfi_offset %rbp, -16
	movl	%esi, %ebp
	movq	%rdi, %rbx
	testb	%bpl, %bpl
	sete	%al
	movb	$2, %r10b
	subb	%al, %r10b
	leaq	8(%r8), %rdi
	leaq	40(%r9), %rsi
	leaq	272(%r8), %rax
	xorps	%xmm0, %xmm0
	movaps	%xmm0, 368(%rsp)
	movaps	%xmm0, 352(%rsp)
	movaps	%xmm0, 336(%rsp)
	movaps	%xmm0, 320(%rsp)
	movaps	%xmm0, 304(%rsp)
	movaps	%xmm0, 288(%rsp)
	movaps	%xmm0, 272(%rsp)
	movaps	%xmm0, 256(%rsp)
	movaps	%xmm0, 240(%rsp)
	movaps	%xmm0, 224(%rsp)
	movaps	%xmm0, 208(%rsp)
	movaps	%xmm0, 192(%rsp)
	movq	$0, 384(%rsp)
	movaps	%xmm0, 32(%rsp)
	movaps	%xmm0, 48(%rsp)
	movups	%xmm0, 63(%rsp)
	movaps	%xmm0, 624(%rsp)
	movaps	%xmm0, 640(%rsp)
	movaps	%xmm0, 656(%rsp)
	movaps	%xmm0, 672(%rsp)
	movaps	%xmm0, 688(%rsp)
	movaps	%xmm0, 704(%rsp)
	movaps	%xmm0, 720(%rsp)
	movaps	%xmm0, 736(%rsp)
	movaps	%xmm0, 752(%rsp)
	movaps	%xmm0, 768(%rsp)
	movaps	%xmm0, 784(%rsp)
	movaps	%xmm0, 800(%rsp)
	movq	$0, 816(%rsp)
	movb	$0, 28(%rsp)
	movl	$0, 24(%rsp)
	movb	%r10b, 29(%rsp)
	movq	32(%r9), %r10
	movq	72(%r9), %r11
	movq	264(%r8), %r14
	movq	528(%r8), %r8
	leaq	.Lstatic.38(%rip), %r15
	movq	%r15, 80(%rsp)
	movq	$9, 88(%rsp)
	leaq	.Lstatic.2(%rip), %r15
	movq	%r15, 96(%rsp)
	movq	$1, 104(%rsp)
	leaq	24(%rsp), %r15
	movq	%r15, 112(%rsp)
	movq	$6, 120(%rsp)
	movq	%r9, 128(%rsp)
	movq	%r10, 136(%rsp)
	movq	%rdi, 144(%rsp)
	movq	%r14, 152(%rsp)
	movq	%rsi, 160(%rsp)
	movq	%r11, 168(%rsp)
	movq	%rax, 176(%rsp)
	movq	%r8, 184(%rsp)
	movaps	%xmm0, 592(%rsp)
	movaps	%xmm0, 576(%rsp)
	movaps	%xmm0, 560(%rsp)
	movaps	%xmm0, 544(%rsp)
	movaps	%xmm0, 528(%rsp)
	movaps	%xmm0, 512(%rsp)
	movaps	%xmm0, 496(%rsp)
	movaps	%xmm0, 480(%rsp)
	movaps	%xmm0, 464(%rsp)
	movaps	%xmm0, 448(%rsp)
	movaps	%xmm0, 432(%rsp)
	movaps	%xmm0, 416(%rsp)
	movaps	%xmm0, 400(%rsp)
	movq	$0, 607(%rsp)
	testb	%bpl, %bpl
	je	.LBB9e343_1
	leaq	1040(%rsp), %r14
	movq	%r14, %rdi
	movq	%rdx, %rsi
	movq	%rcx, %rdx
	callq	"hmac_mac::key_block"
	leaq	1256(%rsp), %r15
	movq	%r15, %rdi
	movq	%r14, %rsi
	movl	$54, %edx
	callq	"hmac_mac::keyed_hash"
	leaq	1360(%rsp), %rdi
	movq	%r14, %rsi
	movl	$92, %edx
	callq	"hmac_mac::keyed_hash"
	leaq	407(%rsp), %rdi
	movl	$208, %edx
	movq	%r15, %rsi
	callq	memcpy@PLT
	jmp	.LBB9e343_3
.LBB9e343_1:
	leaq	1256(%rsp), %r14
	movq	%r14, %rdi
	movq	%rdx, %rsi
	movq	%rcx, %rdx
	callq	memcpy@PLT
	leaq	400(%rsp), %rdi
	movq	%r14, %rsi
	callq	"cmac_mac::key::CmacKey::new"
.LBB9e343_3:
	movb	%bpl, 1040(%rsp)
	leaq	1041(%rsp), %rdi
	leaq	400(%rsp), %rsi
	movl	$215, %edx
	callq	memcpy@PLT
	xorps	%xmm0, %xmm0
	movaps	%xmm0, 832(%rsp)
	movaps	%xmm0, 848(%rsp)
	movaps	%xmm0, 864(%rsp)
	movaps	%xmm0, 880(%rsp)
	movaps	%xmm0, 896(%rsp)
	movaps	%xmm0, 912(%rsp)
	movaps	%xmm0, 928(%rsp)
	movaps	%xmm0, 944(%rsp)
	movaps	%xmm0, 960(%rsp)
	movaps	%xmm0, 976(%rsp)
	movaps	%xmm0, 992(%rsp)
	movaps	%xmm0, 1008(%rsp)
	movq	$0, 1024(%rsp)
	movw	$0, 22(%rsp)
	leaq	832(%rsp), %r14
	movq	%r14, 8(%rsp)
	movq	$7, (%rsp)
	movzbl	%bpl, %edi
	leaq	1040(%rsp), %rdx
	leaq	22(%rsp), %rcx
	leaq	80(%rsp), %r9
	movl	$16, %esi
	movl	$2, %r8d
	callq	"login_keys::gpsk::derivation::derive"
	leaq	624(%rsp), %r15
	movl	$200, %edx
	movq	%r15, %rdi
	movq	%r14, %rsi
	callq	memcpy@PLT
	leaq	192(%rsp), %rdi
	movl	$200, %edx
	movq	%r15, %rsi
	callq	memcpy@PLT
	xorps	%xmm0, %xmm0
	movaps	%xmm0, 32(%rsp)
	movaps	%xmm0, 48(%rsp)
	movq	$0, 63(%rsp)
	movq	$1, 71(%rsp)
	movq	384(%rsp), %r14
	cmpq	$32, %r14
	ja	.LBB9e343_5
	leaq	32(%rsp), %rdi
	leaq	192(%rsp), %rsi
	movq	%r14, %rdx
	callq	memcpy@PLT
	incq	%r14
	movq	%r14, 71(%rsp)
.LBB9e343_5:
	movb	$51, (%rbx)
	movaps	32(%rsp), %xmm0
	movaps	48(%rsp), %xmm1
	movups	%xmm0, 1(%rbx)
	movups	%xmm1, 17(%rbx)
	movq	63(%rsp), %rax
	movq	%rax, 32(%rbx)
	movq	71(%rsp), %rax
	movq	%rax, 40(%rbx)
	addq	$1464, %rsp
	.cfi_def_cfa_offset 40
	popq	%rbx
	.cfi_def_cfa_offset 32
	popq	%r14
	.cfi_def_cfa_offset 24
	popq	%r15
	.cfi_def_cfa_offset 16
	popq	%rbp
	.cfi_def_cfa_offset 8
	retq
.Lfunc_end9e343:
	.size	"tuvaddri_c::gpsk::gpsk_id", .Lfunc_end9e343-"tuvaddri_c::gpsk::gpsk_id"
	.cfi_endproc

	.section	".text.tuvaddri_c::report::report_peer","ax",@progbits
	.p2align	4
	.type	"tuvaddri_c::report::report_peer",@function
"tuvaddri_c::report::report_peer":
	.cfi_startproc
	pushq	%rbp
	.cfi_def_cfa_offset 16
	pushq	%r15
	.cfi_def_cfa_offset 24
	pushq	%r14
	.cfi_def_cfa_offset 32
	pushq	%r12
	.cfi_def_cfa_offset 40
	pushq	%rbx
	.cfi_def_cfa_offset 48
	subq	$1488, %rsp
	.cfi_def_cfa_offset 1536
	.cfi_offset %rbx, -48
	.cfi_offset %r12, -40
	.cfi_offset %r14, -32
	.cfi_offset %r15, -24
	.cfi_offset %rbp, -16
	movq	%rsi, %rbx
	movq	%rdi, %r15
	leaq	144(%rsp), %rdi
	xorl	%r14d, %r14d
	movl	$680, %edx
	xorl	%esi, %esi
	callq	memset@PLT
	leaq	824(%rsp), %rdi
	movl	$664, %edx
	xorl	%esi, %esi
	callq	memset@PLT
	xorps	%xmm0, %xmm0
	movaps	%xmm0, 64(%rsp)
	movaps	%xmm0, 80(%rsp)
	movaps	%xmm0, 96(%rsp)
	movaps	%xmm0, 112(%rsp)
	movaps	%xmm0, 128(%rsp)
	movzbl	(%r15), %eax
	leaq	.LJTI01589_0(%rip), %rcx
	movslq	(%rcx,%rax,4), %rax
	addq	%rcx, %rax
	jmpq	*%rax
.LBB01589_1:
	movl	%r14d, %eax
	addq	$1488, %rsp
	.cfi_def_cfa_offset 48
	popq	%rbx
	.cfi_def_cfa_offset 40
	popq	%r12
	.cfi_def_cfa_offset 32
	popq	%r14
	.cfi_def_cfa_offset 24
	popq	%r15
	.cfi_def_cfa_offset 16
	popq	%rbp
	.cfi_def_cfa_offset 8
	retq
.LBB01589_2:
	.cfi_def_cfa_offset 1536
	cmpb	$0, 777(%r15)
	je	.LBB01589_25
	movzbl	778(%r15), %eax
	movq	2304(%r15), %rcx
	movq	$-1248, %rdx
	addq	2296(%r15), %rdx
	incq	%rcx
	movq	%rdx, %r15
	.p2align	4
.LBB01589_4:
	decq	%rcx
	je	.LBB01589_25
	addq	$1248, %r15
	cmpb	$0, (%r15)
	setne	%dl
	shlb	$2, %dl
	addb	$47, %dl
	cmpb	%al, %dl
	jne	.LBB01589_4
	jmp	.LBB01589_11
.LBB01589_6:
	addq	$8, %r15
	jmp	.LBB01589_11
.LBB01589_7:
	cmpb	$0, 809(%r15)
	je	.LBB01589_25
	movzbl	810(%r15), %eax
	movq	2336(%r15), %rcx
	movq	$-1248, %rdx
	addq	2328(%r15), %rdx
	incq	%rcx
	movq	%rdx, %r15
	.p2align	4
.LBB01589_9:
	decq	%rcx
	je	.LBB01589_25
	addq	$1248, %r15
	cmpb	$0, (%r15)
	setne	%dl
	shlb	$2, %dl
	addb	$47, %dl
	cmpb	%al, %dl
	jne	.LBB01589_9
.LBB01589_11:
	leaq	144(%rsp), %rdi
	movq	%r15, %rsi
	callq	"end_objects::objects::PeerObjectPeerMethod::report"
	movzbl	144(%rsp), %r12d
	movzbl	152(%rsp), %ebp
	leaq	160(%rsp), %rsi
	leaq	824(%rsp), %rdi
	movl	$664, %edx
	callq	memcpy@PLT
	cmpb	$0, (%r15)
	movzbl	664(%r15), %eax
	je	.LBB01589_16
	cmpb	$2, %al
	jne	.LBB01589_21
	cmpb	$1, 1160(%r15)
	jne	.LBB01589_21
	cmpb	$0, 1161(%r15)
	je	.LBB01589_21
	movups	632(%r15), %xmm0
	movups	648(%r15), %xmm1
	movaps	%xmm1, 48(%rsp)
	movaps	%xmm0, 32(%rsp)
	movups	672(%r15), %xmm0
	movups	688(%r15), %xmm1
	movaps	%xmm0, (%rsp)
	movaps	%xmm1, 16(%rsp)
	movl	$32, %r15d
	jmp	.LBB01589_20
.LBB01589_25:
	xorl	%r14d, %r14d
	jmp	.LBB01589_1
.LBB01589_16:
	cmpb	$2, %al
	jne	.LBB01589_21
	cmpb	$1, 1241(%r15)
	jne	.LBB01589_21
	cmpb	$0, 1242(%r15)
	je	.LBB01589_21
	xorps	%xmm0, %xmm0
	movaps	%xmm0, 48(%rsp)
	movups	632(%r15), %xmm1
	movaps	%xmm1, 32(%rsp)
	movaps	%xmm0, 16(%rsp)
	movups	665(%r15), %xmm0
	movaps	%xmm0, (%rsp)
	movl	$16, %r15d
.LBB01589_20:
	movb	$1, %r14b
	xorl	%eax, %eax
	jmp	.LBB01589_22
.LBB01589_21:
	xorps	%xmm0, %xmm0
	movaps	%xmm0, 48(%rsp)
	movaps	%xmm0, 32(%rsp)
	movaps	%xmm0, (%rsp)
	movaps	%xmm0, 16(%rsp)
	movb	$1, %al
	xorl	%r14d, %r14d
	xorl	%r15d, %r15d
.LBB01589_22:
	movaps	32(%rsp), %xmm0
	movaps	48(%rsp), %xmm1
	movaps	%xmm1, 80(%rsp)
	movaps	%xmm0, 64(%rsp)
	movq	%r15, 96(%rsp)
	movaps	(%rsp), %xmm0
	movaps	16(%rsp), %xmm1
	movups	%xmm0, 104(%rsp)
	movups	%xmm1, 120(%rsp)
	movq	%r15, 136(%rsp)
	testb	%r12b, %r12b
	setne	%cl
	sete	%dl
	orb	%al, %dl
	je	.LBB01589_24
	andb	%cl, %r14b
	jmp	.LBB01589_1
.LBB01589_24:
	movb	%bpl, 8(%rbx)
	movzbl	1352(%rsp), %eax
	movb	%al, 9(%rbx)
	movq	1080(%rsp), %r12
	leaq	12(%rbx), %rdi
	leaq	824(%rsp), %rsi
	movq	%r12, %rdx
	callq	memcpy@PLT
	movb	%r12b, 10(%rbx)
	movq	1344(%rsp), %r12
	leaq	265(%rbx), %rdi
	leaq	1088(%rsp), %rsi
	movq	%r12, %rdx
	callq	memcpy@PLT
	movb	%r12b, 11(%rbx)
	movups	689(%rsp), %xmm0
	movups	705(%rsp), %xmm1
	movups	721(%rsp), %xmm2
	movups	737(%rsp), %xmm3
	movups	%xmm0, 518(%rbx)
	movups	%xmm1, 534(%rbx)
	movups	%xmm2, 550(%rbx)
	movups	%xmm3, 566(%rbx)
	movups	753(%rsp), %xmm0
	movups	769(%rsp), %xmm1
	movups	785(%rsp), %xmm2
	movups	801(%rsp), %xmm3
	movups	%xmm3, 630(%rbx)
	movups	%xmm2, 614(%rbx)
	movups	%xmm1, 598(%rbx)
	movups	%xmm0, 582(%rbx)
	leaq	647(%rbx), %rdi
	leaq	64(%rsp), %rsi
	movq	%r15, %rdx
	callq	memcpy@PLT
	movb	%r15b, 646(%rbx)
	addq	$679, %rbx
	leaq	104(%rsp), %rsi
	movq	%rbx, %rdi
	movq	%r15, %rdx
	callq	memcpy@PLT
	jmp	.LBB01589_1
.Lfunc_end01589:
	.size	"tuvaddri_c::report::report_peer", .Lfunc_end01589-"tuvaddri_c::report::report_peer"
	.cfi_endproc
	.section	".rodata.tuvaddri_c::report::report_peer","a",@progbits
	.p2align	2, 0x0
.LJTI01589_0:
	.long	.LBB01589_1-.LJTI01589_0
	.long	.LBB01589_6-.LJTI01589_0
	.long	.LBB01589_1-.LJTI01589_0
	.long	.LBB01589_2-.LJTI01589_0
	.long	.LBB01589_1-.LJTI01589_0
	.long	.LBB01589_1-.LJTI01589_0
	.long	.LBB01589_1-.LJTI01589_0
	.long	.LBB01589_7-.LJTI01589_0
	.long	.LBB01589_1-.LJTI01589_0

	.section	".text.tuvaddri_c::report::report_server","ax",@progbits
	.p2align	4
	.type	"tuvaddri_c::report::report_server",@function
"tuvaddri_c::report::report_server":
	.cfi_startproc
	pushq	%rbp
	.cfi_def_cfa_offset 16
	pushq	%r15
	.cfi_def_cfa_offset 24
	pushq	%r14
	.cfi_def_cfa_offset 32
	pushq	%r12
	.cfi_def_cfa_offset 40
	pushq	%rbx
	.cfi_def_cfa_offset 48
	subq	$1488, %rsp
	.cfi_def_cfa_offset 1536
	.cfi_offset %rbx, -48
	.cfi_offset %r12, -40
	.cfi_offset %r14, -32
	.cfi_offset %r15, -24
	.cfi_offset %rbp, -16
	movq	%rsi, %rbx
	movq	%rdi, %r15
	leaq	144(%rsp), %rdi
	xorl	%r14d, %r14d
	movl	$680, %edx
	xorl	%esi, %esi
	callq	memset@PLT
	leaq	824(%rsp), %rdi
	movl	$664, %edx
	xorl	%esi, %esi
	callq	memset@PLT
	xorps	%xmm0, %xmm0
	movaps	%xmm0, 64(%rsp)
	movaps	%xmm0, 80(%rsp)
	movaps	%xmm0, 96(%rsp)
	movaps	%xmm0, 112(%rsp)
	movaps	%xmm0, 128(%rsp)
	movzbl	(%r15), %eax
	leaq	.LJTIb4391_0(%rip), %rcx
	movslq	(%rcx,%rax,4), %rax
	addq	%rcx, %rax
	jmpq	*%rax
.LBBb4391_1:
	movl	%r14d, %eax
	addq	$1488, %rsp
	.cfi_def_cfa_offset 48
	popq	%rbx
	.cfi_def_cfa_offset 40
	popq	%r12
	.cfi_def_cfa_offset 32
	popq	%r14
	.cfi_def_cfa_offset 24
	popq	%r15
	.cfi_def_cfa_offset 16
	popq	%rbp
	.cfi_def_cfa_offset 8
	retq
.LBBb4391_2:
	.cfi_def_cfa_offset 1536
	cmpb	$0, 38(%r15)
	je	.LBBb4391_25
	movzbl	39(%r15), %eax
	movq	16(%r15), %rcx
	movq	$-1256, %rdx
	addq	8(%r15), %rdx
	incq	%rcx
	movq	%rdx, %r15
	.p2align	4
.LBBb4391_4:
	decq	%rcx
	je	.LBBb4391_25
	addq	$1256, %r15
	cmpb	$0, (%r15)
	setne	%dl
	shlb	$2, %dl
	addb	$47, %dl
	cmpb	%al, %dl
	jne	.LBBb4391_4
	jmp	.LBBb4391_11
.LBBb4391_6:
	addq	$8, %r15
	jmp	.LBBb4391_11
.LBBb4391_7:
	cmpb	$0, 38(%r15)
	je	.LBBb4391_25
	movzbl	39(%r15), %eax
	movq	16(%r15), %rcx
	movq	$-1256, %rdx
	addq	8(%r15), %rdx
	incq	%rcx
	movq	%rdx, %r15
	.p2align	4
.LBBb4391_9:
	decq	%rcx
	je	.LBBb4391_25
	addq	$1256, %r15
	cmpb	$0, (%r15)
	setne	%dl
	shlb	$2, %dl
	addb	$47, %dl
	cmpb	%al, %dl
	jne	.LBBb4391_9
.LBBb4391_11:
	leaq	144(%rsp), %rdi
	movq	%r15, %rsi
	callq	"end_objects::objects::ServerObjectServerMethod::report"
	movzbl	144(%rsp), %r12d
	movzbl	152(%rsp), %ebp
	leaq	160(%rsp), %rsi
	leaq	824(%rsp), %rdi
	movl	$664, %edx
	callq	memcpy@PLT
	cmpb	$0, (%r15)
	je	.LBBb4391_16
	cmpb	$2, 320(%r15)
	jne	.LBBb4391_21
	cmpb	$2, 1152(%r15)
	jne	.LBBb4391_21
	cmpb	$0, 1153(%r15)
	je	.LBBb4391_21
	movups	664(%r15), %xmm0
	movups	680(%r15), %xmm1
	movaps	%xmm1, 48(%rsp)
	movaps	%xmm0, 32(%rsp)
	movups	288(%r15), %xmm0
	movups	304(%r15), %xmm1
	movaps	%xmm0, (%rsp)
	movaps	%xmm1, 16(%rsp)
	movl	$32, %r15d
	jmp	.LBBb4391_20
.LBBb4391_25:
	xorl	%r14d, %r14d
	jmp	.LBBb4391_1
.LBBb4391_16:
	cmpb	$2, 8(%r15)
	jne	.LBBb4391_21
	cmpb	$1, 1248(%r15)
	jne	.LBBb4391_21
	cmpb	$0, 1249(%r15)
	je	.LBBb4391_21
	xorps	%xmm0, %xmm0
	movaps	%xmm0, 48(%rsp)
	movups	664(%r15), %xmm1
	movaps	%xmm1, 32(%rsp)
	movaps	%xmm0, 16(%rsp)
	movups	296(%r15), %xmm0
	movaps	%xmm0, (%rsp)
	movl	$16, %r15d
.LBBb4391_20:
	movb	$1, %r14b
	xorl	%eax, %eax
	jmp	.LBBb4391_22
.LBBb4391_21:
	xorps	%xmm0, %xmm0
	movaps	%xmm0, 48(%rsp)
	movaps	%xmm0, 32(%rsp)
	movaps	%xmm0, (%rsp)
	movaps	%xmm0, 16(%rsp)
	movb	$1, %al
	xorl	%r14d, %r14d
	xorl	%r15d, %r15d
.LBBb4391_22:
	movaps	32(%rsp), %xmm0
	movaps	48(%rsp), %xmm1
	movaps	%xmm1, 80(%rsp)
	movaps	%xmm0, 64(%rsp)
	movq	%r15, 96(%rsp)
	movaps	(%rsp), %xmm0
	movaps	16(%rsp), %xmm1
	movups	%xmm0, 104(%rsp)
	movups	%xmm1, 120(%rsp)
	movq	%r15, 136(%rsp)
	testb	%r12b, %r12b
	setne	%cl
	sete	%dl
	orb	%al, %dl
	je	.LBBb4391_24
	andb	%cl, %r14b
	jmp	.LBBb4391_1
.LBBb4391_24:
	movb	%bpl, 8(%rbx)
	movzbl	1352(%rsp), %eax
	movb	%al, 9(%rbx)
	movq	1080(%rsp), %r12
	leaq	12(%rbx), %rdi
	leaq	824(%rsp), %rsi
	movq	%r12, %rdx
	callq	memcpy@PLT
	movb	%r12b, 10(%rbx)
	movq	1344(%rsp), %r12
	leaq	265(%rbx), %rdi
	leaq	1088(%rsp), %rsi
	movq	%r12, %rdx
	callq	memcpy@PLT
	movb	%r12b, 11(%rbx)
	movups	689(%rsp), %xmm0
	movups	705(%rsp), %xmm1
	movups	721(%rsp), %xmm2
	movups	737(%rsp), %xmm3
	movups	%xmm0, 518(%rbx)
	movups	%xmm1, 534(%rbx)
	movups	%xmm2, 550(%rbx)
	movups	%xmm3, 566(%rbx)
	movups	753(%rsp), %xmm0
	movups	769(%rsp), %xmm1
	movups	785(%rsp), %xmm2
	movups	801(%rsp), %xmm3
	movups	%xmm3, 630(%rbx)
	movups	%xmm2, 614(%rbx)
	movups	%xmm1, 598(%rbx)
	movups	%xmm0, 582(%rbx)
	leaq	647(%rbx), %rdi
	leaq	64(%rsp), %rsi
	movq	%r15, %rdx
	callq	memcpy@PLT
	movb	%r15b, 646(%rbx)
	addq	$679, %rbx
	leaq	104(%rsp), %rsi
	movq	%rbx, %rdi
	movq	%r15, %rdx
	callq	memcpy@PLT
	jmp	.LBBb4391_1
.Lfunc_endb4391:
	.size	"tuvaddri_c::report::report_server", .Lfunc_endb4391-"tuvaddri_c::report::report_server"
	.cfi_endproc
	.section	".rodata.tuvaddri_c::report::report_server","a",@progbits
	.p2align	2, 0x0
.LJTIb4391_0:
	.long	.LBBb4391_1-.LJTIb4391_0
	.long	.LBBb4391_1-.LJTIb4391_0
	.long	.LBBb4391_6-.LJTIb4391_0
	.long	.LBBb4391_1-.LJTIb4391_0
	.long	.LBBb4391_2-.LJTIb4391_0
	.long	.LBBb4391_7-.LJTIb4391_0
	.long	.LBBb4391_1-.LJTIb4391_0
	.long	.LBBb4391_1-.LJTIb4391_0
	.long	.LBBb4391_1-.LJTIb4391_0

	.section	".text.tuvaddri_c::name::write_name_in","ax",@progbits
	.p2align	4
	.type	"tuvaddri_c::name::write_name_in",@function
"tuvaddri_c::name::write_name_in":
	.cfi_startproc
	pushq	%rbx
	.cfi_def_cfa_offset 16
	subq	$224, %rsp
	.cfi_def_cfa_offset 240
	.cfi_offset %rbx, -16
	movq	%rdx, %rbx
	movq	%rsi, %rdx
	movq	%rdi, %rsi
	xorps	%xmm0, %xmm0
	movaps	%xmm0, 32(%rsp)
	movaps	%xmm0, 16(%rsp)
	movaps	%xmm0, (%rsp)
	movq	%rsp, %rdi
	callq	"eap_packet::packet::decode"
	cmpb	$1, (%rsp)
	je	.LBB2f8f8_7
	cmpb	$1, 8(%rsp)
	jne	.LBB2f8f8_7
	movq	16(%rsp), %rsi
	movq	24(%rsp), %rdx
	movzbl	10(%rsp), %eax
	cmpl	$51, %eax
	je	.LBB2f8f8_8
	cmpl	$47, %eax
	jne	.LBB2f8f8_7
	xorps	%xmm0, %xmm0
	movaps	%xmm0, 112(%rsp)
	movaps	%xmm0, 96(%rsp)
	movaps	%xmm0, 80(%rsp)
	movaps	%xmm0, 64(%rsp)
	movaps	%xmm0, 48(%rsp)
	leaq	48(%rsp), %rdi
	callq	"psk_messages::reading::read_psk_message"
	xorl	%eax, %eax
	cmpb	$0, 48(%rsp)
	jne	.LBB2f8f8_29
	cmpb	$1, 56(%rsp)
	jne	.LBB2f8f8_29
	movq	112(%rsp), %rsi
	movq	120(%rsp), %rax
	movq	%rbx, %rdx
	subq	%rsi, %rdx
	cmpq	%rax, %rdx
	jae	.LBB2f8f8_30
.LBB2f8f8_13:
	xorl	%ecx, %ecx
	cmpq	$4, %rax
	jb	.LBB2f8f8_24
	cmpq	$32, %rdx
	jb	.LBB2f8f8_24
	cmpq	$32, %rax
	jae	.LBB2f8f8_17
	xorl	%ecx, %ecx
	jmp	.LBB2f8f8_21
.LBB2f8f8_7:
	xorl	%eax, %eax
.LBB2f8f8_29:
	addq	$224, %rsp
	.cfi_def_cfa_offset 16
	popq	%rbx
	.cfi_def_cfa_offset 8
	retq
.LBB2f8f8_8:
	.cfi_def_cfa_offset 240
	xorps	%xmm0, %xmm0
	movaps	%xmm0, 192(%rsp)
	movaps	%xmm0, 176(%rsp)
	movaps	%xmm0, 160(%rsp)
	movaps	%xmm0, 144(%rsp)
	movaps	%xmm0, 128(%rsp)
	movaps	%xmm0, 112(%rsp)
	movaps	%xmm0, 96(%rsp)
	movaps	%xmm0, 80(%rsp)
	movaps	%xmm0, 64(%rsp)
	movaps	%xmm0, 48(%rsp)
	movq	$0, 208(%rsp)
	leaq	48(%rsp), %rdi
	xorl	%ecx, %ecx
	xorl	%r8d, %r8d
	callq	"gpsk_messages::reading::read_gpsk_message"
	cmpb	$0, 48(%rsp)
	jne	.LBB2f8f8_9
	cmpb	$1, 56(%rsp)
	movl	$0, %eax
	jne	.LBB2f8f8_29
	movq	64(%rsp), %rsi
	movq	72(%rsp), %rax
	movq	%rbx, %rdx
	subq	%rsi, %rdx
	cmpq	%rax, %rdx
	jb	.LBB2f8f8_13
.LBB2f8f8_30:
	movq	%rbx, %rdi
	movq	%rax, %rdx
	movq	%rax, %rbx
	callq	memmove@PLT
	movq	%rbx, %rax
	addq	$224, %rsp
	.cfi_def_cfa_offset 16
	popq	%rbx
	.cfi_def_cfa_offset 8
	retq
.LBB2f8f8_9:
	.cfi_def_cfa_offset 240
	xorl	%eax, %eax
	addq	$224, %rsp
	.cfi_def_cfa_offset 16
	popq	%rbx
	.cfi_def_cfa_offset 8
	retq
.LBB2f8f8_17:
	.cfi_def_cfa_offset 240
	movq	%rax, %rcx
	andq	$-32, %rcx
	xorl	%edx, %edx
	.p2align	4
.LBB2f8f8_18:
	movups	(%rsi,%rdx), %xmm0
	movups	16(%rsi,%rdx), %xmm1
	movups	%xmm0, (%rbx,%rdx)
	movups	%xmm1, 16(%rbx,%rdx)
	addq	$32, %rdx
	cmpq	%rdx, %rcx
	jne	.LBB2f8f8_18
	cmpq	%rcx, %rax
	je	.LBB2f8f8_29
	testb	$28, %al
	je	.LBB2f8f8_24
.LBB2f8f8_21:
	movq	%rcx, %rdx
	movq	%rax, %rcx
	andq	$-4, %rcx
	.p2align	4
.LBB2f8f8_22:
	movl	(%rsi,%rdx), %edi
	movl	%edi, (%rbx,%rdx)
	addq	$4, %rdx
	cmpq	%rdx, %rcx
	jne	.LBB2f8f8_22
	cmpq	%rcx, %rax
	je	.LBB2f8f8_29
.LBB2f8f8_24:
	movq	%rax, %rdi
	movq	%rcx, %rdx
	andq	$3, %rdi
	je	.LBB2f8f8_27
	movq	%rcx, %rdx
	.p2align	4
.LBB2f8f8_26:
	movzbl	(%rsi,%rdx), %r8d
	movb	%r8b, (%rbx,%rdx)
	incq	%rdx
	decq	%rdi
	jne	.LBB2f8f8_26
.LBB2f8f8_27:
	subq	%rax, %rcx
	cmpq	$-4, %rcx
	ja	.LBB2f8f8_29
	.p2align	4
.LBB2f8f8_28:
	movzbl	(%rsi,%rdx), %ecx
	movb	%cl, (%rbx,%rdx)
	movzbl	1(%rsi,%rdx), %ecx
	movb	%cl, 1(%rbx,%rdx)
	movzbl	2(%rsi,%rdx), %ecx
	movb	%cl, 2(%rbx,%rdx)
	movzbl	3(%rsi,%rdx), %ecx
	movb	%cl, 3(%rbx,%rdx)
	addq	$4, %rdx
	cmpq	%rdx, %rax
	jne	.LBB2f8f8_28
	jmp	.LBB2f8f8_29
.Lfunc_end2f8f8:
	.size	"tuvaddri_c::name::write_name_in", .Lfunc_end2f8f8-"tuvaddri_c::name::write_name_in"
	.cfi_endproc

	.section	".text.tuvaddri_c::name::write_server_in","ax",@progbits
	.p2align	4
	.type	"tuvaddri_c::name::write_server_in",@function
"tuvaddri_c::name::write_server_in":
	.cfi_startproc
	pushq	%rbx
	.cfi_def_cfa_offset 16
	subq	$224, %rsp
	.cfi_def_cfa_offset 240
	.cfi_offset %rbx, -16
	movq	%rdx, %rbx
	movq	%rsi, %rdx
	movq	%rdi, %rsi
	xorps	%xmm0, %xmm0
	movaps	%xmm0, 32(%rsp)
	movaps	%xmm0, 16(%rsp)
	movaps	%xmm0, (%rsp)
	movq	%rsp, %rdi
	callq	"eap_packet::packet::decode"
	cmpb	$1, (%rsp)
	je	.LBBe6481_6
	cmpb	$0, 8(%rsp)
	jne	.LBBe6481_6
	movq	16(%rsp), %rsi
	movq	24(%rsp), %rdx
	movzbl	10(%rsp), %eax
	cmpl	$51, %eax
	je	.LBBe6481_7
	cmpl	$47, %eax
	jne	.LBBe6481_6
	xorps	%xmm0, %xmm0
	movaps	%xmm0, 112(%rsp)
	movaps	%xmm0, 96(%rsp)
	movaps	%xmm0, 80(%rsp)
	movaps	%xmm0, 64(%rsp)
	movaps	%xmm0, 48(%rsp)
	leaq	48(%rsp), %rdi
	callq	"psk_messages::reading::read_psk_message"
	movzbl	56(%rsp), %eax
	orb	48(%rsp), %al
	jne	.LBBe6481_6
	movq	80(%rsp), %rsi
	movq	88(%rsp), %rax
	movq	%rbx, %rdx
	subq	%rsi, %rdx
	cmpq	%rax, %rdx
	jae	.LBBe6481_28
.LBBe6481_10:
	xorl	%ecx, %ecx
	cmpq	$4, %rax
	jb	.LBBe6481_21
	cmpq	$32, %rdx
	jb	.LBBe6481_21
	cmpq	$32, %rax
	jae	.LBBe6481_14
	xorl	%ecx, %ecx
	jmp	.LBBe6481_18
.LBBe6481_6:
	xorl	%eax, %eax
.LBBe6481_26:
	addq	$224, %rsp
	.cfi_def_cfa_offset 16
	popq	%rbx
	.cfi_def_cfa_offset 8
	retq
.LBBe6481_7:
	.cfi_def_cfa_offset 240
	xorps	%xmm0, %xmm0
	movaps	%xmm0, 192(%rsp)
	movaps	%xmm0, 176(%rsp)
	movaps	%xmm0, 160(%rsp)
	movaps	%xmm0, 144(%rsp)
	movaps	%xmm0, 128(%rsp)
	movaps	%xmm0, 112(%rsp)
	movaps	%xmm0, 96(%rsp)
	movaps	%xmm0, 80(%rsp)
	movaps	%xmm0, 64(%rsp)
	movaps	%xmm0, 48(%rsp)
	movq	$0, 208(%rsp)
	leaq	48(%rsp), %rdi
	xorl	%ecx, %ecx
	xorl	%r8d, %r8d
	callq	"gpsk_messages::reading::read_gpsk_message"
	movzbl	56(%rsp), %eax
	orb	48(%rsp), %al
	jne	.LBBe6481_27
	movq	64(%rsp), %rsi
	movq	72(%rsp), %rax
	movq	%rbx, %rdx
	subq	%rsi, %rdx
	cmpq	%rax, %rdx
	jb	.LBBe6481_10
.LBBe6481_28:
	movq	%rbx, %rdi
	movq	%rax, %rdx
	movq	%rax, %rbx
	callq	memmove@PLT
	movq	%rbx, %rax
	addq	$224, %rsp
	.cfi_def_cfa_offset 16
	popq	%rbx
	.cfi_def_cfa_offset 8
	retq
.LBBe6481_27:
	.cfi_def_cfa_offset 240
	xorl	%eax, %eax
	addq	$224, %rsp
	.cfi_def_cfa_offset 16
	popq	%rbx
	.cfi_def_cfa_offset 8
	retq
.LBBe6481_14:
	.cfi_def_cfa_offset 240
	movq	%rax, %rcx
	andq	$-32, %rcx
	xorl	%edx, %edx
	.p2align	4
.LBBe6481_15:
	movups	(%rsi,%rdx), %xmm0
	movups	16(%rsi,%rdx), %xmm1
	movups	%xmm0, (%rbx,%rdx)
	movups	%xmm1, 16(%rbx,%rdx)
	addq	$32, %rdx
	cmpq	%rdx, %rcx
	jne	.LBBe6481_15
	cmpq	%rcx, %rax
	je	.LBBe6481_26
	testb	$28, %al
	je	.LBBe6481_21
.LBBe6481_18:
	movq	%rcx, %rdx
	movq	%rax, %rcx
	andq	$-4, %rcx
	.p2align	4
.LBBe6481_19:
	movl	(%rsi,%rdx), %edi
	movl	%edi, (%rbx,%rdx)
	addq	$4, %rdx
	cmpq	%rdx, %rcx
	jne	.LBBe6481_19
	cmpq	%rcx, %rax
	je	.LBBe6481_26
.LBBe6481_21:
	movq	%rax, %rdi
	movq	%rcx, %rdx
	andq	$3, %rdi
	je	.LBBe6481_24
	movq	%rcx, %rdx
	.p2align	4
.LBBe6481_23:
	movzbl	(%rsi,%rdx), %r8d
	movb	%r8b, (%rbx,%rdx)
	incq	%rdx
	decq	%rdi
	jne	.LBBe6481_23
.LBBe6481_24:
	subq	%rax, %rcx
	cmpq	$-4, %rcx
	ja	.LBBe6481_26
	.p2align	4
.LBBe6481_25:
	movzbl	(%rsi,%rdx), %ecx
	movb	%cl, (%rbx,%rdx)
	movzbl	1(%rsi,%rdx), %ecx
	movb	%cl, 1(%rbx,%rdx)
	movzbl	2(%rsi,%rdx), %ecx
	movb	%cl, 2(%rbx,%rdx)
	movzbl	3(%rsi,%rdx), %ecx
	movb	%cl, 3(%rbx,%rdx)
	addq	$4, %rdx
	cmpq	%rdx, %rax
	jne	.LBBe6481_25
	jmp	.LBBe6481_26
.Lfunc_ende6481:
	.size	"tuvaddri_c::name::write_server_in", .Lfunc_ende6481-"tuvaddri_c::name::write_server_in"
	.cfi_endproc

	.section	.text.tuv_backend_begin,"ax",@progbits
	.globl	tuv_backend_begin
	.p2align	4
	.type	tuv_backend_begin,@function
tuv_backend_begin:
	.cfi_startproc
	pushq	%rbp
	.cfi_def_cfa_offset 16
	pushq	%r15
	.cfi_def_cfa_offset 24
	pushq	%r14
	.cfi_def_cfa_offset 32
	pushq	%r13
	.cfi_def_cfa_offset 40
	pushq	%r12
	.cfi_def_cfa_offset 48
	pushq	%rbx
	.cfi_def_cfa_offset 56
	subq	$1992, %rsp
	.cfi_def_cfa_offset 2048
	.cfi_offset %rbx, -56
	.cfi_offset %r12, -48
	.cfi_offset %r13, -40
	.cfi_offset %r14, -32
	.cfi_offset %r15, -24
	.cfi_offset %rbp, -16
	movq	%rdx, %r12
	movq	%rsi, %r14
	movq	%rdi, %r13
	xorps	%xmm0, %xmm0
	movaps	%xmm0, 160(%rsp)
	movaps	%xmm0, 144(%rsp)
	movq	%rsi, %rdi
	callq	"end_objects::refusals::server_refusal"
	cmpb	$1, %al
	jne	.LBB0b35d_2
	movl	%edx, %eax
	incb	%al
	jmp	.LBB0b35d_36
.LBB0b35d_2:
	movq	48(%r14), %rcx
	cmpq	$0, 64(%r14)
	je	.LBB0b35d_3
	xorl	%r15d, %r15d
	testq	%rcx, %rcx
	movl	$51, %ecx
	movl	$12083, %eax
	cmoveq	%rcx, %rax
	setne	%r15b
	incq	%r15
	jmp	.LBB0b35d_5
.LBB0b35d_3:
	xorl	%r15d, %r15d
	testq	%rcx, %rcx
	setne	%r15b
	movl	$47, %eax
	cmoveq	%rcx, %rax
.LBB0b35d_5:
	movq	%rax, 1272(%rsp)
	movq	%r15, 1280(%rsp)
	movzbl	72(%r14), %ecx
	testq	%rcx, %rcx
	je	.LBB0b35d_7
	movzbl	73(%r14), %eax
	cmpl	$1, %eax
	movl	$2, %edx
	sbbq	$0, %rdx
	shll	$8, %eax
	orq	%rcx, %rax
	jmp	.LBB0b35d_8
.LBB0b35d_7:
	xorps	%xmm0, %xmm0
	movaps	%xmm0, 544(%rsp)
	leaq	544(%rsp), %rdi
	leaq	1272(%rsp), %rsi
	movq	%r15, %rdx
	callq	memcpy@PLT
	testq	%r15, %r15
	movl	$12083, %eax
	cmovneq	544(%rsp), %rax
	movl	$2, %edx
	cmovneq	%r15, %rdx
.LBB0b35d_8:
	movq	%rax, 224(%rsp)
	movq	%rdx, 232(%rsp)
	leaq	144(%rsp), %rdi
	leaq	224(%rsp), %rsi
	callq	"end_objects::constructors::server_objects"
	movb	$8, %al
	cmpb	$0, 144(%rsp)
	jne	.LBB0b35d_36
	movq	152(%rsp), %r15
	movq	168(%rsp), %rbx
	movaps	160(%rsp), %xmm0
	movaps	%xmm0, 256(%rsp)
	callq	"tuvaddri_c::sent::empty_packet"
	cmpb	$1, %al
	jne	.LBB0b35d_33
	movq	%r15, 128(%rsp)
	movq	%rdx, 136(%rsp)
	movq	(%r13), %rbp
	xorps	%xmm0, %xmm0
	movaps	%xmm0, 176(%rsp)
	movaps	%xmm0, 192(%rsp)
	leaq	1272(%rsp), %rdi
	movl	$719, %edx
	xorl	%esi, %esi
	callq	memset@PLT
	movl	$0, 547(%rsp)
	movl	$0, 544(%rsp)
	movq	8(%r14), %r13
	movq	16(%r14), %r15
	leaq	280(%rsp), %rdi
	movl	$264, %edx
	xorl	%esi, %esi
	callq	memset@PLT
	cmpq	$253, %r15
	ja	.LBB0b35d_12
	leaq	280(%rsp), %rdi
	movq	%r13, %rsi
	movq	%r15, %rdx
	callq	memcpy@PLT
	movq	%r15, 536(%rsp)
.LBB0b35d_12:
	movq	48(%r14), %rcx
	cmpq	$0, 64(%r14)
	je	.LBB0b35d_13
	xorl	%r15d, %r15d
	testq	%rcx, %rcx
	movl	$51, %ecx
	movl	$12083, %eax
	cmoveq	%rcx, %rax
	setne	%r15b
	incq	%r15
	jmp	.LBB0b35d_15
.LBB0b35d_33:
	testq	%rbx, %rbx
	je	.LBB0b35d_35
	movq	%r15, %rdi
	callq	rattle_dealloc@PLT
.LBB0b35d_35:
	movb	$8, %al
	jmp	.LBB0b35d_36
.LBB0b35d_13:
	xorl	%r15d, %r15d
	testq	%rcx, %rcx
	setne	%r15b
	movl	$47, %eax
	cmoveq	%rcx, %rax
.LBB0b35d_15:
	movq	%r12, 40(%rsp)
	movq	%rax, 240(%rsp)
	movq	%r15, 248(%rsp)
	movzbl	72(%r14), %eax
	testq	%rax, %rax
	je	.LBB0b35d_17
	movzbl	73(%r14), %r13d
	cmpl	$1, %r13d
	movl	$2, %r12d
	sbbq	$0, %r12
	shll	$8, %r13d
	orq	%rax, %r13
	jmp	.LBB0b35d_18
.LBB0b35d_17:
	xorps	%xmm0, %xmm0
	movaps	%xmm0, 208(%rsp)
	leaq	208(%rsp), %rdi
	leaq	240(%rsp), %rsi
	movq	%r15, %rdx
	callq	memcpy@PLT
	testq	%r15, %r15
	movl	$12083, %r13d
	cmovneq	208(%rsp), %r13
	movl	$2, %r12d
	cmovneq	%r15, %r12
.LBB0b35d_18:
	movzwl	74(%r14), %eax
	cmpl	$256, %eax
	movl	$2, %ecx
	movl	$2, %r15d
	sbbq	$0, %r15
	testb	%al, %al
	movl	$513, %ebx
	cmovnel	%eax, %ebx
	cmoveq	%rcx, %r15
	movzbl	76(%r14), %eax
	movb	%al, 15(%rsp)
	leaq	551(%rsp), %rdi
	movl	$712, %edx
	xorl	%esi, %esi
	callq	memset@PLT
	leaq	1272(%rsp), %rdi
	leaq	544(%rsp), %rsi
	movl	$719, %edx
	callq	memcpy@PLT
	movq	40(%rsp), %rax
	movups	(%rax), %xmm0
	movups	16(%rax), %xmm1
	movaps	%xmm1, 192(%rsp)
	movaps	%xmm0, 176(%rsp)
	movzbl	(%rbp), %eax
	movq	%rax, 120(%rsp)
	movq	8(%rbp), %rax
	movq	%rax, 24(%rsp)
	movq	24(%rbp), %rax
	movq	%rax, 32(%rsp)
	movq	1328(%rbp), %rax
	movq	%rax, 112(%rsp)
	movq	1528(%rbp), %rax
	movq	%rax, 104(%rsp)
	movq	1560(%rbp), %rax
	movq	%rax, 96(%rsp)
	movq	1976(%rbp), %rax
	movq	%rax, 88(%rsp)
	movq	2296(%rbp), %rax
	movq	%rax, 48(%rsp)
	movq	2312(%rbp), %rax
	movq	%rax, 80(%rsp)
	movq	2328(%rbp), %rax
	movq	%rax, 72(%rsp)
	movq	2344(%rbp), %rax
	movq	%rax, 64(%rsp)
	movq	2352(%rbp), %rax
	movq	%rax, 56(%rsp)
	movq	2624(%rbp), %rax
	movq	%rax, 16(%rsp)
	movq	$5, (%rbp)
	movq	128(%rsp), %rax
	movq	%rax, 8(%rbp)
	movaps	256(%rsp), %xmm0
	movups	%xmm0, 16(%rbp)
	movb	$1, 32(%rbp)
	movl	$0, 36(%rbp)
	movl	$0, 33(%rbp)
	movb	$1, 40(%rbp)
	leaq	41(%rbp), %rdi
	movl	$1535, %edx
	xorl	%esi, %esi
	callq	memset@PLT
	leaq	280(%rsp), %rsi
	movl	$264, %edx
	leaq	1576(%rbp), %rdi
	callq	memcpy@PLT
	cmpb	$0, 15(%rsp)
	movq	%r13, 1840(%rbp)
	movq	%r12, 1848(%rbp)
	movq	%rbx, 1856(%rbp)
	movq	%r15, 1864(%rbp)
	movaps	176(%rsp), %xmm0
	movaps	192(%rsp), %xmm1
	setne	1904(%rbp)
	movups	%xmm1, 1888(%rbp)
	movups	%xmm0, 1872(%rbp)
	leaq	1905(%rbp), %rdi
	movl	$719, %edx
	leaq	1272(%rsp), %rsi
	callq	memcpy@PLT
	movq	136(%rsp), %rax
	movq	%rax, 2624(%rbp)
	leaq	.LJTI0b35d_0(%rip), %rax
	movq	120(%rsp), %rcx
	movslq	(%rax,%rcx,4), %rcx
	addq	%rax, %rcx
	jmpq	*%rcx
.LBB0b35d_23:
	movq	16(%rsp), %rbx
	movq	24(%rsp), %rdi
	cmpq	$0, 32(%rsp)
	je	.LBB0b35d_25
.LBB0b35d_24:
	callq	rattle_dealloc@PLT
.LBB0b35d_25:
	movq	%rbx, %rdi
	jmp	.LBB0b35d_29
.LBB0b35d_20:
	movq	88(%rsp), %rdi
	jmp	.LBB0b35d_29
.LBB0b35d_27:
	movq	72(%rsp), %rdi
	movq	56(%rsp), %rbx
	cmpq	$0, 64(%rsp)
	jne	.LBB0b35d_24
	jmp	.LBB0b35d_25
.LBB0b35d_21:
	cmpq	$0, 80(%rsp)
	je	.LBB0b35d_30
	movq	48(%rsp), %rdi
	jmp	.LBB0b35d_29
.LBB0b35d_19:
	movq	112(%rsp), %rdi
	jmp	.LBB0b35d_29
.LBB0b35d_26:
	movq	104(%rsp), %rdi
	jmp	.LBB0b35d_29
.LBB0b35d_28:
	movq	96(%rsp), %rdi
.LBB0b35d_29:
	callq	rattle_dealloc@PLT
.LBB0b35d_30:
	cmpb	$5, (%rbp)
	jne	.LBB0b35d_32
	leaq	8(%rbp), %r15
	movq	%r15, %rdi
	movq	%r14, %rsi
	callq	"tuvaddri_c::by_method::add_users::<#93e2819ad231d5c1>"
	movq	%r15, %rdi
	movq	40(%rsp), %rsi
	callq	"server_machine::machine::SizedServer::make_again::<#575f94f35bca5e04>"
.LBB0b35d_32:
	movb	$0, 2632(%rbp)
	xorl	%eax, %eax
.LBB0b35d_36:
	addq	$1992, %rsp
	.cfi_def_cfa_offset 56
	popq	%rbx
	.cfi_def_cfa_offset 48
	popq	%r12
	.cfi_def_cfa_offset 40
	popq	%r13
	.cfi_def_cfa_offset 32
	popq	%r14
	.cfi_def_cfa_offset 24
	popq	%r15
	.cfi_def_cfa_offset 16
	popq	%rbp
	.cfi_def_cfa_offset 8
	retq
.Lfunc_end0b35d:
	.size	tuv_backend_begin, .Lfunc_end0b35d-tuv_backend_begin
	.cfi_endproc
	.section	.rodata.tuv_backend_begin,"a",@progbits
	.p2align	2, 0x0
.LJTI0b35d_0:
	.long	.LBB0b35d_30-.LJTI0b35d_0
	.long	.LBB0b35d_19-.LJTI0b35d_0
	.long	.LBB0b35d_20-.LJTI0b35d_0
	.long	.LBB0b35d_21-.LJTI0b35d_0
	.long	.LBB0b35d_23-.LJTI0b35d_0
	.long	.LBB0b35d_23-.LJTI0b35d_0
	.long	.LBB0b35d_26-.LJTI0b35d_0
	.long	.LBB0b35d_27-.LJTI0b35d_0
	.long	.LBB0b35d_28-.LJTI0b35d_0

	.section	.text.tuv_end_close,"ax",@progbits
	.globl	tuv_end_close
	.p2align	4
	.type	tuv_end_close,@function
tuv_end_close:
	.cfi_startproc
	pushq	%rbp
	.cfi_def_cfa_offset 16
	pushq	%r15
	.cfi_def_cfa_offset 24
	pushq	%r14
	.cfi_def_cfa_offset 32
	pushq	%r13
	.cfi_def_cfa_offset 40
	pushq	%r12
	.cfi_def_cfa_offset 48
	pushq	%rbx
	.cfi_def_cfa_offset 56
	subq	$72, %rsp
	.cfi_def_cfa_offset 128
	.cfi_offset %rbx, -56
	.cfi_offset %r12, -48
	.cfi_offset %r13, -40
	.cfi_offset %r14, -32
	.cfi_offset %r15, -24
	.cfi_offset %rbp, -16
	movq	(%rdi), %rbx
	movzbl	(%rbx), %r15d
	movq	8(%rbx), %rax
	movq	%rax, 8(%rsp)
	movq	24(%rbx), %rax
	movq	%rax, 16(%rsp)
	movq	1328(%rbx), %rax
	movq	%rax, 64(%rsp)
	movq	1528(%rbx), %rax
	movq	%rax, 56(%rsp)
	movq	1560(%rbx), %rax
	movq	%rax, 48(%rsp)
	movq	1976(%rbx), %rax
	movq	%rax, 40(%rsp)
	movq	2296(%rbx), %rax
	movq	%rax, 24(%rsp)
	movq	2312(%rbx), %rax
	movq	%rax, 32(%rsp)
	movq	2328(%rbx), %rbp
	movq	2344(%rbx), %r13
	movq	2352(%rbx), %r12
	movq	2624(%rbx), %r14
	movl	$2632, %edx
	movq	%rbx, %rdi
	xorl	%esi, %esi
	callq	memset@PLT
	leaq	.LJTIaaabf_0(%rip), %rax
	movslq	(%rax,%r15,4), %rcx
	addq	%rax, %rcx
	jmpq	*%rcx
.LBBaaabf_5:
	movq	8(%rsp), %rdi
	cmpq	$0, 16(%rsp)
	je	.LBBaaabf_7
	callq	rattle_dealloc@PLT
.LBBaaabf_7:
	movq	%r14, %rdi
	jmp	.LBBaaabf_13
.LBBaaabf_2:
	movq	40(%rsp), %rdi
	jmp	.LBBaaabf_13
.LBBaaabf_9:
	testq	%r13, %r13
	je	.LBBaaabf_11
	movq	%rbp, %rdi
	callq	rattle_dealloc@PLT
.LBBaaabf_11:
	movq	%r12, %rdi
	jmp	.LBBaaabf_13
.LBBaaabf_3:
	cmpq	$0, 32(%rsp)
	je	.LBBaaabf_14
	movq	24(%rsp), %rdi
	jmp	.LBBaaabf_13
.LBBaaabf_1:
	movq	64(%rsp), %rdi
	jmp	.LBBaaabf_13
.LBBaaabf_8:
	movq	56(%rsp), %rdi
	jmp	.LBBaaabf_13
.LBBaaabf_12:
	movq	48(%rsp), %rdi
.LBBaaabf_13:
	callq	rattle_dealloc@PLT
.LBBaaabf_14:
	movb	$0, 2632(%rbx)
	addq	$72, %rsp
	.cfi_def_cfa_offset 56
	popq	%rbx
	.cfi_def_cfa_offset 48
	popq	%r12
	.cfi_def_cfa_offset 40
	popq	%r13
	.cfi_def_cfa_offset 32
	popq	%r14
	.cfi_def_cfa_offset 24
	popq	%r15
	.cfi_def_cfa_offset 16
	popq	%rbp
	.cfi_def_cfa_offset 8
	retq
.Lfunc_endaaabf:
	.size	tuv_end_close, .Lfunc_endaaabf-tuv_end_close
	.cfi_endproc
	.section	.rodata.tuv_end_close,"a",@progbits
	.p2align	2, 0x0
.LJTIaaabf_0:
	.long	.LBBaaabf_14-.LJTIaaabf_0
	.long	.LBBaaabf_1-.LJTIaaabf_0
	.long	.LBBaaabf_2-.LJTIaaabf_0
	.long	.LBBaaabf_3-.LJTIaaabf_0
	.long	.LBBaaabf_5-.LJTIaaabf_0
	.long	.LBBaaabf_5-.LJTIaaabf_0
	.long	.LBBaaabf_8-.LJTIaaabf_0
	.long	.LBBaaabf_9-.LJTIaaabf_0
	.long	.LBBaaabf_12-.LJTIaaabf_0

	.section	.text.tuv_end_deliver,"ax",@progbits
	.globl	tuv_end_deliver
	.p2align	4
	.type	tuv_end_deliver,@function
tuv_end_deliver:
	.cfi_startproc
	pushq	%rax
	.cfi_def_cfa_offset 16
	movq	%rdx, %rcx
	xorl	%edx, %edx
	testq	%rsi, %rsi
	sete	%dl
	shll	$12, %edx
	addq	%rsi, %rdx
	movq	(%rdi), %rsi
	movb	$0, 4(%rsp)
	movl	$0, (%rsp)
	cmpb	$3, (%rsi)
	jne	.LBB58edb_2
	movq	%rsp, %rdi
	callq	"tuvaddri_c::deliver::deliver_to_peer"
	jmp	.LBB58edb_3
.LBB58edb_2:
	movq	%rsp, %rdi
	callq	"tuvaddri_c::deliver::deliver_to_server"
.LBB58edb_3:
	movl	(%rsp), %ecx
	movl	4(%rsp), %eax
	shlq	$32, %rax
	orq	%rcx, %rax
	popq	%rcx
	.cfi_def_cfa_offset 8
	retq
.Lfunc_end58edb:
	.size	tuv_end_deliver, .Lfunc_end58edb-tuv_end_deliver
	.cfi_endproc

	.section	.text.tuv_end_failure,"ax",@progbits
	.globl	tuv_end_failure
	.p2align	4
	.type	tuv_end_failure,@function
tuv_end_failure:
	.cfi_startproc
	pushq	%rax
	.cfi_def_cfa_offset 16
	movq	(%rdi), %rdx
	movzbl	(%rdx), %ecx
	xorl	%eax, %eax
	leaq	.LJTI43b15_0(%rip), %rsi
	movslq	(%rsi,%rcx,4), %rcx
	addq	%rsi, %rcx
	jmpq	*%rcx
.LBB43b15_1:
	xorl	%edx, %edx
	jmp	.LBB43b15_67
.LBB43b15_2:
	cmpb	$0, 38(%rdx)
	je	.LBB43b15_37
	movzbl	39(%rdx), %esi
	movq	16(%rdx), %rdi
	movq	$-1256, %rcx
	addq	8(%rdx), %rcx
	incq	%rdi
	.p2align	4
.LBB43b15_4:
	decq	%rdi
	setne	%al
	je	.LBB43b15_38
	addq	$1256, %rcx
	cmpb	$0, (%rcx)
	setne	%r8b
	shlb	$2, %r8b
	addb	$47, %r8b
	cmpb	%sil, %r8b
	jne	.LBB43b15_4
	jmp	.LBB43b15_39
.LBB43b15_6:
	movzbl	8(%rdx), %eax
	testb	%al, %al
	je	.LBB43b15_33
	movzbl	328(%rdx), %ecx
	cmpl	$2, %ecx
	je	.LBB43b15_53
	cmpl	$1, %ecx
	jne	.LBB43b15_61
	movzbl	329(%rdx), %ecx
	andb	$-2, %cl
	cmpb	$2, %cl
	je	.LBB43b15_36
	jmp	.LBB43b15_61
.LBB43b15_10:
	leaq	784(%rdx), %rax
	movq	2288(%rdx), %rcx
	xorl	%edi, %edi
	cmpb	$0, 777(%rdx)
	je	.LBB43b15_28
	movzbl	778(%rdx), %r8d
	movq	2304(%rdx), %r9
	movq	$-1248, %rsi
	addq	2296(%rdx), %rsi
	incq	%r9
	.p2align	4
.LBB43b15_12:
	decq	%r9
	je	.LBB43b15_28
	addq	$1248, %rsi
	cmpb	$0, (%rsi)
	setne	%r10b
	shlb	$2, %r10b
	addb	$47, %r10b
	cmpb	%r8b, %r10b
	jne	.LBB43b15_12
	movb	$1, %r9b
	jmp	.LBB43b15_29
.LBB43b15_15:
	xorl	%eax, %eax
	cmpb	$0, 809(%rdx)
	je	.LBB43b15_30
	movzbl	810(%rdx), %ecx
	movq	2336(%rdx), %rdi
	movq	$-1248, %rsi
	addq	2328(%rdx), %rsi
	incq	%rdi
	.p2align	4
.LBB43b15_17:
	decq	%rdi
	je	.LBB43b15_30
	addq	$1248, %rsi
	cmpb	$0, (%rsi)
	setne	%r8b
	shlb	$2, %r8b
	addb	$47, %r8b
	cmpb	%cl, %r8b
	jne	.LBB43b15_17
	movb	$1, %dil
	jmp	.LBB43b15_31
.LBB43b15_20:
	movq	1328(%rdx), %rax
	movq	1504(%rax), %rcx
	addq	$8, %rdx
	movl	$1, %edi
	movq	%rdx, %rsi
	movq	%rax, %rdx
	xorl	%r8d, %r8d
	jmp	.LBB43b15_32
.LBB43b15_21:
	cmpb	$0, 38(%rdx)
	je	.LBB43b15_37
	movzbl	39(%rdx), %esi
	movq	16(%rdx), %rdi
	movq	$-1256, %rcx
	addq	8(%rdx), %rcx
	incq	%rdi
	.p2align	4
.LBB43b15_23:
	decq	%rdi
	setne	%al
	je	.LBB43b15_38
	addq	$1256, %rcx
	cmpb	$0, (%rcx)
	setne	%r8b
	shlb	$2, %r8b
	addb	$47, %r8b
	cmpb	%sil, %r8b
	jne	.LBB43b15_23
	jmp	.LBB43b15_39
.LBB43b15_25:
	movzbl	10(%rdx), %ecx
	movb	$5, %al
	xorl	%edx, %edx
	movl	$2146959359, %esi
	btq	%rcx, %rsi
	jae	.LBB43b15_68
	xorl	%eax, %eax
	xorl	%edx, %edx
	jmp	.LBB43b15_67
.LBB43b15_27:
	cmpb	$3, 29(%rdx)
	movl	$6, %ecx
	cmovnel	%eax, %ecx
	xorl	%edx, %edx
	movl	%ecx, %eax
	jmp	.LBB43b15_67
.LBB43b15_37:
	xorl	%eax, %eax
.LBB43b15_38:
	xorl	%ecx, %ecx
.LBB43b15_39:
	movzbl	35(%rdx), %edx
	movb	$5, %sil
	movabsq	$8589408255, %rdi
	btq	%rdx, %rdi
	jae	.LBB43b15_40
	xorl	%esi, %esi
.LBB43b15_44:
	testb	%al, %al
	je	.LBB43b15_66
	movzbl	(%rcx), %eax
	testb	%al, %al
	je	.LBB43b15_49
	movzbl	320(%rcx), %edx
	cmpl	$2, %edx
	je	.LBB43b15_56
	cmpl	$1, %edx
	jne	.LBB43b15_66
	movzbl	321(%rcx), %ecx
	andb	$-2, %cl
	cmpb	$2, %cl
	je	.LBB43b15_52
	jmp	.LBB43b15_66
.LBB43b15_28:
	xorl	%r9d, %r9d
	xorl	%esi, %esi
.LBB43b15_29:
	cmpb	$11, 776(%rdx)
	sete	%dl
	movl	$6, %r10d
	cmovnel	%edi, %r10d
	shlb	$2, %dl
	movzbl	%dl, %r8d
	testb	%r9b, %r9b
	cmovnel	%r10d, %r8d
	movzbl	%r9b, %edi
	movq	%rax, %rdx
	jmp	.LBB43b15_32
.LBB43b15_30:
	xorl	%edi, %edi
	xorl	%esi, %esi
.LBB43b15_31:
	cmpb	$11, 808(%rdx)
	movl	$6, %ecx
	cmovnel	%eax, %ecx
	sete	%al
	shlb	$2, %al
	movzbl	%al, %r8d
	testb	%dil, %dil
	cmovnel	%ecx, %r8d
	movq	2320(%rdx), %rcx
	addq	$816, %rdx
	movzbl	%dil, %edi
.LBB43b15_32:
	xorl	%r9d, %r9d
	callq	"tuvaddri_c::failure::peer_failure"
	jmp	.LBB43b15_67
.LBB43b15_33:
	movzbl	16(%rdx), %ecx
	cmpl	$2, %ecx
	je	.LBB43b15_59
	cmpl	$1, %ecx
	jne	.LBB43b15_61
	cmpb	$2, 336(%rdx)
	jne	.LBB43b15_61
.LBB43b15_36:
	testb	%al, %al
	setne	%cl
	movb	$1, %al
	movl	%ecx, %edx
	jmp	.LBB43b15_67
.LBB43b15_49:
	movzbl	8(%rcx), %edx
	cmpl	$2, %edx
	je	.LBB43b15_64
	cmpl	$1, %edx
	jne	.LBB43b15_66
	cmpb	$2, 328(%rcx)
	jne	.LBB43b15_66
.LBB43b15_52:
	testb	%al, %al
	setne	%dl
	movb	$1, %al
	jmp	.LBB43b15_67
.LBB43b15_53:
	movzbl	1160(%rdx), %esi
	movb	$2, %al
	movb	$3, %cl
	testl	%esi, %esi
	je	.LBB43b15_63
	cmpl	$1, %esi
	je	.LBB43b15_61
	cmpb	$0, 1161(%rdx)
	jne	.LBB43b15_61
	jmp	.LBB43b15_63
.LBB43b15_56:
	movzbl	1152(%rcx), %edi
	movb	$2, %al
	movb	$3, %dl
	testl	%edi, %edi
	je	.LBB43b15_67
	cmpl	$1, %edi
	je	.LBB43b15_66
	cmpb	$0, 1153(%rcx)
	jne	.LBB43b15_66
	jmp	.LBB43b15_67
.LBB43b15_59:
	cmpb	$1, 1256(%rdx)
	jne	.LBB43b15_61
	cmpb	$0, 1257(%rdx)
	je	.LBB43b15_70
.LBB43b15_61:
	xorl	%eax, %eax
.LBB43b15_62:
	xorl	%ecx, %ecx
.LBB43b15_63:
	movl	%ecx, %edx
	jmp	.LBB43b15_67
.LBB43b15_64:
	cmpb	$1, 1248(%rcx)
	jne	.LBB43b15_66
	cmpb	$0, 1249(%rcx)
	je	.LBB43b15_71
.LBB43b15_66:
	xorl	%edx, %edx
	movl	%esi, %eax
.LBB43b15_67:
	movzbl	%dl, %ecx
	shll	$8, %ecx
	movzbl	%al, %eax
	orl	%ecx, %eax
	popq	%rcx
	.cfi_def_cfa_offset 8
	retq
.LBB43b15_40:
	.cfi_def_cfa_offset 16
	cmpq	$11, %rdx
	jne	.LBB43b15_44
	movb	$4, %sil
	jmp	.LBB43b15_44
.LBB43b15_68:
	movabsq	$4295491584, %rsi
	btq	%rcx, %rsi
	jb	.LBB43b15_67
	movb	$6, %al
	xorl	%edx, %edx
	jmp	.LBB43b15_67
.LBB43b15_70:
	movb	$2, %al
	jmp	.LBB43b15_62
.LBB43b15_71:
	movb	$2, %al
	xorl	%edx, %edx
	jmp	.LBB43b15_67
.Lfunc_end43b15:
	.size	tuv_end_failure, .Lfunc_end43b15-tuv_end_failure
	.cfi_endproc
	.section	.rodata.tuv_end_failure,"a",@progbits
	.p2align	2, 0x0
.LJTI43b15_0:
	.long	.LBB43b15_1-.LJTI43b15_0
	.long	.LBB43b15_20-.LJTI43b15_0
	.long	.LBB43b15_6-.LJTI43b15_0
	.long	.LBB43b15_10-.LJTI43b15_0
	.long	.LBB43b15_2-.LJTI43b15_0
	.long	.LBB43b15_21-.LJTI43b15_0
	.long	.LBB43b15_25-.LJTI43b15_0
	.long	.LBB43b15_15-.LJTI43b15_0
	.long	.LBB43b15_27-.LJTI43b15_0

	.section	.text.tuv_end_last_packet,"ax",@progbits
	.globl	tuv_end_last_packet
	.p2align	4
	.type	tuv_end_last_packet,@function
tuv_end_last_packet:
	.cfi_startproc
	pushq	%rbx
	.cfi_def_cfa_offset 16
	.cfi_offset %rbx, -16
	movq	%rsi, %rax
	movq	%rdi, %rcx
	xorl	%r8d, %r8d
	testq	%rsi, %rsi
	sete	%r8b
	shll	$12, %r8d
	leaq	(%rsi,%r8), %rdi
	movq	(%rcx), %rcx
	movzbl	(%rcx), %ebx
	leaq	.LJTI0546d_0(%rip), %rsi
	movslq	(%rsi,%rbx,4), %r9
	addq	%rsi, %r9
	jmpq	*%r9
.LBB0546d_1:
	movq	2624(%rcx), %rsi
	leaq	1504(%rsi), %rcx
	movq	(%rcx), %rbx
	cmpq	%rdx, %rbx
	ja	.LBB0546d_5
	jmp	.LBB0546d_11
.LBB0546d_2:
	movq	1976(%rcx), %rsi
	leaq	1504(%rsi), %rcx
	movq	(%rcx), %rbx
	cmpq	%rdx, %rbx
	ja	.LBB0546d_5
	jmp	.LBB0546d_11
.LBB0546d_3:
	movq	2352(%rcx), %rsi
	leaq	1504(%rsi), %rcx
	movq	(%rcx), %rbx
	cmpq	%rdx, %rbx
	ja	.LBB0546d_5
	jmp	.LBB0546d_11
.LBB0546d_4:
	leaq	784(%rcx), %rsi
	addq	$2288, %rcx
	movq	(%rcx), %rbx
	cmpq	%rdx, %rbx
	jbe	.LBB0546d_11
	jmp	.LBB0546d_5
.LBB0546d_6:
	leaq	.Lstatic.0(%rip), %rsi
	jmp	.LBB0546d_14
.LBB0546d_7:
	movq	1328(%rcx), %rsi
	leaq	1504(%rsi), %rcx
	movq	(%rcx), %rbx
	cmpq	%rdx, %rbx
	ja	.LBB0546d_5
	jmp	.LBB0546d_11
.LBB0546d_8:
	movq	1528(%rcx), %rsi
	leaq	1504(%rsi), %rcx
	movq	(%rcx), %rbx
	cmpq	%rdx, %rbx
	ja	.LBB0546d_5
	jmp	.LBB0546d_11
.LBB0546d_9:
	movq	1560(%rcx), %rsi
	leaq	1504(%rsi), %rcx
	movq	(%rcx), %rbx
	cmpq	%rdx, %rbx
	ja	.LBB0546d_5
.LBB0546d_11:
	movq	%rdi, %rcx
	subq	%rsi, %rcx
	cmpq	%rbx, %rcx
	jae	.LBB0546d_14
	cmpq	$4, %rbx
	jb	.LBB0546d_13
	cmpq	$32, %rcx
	jae	.LBB0546d_17
.LBB0546d_13:
	xorl	%ecx, %ecx
.LBB0546d_26:
	movq	%rbx, %r9
	movq	%rcx, %rdx
	andq	$3, %r9
	je	.LBB0546d_29
	movq	%rcx, %rdx
	.p2align	4
.LBB0546d_28:
	movzbl	(%rsi,%rdx), %r10d
	movb	%r10b, (%rdi,%rdx)
	incq	%rdx
	decq	%r9
	jne	.LBB0546d_28
.LBB0546d_29:
	subq	%rbx, %rcx
	cmpq	$-4, %rcx
	ja	.LBB0546d_5
	addq	%r8, %rax
	addq	$3, %rax
	.p2align	4
.LBB0546d_31:
	movzbl	(%rsi,%rdx), %ecx
	movb	%cl, -3(%rax,%rdx)
	movzbl	1(%rsi,%rdx), %ecx
	movb	%cl, -2(%rax,%rdx)
	movzbl	2(%rsi,%rdx), %ecx
	movb	%cl, -1(%rax,%rdx)
	movzbl	3(%rsi,%rdx), %ecx
	movb	%cl, (%rax,%rdx)
	addq	$4, %rdx
	cmpq	%rdx, %rbx
	jne	.LBB0546d_31
.LBB0546d_5:
	movq	%rbx, %rax
	popq	%rbx
	.cfi_def_cfa_offset 8
	retq
.LBB0546d_14:
	.cfi_def_cfa_offset 16
	movq	%rbx, %rdx
	callq	memmove@PLT
	movq	%rbx, %rax
	popq	%rbx
	.cfi_def_cfa_offset 8
	retq
.LBB0546d_17:
	.cfi_def_cfa_offset 16
	cmpq	$32, %rbx
	jae	.LBB0546d_19
	xorl	%ecx, %ecx
	jmp	.LBB0546d_23
.LBB0546d_19:
	movq	%rbx, %rcx
	andq	$-32, %rcx
	leaq	(%r8,%rax), %rdx
	addq	$16, %rdx
	xorl	%r9d, %r9d
	.p2align	4
.LBB0546d_20:
	movups	(%rsi,%r9), %xmm0
	movups	16(%rsi,%r9), %xmm1
	movups	%xmm0, -16(%rdx,%r9)
	movups	%xmm1, (%rdx,%r9)
	addq	$32, %r9
	cmpq	%r9, %rcx
	jne	.LBB0546d_20
	cmpq	%rcx, %rbx
	je	.LBB0546d_5
	testb	$28, %bl
	je	.LBB0546d_26
.LBB0546d_23:
	movq	%rcx, %rdx
	movq	%rbx, %rcx
	andq	$-4, %rcx
	.p2align	4
.LBB0546d_24:
	movl	(%rsi,%rdx), %r9d
	movl	%r9d, (%rdi,%rdx)
	addq	$4, %rdx
	cmpq	%rdx, %rcx
	jne	.LBB0546d_24
	cmpq	%rcx, %rbx
	je	.LBB0546d_5
	jmp	.LBB0546d_26
.Lfunc_end0546d:
	.size	tuv_end_last_packet, .Lfunc_end0546d-tuv_end_last_packet
	.cfi_endproc
	.section	.rodata.tuv_end_last_packet,"a",@progbits
	.p2align	2, 0x0
.LJTI0546d_0:
	.long	.LBB0546d_6-.LJTI0546d_0
	.long	.LBB0546d_7-.LJTI0546d_0
	.long	.LBB0546d_2-.LJTI0546d_0
	.long	.LBB0546d_4-.LJTI0546d_0
	.long	.LBB0546d_1-.LJTI0546d_0
	.long	.LBB0546d_1-.LJTI0546d_0
	.long	.LBB0546d_8-.LJTI0546d_0
	.long	.LBB0546d_3-.LJTI0546d_0
	.long	.LBB0546d_9-.LJTI0546d_0

	.section	.text.tuv_end_new,"ax",@progbits
	.globl	tuv_end_new
	.p2align	4
	.type	tuv_end_new,@function
tuv_end_new:
	.cfi_startproc
	pushq	%r15
	.cfi_def_cfa_offset 16
	pushq	%r14
	.cfi_def_cfa_offset 24
	pushq	%rbx
	.cfi_def_cfa_offset 32
	.cfi_offset %rbx, -32
	.cfi_offset %r14, -24
	.cfi_offset %r15, -16
	movq	%rdi, %rbx
	movl	$2640, %edi
	movl	$8, %esi
	callq	rattle_alloc@PLT
	testb	$1, %al
	je	.LBB529f3_2
	movq	%rdx, %r14
	movl	$2640, %edx
	movq	%r14, %rdi
	xorl	%esi, %esi
	movq	%rax, %r15
	callq	memset@PLT
	movq	%r15, %rax
	movq	%r14, (%rbx)
.LBB529f3_2:
	andb	$1, %al
	popq	%rbx
	.cfi_def_cfa_offset 24
	popq	%r14
	.cfi_def_cfa_offset 16
	popq	%r15
	.cfi_def_cfa_offset 8
	retq
.Lfunc_end529f3:
	.size	tuv_end_new, .Lfunc_end529f3-tuv_end_new
	.cfi_endproc

	.section	.text.tuv_end_packet,"ax",@progbits
	.globl	tuv_end_packet
	.p2align	4
	.type	tuv_end_packet,@function
tuv_end_packet:
	.cfi_startproc
	pushq	%rbx
	.cfi_def_cfa_offset 16
	.cfi_offset %rbx, -16
	xorl	%ecx, %ecx
	testq	%rsi, %rsi
	sete	%al
	movq	(%rdi), %r8
	cmpb	$1, 2632(%r8)
	jne	.LBB41ac9_3
	movb	%al, %cl
	shll	$12, %ecx
	leaq	(%rsi,%rcx), %rdi
	movzbl	(%r8), %ebx
	leaq	.LJTI41ac9_0(%rip), %rax
	movslq	(%rax,%rbx,4), %r9
	addq	%rax, %r9
	jmpq	*%r9
.LBB41ac9_2:
	movq	2624(%r8), %rax
	leaq	1504(%rax), %r8
	movq	(%r8), %rbx
	cmpq	%rdx, %rbx
	ja	.LBB41ac9_4
	jmp	.LBB41ac9_13
.LBB41ac9_3:
	xorl	%ebx, %ebx
	movq	%rbx, %rax
	popq	%rbx
	.cfi_def_cfa_offset 8
	retq
.LBB41ac9_5:
	.cfi_def_cfa_offset 16
	movq	1976(%r8), %rax
	leaq	1504(%rax), %r8
	movq	(%r8), %rbx
	cmpq	%rdx, %rbx
	ja	.LBB41ac9_4
	jmp	.LBB41ac9_13
.LBB41ac9_6:
	movq	2352(%r8), %rax
	leaq	1504(%rax), %r8
	movq	(%r8), %rbx
	cmpq	%rdx, %rbx
	ja	.LBB41ac9_4
	jmp	.LBB41ac9_13
.LBB41ac9_7:
	leaq	784(%r8), %rax
	addq	$2288, %r8
	movq	(%r8), %rbx
	cmpq	%rdx, %rbx
	jbe	.LBB41ac9_13
.LBB41ac9_4:
	movq	%rbx, %rax
	popq	%rbx
	.cfi_def_cfa_offset 8
	retq
.LBB41ac9_8:
	.cfi_def_cfa_offset 16
	leaq	.Lstatic.0(%rip), %rax
	jmp	.LBB41ac9_16
.LBB41ac9_9:
	movq	1328(%r8), %rax
	leaq	1504(%rax), %r8
	movq	(%r8), %rbx
	cmpq	%rdx, %rbx
	ja	.LBB41ac9_4
	jmp	.LBB41ac9_13
.LBB41ac9_10:
	movq	1528(%r8), %rax
	leaq	1504(%rax), %r8
	movq	(%r8), %rbx
	cmpq	%rdx, %rbx
	ja	.LBB41ac9_4
	jmp	.LBB41ac9_13
.LBB41ac9_11:
	movq	1560(%r8), %rax
	leaq	1504(%rax), %r8
	movq	(%r8), %rbx
	cmpq	%rdx, %rbx
	ja	.LBB41ac9_4
.LBB41ac9_13:
	movq	%rdi, %rdx
	subq	%rax, %rdx
	cmpq	%rbx, %rdx
	jae	.LBB41ac9_16
	cmpq	$4, %rbx
	jb	.LBB41ac9_15
	cmpq	$32, %rdx
	jae	.LBB41ac9_19
.LBB41ac9_15:
	xorl	%edx, %edx
.LBB41ac9_28:
	movq	%rbx, %r9
	movq	%rdx, %r8
	andq	$3, %r9
	je	.LBB41ac9_31
	movq	%rdx, %r8
	.p2align	4
.LBB41ac9_30:
	movzbl	(%rax,%r8), %r10d
	movb	%r10b, (%rdi,%r8)
	incq	%r8
	decq	%r9
	jne	.LBB41ac9_30
.LBB41ac9_31:
	subq	%rbx, %rdx
	cmpq	$-4, %rdx
	ja	.LBB41ac9_4
	addq	%rsi, %rcx
	addq	$3, %rcx
	.p2align	4
.LBB41ac9_33:
	movzbl	(%rax,%r8), %edx
	movb	%dl, -3(%rcx,%r8)
	movzbl	1(%rax,%r8), %edx
	movb	%dl, -2(%rcx,%r8)
	movzbl	2(%rax,%r8), %edx
	movb	%dl, -1(%rcx,%r8)
	movzbl	3(%rax,%r8), %edx
	movb	%dl, (%rcx,%r8)
	addq	$4, %r8
	cmpq	%r8, %rbx
	jne	.LBB41ac9_33
	jmp	.LBB41ac9_4
.LBB41ac9_16:
	movq	%rax, %rsi
	movq	%rbx, %rdx
	callq	memmove@PLT
	movq	%rbx, %rax
	popq	%rbx
	.cfi_def_cfa_offset 8
	retq
.LBB41ac9_19:
	.cfi_def_cfa_offset 16
	cmpq	$32, %rbx
	jae	.LBB41ac9_21
	xorl	%edx, %edx
	jmp	.LBB41ac9_25
.LBB41ac9_21:
	movq	%rbx, %rdx
	andq	$-32, %rdx
	leaq	(%rcx,%rsi), %r8
	addq	$16, %r8
	xorl	%r9d, %r9d
	.p2align	4
.LBB41ac9_22:
	movups	(%rax,%r9), %xmm0
	movups	16(%rax,%r9), %xmm1
	movups	%xmm0, -16(%r8,%r9)
	movups	%xmm1, (%r8,%r9)
	addq	$32, %r9
	cmpq	%r9, %rdx
	jne	.LBB41ac9_22
	cmpq	%rdx, %rbx
	je	.LBB41ac9_4
	testb	$28, %bl
	je	.LBB41ac9_28
.LBB41ac9_25:
	movq	%rdx, %r8
	movq	%rbx, %rdx
	andq	$-4, %rdx
	.p2align	4
.LBB41ac9_26:
	movl	(%rax,%r8), %r9d
	movl	%r9d, (%rdi,%r8)
	addq	$4, %r8
	cmpq	%r8, %rdx
	jne	.LBB41ac9_26
	cmpq	%rdx, %rbx
	je	.LBB41ac9_4
	jmp	.LBB41ac9_28
.Lfunc_end41ac9:
	.size	tuv_end_packet, .Lfunc_end41ac9-tuv_end_packet
	.cfi_endproc
	.section	.rodata.tuv_end_packet,"a",@progbits
	.p2align	2, 0x0
.LJTI41ac9_0:
	.long	.LBB41ac9_8-.LJTI41ac9_0
	.long	.LBB41ac9_9-.LJTI41ac9_0
	.long	.LBB41ac9_5-.LJTI41ac9_0
	.long	.LBB41ac9_7-.LJTI41ac9_0
	.long	.LBB41ac9_2-.LJTI41ac9_0
	.long	.LBB41ac9_2-.LJTI41ac9_0
	.long	.LBB41ac9_10-.LJTI41ac9_0
	.long	.LBB41ac9_6-.LJTI41ac9_0
	.long	.LBB41ac9_11-.LJTI41ac9_0

	.section	.text.tuv_end_restart,"ax",@progbits
	.globl	tuv_end_restart
	.p2align	4
	.type	tuv_end_restart,@function
tuv_end_restart:
	.cfi_startproc
	pushq	%r15
	.cfi_def_cfa_offset 16
	pushq	%r14
	.cfi_def_cfa_offset 24
	pushq	%r12
	.cfi_def_cfa_offset 32
	pushq	%rbx
	.cfi_def_cfa_offset 40
	pushq	%rax
	.cfi_def_cfa_offset 48
	.cfi_offset %rbx, -40
	.cfi_offset %r12, -32
	.cfi_offset %r14, -24
	.cfi_offset %r15, -16
	movq	%rsi, %rdx
	movq	(%rdi), %rbx
	movb	$0, 4(%rsp)
	movl	$0, (%rsp)
	cmpb	$3, (%rbx)
	jne	.LBB99ae6_15
	movq	2296(%rbx), %rdi
	movq	2304(%rbx), %r15
	movq	552(%rbx), %rax
	testq	%rax, %rax
	je	.LBB99ae6_7
	leaq	544(%rbx), %rcx
	leaq	1(%r15), %rsi
.LBB99ae6_4:
	decq	%rax
	movzbl	(%rcx), %r8d
	incq	%rcx
	movq	%rsi, %r9
	movq	%rdi, %r10
	.p2align	4
.LBB99ae6_5:
	decq	%r9
	je	.LBB99ae6_13
	cmpb	$0, (%r10)
	leaq	1248(%r10), %r10
	setne	%r11b
	shlb	$2, %r11b
	addb	$47, %r11b
	cmpb	%r8b, %r11b
	jne	.LBB99ae6_5
	testq	%rax, %rax
	jne	.LBB99ae6_4
.LBB99ae6_7:
	movups	(%rdx), %xmm0
	movups	16(%rdx), %xmm1
	movups	%xmm1, 752(%rbx)
	movups	%xmm0, 736(%rbx)
	testq	%r15, %r15
	je	.LBB99ae6_10
	leaq	8(%rbx), %r14
	.p2align	4
.LBB99ae6_9:
	leaq	1248(%rdi), %r12
	movq	%r14, %rsi
	callq	"eap_method::peer_objects::start_one::<#807681be332d694b>"
	movq	%r12, %rdi
	decq	%r15
	jne	.LBB99ae6_9
.LBB99ae6_10:
	movb	$1, 776(%rbx)
	movl	$0, 777(%rbx)
	movw	$0, 781(%rbx)
	movq	2288(%rbx), %rdx
	testq	%rdx, %rdx
	je	.LBB99ae6_12
	leaq	784(%rbx), %rdi
	xorl	%esi, %esi
	callq	memset@PLT
	movq	$0, 2288(%rbx)
.LBB99ae6_12:
	movb	$0, 2632(%rbx)
	movb	$1, %al
	xorl	%ecx, %ecx
	jmp	.LBB99ae6_14
.LBB99ae6_15:
	movq	%rsp, %rdi
	movq	%rbx, %rsi
	callq	"tuvaddri_c::restart::restart_server"
	jmp	.LBB99ae6_16
.LBB99ae6_13:
	movb	$0, 2632(%rbx)
	movb	$1, %cl
	xorl	%eax, %eax
.LBB99ae6_14:
	movw	$0, (%rsp)
	movb	%cl, 2(%rsp)
	movb	$0, 3(%rsp)
	movb	%al, 4(%rsp)
.LBB99ae6_16:
	movl	(%rsp), %ecx
	movl	4(%rsp), %eax
	shlq	$32, %rax
	orq	%rcx, %rax
	addq	$8, %rsp
	.cfi_def_cfa_offset 40
	popq	%rbx
	.cfi_def_cfa_offset 32
	popq	%r12
	.cfi_def_cfa_offset 24
	popq	%r14
	.cfi_def_cfa_offset 16
	popq	%r15
	.cfi_def_cfa_offset 8
	retq
.Lfunc_end99ae6:
	.size	tuv_end_restart, .Lfunc_end99ae6-tuv_end_restart
	.cfi_endproc

	.section	.text.tuv_end_size,"ax",@progbits
	.globl	tuv_end_size
	.p2align	4
	.type	tuv_end_size,@function
tuv_end_size:
	.cfi_startproc
	movl	$2640, %eax
	retq
.Lfunc_endc0917:
	.size	tuv_end_size, .Lfunc_endc0917-tuv_end_size
	.cfi_endproc

	.section	.text.tuv_pass_aaa_noreq,"ax",@progbits
	.globl	tuv_pass_aaa_noreq
	.p2align	4
	.type	tuv_pass_aaa_noreq,@function
tuv_pass_aaa_noreq:
	.cfi_startproc
	movq	(%rdi), %rax
	cmpb	$6, (%rax)
	jne	.LBB678c5_3
	cmpb	$23, 10(%rax)
	jne	.LBB678c5_3
	movb	$26, 10(%rax)
	movb	$0, 2632(%rax)
	movb	$26, %cl
	xorl	%eax, %eax
	jmp	.LBB678c5_4
.LBB678c5_3:
	movb	$0, 2632(%rax)
	movb	$1, %al
	xorl	%ecx, %ecx
.LBB678c5_4:
	movzbl	%cl, %ecx
	shlq	$32, %rcx
	movzbl	%al, %eax
	shll	$16, %eax
	orq	%rcx, %rax
	retq
.Lfunc_end678c5:
	.size	tuv_pass_aaa_noreq, .Lfunc_end678c5-tuv_pass_aaa_noreq
	.cfi_endproc

	.section	.text.tuv_pass_aaa_timeout,"ax",@progbits
	.globl	tuv_pass_aaa_timeout
	.p2align	4
	.type	tuv_pass_aaa_timeout,@function
tuv_pass_aaa_timeout:
	.cfi_startproc
	movq	(%rdi), %rax
	cmpb	$6, (%rax)
	jne	.LBBfc96c_3
	cmpb	$23, 10(%rax)
	jne	.LBBfc96c_3
	movb	$32, 10(%rax)
	movb	$0, 2632(%rax)
	movb	$32, %cl
	xorl	%eax, %eax
	jmp	.LBBfc96c_4
.LBBfc96c_3:
	movb	$0, 2632(%rax)
	movb	$1, %al
	xorl	%ecx, %ecx
.LBBfc96c_4:
	movzbl	%cl, %ecx
	shlq	$32, %rcx
	movzbl	%al, %eax
	shll	$16, %eax
	orq	%rcx, %rax
	retq
.Lfunc_endfc96c:
	.size	tuv_pass_aaa_timeout, .Lfunc_endfc96c-tuv_pass_aaa_timeout
	.cfi_endproc

	.section	.text.tuv_pass_begin,"ax",@progbits
	.globl	tuv_pass_begin
	.p2align	4
	.type	tuv_pass_begin,@function
tuv_pass_begin:
	.cfi_startproc
	pushq	%rbp
	.cfi_def_cfa_offset 16
	pushq	%r15
	.cfi_def_cfa_offset 24
	pushq	%r14
	.cfi_def_cfa_offset 32
	pushq	%r13
	.cfi_def_cfa_offset 40
	pushq	%r12
	.cfi_def_cfa_offset 48
	pushq	%rbx
	.cfi_def_cfa_offset 56
	subq	$88, %rsp
	.cfi_def_cfa_offset 144
	.cfi_offset %rbx, -56
	.cfi_offset %r12, -48
	.cfi_offset %r13, -40
	.cfi_offset %r14, -32
	.cfi_offset %r15, -24
	.cfi_offset %rbp, -16
	movl	%edx, %ebp
	movb	$7, %al
	cmpb	$10, %bpl
	ja	.LBB74f72_17
	movl	%esi, %r14d
	movq	%rdi, %r15
	callq	"tuvaddri_c::sent::empty_packet"
	movl	%eax, %ecx
	movb	$8, %al
	cmpb	$1, %cl
	jne	.LBB74f72_17
	movq	%rdx, %rbx
	movq	(%r15), %r13
	movzbl	(%r13), %r12d
	movq	8(%r13), %rax
	movq	%rax, (%rsp)
	movq	24(%r13), %rax
	movq	%rax, 8(%rsp)
	movq	1328(%r13), %rax
	movq	%rax, 80(%rsp)
	movq	1528(%r13), %rax
	movq	%rax, 72(%rsp)
	movq	1560(%r13), %rax
	movq	%rax, 64(%rsp)
	movq	1976(%r13), %rax
	movq	%rax, 56(%rsp)
	movq	2296(%r13), %rax
	movq	%rax, 16(%rsp)
	movq	2312(%r13), %rax
	movq	%rax, 48(%rsp)
	movq	2328(%r13), %rax
	movq	%rax, 40(%rsp)
	movq	2344(%r13), %rax
	movq	%rax, 32(%rsp)
	movq	2352(%r13), %rax
	movq	%rax, 24(%rsp)
	movq	2624(%r13), %r15
	movq	$6, (%r13)
	movb	%r14b, 8(%r13)
	movb	%bpl, 9(%r13)
	leaq	1536(%r13), %r14
	leaq	10(%r13), %rdi
	movl	$1518, %edx
	xorl	%esi, %esi
	callq	memset@PLT
	movq	%rbx, 1528(%r13)
	movl	$1096, %edx
	movq	%r14, %rdi
	xorl	%esi, %esi
	callq	memset@PLT
	leaq	.LJTI74f72_0(%rip), %rax
	movslq	(%rax,%r12,4), %rcx
	addq	%rax, %rcx
	jmpq	*%rcx
.LBB74f72_7:
	movq	(%rsp), %rdi
	cmpq	$0, 8(%rsp)
	je	.LBB74f72_9
	callq	rattle_dealloc@PLT
.LBB74f72_9:
	movq	%r15, %rdi
	jmp	.LBB74f72_15
.LBB74f72_4:
	movq	56(%rsp), %rdi
	jmp	.LBB74f72_15
.LBB74f72_11:
	movq	40(%rsp), %rdi
	movq	24(%rsp), %rbx
	cmpq	$0, 32(%rsp)
	je	.LBB74f72_13
	callq	rattle_dealloc@PLT
.LBB74f72_13:
	movq	%rbx, %rdi
	jmp	.LBB74f72_15
.LBB74f72_5:
	cmpq	$0, 48(%rsp)
	je	.LBB74f72_16
	movq	16(%rsp), %rdi
	jmp	.LBB74f72_15
.LBB74f72_3:
	movq	80(%rsp), %rdi
	jmp	.LBB74f72_15
.LBB74f72_10:
	movq	72(%rsp), %rdi
	jmp	.LBB74f72_15
.LBB74f72_14:
	movq	64(%rsp), %rdi
.LBB74f72_15:
	callq	rattle_dealloc@PLT
.LBB74f72_16:
	movb	$0, 2632(%r13)
	xorl	%eax, %eax
.LBB74f72_17:
	addq	$88, %rsp
	.cfi_def_cfa_offset 56
	popq	%rbx
	.cfi_def_cfa_offset 48
	popq	%r12
	.cfi_def_cfa_offset 40
	popq	%r13
	.cfi_def_cfa_offset 32
	popq	%r14
	.cfi_def_cfa_offset 24
	popq	%r15
	.cfi_def_cfa_offset 16
	popq	%rbp
	.cfi_def_cfa_offset 8
	retq
.Lfunc_end74f72:
	.size	tuv_pass_begin, .Lfunc_end74f72-tuv_pass_begin
	.cfi_endproc
	.section	.rodata.tuv_pass_begin,"a",@progbits
	.p2align	2, 0x0
.LJTI74f72_0:
	.long	.LBB74f72_16-.LJTI74f72_0
	.long	.LBB74f72_3-.LJTI74f72_0
	.long	.LBB74f72_4-.LJTI74f72_0
	.long	.LBB74f72_5-.LJTI74f72_0
	.long	.LBB74f72_7-.LJTI74f72_0
	.long	.LBB74f72_7-.LJTI74f72_0
	.long	.LBB74f72_10-.LJTI74f72_0
	.long	.LBB74f72_11-.LJTI74f72_0
	.long	.LBB74f72_14-.LJTI74f72_0

	.section	.text.tuv_pass_from_backend,"ax",@progbits
	.globl	tuv_pass_from_backend
	.p2align	4
	.type	tuv_pass_from_backend,@function
tuv_pass_from_backend:
	.cfi_startproc
	pushq	%rbp
	.cfi_def_cfa_offset 16
	pushq	%r15
	.cfi_def_cfa_offset 24
	pushq	%r14
	.cfi_def_cfa_offset 32
	pushq	%r13
	.cfi_def_cfa_offset 40
	pushq	%r12
	.cfi_def_cfa_offset 48
	pushq	%rbx
	.cfi_def_cfa_offset 56
	subq	$1544, %rsp
	.cfi_def_cfa_offset 1600
	.cfi_offset %rbx, -56
	.cfi_offset %r12, -48
	.cfi_offset %r13, -40
	.cfi_offset %r14, -32
	.cfi_offset %r15, -24
	.cfi_offset %rbp, -16
	movq	(%rdi), %rbp
	xorps	%xmm0, %xmm0
	movaps	%xmm0, (%rsp)
	movq	$0, 16(%rsp)
	cmpb	$6, (%rbp)
	jne	.LBB75bf3_7
	movq	%rdx, %rbx
	xorl	%r14d, %r14d
	testq	%rsi, %rsi
	sete	%r14b
	shll	$12, %r14d
	addq	%rsi, %r14
	leaq	8(%rbp), %r15
	leaq	32(%rsp), %r12
	movl	$1512, %edx
	movq	%r12, %rdi
	xorl	%esi, %esi
	callq	memset@PLT
	movq	%rsp, %rdi
	movq	%r15, %rsi
	movq	%r14, %rdx
	movq	%rbx, %rcx
	movq	%r12, %r8
	callq	"pass_through::machine::PassThrough::from_backend_step"
	movzbl	16(%rsp), %r12d
	movzbl	17(%rsp), %eax
	movzbl	18(%rsp), %r15d
	movq	1536(%rsp), %rbx
	movzbl	10(%rbp), %r13d
	movq	1528(%rbp), %r14
	movb	%r15b, 2632(%rbp)
	cmpb	$1, %r15b
	jne	.LBB75bf3_6
	movq	1504(%r14), %rdx
	testq	%rdx, %rdx
	je	.LBB75bf3_4
	movq	%r14, %rdi
	xorl	%esi, %esi
	movl	%eax, %ebp
	callq	memset@PLT
	movl	%ebp, %eax
	movq	$0, 1504(%r14)
.LBB75bf3_4:
	cmpq	$1500, %rbx
	ja	.LBB75bf3_6
	leaq	32(%rsp), %rsi
	movq	%r14, %rdi
	movq	%rbx, %rdx
	movl	%eax, %ebp
	callq	memcpy@PLT
	movl	%ebp, %eax
	movq	%rbx, 1504(%r14)
.LBB75bf3_6:
	testb	%r12b, %r12b
	movzbl	%al, %eax
	movl	$0, %edx
	cmovel	%edx, %eax
	jmp	.LBB75bf3_8
.LBB75bf3_7:
	movb	$0, 2632(%rbp)
	movb	$1, %dl
	xorl	%r15d, %r15d
	xorl	%r12d, %r12d
	xorl	%eax, %eax
	xorl	%r13d, %r13d
.LBB75bf3_8:
	movzbl	%r13b, %ecx
	shlq	$32, %rcx
	movzbl	%al, %eax
	shll	$24, %eax
	orq	%rcx, %rax
	movzbl	%dl, %ecx
	shll	$16, %ecx
	orq	%rax, %rcx
	movzbl	%r12b, %edx
	shll	$8, %edx
	orq	%rcx, %rdx
	movzbl	%r15b, %eax
	orq	%rdx, %rax
	addq	$1544, %rsp
	.cfi_def_cfa_offset 56
	popq	%rbx
	.cfi_def_cfa_offset 48
	popq	%r12
	.cfi_def_cfa_offset 40
	popq	%r13
	.cfi_def_cfa_offset 32
	popq	%r14
	.cfi_def_cfa_offset 24
	popq	%r15
	.cfi_def_cfa_offset 16
	popq	%rbp
	.cfi_def_cfa_offset 8
	retq
.Lfunc_end75bf3:
	.size	tuv_pass_from_backend, .Lfunc_end75bf3-tuv_pass_from_backend
	.cfi_endproc

	.section	.text.tuv_pass_from_peer,"ax",@progbits
	.globl	tuv_pass_from_peer
	.p2align	4
	.type	tuv_pass_from_peer,@function
tuv_pass_from_peer:
	.cfi_startproc
	pushq	%rbp
	.cfi_def_cfa_offset 16
	pushq	%r15
	.cfi_def_cfa_offset 24
	pushq	%r14
	.cfi_def_cfa_offset 32
	pushq	%r13
	.cfi_def_cfa_offset 40
	pushq	%r12
	.cfi_def_cfa_offset 48
	pushq	%rbx
	.cfi_def_cfa_offset 56
	subq	$1544, %rsp
	.cfi_def_cfa_offset 1600
	.cfi_offset %rbx, -56
	.cfi_offset %r12, -48
	.cfi_offset %r13, -40
	.cfi_offset %r14, -32
	.cfi_offset %r15, -24
	.cfi_offset %rbp, -16
	movq	(%rdi), %rbp
	xorps	%xmm0, %xmm0
	movaps	%xmm0, (%rsp)
	movq	$0, 16(%rsp)
	cmpb	$6, (%rbp)
	jne	.LBB5715c_7
	movq	%rdx, %rbx
	xorl	%r14d, %r14d
	testq	%rsi, %rsi
	sete	%r14b
	shll	$12, %r14d
	addq	%rsi, %r14
	leaq	8(%rbp), %r15
	leaq	32(%rsp), %r12
	movl	$1512, %edx
	movq	%r12, %rdi
	xorl	%esi, %esi
	callq	memset@PLT
	movq	%rsp, %rdi
	movq	%r15, %rsi
	movq	%r14, %rdx
	movq	%rbx, %rcx
	movq	%r12, %r8
	callq	"pass_through::machine::PassThrough::from_peer_step"
	movzbl	16(%rsp), %r12d
	movzbl	17(%rsp), %eax
	movzbl	18(%rsp), %r15d
	movq	1536(%rsp), %rbx
	movzbl	10(%rbp), %r13d
	movq	1528(%rbp), %r14
	movb	%r15b, 2632(%rbp)
	cmpb	$1, %r15b
	jne	.LBB5715c_6
	movq	1504(%r14), %rdx
	testq	%rdx, %rdx
	je	.LBB5715c_4
	movq	%r14, %rdi
	xorl	%esi, %esi
	movl	%eax, %ebp
	callq	memset@PLT
	movl	%ebp, %eax
	movq	$0, 1504(%r14)
.LBB5715c_4:
	cmpq	$1500, %rbx
	ja	.LBB5715c_6
	leaq	32(%rsp), %rsi
	movq	%r14, %rdi
	movq	%rbx, %rdx
	movl	%eax, %ebp
	callq	memcpy@PLT
	movl	%ebp, %eax
	movq	%rbx, 1504(%r14)
.LBB5715c_6:
	testb	%r12b, %r12b
	movzbl	%al, %eax
	movl	$0, %edx
	cmovel	%edx, %eax
	jmp	.LBB5715c_8
.LBB5715c_7:
	movb	$0, 2632(%rbp)
	movb	$1, %dl
	xorl	%r15d, %r15d
	xorl	%r12d, %r12d
	xorl	%eax, %eax
	xorl	%r13d, %r13d
.LBB5715c_8:
	movzbl	%r13b, %ecx
	shlq	$32, %rcx
	movzbl	%al, %eax
	shll	$24, %eax
	orq	%rcx, %rax
	movzbl	%dl, %ecx
	shll	$16, %ecx
	orq	%rax, %rcx
	movzbl	%r12b, %edx
	shll	$8, %edx
	orq	%rcx, %rdx
	movzbl	%r15b, %eax
	orq	%rdx, %rax
	addq	$1544, %rsp
	.cfi_def_cfa_offset 56
	popq	%rbx
	.cfi_def_cfa_offset 48
	popq	%r12
	.cfi_def_cfa_offset 40
	popq	%r13
	.cfi_def_cfa_offset 32
	popq	%r14
	.cfi_def_cfa_offset 24
	popq	%r15
	.cfi_def_cfa_offset 16
	popq	%rbp
	.cfi_def_cfa_offset 8
	retq
.Lfunc_end5715c:
	.size	tuv_pass_from_peer, .Lfunc_end5715c-tuv_pass_from_peer
	.cfi_endproc

	.section	.rodata.cst16,"aM",@progbits,16
	.p2align	4, 0x0
.LCPId4b17_0:
	.byte	1,1
	.zero	1
	.byte	0
	.zero	1
	.zero	1
	.zero	1
	.zero	1
	.zero	1
	.zero	1
	.zero	1
	.zero	1
	.zero	1
	.zero	1
	.zero	1
	.zero	1
.LCPId4b17_1:
	.byte	1,1,0,0,0,0,0,0,0,0,0,0,0,0,0,0
	.section	.text.tuv_pass_restart,"ax",@progbits
	.globl	tuv_pass_restart
	.p2align	4
	.type	tuv_pass_restart,@function
tuv_pass_restart:
	.cfi_startproc
	pushq	%rbp
	.cfi_def_cfa_offset 16
	pushq	%r15
	.cfi_def_cfa_offset 24
	pushq	%r14
	.cfi_def_cfa_offset 32
	pushq	%rbx
	.cfi_def_cfa_offset 40
	pushq	%rax
	.cfi_def_cfa_offset 48
	.cfi_offset %rbx, -40
	.cfi_offset %r14, -32
	.cfi_offset %r15, -24
	.cfi_offset %rbp, -16
	movq	(%rdi), %r14
	cmpb	$6, (%r14)
	jne	.LBBd4b17_9
	movzbl	8(%r14), %ebp
	movd	.LCPId4b17_1(%rip), %xmm0
	pinsrb	$2, %ebp, %xmm0
	shll	$8, %ebp
	orl	$83886081, %ebp
	movd	%xmm0, 10(%r14)
	movq	1520(%r14), %rdx
	testq	%rdx, %rdx
	je	.LBBd4b17_3
	leaq	16(%r14), %rdi
	xorl	%esi, %esi
	callq	memset@PLT
.LBBd4b17_3:
	movl	%ebp, 16(%r14)
	movb	$1, 20(%r14)
	movq	$5, 1520(%r14)
	movq	1528(%r14), %rbx
	movq	1504(%rbx), %rdx
	testq	%rdx, %rdx
	je	.LBBd4b17_4
	movq	%rbx, %rdi
	xorl	%esi, %esi
	callq	memset@PLT
	movq	$0, 1504(%rbx)
	movzbl	10(%r14), %r15d
	movq	1528(%r14), %rbx
	movb	$1, 2632(%r14)
	movq	1504(%rbx), %rdx
	testq	%rdx, %rdx
	je	.LBBd4b17_8
.LBBd4b17_7:
	movq	%rbx, %rdi
	xorl	%esi, %esi
	callq	memset@PLT
.LBBd4b17_8:
	movl	%ebp, (%rbx)
	movb	$1, 4(%rbx)
	movq	$5, 1504(%rbx)
	movb	$1, %al
	xorl	%ecx, %ecx
	jmp	.LBBd4b17_10
.LBBd4b17_9:
	movb	$0, 2632(%r14)
	movb	$1, %cl
	xorl	%eax, %eax
	xorl	%r15d, %r15d
.LBBd4b17_10:
	movzbl	%r15b, %edx
	shlq	$32, %rdx
	movzbl	%cl, %ecx
	shll	$16, %ecx
	orq	%rdx, %rcx
	movzbl	%al, %eax
	orq	%rcx, %rax
	addq	$8, %rsp
	.cfi_def_cfa_offset 40
	popq	%rbx
	.cfi_def_cfa_offset 32
	popq	%r14
	.cfi_def_cfa_offset 24
	popq	%r15
	.cfi_def_cfa_offset 16
	popq	%rbp
	.cfi_def_cfa_offset 8
	retq
.LBBd4b17_4:
	.cfi_def_cfa_offset 48
	movb	$1, %r15b
	movb	$1, 2632(%r14)
	movq	1504(%rbx), %rdx
	testq	%rdx, %rdx
	jne	.LBBd4b17_7
	jmp	.LBBd4b17_8
.Lfunc_endd4b17:
	.size	tuv_pass_restart, .Lfunc_endd4b17-tuv_pass_restart
	.cfi_endproc

	.section	.rodata.cst16,"aM",@progbits,16
	.p2align	4, 0x0
.LCPIcd0c2_0:
	.byte	1,1
	.zero	1
	.byte	0
	.zero	1
	.zero	1
	.zero	1
	.zero	1
	.zero	1
	.zero	1
	.zero	1
	.zero	1
	.zero	1
	.zero	1
	.zero	1
	.zero	1
.LCPIcd0c2_1:
	.byte	1,1,0,0,0,0,0,0,0,0,0,0,0,0,0,0
	.section	.text.tuv_pass_start,"ax",@progbits
	.globl	tuv_pass_start
	.p2align	4
	.type	tuv_pass_start,@function
tuv_pass_start:
	.cfi_startproc
	pushq	%rbp
	.cfi_def_cfa_offset 16
	pushq	%r14
	.cfi_def_cfa_offset 24
	pushq	%rbx
	.cfi_def_cfa_offset 32
	.cfi_offset %rbx, -32
	.cfi_offset %r14, -24
	.cfi_offset %rbp, -16
	movq	(%rdi), %r14
	cmpb	$6, (%r14)
	jne	.LBBcd0c2_7
	cmpb	$0, 10(%r14)
	je	.LBBcd0c2_2
.LBBcd0c2_7:
	movb	$0, 2632(%r14)
	movb	$1, %al
	xorl	%ecx, %ecx
.LBBcd0c2_8:
	movzbl	%cl, %ecx
	movq	%rcx, %rdx
	shlq	$32, %rdx
	movzbl	%al, %eax
	shll	$16, %eax
	orq	%rdx, %rax
	orq	%rcx, %rax
	popq	%rbx
	.cfi_def_cfa_offset 24
	popq	%r14
	.cfi_def_cfa_offset 16
	popq	%rbp
	.cfi_def_cfa_offset 8
	retq
.LBBcd0c2_2:
	.cfi_def_cfa_offset 32
	movzbl	8(%r14), %ebp
	movd	.LCPIcd0c2_1(%rip), %xmm0
	pinsrb	$2, %ebp, %xmm0
	shll	$8, %ebp
	orl	$83886081, %ebp
	movd	%xmm0, 10(%r14)
	movq	1520(%r14), %rdx
	testq	%rdx, %rdx
	je	.LBBcd0c2_4
	leaq	16(%r14), %rdi
	xorl	%esi, %esi
	callq	memset@PLT
.LBBcd0c2_4:
	movl	%ebp, 16(%r14)
	movb	$1, 20(%r14)
	movq	$5, 1520(%r14)
	movq	1528(%r14), %rbx
	movb	$1, 2632(%r14)
	movq	1504(%rbx), %rdx
	testq	%rdx, %rdx
	je	.LBBcd0c2_6
	movq	%rbx, %rdi
	xorl	%esi, %esi
	callq	memset@PLT
.LBBcd0c2_6:
	movl	%ebp, (%rbx)
	movb	$1, 4(%rbx)
	movq	$5, 1504(%rbx)
	movb	$1, %cl
	xorl	%eax, %eax
	jmp	.LBBcd0c2_8
.Lfunc_endcd0c2:
	.size	tuv_pass_start, .Lfunc_endcd0c2-tuv_pass_start
	.cfi_endproc

	.section	.text.tuv_pass_timeout,"ax",@progbits
	.globl	tuv_pass_timeout
	.p2align	4
	.type	tuv_pass_timeout,@function
tuv_pass_timeout:
	.cfi_startproc
	pushq	%rbp
	.cfi_def_cfa_offset 16
	pushq	%r15
	.cfi_def_cfa_offset 24
	pushq	%r14
	.cfi_def_cfa_offset 32
	pushq	%r13
	.cfi_def_cfa_offset 40
	pushq	%r12
	.cfi_def_cfa_offset 48
	pushq	%rbx
	.cfi_def_cfa_offset 56
	subq	$1560, %rsp
	.cfi_def_cfa_offset 1616
	.cfi_offset %rbx, -56
	.cfi_offset %r12, -48
	.cfi_offset %r13, -40
	.cfi_offset %r14, -32
	.cfi_offset %r15, -24
	.cfi_offset %rbp, -16
	movq	(%rdi), %rbx
	xorps	%xmm0, %xmm0
	movaps	%xmm0, 16(%rsp)
	movq	$0, 32(%rsp)
	cmpb	$6, (%rbx)
	jne	.LBB1457c_9
	movzbl	10(%rbx), %eax
	cmpl	$26, %eax
	je	.LBB1457c_3
	cmpl	$1, %eax
	jne	.LBB1457c_9
.LBB1457c_3:
	leaq	8(%rbx), %r15
	leaq	48(%rsp), %r14
	xorl	%ebp, %ebp
	movl	$1512, %edx
	movq	%r14, %rdi
	xorl	%esi, %esi
	callq	memset@PLT
	leaq	16(%rsp), %rdi
	movq	%r15, %rsi
	movq	%r14, %rdx
	callq	"pass_through::machine::PassThrough::timeout_step"
	movzbl	32(%rsp), %r12d
	movzbl	33(%rsp), %eax
	movzbl	34(%rsp), %r15d
	movq	1552(%rsp), %rcx
	movzbl	10(%rbx), %r13d
	movq	1528(%rbx), %r14
	movb	%r15b, 2632(%rbx)
	cmpb	$1, %r15b
	jne	.LBB1457c_8
	movq	1504(%r14), %rdx
	testq	%rdx, %rdx
	je	.LBB1457c_6
	movq	%r14, %rdi
	xorl	%esi, %esi
	movb	%al, 8(%rsp)
	movq	%rcx, %rbx
	callq	memset@PLT
	movq	%rbx, %rcx
	movzbl	8(%rsp), %eax
	movq	$0, 1504(%r14)
.LBB1457c_6:
	cmpq	$1500, %rcx
	ja	.LBB1457c_8
	leaq	48(%rsp), %rsi
	movq	%r14, %rdi
	movq	%rcx, %rdx
	movl	%eax, %ebx
	movq	%rcx, 8(%rsp)
	callq	memcpy@PLT
	movl	%ebx, %eax
	movq	8(%rsp), %rcx
	movq	%rcx, 1504(%r14)
.LBB1457c_8:
	testb	%r12b, %r12b
	movzbl	%al, %eax
	cmovel	%ebp, %eax
	jmp	.LBB1457c_10
.LBB1457c_9:
	movb	$0, 2632(%rbx)
	movb	$1, %bpl
	xorl	%r15d, %r15d
	xorl	%r12d, %r12d
	xorl	%eax, %eax
	xorl	%r13d, %r13d
.LBB1457c_10:
	movzbl	%r13b, %ecx
	shlq	$32, %rcx
	movzbl	%al, %eax
	shll	$24, %eax
	orq	%rcx, %rax
	movzbl	%bpl, %ecx
	shll	$16, %ecx
	orq	%rax, %rcx
	movzbl	%r12b, %edx
	shll	$8, %edx
	orq	%rcx, %rdx
	movzbl	%r15b, %eax
	orq	%rdx, %rax
	addq	$1560, %rsp
	.cfi_def_cfa_offset 56
	popq	%rbx
	.cfi_def_cfa_offset 48
	popq	%r12
	.cfi_def_cfa_offset 40
	popq	%r13
	.cfi_def_cfa_offset 32
	popq	%r14
	.cfi_def_cfa_offset 24
	popq	%r15
	.cfi_def_cfa_offset 16
	popq	%rbp
	.cfi_def_cfa_offset 8
	retq
.Lfunc_end1457c:
	.size	tuv_pass_timeout, .Lfunc_end1457c-tuv_pass_timeout
	.cfi_endproc

	.section	.text.tuv_peer_alt_accept,"ax",@progbits
	.globl	tuv_peer_alt_accept
	.p2align	4
	.type	tuv_peer_alt_accept,@function
tuv_peer_alt_accept:
	.cfi_startproc
	movq	(%rdi), %rcx
	cmpb	$3, (%rcx)
	jne	.LBB0cb52_7
	movzbl	776(%rcx), %eax
	movzbl	%al, %edx
	movabsq	$8589407231, %rsi
	btq	%rdx, %rsi
	jae	.LBB0cb52_7
	cmpb	$0, 780(%rcx)
	je	.LBB0cb52_4
	movb	$10, 776(%rcx)
	movb	$10, %al
	jmp	.LBB0cb52_6
.LBB0cb52_7:
	movb	$0, 2632(%rcx)
	movb	$1, %cl
	xorl	%eax, %eax
	jmp	.LBB0cb52_8
.LBB0cb52_4:
	cmpb	$2, 779(%rcx)
	je	.LBB0cb52_6
	movb	$11, 776(%rcx)
	movb	$11, %al
.LBB0cb52_6:
	movb	$0, 2632(%rcx)
	xorl	%ecx, %ecx
.LBB0cb52_8:
	movzbl	%al, %edx
	shlq	$32, %rdx
	movzbl	%cl, %eax
	shll	$16, %eax
	orq	%rdx, %rax
	retq
.Lfunc_end0cb52:
	.size	tuv_peer_alt_accept, .Lfunc_end0cb52-tuv_peer_alt_accept
	.cfi_endproc

	.section	.text.tuv_peer_alt_reject,"ax",@progbits
	.globl	tuv_peer_alt_reject
	.p2align	4
	.type	tuv_peer_alt_reject,@function
tuv_peer_alt_reject:
	.cfi_startproc
	movq	(%rdi), %rax
	cmpb	$3, (%rax)
	jne	.LBB0a673_3
	movzbl	776(%rax), %ecx
	movabsq	$8589407231, %rdx
	btq	%rcx, %rdx
	jae	.LBB0a673_3
	movb	$11, 776(%rax)
	movb	$0, 2632(%rax)
	movb	$11, %cl
	xorl	%eax, %eax
	jmp	.LBB0a673_4
.LBB0a673_3:
	movb	$0, 2632(%rax)
	movb	$1, %al
	xorl	%ecx, %ecx
.LBB0a673_4:
	movzbl	%cl, %ecx
	shlq	$32, %rcx
	movzbl	%al, %eax
	shll	$16, %eax
	orq	%rcx, %rax
	retq
.Lfunc_end0a673:
	.size	tuv_peer_alt_reject, .Lfunc_end0a673-tuv_peer_alt_reject
	.cfi_endproc

	.section	.text.tuv_peer_begin,"ax",@progbits
	.globl	tuv_peer_begin
	.p2align	4
	.type	tuv_peer_begin,@function
tuv_peer_begin:
	.cfi_startproc
	pushq	%rbp
	.cfi_def_cfa_offset 16
	pushq	%r15
	.cfi_def_cfa_offset 24
	pushq	%r14
	.cfi_def_cfa_offset 32
	pushq	%r13
	.cfi_def_cfa_offset 40
	pushq	%r12
	.cfi_def_cfa_offset 48
	pushq	%rbx
	.cfi_def_cfa_offset 56
	subq	$920, %rsp
	.cfi_def_cfa_offset 976
	.cfi_offset %rbx, -56
	.cfi_offset %r12, -48
	.cfi_offset %r13, -40
	.cfi_offset %r14, -32
	.cfi_offset %r15, -24
	.cfi_offset %rbp, -16
	movq	%rdx, %r14
	movq	%rsi, %r15
	movq	%rdi, %rbx
	xorps	%xmm0, %xmm0
	movaps	%xmm0, 112(%rsp)
	movaps	%xmm0, 96(%rsp)
	movq	%rsi, %rdi
	callq	"end_objects::refusals::peer_refusal"
	cmpb	$1, %al
	jne	.LBB70e96_2
	movl	%edx, %eax
	incb	%al
	jmp	.LBB70e96_27
.LBB70e96_2:
	movq	48(%r15), %rcx
	cmpq	$0, 64(%r15)
	je	.LBB70e96_3
	xorl	%r12d, %r12d
	testq	%rcx, %rcx
	movl	$51, %ecx
	movl	$12083, %eax
	cmoveq	%rcx, %rax
	setne	%r12b
	incq	%r12
	jmp	.LBB70e96_5
.LBB70e96_3:
	xorl	%r12d, %r12d
	testq	%rcx, %rcx
	setne	%r12b
	movl	$47, %eax
	cmoveq	%rcx, %rax
.LBB70e96_5:
	movq	%rax, 24(%rsp)
	movq	%r12, 32(%rsp)
	movzbl	72(%r15), %ecx
	testq	%rcx, %rcx
	je	.LBB70e96_7
	movzbl	73(%r15), %eax
	cmpl	$1, %eax
	movl	$2, %edx
	sbbq	$0, %rdx
	shll	$8, %eax
	orq	%rcx, %rax
	jmp	.LBB70e96_8
.LBB70e96_7:
	xorps	%xmm0, %xmm0
	movaps	%xmm0, 144(%rsp)
	leaq	144(%rsp), %rdi
	leaq	24(%rsp), %rsi
	movq	%r12, %rdx
	callq	memcpy@PLT
	testq	%r12, %r12
	movl	$12083, %eax
	cmovneq	144(%rsp), %rax
	movl	$2, %edx
	cmovneq	%r12, %rdx
.LBB70e96_8:
	movq	%rax, 24(%rsp)
	movq	%rdx, 32(%rsp)
	leaq	96(%rsp), %rdi
	leaq	24(%rsp), %rsi
	callq	"end_objects::constructors::peer_objects"
	movb	$8, %al
	cmpb	$0, 96(%rsp)
	jne	.LBB70e96_27
	movq	104(%rsp), %r12
	movq	112(%rsp), %r13
	movaps	112(%rsp), %xmm0
	movaps	%xmm0, 128(%rsp)
	leaq	144(%rsp), %rdi
	movq	%r15, %rsi
	movq	%r14, %rdx
	callq	"end_objects::settings::peer_setup"
	movq	(%rbx), %r15
	testq	%r13, %r13
	je	.LBB70e96_12
	movq	%r12, %rdi
	.p2align	4
.LBB70e96_11:
	leaq	1248(%rdi), %rbx
	leaq	144(%rsp), %rsi
	callq	"eap_method::peer_objects::start_one::<#807681be332d694b>"
	movq	%rbx, %rdi
	decq	%r13
	jne	.LBB70e96_11
.LBB70e96_12:
	movzbl	(%r15), %ebp
	leaq	8(%r15), %rdi
	movq	8(%r15), %rax
	movq	%rax, 8(%rsp)
	movq	24(%r15), %rax
	movq	%rax, 16(%rsp)
	movq	1328(%r15), %rax
	movq	%rax, 88(%rsp)
	movq	1528(%r15), %rax
	movq	%rax, 80(%rsp)
	movq	1560(%r15), %rax
	movq	%rax, 72(%rsp)
	movq	1976(%r15), %rax
	movq	%rax, 64(%rsp)
	movq	2296(%r15), %rax
	movq	%rax, 40(%rsp)
	movq	2312(%r15), %rax
	movq	%rax, 56(%rsp)
	movq	2328(%r15), %r13
	movq	2344(%r15), %rax
	movq	%rax, 48(%rsp)
	movq	2352(%r15), %r14
	movq	2624(%r15), %rbx
	movq	$3, (%r15)
	leaq	144(%rsp), %rsi
	movl	$768, %edx
	callq	memcpy@PLT
	movb	$1, 776(%r15)
	leaq	777(%r15), %rdi
	movl	$1519, %edx
	xorl	%esi, %esi
	callq	memset@PLT
	movq	%r12, 2296(%r15)
	movaps	128(%rsp), %xmm0
	movups	%xmm0, 2304(%r15)
	leaq	2320(%r15), %rdi
	movl	$312, %edx
	xorl	%esi, %esi
	callq	memset@PLT
	leaq	.LJTI70e96_0(%rip), %rax
	movslq	(%rax,%rbp,4), %rcx
	addq	%rax, %rcx
	jmpq	*%rcx
.LBB70e96_17:
	movq	8(%rsp), %rdi
	cmpq	$0, 16(%rsp)
	je	.LBB70e96_19
	callq	rattle_dealloc@PLT
.LBB70e96_19:
	movq	%rbx, %rdi
	jmp	.LBB70e96_25
.LBB70e96_14:
	movq	64(%rsp), %rdi
	jmp	.LBB70e96_25
.LBB70e96_21:
	cmpq	$0, 48(%rsp)
	je	.LBB70e96_23
	movq	%r13, %rdi
	callq	rattle_dealloc@PLT
.LBB70e96_23:
	movq	%r14, %rdi
	jmp	.LBB70e96_25
.LBB70e96_15:
	cmpq	$0, 56(%rsp)
	je	.LBB70e96_26
	movq	40(%rsp), %rdi
	jmp	.LBB70e96_25
.LBB70e96_13:
	movq	88(%rsp), %rdi
	jmp	.LBB70e96_25
.LBB70e96_20:
	movq	80(%rsp), %rdi
	jmp	.LBB70e96_25
.LBB70e96_24:
	movq	72(%rsp), %rdi
.LBB70e96_25:
	callq	rattle_dealloc@PLT
.LBB70e96_26:
	movb	$0, 2632(%r15)
	xorl	%eax, %eax
.LBB70e96_27:
	addq	$920, %rsp
	.cfi_def_cfa_offset 56
	popq	%rbx
	.cfi_def_cfa_offset 48
	popq	%r12
	.cfi_def_cfa_offset 40
	popq	%r13
	.cfi_def_cfa_offset 32
	popq	%r14
	.cfi_def_cfa_offset 24
	popq	%r15
	.cfi_def_cfa_offset 16
	popq	%rbp
	.cfi_def_cfa_offset 8
	retq
.Lfunc_end70e96:
	.size	tuv_peer_begin, .Lfunc_end70e96-tuv_peer_begin
	.cfi_endproc
	.section	.rodata.tuv_peer_begin,"a",@progbits
	.p2align	2, 0x0
.LJTI70e96_0:
	.long	.LBB70e96_26-.LJTI70e96_0
	.long	.LBB70e96_13-.LJTI70e96_0
	.long	.LBB70e96_14-.LJTI70e96_0
	.long	.LBB70e96_15-.LJTI70e96_0
	.long	.LBB70e96_17-.LJTI70e96_0
	.long	.LBB70e96_17-.LJTI70e96_0
	.long	.LBB70e96_20-.LJTI70e96_0
	.long	.LBB70e96_21-.LJTI70e96_0
	.long	.LBB70e96_24-.LJTI70e96_0

	.section	.text.tuv_peer_deliver,"ax",@progbits
	.globl	tuv_peer_deliver
	.p2align	4
	.type	tuv_peer_deliver,@function
tuv_peer_deliver:
	.cfi_startproc
	pushq	%rax
	.cfi_def_cfa_offset 16
	movq	%rdx, %rcx
	xorl	%edx, %edx
	testq	%rsi, %rsi
	sete	%dl
	shll	$12, %edx
	addq	%rsi, %rdx
	movq	(%rdi), %rsi
	movq	%rsp, %rdi
	callq	"tuvaddri_c::deliver::deliver_to_peer"
	movl	(%rsp), %ecx
	movl	4(%rsp), %eax
	shlq	$32, %rax
	orq	%rcx, %rax
	popq	%rcx
	.cfi_def_cfa_offset 8
	retq
.Lfunc_ende6806:
	.size	tuv_peer_deliver, .Lfunc_ende6806-tuv_peer_deliver
	.cfi_endproc

	.section	.text.tuv_peer_idle,"ax",@progbits
	.globl	tuv_peer_idle
	.p2align	4
	.type	tuv_peer_idle,@function
tuv_peer_idle:
	.cfi_startproc
	movq	(%rdi), %rax
	cmpb	$3, (%rax)
	jne	.LBB06932_3
	movzbl	776(%rax), %ecx
	movabsq	$8589407231, %rdx
	btq	%rcx, %rdx
	jae	.LBB06932_3
	cmpb	$2, 780(%rax)
	sete	%cl
	xorb	$11, %cl
	movb	%cl, 776(%rax)
	movb	$0, 2632(%rax)
	xorl	%eax, %eax
	jmp	.LBB06932_4
.LBB06932_3:
	movb	$0, 2632(%rax)
	movb	$1, %al
	xorl	%ecx, %ecx
.LBB06932_4:
	movzbl	%cl, %ecx
	shlq	$32, %rcx
	movzbl	%al, %eax
	shll	$16, %eax
	orq	%rcx, %rax
	retq
.Lfunc_end06932:
	.size	tuv_peer_idle, .Lfunc_end06932-tuv_peer_idle
	.cfi_endproc

	.section	.text.tuv_peer_method_begin,"ax",@progbits
	.globl	tuv_peer_method_begin
	.p2align	4
	.type	tuv_peer_method_begin,@function
tuv_peer_method_begin:
	.cfi_startproc
	pushq	%rbp
	.cfi_def_cfa_offset 16
	pushq	%r15
	.cfi_def_cfa_offset 24
	pushq	%r14
	.cfi_def_cfa_offset 32
	pushq	%r13
	.cfi_def_cfa_offset 40
	pushq	%r12
	.cfi_def_cfa_offset 48
	pushq	%rbx
	.cfi_def_cfa_offset 56
	subq	$3072, %rsp
	.cfi_adjust_cfa_offset 3072
	movq	$0, (%rsp)
	subq	$2584, %rsp
	.cfi_def_cfa_offset 5712
	.cfi_offset %rbx, -56
	.cfi_offset %r12, -48
	.cfi_offset %r13, -40
	.cfi_offset %r14, -32
	.cfi_offset %r15, -24
	.cfi_offset %rbp, -16
	movq	%rdx, %r14
	movq	%rsi, %r12
	movq	%rdi, %rbx
	leaq	1488(%rsp), %rdi
	movl	$624, %edx
	xorl	%esi, %esi
	callq	memset@PLT
	leaq	3616(%rsp), %rdi
	movl	$1248, %edx
	xorl	%esi, %esi
	callq	memset@PLT
	movq	%r12, %rdi
	callq	"end_objects::refusals::peer_refusal"
	cmpb	$1, %al
	jne	.LBBf83f1_2
	movl	%edx, %eax
	incb	%al
	jmp	.LBBf83f1_48
.LBBf83f1_2:
	callq	"tuvaddri_c::sent::empty_packet"
	movl	%eax, %ecx
	movb	$8, %al
	cmpb	$1, %cl
	jne	.LBBf83f1_48
	movq	%rbx, (%rsp)
	movq	%rdx, 72(%rsp)
	xorps	%xmm0, %xmm0
	movaps	%xmm0, 128(%rsp)
	movaps	%xmm0, 112(%rsp)
	movaps	%xmm0, 96(%rsp)
	movaps	%xmm0, 80(%rsp)
	movq	$0, 144(%rsp)
	movq	8(%r12), %r13
	movq	16(%r12), %rbx
	leaq	240(%rsp), %rdi
	movl	$264, %edx
	xorl	%esi, %esi
	callq	memset@PLT
	cmpq	$253, %rbx
	ja	.LBBf83f1_5
	leaq	240(%rsp), %rdi
	movq	%r13, %rsi
	movq	%rbx, %rdx
	callq	memcpy@PLT
	movq	%rbx, 496(%rsp)
.LBBf83f1_5:
	leaq	5128(%rsp), %rdi
	leaq	240(%rsp), %rsi
	movl	$264, %edx
	callq	memcpy@PLT
	movq	24(%r12), %r13
	movq	32(%r12), %rbx
	leaq	2112(%rsp), %rdi
	xorl	%r15d, %r15d
	movl	$264, %edx
	xorl	%esi, %esi
	callq	memset@PLT
	testq	%rbx, %rbx
	movq	%r14, 8(%rsp)
	je	.LBBf83f1_9
	leaq	240(%rsp), %rdi
	movl	$264, %edx
	xorl	%esi, %esi
	callq	memset@PLT
	cmpq	$253, %rbx
	ja	.LBBf83f1_8
	leaq	240(%rsp), %rdi
	movq	%r13, %rsi
	movq	%rbx, %rdx
	callq	memcpy@PLT
	movq	%rbx, 496(%rsp)
.LBBf83f1_8:
	leaq	2112(%rsp), %rdi
	leaq	240(%rsp), %rsi
	movl	$264, %edx
	callq	memcpy@PLT
	movl	$1, %r15d
.LBBf83f1_9:
	leaq	4864(%rsp), %rdi
	leaq	2112(%rsp), %rsi
	movl	$264, %edx
	callq	memcpy@PLT
	movq	48(%r12), %r14
	movq	64(%r12), %rax
	movq	%rax, 16(%rsp)
	testq	%rax, %rax
	movq	%r15, 24(%rsp)
	je	.LBBf83f1_10
	xorl	%r13d, %r13d
	testq	%r14, %r14
	movl	$51, %ecx
	movl	$12083, %eax
	cmoveq	%rcx, %rax
	setne	%r13b
	incq	%r13
	jmp	.LBBf83f1_12
.LBBf83f1_10:
	xorl	%r13d, %r13d
	testq	%r14, %r14
	setne	%r13b
	movl	$47, %eax
	cmoveq	%r14, %rax
.LBBf83f1_12:
	movzwl	74(%r12), %r15d
	movq	%rax, 3352(%rsp)
	movq	%r13, 3360(%rsp)
	movzbl	72(%r12), %ebp
	testb	%bpl, %bpl
	je	.LBBf83f1_14
	movl	%ebp, %eax
	jmp	.LBBf83f1_16
.LBBf83f1_14:
	xorps	%xmm0, %xmm0
	movaps	%xmm0, 2112(%rsp)
	leaq	2112(%rsp), %rdi
	leaq	3352(%rsp), %rsi
	movq	%r13, %rdx
	callq	memcpy@PLT
	movl	$51, %eax
	testq	%r13, %r13
	je	.LBBf83f1_16
	movl	2112(%rsp), %eax
.LBBf83f1_16:
	xorl	%ecx, %ecx
	cmpb	$47, %al
	setne	%cl
	shll	$4, %ecx
	movq	40(%r12,%rcx), %rsi
	movq	48(%r12,%rcx), %rbx
	xorps	%xmm0, %xmm0
	movaps	%xmm0, 2160(%rsp)
	movaps	%xmm0, 2144(%rsp)
	movaps	%xmm0, 2128(%rsp)
	movaps	%xmm0, 2112(%rsp)
	movq	$0, 2176(%rsp)
	cmpq	$64, %rbx
	ja	.LBBf83f1_18
	leaq	2112(%rsp), %rdi
	movq	%rbx, %rdx
	callq	memcpy@PLT
	movq	%rbx, 2176(%rsp)
.LBBf83f1_18:
	movzwl	%r15w, %eax
	cmpl	$256, %eax
	movl	$2, %ecx
	movl	$2, %r13d
	sbbq	$0, %r13
	testb	%r15b, %r15b
	cmoveq	%rcx, %r13
	movl	$513, %r15d
	cmovnel	%eax, %r15d
	movq	2176(%rsp), %rax
	movq	%rax, 144(%rsp)
	movaps	2112(%rsp), %xmm0
	movaps	2128(%rsp), %xmm1
	movaps	2144(%rsp), %xmm2
	movaps	2160(%rsp), %xmm3
	movaps	%xmm3, 128(%rsp)
	movaps	%xmm2, 112(%rsp)
	movaps	%xmm1, 96(%rsp)
	movaps	%xmm0, 80(%rsp)
	leaq	3352(%rsp), %rbx
	leaq	5128(%rsp), %rsi
	movl	$264, %edx
	movq	%rbx, %rdi
	callq	memcpy@PLT
	leaq	5392(%rsp), %r12
	leaq	4864(%rsp), %rsi
	movl	$264, %edx
	movq	%r12, %rdi
	callq	memcpy@PLT
	movaps	80(%rsp), %xmm0
	movaps	96(%rsp), %xmm1
	movaps	112(%rsp), %xmm2
	movaps	128(%rsp), %xmm3
	movaps	%xmm0, 160(%rsp)
	movaps	%xmm1, 176(%rsp)
	movaps	%xmm2, 192(%rsp)
	movaps	%xmm3, 208(%rsp)
	movq	144(%rsp), %rax
	movq	%rax, 224(%rsp)
	leaq	1488(%rsp), %rdi
	movl	$264, %edx
	movq	%rbx, %rsi
	callq	memcpy@PLT
	movq	24(%rsp), %rax
	movq	%rax, 1752(%rsp)
	leaq	1760(%rsp), %rdi
	movl	$264, %edx
	movq	%r12, %rsi
	callq	memcpy@PLT
	movzwl	%r15w, %eax
	movq	%rax, 2024(%rsp)
	movq	%r13, 2032(%rsp)
	movaps	160(%rsp), %xmm0
	movaps	176(%rsp), %xmm1
	movaps	192(%rsp), %xmm2
	movaps	208(%rsp), %xmm3
	movups	%xmm0, 2040(%rsp)
	movups	%xmm1, 2056(%rsp)
	movups	%xmm2, 2072(%rsp)
	movups	%xmm3, 2088(%rsp)
	movq	224(%rsp), %rax
	movq	%rax, 2104(%rsp)
	cmpq	$0, 16(%rsp)
	je	.LBBf83f1_19
	xorl	%ebx, %ebx
	testq	%r14, %r14
	movl	$51, %ecx
	movl	$12083, %eax
	cmoveq	%rcx, %rax
	setne	%bl
	incq	%rbx
	movq	%rax, 2112(%rsp)
	movq	%rbx, 2120(%rsp)
	testb	%bpl, %bpl
	jne	.LBBf83f1_24
	jmp	.LBBf83f1_22
.LBBf83f1_19:
	xorl	%ebx, %ebx
	testq	%r14, %r14
	setne	%bl
	movl	$47, %eax
	cmoveq	%r14, %rax
	movq	%rax, 2112(%rsp)
	movq	%rbx, 2120(%rsp)
	testb	%bpl, %bpl
	jne	.LBBf83f1_24
.LBBf83f1_22:
	xorps	%xmm0, %xmm0
	movaps	%xmm0, 240(%rsp)
	leaq	240(%rsp), %rdi
	leaq	2112(%rsp), %rsi
	movq	%rbx, %rdx
	callq	memcpy@PLT
	testq	%rbx, %rbx
	je	.LBBf83f1_26
	movzbl	240(%rsp), %ebp
.LBBf83f1_24:
	xorps	%xmm0, %xmm0
	movups	%xmm0, 1464(%rsp)
	movups	%xmm0, 1448(%rsp)
	movups	%xmm0, 1432(%rsp)
	movups	%xmm0, 1416(%rsp)
	movups	%xmm0, 1400(%rsp)
	cmpb	$47, %bpl
	jne	.LBBf83f1_27
	leaq	240(%rsp), %rdi
	xorl	%r14d, %r14d
	movl	$1240, %edx
	xorl	%esi, %esi
	callq	memset@PLT
	movb	$1, %bpl
	jmp	.LBBf83f1_28
.LBBf83f1_26:
	xorps	%xmm0, %xmm0
	movups	%xmm0, 1464(%rsp)
	movups	%xmm0, 1448(%rsp)
	movups	%xmm0, 1432(%rsp)
	movups	%xmm0, 1416(%rsp)
	movups	%xmm0, 1400(%rsp)
.LBBf83f1_27:
	leaq	240(%rsp), %rdi
	xorl	%ebp, %ebp
	movl	$1160, %edx
	xorl	%esi, %esi
	callq	memset@PLT
	movl	$1, %r14d
.LBBf83f1_28:
	leaq	2112(%rsp), %rbx
	leaq	240(%rsp), %rsi
	movl	$1240, %edx
	movq	%rbx, %rdi
	callq	memcpy@PLT
	movq	%r14, 3616(%rsp)
	leaq	3624(%rsp), %r14
	movl	$1240, %edx
	movq	%r14, %rdi
	movq	%rbx, %rsi
	callq	memcpy@PLT
	leaq	1488(%rsp), %rsi
	movq	%r14, %rdi
	callq	"eap_method::peer_side::PeerSide::set"
	movq	8(%rsp), %rax
	movups	(%rax), %xmm0
	movups	16(%rax), %xmm1
	movups	%xmm1, 4264(%rsp)
	movups	%xmm0, 4248(%rsp)
	testb	%bpl, %bpl
	je	.LBBf83f1_30
	movb	$1, 4280(%rsp)
	leaq	4281(%rsp), %rdi
	movl	$578, %edx
	jmp	.LBBf83f1_31
.LBBf83f1_30:
	movq	$1, 4280(%rsp)
	leaq	4288(%rsp), %rdi
	movl	$490, %edx
.LBBf83f1_31:
	xorl	%esi, %esi
	callq	memset@PLT
	movq	(%rsp), %rax
	movq	(%rax), %r14
	movzbl	3616(%rsp), %ebp
	movq	2104(%rsp), %rbx
	xorps	%xmm0, %xmm0
	movaps	%xmm0, 240(%rsp)
	movaps	%xmm0, 256(%rsp)
	movaps	%xmm0, 272(%rsp)
	movaps	%xmm0, 288(%rsp)
	movq	$0, 304(%rsp)
	cmpq	$64, %rbx
	ja	.LBBf83f1_33
	leaq	2040(%rsp), %rsi
	leaq	240(%rsp), %rdi
	movq	%rbx, %rdx
	callq	memcpy@PLT
	movq	%rbx, 304(%rsp)
.LBBf83f1_33:
	movzbl	(%r14), %r15d
	movq	8(%r14), %rax
	movq	%rax, 8(%rsp)
	movq	24(%r14), %rax
	movq	%rax, (%rsp)
	movq	1328(%r14), %rax
	movq	%rax, 24(%rsp)
	movq	1528(%r14), %rax
	movq	%rax, 16(%rsp)
	movq	1560(%r14), %rax
	movq	%rax, 64(%rsp)
	movq	1976(%r14), %rax
	movq	%rax, 56(%rsp)
	movq	2296(%r14), %rax
	movq	%rax, 32(%rsp)
	movq	2312(%r14), %rax
	movq	%rax, 48(%rsp)
	movq	2328(%r14), %r13
	movq	2344(%r14), %rax
	movq	%rax, 40(%rsp)
	movq	2352(%r14), %r12
	movq	2624(%r14), %rbx
	movq	$1, (%r14)
	movq	%rbp, 8(%r14)
	leaq	16(%r14), %rdi
	movl	$1240, %edx
	leaq	3624(%rsp), %rsi
	callq	memcpy@PLT
	movaps	240(%rsp), %xmm0
	movaps	256(%rsp), %xmm1
	movaps	272(%rsp), %xmm2
	movaps	288(%rsp), %xmm3
	movups	%xmm0, 1256(%r14)
	movups	%xmm1, 1272(%r14)
	movups	%xmm2, 1288(%r14)
	movups	%xmm3, 1304(%r14)
	movq	304(%rsp), %rax
	movq	%rax, 1320(%r14)
	movq	72(%rsp), %rax
	movq	%rax, 1328(%r14)
	movl	$1296, %edx
	leaq	1336(%r14), %rdi
	xorl	%esi, %esi
	callq	memset@PLT
	leaq	.LJTIf83f1_0(%rip), %rax
	movslq	(%rax,%r15,4), %rcx
	addq	%rax, %rcx
	jmpq	*%rcx
.LBBf83f1_38:
	movq	8(%rsp), %rdi
	cmpq	$0, (%rsp)
	je	.LBBf83f1_40
	callq	rattle_dealloc@PLT
.LBBf83f1_40:
	movq	%rbx, %rdi
	jmp	.LBBf83f1_46
.LBBf83f1_35:
	movq	56(%rsp), %rdi
	jmp	.LBBf83f1_46
.LBBf83f1_42:
	cmpq	$0, 40(%rsp)
	je	.LBBf83f1_44
	movq	%r13, %rdi
	callq	rattle_dealloc@PLT
.LBBf83f1_44:
	movq	%r12, %rdi
	jmp	.LBBf83f1_46
.LBBf83f1_36:
	cmpq	$0, 48(%rsp)
	je	.LBBf83f1_47
	movq	32(%rsp), %rdi
	jmp	.LBBf83f1_46
.LBBf83f1_34:
	movq	24(%rsp), %rdi
	jmp	.LBBf83f1_46
.LBBf83f1_41:
	movq	16(%rsp), %rdi
	jmp	.LBBf83f1_46
.LBBf83f1_45:
	movq	64(%rsp), %rdi
.LBBf83f1_46:
	callq	rattle_dealloc@PLT
.LBBf83f1_47:
	movb	$0, 2632(%r14)
	xorl	%eax, %eax
.LBBf83f1_48:
	addq	$5656, %rsp
	.cfi_def_cfa_offset 56
	popq	%rbx
	.cfi_def_cfa_offset 48
	popq	%r12
	.cfi_def_cfa_offset 40
	popq	%r13
	.cfi_def_cfa_offset 32
	popq	%r14
	.cfi_def_cfa_offset 24
	popq	%r15
	.cfi_def_cfa_offset 16
	popq	%rbp
	.cfi_def_cfa_offset 8
	retq
.Lfunc_endf83f1:
	.size	tuv_peer_method_begin, .Lfunc_endf83f1-tuv_peer_method_begin
	.cfi_endproc
	.section	.rodata.tuv_peer_method_begin,"a",@progbits
	.p2align	2, 0x0
.LJTIf83f1_0:
	.long	.LBBf83f1_47-.LJTIf83f1_0
	.long	.LBBf83f1_34-.LJTIf83f1_0
	.long	.LBBf83f1_35-.LJTIf83f1_0
	.long	.LBBf83f1_36-.LJTIf83f1_0
	.long	.LBBf83f1_38-.LJTIf83f1_0
	.long	.LBBf83f1_38-.LJTIf83f1_0
	.long	.LBBf83f1_41-.LJTIf83f1_0
	.long	.LBBf83f1_42-.LJTIf83f1_0
	.long	.LBBf83f1_45-.LJTIf83f1_0

	.section	.text.tuv_peer_method_handle,"ax",@progbits
	.globl	tuv_peer_method_handle
	.p2align	4
	.type	tuv_peer_method_handle,@function
tuv_peer_method_handle:
	.cfi_startproc
	pushq	%rbp
	.cfi_def_cfa_offset 16
	pushq	%r15
	.cfi_def_cfa_offset 24
	pushq	%r14
	.cfi_def_cfa_offset 32
	pushq	%r13
	.cfi_def_cfa_offset 40
	pushq	%r12
	.cfi_def_cfa_offset 48
	pushq	%rbx
	.cfi_def_cfa_offset 56
	subq	$1544, %rsp
	.cfi_def_cfa_offset 1600
	.cfi_offset %rbx, -56
	.cfi_offset %r12, -48
	.cfi_offset %r13, -40
	.cfi_offset %r14, -32
	.cfi_offset %r15, -24
	.cfi_offset %rbp, -16
	movq	(%rdi), %r12
	cmpb	$1, (%r12)
	jne	.LBBf7a7f_3
	xorl	%eax, %eax
	testq	%rsi, %rsi
	sete	%al
	shll	$12, %eax
	addq	%rsi, %rax
	cmpb	$0, 8(%r12)
	setne	%bl
	xorps	%xmm0, %xmm0
	movaps	%xmm0, 64(%rsp)
	movaps	%xmm0, 48(%rsp)
	movaps	%xmm0, 32(%rsp)
	leaq	32(%rsp), %rdi
	movq	%rax, %rsi
	callq	"eap_packet::packet::decode"
	cmpb	$1, 32(%rsp)
	jne	.LBBf7a7f_4
	movzbl	33(%rsp), %ecx
	jmp	.LBBf7a7f_8
.LBBf7a7f_3:
	movb	$0, 2632(%r12)
	movb	$1, %dl
	xorl	%r12d, %r12d
	xorl	%eax, %eax
	xorl	%ecx, %ecx
	jmp	.LBBf7a7f_9
.LBBf7a7f_4:
	movb	$7, %cl
	cmpb	$0, 40(%rsp)
	jne	.LBBf7a7f_8
	shlb	$2, %bl
	addb	$47, %bl
	movb	$11, %cl
	cmpb	%bl, 42(%rsp)
	jne	.LBBf7a7f_8
	movq	64(%rsp), %r14
	movq	72(%rsp), %rbx
	leaq	32(%rsp), %r15
	movl	$1512, %edx
	movq	%r15, %rdi
	xorl	%esi, %esi
	callq	memset@PLT
	xorps	%xmm0, %xmm0
	movaps	%xmm0, 16(%rsp)
	leaq	16(%r12), %rsi
	cmpb	$0, 8(%r12)
	je	.LBBf7a7f_11
	movb	$0, 14(%rsp)
	movw	$0, 12(%rsp)
	leaq	12(%rsp), %rdi
	leaq	32(%rsp), %r8
	leaq	16(%rsp), %r9
	movq	%r14, %rdx
	movq	%rbx, %rcx
	callq	"gpsk_ends::peer::GpskPeer::handle_step::<#e0641de541981142>"
	jmp	.LBBf7a7f_12
.LBBf7a7f_8:
	movb	$0, 2632(%r12)
	movb	$1, %al
	xorl	%r12d, %r12d
	xorl	%edx, %edx
.LBBf7a7f_9:
	xorl	%ebp, %ebp
	xorl	%r13d, %r13d
.LBBf7a7f_10:
	movzbl	%r13b, %esi
	shlq	$40, %rsi
	movzbl	%bpl, %edi
	shlq	$32, %rdi
	orq	%rsi, %rdi
	movzbl	%cl, %ecx
	shll	$24, %ecx
	orq	%rdi, %rcx
	movzbl	%dl, %edx
	shll	$16, %edx
	orq	%rcx, %rdx
	movzbl	%al, %ecx
	shll	$8, %ecx
	orq	%rdx, %rcx
	movzbl	%r12b, %eax
	orq	%rcx, %rax
	addq	$1544, %rsp
	.cfi_def_cfa_offset 56
	popq	%rbx
	.cfi_def_cfa_offset 48
	popq	%r12
	.cfi_def_cfa_offset 40
	popq	%r13
	.cfi_def_cfa_offset 32
	popq	%r14
	.cfi_def_cfa_offset 24
	popq	%r15
	.cfi_def_cfa_offset 16
	popq	%rbp
	.cfi_def_cfa_offset 8
	retq
.LBBf7a7f_11:
	.cfi_def_cfa_offset 1600
	movb	$0, 14(%rsp)
	movw	$0, 12(%rsp)
	leaq	12(%rsp), %rdi
	leaq	32(%rsp), %r8
	leaq	16(%rsp), %r9
	movq	%r14, %rdx
	movq	%rbx, %rcx
	callq	"psk_ends::peer::PskPeer::handle_step::<#becd8de5e2060522>"
.LBBf7a7f_12:
	movzbl	12(%rsp), %eax
	movzbl	13(%rsp), %ebp
	movzbl	14(%rsp), %r13d
	testb	%al, %al
	je	.LBBf7a7f_21
	movq	1536(%rsp), %rbx
	movq	1328(%r12), %r14
	movb	$1, 2632(%r12)
	movq	1504(%r14), %rdx
	testq	%rdx, %rdx
	je	.LBBf7a7f_15
	movq	%r14, %rdi
	xorl	%esi, %esi
	callq	memset@PLT
	movq	$0, 1504(%r14)
.LBBf7a7f_15:
	movb	$1, %r12b
	cmpq	$1500, %rbx
	ja	.LBBf7a7f_36
	movq	%r14, %rcx
	subq	%r15, %rcx
	cmpq	%rbx, %rcx
	jae	.LBBf7a7f_22
	xorl	%eax, %eax
	cmpq	$4, %rbx
	jb	.LBBf7a7f_30
	cmpq	$32, %rcx
	jb	.LBBf7a7f_30
	cmpq	$32, %rbx
	jae	.LBBf7a7f_23
	xorl	%eax, %eax
	jmp	.LBBf7a7f_27
.LBBf7a7f_21:
	movb	$0, 2632(%r12)
	movb	$1, %al
	xorl	%r12d, %r12d
	xorl	%edx, %edx
	movl	%ebp, %ecx
	jmp	.LBBf7a7f_9
.LBBf7a7f_22:
	leaq	32(%rsp), %rsi
	movq	%r14, %rdi
	movq	%rbx, %rdx
	callq	memmove@PLT
	jmp	.LBBf7a7f_35
.LBBf7a7f_23:
	movl	%ebx, %eax
	andl	$2016, %eax
	xorl	%ecx, %ecx
.LBBf7a7f_24:
	movups	32(%rsp,%rcx), %xmm0
	movups	48(%rsp,%rcx), %xmm1
	movups	%xmm0, (%r14,%rcx)
	movups	%xmm1, 16(%r14,%rcx)
	addq	$32, %rcx
	cmpq	%rcx, %rax
	jne	.LBBf7a7f_24
	cmpq	%rax, %rbx
	je	.LBBf7a7f_35
	testb	$28, %bl
	je	.LBBf7a7f_30
.LBBf7a7f_27:
	movq	%rax, %rcx
	movl	%ebx, %eax
	andl	$2044, %eax
.LBBf7a7f_28:
	movl	32(%rsp,%rcx), %edx
	movl	%edx, (%r14,%rcx)
	addq	$4, %rcx
	cmpq	%rcx, %rax
	jne	.LBBf7a7f_28
	cmpq	%rax, %rbx
	je	.LBBf7a7f_35
.LBBf7a7f_30:
	movq	%rbx, %rdx
	movq	%rax, %rcx
	andq	$3, %rdx
	je	.LBBf7a7f_33
	movq	%rax, %rcx
.LBBf7a7f_32:
	movzbl	32(%rsp,%rcx), %esi
	movb	%sil, (%r14,%rcx)
	incq	%rcx
	decq	%rdx
	jne	.LBBf7a7f_32
.LBBf7a7f_33:
	subq	%rbx, %rax
	cmpq	$-4, %rax
	ja	.LBBf7a7f_35
.LBBf7a7f_34:
	movzbl	32(%rsp,%rcx), %eax
	movb	%al, (%r14,%rcx)
	movzbl	33(%rsp,%rcx), %eax
	movb	%al, 1(%r14,%rcx)
	movzbl	34(%rsp,%rcx), %eax
	movb	%al, 2(%r14,%rcx)
	movzbl	35(%rsp,%rcx), %eax
	movb	%al, 3(%r14,%rcx)
	addq	$4, %rcx
	cmpq	%rcx, %rbx
	jne	.LBBf7a7f_34
.LBBf7a7f_35:
	movq	%rbx, 1504(%r14)
.LBBf7a7f_36:
	xorl	%eax, %eax
	xorl	%edx, %edx
	xorl	%ecx, %ecx
	jmp	.LBBf7a7f_10
.Lfunc_endf7a7f:
	.size	tuv_peer_method_handle, .Lfunc_endf7a7f-tuv_peer_method_handle
	.cfi_endproc

	.section	.text.tuv_peer_restart,"ax",@progbits
	.globl	tuv_peer_restart
	.p2align	4
	.type	tuv_peer_restart,@function
tuv_peer_restart:
	.cfi_startproc
	pushq	%r15
	.cfi_def_cfa_offset 16
	pushq	%r14
	.cfi_def_cfa_offset 24
	pushq	%r12
	.cfi_def_cfa_offset 32
	pushq	%rbx
	.cfi_def_cfa_offset 40
	pushq	%rax
	.cfi_def_cfa_offset 48
	.cfi_offset %rbx, -40
	.cfi_offset %r12, -32
	.cfi_offset %r14, -24
	.cfi_offset %r15, -16
	movq	(%rdi), %r14
	cmpb	$3, (%r14)
	jne	.LBB9a4cc_13
	movq	2296(%r14), %rdi
	movq	2304(%r14), %r15
	movq	552(%r14), %rax
	testq	%rax, %rax
	je	.LBB9a4cc_7
	leaq	544(%r14), %rcx
	leaq	1(%r15), %rdx
.LBB9a4cc_4:
	decq	%rax
	movzbl	(%rcx), %r8d
	incq	%rcx
	movq	%rdx, %r9
	movq	%rdi, %r10
	.p2align	4
.LBB9a4cc_5:
	decq	%r9
	je	.LBB9a4cc_13
	cmpb	$0, (%r10)
	leaq	1248(%r10), %r10
	setne	%r11b
	shlb	$2, %r11b
	addb	$47, %r11b
	cmpb	%r8b, %r11b
	jne	.LBB9a4cc_5
	testq	%rax, %rax
	jne	.LBB9a4cc_4
.LBB9a4cc_7:
	movups	(%rsi), %xmm0
	movups	16(%rsi), %xmm1
	movups	%xmm1, 752(%r14)
	movups	%xmm0, 736(%r14)
	testq	%r15, %r15
	je	.LBB9a4cc_10
	leaq	8(%r14), %rbx
	.p2align	4
.LBB9a4cc_9:
	leaq	1248(%rdi), %r12
	movq	%rbx, %rsi
	callq	"eap_method::peer_objects::start_one::<#807681be332d694b>"
	movq	%r12, %rdi
	decq	%r15
	jne	.LBB9a4cc_9
.LBB9a4cc_10:
	movb	$1, 776(%r14)
	movl	$0, 777(%r14)
	movw	$0, 781(%r14)
	movq	2288(%r14), %rdx
	testq	%rdx, %rdx
	je	.LBB9a4cc_12
	leaq	784(%r14), %rdi
	xorl	%esi, %esi
	callq	memset@PLT
	movq	$0, 2288(%r14)
.LBB9a4cc_12:
	movb	$0, 2632(%r14)
	movb	$1, %cl
	xorl	%eax, %eax
	jmp	.LBB9a4cc_14
.LBB9a4cc_13:
	movb	$0, 2632(%r14)
	movb	$1, %al
	xorl	%ecx, %ecx
.LBB9a4cc_14:
	movzbl	%cl, %ecx
	shlq	$32, %rcx
	movzbl	%al, %eax
	shll	$16, %eax
	orq	%rcx, %rax
	addq	$8, %rsp
	.cfi_def_cfa_offset 40
	popq	%rbx
	.cfi_def_cfa_offset 32
	popq	%r12
	.cfi_def_cfa_offset 24
	popq	%r14
	.cfi_def_cfa_offset 16
	popq	%r15
	.cfi_def_cfa_offset 8
	retq
.Lfunc_end9a4cc:
	.size	tuv_peer_restart, .Lfunc_end9a4cc-tuv_peer_restart
	.cfi_endproc

	.section	.text.tuv_port_aaa_timeout,"ax",@progbits
	.globl	tuv_port_aaa_timeout
	.p2align	4
	.type	tuv_port_aaa_timeout,@function
tuv_port_aaa_timeout:
	.cfi_startproc
	pushq	%r15
	.cfi_def_cfa_offset 16
	pushq	%r14
	.cfi_def_cfa_offset 24
	pushq	%rbx
	.cfi_def_cfa_offset 32
	subq	$1536, %rsp
	.cfi_def_cfa_offset 1568
	.cfi_offset %rbx, -32
	.cfi_offset %r14, -24
	.cfi_offset %r15, -16
	movq	(%rdi), %r15
	movq	$0, 16(%rsp)
	cmpb	$8, (%r15)
	jne	.LBB2bcdc_7
	leaq	8(%r15), %rbx
	leaq	24(%rsp), %rdi
	xorl	%r14d, %r14d
	movl	$1512, %edx
	xorl	%esi, %esi
	callq	memset@PLT
	movb	$0, 12(%rsp)
	movw	$0, 10(%rsp)
	cmpb	$1, 29(%r15)
	jne	.LBB2bcdc_2
	cmpb	$23, 34(%r15)
	jne	.LBB2bcdc_4
	leaq	10(%rsp), %rdi
	leaq	24(%rsp), %rdx
	movq	%rbx, %rsi
	callq	"switch_port::machine::SwitchPort::connect"
	movzbl	10(%rsp), %edx
	movzbl	11(%rsp), %ecx
	movzbl	12(%rsp), %eax
	movq	1528(%rsp), %r14
	jmp	.LBB2bcdc_6
.LBB2bcdc_7:
	movb	$0, 2632(%r15)
	movq	$16777216, 16(%rsp)
	jmp	.LBB2bcdc_8
.LBB2bcdc_4:
	xorl	%r14d, %r14d
.LBB2bcdc_2:
	xorl	%eax, %eax
	xorl	%ecx, %ecx
	xorl	%edx, %edx
.LBB2bcdc_6:
	movb	%dl, 13(%rsp)
	movb	%cl, 14(%rsp)
	movb	%al, 15(%rsp)
	movq	1560(%r15), %r9
	addq	$2632, %r15
	movq	%r15, (%rsp)
	leaq	16(%rsp), %rdi
	leaq	13(%rsp), %rsi
	leaq	24(%rsp), %rdx
	movq	%r14, %rcx
	movq	%rbx, %r8
	callq	"tuvaddri_c::port_turn::TuvPortTurn::of"
.LBB2bcdc_8:
	movq	16(%rsp), %rax
	addq	$1536, %rsp
	.cfi_def_cfa_offset 32
	popq	%rbx
	.cfi_def_cfa_offset 24
	popq	%r14
	.cfi_def_cfa_offset 16
	popq	%r15
	.cfi_def_cfa_offset 8
	retq
.Lfunc_end2bcdc:
	.size	tuv_port_aaa_timeout, .Lfunc_end2bcdc-tuv_port_aaa_timeout
	.cfi_endproc

	.section	.text.tuv_port_answer,"ax",@progbits
	.globl	tuv_port_answer
	.p2align	4
	.type	tuv_port_answer,@function
tuv_port_answer:
	.cfi_startproc
	pushq	%rbp
	.cfi_def_cfa_offset 16
	pushq	%r15
	.cfi_def_cfa_offset 24
	pushq	%r14
	.cfi_def_cfa_offset 32
	pushq	%r13
	.cfi_def_cfa_offset 40
	pushq	%r12
	.cfi_def_cfa_offset 48
	pushq	%rbx
	.cfi_def_cfa_offset 56
	subq	$1640, %rsp
	.cfi_def_cfa_offset 1696
	.cfi_offset %rbx, -56
	.cfi_offset %r12, -48
	.cfi_offset %r13, -40
	.cfi_offset %r14, -32
	.cfi_offset %r15, -24
	.cfi_offset %rbp, -16
	xorl	%r14d, %r14d
	testq	%rdx, %rdx
	sete	%bpl
	movq	(%rdi), %r13
	movq	$0, 40(%rsp)
	cmpb	$2, %sil
	je	.LBBc39ca_6
	movzbl	%sil, %eax
	cmpl	$3, %eax
	je	.LBBc39ca_5
	cmpl	$11, %eax
	jne	.LBBc39ca_12
	movb	$1, %bl
	xorl	%eax, %eax
	cmpb	$8, (%r13)
	je	.LBBc39ca_7
	jmp	.LBBc39ca_4
.LBBc39ca_5:
	movb	$2, %al
	xorl	%ebx, %ebx
	cmpb	$8, (%r13)
	jne	.LBBc39ca_4
.LBBc39ca_7:
	movl	%eax, 20(%rsp)
	movq	%rdx, %r12
	movq	%rcx, 24(%rsp)
	leaq	8(%r13), %rax
	movq	%rax, 72(%rsp)
	leaq	128(%rsp), %rdi
	xorl	%r15d, %r15d
	movl	$1512, %edx
	xorl	%esi, %esi
	callq	memset@PLT
	xorps	%xmm0, %xmm0
	movaps	%xmm0, 48(%rsp)
	movq	$0, 64(%rsp)
	movb	$3, %cl
	movb	$2, %al
	cmpb	$1, 29(%r13)
	jne	.LBBc39ca_25
	cmpb	$23, 34(%r13)
	jne	.LBBc39ca_13
	movb	%bpl, %r14b
	shll	$12, %r14d
	addq	%r14, %r12
	movaps	%xmm0, 112(%rsp)
	movaps	%xmm0, 96(%rsp)
	movaps	%xmm0, 80(%rsp)
	leaq	80(%rsp), %rdi
	movq	%r12, 32(%rsp)
	movq	%r12, %rsi
	movq	24(%rsp), %rdx
	callq	"eap_packet::packet::decode"
	cmpb	$0, 80(%rsp)
	je	.LBBc39ca_14
.LBBc39ca_10:
	testb	%bl, %bl
	movb	$3, %cl
	je	.LBBc39ca_24
	movb	$4, %al
	xorl	%r15d, %r15d
	jmp	.LBBc39ca_25
.LBBc39ca_6:
	movb	$1, %al
	xorl	%ebx, %ebx
	cmpb	$8, (%r13)
	je	.LBBc39ca_7
.LBBc39ca_4:
	movb	$0, 2632(%r13)
	movq	$16777216, 40(%rsp)
	jmp	.LBBc39ca_26
.LBBc39ca_12:
	movb	$0, 2632(%r13)
	movl	$16777216, %eax
	jmp	.LBBc39ca_27
.LBBc39ca_13:
	xorl	%r15d, %r15d
	jmp	.LBBc39ca_25
.LBBc39ca_14:
	movzbl	88(%rsp), %eax
	leaq	.LJTIc39ca_0(%rip), %rcx
	movslq	(%rcx,%rax,4), %rax
	addq	%rcx, %rax
	jmpq	*%rax
.LBBc39ca_15:
	testb	%bl, %bl
	je	.LBBc39ca_24
	leaq	32(%r13), %rsi
	leaq	48(%rsp), %rdi
	leaq	128(%rsp), %r8
	movq	32(%rsp), %rdx
	movq	24(%rsp), %rcx
	callq	"pass_through::machine::PassThrough::from_backend_step"
	movl	16(%r13), %eax
	jmp	.LBBc39ca_23
.LBBc39ca_17:
	movl	20(%rsp), %eax
	movzbl	%al, %r15d
	testb	%al, %al
	movb	$3, %cl
	je	.LBBc39ca_29
	cmpl	$1, %r15d
	jne	.LBBc39ca_24
	leaq	32(%r13), %rsi
	leaq	48(%rsp), %rdi
	leaq	128(%rsp), %r8
	movq	32(%rsp), %rdx
	movq	24(%rsp), %rcx
	callq	"pass_through::machine::PassThrough::from_backend_step"
	movw	$258, 29(%r13)
	movb	$0, 1552(%r13)
	movl	20(%r13), %eax
	jmp	.LBBc39ca_23
.LBBc39ca_20:
	movzbl	20(%rsp), %r15d
	testb	%r15b, %r15b
	movb	$3, %cl
	je	.LBBc39ca_29
	cmpl	$2, %r15d
	jne	.LBBc39ca_24
	leaq	32(%r13), %rsi
	leaq	48(%rsp), %rdi
	leaq	128(%rsp), %r8
	movq	32(%rsp), %rdx
	movq	24(%rsp), %rcx
	callq	"pass_through::machine::PassThrough::from_backend_step"
	movw	$3, 29(%r13)
	movl	8(%r13), %eax
.LBBc39ca_23:
	movl	%eax, 1556(%r13)
	movzbl	66(%rsp), %ecx
	movq	1632(%rsp), %r15
	xorl	%eax, %eax
	jmp	.LBBc39ca_25
.LBBc39ca_24:
	movw	$3, 29(%r13)
	movl	8(%r13), %eax
	movl	%eax, 1556(%r13)
	xorl	%r15d, %r15d
	xorl	%eax, %eax
	xorl	%ecx, %ecx
.LBBc39ca_25:
	movb	%cl, 80(%rsp)
	movb	%al, 81(%rsp)
	movb	$0, 82(%rsp)
	movq	1560(%r13), %r9
	addq	$2632, %r13
	movq	%r13, (%rsp)
	leaq	40(%rsp), %rdi
	leaq	80(%rsp), %rsi
	leaq	128(%rsp), %rdx
	movq	%r15, %rcx
	movq	72(%rsp), %r8
	callq	"tuvaddri_c::port_turn::TuvPortTurn::of"
.LBBc39ca_26:
	movq	40(%rsp), %rax
.LBBc39ca_27:
	addq	$1640, %rsp
	.cfi_def_cfa_offset 56
	popq	%rbx
	.cfi_def_cfa_offset 48
	popq	%r12
	.cfi_def_cfa_offset 40
	popq	%r13
	.cfi_def_cfa_offset 32
	popq	%r14
	.cfi_def_cfa_offset 24
	popq	%r15
	.cfi_def_cfa_offset 16
	popq	%rbp
	.cfi_def_cfa_offset 8
	retq
.LBBc39ca_29:
	.cfi_def_cfa_offset 1696
	movb	$4, %al
	jmp	.LBBc39ca_25
.Lfunc_endc39ca:
	.size	tuv_port_answer, .Lfunc_endc39ca-tuv_port_answer
	.cfi_endproc
	.section	.rodata.tuv_port_answer,"a",@progbits
	.p2align	2, 0x0
.LJTIc39ca_0:
	.long	.LBBc39ca_15-.LJTIc39ca_0
	.long	.LBBc39ca_10-.LJTIc39ca_0
	.long	.LBBc39ca_17-.LJTIc39ca_0
	.long	.LBBc39ca_20-.LJTIc39ca_0

	.section	.text.tuv_port_begin,"ax",@progbits
	.globl	tuv_port_begin
	.p2align	4
	.type	tuv_port_begin,@function
tuv_port_begin:
	.cfi_startproc
	pushq	%rbp
	.cfi_def_cfa_offset 16
	pushq	%r15
	.cfi_def_cfa_offset 24
	pushq	%r14
	.cfi_def_cfa_offset 32
	pushq	%r13
	.cfi_def_cfa_offset 40
	pushq	%r12
	.cfi_def_cfa_offset 48
	pushq	%rbx
	.cfi_def_cfa_offset 56
	subq	$88, %rsp
	.cfi_def_cfa_offset 144
	.cfi_offset %rbx, -56
	.cfi_offset %r12, -48
	.cfi_offset %r13, -40
	.cfi_offset %r14, -32
	.cfi_offset %r15, -24
	.cfi_offset %rbp, -16
	movl	%edx, %ebp
	movb	$7, %al
	cmpb	$10, %bpl
	ja	.LBBd6ea2_17
	movq	%rcx, %r14
	movl	%esi, %r12d
	movq	%rdi, %rbx
	callq	"tuvaddri_c::sent::empty_frame"
	movl	%eax, %ecx
	movb	$8, %al
	cmpb	$1, %cl
	jne	.LBBd6ea2_17
	movq	%rdx, %r13
	movzbl	16(%r14), %eax
	movq	(%rbx), %r15
	movzbl	(%r15), %ebx
	movq	8(%r15), %rcx
	movq	%rcx, (%rsp)
	movq	24(%r15), %rcx
	movq	%rcx, 8(%rsp)
	movq	1328(%r15), %rcx
	movq	%rcx, 80(%rsp)
	movq	1528(%r15), %rcx
	movq	%rcx, 72(%rsp)
	movq	1560(%r15), %rcx
	movq	%rcx, 64(%rsp)
	movq	1976(%r15), %rcx
	movq	%rcx, 56(%rsp)
	movq	2296(%r15), %rcx
	movq	%rcx, 16(%rsp)
	movq	2312(%r15), %rcx
	movq	%rcx, 48(%rsp)
	movq	2328(%r15), %rcx
	movq	%rcx, 40(%rsp)
	movups	(%r14), %xmm0
	movq	2344(%r15), %rcx
	movq	%rcx, 32(%rsp)
	movq	2352(%r15), %rcx
	movq	%rcx, 24(%rsp)
	movq	2624(%r15), %r14
	movq	$8, (%r15)
	movups	%xmm0, 8(%r15)
	movb	%al, 24(%r15)
	movl	$0, 25(%r15)
	movl	$0, 28(%r15)
	movb	%r12b, 32(%r15)
	movb	%bpl, 33(%r15)
	leaq	1568(%r15), %r12
	leaq	34(%r15), %rdi
	movl	$1526, %edx
	xorl	%esi, %esi
	callq	memset@PLT
	movq	%r13, 1560(%r15)
	movl	$1064, %edx
	movq	%r12, %rdi
	xorl	%esi, %esi
	callq	memset@PLT
	leaq	.LJTId6ea2_0(%rip), %rax
	movslq	(%rax,%rbx,4), %rcx
	addq	%rax, %rcx
	jmpq	*%rcx
.LBBd6ea2_7:
	movq	(%rsp), %rdi
	cmpq	$0, 8(%rsp)
	je	.LBBd6ea2_9
	callq	rattle_dealloc@PLT
.LBBd6ea2_9:
	movq	%r14, %rdi
	jmp	.LBBd6ea2_15
.LBBd6ea2_4:
	movq	56(%rsp), %rdi
	jmp	.LBBd6ea2_15
.LBBd6ea2_11:
	movq	24(%rsp), %rbx
	movq	40(%rsp), %rdi
	cmpq	$0, 32(%rsp)
	je	.LBBd6ea2_13
	callq	rattle_dealloc@PLT
.LBBd6ea2_13:
	movq	%rbx, %rdi
	jmp	.LBBd6ea2_15
.LBBd6ea2_5:
	cmpq	$0, 48(%rsp)
	je	.LBBd6ea2_16
	movq	16(%rsp), %rdi
	jmp	.LBBd6ea2_15
.LBBd6ea2_3:
	movq	80(%rsp), %rdi
	jmp	.LBBd6ea2_15
.LBBd6ea2_10:
	movq	72(%rsp), %rdi
	jmp	.LBBd6ea2_15
.LBBd6ea2_14:
	movq	64(%rsp), %rdi
.LBBd6ea2_15:
	callq	rattle_dealloc@PLT
.LBBd6ea2_16:
	movb	$0, 2632(%r15)
	xorl	%eax, %eax
.LBBd6ea2_17:
	addq	$88, %rsp
	.cfi_def_cfa_offset 56
	popq	%rbx
	.cfi_def_cfa_offset 48
	popq	%r12
	.cfi_def_cfa_offset 40
	popq	%r13
	.cfi_def_cfa_offset 32
	popq	%r14
	.cfi_def_cfa_offset 24
	popq	%r15
	.cfi_def_cfa_offset 16
	popq	%rbp
	.cfi_def_cfa_offset 8
	retq
.Lfunc_endd6ea2:
	.size	tuv_port_begin, .Lfunc_endd6ea2-tuv_port_begin
	.cfi_endproc
	.section	.rodata.tuv_port_begin,"a",@progbits
	.p2align	2, 0x0
.LJTId6ea2_0:
	.long	.LBBd6ea2_16-.LJTId6ea2_0
	.long	.LBBd6ea2_3-.LJTId6ea2_0
	.long	.LBBd6ea2_4-.LJTId6ea2_0
	.long	.LBBd6ea2_5-.LJTId6ea2_0
	.long	.LBBd6ea2_7-.LJTId6ea2_0
	.long	.LBBd6ea2_7-.LJTId6ea2_0
	.long	.LBBd6ea2_10-.LJTId6ea2_0
	.long	.LBBd6ea2_11-.LJTId6ea2_0
	.long	.LBBd6ea2_14-.LJTId6ea2_0

	.section	.text.tuv_port_control,"ax",@progbits
	.globl	tuv_port_control
	.p2align	4
	.type	tuv_port_control,@function
tuv_port_control:
	.cfi_startproc
	pushq	%rbp
	.cfi_def_cfa_offset 16
	pushq	%r15
	.cfi_def_cfa_offset 24
	pushq	%r14
	.cfi_def_cfa_offset 32
	pushq	%rbx
	.cfi_def_cfa_offset 40
	subq	$1544, %rsp
	.cfi_def_cfa_offset 1584
	.cfi_offset %rbx, -40
	.cfi_offset %r14, -32
	.cfi_offset %r15, -24
	.cfi_offset %rbp, -16
	movq	(%rdi), %r15
	movq	$0, 24(%rsp)
	decb	%sil
	cmpb	$2, %sil
	ja	.LBB1cd35_11
	shlb	$3, %sil
	movl	$65538, %ebp
	movl	%esi, %ecx
	shrl	%cl, %ebp
	cmpb	$8, (%r15)
	jne	.LBB1cd35_8
	leaq	8(%r15), %rbx
	leaq	32(%rsp), %rdi
	xorl	%r14d, %r14d
	movl	$1512, %edx
	xorl	%esi, %esi
	callq	memset@PLT
	cmpb	%bpl, 28(%r15)
	jne	.LBB1cd35_4
	xorl	%eax, %eax
	xorl	%ecx, %ecx
	xorl	%edx, %edx
	jmp	.LBB1cd35_7
.LBB1cd35_11:
	movb	$0, 2632(%r15)
	movl	$16777216, %eax
	jmp	.LBB1cd35_10
.LBB1cd35_8:
	movb	$0, 2632(%r15)
	movq	$16777216, 24(%rsp)
	jmp	.LBB1cd35_9
.LBB1cd35_4:
	movb	%bpl, 28(%r15)
	movb	$0, 22(%rsp)
	movw	$0, 20(%rsp)
	cmpb	$0, 29(%r15)
	je	.LBB1cd35_5
	leaq	20(%rsp), %rdi
	leaq	32(%rsp), %rdx
	movq	%rbx, %rsi
	callq	"switch_port::machine::SwitchPort::begin"
	movzbl	20(%rsp), %eax
	movzbl	21(%rsp), %ecx
	movzbl	22(%rsp), %edx
	movq	1536(%rsp), %r14
	jmp	.LBB1cd35_7
.LBB1cd35_5:
	movb	$0, 30(%r15)
	xorl	%r14d, %r14d
	xorl	%edx, %edx
	xorl	%ecx, %ecx
	xorl	%eax, %eax
.LBB1cd35_7:
	movb	%al, 20(%rsp)
	movb	%cl, 21(%rsp)
	movb	%dl, 22(%rsp)
	movq	1560(%r15), %r9
	addq	$2632, %r15
	movq	%r15, (%rsp)
	leaq	24(%rsp), %rdi
	leaq	20(%rsp), %rsi
	leaq	32(%rsp), %rdx
	movq	%r14, %rcx
	movq	%rbx, %r8
	callq	"tuvaddri_c::port_turn::TuvPortTurn::of"
.LBB1cd35_9:
	movq	24(%rsp), %rax
.LBB1cd35_10:
	addq	$1544, %rsp
	.cfi_def_cfa_offset 40
	popq	%rbx
	.cfi_def_cfa_offset 32
	popq	%r14
	.cfi_def_cfa_offset 24
	popq	%r15
	.cfi_def_cfa_offset 16
	popq	%rbp
	.cfi_def_cfa_offset 8
	retq
.Lfunc_end1cd35:
	.size	tuv_port_control, .Lfunc_end1cd35-tuv_port_control
	.cfi_endproc

	.section	.rodata.cst16,"aM",@progbits,16
	.p2align	4, 0x0
.LCPIdda28_0:
	.byte	1,1
	.zero	1
	.byte	0
	.zero	1
	.zero	1
	.zero	1
	.zero	1
	.zero	1
	.zero	1
	.zero	1
	.zero	1
	.zero	1
	.zero	1
	.zero	1
	.zero	1
.LCPIdda28_1:
	.byte	1,1,0,0,0,0,0,0,0,0,0,0,0,0,0,0
	.section	.text.tuv_port_frame,"ax",@progbits
	.globl	tuv_port_frame
	.p2align	4
	.type	tuv_port_frame,@function
tuv_port_frame:
	.cfi_startproc
	pushq	%rbp
	.cfi_def_cfa_offset 16
	pushq	%r15
	.cfi_def_cfa_offset 24
	pushq	%r14
	.cfi_def_cfa_offset 32
	pushq	%r13
	.cfi_def_cfa_offset 40
	pushq	%r12
	.cfi_def_cfa_offset 48
	pushq	%rbx
	.cfi_def_cfa_offset 56
	subq	$1560, %rsp
	.cfi_def_cfa_offset 1616
	.cfi_offset %rbx, -56
	.cfi_offset %r12, -48
	.cfi_offset %r13, -40
	.cfi_offset %r14, -32
	.cfi_offset %r15, -24
	.cfi_offset %rbp, -16
	xorl	%r13d, %r13d
	testq	%rsi, %rsi
	sete	%bl
	movq	(%rdi), %r12
	movq	$0, 40(%rsp)
	cmpb	$8, (%r12)
	jne	.LBBdda28_3
	movq	%rdx, %r15
	movq	%rsi, %r14
	leaq	48(%rsp), %rdi
	xorl	%ebp, %ebp
	movl	$1512, %edx
	xorl	%esi, %esi
	callq	memset@PLT
	movb	$3, %al
	cmpq	$4, %r15
	jae	.LBBdda28_4
	xorl	%ecx, %ecx
	leaq	8(%r12), %r8
	jmp	.LBBdda28_26
.LBBdda28_3:
	movb	$0, 2632(%r12)
	movq	$16777216, 40(%rsp)
	jmp	.LBBdda28_27
.LBBdda28_4:
	movb	%bl, %r13b
	shll	$12, %r13d
	addq	%r13, %r14
	movzwl	2(%r14), %ecx
	rolw	$8, %cx
	movzwl	%cx, %ecx
	addq	$-4, %r15
	cmpq	%rcx, %r15
	jae	.LBBdda28_6
	movb	$1, %cl
	xorl	%ebp, %ebp
	leaq	8(%r12), %r8
	jmp	.LBBdda28_26
.LBBdda28_6:
	movzbl	1(%r14), %edx
	cmpl	$2, %edx
	je	.LBBdda28_14
	cmpl	$1, %edx
	leaq	8(%r12), %r8
	je	.LBBdda28_12
	testl	%edx, %edx
	jne	.LBBdda28_16
	pxor	%xmm0, %xmm0
	movdqa	%xmm0, 16(%rsp)
	movq	$0, 32(%rsp)
	cmpb	$1, 29(%r12)
	jne	.LBBdda28_17
	movq	%r8, %rbx
	addq	$4, %r14
	leaq	32(%r12), %rsi
	leaq	16(%rsp), %rdi
	leaq	48(%rsp), %r8
	movq	%r14, %rdx
	callq	"pass_through::machine::PassThrough::from_peer_step"
	cmpb	$1, 32(%rsp)
	jne	.LBBdda28_28
	movb	$3, %al
	movzbl	33(%rsp), %ecx
	movb	$3, %bpl
	movq	%rbx, %r8
	jmp	.LBBdda28_26
.LBBdda28_12:
	movb	$0, 18(%rsp)
	movw	$0, 16(%rsp)
	movzbl	29(%r12), %eax
	leaq	.LJTIdda28_1(%rip), %rcx
	movslq	(%rcx,%rax,4), %rax
	addq	%rcx, %rax
	jmpq	*%rax
.LBBdda28_13:
	movw	$515, 16(%rsp)
	jmp	.LBBdda28_21
.LBBdda28_14:
	movzbl	29(%r12), %ecx
	leaq	.LJTIdda28_0(%rip), %rdx
	movslq	(%rdx,%rcx,4), %rcx
	addq	%rdx, %rcx
	leaq	8(%r12), %r8
	jmpq	*%rcx
.LBBdda28_17:
	movb	$2, %bpl
	jmp	.LBBdda28_25
.LBBdda28_16:
	xorl	%ecx, %ecx
	movb	$1, %bpl
	jmp	.LBBdda28_26
.LBBdda28_18:
	leaq	16(%rsp), %rdi
	leaq	48(%rsp), %rdx
	movq	%r8, %rsi
	movq	%r8, %rbx
	callq	"switch_port::machine::SwitchPort::connect"
	jmp	.LBBdda28_20
.LBBdda28_19:
	leaq	16(%rsp), %rdi
	leaq	48(%rsp), %rdx
	movq	%r8, %rsi
	movq	%r8, %rbx
	callq	"switch_port::machine::SwitchPort::begin"
.LBBdda28_20:
	movq	%rbx, %r8
.LBBdda28_21:
	movzbl	16(%rsp), %eax
	movzbl	17(%rsp), %ebp
	movzbl	18(%rsp), %ecx
	jmp	.LBBdda28_26
.LBBdda28_22:
	movb	$0, 30(%r12)
	movb	$1, 1552(%r12)
	movzbl	32(%r12), %eax
	movd	.LCPIdda28_1(%rip), %xmm0
	pinsrb	$2, %eax, %xmm0
	shll	$8, %eax
	orl	$83886081, %eax
	movl	%eax, 48(%rsp)
	movb	$1, 52(%rsp)
	movq	$5, 1552(%rsp)
	movd	%xmm0, 34(%r12)
	leaq	40(%r12), %r14
	movq	1544(%r12), %rdx
	testq	%rdx, %rdx
	je	.LBBdda28_24
	movq	%r14, %rdi
	xorl	%esi, %esi
	movq	%r8, %rbx
	callq	memset@PLT
	movq	%rbx, %r8
.LBBdda28_24:
	movzbl	52(%rsp), %eax
	movb	%al, 4(%r14)
	movl	48(%rsp), %eax
	movl	%eax, (%r14)
	movq	$5, 1544(%r12)
	movb	$1, 29(%r12)
	movl	16(%r12), %eax
	movl	%eax, 1556(%r12)
	movb	$1, %al
	xorl	%ebp, %ebp
.LBBdda28_25:
	xorl	%ecx, %ecx
.LBBdda28_26:
	movb	%al, 16(%rsp)
	movb	%bpl, 17(%rsp)
	movb	%cl, 18(%rsp)
	movq	1552(%rsp), %rcx
	movq	1560(%r12), %r9
	addq	$2632, %r12
	movq	%r12, (%rsp)
	leaq	40(%rsp), %rdi
	leaq	16(%rsp), %rsi
	leaq	48(%rsp), %rdx
	callq	"tuvaddri_c::port_turn::TuvPortTurn::of"
.LBBdda28_27:
	movq	40(%rsp), %rax
	addq	$1560, %rsp
	.cfi_def_cfa_offset 56
	popq	%rbx
	.cfi_def_cfa_offset 48
	popq	%r12
	.cfi_def_cfa_offset 40
	popq	%r13
	.cfi_def_cfa_offset 32
	popq	%r14
	.cfi_def_cfa_offset 24
	popq	%r15
	.cfi_def_cfa_offset 16
	popq	%rbp
	.cfi_def_cfa_offset 8
	retq
.LBBdda28_28:
	.cfi_def_cfa_offset 1616
	movl	12(%r12), %eax
	movl	%eax, 1556(%r12)
	movzbl	34(%rsp), %eax
	addb	%al, %al
	xorl	%ebp, %ebp
	xorl	%ecx, %ecx
	movq	%rbx, %r8
	jmp	.LBBdda28_26
.Lfunc_enddda28:
	.size	tuv_port_frame, .Lfunc_enddda28-tuv_port_frame
	.cfi_endproc
	.section	.rodata.tuv_port_frame,"a",@progbits
	.p2align	2, 0x0
.LJTIdda28_0:
	.long	.LBBdda28_17-.LJTIdda28_0
	.long	.LBBdda28_22-.LJTIdda28_0
	.long	.LBBdda28_22-.LJTIdda28_0
	.long	.LBBdda28_17-.LJTIdda28_0
	.long	.LBBdda28_17-.LJTIdda28_0
	.long	.LBBdda28_17-.LJTIdda28_0
.LJTIdda28_1:
	.long	.LBBdda28_13-.LJTIdda28_1
	.long	.LBBdda28_18-.LJTIdda28_1
	.long	.LBBdda28_18-.LJTIdda28_1
	.long	.LBBdda28_13-.LJTIdda28_1
	.long	.LBBdda28_19-.LJTIdda28_1
	.long	.LBBdda28_19-.LJTIdda28_1

	.section	.text.tuv_port_link,"ax",@progbits
	.globl	tuv_port_link
	.p2align	4
	.type	tuv_port_link,@function
tuv_port_link:
	.cfi_startproc
	pushq	%rbp
	.cfi_def_cfa_offset 16
	pushq	%r14
	.cfi_def_cfa_offset 24
	pushq	%rbx
	.cfi_def_cfa_offset 32
	subq	$1536, %rsp
	.cfi_def_cfa_offset 1568
	.cfi_offset %rbx, -32
	.cfi_offset %r14, -24
	.cfi_offset %rbp, -16
	movq	(%rdi), %r14
	movq	$0, 16(%rsp)
	cmpb	$8, (%r14)
	jne	.LBB3e1e0_7
	movl	%esi, %ebp
	leaq	8(%r14), %rbx
	leaq	24(%rsp), %rdi
	movl	$1512, %edx
	xorl	%esi, %esi
	callq	memset@PLT
	movb	$0, 12(%rsp)
	movw	$0, 10(%rsp)
	testb	%bpl, %bpl
	je	.LBB3e1e0_2
	cmpb	$0, 29(%r14)
	jne	.LBB3e1e0_4
	leaq	10(%rsp), %rdi
	leaq	24(%rsp), %rdx
	movq	%rbx, %rsi
	callq	"switch_port::machine::SwitchPort::begin"
	movzbl	10(%rsp), %eax
	movzbl	11(%rsp), %edx
	movzbl	12(%rsp), %esi
	movq	1528(%rsp), %rcx
	jmp	.LBB3e1e0_6
.LBB3e1e0_7:
	movb	$0, 2632(%r14)
	movq	$16777216, 16(%rsp)
	jmp	.LBB3e1e0_8
.LBB3e1e0_2:
	movw	$0, 29(%r14)
.LBB3e1e0_4:
	xorl	%ecx, %ecx
	xorl	%eax, %eax
	xorl	%edx, %edx
	xorl	%esi, %esi
.LBB3e1e0_6:
	movb	%al, 13(%rsp)
	movb	%dl, 14(%rsp)
	movb	%sil, 15(%rsp)
	movq	1560(%r14), %r9
	addq	$2632, %r14
	movq	%r14, (%rsp)
	leaq	16(%rsp), %rdi
	leaq	13(%rsp), %rsi
	leaq	24(%rsp), %rdx
	movq	%rbx, %r8
	callq	"tuvaddri_c::port_turn::TuvPortTurn::of"
.LBB3e1e0_8:
	movq	16(%rsp), %rax
	addq	$1536, %rsp
	.cfi_def_cfa_offset 32
	popq	%rbx
	.cfi_def_cfa_offset 24
	popq	%r14
	.cfi_def_cfa_offset 16
	popq	%rbp
	.cfi_def_cfa_offset 8
	retq
.Lfunc_end3e1e0:
	.size	tuv_port_link, .Lfunc_end3e1e0-tuv_port_link
	.cfi_endproc

	.section	.text.tuv_port_reauthenticate,"ax",@progbits
	.globl	tuv_port_reauthenticate
	.p2align	4
	.type	tuv_port_reauthenticate,@function
tuv_port_reauthenticate:
	.cfi_startproc
	pushq	%r15
	.cfi_def_cfa_offset 16
	pushq	%r14
	.cfi_def_cfa_offset 24
	pushq	%rbx
	.cfi_def_cfa_offset 32
	subq	$1536, %rsp
	.cfi_def_cfa_offset 1568
	.cfi_offset %rbx, -32
	.cfi_offset %r14, -24
	.cfi_offset %r15, -16
	movq	(%rdi), %r15
	movq	$0, 16(%rsp)
	cmpb	$8, (%r15)
	jne	.LBB405ea_5
	leaq	8(%r15), %rbx
	leaq	24(%rsp), %rdi
	xorl	%r14d, %r14d
	movl	$1512, %edx
	xorl	%esi, %esi
	callq	memset@PLT
	movb	$0, 12(%rsp)
	movw	$0, 10(%rsp)
	cmpb	$2, 29(%r15)
	jne	.LBB405ea_2
	leaq	10(%rsp), %rdi
	leaq	24(%rsp), %rdx
	movq	%rbx, %rsi
	callq	"switch_port::machine::SwitchPort::connect"
	movzbl	10(%rsp), %edx
	movzbl	11(%rsp), %ecx
	movzbl	12(%rsp), %eax
	movq	1528(%rsp), %r14
	jmp	.LBB405ea_4
.LBB405ea_5:
	movb	$0, 2632(%r15)
	movq	$16777216, 16(%rsp)
	jmp	.LBB405ea_6
.LBB405ea_2:
	xorl	%eax, %eax
	xorl	%ecx, %ecx
	xorl	%edx, %edx
.LBB405ea_4:
	movb	%dl, 13(%rsp)
	movb	%cl, 14(%rsp)
	movb	%al, 15(%rsp)
	movq	1560(%r15), %r9
	addq	$2632, %r15
	movq	%r15, (%rsp)
	leaq	16(%rsp), %rdi
	leaq	13(%rsp), %rsi
	leaq	24(%rsp), %rdx
	movq	%r14, %rcx
	movq	%rbx, %r8
	callq	"tuvaddri_c::port_turn::TuvPortTurn::of"
.LBB405ea_6:
	movq	16(%rsp), %rax
	addq	$1536, %rsp
	.cfi_def_cfa_offset 32
	popq	%rbx
	.cfi_def_cfa_offset 24
	popq	%r14
	.cfi_def_cfa_offset 16
	popq	%r15
	.cfi_def_cfa_offset 8
	retq
.Lfunc_end405ea:
	.size	tuv_port_reauthenticate, .Lfunc_end405ea-tuv_port_reauthenticate
	.cfi_endproc

	.section	.text.tuv_port_second,"ax",@progbits
	.globl	tuv_port_second
	.p2align	4
	.type	tuv_port_second,@function
tuv_port_second:
	.cfi_startproc
	pushq	%r14
	.cfi_def_cfa_offset 16
	pushq	%rbx
	.cfi_def_cfa_offset 24
	subq	$1576, %rsp
	.cfi_def_cfa_offset 1600
	.cfi_offset %rbx, -24
	.cfi_offset %r14, -16
	movq	(%rdi), %r14
	movq	$0, 24(%rsp)
	cmpb	$8, (%r14)
	jne	.LBBc8339_16
	leaq	8(%r14), %rbx
	leaq	64(%rsp), %rdi
	movl	$1512, %edx
	xorl	%esi, %esi
	callq	memset@PLT
	movl	1556(%r14), %eax
	cmpl	$1, %eax
	ja	.LBBc8339_14
	movw	$0, 16(%rsp)
	movb	$0, 18(%rsp)
	movw	$0, 12(%rsp)
	movb	$0, 14(%rsp)
	movw	$0, 8(%rsp)
	movb	$0, 10(%rsp)
	movzbl	29(%r14), %eax
	leaq	.LJTIc8339_0(%rip), %rcx
	movslq	(%rcx,%rax,4), %rax
	addq	%rcx, %rax
	jmpq	*%rax
.LBBc8339_10:
	xorl	%eax, %eax
	xorl	%esi, %esi
	xorl	%edx, %edx
	movq	1568(%rsp), %rcx
	jmp	.LBBc8339_15
.LBBc8339_16:
	movb	$0, 2632(%r14)
	movq	$16777216, 24(%rsp)
	jmp	.LBBc8339_17
.LBBc8339_14:
	decl	%eax
	movl	%eax, 1556(%r14)
	xorl	%ecx, %ecx
	xorl	%edx, %edx
	xorl	%esi, %esi
	xorl	%eax, %eax
.LBBc8339_15:
	movb	%dl, 32(%rsp)
	movb	%sil, 33(%rsp)
	movb	%al, 34(%rsp)
	movq	1560(%r14), %r9
	addq	$2632, %r14
	movq	%r14, (%rsp)
	leaq	24(%rsp), %rdi
	leaq	32(%rsp), %rsi
	leaq	64(%rsp), %rdx
	movq	%rbx, %r8
	callq	"tuvaddri_c::port_turn::TuvPortTurn::of"
.LBBc8339_17:
	movq	24(%rsp), %rax
	addq	$1576, %rsp
	.cfi_def_cfa_offset 24
	popq	%rbx
	.cfi_def_cfa_offset 16
	popq	%r14
	.cfi_def_cfa_offset 8
	retq
.LBBc8339_3:
	.cfi_def_cfa_offset 1600
	movzbl	34(%r14), %eax
	cmpl	$26, %eax
	je	.LBBc8339_5
	cmpl	$1, %eax
	jne	.LBBc8339_8
.LBBc8339_5:
	leaq	32(%r14), %rsi
	xorps	%xmm0, %xmm0
	movaps	%xmm0, 32(%rsp)
	movq	$0, 48(%rsp)
	movw	$0, 20(%rsp)
	movb	$0, 22(%rsp)
	leaq	32(%rsp), %rdi
	leaq	64(%rsp), %rdx
	callq	"pass_through::machine::PassThrough::timeout_step"
	movzbl	34(%r14), %eax
	movl	$1073217535, %ecx
	btq	%rax, %rcx
	jae	.LBBc8339_6
	movl	16(%r14), %eax
	movl	%eax, 1556(%r14)
	xorl	%eax, %eax
	movzbl	50(%rsp), %edx
	xorl	%esi, %esi
	movq	1568(%rsp), %rcx
	jmp	.LBBc8339_15
.LBBc8339_12:
	leaq	16(%rsp), %rdi
	leaq	64(%rsp), %rdx
	movq	%rbx, %rsi
	callq	"switch_port::machine::SwitchPort::connect"
	movzbl	16(%rsp), %edx
	movzbl	17(%rsp), %esi
	movzbl	18(%rsp), %eax
	movq	1568(%rsp), %rcx
	jmp	.LBBc8339_15
.LBBc8339_9:
	cmpl	$0, 20(%r14)
	je	.LBBc8339_10
	leaq	8(%rsp), %rdi
	leaq	64(%rsp), %rdx
	movq	%rbx, %rsi
	callq	"switch_port::machine::SwitchPort::connect"
	movzbl	8(%rsp), %edx
	movzbl	9(%rsp), %esi
	movzbl	10(%rsp), %eax
	movq	1568(%rsp), %rcx
	jmp	.LBBc8339_15
.LBBc8339_8:
	leaq	12(%rsp), %rdi
	leaq	64(%rsp), %rdx
	movq	%rbx, %rsi
	callq	"switch_port::machine::SwitchPort::connect"
	movzbl	12(%rsp), %edx
	movzbl	13(%rsp), %esi
	movzbl	14(%rsp), %eax
	movq	1568(%rsp), %rcx
	jmp	.LBBc8339_15
.LBBc8339_6:
	leaq	20(%rsp), %rdi
	leaq	64(%rsp), %rdx
	movq	%rbx, %rsi
	callq	"switch_port::machine::SwitchPort::connect"
	movzbl	20(%rsp), %edx
	movzbl	21(%rsp), %esi
	movzbl	22(%rsp), %eax
	movq	1568(%rsp), %rcx
	jmp	.LBBc8339_15
.Lfunc_endc8339:
	.size	tuv_port_second, .Lfunc_endc8339-tuv_port_second
	.cfi_endproc
	.section	.rodata.tuv_port_second,"a",@progbits
	.p2align	2, 0x0
.LJTIc8339_0:
	.long	.LBBc8339_10-.LJTIc8339_0
	.long	.LBBc8339_3-.LJTIc8339_0
	.long	.LBBc8339_9-.LJTIc8339_0
	.long	.LBBc8339_12-.LJTIc8339_0
	.long	.LBBc8339_10-.LJTIc8339_0
	.long	.LBBc8339_10-.LJTIc8339_0

	.section	.text.tuv_server_begin,"ax",@progbits
	.globl	tuv_server_begin
	.p2align	4
	.type	tuv_server_begin,@function
tuv_server_begin:
	.cfi_startproc
	pushq	%rbp
	.cfi_def_cfa_offset 16
	pushq	%r15
	.cfi_def_cfa_offset 24
	pushq	%r14
	.cfi_def_cfa_offset 32
	pushq	%r13
	.cfi_def_cfa_offset 40
	pushq	%r12
	.cfi_def_cfa_offset 48
	pushq	%rbx
	.cfi_def_cfa_offset 56
	subq	$1992, %rsp
	.cfi_def_cfa_offset 2048
	.cfi_offset %rbx, -56
	.cfi_offset %r12, -48
	.cfi_offset %r13, -40
	.cfi_offset %r14, -32
	.cfi_offset %r15, -24
	.cfi_offset %rbp, -16
	movl	%r8d, %ebp
	movl	%ecx, %ebx
	movq	%rdx, %r15
	movq	%rsi, %r14
	movq	%rdi, %r12
	xorps	%xmm0, %xmm0
	movaps	%xmm0, 160(%rsp)
	movaps	%xmm0, 144(%rsp)
	movq	%rsi, %rdi
	callq	"end_objects::refusals::server_refusal"
	cmpb	$1, %al
	setne	%cl
	cmpb	$11, %bpl
	setb	%sil
	testb	%cl, %sil
	jne	.LBBa585f_2
	xorl	%ecx, %ecx
	cmpb	$11, %bpl
	movl	$6, %esi
	cmovbl	%ecx, %esi
	cmpb	$1, %al
	movzbl	%dl, %r13d
	cmovnel	%esi, %r13d
	incb	%r13b
	jmp	.LBBa585f_35
.LBBa585f_2:
	movq	48(%r14), %rcx
	cmpq	$0, 64(%r14)
	je	.LBBa585f_3
	xorl	%r13d, %r13d
	testq	%rcx, %rcx
	movl	$51, %ecx
	movl	$12083, %eax
	cmoveq	%rcx, %rax
	setne	%r13b
	incq	%r13
	jmp	.LBBa585f_5
.LBBa585f_3:
	xorl	%r13d, %r13d
	testq	%rcx, %rcx
	setne	%r13b
	movl	$47, %eax
	cmoveq	%rcx, %rax
.LBBa585f_5:
	movq	%rax, 1272(%rsp)
	movq	%r13, 1280(%rsp)
	movzbl	72(%r14), %ecx
	testq	%rcx, %rcx
	je	.LBBa585f_7
	movzbl	73(%r14), %eax
	cmpl	$1, %eax
	movl	$2, %edx
	sbbq	$0, %rdx
	shll	$8, %eax
	orq	%rcx, %rax
	jmp	.LBBa585f_8
.LBBa585f_7:
	xorps	%xmm0, %xmm0
	movaps	%xmm0, 544(%rsp)
	leaq	544(%rsp), %rdi
	leaq	1272(%rsp), %rsi
	movq	%r13, %rdx
	callq	memcpy@PLT
	testq	%r13, %r13
	movl	$12083, %eax
	cmovneq	544(%rsp), %rax
	movl	$2, %edx
	cmovneq	%r13, %rdx
.LBBa585f_8:
	movq	%rax, 224(%rsp)
	movq	%rdx, 232(%rsp)
	leaq	144(%rsp), %rdi
	leaq	224(%rsp), %rsi
	callq	"end_objects::constructors::server_objects"
	movb	$8, %r13b
	cmpb	$0, 144(%rsp)
	jne	.LBBa585f_35
	movl	%ebx, 4(%rsp)
	movq	152(%rsp), %rax
	movq	%rax, 48(%rsp)
	movq	168(%rsp), %rbx
	movaps	160(%rsp), %xmm0
	movaps	%xmm0, 256(%rsp)
	callq	"tuvaddri_c::sent::empty_packet"
	cmpb	$1, %al
	jne	.LBBa585f_33
	movq	%rdx, 136(%rsp)
	movq	(%r12), %rbx
	xorps	%xmm0, %xmm0
	movaps	%xmm0, 176(%rsp)
	movaps	%xmm0, 192(%rsp)
	leaq	1272(%rsp), %rdi
	movl	$719, %edx
	xorl	%esi, %esi
	callq	memset@PLT
	movl	$0, 547(%rsp)
	movl	$0, 544(%rsp)
	movq	8(%r14), %r13
	movq	16(%r14), %r12
	leaq	280(%rsp), %rdi
	movl	$264, %edx
	xorl	%esi, %esi
	callq	memset@PLT
	cmpq	$253, %r12
	ja	.LBBa585f_12
	leaq	280(%rsp), %rdi
	movq	%r13, %rsi
	movq	%r12, %rdx
	callq	memcpy@PLT
	movq	%r12, 536(%rsp)
.LBBa585f_12:
	movq	48(%r14), %rcx
	cmpq	$0, 64(%r14)
	je	.LBBa585f_13
	xorl	%r12d, %r12d
	testq	%rcx, %rcx
	movl	$51, %ecx
	movl	$12083, %eax
	cmoveq	%rcx, %rax
	setne	%r12b
	incq	%r12
	jmp	.LBBa585f_15
.LBBa585f_33:
	testq	%rbx, %rbx
	je	.LBBa585f_35
	movq	48(%rsp), %rdi
	callq	rattle_dealloc@PLT
	jmp	.LBBa585f_35
.LBBa585f_13:
	xorl	%r12d, %r12d
	testq	%rcx, %rcx
	setne	%r12b
	movl	$47, %eax
	cmoveq	%rcx, %rax
.LBBa585f_15:
	movq	%rax, 240(%rsp)
	movq	%r12, 248(%rsp)
	movzbl	72(%r14), %eax
	testq	%rax, %rax
	movq	%r15, 40(%rsp)
	je	.LBBa585f_17
	movzbl	73(%r14), %r13d
	cmpl	$1, %r13d
	movl	$2, %ecx
	sbbq	$0, %rcx
	movq	%rcx, 32(%rsp)
	shll	$8, %r13d
	orq	%rax, %r13
	jmp	.LBBa585f_18
.LBBa585f_17:
	xorps	%xmm0, %xmm0
	movaps	%xmm0, 208(%rsp)
	leaq	208(%rsp), %rdi
	leaq	240(%rsp), %rsi
	movq	%r12, %rdx
	callq	memcpy@PLT
	testq	%r12, %r12
	movl	$12083, %r13d
	cmovneq	208(%rsp), %r13
	movl	$2, %eax
	cmovneq	%r12, %rax
	movq	%rax, 32(%rsp)
.LBBa585f_18:
	movzwl	74(%r14), %eax
	cmpl	$256, %eax
	movl	$2, %ecx
	movl	$2, %r12d
	sbbq	$0, %r12
	testb	%al, %al
	movl	$513, %r15d
	cmovnel	%eax, %r15d
	cmoveq	%rcx, %r12
	movzbl	76(%r14), %eax
	movb	%al, 3(%rsp)
	leaq	551(%rsp), %rdi
	movl	$712, %edx
	xorl	%esi, %esi
	callq	memset@PLT
	leaq	1272(%rsp), %rdi
	leaq	544(%rsp), %rsi
	movl	$719, %edx
	callq	memcpy@PLT
	movq	40(%rsp), %rax
	movups	(%rax), %xmm0
	movups	16(%rax), %xmm1
	movaps	%xmm1, 192(%rsp)
	movaps	%xmm0, 176(%rsp)
	movzbl	(%rbx), %eax
	movq	%rax, 128(%rsp)
	movq	8(%rbx), %rax
	movq	%rax, 16(%rsp)
	movq	24(%rbx), %rax
	movq	%rax, 24(%rsp)
	movq	1328(%rbx), %rax
	movq	%rax, 120(%rsp)
	movq	1528(%rbx), %rax
	movq	%rax, 112(%rsp)
	movq	1560(%rbx), %rax
	movq	%rax, 104(%rsp)
	movq	1976(%rbx), %rax
	movq	%rax, 96(%rsp)
	movq	2296(%rbx), %rax
	movq	%rax, 56(%rsp)
	movq	2312(%rbx), %rax
	movq	%rax, 88(%rsp)
	movq	2328(%rbx), %rax
	movq	%rax, 80(%rsp)
	movq	2344(%rbx), %rax
	movq	%rax, 72(%rsp)
	movq	2352(%rbx), %rax
	movq	%rax, 64(%rsp)
	movq	2624(%rbx), %rax
	movq	%rax, 8(%rsp)
	movq	$4, (%rbx)
	movq	48(%rsp), %rax
	movq	%rax, 8(%rbx)
	movaps	256(%rsp), %xmm0
	movups	%xmm0, 16(%rbx)
	movb	$0, 32(%rbx)
	movl	4(%rsp), %eax
	movb	%al, 33(%rbx)
	movb	%bpl, 34(%rbx)
	movb	$0, 39(%rbx)
	movl	$0, 35(%rbx)
	movb	$1, 40(%rbx)
	leaq	41(%rbx), %rdi
	leaq	1576(%rbx), %rbp
	movl	$1535, %edx
	xorl	%esi, %esi
	callq	memset@PLT
	leaq	280(%rsp), %rsi
	movl	$264, %edx
	movq	%rbp, %rdi
	callq	memcpy@PLT
	cmpb	$0, 3(%rsp)
	movq	%r13, 1840(%rbx)
	movq	32(%rsp), %rax
	movq	%rax, 1848(%rbx)
	movq	%r15, 1856(%rbx)
	movq	%r12, 1864(%rbx)
	movaps	176(%rsp), %xmm0
	movaps	192(%rsp), %xmm1
	setne	1904(%rbx)
	movups	%xmm1, 1888(%rbx)
	movups	%xmm0, 1872(%rbx)
	leaq	1905(%rbx), %rdi
	movl	$719, %edx
	leaq	1272(%rsp), %rsi
	callq	memcpy@PLT
	movq	136(%rsp), %rax
	movq	%rax, 2624(%rbx)
	leaq	.LJTIa585f_0(%rip), %rax
	movq	128(%rsp), %rcx
	movslq	(%rax,%rcx,4), %rcx
	addq	%rax, %rcx
	jmpq	*%rcx
.LBBa585f_23:
	movq	8(%rsp), %r15
	movq	16(%rsp), %rdi
	cmpq	$0, 24(%rsp)
	je	.LBBa585f_25
.LBBa585f_24:
	callq	rattle_dealloc@PLT
.LBBa585f_25:
	movq	%r15, %rdi
	jmp	.LBBa585f_29
.LBBa585f_20:
	movq	96(%rsp), %rdi
	jmp	.LBBa585f_29
.LBBa585f_27:
	movq	80(%rsp), %rdi
	movq	64(%rsp), %r15
	cmpq	$0, 72(%rsp)
	jne	.LBBa585f_24
	jmp	.LBBa585f_25
.LBBa585f_21:
	cmpq	$0, 88(%rsp)
	je	.LBBa585f_30
	movq	56(%rsp), %rdi
	jmp	.LBBa585f_29
.LBBa585f_19:
	movq	120(%rsp), %rdi
	jmp	.LBBa585f_29
.LBBa585f_26:
	movq	112(%rsp), %rdi
	jmp	.LBBa585f_29
.LBBa585f_28:
	movq	104(%rsp), %rdi
.LBBa585f_29:
	callq	rattle_dealloc@PLT
.LBBa585f_30:
	cmpb	$4, (%rbx)
	jne	.LBBa585f_32
	leaq	8(%rbx), %r15
	movq	%r15, %rdi
	movq	%r14, %rsi
	callq	"tuvaddri_c::by_method::add_users::<#d37c63745cf5a212>"
	movq	%r15, %rdi
	movq	40(%rsp), %rsi
	callq	"server_machine::machine::SizedServer::make_again::<#575f94f35bca5e04>"
.LBBa585f_32:
	movb	$0, 2632(%rbx)
	xorl	%r13d, %r13d
.LBBa585f_35:
	movl	%r13d, %eax
	addq	$1992, %rsp
	.cfi_def_cfa_offset 56
	popq	%rbx
	.cfi_def_cfa_offset 48
	popq	%r12
	.cfi_def_cfa_offset 40
	popq	%r13
	.cfi_def_cfa_offset 32
	popq	%r14
	.cfi_def_cfa_offset 24
	popq	%r15
	.cfi_def_cfa_offset 16
	popq	%rbp
	.cfi_def_cfa_offset 8
	retq
.Lfunc_enda585f:
	.size	tuv_server_begin, .Lfunc_enda585f-tuv_server_begin
	.cfi_endproc
	.section	.rodata.tuv_server_begin,"a",@progbits
	.p2align	2, 0x0
.LJTIa585f_0:
	.long	.LBBa585f_30-.LJTIa585f_0
	.long	.LBBa585f_19-.LJTIa585f_0
	.long	.LBBa585f_20-.LJTIa585f_0
	.long	.LBBa585f_21-.LJTIa585f_0
	.long	.LBBa585f_23-.LJTIa585f_0
	.long	.LBBa585f_23-.LJTIa585f_0
	.long	.LBBa585f_26-.LJTIa585f_0
	.long	.LBBa585f_27-.LJTIa585f_0
	.long	.LBBa585f_28-.LJTIa585f_0

	.section	.text.tuv_server_deliver,"ax",@progbits
	.globl	tuv_server_deliver
	.p2align	4
	.type	tuv_server_deliver,@function
tuv_server_deliver:
	.cfi_startproc
	pushq	%rax
	.cfi_def_cfa_offset 16
	movq	%rdx, %rcx
	xorl	%edx, %edx
	testq	%rsi, %rsi
	sete	%dl
	shll	$12, %edx
	addq	%rsi, %rdx
	movq	(%rdi), %rsi
	movb	$0, 4(%rsp)
	movl	$0, (%rsp)
	movq	%rsp, %rdi
	callq	"tuvaddri_c::deliver::deliver_to_server"
	movl	(%rsp), %ecx
	movl	4(%rsp), %eax
	shlq	$32, %rax
	orq	%rcx, %rax
	popq	%rcx
	.cfi_def_cfa_offset 8
	retq
.Lfunc_end0df5b:
	.size	tuv_server_deliver, .Lfunc_end0df5b-tuv_server_deliver
	.cfi_endproc

	.section	.text.tuv_server_method_begin,"ax",@progbits
	.globl	tuv_server_method_begin
	.p2align	4
	.type	tuv_server_method_begin,@function
tuv_server_method_begin:
	.cfi_startproc
	pushq	%rbp
	.cfi_def_cfa_offset 16
	pushq	%r15
	.cfi_def_cfa_offset 24
	pushq	%r14
	.cfi_def_cfa_offset 32
	pushq	%r13
	.cfi_def_cfa_offset 40
	pushq	%r12
	.cfi_def_cfa_offset 48
	pushq	%rbx
	.cfi_def_cfa_offset 56
	subq	$3072, %rsp
	.cfi_adjust_cfa_offset 3072
	movq	$0, (%rsp)
	subq	$2024, %rsp
	.cfi_def_cfa_offset 5152
	.cfi_offset %rbx, -56
	.cfi_offset %r12, -48
	.cfi_offset %r13, -40
	.cfi_offset %r14, -32
	.cfi_offset %r15, -24
	.cfi_offset %rbp, -16
	movl	%ecx, %ebp
	movq	%rdx, %r12
	movq	%rsi, %rbx
	movq	%rdi, %r15
	leaq	1888(%rsp), %rdi
	movl	$1256, %edx
	xorl	%esi, %esi
	callq	memset@PLT
	movq	%rbx, %rdi
	callq	"end_objects::refusals::server_refusal"
	cmpb	$1, %al
	jne	.LBB34974_2
	movl	%edx, %eax
	incb	%al
	jmp	.LBB34974_30
.LBB34974_2:
	callq	"tuvaddri_c::sent::empty_packet"
	movl	%eax, %ecx
	movb	$8, %al
	cmpb	$1, %cl
	jne	.LBB34974_30
	movq	%rdx, 104(%rsp)
	movq	8(%rbx), %r13
	movq	16(%rbx), %r14
	leaq	1344(%rsp), %rdi
	movl	$264, %edx
	xorl	%esi, %esi
	callq	memset@PLT
	cmpq	$253, %r14
	ja	.LBB34974_5
	leaq	1344(%rsp), %rdi
	movq	%r13, %rsi
	movq	%r14, %rdx
	callq	memcpy@PLT
	movq	%r14, 1600(%rsp)
.LBB34974_5:
	movzwl	74(%rbx), %eax
	cmpl	$256, %eax
	movl	$2, %ecx
	movl	$2, %r14d
	sbbq	$0, %r14
	testb	%al, %al
	movl	$513, %r13d
	cmovnel	%eax, %r13d
	cmoveq	%rcx, %r14
	leaq	1608(%rsp), %rdi
	leaq	1344(%rsp), %rsi
	movl	$264, %edx
	callq	memcpy@PLT
	movq	%r13, 1872(%rsp)
	movq	%r14, 1880(%rsp)
	movq	48(%rbx), %rcx
	cmpq	$0, 64(%rbx)
	je	.LBB34974_6
	xorl	%r14d, %r14d
	testq	%rcx, %rcx
	movl	$51, %ecx
	movl	$12083, %eax
	cmoveq	%rcx, %rax
	setne	%r14b
	incq	%r14
	jmp	.LBB34974_8
.LBB34974_6:
	xorl	%r14d, %r14d
	testq	%rcx, %rcx
	setne	%r14b
	movl	$47, %eax
	cmoveq	%rcx, %rax
.LBB34974_8:
	movq	%rax, 3864(%rsp)
	movq	%r14, 3872(%rsp)
	movzbl	72(%rbx), %eax
	testb	%al, %al
	jne	.LBB34974_11
	xorps	%xmm0, %xmm0
	movaps	%xmm0, 112(%rsp)
	leaq	112(%rsp), %rdi
	leaq	3864(%rsp), %rsi
	movq	%r14, %rdx
	callq	memcpy@PLT
	testq	%r14, %r14
	je	.LBB34974_13
	movzbl	112(%rsp), %eax
.LBB34974_11:
	xorps	%xmm0, %xmm0
	movups	%xmm0, 1320(%rsp)
	movups	%xmm0, 1304(%rsp)
	movups	%xmm0, 1288(%rsp)
	movups	%xmm0, 1272(%rsp)
	movups	%xmm0, 1256(%rsp)
	movq	$0, 1336(%rsp)
	cmpb	$47, %al
	jne	.LBB34974_14
	leaq	112(%rsp), %rdi
	xorl	%r14d, %r14d
	movl	$1232, %edx
	xorl	%esi, %esi
	callq	memset@PLT
	jmp	.LBB34974_15
.LBB34974_13:
	xorps	%xmm0, %xmm0
	movups	%xmm0, 1320(%rsp)
	movups	%xmm0, 1304(%rsp)
	movups	%xmm0, 1288(%rsp)
	movups	%xmm0, 1272(%rsp)
	movups	%xmm0, 1256(%rsp)
	movq	$0, 1336(%rsp)
.LBB34974_14:
	leaq	112(%rsp), %rdi
	movl	$1144, %edx
	xorl	%esi, %esi
	callq	memset@PLT
	movl	$1, %r14d
.LBB34974_15:
	leaq	3864(%rsp), %r13
	leaq	112(%rsp), %rsi
	movl	$1232, %edx
	movq	%r13, %rdi
	callq	memcpy@PLT
	movq	%r14, 1888(%rsp)
	movq	$0, 1896(%rsp)
	leaq	1904(%rsp), %rdi
	movl	$1232, %edx
	movq	%r13, %rsi
	callq	memcpy@PLT
	movw	$0, 3136(%rsp)
	leaq	1888(%rsp), %r13
	leaq	1608(%rsp), %rsi
	movq	%r13, %rdi
	movq	%r12, %rdx
	callq	"end_objects::objects::ServerObjectServerMethod::begin"
	movzbl	%bpl, %esi
	movq	%r13, %rdi
	movq	104(%rsp), %r14
	movq	%r14, %rdx
	callq	"end_objects::objects::ServerObjectServerMethod::first_into"
	movq	(%r15), %r15
	movzbl	1888(%rsp), %r13d
	movq	1896(%rsp), %rbp
	movzwl	3136(%rsp), %r12d
	movw	$0, 3148(%rsp)
	movl	$0, 3144(%rsp)
	leaq	112(%rsp), %rdi
	movl	$1232, %edx
	leaq	1904(%rsp), %rsi
	callq	memcpy@PLT
	leaq	3150(%rsp), %rdi
	movl	$712, %edx
	xorl	%esi, %esi
	callq	memset@PLT
	movzbl	(%r15), %eax
	movq	%rax, 96(%rsp)
	movq	8(%r15), %rax
	movq	%rax, 8(%rsp)
	movq	24(%r15), %rax
	movq	%rax, 16(%rsp)
	movq	1328(%r15), %rax
	movq	%rax, 88(%rsp)
	movq	1528(%r15), %rax
	movq	%rax, 80(%rsp)
	movq	1560(%r15), %rax
	movq	%rax, 72(%rsp)
	movq	1976(%r15), %rax
	movq	%rax, 64(%rsp)
	movq	2296(%r15), %rax
	movq	%rax, 24(%rsp)
	movq	2312(%r15), %rax
	movq	%rax, 56(%rsp)
	movq	2328(%r15), %rax
	movq	%rax, 48(%rsp)
	movq	2344(%r15), %rax
	movq	%rax, 40(%rsp)
	movq	2352(%r15), %rax
	movq	%rax, 32(%rsp)
	movq	2624(%r15), %rax
	movq	%rax, (%rsp)
	movq	$2, (%r15)
	movq	%r13, 8(%r15)
	leaq	24(%r15), %rdi
	movq	%rbp, 16(%r15)
	leaq	1984(%r15), %r13
	movl	$1232, %edx
	leaq	112(%rsp), %rsi
	callq	memcpy@PLT
	movw	%r12w, 1256(%r15)
	leaq	1258(%r15), %rdi
	leaq	3144(%rsp), %rsi
	movl	$718, %edx
	callq	memcpy@PLT
	movq	%r14, 1976(%r15)
	movl	$648, %edx
	movq	%r13, %rdi
	xorl	%esi, %esi
	callq	memset@PLT
	leaq	.LJTI34974_0(%rip), %rax
	movq	96(%rsp), %rcx
	movslq	(%rax,%rcx,4), %rcx
	addq	%rax, %rcx
	jmpq	*%rcx
.LBB34974_20:
	movq	(%rsp), %r14
	movq	8(%rsp), %rdi
	cmpq	$0, 16(%rsp)
	je	.LBB34974_22
.LBB34974_21:
	callq	rattle_dealloc@PLT
.LBB34974_22:
	movq	%r14, %rdi
	jmp	.LBB34974_26
.LBB34974_17:
	movq	64(%rsp), %rdi
	jmp	.LBB34974_26
.LBB34974_24:
	movq	48(%rsp), %rdi
	movq	32(%rsp), %r14
	cmpq	$0, 40(%rsp)
	jne	.LBB34974_21
	jmp	.LBB34974_22
.LBB34974_18:
	cmpq	$0, 56(%rsp)
	je	.LBB34974_27
	movq	24(%rsp), %rdi
	jmp	.LBB34974_26
.LBB34974_16:
	movq	88(%rsp), %rdi
	jmp	.LBB34974_26
.LBB34974_23:
	movq	80(%rsp), %rdi
	jmp	.LBB34974_26
.LBB34974_25:
	movq	72(%rsp), %rdi
.LBB34974_26:
	callq	rattle_dealloc@PLT
.LBB34974_27:
	cmpb	$2, (%r15)
	jne	.LBB34974_29
	leaq	1264(%r15), %rdi
	movq	%rbx, %rsi
	callq	"tuvaddri_c::users::put"
.LBB34974_29:
	movb	$1, 2632(%r15)
	xorl	%eax, %eax
.LBB34974_30:
	addq	$5096, %rsp
	.cfi_def_cfa_offset 56
	popq	%rbx
	.cfi_def_cfa_offset 48
	popq	%r12
	.cfi_def_cfa_offset 40
	popq	%r13
	.cfi_def_cfa_offset 32
	popq	%r14
	.cfi_def_cfa_offset 24
	popq	%r15
	.cfi_def_cfa_offset 16
	popq	%rbp
	.cfi_def_cfa_offset 8
	retq
.Lfunc_end34974:
	.size	tuv_server_method_begin, .Lfunc_end34974-tuv_server_method_begin
	.cfi_endproc
	.section	.rodata.tuv_server_method_begin,"a",@progbits
	.p2align	2, 0x0
.LJTI34974_0:
	.long	.LBB34974_27-.LJTI34974_0
	.long	.LBB34974_16-.LJTI34974_0
	.long	.LBB34974_17-.LJTI34974_0
	.long	.LBB34974_18-.LJTI34974_0
	.long	.LBB34974_20-.LJTI34974_0
	.long	.LBB34974_20-.LJTI34974_0
	.long	.LBB34974_23-.LJTI34974_0
	.long	.LBB34974_24-.LJTI34974_0
	.long	.LBB34974_25-.LJTI34974_0

	.section	.text.tuv_server_method_handle,"ax",@progbits
	.globl	tuv_server_method_handle
	.p2align	4
	.type	tuv_server_method_handle,@function
tuv_server_method_handle:
	.cfi_startproc
	pushq	%rbp
	.cfi_def_cfa_offset 16
	pushq	%r15
	.cfi_def_cfa_offset 24
	pushq	%r14
	.cfi_def_cfa_offset 32
	pushq	%r13
	.cfi_def_cfa_offset 40
	pushq	%r12
	.cfi_def_cfa_offset 48
	pushq	%rbx
	.cfi_def_cfa_offset 56
	subq	$1544, %rsp
	.cfi_def_cfa_offset 1600
	.cfi_offset %rbx, -56
	.cfi_offset %r12, -48
	.cfi_offset %r13, -40
	.cfi_offset %r14, -32
	.cfi_offset %r15, -24
	.cfi_offset %rbp, -16
	movq	(%rdi), %r13
	cmpb	$2, (%r13)
	jne	.LBBd20b6_3
	movl	%ecx, %ebp
	xorl	%eax, %eax
	testq	%rsi, %rsi
	sete	%al
	shll	$12, %eax
	addq	%rsi, %rax
	cmpb	$0, 8(%r13)
	setne	%bl
	xorps	%xmm0, %xmm0
	movaps	%xmm0, 64(%rsp)
	movaps	%xmm0, 48(%rsp)
	movaps	%xmm0, 32(%rsp)
	leaq	32(%rsp), %rdi
	movq	%rax, %rsi
	callq	"eap_packet::packet::decode"
	cmpb	$1, 32(%rsp)
	jne	.LBBd20b6_4
	movzbl	33(%rsp), %edx
	jmp	.LBBd20b6_17
.LBBd20b6_3:
	movb	$0, 2632(%r13)
	movb	$1, %sil
	xorl	%ebp, %ebp
	xorl	%ecx, %ecx
	xorl	%edx, %edx
	jmp	.LBBd20b6_18
.LBBd20b6_4:
	movb	$7, %dl
	cmpb	$1, 40(%rsp)
	jne	.LBBd20b6_17
	shlb	$2, %bl
	addb	$47, %bl
	movb	$16, %dl
	cmpb	%bl, 42(%rsp)
	jne	.LBBd20b6_17
	movq	64(%rsp), %r12
	movq	72(%rsp), %r14
	leaq	1264(%r13), %rbx
	leaq	32(%rsp), %r15
	movl	$1512, %edx
	movq	%r15, %rdi
	xorl	%esi, %esi
	callq	memset@PLT
	xorps	%xmm0, %xmm0
	movaps	%xmm0, 16(%rsp)
	movq	1968(%r13), %r9
	leaq	16(%r13), %rdi
	cmpb	$0, 8(%r13)
	je	.LBBd20b6_21
	leaq	16(%rsp), %rax
	movq	%rax, 8(%rsp)
	movq	%r15, (%rsp)
	movzbl	%bpl, %ecx
	movq	%r12, %rsi
	movq	%r14, %rdx
	movq	%rbx, %r8
	callq	"gpsk_ends::server::GpskServer::handle_step::<#e0641de541981142>"
	testb	%al, %al
	je	.LBBd20b6_22
.LBBd20b6_8:
	movzbl	%al, %eax
	cmpl	$1, %eax
	jne	.LBBd20b6_23
	movq	1536(%rsp), %rbx
	movq	1976(%r13), %r14
	movb	$1, 2632(%r13)
	movq	1504(%r14), %rdx
	testq	%rdx, %rdx
	je	.LBBd20b6_11
	movq	%r14, %rdi
	xorl	%esi, %esi
	callq	memset@PLT
	movq	$0, 1504(%r14)
.LBBd20b6_11:
	movb	$2, %al
	movb	$1, %bpl
	cmpq	$1500, %rbx
	ja	.LBBd20b6_39
	movq	%r14, %rdx
	subq	%r15, %rdx
	cmpq	%rbx, %rdx
	jae	.LBBd20b6_25
	xorl	%ecx, %ecx
	cmpq	$4, %rbx
	jb	.LBBd20b6_33
	cmpq	$32, %rdx
	jb	.LBBd20b6_33
	cmpq	$32, %rbx
	jae	.LBBd20b6_26
	xorl	%ecx, %ecx
	jmp	.LBBd20b6_30
.LBBd20b6_17:
	movb	$0, 2632(%r13)
	movb	$1, %cl
	xorl	%ebp, %ebp
	xorl	%esi, %esi
.LBBd20b6_18:
	xorl	%eax, %eax
.LBBd20b6_19:
	xorl	%edi, %edi
.LBBd20b6_20:
	movzbl	%dil, %edi
	shlq	$40, %rdi
	movzbl	%al, %eax
	shlq	$32, %rax
	orq	%rdi, %rax
	movzbl	%dl, %edx
	shll	$24, %edx
	orq	%rax, %rdx
	movzbl	%sil, %eax
	shll	$16, %eax
	orq	%rdx, %rax
	movzbl	%cl, %ecx
	shll	$8, %ecx
	orq	%rax, %rcx
	movzbl	%bpl, %eax
	orq	%rcx, %rax
	addq	$1544, %rsp
	.cfi_def_cfa_offset 56
	popq	%rbx
	.cfi_def_cfa_offset 48
	popq	%r12
	.cfi_def_cfa_offset 40
	popq	%r13
	.cfi_def_cfa_offset 32
	popq	%r14
	.cfi_def_cfa_offset 24
	popq	%r15
	.cfi_def_cfa_offset 16
	popq	%rbp
	.cfi_def_cfa_offset 8
	retq
.LBBd20b6_21:
	.cfi_def_cfa_offset 1600
	leaq	16(%rsp), %rax
	movq	%rax, 8(%rsp)
	movq	%r15, (%rsp)
	movzbl	%bpl, %ecx
	movq	%r12, %rsi
	movq	%r14, %rdx
	movq	%rbx, %r8
	callq	"psk_ends::server::PskServer::handle_step::<#becd8de5e2060522>"
	testb	%al, %al
	jne	.LBBd20b6_8
.LBBd20b6_22:
	movb	$1, %cl
	movl	%eax, %edi
	jmp	.LBBd20b6_24
.LBBd20b6_23:
	addb	%dl, %dl
	movl	%edx, %edi
	andb	$2, %dil
	movb	$4, %al
	xorl	%ecx, %ecx
	xorl	%edx, %edx
.LBBd20b6_24:
	movb	$0, 2632(%r13)
	xorl	%ebp, %ebp
	xorl	%esi, %esi
	jmp	.LBBd20b6_20
.LBBd20b6_25:
	leaq	32(%rsp), %rsi
	movq	%r14, %rdi
	movq	%rbx, %rdx
	callq	memmove@PLT
	movb	$2, %al
	jmp	.LBBd20b6_38
.LBBd20b6_26:
	movl	%ebx, %ecx
	andl	$2016, %ecx
	xorl	%edx, %edx
.LBBd20b6_27:
	movups	32(%rsp,%rdx), %xmm0
	movups	48(%rsp,%rdx), %xmm1
	movups	%xmm0, (%r14,%rdx)
	movups	%xmm1, 16(%r14,%rdx)
	addq	$32, %rdx
	cmpq	%rdx, %rcx
	jne	.LBBd20b6_27
	cmpq	%rcx, %rbx
	je	.LBBd20b6_38
	testb	$28, %bl
	je	.LBBd20b6_33
.LBBd20b6_30:
	movq	%rcx, %rdx
	movl	%ebx, %ecx
	andl	$2044, %ecx
.LBBd20b6_31:
	movl	32(%rsp,%rdx), %esi
	movl	%esi, (%r14,%rdx)
	addq	$4, %rdx
	cmpq	%rdx, %rcx
	jne	.LBBd20b6_31
	cmpq	%rcx, %rbx
	je	.LBBd20b6_38
.LBBd20b6_33:
	movq	%rbx, %rsi
	movq	%rcx, %rdx
	andq	$3, %rsi
	je	.LBBd20b6_36
	movq	%rcx, %rdx
.LBBd20b6_35:
	movzbl	32(%rsp,%rdx), %edi
	movb	%dil, (%r14,%rdx)
	incq	%rdx
	decq	%rsi
	jne	.LBBd20b6_35
.LBBd20b6_36:
	subq	%rbx, %rcx
	cmpq	$-4, %rcx
	ja	.LBBd20b6_38
.LBBd20b6_37:
	movzbl	32(%rsp,%rdx), %ecx
	movb	%cl, (%r14,%rdx)
	movzbl	33(%rsp,%rdx), %ecx
	movb	%cl, 1(%r14,%rdx)
	movzbl	34(%rsp,%rdx), %ecx
	movb	%cl, 2(%r14,%rdx)
	movzbl	35(%rsp,%rdx), %ecx
	movb	%cl, 3(%r14,%rdx)
	addq	$4, %rdx
	cmpq	%rdx, %rbx
	jne	.LBBd20b6_37
.LBBd20b6_38:
	movq	%rbx, 1504(%r14)
.LBBd20b6_39:
	xorl	%ecx, %ecx
	xorl	%esi, %esi
	xorl	%edx, %edx
	jmp	.LBBd20b6_19
.Lfunc_endd20b6:
	.size	tuv_server_method_handle, .Lfunc_endd20b6-tuv_server_method_handle
	.cfi_endproc

	.section	.text.tuv_server_method_user,"ax",@progbits
	.globl	tuv_server_method_user
	.p2align	4
	.type	tuv_server_method_user,@function
tuv_server_method_user:
	.cfi_startproc
	movb	$1, %al
	cmpq	$80, (%rsi)
	jne	.LBB6dccb_15
	movq	32(%rsi), %rcx
	decq	%rcx
	movb	$5, %al
	cmpq	$252, %rcx
	ja	.LBB6dccb_15
	movq	48(%rsi), %rdx
	movq	64(%rsi), %rcx
	testq	%rcx, %rcx
	je	.LBB6dccb_7
	addq	$-32, %rcx
	movb	$6, %al
	cmpq	$33, %rcx
	jae	.LBB6dccb_15
	testq	$-17, %rdx
	jne	.LBB6dccb_15
	movq	(%rdi), %rdi
	movb	$9, %al
	cmpb	$2, (%rdi)
	jne	.LBB6dccb_15
	xorl	%ecx, %ecx
	testq	%rdx, %rdx
	movl	$51, %eax
	movl	$12083, %edx
	cmoveq	%rax, %rdx
	setne	%cl
	incq	%rcx
	jmp	.LBB6dccb_10
.LBB6dccb_7:
	movb	$6, %al
	cmpq	$16, %rdx
	jne	.LBB6dccb_15
	movq	(%rdi), %rdi
	movb	$9, %al
	cmpb	$2, (%rdi)
	jne	.LBB6dccb_15
	movl	$1, %ecx
	movl	$47, %edx
.LBB6dccb_10:
	cmpb	$0, 8(%rdi)
	setne	%r8b
	shlb	$2, %r8b
	addb	$47, %r8b
	cmpb	%dl, %r8b
	jne	.LBB6dccb_11
.LBB6dccb_14:
	pushq	%rax
	.cfi_def_cfa_offset 16
	addq	$1264, %rdi
	callq	"tuvaddri_c::users::put"
	xorl	%eax, %eax
	addq	$8, %rsp
	.cfi_def_cfa_offset 8
	retq
.LBB6dccb_11:
	movb	$6, %al
	cmpl	$1, %ecx
	je	.LBB6dccb_15
	shrl	$8, %edx
	cmpb	%dl, %r8b
	je	.LBB6dccb_14
	cmpl	$2, %ecx
	jne	.LBB6dccb_14
.LBB6dccb_15:
	retq
.Lfunc_end6dccb:
	.size	tuv_server_method_user, .Lfunc_end6dccb-tuv_server_method_user
	.cfi_endproc

	.section	.text.tuv_server_restart,"ax",@progbits
	.globl	tuv_server_restart
	.p2align	4
	.type	tuv_server_restart,@function
tuv_server_restart:
	.cfi_startproc
	pushq	%rax
	.cfi_def_cfa_offset 16
	movq	%rsi, %rdx
	movq	(%rdi), %rsi
	movb	$0, 4(%rsp)
	movl	$0, (%rsp)
	movq	%rsp, %rdi
	callq	"tuvaddri_c::restart::restart_server"
	movl	(%rsp), %ecx
	movl	4(%rsp), %eax
	shlq	$32, %rax
	orq	%rcx, %rax
	popq	%rcx
	.cfi_def_cfa_offset 8
	retq
.Lfunc_endeb68b:
	.size	tuv_server_restart, .Lfunc_endeb68b-tuv_server_restart
	.cfi_endproc

	.section	.text.tuv_server_set_user,"ax",@progbits
	.globl	tuv_server_set_user
	.p2align	4
	.type	tuv_server_set_user,@function
tuv_server_set_user:
	.cfi_startproc
	movb	$1, %al
	cmpq	$80, (%rsi)
	jne	.LBB6ae71_8
	movq	32(%rsi), %rcx
	decq	%rcx
	movb	$5, %al
	cmpq	$252, %rcx
	ja	.LBB6ae71_8
	movq	48(%rsi), %rcx
	movq	64(%rsi), %rdx
	testq	%rdx, %rdx
	je	.LBB6ae71_7
	addq	$-32, %rdx
	movb	$6, %al
	cmpq	$33, %rdx
	jae	.LBB6ae71_8
	testq	$-17, %rcx
	jne	.LBB6ae71_8
.LBB6ae71_5:
	pushq	%r14
	.cfi_def_cfa_offset 16
	pushq	%rbx
	.cfi_def_cfa_offset 24
	pushq	%rax
	.cfi_def_cfa_offset 32
	.cfi_offset %rbx, -24
	.cfi_offset %r14, -16
	movq	(%rdi), %rdi
	movzbl	(%rdi), %ecx
	movb	$9, %al
	movl	$463, %edx
	btl	%ecx, %edx
	jae	.LBB6ae71_9
	addq	$8, %rsp
	.cfi_def_cfa_offset 24
	popq	%rbx
	.cfi_def_cfa_offset 16
	popq	%r14
	.cfi_def_cfa_offset 8
	.cfi_restore %rbx
	.cfi_restore %r14
	retq
.LBB6ae71_7:
	movb	$6, %al
	cmpq	$16, %rcx
	je	.LBB6ae71_5
.LBB6ae71_8:
	retq
.LBB6ae71_9:
	.cfi_def_cfa_offset 32
	.cfi_offset %rbx, -24
	.cfi_offset %r14, -16
	movq	%rsi, %rbx
	leaq	8(%rdi), %r14
	addq	$1912, %rdi
	movl	$712, %edx
	xorl	%esi, %esi
	cmpl	$4, %ecx
	jne	.LBB6ae71_11
	callq	memset@PLT
	movq	%r14, %rdi
	movq	%rbx, %rsi
	callq	"tuvaddri_c::by_method::add_users::<#d37c63745cf5a212>"
	jmp	.LBB6ae71_12
.LBB6ae71_11:
	callq	memset@PLT
	movq	%r14, %rdi
	movq	%rbx, %rsi
	callq	"tuvaddri_c::by_method::add_users::<#93e2819ad231d5c1>"
.LBB6ae71_12:
	xorl	%eax, %eax
	addq	$8, %rsp
	.cfi_def_cfa_offset 24
	popq	%rbx
	.cfi_def_cfa_offset 16
	popq	%r14
	.cfi_def_cfa_offset 8
	.cfi_restore %rbx
	.cfi_restore %r14
	retq
.Lfunc_end6ae71:
	.size	tuv_server_set_user, .Lfunc_end6ae71-tuv_server_set_user
	.cfi_endproc

	.section	.text.tuv_server_start,"ax",@progbits
	.globl	tuv_server_start
	.p2align	4
	.type	tuv_server_start,@function
tuv_server_start:
	.cfi_startproc
	pushq	%rbp
	.cfi_def_cfa_offset 16
	pushq	%r14
	.cfi_def_cfa_offset 24
	pushq	%rbx
	.cfi_def_cfa_offset 32
	.cfi_offset %rbx, -32
	.cfi_offset %r14, -24
	.cfi_offset %rbp, -16
	movq	(%rdi), %r14
	cmpb	$4, (%r14)
	jne	.LBB79895_10
	cmpb	$0, 35(%r14)
	jne	.LBB79895_10
	testb	$1, 32(%r14)
	je	.LBB79895_3
.LBB79895_10:
	movb	$0, 2632(%r14)
	movb	$1, %al
	xorl	%ecx, %ecx
.LBB79895_11:
	movzbl	%cl, %ecx
	movq	%rcx, %rdx
	shlq	$32, %rdx
	movzbl	%al, %eax
	shll	$16, %eax
	orq	%rdx, %rax
	orq	%rcx, %rax
	popq	%rbx
	.cfi_def_cfa_offset 24
	popq	%r14
	.cfi_def_cfa_offset 16
	popq	%rbp
	.cfi_def_cfa_offset 8
	retq
.LBB79895_3:
	.cfi_def_cfa_offset 32
	movzbl	33(%r14), %ebp
	movl	%ebp, %eax
	shll	$8, %ebp
	orl	$83886081, %ebp
	movw	$257, 35(%r14)
	movb	%al, 37(%r14)
	movl	$65793, 38(%r14)
	movq	1568(%r14), %rdx
	testq	%rdx, %rdx
	je	.LBB79895_5
	leaq	64(%r14), %rdi
	xorl	%esi, %esi
	callq	memset@PLT
.LBB79895_5:
	movl	%ebp, 64(%r14)
	movb	$1, 68(%r14)
	movq	$5, 1568(%r14)
	movq	56(%r14), %rdx
	testq	%rdx, %rdx
	je	.LBB79895_7
	leaq	48(%r14), %rdi
	xorl	%esi, %esi
	callq	memset@PLT
	movq	$0, 56(%r14)
.LBB79895_7:
	movq	2624(%r14), %rbx
	movb	$1, 2632(%r14)
	movq	1504(%rbx), %rdx
	testq	%rdx, %rdx
	je	.LBB79895_9
	movq	%rbx, %rdi
	xorl	%esi, %esi
	callq	memset@PLT
.LBB79895_9:
	movl	%ebp, (%rbx)
	movb	$1, 4(%rbx)
	movq	$5, 1504(%rbx)
	movb	$1, %cl
	xorl	%eax, %eax
	jmp	.LBB79895_11
.Lfunc_end79895:
	.size	tuv_server_start, .Lfunc_end79895-tuv_server_start
	.cfi_endproc

	.section	.text.tuv_server_timeout,"ax",@progbits
	.globl	tuv_server_timeout
	.p2align	4
	.type	tuv_server_timeout,@function
tuv_server_timeout:
	.cfi_startproc
	pushq	%rbp
	.cfi_def_cfa_offset 16
	pushq	%r15
	.cfi_def_cfa_offset 24
	pushq	%r14
	.cfi_def_cfa_offset 32
	pushq	%rbx
	.cfi_def_cfa_offset 40
	subq	$1512, %rsp
	.cfi_def_cfa_offset 1552
	.cfi_offset %rbx, -40
	.cfi_offset %r14, -32
	.cfi_offset %r15, -24
	.cfi_offset %rbp, -16
	movq	(%rdi), %r15
	cmpb	$4, (%r15)
	jne	.LBBa4dc4_11
	testb	$1, 32(%r15)
	je	.LBBa4dc4_2
.LBBa4dc4_11:
	movb	$0, 2632(%r15)
	movb	$1, %cl
	xorl	%eax, %eax
	xorl	%ebp, %ebp
.LBBa4dc4_12:
	movzbl	%bpl, %edx
	shlq	$32, %rdx
	movzbl	%cl, %ecx
	shll	$16, %ecx
	orq	%rdx, %rcx
	movzbl	%al, %eax
	orq	%rcx, %rax
	addq	$1512, %rsp
	.cfi_def_cfa_offset 40
	popq	%rbx
	.cfi_def_cfa_offset 32
	popq	%r14
	.cfi_def_cfa_offset 24
	popq	%r15
	.cfi_def_cfa_offset 16
	popq	%rbp
	.cfi_def_cfa_offset 8
	retq
.LBBa4dc4_2:
	.cfi_def_cfa_offset 1552
	movzbl	35(%r15), %ebp
	movzbl	%bpl, %eax
	movabsq	$8589407230, %rcx
	btq	%rax, %rcx
	jae	.LBBa4dc4_11
	movq	%rsp, %rdi
	movl	$1512, %edx
	xorl	%esi, %esi
	callq	memset@PLT
	movzbl	41(%r15), %eax
	incb	%al
	movb	%al, 41(%r15)
	cmpb	34(%r15), %al
	jbe	.LBBa4dc4_4
	movb	$19, 35(%r15)
	movb	$0, 2632(%r15)
	movb	$19, %bpl
	xorl	%eax, %eax
	xorl	%ecx, %ecx
	jmp	.LBBa4dc4_12
.LBBa4dc4_4:
	movq	1568(%r15), %rbx
	cmpq	$1500, %rbx
	jbe	.LBBa4dc4_7
	xorl	%ebx, %ebx
	jmp	.LBBa4dc4_8
.LBBa4dc4_7:
	leaq	64(%r15), %rsi
	movq	%rsp, %rdi
	movq	%rbx, %rdx
	callq	memcpy@PLT
	movq	%rbx, 1504(%rsp)
.LBBa4dc4_8:
	movq	2624(%r15), %r14
	movb	$1, 2632(%r15)
	movq	1504(%r14), %rdx
	testq	%rdx, %rdx
	je	.LBBa4dc4_10
	movq	%r14, %rdi
	xorl	%esi, %esi
	callq	memset@PLT
.LBBa4dc4_10:
	movq	%rsp, %rsi
	movq	%r14, %rdi
	movq	%rbx, %rdx
	callq	memcpy@PLT
	movq	%rbx, 1504(%r14)
	movb	$1, %al
	xorl	%ecx, %ecx
	jmp	.LBBa4dc4_12
.Lfunc_enda4dc4:
	.size	tuv_server_timeout, .Lfunc_enda4dc4-tuv_server_timeout
	.cfi_endproc

	.section	.text.tuv_supplicant_begin,"ax",@progbits
	.globl	tuv_supplicant_begin
	.p2align	4
	.type	tuv_supplicant_begin,@function
tuv_supplicant_begin:
	.cfi_startproc
	pushq	%rbp
	.cfi_def_cfa_offset 16
	pushq	%r15
	.cfi_def_cfa_offset 24
	pushq	%r14
	.cfi_def_cfa_offset 32
	pushq	%r13
	.cfi_def_cfa_offset 40
	pushq	%r12
	.cfi_def_cfa_offset 48
	pushq	%rbx
	.cfi_def_cfa_offset 56
	subq	$936, %rsp
	.cfi_def_cfa_offset 992
	.cfi_offset %rbx, -56
	.cfi_offset %r12, -48
	.cfi_offset %r13, -40
	.cfi_offset %r14, -32
	.cfi_offset %r15, -24
	.cfi_offset %rbp, -16
	movq	%rdx, %rbx
	movq	%rsi, %r15
	movq	%rdi, %r14
	xorps	%xmm0, %xmm0
	movaps	%xmm0, 128(%rsp)
	movaps	%xmm0, 144(%rsp)
	movq	%rsi, %rdi
	callq	"end_objects::refusals::peer_refusal"
	cmpb	$1, %al
	jne	.LBB9fb05_2
	movl	%edx, %eax
	incb	%al
	jmp	.LBB9fb05_31
.LBB9fb05_2:
	movq	48(%r15), %rcx
	cmpq	$0, 64(%r15)
	je	.LBB9fb05_3
	xorl	%r12d, %r12d
	testq	%rcx, %rcx
	movl	$51, %ecx
	movl	$12083, %eax
	cmoveq	%rcx, %rax
	setne	%r12b
	incq	%r12
	jmp	.LBB9fb05_5
.LBB9fb05_3:
	xorl	%r12d, %r12d
	testq	%rcx, %rcx
	setne	%r12b
	movl	$47, %eax
	cmoveq	%rcx, %rax
.LBB9fb05_5:
	movq	%rax, 24(%rsp)
	movq	%r12, 32(%rsp)
	movzbl	72(%r15), %ecx
	testq	%rcx, %rcx
	je	.LBB9fb05_7
	movzbl	73(%r15), %eax
	cmpl	$1, %eax
	movl	$2, %edx
	sbbq	$0, %rdx
	shll	$8, %eax
	orq	%rcx, %rax
	jmp	.LBB9fb05_8
.LBB9fb05_7:
	xorps	%xmm0, %xmm0
	movaps	%xmm0, 160(%rsp)
	leaq	160(%rsp), %rdi
	leaq	24(%rsp), %rsi
	movq	%r12, %rdx
	callq	memcpy@PLT
	testq	%r12, %r12
	movl	$12083, %eax
	cmovneq	160(%rsp), %rax
	movl	$2, %edx
	cmovneq	%r12, %rdx
.LBB9fb05_8:
	movq	%rax, 24(%rsp)
	movq	%rdx, 32(%rsp)
	leaq	128(%rsp), %rdi
	leaq	24(%rsp), %rsi
	callq	"end_objects::constructors::peer_objects"
	movb	$8, %al
	cmpb	$0, 128(%rsp)
	jne	.LBB9fb05_31
	movq	136(%rsp), %r12
	movq	144(%rsp), %r13
	movq	152(%rsp), %rbp
	callq	"tuvaddri_c::sent::empty_frame"
	cmpb	$1, %al
	jne	.LBB9fb05_28
	movq	%rdx, 112(%rsp)
	movq	%rbp, 120(%rsp)
	leaq	.Lstatic.14(%rip), %rdx
	leaq	160(%rsp), %rdi
	movq	%r15, %rsi
	callq	"end_objects::settings::peer_setup"
	testq	%r13, %r13
	je	.LBB9fb05_13
	movq	%r13, %r15
	movq	%r12, %rdi
	.p2align	4
.LBB9fb05_12:
	leaq	1248(%rdi), %rbp
	leaq	160(%rsp), %rsi
	callq	"eap_method::peer_objects::start_one::<#807681be332d694b>"
	movq	%rbp, %rdi
	decq	%r15
	jne	.LBB9fb05_12
.LBB9fb05_13:
	cmpb	$0, 16(%rbx)
	movq	(%r14), %r15
	movzbl	(%r15), %r14d
	movq	8(%r15), %rax
	movq	%rax, 8(%rsp)
	movq	24(%r15), %rax
	movq	%rax, 16(%rsp)
	movq	1328(%r15), %rax
	movq	%rax, 104(%rsp)
	movq	1528(%r15), %rax
	movq	%rax, 96(%rsp)
	movq	1560(%r15), %rax
	movq	%rax, 88(%rsp)
	movq	1976(%r15), %rax
	movq	%rax, 80(%rsp)
	movq	2296(%r15), %rax
	movq	%rax, 40(%rsp)
	movq	2312(%r15), %rax
	movq	%rax, 72(%rsp)
	movq	2328(%r15), %rax
	movq	%rax, 64(%rsp)
	movq	2344(%r15), %rax
	movq	%rax, 56(%rsp)
	movq	2352(%r15), %rax
	movq	%rax, 48(%rsp)
	movq	2624(%r15), %rbp
	movups	(%rbx), %xmm0
	movq	$7, (%r15)
	movups	%xmm0, 8(%r15)
	setne	24(%r15)
	leaq	2360(%r15), %rbx
	movq	$0, 32(%r15)
	movq	$0, 25(%r15)
	leaq	40(%r15), %rdi
	leaq	160(%rsp), %rsi
	movl	$768, %edx
	callq	memcpy@PLT
	movb	$1, 808(%r15)
	leaq	809(%r15), %rdi
	movl	$1519, %edx
	xorl	%esi, %esi
	callq	memset@PLT
	movq	%r12, 2328(%r15)
	movq	%r13, 2336(%r15)
	movq	120(%rsp), %rax
	movq	%rax, 2344(%r15)
	movq	112(%rsp), %rax
	movq	%rax, 2352(%r15)
	movl	$272, %edx
	movq	%rbx, %rdi
	xorl	%esi, %esi
	callq	memset@PLT
	leaq	.LJTI9fb05_0(%rip), %rax
	movslq	(%rax,%r14,4), %rcx
	addq	%rax, %rcx
	jmpq	*%rcx
.LBB9fb05_18:
	movq	8(%rsp), %rdi
	cmpq	$0, 16(%rsp)
	je	.LBB9fb05_20
	callq	rattle_dealloc@PLT
.LBB9fb05_20:
	movq	%rbp, %rdi
	jmp	.LBB9fb05_26
.LBB9fb05_28:
	testq	%rbp, %rbp
	je	.LBB9fb05_30
	movq	%r12, %rdi
	callq	rattle_dealloc@PLT
.LBB9fb05_30:
	movb	$8, %al
	jmp	.LBB9fb05_31
.LBB9fb05_15:
	movq	80(%rsp), %rdi
	jmp	.LBB9fb05_26
.LBB9fb05_22:
	movq	64(%rsp), %rdi
	movq	48(%rsp), %rbx
	cmpq	$0, 56(%rsp)
	je	.LBB9fb05_24
	callq	rattle_dealloc@PLT
.LBB9fb05_24:
	movq	%rbx, %rdi
	jmp	.LBB9fb05_26
.LBB9fb05_16:
	cmpq	$0, 72(%rsp)
	je	.LBB9fb05_27
	movq	40(%rsp), %rdi
	jmp	.LBB9fb05_26
.LBB9fb05_14:
	movq	104(%rsp), %rdi
	jmp	.LBB9fb05_26
.LBB9fb05_21:
	movq	96(%rsp), %rdi
	jmp	.LBB9fb05_26
.LBB9fb05_25:
	movq	88(%rsp), %rdi
.LBB9fb05_26:
	callq	rattle_dealloc@PLT
.LBB9fb05_27:
	movb	$0, 2632(%r15)
	xorl	%eax, %eax
.LBB9fb05_31:
	addq	$936, %rsp
	.cfi_def_cfa_offset 56
	popq	%rbx
	.cfi_def_cfa_offset 48
	popq	%r12
	.cfi_def_cfa_offset 40
	popq	%r13
	.cfi_def_cfa_offset 32
	popq	%r14
	.cfi_def_cfa_offset 24
	popq	%r15
	.cfi_def_cfa_offset 16
	popq	%rbp
	.cfi_def_cfa_offset 8
	retq
.Lfunc_end9fb05:
	.size	tuv_supplicant_begin, .Lfunc_end9fb05-tuv_supplicant_begin
	.cfi_endproc
	.section	.rodata.tuv_supplicant_begin,"a",@progbits
	.p2align	2, 0x0
.LJTI9fb05_0:
	.long	.LBB9fb05_27-.LJTI9fb05_0
	.long	.LBB9fb05_14-.LJTI9fb05_0
	.long	.LBB9fb05_15-.LJTI9fb05_0
	.long	.LBB9fb05_16-.LJTI9fb05_0
	.long	.LBB9fb05_18-.LJTI9fb05_0
	.long	.LBB9fb05_18-.LJTI9fb05_0
	.long	.LBB9fb05_21-.LJTI9fb05_0
	.long	.LBB9fb05_22-.LJTI9fb05_0
	.long	.LBB9fb05_25-.LJTI9fb05_0

	.section	.text.tuv_supplicant_control,"ax",@progbits
	.globl	tuv_supplicant_control
	.p2align	4
	.type	tuv_supplicant_control,@function
tuv_supplicant_control:
	.cfi_startproc
	movq	(%rdi), %rax
	decb	%sil
	cmpb	$2, %sil
	ja	.LBB09cbc_15
	shlb	$3, %sil
	movl	$65538, %edx
	movl	%esi, %ecx
	shrl	%cl, %edx
	cmpb	$7, (%rax)
	jne	.LBB09cbc_15
	pushq	%rbp
	.cfi_def_cfa_offset 16
	pushq	%r14
	.cfi_def_cfa_offset 24
	pushq	%rbx
	.cfi_def_cfa_offset 32
	.cfi_offset %rbx, -32
	.cfi_offset %r14, -24
	.cfi_offset %rbp, -16
	movzbl	30(%rax), %ebp
	cmpb	$1, %bpl
	ja	.LBB09cbc_4
	movb	%dl, 28(%rax)
	jmp	.LBB09cbc_9
.LBB09cbc_15:
	.cfi_def_cfa_offset 8
	.cfi_restore %rbx
	.cfi_restore %rbp
	.cfi_restore %r14
	movb	$0, 2632(%rax)
	movb	$1, %dl
	xorl	%ecx, %ecx
	xorl	%eax, %eax
	jmp	.LBB09cbc_16
.LBB09cbc_4:
	.cfi_def_cfa_offset 32
	.cfi_offset %rbx, -32
	.cfi_offset %rbp, -16
	.cfi_offset %r14, -24
	cmpb	%dl, 28(%rax)
	je	.LBB09cbc_9
	movb	%dl, 28(%rax)
	cmpb	$2, %dl
	je	.LBB09cbc_10
	movzbl	%dl, %ecx
	cmpl	$1, %ecx
	jne	.LBB09cbc_7
	movw	$262, 30(%rax)
	movb	$6, %bpl
.LBB09cbc_9:
	movzbl	31(%rax), %ecx
	movb	$0, 2632(%rax)
	shll	$8, %ecx
	xorl	%eax, %eax
.LBB09cbc_14:
	movzbl	%bpl, %edx
	leaq	.Lswitch.table.tuv_supplicant_logoff(%rip), %rsi
	orl	(%rsi,%rdx,4), %ecx
	xorl	%edx, %edx
	popq	%rbx
	.cfi_def_cfa_offset 24
	popq	%r14
	.cfi_def_cfa_offset 16
	popq	%rbp
	.cfi_def_cfa_offset 8
	.cfi_restore %rbx
	.cfi_restore %r14
	.cfi_restore %rbp
.LBB09cbc_16:
	shlq	$24, %rcx
	movzbl	%dl, %edx
	shll	$16, %edx
	orq	%rcx, %rdx
	movzbl	%al, %eax
	orq	%rdx, %rax
	retq
.LBB09cbc_10:
	.cfi_def_cfa_offset 32
	.cfi_offset %rbx, -32
	.cfi_offset %rbp, -16
	.cfi_offset %r14, -24
	movw	$7, 30(%rax)
	movb	$7, %bpl
	movl	$514, %r14d
	jmp	.LBB09cbc_11
.LBB09cbc_7:
	xorl	%ecx, %ecx
	cmpl	$0, 12(%rax)
	setne	%cl
	movl	%ecx, 32(%rax)
	movw	$2, 30(%rax)
	movl	8(%rax), %ecx
	movl	%ecx, 36(%rax)
	movb	$2, %bpl
	movl	$258, %r14d
.LBB09cbc_11:
	movq	2352(%rax), %rbx
	movb	$1, 2632(%rax)
	movq	1504(%rbx), %rdx
	testq	%rdx, %rdx
	je	.LBB09cbc_13
	movq	%rbx, %rdi
	xorl	%esi, %esi
	callq	memset@PLT
.LBB09cbc_13:
	movl	%r14d, (%rbx)
	movq	$4, 1504(%rbx)
	movb	$1, %al
	xorl	%ecx, %ecx
	jmp	.LBB09cbc_14
.Lfunc_end09cbc:
	.size	tuv_supplicant_control, .Lfunc_end09cbc-tuv_supplicant_control
	.cfi_endproc

	.section	.text.tuv_supplicant_frame,"ax",@progbits
	.globl	tuv_supplicant_frame
	.p2align	4
	.type	tuv_supplicant_frame,@function
tuv_supplicant_frame:
	.cfi_startproc
	pushq	%rbp
	.cfi_def_cfa_offset 16
	pushq	%r15
	.cfi_def_cfa_offset 24
	pushq	%r14
	.cfi_def_cfa_offset 32
	pushq	%r13
	.cfi_def_cfa_offset 40
	pushq	%r12
	.cfi_def_cfa_offset 48
	pushq	%rbx
	.cfi_def_cfa_offset 56
	subq	$1608, %rsp
	.cfi_def_cfa_offset 1664
	.cfi_offset %rbx, -56
	.cfi_offset %r12, -48
	.cfi_offset %r13, -40
	.cfi_offset %r14, -32
	.cfi_offset %r15, -24
	.cfi_offset %rbp, -16
	xorl	%r13d, %r13d
	testq	%rsi, %rsi
	sete	%r14b
	movq	(%rdi), %rbp
	cmpb	$7, (%rbp)
	jne	.LBBebfe5_59
	movq	%rdx, %r15
	movq	%rsi, %rbx
	movq	%rcx, 32(%rsp)
	leaq	96(%rsp), %rdi
	xorl	%r12d, %r12d
	movl	$1512, %edx
	xorl	%esi, %esi
	callq	memset@PLT
	movl	$0, %esi
	cmpq	$4, %r15
	jb	.LBBebfe5_4
	movb	%r14b, %r13b
	shll	$12, %r13d
	addq	%r13, %rbx
	movzwl	2(%rbx), %eax
	rolw	$8, %ax
	movzwl	%ax, %r14d
	addq	$-4, %r15
	cmpq	%r14, %r15
	jae	.LBBebfe5_5
	movb	$1, %sil
	xorl	%r12d, %r12d
	jmp	.LBBebfe5_4
.LBBebfe5_59:
	movb	$0, 2632(%rbp)
	xorl	%ebp, %ebp
	movb	$1, %al
	xorl	%r13d, %r13d
	xorl	%ecx, %ecx
	jmp	.LBBebfe5_60
.LBBebfe5_5:
	cmpb	$0, 1(%rbx)
	je	.LBBebfe5_7
	movb	$1, %r12b
	xorl	%esi, %esi
.LBBebfe5_4:
	movzbl	30(%rbp), %r13d
	movzbl	31(%rbp), %edi
	movb	$0, 2632(%rbp)
	movb	$1, %r15b
	xorl	%r14d, %r14d
	movb	$66, %cl
	movzbl	%r12b, %eax
	leaq	.LJTIebfe5_1(%rip), %rdx
	movslq	(%rdx,%rax,4), %rax
	addq	%rdx, %rax
	xorl	%ebp, %ebp
	jmpq	*%rax
.LBBebfe5_45:
	testb	%sil, %sil
	sete	%sil
	xorb	$65, %sil
	movl	$16777216, %eax
	movzbl	%r13b, %ecx
	leaq	.LJTIebfe5_2(%rip), %rdx
	movslq	(%rdx,%rcx,4), %rcx
	addq	%rdx, %rcx
	movl	%r15d, %r13d
	jmpq	*%rcx
.LBBebfe5_7:
	leaq	8(%rbp), %rsi
	addq	$4, %rbx
	movl	$0, 16(%rsp)
	movb	$0, 20(%rsp)
	movl	$0, 24(%rsp)
	movb	$0, 28(%rsp)
	movzbl	30(%rbp), %eax
	movl	$195, %ecx
	btl	%eax, %ecx
	jae	.LBBebfe5_8
	movw	$513, 18(%rsp)
	jmp	.LBBebfe5_26
.LBBebfe5_8:
	movl	$52, %ecx
	btl	%eax, %ecx
	jae	.LBBebfe5_9
	movq	584(%rbp), %rax
	testq	%rax, %rax
	je	.LBBebfe5_16
	movq	2328(%rbp), %rcx
	movq	2336(%rbp), %rdx
	leaq	576(%rbp), %rsi
	incq	%rdx
.LBBebfe5_13:
	decq	%rax
	movzbl	(%rsi), %edi
	incq	%rsi
	movq	%rdx, %r8
	movq	%rcx, %r9
	.p2align	4
.LBBebfe5_14:
	decq	%r8
	je	.LBBebfe5_23
	cmpb	$0, (%r9)
	leaq	1248(%r9), %r9
	setne	%r10b
	shlb	$2, %r10b
	addb	$47, %r10b
	cmpb	%dil, %r10b
	jne	.LBBebfe5_14
	testq	%rax, %rax
	jne	.LBBebfe5_13
.LBBebfe5_16:
	xorps	%xmm0, %xmm0
	movaps	%xmm0, 80(%rsp)
	movaps	%xmm0, 64(%rsp)
	movaps	%xmm0, 48(%rsp)
	leaq	48(%rsp), %rdi
	movq	%rbx, %rsi
	movq	%r14, %rdx
	callq	"eap_packet::packet::decode"
	movq	32(%rsp), %rax
	movzbl	56(%rsp), %ecx
	orb	48(%rsp), %cl
	jne	.LBBebfe5_23
	movups	(%rax), %xmm0
	movups	16(%rax), %xmm1
	movups	%xmm1, 784(%rbp)
	movups	%xmm0, 768(%rbp)
	movq	2336(%rbp), %r13
	testq	%r13, %r13
	je	.LBBebfe5_20
	leaq	40(%rbp), %r12
	movq	2328(%rbp), %rdi
.LBBebfe5_19:
	leaq	1248(%rdi), %r15
	movq	%r12, %rsi
	callq	"eap_method::peer_objects::start_one::<#807681be332d694b>"
	movq	%r15, %rdi
	decq	%r13
	jne	.LBBebfe5_19
.LBBebfe5_20:
	movb	$1, 808(%rbp)
	movl	$0, 809(%rbp)
	movw	$0, 813(%rbp)
	movq	2320(%rbp), %rdx
	testq	%rdx, %rdx
	je	.LBBebfe5_22
	leaq	816(%rbp), %rdi
	xorl	%esi, %esi
	callq	memset@PLT
	movq	$0, 2320(%rbp)
.LBBebfe5_22:
	movb	$3, 30(%rbp)
	movl	$0, 32(%rbp)
	movl	16(%rbp), %eax
	movl	%eax, 36(%rbp)
	leaq	24(%rsp), %rdi
	leaq	96(%rsp), %r9
	leaq	8(%rbp), %rsi
	movq	%rbx, %rdx
	movq	%r14, %rcx
	movl	$1, %r8d
	callq	"supplicant::machine::Supplicant::deliver::<#807681be332d694b>"
	jmp	.LBBebfe5_24
.LBBebfe5_23:
	movl	$50397184, 24(%rsp)
	movb	$0, 28(%rsp)
.LBBebfe5_24:
	movzbl	28(%rsp), %eax
	movb	%al, 20(%rsp)
	movl	24(%rsp), %eax
	movl	%eax, 16(%rsp)
	jmp	.LBBebfe5_26
.LBBebfe5_9:
	leaq	16(%rsp), %rdi
	leaq	96(%rsp), %r9
	movq	%rbx, %rdx
	movq	%r14, %rcx
	xorl	%r8d, %r8d
	callq	"supplicant::machine::Supplicant::deliver::<#807681be332d694b>"
.LBBebfe5_26:
	movzbl	16(%rsp), %eax
	movzbl	17(%rsp), %r14d
	movzbl	18(%rsp), %r15d
	movzbl	19(%rsp), %edx
	movzbl	20(%rsp), %esi
	movzbl	30(%rbp), %r13d
	movzbl	31(%rbp), %edi
	movq	2352(%rbp), %rbx
	movb	%al, 2632(%rbp)
	cmpb	$1, %al
	jne	.LBBebfe5_27
	movb	%dl, 15(%rsp)
	movq	1600(%rsp), %rax
	movq	1504(%rbx), %rdx
	testq	%rdx, %rdx
	movb	%dil, 32(%rsp)
	je	.LBBebfe5_30
	movq	%rbx, %rdi
	movl	%esi, %r12d
	xorl	%esi, %esi
	movq	%rax, %rbp
	callq	memset@PLT
	movq	%rbp, %rax
	movl	%r12d, %esi
	movzbl	32(%rsp), %edi
	movq	$0, 1504(%rbx)
.LBBebfe5_30:
	movb	$1, %bpl
	cmpq	$1504, %rax
	ja	.LBBebfe5_32
	movl	%esi, 44(%rsp)
	leaq	96(%rsp), %rsi
	movq	%rbx, %rdi
	movq	%rax, %rdx
	movq	%rax, %r12
	callq	memcpy@PLT
	movl	44(%rsp), %esi
	movzbl	32(%rsp), %edi
	movq	%r12, 1504(%rbx)
.LBBebfe5_32:
	movzbl	15(%rsp), %edx
	jmp	.LBBebfe5_33
.LBBebfe5_27:
	xorl	%ebp, %ebp
.LBBebfe5_33:
	testb	%r15b, %r15b
	je	.LBBebfe5_34
	movb	$66, %cl
	movzbl	%dl, %eax
	leaq	.LJTIebfe5_1(%rip), %rdx
	movslq	(%rdx,%rax,4), %rax
	addq	%rdx, %rax
	jmpq	*%rax
.LBBebfe5_49:
	movl	$16777216, %eax
	movzbl	%r13b, %edx
	leaq	.LJTIebfe5_2(%rip), %rsi
	movslq	(%rsi,%rdx,4), %rdx
	addq	%rsi, %rdx
	movl	%ecx, %esi
	movl	%r15d, %r13d
	jmpq	*%rdx
.LBBebfe5_48:
	movl	$16777216, %eax
	movzbl	%r13b, %ecx
	leaq	.LJTIebfe5_2(%rip), %rdx
	movslq	(%rdx,%rcx,4), %rcx
	addq	%rdx, %rcx
	movl	%r15d, %r13d
	jmpq	*%rcx
.LBBebfe5_46:
	movb	$67, %sil
	movl	$16777216, %eax
	movzbl	%r13b, %ecx
	leaq	.LJTIebfe5_2(%rip), %rdx
	movslq	(%rdx,%rcx,4), %rcx
	addq	%rdx, %rcx
	movl	%r15d, %r13d
	jmpq	*%rcx
.LBBebfe5_47:
	movb	$68, %sil
	movl	$16777216, %eax
	movzbl	%r13b, %ecx
	leaq	.LJTIebfe5_2(%rip), %rdx
	movslq	(%rdx,%rcx,4), %rcx
	addq	%rdx, %rcx
	movl	%r15d, %r13d
	jmpq	*%rcx
.LBBebfe5_50:
	movl	$33554432, %eax
	jmp	.LBBebfe5_57
.LBBebfe5_53:
	movl	$83886080, %eax
	jmp	.LBBebfe5_57
.LBBebfe5_51:
	movl	$50331648, %eax
	jmp	.LBBebfe5_57
.LBBebfe5_52:
	movl	$67108864, %eax
	jmp	.LBBebfe5_57
.LBBebfe5_56:
	movl	$167772160, %eax
	jmp	.LBBebfe5_57
.LBBebfe5_54:
	movl	$117440512, %eax
	jmp	.LBBebfe5_57
.LBBebfe5_55:
	movl	$150994944, %eax
.LBBebfe5_57:
	movl	%r15d, %r13d
.LBBebfe5_58:
	movzbl	%r14b, %ecx
	movzbl	%dil, %edx
	shll	$8, %edx
	orl	%ecx, %edx
	movzbl	%sil, %ecx
	shll	$16, %ecx
	orl	%edx, %ecx
	orl	%eax, %ecx
	xorl	%eax, %eax
.LBBebfe5_60:
	shlq	$24, %rcx
	movzbl	%al, %eax
	shll	$16, %eax
	orq	%rcx, %rax
	movzbl	%r13b, %ecx
	shll	$8, %ecx
	orq	%rax, %rcx
	movzbl	%bpl, %eax
	orq	%rcx, %rax
	addq	$1608, %rsp
	.cfi_def_cfa_offset 56
	popq	%rbx
	.cfi_def_cfa_offset 48
	popq	%r12
	.cfi_def_cfa_offset 40
	popq	%r13
	.cfi_def_cfa_offset 32
	popq	%r14
	.cfi_def_cfa_offset 24
	popq	%r15
	.cfi_def_cfa_offset 16
	popq	%rbp
	.cfi_def_cfa_offset 8
	retq
.LBBebfe5_34:
	.cfi_def_cfa_offset 1664
	movzbl	%r13b, %eax
	movl	%eax, %eax
	leaq	.LJTIebfe5_0(%rip), %rcx
	movslq	(%rcx,%rax,4), %rax
	addq	%rcx, %rax
	jmpq	*%rax
.LBBebfe5_35:
	movl	$16777216, %eax
	movl	%r13d, %esi
	jmp	.LBBebfe5_58
.LBBebfe5_40:
	movl	$83886080, %eax
	jmp	.LBBebfe5_37
.LBBebfe5_38:
	movl	$50331648, %eax
	jmp	.LBBebfe5_37
.LBBebfe5_39:
	movl	$67108864, %eax
	jmp	.LBBebfe5_37
.LBBebfe5_43:
	movl	$167772160, %eax
	jmp	.LBBebfe5_37
.LBBebfe5_36:
	movl	$33554432, %eax
	jmp	.LBBebfe5_37
.LBBebfe5_41:
	movl	$117440512, %eax
	jmp	.LBBebfe5_37
.LBBebfe5_42:
	movl	$150994944, %eax
.LBBebfe5_37:
	xorl	%r13d, %r13d
	xorl	%esi, %esi
	jmp	.LBBebfe5_58
.Lfunc_endebfe5:
	.size	tuv_supplicant_frame, .Lfunc_endebfe5-tuv_supplicant_frame
	.cfi_endproc
	.section	.rodata.tuv_supplicant_frame,"a",@progbits
	.p2align	2, 0x0
.LJTIebfe5_0:
	.long	.LBBebfe5_35-.LJTIebfe5_0
	.long	.LBBebfe5_36-.LJTIebfe5_0
	.long	.LBBebfe5_38-.LJTIebfe5_0
	.long	.LBBebfe5_39-.LJTIebfe5_0
	.long	.LBBebfe5_40-.LJTIebfe5_0
	.long	.LBBebfe5_41-.LJTIebfe5_0
	.long	.LBBebfe5_42-.LJTIebfe5_0
	.long	.LBBebfe5_43-.LJTIebfe5_0
.LJTIebfe5_1:
	.long	.LBBebfe5_45-.LJTIebfe5_1
	.long	.LBBebfe5_49-.LJTIebfe5_1
	.long	.LBBebfe5_46-.LJTIebfe5_1
	.long	.LBBebfe5_47-.LJTIebfe5_1
	.long	.LBBebfe5_48-.LJTIebfe5_1
.LJTIebfe5_2:
	.long	.LBBebfe5_58-.LJTIebfe5_2
	.long	.LBBebfe5_50-.LJTIebfe5_2
	.long	.LBBebfe5_51-.LJTIebfe5_2
	.long	.LBBebfe5_52-.LJTIebfe5_2
	.long	.LBBebfe5_53-.LJTIebfe5_2
	.long	.LBBebfe5_54-.LJTIebfe5_2
	.long	.LBBebfe5_55-.LJTIebfe5_2
	.long	.LBBebfe5_56-.LJTIebfe5_2

	.section	.text.tuv_supplicant_link,"ax",@progbits
	.globl	tuv_supplicant_link
	.p2align	4
	.type	tuv_supplicant_link,@function
tuv_supplicant_link:
	.cfi_startproc
	movq	(%rdi), %rax
	cmpb	$7, (%rax)
	jne	.LBB0f688_18
	pushq	%rbp
	.cfi_def_cfa_offset 16
	pushq	%r14
	.cfi_def_cfa_offset 24
	pushq	%rbx
	.cfi_def_cfa_offset 32
	.cfi_offset %rbx, -32
	.cfi_offset %r14, -24
	.cfi_offset %rbp, -16
	testb	%sil, %sil
	je	.LBB0f688_2
	movzbl	30(%rax), %ebp
	testb	%bpl, %bpl
	je	.LBB0f688_5
	movzbl	31(%rax), %ecx
	shll	$8, %ecx
	jmp	.LBB0f688_11
.LBB0f688_18:
	.cfi_def_cfa_offset 8
	.cfi_restore %rbx
	.cfi_restore %rbp
	.cfi_restore %r14
	movb	$0, 2632(%rax)
	xorl	%eax, %eax
	movb	$1, %dl
	xorl	%ecx, %ecx
	jmp	.LBB0f688_19
.LBB0f688_2:
	.cfi_def_cfa_offset 32
	.cfi_offset %rbx, -32
	.cfi_offset %rbp, -16
	.cfi_offset %r14, -24
	movw	$0, 30(%rax)
	xorl	%ebp, %ebp
	xorl	%ecx, %ecx
.LBB0f688_11:
	movb	$0, 2632(%rax)
	xorl	%eax, %eax
.LBB0f688_17:
	movzbl	%bpl, %edx
	leaq	.Lswitch.table.tuv_supplicant_logoff(%rip), %rsi
	orl	(%rsi,%rdx,4), %ecx
	xorl	%edx, %edx
	popq	%rbx
	.cfi_def_cfa_offset 24
	popq	%r14
	.cfi_def_cfa_offset 16
	popq	%rbp
	.cfi_def_cfa_offset 8
	.cfi_restore %rbx
	.cfi_restore %r14
	.cfi_restore %rbp
.LBB0f688_19:
	shlq	$24, %rcx
	movzbl	%dl, %edx
	shll	$16, %edx
	orq	%rcx, %rdx
	movzbl	%al, %eax
	orq	%rdx, %rax
	retq
.LBB0f688_5:
	.cfi_def_cfa_offset 32
	.cfi_offset %rbx, -32
	.cfi_offset %rbp, -16
	.cfi_offset %r14, -24
	cmpb	$1, 29(%rax)
	jne	.LBB0f688_7
	movw	$1, 30(%rax)
	movb	$1, %bpl
	jmp	.LBB0f688_13
.LBB0f688_7:
	movzbl	28(%rax), %ecx
	cmpl	$2, %ecx
	je	.LBB0f688_12
	cmpl	$1, %ecx
	jne	.LBB0f688_9
	movw	$262, 30(%rax)
	movl	$256, %ecx
	movb	$6, %bpl
	jmp	.LBB0f688_11
.LBB0f688_12:
	movw	$7, 30(%rax)
	movb	$7, %bpl
.LBB0f688_13:
	movl	$514, %r14d
.LBB0f688_14:
	movq	2352(%rax), %rbx
	movb	$1, 2632(%rax)
	movq	1504(%rbx), %rdx
	testq	%rdx, %rdx
	je	.LBB0f688_16
	movq	%rbx, %rdi
	xorl	%esi, %esi
	callq	memset@PLT
.LBB0f688_16:
	movl	%r14d, (%rbx)
	movq	$4, 1504(%rbx)
	movb	$1, %al
	xorl	%ecx, %ecx
	jmp	.LBB0f688_17
.LBB0f688_9:
	xorl	%ecx, %ecx
	cmpl	$0, 12(%rax)
	setne	%cl
	movl	%ecx, 32(%rax)
	movw	$2, 30(%rax)
	movl	8(%rax), %ecx
	movl	%ecx, 36(%rax)
	movb	$2, %bpl
	movl	$258, %r14d
	jmp	.LBB0f688_14
.Lfunc_end0f688:
	.size	tuv_supplicant_link, .Lfunc_end0f688-tuv_supplicant_link
	.cfi_endproc

	.section	.text.tuv_supplicant_logoff,"ax",@progbits
	.globl	tuv_supplicant_logoff
	.p2align	4
	.type	tuv_supplicant_logoff,@function
tuv_supplicant_logoff:
	.cfi_startproc
	movq	(%rdi), %rax
	cmpb	$7, (%rax)
	jne	.LBB67384_18
	pushq	%rbp
	.cfi_def_cfa_offset 16
	pushq	%r14
	.cfi_def_cfa_offset 24
	pushq	%rbx
	.cfi_def_cfa_offset 32
	.cfi_offset %rbx, -32
	.cfi_offset %r14, -24
	.cfi_offset %rbp, -16
	testb	%sil, %sil
	je	.LBB67384_2
	movzbl	30(%rax), %ebp
	movzbl	%bpl, %ecx
	leal	-2(%rcx), %edx
	cmpl	$6, %edx
	jae	.LBB67384_7
	movw	$257, 29(%rax)
	movb	$0, 31(%rax)
	movb	$1, %bpl
.LBB67384_13:
	movl	$514, %r14d
.LBB67384_14:
	movq	2352(%rax), %rbx
	movb	$1, 2632(%rax)
	movq	1504(%rbx), %rdx
	testq	%rdx, %rdx
	je	.LBB67384_16
	movq	%rbx, %rdi
	xorl	%esi, %esi
	callq	memset@PLT
.LBB67384_16:
	movl	%r14d, (%rbx)
	movq	$4, 1504(%rbx)
	movb	$1, %al
	xorl	%ecx, %ecx
	jmp	.LBB67384_17
.LBB67384_18:
	.cfi_def_cfa_offset 8
	.cfi_restore %rbx
	.cfi_restore %rbp
	.cfi_restore %r14
	movb	$0, 2632(%rax)
	xorl	%eax, %eax
	movb	$1, %dl
	xorl	%ecx, %ecx
	jmp	.LBB67384_19
.LBB67384_2:
	.cfi_def_cfa_offset 32
	.cfi_offset %rbx, -32
	.cfi_offset %rbp, -16
	.cfi_offset %r14, -24
	movb	$0, 29(%rax)
	movzbl	30(%rax), %ebp
	cmpb	$1, %bpl
	jne	.LBB67384_11
	movzbl	28(%rax), %ecx
	cmpl	$2, %ecx
	je	.LBB67384_12
	cmpl	$1, %ecx
	jne	.LBB67384_5
	movw	$262, 30(%rax)
	movb	$6, %bpl
	jmp	.LBB67384_11
.LBB67384_7:
	cmpl	$1, %ecx
	je	.LBB67384_11
	movb	$1, 29(%rax)
	xorl	%ebp, %ebp
.LBB67384_11:
	movzbl	31(%rax), %ecx
	movb	$0, 2632(%rax)
	shll	$8, %ecx
	xorl	%eax, %eax
.LBB67384_17:
	movzbl	%bpl, %edx
	leaq	.Lswitch.table.tuv_supplicant_logoff(%rip), %rsi
	orl	(%rsi,%rdx,4), %ecx
	xorl	%edx, %edx
	popq	%rbx
	.cfi_def_cfa_offset 24
	popq	%r14
	.cfi_def_cfa_offset 16
	popq	%rbp
	.cfi_def_cfa_offset 8
	.cfi_restore %rbx
	.cfi_restore %r14
	.cfi_restore %rbp
.LBB67384_19:
	shlq	$24, %rcx
	movzbl	%dl, %edx
	shll	$16, %edx
	orq	%rcx, %rdx
	movzbl	%al, %eax
	orq	%rdx, %rax
	retq
.LBB67384_12:
	.cfi_def_cfa_offset 32
	.cfi_offset %rbx, -32
	.cfi_offset %rbp, -16
	.cfi_offset %r14, -24
	movw	$7, 30(%rax)
	movb	$7, %bpl
	jmp	.LBB67384_13
.LBB67384_5:
	xorl	%ecx, %ecx
	cmpl	$0, 12(%rax)
	setne	%cl
	movl	%ecx, 32(%rax)
	movw	$2, 30(%rax)
	movl	8(%rax), %ecx
	movl	%ecx, 36(%rax)
	movb	$2, %bpl
	movl	$258, %r14d
	jmp	.LBB67384_14
.Lfunc_end67384:
	.size	tuv_supplicant_logoff, .Lfunc_end67384-tuv_supplicant_logoff
	.cfi_endproc

	.section	.text.tuv_supplicant_second,"ax",@progbits
	.globl	tuv_supplicant_second
	.p2align	4
	.type	tuv_supplicant_second,@function
tuv_supplicant_second:
	.cfi_startproc
	movq	(%rdi), %rcx
	cmpb	$7, (%rcx)
	jne	.LBB2e5d2_25
	movzbl	30(%rcx), %eax
	movzbl	%al, %edx
	pushq	%rbp
	.cfi_def_cfa_offset 16
	pushq	%rbx
	.cfi_def_cfa_offset 24
	pushq	%rax
	.cfi_def_cfa_offset 32
	.cfi_offset %rbx, -24
	.cfi_offset %rbp, -16
	movl	$211, %esi
	btl	%edx, %esi
	jae	.LBB2e5d2_2
	movzbl	31(%rcx), %ebp
	movb	$0, 2632(%rcx)
	movl	$16777216, %ecx
	movl	%edx, %edx
	leaq	.LJTI2e5d2_0(%rip), %rsi
	movslq	(%rsi,%rdx,4), %rdx
	addq	%rsi, %rdx
	jmpq	*%rdx
.LBB2e5d2_15:
	movl	$33554432, %ecx
	jmp	.LBB2e5d2_23
.LBB2e5d2_25:
	.cfi_def_cfa_offset 8
	.cfi_restore %rbx
	.cfi_restore %rbp
	movb	$0, 2632(%rcx)
	xorl	%eax, %eax
	movb	$1, %cl
	xorl	%edx, %edx
	jmp	.LBB2e5d2_26
.LBB2e5d2_2:
	.cfi_def_cfa_offset 32
	.cfi_offset %rbx, -24
	.cfi_offset %rbp, -16
	movl	$40, %esi
	btl	%edx, %esi
	jae	.LBB2e5d2_3
	movl	36(%rcx), %esi
	cmpl	$1, %esi
	ja	.LBB2e5d2_27
	movl	32(%rcx), %eax
	cmpl	12(%rcx), %eax
	jb	.LBB2e5d2_10
	jmp	.LBB2e5d2_11
.LBB2e5d2_3:
	movl	36(%rcx), %eax
	cmpl	$1, %eax
	ja	.LBB2e5d2_16
	movl	32(%rcx), %eax
	cmpl	12(%rcx), %eax
	jae	.LBB2e5d2_5
.LBB2e5d2_10:
	incl	%eax
	movl	%eax, 32(%rcx)
.LBB2e5d2_11:
	movb	$2, 30(%rcx)
	movl	8(%rcx), %eax
	movl	%eax, 36(%rcx)
	movzbl	31(%rcx), %ebp
	movq	2352(%rcx), %rbx
	movb	$1, 2632(%rcx)
	movq	1504(%rbx), %rdx
	testq	%rdx, %rdx
	je	.LBB2e5d2_13
	movq	%rbx, %rdi
	xorl	%esi, %esi
	callq	memset@PLT
.LBB2e5d2_13:
	movl	$258, (%rbx)
	movq	$4, 1504(%rbx)
	movl	$50331648, %ecx
	movb	$1, %al
	jmp	.LBB2e5d2_24
.LBB2e5d2_27:
	decl	%esi
	movl	%esi, 36(%rcx)
	movzbl	31(%rcx), %ebp
	movb	$0, 2632(%rcx)
	movl	$16777216, %ecx
	movl	%edx, %edx
	leaq	.LJTI2e5d2_0(%rip), %rsi
	movslq	(%rsi,%rdx,4), %rdx
	addq	%rsi, %rdx
	jmpq	*%rdx
.LBB2e5d2_18:
	movl	$67108864, %ecx
	jmp	.LBB2e5d2_23
.LBB2e5d2_19:
	movl	$83886080, %ecx
	jmp	.LBB2e5d2_23
.LBB2e5d2_22:
	movl	$167772160, %ecx
	jmp	.LBB2e5d2_23
.LBB2e5d2_20:
	movl	$117440512, %ecx
	jmp	.LBB2e5d2_23
.LBB2e5d2_21:
	movl	$150994944, %ecx
	jmp	.LBB2e5d2_23
.LBB2e5d2_16:
	decl	%eax
	movl	%eax, 36(%rcx)
	movzbl	31(%rcx), %ebp
	movb	$0, 2632(%rcx)
.LBB2e5d2_17:
	movl	$50331648, %ecx
.LBB2e5d2_23:
	xorl	%eax, %eax
.LBB2e5d2_24:
	movzbl	%bpl, %edx
	shll	$8, %edx
	orl	%ecx, %edx
	xorl	%ecx, %ecx
	addq	$8, %rsp
	.cfi_def_cfa_offset 24
	popq	%rbx
	.cfi_def_cfa_offset 16
	popq	%rbp
	.cfi_def_cfa_offset 8
	.cfi_restore %rbx
	.cfi_restore %rbp
.LBB2e5d2_26:
	shlq	$24, %rdx
	movzbl	%cl, %ecx
	shll	$16, %ecx
	orq	%rdx, %rcx
	movzbl	%al, %eax
	orq	%rcx, %rax
	retq
.LBB2e5d2_5:
	.cfi_def_cfa_offset 32
	.cfi_offset %rbx, -24
	.cfi_offset %rbp, -16
	cmpb	$1, 24(%rcx)
	jne	.LBB2e5d2_7
	movw	$260, 30(%rcx)
	movb	$0, 2632(%rcx)
	movl	$83886080, %ecx
	movb	$1, %bpl
	jmp	.LBB2e5d2_23
.LBB2e5d2_7:
	movw	$5, 30(%rcx)
	movl	20(%rcx), %eax
	movl	%eax, 36(%rcx)
	movb	$0, 2632(%rcx)
	movl	$117440512, %ecx
	xorl	%eax, %eax
	xorl	%ebp, %ebp
	jmp	.LBB2e5d2_24
.Lfunc_end2e5d2:
	.size	tuv_supplicant_second, .Lfunc_end2e5d2-tuv_supplicant_second
	.cfi_endproc
	.section	.rodata.tuv_supplicant_second,"a",@progbits
	.p2align	2, 0x0
.LJTI2e5d2_0:
	.long	.LBB2e5d2_24-.LJTI2e5d2_0
	.long	.LBB2e5d2_15-.LJTI2e5d2_0
	.long	.LBB2e5d2_17-.LJTI2e5d2_0
	.long	.LBB2e5d2_18-.LJTI2e5d2_0
	.long	.LBB2e5d2_19-.LJTI2e5d2_0
	.long	.LBB2e5d2_20-.LJTI2e5d2_0
	.long	.LBB2e5d2_21-.LJTI2e5d2_0
	.long	.LBB2e5d2_22-.LJTI2e5d2_0

	.section	.text.tuv_version,"ax",@progbits
	.globl	tuv_version
	.p2align	4
	.type	tuv_version,@function
tuv_version:
	.cfi_startproc
	movl	$2, %eax
	retq
.Lfunc_end57c1e:
	.size	tuv_version, .Lfunc_end57c1e-tuv_version
	.cfi_endproc

	.section	.text.tuv_end_session_id,"ax",@progbits
	.globl	tuv_end_session_id
	.p2align	4
	.type	tuv_end_session_id,@function
tuv_end_session_id:
	.cfi_startproc
	pushq	%rbp
	.cfi_def_cfa_offset 16
	pushq	%r15
	.cfi_def_cfa_offset 24
	pushq	%r14
	.cfi_def_cfa_offset 32
	pushq	%r12
	.cfi_def_cfa_offset 40
	pushq	%rbx
	.cfi_def_cfa_offset 48
	subq	$1744, %rsp
	.cfi_def_cfa_offset 1792
	.cfi_offset %rbx, -48
	.cfi_offset %r12, -40
	.cfi_offset %r14, -32
	.cfi_offset %r15, -24
	.cfi_offset %rbp, -16
	movq	%rsi, %rbx
	movq	(%rdi), %rdi
	xorps	%xmm0, %xmm0
	movaps	%xmm0, 192(%rsp)
	movaps	%xmm0, 208(%rsp)
	movq	$0, 223(%rsp)
	movaps	%xmm0, 288(%rsp)
	movaps	%xmm0, 304(%rsp)
	movaps	%xmm0, 320(%rsp)
	movaps	%xmm0, 336(%rsp)
	movaps	%xmm0, 352(%rsp)
	movq	$0, 368(%rsp)
	movaps	%xmm0, 240(%rsp)
	movaps	%xmm0, 256(%rsp)
	movaps	%xmm0, 272(%rsp)
	callq	"tuvaddri_c::held::object_of"
	movl	%eax, %r14d
	movq	%rdx, %r15
	leaq	384(%rsp), %rdi
	movl	$680, %edx
	xorl	%esi, %esi
	callq	memset@PLT
	movzbl	%r14b, %ebp
	testb	%r14b, %r14b
	je	.LBB5aec3_5
	leaq	384(%rsp), %rdi
	movq	%r15, %rsi
	cmpl	$2, %ebp
	jne	.LBB5aec3_3
	callq	"end_objects::objects::ServerObjectServerMethod::report"
	jmp	.LBB5aec3_4
.LBB5aec3_3:
	callq	"end_objects::objects::PeerObjectPeerMethod::report"
.LBB5aec3_4:
	movzbl	384(%rsp), %r14d
.LBB5aec3_5:
	movzbl	%r14b, %r12d
	leaq	392(%rsp), %rsi
	leaq	1072(%rsp), %r14
	movl	$672, %edx
	movq	%r14, %rdi
	callq	memcpy@PLT
	movq	%r12, 1064(%rsp)
	leaq	288(%rsp), %rdi
	movl	%ebp, %esi
	movq	%r15, %rdx
	callq	"tuvaddri_c::held::Object::nonces"
	movzbl	288(%rsp), %eax
	movq	%rax, 384(%rsp)
	movups	296(%rsp), %xmm0
	movups	312(%rsp), %xmm1
	movups	328(%rsp), %xmm2
	movups	344(%rsp), %xmm3
	movups	%xmm0, 392(%rsp)
	movups	%xmm1, 408(%rsp)
	movups	%xmm2, 424(%rsp)
	movups	%xmm3, 440(%rsp)
	movups	360(%rsp), %xmm0
	movups	%xmm0, 456(%rsp)
	xorps	%xmm0, %xmm0
	movaps	%xmm0, 112(%rsp)
	movaps	%xmm0, 96(%rsp)
	movq	$0, 127(%rsp)
	testb	%r12b, %r12b
	je	.LBB5aec3_14
	testb	%al, %al
	je	.LBB5aec3_15
	leaq	392(%rsp), %r9
	movaps	%xmm0, 144(%rsp)
	movaps	%xmm0, 160(%rsp)
	movq	$0, 175(%rsp)
	cmpb	$47, 1072(%rsp)
	jne	.LBB5aec3_16
	movaps	%xmm0, (%rsp)
	movaps	%xmm0, 16(%rsp)
	movq	$0, 31(%rsp)
	movq	424(%rsp), %r12
	movq	464(%rsp), %r15
	leaq	(%r15,%r12), %rax
	cmpq	$32, %rax
	ja	.LBB5aec3_19
	movb	$47, 48(%rsp)
	leaq	49(%rsp), %r14
	movups	%xmm0, 49(%rsp)
	movups	%xmm0, 65(%rsp)
	movq	$0, 80(%rsp)
	movl	$1, %eax
	cmpq	$32, %r12
	ja	.LBB5aec3_11
	movq	%r14, %rdi
	movq	%r9, %rsi
	movq	%r12, %rdx
	callq	memcpy@PLT
	incq	%r12
	movq	%r12, %rax
.LBB5aec3_11:
	movl	$33, %edx
	subq	%rax, %rdx
	movb	$47, %cl
	cmpq	%r15, %rdx
	jb	.LBB5aec3_13
	leaq	432(%rsp), %rsi
	leaq	(%rsp,%rax), %rdi
	addq	$48, %rdi
	movq	%r15, %rdx
	movq	%rax, %r12
	callq	memcpy@PLT
	movq	%r12, %rax
	addq	%r15, %rax
	movzbl	48(%rsp), %ecx
.LBB5aec3_13:
	movq	31(%r14), %rdx
	movq	%rdx, 31(%rsp)
	movups	(%r14), %xmm0
	movups	16(%r14), %xmm1
	movaps	%xmm1, 16(%rsp)
	movaps	%xmm0, (%rsp)
	movl	$1, %edx
	jmp	.LBB5aec3_24
.LBB5aec3_15:
	movb	$1, %dl
	xorl	%ecx, %ecx
	xorl	%eax, %eax
	jmp	.LBB5aec3_25
.LBB5aec3_16:
	movzbl	1608(%rsp), %eax
	cmpl	$2, %eax
	je	.LBB5aec3_20
	cmpl	$1, %eax
	jne	.LBB5aec3_22
	movl	$16, %ecx
	xorl	%eax, %eax
	jmp	.LBB5aec3_21
.LBB5aec3_19:
	xorl	%ecx, %ecx
	xorl	%eax, %eax
	xorl	%edx, %edx
	jmp	.LBB5aec3_24
.LBB5aec3_20:
	movl	$32, %ecx
	movb	$1, %al
.LBB5aec3_21:
	movzbl	%al, %esi
	leaq	.Lstatic.14(%rip), %rdx
	leaq	48(%rsp), %rdi
	movq	%r14, %r8
	callq	"tuvaddri_c::gpsk::gpsk_id"
	movzbl	48(%rsp), %ecx
	movups	49(%rsp), %xmm0
	movaps	%xmm0, 144(%rsp)
	movups	65(%rsp), %xmm0
	movaps	%xmm0, 160(%rsp)
	movq	80(%rsp), %rax
	movq	%rax, 175(%rsp)
	movl	$1, %edx
	movq	88(%rsp), %rax
	jmp	.LBB5aec3_23
.LBB5aec3_22:
	xorl	%edx, %edx
	xorl	%ecx, %ecx
	xorl	%eax, %eax
.LBB5aec3_23:
	movq	175(%rsp), %rsi
	movq	%rsi, 31(%rsp)
	movaps	144(%rsp), %xmm0
	movaps	160(%rsp), %xmm1
	movaps	%xmm1, 16(%rsp)
	movaps	%xmm0, (%rsp)
.LBB5aec3_24:
	movq	31(%rsp), %rsi
	movq	%rsi, 127(%rsp)
	movaps	(%rsp), %xmm0
	movaps	16(%rsp), %xmm1
	movaps	%xmm1, 112(%rsp)
	movaps	%xmm0, 96(%rsp)
	testq	%rdx, %rdx
	sete	%dl
.LBB5aec3_25:
	movq	127(%rsp), %rsi
	movq	%rsi, 223(%rsp)
	movaps	96(%rsp), %xmm0
	movaps	112(%rsp), %xmm1
	movaps	%xmm1, 208(%rsp)
	movaps	%xmm0, 192(%rsp)
	movb	%cl, 240(%rsp)
	movups	%xmm0, 241(%rsp)
	movaps	208(%rsp), %xmm0
	movups	%xmm0, 257(%rsp)
	movq	223(%rsp), %rcx
	movq	%rcx, 272(%rsp)
	movq	%rax, 280(%rsp)
	testb	%dl, %dl
	je	.LBB5aec3_27
.LBB5aec3_14:
	xorl	%eax, %eax
	jmp	.LBB5aec3_28
.LBB5aec3_27:
	leaq	240(%rsp), %rsi
	movq	%rbx, %rdi
	movq	%rax, %rdx
	movq	%rax, %rbx
	callq	memcpy@PLT
	movq	%rbx, %rax
.LBB5aec3_28:
	addq	$1744, %rsp
	.cfi_def_cfa_offset 48
	popq	%rbx
	.cfi_def_cfa_offset 40
	popq	%r12
	.cfi_def_cfa_offset 32
	popq	%r14
	.cfi_def_cfa_offset 24
	popq	%r15
	.cfi_def_cfa_offset 16
	popq	%rbp
	.cfi_def_cfa_offset 8
	retq
.Lfunc_end5aec3:
	.size	tuv_end_session_id, .Lfunc_end5aec3-tuv_end_session_id
	.cfi_endproc

	.section	.text.tuv_end_session_id_wpa,"ax",@progbits
	.globl	tuv_end_session_id_wpa
	.p2align	4
	.type	tuv_end_session_id_wpa,@function
tuv_end_session_id_wpa:
	.cfi_startproc
	pushq	%rbp
	.cfi_def_cfa_offset 16
	pushq	%r15
	.cfi_def_cfa_offset 24
	pushq	%r14
	.cfi_def_cfa_offset 32
	pushq	%r13
	.cfi_def_cfa_offset 40
	pushq	%r12
	.cfi_def_cfa_offset 48
	pushq	%rbx
	.cfi_def_cfa_offset 56
	subq	$2008, %rsp
	.cfi_def_cfa_offset 2064
	.cfi_offset %rbx, -56
	.cfi_offset %r12, -48
	.cfi_offset %r13, -40
	.cfi_offset %r14, -32
	.cfi_offset %r15, -24
	.cfi_offset %rbp, -16
	movq	%rsi, %rbx
	movq	(%rdi), %r15
	xorps	%xmm0, %xmm0
	movaps	%xmm0, 384(%rsp)
	movaps	%xmm0, 400(%rsp)
	movq	$0, 415(%rsp)
	movaps	%xmm0, 480(%rsp)
	movaps	%xmm0, 496(%rsp)
	movaps	%xmm0, 512(%rsp)
	movaps	%xmm0, 528(%rsp)
	movaps	%xmm0, 544(%rsp)
	movq	$0, 560(%rsp)
	movaps	%xmm0, 432(%rsp)
	movaps	%xmm0, 448(%rsp)
	movaps	%xmm0, 464(%rsp)
	movq	%r15, %rdi
	callq	"tuvaddri_c::held::object_of"
	movl	%eax, %r14d
	movq	%rdx, %r12
	leaq	648(%rsp), %rdi
	movl	$680, %edx
	xorl	%esi, %esi
	callq	memset@PLT
	movzbl	%r14b, %ebp
	testb	%r14b, %r14b
	je	.LBB78082_5
	leaq	648(%rsp), %rdi
	movq	%r12, %rsi
	cmpl	$2, %ebp
	jne	.LBB78082_3
	callq	"end_objects::objects::ServerObjectServerMethod::report"
	jmp	.LBB78082_4
.LBB78082_3:
	callq	"end_objects::objects::PeerObjectPeerMethod::report"
.LBB78082_4:
	movzbl	648(%rsp), %r14d
.LBB78082_5:
	movzbl	%r14b, %r13d
	leaq	656(%rsp), %rsi
	leaq	1336(%rsp), %r14
	movl	$672, %edx
	movq	%r14, %rdi
	callq	memcpy@PLT
	movq	%r13, 1328(%rsp)
	leaq	480(%rsp), %rdi
	movl	%ebp, %esi
	movq	%r12, %rdx
	callq	"tuvaddri_c::held::Object::nonces"
	movzbl	480(%rsp), %eax
	movq	%rax, 648(%rsp)
	movups	488(%rsp), %xmm0
	movups	504(%rsp), %xmm1
	movups	520(%rsp), %xmm2
	movups	536(%rsp), %xmm3
	movups	%xmm0, 656(%rsp)
	movups	%xmm1, 672(%rsp)
	movups	%xmm2, 688(%rsp)
	movups	%xmm3, 704(%rsp)
	movups	552(%rsp), %xmm0
	movups	%xmm0, 720(%rsp)
	xorps	%xmm0, %xmm0
	movaps	%xmm0, 288(%rsp)
	movaps	%xmm0, 304(%rsp)
	movq	$0, 319(%rsp)
	testb	%r13b, %r13b
	je	.LBB78082_54
	testb	%al, %al
	je	.LBB78082_9
	leaq	1344(%rsp), %rdx
	movq	1600(%rsp), %rcx
	xorps	%xmm4, %xmm4
	movaps	%xmm4, 208(%rsp)
	movaps	%xmm4, 192(%rsp)
	movaps	%xmm4, 176(%rsp)
	movaps	%xmm4, 160(%rsp)
	movq	$0, 224(%rsp)
	movzbl	(%r15), %eax
	leaq	.LJTI78082_0(%rip), %rsi
	movslq	(%rsi,%rax,4), %rax
	addq	%rsi, %rax
	jmpq	*%rax
.LBB78082_8:
	xorl	%eax, %eax
	jmp	.LBB78082_32
.LBB78082_9:
	movb	$1, %cl
	xorl	%esi, %esi
	xorl	%eax, %eax
	jmp	.LBB78082_53
.LBB78082_10:
	movq	2616(%r15), %rsi
	addq	$1912, %r15
	jmp	.LBB78082_11
.LBB78082_13:
	movzbl	656(%r15), %eax
	movaps	%xmm4, 128(%rsp)
	movaps	%xmm4, 112(%rsp)
	movaps	%xmm4, 96(%rsp)
	movaps	%xmm4, 80(%rsp)
	movq	$0, 144(%rsp)
	cmpb	$1, %al
	jne	.LBB78082_30
	movq	728(%r15), %r12
	movaps	%xmm0, 48(%rsp)
	movaps	%xmm0, 32(%rsp)
	movaps	%xmm0, 16(%rsp)
	movaps	%xmm0, (%rsp)
	movq	$0, 64(%rsp)
	cmpq	$64, %r12
	ja	.LBB78082_21
	addq	$664, %r15
	jmp	.LBB78082_20
.LBB78082_17:
	movzbl	688(%r15), %eax
	movaps	%xmm4, 128(%rsp)
	movaps	%xmm4, 112(%rsp)
	movaps	%xmm4, 96(%rsp)
	movaps	%xmm4, 80(%rsp)
	movq	$0, 144(%rsp)
	cmpb	$1, %al
	jne	.LBB78082_30
	movq	760(%r15), %r12
	movaps	%xmm0, 48(%rsp)
	movaps	%xmm0, 32(%rsp)
	movaps	%xmm0, 16(%rsp)
	movaps	%xmm0, (%rsp)
	movq	$0, 64(%rsp)
	cmpq	$64, %r12
	ja	.LBB78082_21
	addq	$696, %r15
.LBB78082_20:
	movq	%rsp, %rdi
	movq	%r15, %rsi
	movq	%r12, %rdx
	callq	memcpy@PLT
	xorps	%xmm4, %xmm4
	movq	%r12, 64(%rsp)
.LBB78082_21:
	movq	64(%rsp), %rax
	movq	%rax, 144(%rsp)
	movaps	(%rsp), %xmm0
	movaps	16(%rsp), %xmm1
	movaps	32(%rsp), %xmm2
	movaps	48(%rsp), %xmm3
	movaps	%xmm3, 128(%rsp)
	movaps	%xmm2, 112(%rsp)
	movaps	%xmm1, 96(%rsp)
	movaps	%xmm0, 80(%rsp)
	movl	$1, %eax
	jmp	.LBB78082_31
.LBB78082_30:
	xorl	%eax, %eax
.LBB78082_31:
	movq	144(%rsp), %rcx
	movq	%rcx, 224(%rsp)
	movaps	80(%rsp), %xmm0
	movaps	96(%rsp), %xmm1
	movaps	112(%rsp), %xmm2
	movaps	128(%rsp), %xmm3
	movaps	%xmm3, 208(%rsp)
	movaps	%xmm2, 192(%rsp)
	movaps	%xmm1, 176(%rsp)
	movaps	%xmm0, 160(%rsp)
	jmp	.LBB78082_32
.LBB78082_22:
	movq	1968(%r15), %rsi
	addq	$1264, %r15
.LBB78082_11:
	movq	%r15, %rdi
	movl	$51, %r8d
	callq	"login_setup::users::find_user"
	xorps	%xmm4, %xmm4
	movaps	%xmm4, 80(%rsp)
	movaps	%xmm4, 96(%rsp)
	movaps	%xmm4, 112(%rsp)
	movaps	%xmm4, 128(%rsp)
	movq	$0, 144(%rsp)
	cmpb	$1, %al
	jne	.LBB78082_12
	movq	336(%rdx), %r15
	xorps	%xmm0, %xmm0
	movaps	%xmm0, 48(%rsp)
	movaps	%xmm0, 32(%rsp)
	movaps	%xmm0, 16(%rsp)
	movaps	%xmm0, (%rsp)
	movq	$0, 64(%rsp)
	cmpq	$64, %r15
	ja	.LBB78082_25
	addq	$272, %rdx
	movq	%rsp, %rdi
	movq	%rdx, %rsi
	movq	%r15, %rdx
	callq	memcpy@PLT
	xorps	%xmm4, %xmm4
	movq	%r15, 64(%rsp)
.LBB78082_25:
	movq	64(%rsp), %rax
	movq	%rax, 144(%rsp)
	movaps	(%rsp), %xmm0
	movaps	16(%rsp), %xmm1
	movaps	32(%rsp), %xmm2
	movaps	48(%rsp), %xmm3
	movaps	%xmm3, 128(%rsp)
	movaps	%xmm2, 112(%rsp)
	movaps	%xmm1, 96(%rsp)
	movaps	%xmm0, 80(%rsp)
	movl	$1, %eax
	jmp	.LBB78082_26
.LBB78082_12:
	xorl	%eax, %eax
.LBB78082_26:
	movaps	80(%rsp), %xmm0
	movaps	96(%rsp), %xmm1
	movaps	112(%rsp), %xmm2
	movaps	128(%rsp), %xmm3
	movaps	%xmm0, 160(%rsp)
	movaps	%xmm1, 176(%rsp)
	movaps	%xmm2, 192(%rsp)
	movaps	%xmm3, 208(%rsp)
	movq	144(%rsp), %rcx
	movq	%rcx, 224(%rsp)
	jmp	.LBB78082_32
.LBB78082_27:
	movq	1320(%r15), %r12
	movaps	%xmm4, 48(%rsp)
	movaps	%xmm4, 32(%rsp)
	movaps	%xmm4, 16(%rsp)
	movaps	%xmm4, (%rsp)
	movq	$0, 64(%rsp)
	cmpq	$64, %r12
	ja	.LBB78082_29
	addq	$1256, %r15
	movq	%rsp, %rdi
	movq	%r15, %rsi
	movq	%r12, %rdx
	callq	memcpy@PLT
	xorps	%xmm4, %xmm4
	movq	%r12, 64(%rsp)
.LBB78082_29:
	movq	64(%rsp), %rax
	movq	%rax, 224(%rsp)
	movaps	(%rsp), %xmm0
	movaps	16(%rsp), %xmm1
	movaps	32(%rsp), %xmm2
	movaps	48(%rsp), %xmm3
	movaps	%xmm3, 208(%rsp)
	movaps	%xmm2, 192(%rsp)
	movaps	%xmm1, 176(%rsp)
	movaps	%xmm0, 160(%rsp)
	movl	$1, %eax
.LBB78082_32:
	leaq	656(%rsp), %r9
	movq	224(%rsp), %rcx
	movq	%rcx, 640(%rsp)
	movaps	160(%rsp), %xmm0
	movaps	176(%rsp), %xmm1
	movaps	192(%rsp), %xmm2
	movaps	208(%rsp), %xmm3
	movups	%xmm3, 624(%rsp)
	movups	%xmm2, 608(%rsp)
	movups	%xmm1, 592(%rsp)
	movups	%xmm0, 576(%rsp)
	movq	%rax, 568(%rsp)
	movaps	%xmm4, 160(%rsp)
	movaps	%xmm4, 176(%rsp)
	movq	$0, 191(%rsp)
	movaps	%xmm4, 336(%rsp)
	movaps	%xmm4, 352(%rsp)
	movq	$0, 367(%rsp)
	cmpb	$47, 1336(%rsp)
	jne	.LBB78082_39
	xorps	%xmm0, %xmm0
	movaps	%xmm0, 240(%rsp)
	movaps	%xmm0, 256(%rsp)
	movq	$0, 271(%rsp)
	movq	688(%rsp), %r12
	movq	728(%rsp), %r15
	leaq	(%r15,%r12), %rax
	cmpq	$32, %rax
	ja	.LBB78082_44
	movb	$47, (%rsp)
	leaq	1(%rsp), %r14
	movups	%xmm0, 1(%rsp)
	movups	%xmm0, 17(%rsp)
	movq	$0, 32(%rsp)
	movl	$1, %eax
	cmpq	$32, %r12
	ja	.LBB78082_36
	movq	%r14, %rdi
	movq	%r9, %rsi
	movq	%r12, %rdx
	callq	memcpy@PLT
	incq	%r12
	movq	%r12, %rax
.LBB78082_36:
	movl	$33, %ecx
	subq	%rax, %rcx
	movb	$47, %sil
	cmpq	%r15, %rcx
	jb	.LBB78082_38
	leaq	696(%rsp), %rsi
	leaq	(%rsp,%rax), %rdi
	movq	%r15, %rdx
	movq	%rax, %r12
	callq	memcpy@PLT
	movq	%r12, %rax
	addq	%r15, %rax
	movzbl	(%rsp), %esi
.LBB78082_38:
	movq	31(%r14), %rcx
	movq	%rcx, 271(%rsp)
	movups	(%r14), %xmm0
	movups	16(%r14), %xmm1
	movaps	%xmm1, 256(%rsp)
	movaps	%xmm0, 240(%rsp)
	movl	$1, %ecx
	jmp	.LBB78082_52
.LBB78082_39:
	movzbl	1872(%rsp), %ecx
	xorl	%esi, %esi
	cmpl	$1, %ecx
	je	.LBB78082_45
	cmpl	$2, %ecx
	jne	.LBB78082_47
	movb	$1, %sil
	movl	$32, %ecx
	testq	%rax, %rax
	je	.LBB78082_46
.LBB78082_42:
	movq	640(%rsp), %rax
	xorps	%xmm0, %xmm0
	movaps	%xmm0, 80(%rsp)
	movaps	%xmm0, 96(%rsp)
	movq	$0, 111(%rsp)
	cmpq	%rcx, %rax
	jae	.LBB78082_48
	xorl	%esi, %esi
	xorl	%eax, %eax
	xorl	%ecx, %ecx
	jmp	.LBB78082_49
.LBB78082_44:
	xorl	%esi, %esi
	xorl	%eax, %eax
	xorl	%ecx, %ecx
	jmp	.LBB78082_52
.LBB78082_45:
	movl	$16, %ecx
	testq	%rax, %rax
	jne	.LBB78082_42
.LBB78082_46:
	xorl	%esi, %esi
	xorl	%eax, %eax
	xorl	%ecx, %ecx
	jmp	.LBB78082_50
.LBB78082_47:
	xorl	%eax, %eax
	xorl	%ecx, %ecx
	jmp	.LBB78082_51
.LBB78082_48:
	leaq	576(%rsp), %rdx
	movzbl	%sil, %esi
	movq	%rsp, %rdi
	movq	%r14, %r8
	callq	"tuvaddri_c::gpsk::gpsk_id"
	movzbl	(%rsp), %esi
	movups	1(%rsp), %xmm0
	movaps	%xmm0, 80(%rsp)
	movups	17(%rsp), %xmm0
	movaps	%xmm0, 96(%rsp)
	movq	32(%rsp), %rax
	movq	%rax, 111(%rsp)
	movl	$1, %ecx
	movq	40(%rsp), %rax
.LBB78082_49:
	movq	111(%rsp), %rdx
	movq	%rdx, 367(%rsp)
	movaps	80(%rsp), %xmm0
	movaps	96(%rsp), %xmm1
	movaps	%xmm1, 352(%rsp)
	movaps	%xmm0, 336(%rsp)
.LBB78082_50:
	movq	367(%rsp), %rdx
	movq	%rdx, 191(%rsp)
	movaps	336(%rsp), %xmm0
	movaps	352(%rsp), %xmm1
	movaps	%xmm1, 176(%rsp)
	movaps	%xmm0, 160(%rsp)
.LBB78082_51:
	movq	191(%rsp), %rdx
	movq	%rdx, 271(%rsp)
	movaps	160(%rsp), %xmm0
	movaps	176(%rsp), %xmm1
	movaps	%xmm1, 256(%rsp)
	movaps	%xmm0, 240(%rsp)
.LBB78082_52:
	movq	271(%rsp), %rdx
	movq	%rdx, 319(%rsp)
	movaps	240(%rsp), %xmm0
	movaps	256(%rsp), %xmm1
	movaps	%xmm1, 304(%rsp)
	movaps	%xmm0, 288(%rsp)
	testq	%rcx, %rcx
	sete	%cl
.LBB78082_53:
	movq	319(%rsp), %rdx
	movq	%rdx, 415(%rsp)
	movaps	288(%rsp), %xmm0
	movaps	304(%rsp), %xmm1
	movaps	%xmm1, 400(%rsp)
	movaps	%xmm0, 384(%rsp)
	movb	%sil, 432(%rsp)
	movups	%xmm0, 433(%rsp)
	movaps	400(%rsp), %xmm0
	movups	%xmm0, 449(%rsp)
	movq	415(%rsp), %rdx
	movq	%rdx, 464(%rsp)
	movq	%rax, 472(%rsp)
	testb	%cl, %cl
	je	.LBB78082_55
.LBB78082_54:
	xorl	%eax, %eax
	jmp	.LBB78082_56
.LBB78082_55:
	leaq	432(%rsp), %rsi
	movq	%rbx, %rdi
	movq	%rax, %rdx
	movq	%rax, %rbx
	callq	memcpy@PLT
	movq	%rbx, %rax
.LBB78082_56:
	addq	$2008, %rsp
	.cfi_def_cfa_offset 56
	popq	%rbx
	.cfi_def_cfa_offset 48
	popq	%r12
	.cfi_def_cfa_offset 40
	popq	%r13
	.cfi_def_cfa_offset 32
	popq	%r14
	.cfi_def_cfa_offset 24
	popq	%r15
	.cfi_def_cfa_offset 16
	popq	%rbp
	.cfi_def_cfa_offset 8
	retq
.Lfunc_end78082:
	.size	tuv_end_session_id_wpa, .Lfunc_end78082-tuv_end_session_id_wpa
	.cfi_endproc
	.section	.rodata.tuv_end_session_id_wpa,"a",@progbits
	.p2align	2, 0x0
.LJTI78082_0:
	.long	.LBB78082_8-.LJTI78082_0
	.long	.LBB78082_27-.LJTI78082_0
	.long	.LBB78082_22-.LJTI78082_0
	.long	.LBB78082_13-.LJTI78082_0
	.long	.LBB78082_10-.LJTI78082_0
	.long	.LBB78082_10-.LJTI78082_0
	.long	.LBB78082_8-.LJTI78082_0
	.long	.LBB78082_17-.LJTI78082_0
	.long	.LBB78082_8-.LJTI78082_0

	.section	.text.tuv_end_report,"ax",@progbits
	.globl	tuv_end_report
	.p2align	4
	.type	tuv_end_report,@function
tuv_end_report:
	.cfi_startproc
	cmpq	$712, (%rsi)
	jne	.LBB3aa3a_1
	pushq	%rax
	.cfi_def_cfa_offset 16
	movq	(%rdi), %rdi
	movzbl	(%rdi), %eax
	movl	$373, %ecx
	btl	%eax, %ecx
	jae	.LBB3aa3a_4
	callq	"tuvaddri_c::report::report_server"
	addq	$8, %rsp
	.cfi_def_cfa_offset 8
	retq
.LBB3aa3a_1:
	xorl	%eax, %eax
	retq
.LBB3aa3a_4:
	.cfi_def_cfa_offset 16
	callq	"tuvaddri_c::report::report_peer"
	addq	$8, %rsp
	.cfi_def_cfa_offset 8
	retq
.Lfunc_end3aa3a:
	.size	tuv_end_report, .Lfunc_end3aa3a-tuv_end_report
	.cfi_endproc

	.section	.text.tuv_peer_report,"ax",@progbits
	.globl	tuv_peer_report
	.p2align	4
	.type	tuv_peer_report,@function
tuv_peer_report:
	.cfi_startproc
	cmpq	$712, (%rsi)
	jne	.LBB3762a_1
	pushq	%rax
	.cfi_def_cfa_offset 16
	movq	(%rdi), %rdi
	callq	"tuvaddri_c::report::report_peer"
	addq	$8, %rsp
	.cfi_def_cfa_offset 8
	retq
.LBB3762a_1:
	xorl	%eax, %eax
	retq
.Lfunc_end3762a:
	.size	tuv_peer_report, .Lfunc_end3762a-tuv_peer_report
	.cfi_endproc

	.section	.text.tuv_server_report,"ax",@progbits
	.globl	tuv_server_report
	.p2align	4
	.type	tuv_server_report,@function
tuv_server_report:
	.cfi_startproc
	cmpq	$712, (%rsi)
	jne	.LBBf3f74_1
	pushq	%rax
	.cfi_def_cfa_offset 16
	movq	(%rdi), %rdi
	callq	"tuvaddri_c::report::report_server"
	addq	$8, %rsp
	.cfi_def_cfa_offset 8
	retq
.LBBf3f74_1:
	xorl	%eax, %eax
	retq
.Lfunc_endf3f74:
	.size	tuv_server_report, .Lfunc_endf3f74-tuv_server_report
	.cfi_endproc

	.section	.text.tuv_response_name,"ax",@progbits
	.globl	tuv_response_name
	.p2align	4
	.type	tuv_response_name,@function
tuv_response_name:
	.cfi_startproc
	pushq	%r15
	.cfi_def_cfa_offset 16
	pushq	%r14
	.cfi_def_cfa_offset 24
	pushq	%r13
	.cfi_def_cfa_offset 32
	pushq	%r12
	.cfi_def_cfa_offset 40
	pushq	%rbx
	.cfi_def_cfa_offset 48
	subq	$1568, %rsp
	.cfi_def_cfa_offset 1616
	.cfi_offset %rbx, -48
	.cfi_offset %r12, -40
	.cfi_offset %r13, -32
	.cfi_offset %r14, -24
	.cfi_offset %r15, -16
	movq	%rdx, %rbx
	movq	%rsi, %r14
	xorl	%r15d, %r15d
	testq	%rdi, %rdi
	sete	%r15b
	shll	$12, %r15d
	addq	%rdi, %r15
	xorps	%xmm0, %xmm0
	movaps	%xmm0, 32(%rsp)
	movaps	%xmm0, 16(%rsp)
	movaps	%xmm0, (%rsp)
	movq	%rsp, %rdi
	movq	%r15, %rsi
	movq	%r14, %rdx
	callq	"eap_packet::packet::decode"
	cmpb	$1, (%rsp)
	jne	.LBB575ed_2
	xorl	%eax, %eax
	jmp	.LBB575ed_6
.LBB575ed_2:
	leaq	8(%rsp), %r12
	leaq	56(%rsp), %r13
	movl	$1512, %edx
	movq	%r13, %rdi
	xorl	%esi, %esi
	callq	memset@PLT
	movq	%r12, %rdi
	movq	%r13, %rsi
	callq	"eap_packet::expanded::write_plain"
	testb	%al, %al
	je	.LBB575ed_4
	movq	1560(%rsp), %rsi
	leaq	56(%rsp), %rdi
	jmp	.LBB575ed_5
.LBB575ed_4:
	movq	%r15, %rdi
	movq	%r14, %rsi
.LBB575ed_5:
	movq	%rbx, %rdx
	callq	"tuvaddri_c::name::write_name_in"
.LBB575ed_6:
	addq	$1568, %rsp
	.cfi_def_cfa_offset 48
	popq	%rbx
	.cfi_def_cfa_offset 40
	popq	%r12
	.cfi_def_cfa_offset 32
	popq	%r13
	.cfi_def_cfa_offset 24
	popq	%r14
	.cfi_def_cfa_offset 16
	popq	%r15
	.cfi_def_cfa_offset 8
	retq
.Lfunc_end575ed:
	.size	tuv_response_name, .Lfunc_end575ed-tuv_response_name
	.cfi_endproc

	.section	.text.tuv_request_name,"ax",@progbits
	.globl	tuv_request_name
	.p2align	4
	.type	tuv_request_name,@function
tuv_request_name:
	.cfi_startproc
	pushq	%r15
	.cfi_def_cfa_offset 16
	pushq	%r14
	.cfi_def_cfa_offset 24
	pushq	%r13
	.cfi_def_cfa_offset 32
	pushq	%r12
	.cfi_def_cfa_offset 40
	pushq	%rbx
	.cfi_def_cfa_offset 48
	subq	$1568, %rsp
	.cfi_def_cfa_offset 1616
	.cfi_offset %rbx, -48
	.cfi_offset %r12, -40
	.cfi_offset %r13, -32
	.cfi_offset %r14, -24
	.cfi_offset %r15, -16
	movq	%rdx, %rbx
	movq	%rsi, %r14
	xorl	%r15d, %r15d
	testq	%rdi, %rdi
	sete	%r15b
	shll	$12, %r15d
	addq	%rdi, %r15
	xorps	%xmm0, %xmm0
	movaps	%xmm0, 32(%rsp)
	movaps	%xmm0, 16(%rsp)
	movaps	%xmm0, (%rsp)
	movq	%rsp, %rdi
	movq	%r15, %rsi
	movq	%r14, %rdx
	callq	"eap_packet::packet::decode"
	cmpb	$1, (%rsp)
	jne	.LBB2dc08_2
	xorl	%eax, %eax
	jmp	.LBB2dc08_6
.LBB2dc08_2:
	leaq	8(%rsp), %r12
	leaq	56(%rsp), %r13
	movl	$1512, %edx
	movq	%r13, %rdi
	xorl	%esi, %esi
	callq	memset@PLT
	movq	%r12, %rdi
	movq	%r13, %rsi
	callq	"eap_packet::expanded::write_plain"
	testb	%al, %al
	je	.LBB2dc08_4
	movq	1560(%rsp), %rsi
	leaq	56(%rsp), %rdi
	jmp	.LBB2dc08_5
.LBB2dc08_4:
	movq	%r15, %rdi
	movq	%r14, %rsi
.LBB2dc08_5:
	movq	%rbx, %rdx
	callq	"tuvaddri_c::name::write_server_in"
.LBB2dc08_6:
	addq	$1568, %rsp
	.cfi_def_cfa_offset 48
	popq	%rbx
	.cfi_def_cfa_offset 40
	popq	%r12
	.cfi_def_cfa_offset 32
	popq	%r13
	.cfi_def_cfa_offset 24
	popq	%r14
	.cfi_def_cfa_offset 16
	popq	%r15
	.cfi_def_cfa_offset 8
	retq
.Lfunc_end2dc08:
	.size	tuv_request_name, .Lfunc_end2dc08-tuv_request_name
	.cfi_endproc

	.type	.Lstatic.0,@object
	.section	.rodata..Lstatic.0,"a",@progbits
.Lstatic.0:
	.size	.Lstatic.0, 0

	.type	.Lstatic.2,@object
	.section	.rodata..Lstatic.2,"a",@progbits
.Lstatic.2:
	.byte	51
	.size	.Lstatic.2, 1

	.type	.Lstatic.6,@object
	.section	.rodata..Lstatic.6,"a",@progbits
.Lstatic.6:
	.zero	6
	.size	.Lstatic.6, 6

	.type	.Lstatic.10,@object
	.section	.rodata.cst16,"aM",@progbits,16
.Lstatic.10:
	.zero	16
	.size	.Lstatic.10, 16

	.type	.Lstatic.11,@object
	.section	.rodata..Lstatic.11,"a",@progbits
.Lstatic.11:
	.ascii	"\001\002\004\b\020 @\200\0336"
	.size	.Lstatic.11, 10

	.type	.Lstatic.12,@object
	.section	.rodata..Lstatic.12,"a",@progbits
	.p2align	2, 0x0
.Lstatic.12:
	.ascii	"\230/\212B\221D7q\317\373\300\265\245\333\265\351[\302V9\361\021\361Y\244\202?\222\325^\034\253\230\252\007\330\001[\203\022\276\2051$\303}\fUt]\276r\376\261\336\200\247\006\334\233t\361\233\301\301i\233\344\206G\276\357\306\235\301\017\314\241\f$o,\351-\252\204tJ\334\251\260\\\332\210\371vRQ>\230m\3061\250\310'\003\260\307\177Y\277\363\013\340\306G\221\247\325Qc\312\006g))\024\205\n\267'8!\033.\374m,M\023\r8STs\ne\273\njv.\311\302\201\205,r\222\241\350\277\242Kf\032\250p\213K\302\243Ql\307\031\350\222\321$\006\231\326\2055\016\364p\240j\020\026\301\244\031\bl7\036LwH'\265\274\2604\263\f\0349J\252\330NO\312\234[\363o.h\356\202\217toc\245x\024x\310\204\b\002\307\214\372\377\276\220\353lP\244\367\243\371\276\362xq\306"
	.size	.Lstatic.12, 256

	.type	.Lstatic.13,@object
	.section	.rodata..Lstatic.13,"a",@progbits
.Lstatic.13:
	.asciz	"\200\000\000\000\000\000\000\000\000\000\000\000\000\000\000\000\000\000\000\000\000\000\000\000\000\000\000\000\000\000\000\000\000\000\000\000\000\000\000\000\000\000\000\000\000\000\000\000\000\000\000\000\000\000\000\000\000\000\000\000\000\000\000"
	.size	.Lstatic.13, 64

	.type	.Lstatic.14,@object
	.section	.rodata.cst32,"aM",@progbits,32
.Lstatic.14:
	.zero	32
	.size	.Lstatic.14, 32

	.type	.Lstatic.16,@object
	.section	.rodata..Lstatic.16,"a",@progbits
.Lstatic.16:
	.ascii	"\002\003"
	.size	.Lstatic.16, 2

	.type	.Lstatic.17,@object
	.section	.rodata..Lstatic.17,"a",@progbits
.Lstatic.17:
	.byte	2
	.size	.Lstatic.17, 1

	.type	.Lstatic.20,@object
	.section	.rodata.cst4,"aM",@progbits,4
.Lstatic.20:
	.ascii	"\002\021\022\f"
	.size	.Lstatic.20, 4

	.type	.Lstatic.21,@object
	.section	.rodata..Lstatic.21,"a",@progbits
.Lstatic.21:
	.ascii	"\002\020\f"
	.size	.Lstatic.21, 3

	.type	.Lstatic.22,@object
	.section	.rodata..Lstatic.22,"a",@progbits
.Lstatic.22:
	.ascii	"\024\022\f"
	.size	.Lstatic.22, 3

	.type	.Lstatic.23,@object
	.section	.rodata..Lstatic.23,"a",@progbits
.Lstatic.23:
	.ascii	"\020\f"
	.size	.Lstatic.23, 2

	.type	.Lstatic.24,@object
	.section	.rodata..Lstatic.24,"a",@progbits
.Lstatic.24:
	.ascii	"\024\f"
	.size	.Lstatic.24, 2

	.type	.Lstatic.38,@object
	.section	.rodata..Lstatic.38,"a",@progbits
.Lstatic.38:
	.ascii	"Method ID"
	.size	.Lstatic.38, 9

	.type	".Lswitch.table.server_machine::machine::SizedServer::propose::<#575f94f35bca5e04>.303",@object
	.section	".rodata..Lswitch.table.server_machine::machine::SizedServer::propose::<#575f94f35bca5e04>.303","a",@progbits
	.p2align	3, 0x0
".Lswitch.table.server_machine::machine::SizedServer::propose::<#575f94f35bca5e04>.303":
	.quad	4
	.quad	3
	.quad	3
	.quad	2
	.quad	2
	.size	".Lswitch.table.server_machine::machine::SizedServer::propose::<#575f94f35bca5e04>.303", 40

	.type	".Lswitch.table.server_machine::machine::SizedServer::propose::<#575f94f35bca5e04>.304",@object
	.section	".data.rel.ro..Lswitch.table.server_machine::machine::SizedServer::propose::<#575f94f35bca5e04>.304","aw",@progbits
	.p2align	3, 0x0
".Lswitch.table.server_machine::machine::SizedServer::propose::<#575f94f35bca5e04>.304":
	.quad	.Lstatic.20
	.quad	.Lstatic.21
	.quad	.Lstatic.22
	.quad	.Lstatic.23
	.quad	.Lstatic.24
	.size	".Lswitch.table.server_machine::machine::SizedServer::propose::<#575f94f35bca5e04>.304", 40

	.type	.Lswitch.table.tuv_supplicant_logoff,@object
	.section	.rodata.cst32,"aM",@progbits,32
	.p2align	2, 0x0
.Lswitch.table.tuv_supplicant_logoff:
	.long	16777216
	.long	33554432
	.long	50331648
	.long	67108864
	.long	83886080
	.long	117440512
	.long	150994944
	.long	167772160
	.size	.Lswitch.table.tuv_supplicant_logoff, 32

	.ident	"rattle logic=dac8208d650f15bf3e2dc313a14fa4c783a3acf887bdfab66e1714b038d9e11b"
	.section	".note.GNU-stack","",@progbits
