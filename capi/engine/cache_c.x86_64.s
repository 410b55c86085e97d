/* SPDX-License-Identifier: MIT
 *
 * The engine: the functions of ../cache_c.h whose names end in _unchecked, and cache_size, for x86_64.
 *
 * Don't edit this file. capi/engine/write.sh writes it: the crates below are proved, rattle compiles them to a module of
 * LLVM, and the kit's clang writes the module's instructions as this text. Functions have the names of the sources.
 *
 * The verdict on what was compiled:
 *
 *   logic=proved functions=74 axioms=3 target=x86_64-unknown-linux-gnu sum=dac8208d650f15bf native=nat,char,string logic-built=trusted libraries-built=trusted statements=trusted
 *   rattle-kit-13f logic dac8208d650f15bf
 *
 * The crates, each with the SHA-256 of its sources without comments:
 *
 *   6315073eb6db1dfa97264a41d3eae264e16236ae059f33d208c3c432dd833f64 ghost_log
 *   e3245f7b9bc854649efeabcdae1e83deecfe09f1c8af5b856670344c2e7fdef8 seg_words
 *   b9c42a7c93ad9e6c7f34db6ccc5147bdbfb3fd83f51f8fe99fffedc3197ff458 late_words
 *   b22de9be8678377cb3e367db87c94d146cb555821c60c73a8a07c4c3782dbea2 byte_box
 *   e7e72fd300de2360cfb3cdd9b5e7f33229990cdd6701f80d3fe021113c36bac3 php_graph
 *   7102fcd5c8589a2c61de561a089a7cf28be6994efda4604c65902dfec47f2099 max_tree
 *   77224e3ca02602ab87a259020fab51f966e13e41a3ff913bec2a3f7dc34203d0 sma_blocks
 *   5d33c64609dfef32839d1e4356edc037413f001639e829d93f83e6bc82c423dd value_image
 *   42afc5173d4d94a3411175bc386f5f60830d0daaa50a488277a1c02528fcf5d4 apcu_model
 *   2e32c10f9b2d3e91b91406e0f0ca72aad5f96a12e9b548bfc96f6fd6a5707b91 info_tables
 *   057fd2fc414544595cc87ff1a5edab360538a66eaedc89725052c504dce76207 entry_slots
 *   a2483397b4de7c7f0a5931e54f34cf1710470bc0404287e653416dbc5759ee35 ttl_expunge
 *   27dab362184bc8febbe043482d495865794f5dd18944287733cc1868ec9b296e cache_core
 *   fd2865c073b76da72588dc4984d33af3824efe64dea62c5bf9738d17cff12082 counter_entry
 *   e188dfec8f05df594a359f0594ff38e9166c8dbf2d90a1ba2d3a6a19a51ee8b8 cache_info
 *   fe434152eb08dba0c85c78d7571fce45d10b09a9048e9d5a95b03cf3389a24b6 cache_c
 */
	.file	"rattle"
	.section	".text.unlikely.late_words::late_words::LateWords::pad","ax",@progbits
	.p2align	4
	.type	"late_words::late_words::LateWords::pad",@function
"late_words::late_words::LateWords::pad":
	movq	8(%rdi), %rax
	movq	%rax, %rcx
	subq	%rsi, %rcx
	jae	.LBB0_6
	movl	%esi, %edx
	subl	%eax, %edx
	andl	$3, %edx
	je	.LBB0_3
	.p2align	4
.LBB0_2:
	movq	(%rdi), %r8
	movq	$0, (%r8,%rax,8)
	incq	%rax
	movq	%rax, 8(%rdi)
	decq	%rdx
	jne	.LBB0_2
.LBB0_3:
	cmpq	$-4, %rcx
	ja	.LBB0_6
	negq	%rsi
	addq	$4, %rax
	.p2align	4
.LBB0_5:
	movq	(%rdi), %rcx
	movq	$0, -32(%rcx,%rax,8)
	leaq	-3(%rax), %rcx
	movq	%rcx, 8(%rdi)
	movq	(%rdi), %rcx
	movq	$0, -24(%rcx,%rax,8)
	leaq	-2(%rax), %rcx
	movq	%rcx, 8(%rdi)
	movq	(%rdi), %rcx
	movq	$0, -16(%rcx,%rax,8)
	leaq	-1(%rax), %rcx
	movq	%rcx, 8(%rdi)
	movq	(%rdi), %rcx
	movq	$0, -8(%rcx,%rax,8)
	movq	%rax, 8(%rdi)
	leaq	(%rsi,%rax), %rcx
	addq	$4, %rcx
	addq	$4, %rax
	cmpq	$4, %rcx
	jne	.LBB0_5
.LBB0_6:
	retq
.Lfunc_end0:
	.size	"late_words::late_words::LateWords::pad", .Lfunc_end0-"late_words::late_words::LateWords::pad"

	.section	".text.max_tree::words::last_before","ax",@progbits
	.p2align	4
	.type	"max_tree::words::last_before",@function
"max_tree::words::last_before":
	movq	%r8, %r9
	movq	%rcx, %rax
	movq	$-1, %r10
	movl	%r9d, %ecx
	shlq	%cl, %r10
	shrq	$6, %r8
	notq	%r10
	andq	(%rdi,%r8,8), %r10
	je	.LBB1_3
	movabsq	$9223372036854775744, %rax
	andq	%rax, %r9
	bsrq	%r10, %rdx
	xorq	$63, %rdx
	orq	%r9, %rdx
	xorq	$63, %rdx
	movb	$1, %al
	retq
.LBB1_3:
	testq	%rax, %rax
	je	.LBB1_4
	pushq	%rbx
	movq	%rdi, %rbx
	leaq	(%rdi,%rdx,8), %rdi
	subq	%rdx, %rsi
	addq	$63, %rdx
	shrq	$6, %rdx
	decq	%rax
	movq	%rax, %rcx
	callq	"max_tree::words::last_before"
	cmpb	$1, %al
	jne	.LBB1_6
	movq	%rdx, %rax
	shlq	$6, %rdx
	movl	$127, %ecx
	bsrq	(%rbx,%rax,8), %rcx
	xorq	$63, %rcx
	orq	$63, %rdx
	subq	%rcx, %rdx
	movb	$1, %al
	popq	%rbx
	retq
.LBB1_4:
	xorl	%edx, %edx
	xorl	%eax, %eax
	retq
.LBB1_6:
	xorl	%edx, %edx
	xorl	%eax, %eax
	popq	%rbx
	retq
.Lfunc_end1:
	.size	"max_tree::words::last_before", .Lfunc_end1-"max_tree::words::last_before"

	.section	".text.max_tree::levels::shape_for","ax",@progbits
	.p2align	4
	.type	"max_tree::levels::shape_for",@function
"max_tree::levels::shape_for":
	pushq	%rbx
	movq	%rdi, %rbx
	cmpq	$33, %rdi
	jae	.LBB2_2
	xorl	%eax, %eax
	movq	%rbx, %rdx
	popq	%rbx
	retq
.LBB2_2:
	leaq	31(%rbx), %rdi
	shrq	$5, %rdi
	callq	"max_tree::levels::shape_for"
	incq	%rax
	addq	%rdx, %rbx
	movq	%rbx, %rdx
	popq	%rbx
	retq
.Lfunc_end2:
	.size	"max_tree::levels::shape_for", .Lfunc_end2-"max_tree::levels::shape_for"

	.section	".text.max_tree::words::shape_for","ax",@progbits
	.p2align	4
	.type	"max_tree::words::shape_for",@function
"max_tree::words::shape_for":
	pushq	%rbx
	movq	%rdi, %rbx
	cmpq	$2, %rdi
	jae	.LBB3_2
	xorl	%eax, %eax
	movq	%rbx, %rdx
	popq	%rbx
	retq
.LBB3_2:
	leaq	63(%rbx), %rdi
	shrq	$6, %rdi
	callq	"max_tree::words::shape_for"
	incq	%rax
	addq	%rdx, %rbx
	movq	%rbx, %rdx
	popq	%rbx
	retq
.Lfunc_end3:
	.size	"max_tree::words::shape_for", .Lfunc_end3-"max_tree::words::shape_for"

	.section	.rodata.cst16,"aM",@progbits,16
	.p2align	4, 0x0
.LCPI4_0:
	.long	2147483648
	.long	2147483648
	.long	2147483648
	.long	2147483648
	.section	".text.max_tree::row::MaxRow::change","ax",@progbits
	.p2align	4
	.type	"max_tree::row::MaxRow::change",@function
"max_tree::row::MaxRow::change":
	pushq	%rbp
	pushq	%r15
	pushq	%r14
	pushq	%r13
	pushq	%r12
	pushq	%rbx
	movq	(%rdi), %rbp
	movq	32(%rdi), %rax
	testq	%rax, %rax
	movl	%edx, -16(%rsp)
	movl	%ecx, -12(%rsp)
	movq	%rdi, -8(%rsp)
	je	.LBB4_1
	movq	24(%rdi), %r9
	movl	%ecx, %r13d
	movl	%edx, %ebx
	movq	%rsi, %rdx
	movq	%rsi, %r8
	.p2align	4
.LBB4_10:
	leaq	(,%r9,4), %rdi
	addq	%rbp, %rdi
	movl	%r13d, (%rbp,%rdx,4)
	shrq	$5, %r8
	movl	(%rdi,%r8,4), %r11d
	cmpl	%r13d, %r11d
	jbe	.LBB4_21
	cmpl	%r11d, %ebx
	jb	.LBB4_3
	leaq	(,%rdx,4), %r12
	movabsq	$9223372036854775776, %r10
	andq	%rdx, %r10
	movq	%r9, %r14
	subq	%r10, %r14
	andq	$-128, %r12
	leaq	(%r12,%rbp), %rbx
	cmpq	$32, %r14
	jb	.LBB4_14
	movdqu	96(%rbx), %xmm3
	movdqu	64(%rbx), %xmm5
	movdqu	112(%rbx), %xmm7
	movdqu	(%rbx), %xmm6
	movdqu	16(%rbx), %xmm2
	movdqu	32(%rbx), %xmm4
	movdqu	48(%rbx), %xmm8
	movdqu	80(%rbx), %xmm9
	movdqa	.LCPI4_0(%rip), %xmm0
	movdqa	%xmm9, %xmm10
	pxor	%xmm0, %xmm10
	movdqa	%xmm2, %xmm1
	pxor	%xmm0, %xmm1
	pcmpgtd	%xmm10, %xmm1
	pand	%xmm1, %xmm2
	pandn	%xmm9, %xmm1
	por	%xmm2, %xmm1
	movdqa	%xmm7, %xmm9
	pxor	%xmm0, %xmm9
	movdqa	%xmm8, %xmm2
	pxor	%xmm0, %xmm2
	pcmpgtd	%xmm9, %xmm2
	pand	%xmm2, %xmm8
	pandn	%xmm7, %xmm2
	por	%xmm8, %xmm2
	movdqa	%xmm5, %xmm8
	pxor	%xmm0, %xmm8
	movdqa	%xmm6, %xmm7
	pxor	%xmm0, %xmm7
	pcmpgtd	%xmm8, %xmm7
	pand	%xmm7, %xmm6
	pandn	%xmm5, %xmm7
	por	%xmm6, %xmm7
	movdqa	%xmm3, %xmm5
	pxor	%xmm0, %xmm5
	movdqa	%xmm4, %xmm6
	pxor	%xmm0, %xmm6
	pcmpgtd	%xmm5, %xmm6
	pand	%xmm6, %xmm4
	pandn	%xmm3, %xmm6
	por	%xmm4, %xmm6
	movdqa	%xmm6, %xmm4
	pxor	%xmm0, %xmm4
	movdqa	%xmm7, %xmm3
	pxor	%xmm0, %xmm3
	pcmpgtd	%xmm4, %xmm3
	pand	%xmm3, %xmm7
	pandn	%xmm6, %xmm3
	por	%xmm7, %xmm3
	movdqa	%xmm2, %xmm4
	pxor	%xmm0, %xmm4
	movdqa	%xmm1, %xmm5
	pxor	%xmm0, %xmm5
	pcmpgtd	%xmm4, %xmm5
	pand	%xmm5, %xmm1
	pandn	%xmm2, %xmm5
	por	%xmm1, %xmm5
	movdqa	%xmm5, %xmm1
	pxor	%xmm0, %xmm1
	movdqa	%xmm3, %xmm2
	pxor	%xmm0, %xmm2
	pcmpgtd	%xmm1, %xmm2
	pand	%xmm2, %xmm3
	pandn	%xmm5, %xmm2
	por	%xmm3, %xmm2
	pshufd	$238, %xmm2, %xmm1
	movdqa	%xmm2, %xmm3
	pxor	%xmm0, %xmm3
	movdqa	%xmm1, %xmm4
	pxor	%xmm0, %xmm4
	pcmpgtd	%xmm4, %xmm3
	pand	%xmm3, %xmm2
	pandn	%xmm1, %xmm3
	por	%xmm2, %xmm3
	pshufd	$85, %xmm3, %xmm1
	movdqa	%xmm3, %xmm2
	pxor	%xmm0, %xmm2
	pxor	%xmm1, %xmm0
	pcmpgtd	%xmm0, %xmm2
	pand	%xmm2, %xmm3
	pandn	%xmm1, %xmm2
	por	%xmm3, %xmm2
	movd	%xmm2, %r13d
	jmp	.LBB4_21
	.p2align	4
.LBB4_14:
	xorl	%r13d, %r13d
	cmpq	%r10, %r9
	je	.LBB4_21
	cmpq	$8, %r14
	jae	.LBB4_17
	xorl	%r13d, %r13d
	xorl	%r15d, %r15d
	jmp	.LBB4_20
.LBB4_17:
	movl	%r9d, %edx
	andl	$7, %edx
	movq	%r14, %r15
	subq	%rdx, %r15
	movq	%r9, %r13
	andq	$-8, %r13
	subq	%r10, %r13
	addq	%r12, %rbp
	addq	$16, %rbp
	pxor	%xmm1, %xmm1
	xorl	%r12d, %r12d
	pxor	%xmm2, %xmm2
	.p2align	4
.LBB4_18:
	movdqu	-16(%rbp,%r12,4), %xmm3
	movdqu	(%rbp,%r12,4), %xmm4
	movdqa	.LCPI4_0(%rip), %xmm0
	movdqa	%xmm1, %xmm5
	pxor	%xmm0, %xmm5
	movdqa	%xmm3, %xmm6
	pxor	%xmm0, %xmm6
	pcmpgtd	%xmm5, %xmm6
	pand	%xmm6, %xmm3
	pandn	%xmm1, %xmm6
	movdqa	%xmm6, %xmm1
	por	%xmm3, %xmm1
	movdqa	%xmm2, %xmm3
	pxor	%xmm0, %xmm3
	movdqa	%xmm4, %xmm5
	pxor	%xmm0, %xmm5
	pcmpgtd	%xmm3, %xmm5
	pand	%xmm5, %xmm4
	pandn	%xmm2, %xmm5
	movdqa	%xmm5, %xmm2
	por	%xmm4, %xmm2
	addq	$8, %r12
	cmpq	%r12, %r13
	jne	.LBB4_18
	movdqa	%xmm2, %xmm3
	pxor	%xmm0, %xmm3
	movdqa	%xmm1, %xmm4
	pxor	%xmm0, %xmm4
	pcmpgtd	%xmm3, %xmm4
	pand	%xmm4, %xmm1
	pandn	%xmm2, %xmm4
	por	%xmm1, %xmm4
	pshufd	$238, %xmm4, %xmm1
	movdqa	%xmm4, %xmm2
	pxor	%xmm0, %xmm2
	movdqa	%xmm1, %xmm3
	pxor	%xmm0, %xmm3
	pcmpgtd	%xmm3, %xmm2
	pand	%xmm2, %xmm4
	pandn	%xmm1, %xmm2
	por	%xmm4, %xmm2
	pshufd	$85, %xmm2, %xmm1
	movdqa	%xmm2, %xmm3
	pxor	%xmm0, %xmm3
	pxor	%xmm1, %xmm0
	pcmpgtd	%xmm0, %xmm3
	pand	%xmm3, %xmm2
	pandn	%xmm1, %xmm3
	por	%xmm2, %xmm3
	movd	%xmm3, %r13d
	testq	%rdx, %rdx
	je	.LBB4_21
	.p2align	4
.LBB4_20:
	movl	(%rbx,%r15,4), %edx
	cmpl	%r13d, %edx
	cmoval	%edx, %r13d
	incq	%r15
	cmpq	%r15, %r14
	jne	.LBB4_20
	.p2align	4
.LBB4_21:
	cmpl	%r11d, %r13d
	je	.LBB4_3
	addq	$31, %r9
	shrq	$5, %r9
	movl	%r11d, %ebx
	movq	%r8, %rdx
	movq	%rdi, %rbp
	decq	%rax
	jne	.LBB4_10
	jmp	.LBB4_2
.LBB4_1:
	movq	%rbp, %rdi
	movq	%rsi, %r8
	movl	%ecx, %r13d
.LBB4_2:
	movl	%r13d, (%rdi,%r8,4)
.LBB4_3:
	cmpl	$0, -12(%rsp)
	je	.LBB4_4
	cmpl	$0, -16(%rsp)
	movq	-8(%rsp), %rdx
	jne	.LBB4_28
	movq	40(%rdx), %rax
	movq	64(%rdx), %rcx
	movq	72(%rdx), %rdx
	movl	%esi, %edi
	shrq	$6, %rsi
	movq	(%rax,%rsi,8), %r8
	movq	%r8, %r9
	btsq	%rdi, %r9
	movq	%r9, (%rax,%rsi,8)
	testq	%r8, %r8
	setne	%dil
	testq	%rdx, %rdx
	sete	%r8b
	orb	%dil, %r8b
	jne	.LBB4_28
	decq	%rdx
	.p2align	4
.LBB4_26:
	leaq	(%rax,%rcx,8), %rax
	movl	%esi, %r8d
	shrq	$6, %rsi
	movq	(%rax,%rsi,8), %rdi
	movq	%rdi, %r9
	btsq	%r8, %r9
	movq	%r9, (%rax,%rsi,8)
	subq	$1, %rdx
	jb	.LBB4_28
	addq	$63, %rcx
	shrq	$6, %rcx
	testq	%rdi, %rdi
	je	.LBB4_26
	jmp	.LBB4_28
.LBB4_4:
	movq	-8(%rsp), %rdx
	movq	40(%rdx), %rax
	movq	64(%rdx), %rcx
	movq	72(%rdx), %rdx
	movl	%esi, %r8d
	shrq	$6, %rsi
	movq	(%rax,%rsi,8), %rdi
	btrq	%r8, %rdi
	movq	%rdi, (%rax,%rsi,8)
	testq	%rdx, %rdx
	je	.LBB4_28
	testq	%rdi, %rdi
	jne	.LBB4_28
	decq	%rdx
	.p2align	4
.LBB4_7:
	leaq	(%rax,%rcx,8), %rax
	movl	%esi, %r8d
	shrq	$6, %rsi
	movq	(%rax,%rsi,8), %rdi
	btrq	%r8, %rdi
	movq	%rdi, (%rax,%rsi,8)
	subq	$1, %rdx
	jb	.LBB4_28
	addq	$63, %rcx
	shrq	$6, %rcx
	testq	%rdi, %rdi
	je	.LBB4_7
.LBB4_28:
	popq	%rbx
	popq	%r12
	popq	%r13
	popq	%r14
	popq	%r15
	popq	%rbp
	retq
.Lfunc_end4:
	.size	"max_tree::row::MaxRow::change", .Lfunc_end4-"max_tree::row::MaxRow::change"

	.section	".text.cache_c::cache::Cache::look","ax",@progbits
	.p2align	4
	.type	"cache_c::cache::Cache::look",@function
"cache_c::cache::Cache::look":
	pushq	%rbp
	pushq	%r15
	pushq	%r14
	pushq	%r13
	pushq	%r12
	pushq	%rbx
	subq	$40, %rsp
	movq	%r9, 24(%rsp)
	movq	%rdi, 32(%rsp)
	movl	%r8d, %eax
	movq	%rsi, 8(%rsp)
	movq	192(%rsi), %r12
	cmpq	%rax, %r12
	jbe	.LBB5_8
	movq	%rcx, %rbp
	movq	8(%rsp), %rcx
	movl	120(%rcx), %r15d
	testl	%r15d, %r15d
	je	.LBB5_8
	movq	8(%rsp), %rcx
	addq	$184, %rcx
	movq	%rcx, 16(%rsp)
	movq	(%rcx), %rcx
	movq	%rcx, (%rsp)
	movl	(%rcx,%rax,8), %r14d
	testl	%r14d, %r14d
	je	.LBB5_8
	movq	%rdx, %r13
	movl	$1, %ebx
	.p2align	4
.LBB5_4:
	movq	16(%rsp), %rdi
	movl	%r14d, %esi
	movq	%r13, %rdx
	movq	%rbp, %rcx
	callq	"entry_slots::reading::has_key_at::<#feb48aca4256a9fc>"
	testb	%al, %al
	jne	.LBB5_9
	incl	%r14d
	cmpq	%r14, %r12
	jbe	.LBB5_8
	cmpl	%r15d, %ebx
	jae	.LBB5_8
	movq	(%rsp), %rax
	movl	(%rax,%r14,8), %r14d
	incl	%ebx
	testl	%r14d, %r14d
	jne	.LBB5_4
	jmp	.LBB5_8
.LBB5_9:
	leal	4(%r14), %eax
	cmpq	%rax, %r12
	jbe	.LBB5_14
	movq	(%rsp), %rcx
	movq	(%rcx,%rax,8), %rax
	testq	%rax, %rax
	je	.LBB5_14
	leal	5(%r14), %ecx
	cmpq	%rcx, %r12
	jbe	.LBB5_13
	movq	(%rsp), %rdx
	addq	(%rdx,%rcx,8), %rax
	movq	$-1, %rcx
	cmovbq	%rcx, %rax
.LBB5_13:
	movq	24(%rsp), %rcx
	cmpq	%rcx, %rax
	jae	.LBB5_14
.LBB5_8:
	movq	8(%rsp), %rdx
	movq	160(%rdx), %rax
	incq	%rax
	movq	$-1, %rcx
	cmovneq	%rax, %rcx
	movq	%rcx, 160(%rdx)
	xorl	%r13d, %r13d
	movl	$5, %eax
	xorl	%ebp, %ebp
	xorl	%ecx, %ecx
	xorl	%r14d, %r14d
	movq	32(%rsp), %rsi
.LBB5_44:
	movl	%eax, (%rsi)
	movl	%r13d, 4(%rsi)
	movq	%rbp, 8(%rsi)
	movq	%rcx, 16(%rsi)
	movl	%r14d, 24(%rsi)
	movl	$0, 28(%rsi)
	addq	$40, %rsp
	popq	%rbx
	popq	%r12
	popq	%r13
	popq	%r14
	popq	%r15
	popq	%rbp
	retq
.LBB5_14:
	movl	%ebp, %eax
	shrl	$3, %eax
	andl	$7, %ebp
	addl	$7, %ebp
	shrl	$3, %ebp
	addl	%eax, %ebp
	leal	(%r14,%rbp), %r13d
	addl	$12, %r13d
	movb	$1, %dil
	cmpq	%r13, %r12
	jbe	.LBB5_15
	movq	(%rsp), %rax
	movq	(%rax,%r13,8), %rax
	movq	%rax, %rbp
	andq	$7, %rbp
	je	.LBB5_17
	cmpl	$2, %ebp
	je	.LBB5_22
	cmpl	$1, %ebp
	movq	8(%rsp), %rbx
	jne	.LBB5_21
	xorl	%ebp, %ebp
	cmpq	$1, %rax
	setne	%bpl
	movb	$1, %dil
	xorl	%r9d, %r9d
	movb	$1, %r8b
	jmp	.LBB5_25
.LBB5_15:
	xorl	%r8d, %r8d
	xorl	%ebp, %ebp
	xorl	%r9d, %r9d
	movq	8(%rsp), %rbx
	jmp	.LBB5_25
.LBB5_22:
	leal	1(%r13), %eax
	movb	$2, %r8b
	cmpq	%rax, %r12
	movq	8(%rsp), %rbx
	jbe	.LBB5_23
	movq	(%rsp), %rcx
	movq	(%rcx,%rax,8), %r9
	xorl	%ebp, %ebp
	jmp	.LBB5_25
.LBB5_17:
	xorl	%r8d, %r8d
	movq	%rbp, %r9
	movq	8(%rsp), %rbx
	jmp	.LBB5_25
.LBB5_21:
	xorl	%edi, %edi
	xorl	%r8d, %r8d
.LBB5_23:
	xorl	%ebp, %ebp
	xorl	%r9d, %r9d
.LBB5_25:
	leal	9(%r14), %esi
	cmpq	%rsi, %r12
	jbe	.LBB5_27
	movq	(%rsp), %rdx
	movq	(%rdx,%rsi,8), %rax
	incq	%rax
	movq	$-1, %rcx
	cmovneq	%rax, %rcx
	movq	%rcx, (%rdx,%rsi,8)
	movq	192(%rbx), %rax
	movq	24(%rsp), %r15
	leal	7(%r14), %esi
	cmpq	%rsi, %rax
	jbe	.LBB5_30
.LBB5_29:
	movq	16(%rsp), %rax
	movq	(%rax), %rax
	movq	%r15, (%rax,%rsi,8)
.LBB5_31:
	movq	128(%rbx), %rax
	movl	124(%rbx), %ecx
	testq	%rcx, %rcx
	movq	32(%rsp), %rsi
	je	.LBB5_33
	addq	%r15, %rcx
	movq	$-1, %rdx
	cmovaeq	%rcx, %rdx
	cmpq	%rax, %rdx
	cmovbq	%rdx, %rax
.LBB5_33:
	movq	%rax, 128(%rbx)
	movq	152(%rbx), %rax
	incq	%rax
	movq	$-1, %rcx
	cmovneq	%rax, %rcx
	movq	%rcx, 152(%rbx)
	testb	%dil, %dil
	je	.LBB5_40
	movzbl	%r8b, %eax
	testb	%al, %al
	je	.LBB5_35
	xorl	%r13d, %r13d
	cmpl	$2, %eax
	jne	.LBB5_37
	movl	$2, %eax
	movq	%r9, %rbp
	jmp	.LBB5_38
.LBB5_40:
	xorl	%ebp, %ebp
	cmpq	%r13, 192(%rbx)
	jbe	.LBB5_41
	movq	16(%rsp), %rax
	movq	(%rax), %rax
	movq	(%rax,%r13,8), %rcx
	jmp	.LBB5_43
.LBB5_41:
	xorl	%ecx, %ecx
.LBB5_43:
	movl	%ecx, %edx
	andl	$7, %edx
	shrq	$3, %rcx
	incl	%r13d
	xorl	%eax, %eax
	cmpq	$3, %rdx
	movl	%ecx, %ecx
	setne	%al
	cmovneq	%rbp, %rcx
	addl	$3, %eax
	cmpl	$3, %edx
	cmovnel	%ebp, %r13d
	jmp	.LBB5_44
.LBB5_35:
	movl	%eax, %r13d
	movq	%rax, %rbp
	movq	%rax, %rcx
	movl	%eax, %r14d
	jmp	.LBB5_44
.LBB5_37:
	movl	$1, %eax
.LBB5_38:
	xorl	%ecx, %ecx
	xorl	%r14d, %r14d
	jmp	.LBB5_44
.LBB5_27:
	movq	%rdi, (%rsp)
	movq	16(%rsp), %rdi
	movq	%r8, %r12
	movq	%r9, %r15
	callq	"late_words::late_words::LateWords::pad"
	movq	%r15, %r9
	movq	%r12, %r8
	movq	(%rsp), %rdi
	movq	184(%rbx), %rcx
	movq	192(%rbx), %rax
	movq	$1, (%rcx,%rax,8)
	incq	%rax
	movq	%rax, 192(%rbx)
	movq	24(%rsp), %r15
	leal	7(%r14), %esi
	cmpq	%rsi, %rax
	ja	.LBB5_29
.LBB5_30:
	movq	%rdi, (%rsp)
	movq	16(%rsp), %rdi
	movq	%r8, %r12
	movq	%r9, 8(%rsp)
	callq	"late_words::late_words::LateWords::pad"
	movq	8(%rsp), %r9
	movq	%r12, %r8
	movq	(%rsp), %rdi
	movq	184(%rbx), %rax
	movq	192(%rbx), %rcx
	movq	%r15, (%rax,%rcx,8)
	incq	%rcx
	movq	%rcx, 192(%rbx)
	jmp	.LBB5_31
.Lfunc_end5:
	.size	"cache_c::cache::Cache::look", .Lfunc_end5-"cache_c::cache::Cache::look"

	.section	".text.entry_slots::reading::has_key_at::<#feb48aca4256a9fc>","ax",@progbits
	.p2align	4
	.type	"entry_slots::reading::has_key_at::<#feb48aca4256a9fc>",@function
"entry_slots::reading::has_key_at::<#feb48aca4256a9fc>":
	pushq	%r14
	pushq	%rbx
	movq	%rcx, %r8
	leal	2(%rsi), %eax
	movq	8(%rdi), %r9
	cmpq	%rax, %r9
	jbe	.LBB6_4
	movq	(%rdi), %rcx
	movq	(%rcx,%rax,8), %rax
	cmpq	%r8, %rax
	je	.LBB6_5
.LBB6_2:
	xorl	%eax, %eax
.LBB6_3:
	popq	%rbx
	popq	%r14
	retq
.LBB6_4:
	xorl	%eax, %eax
	cmpq	%r8, %rax
	jne	.LBB6_2
.LBB6_5:
	movl	%r8d, %ecx
	shrl	$3, %ecx
	movl	%r8d, %eax
	andl	$7, %eax
	addl	$7, %eax
	shrl	$3, %eax
	addl	%ecx, %eax
	je	.LBB6_28
	movl	%eax, %r10d
	cmpq	$8, %r8
	jae	.LBB6_29
	leaq	-8(,%r10,8), %rcx
	addl	$12, %esi
	xorl	%r10d, %r10d
	.p2align	4
.LBB6_8:
	movl	%esi, %esi
	cmpq	%rsi, %r9
	jbe	.LBB6_15
	movq	(%rdi), %rax
	movq	(%rax,%rsi,8), %rax
	leaq	(%r8,%r10), %r11
	cmpq	$7, %r11
	ja	.LBB6_16
.LBB6_10:
	cmpq	$4, %r11
	jae	.LBB6_17
	cmpq	$1, %r11
	je	.LBB6_20
	testq	%r11, %r11
	je	.LBB6_26
	leaq	(%r8,%r10), %rbx
	addq	$-2, %rbx
	movzwl	(%rdx), %r11d
	testq	%rbx, %rbx
	je	.LBB6_26
	movzbl	2(%rdx), %ebx
	shll	$16, %ebx
	jmp	.LBB6_25
	.p2align	4
.LBB6_15:
	xorl	%eax, %eax
	leaq	(%r8,%r10), %r11
	cmpq	$7, %r11
	jbe	.LBB6_10
.LBB6_16:
	movq	(%rdx), %r11
	jmp	.LBB6_26
	.p2align	4
.LBB6_17:
	je	.LBB6_21
	cmpq	$5, %r11
	jne	.LBB6_22
	movzbl	4(%rdx), %r11d
	jmp	.LBB6_24
.LBB6_20:
	movzbl	(%rdx), %r11d
	jmp	.LBB6_26
.LBB6_21:
	xorl	%r11d, %r11d
	jmp	.LBB6_24
.LBB6_22:
	leaq	(%r8,%r10), %rbx
	addq	$-6, %rbx
	movzwl	4(%rdx), %r11d
	testq	%rbx, %rbx
	je	.LBB6_24
	movzbl	6(%rdx), %ebx
	shll	$16, %ebx
	orq	%rbx, %r11
.LBB6_24:
	movl	(%rdx), %ebx
	shlq	$32, %r11
.LBB6_25:
	orq	%rbx, %r11
.LBB6_26:
	cmpq	%r11, %rax
	sete	%al
	jne	.LBB6_3
	leaq	(%rcx,%r10), %r11
	addq	$-8, %r10
	addq	$8, %rdx
	incl	%esi
	testq	%r11, %r11
	jne	.LBB6_8
	jmp	.LBB6_3
.LBB6_28:
	movb	$1, %al
	popq	%rbx
	popq	%r14
	retq
.LBB6_29:
	decq	%r10
	addl	$12, %esi
	leaq	(,%r8,8), %rax
	movl	$64, %ecx
	subq	%rax, %rcx
	xorl	%ebx, %ebx
	movq	%r8, %r11
	jmp	.LBB6_30
	.p2align	4
.LBB6_34:
	movq	(%rdx,%rbx,8), %r14
	cmpq	%r14, %rax
	sete	%al
	jne	.LBB6_3
.LBB6_35:
	addq	$64, %rcx
	addq	$-8, %r11
	cmpq	%rbx, %r10
	leaq	1(%rbx), %rbx
	je	.LBB6_3
.LBB6_30:
	leal	(%rsi,%rbx), %eax
	cmpq	%rax, %r9
	jbe	.LBB6_33
	movq	(%rdi), %r14
	movq	(%r14,%rax,8), %rax
	cmpq	$8, %r11
	jae	.LBB6_34
	jmp	.LBB6_32
	.p2align	4
.LBB6_33:
	xorl	%eax, %eax
	cmpq	$8, %r11
	jae	.LBB6_34
.LBB6_32:
	movq	-8(%rdx,%r8), %r14
	shrq	%cl, %r14
	cmpq	%r14, %rax
	sete	%al
	je	.LBB6_35
	jmp	.LBB6_3
.Lfunc_end6:
	.size	"entry_slots::reading::has_key_at::<#feb48aca4256a9fc>", .Lfunc_end6-"entry_slots::reading::has_key_at::<#feb48aca4256a9fc>"

	.section	".text.counter_entry::looking::look_for::<#feb48aca4256a9fc>","ax",@progbits
	.p2align	4
	.type	"counter_entry::looking::look_for::<#feb48aca4256a9fc>",@function
"counter_entry::looking::look_for::<#feb48aca4256a9fc>":
	pushq	%rbp
	pushq	%r15
	pushq	%r14
	pushq	%r13
	pushq	%r12
	pushq	%rbx
	subq	$24, %rsp
	movq	%r8, 16(%rsp)
	movq	%rdi, (%rsp)
	movl	%r9d, %eax
	movq	8(%rdx), %rbx
	cmpq	%rax, %rbx
	jbe	.LBB7_13
	movl	%esi, %ebp
	testl	%esi, %esi
	je	.LBB7_13
	movq	%rcx, %r12
	movq	%rdx, %r13
	movq	(%rdx), %rcx
	movq	%rcx, 8(%rsp)
	movl	(%rcx,%rax,8), %r14d
	testl	%r14d, %r14d
	je	.LBB7_13
	movl	$1, %r15d
	.p2align	4
.LBB7_4:
	movq	%r13, %rdi
	movl	%r14d, %esi
	movq	%r12, %rdx
	movq	16(%rsp), %rcx
	callq	"entry_slots::reading::has_key_at::<#feb48aca4256a9fc>"
	testb	%al, %al
	jne	.LBB7_8
	incl	%r14d
	cmpq	%r14, %rbx
	jbe	.LBB7_13
	cmpl	%ebp, %r15d
	jae	.LBB7_13
	movq	8(%rsp), %rax
	movl	(%rax,%r14,8), %r14d
	incl	%r15d
	testl	%r14d, %r14d
	jne	.LBB7_4
	jmp	.LBB7_13
.LBB7_8:
	leal	4(%r14), %eax
	cmpq	%rax, %rbx
	jbe	.LBB7_15
	movq	8(%rsp), %rcx
	movq	(%rcx,%rax,8), %rax
	testq	%rax, %rax
	je	.LBB7_15
	leal	5(%r14), %ecx
	cmpq	%rcx, %rbx
	jbe	.LBB7_12
	movq	8(%rsp), %rdx
	addq	(%rdx,%rcx,8), %rax
	movq	$-1, %rcx
	cmovbq	%rcx, %rax
.LBB7_12:
	movq	80(%rsp), %rcx
	cmpq	%rcx, %rax
	jae	.LBB7_15
.LBB7_13:
	xorps	%xmm0, %xmm0
	movq	(%rsp), %rax
	movups	%xmm0, (%rax)
.LBB7_14:
	addq	$24, %rsp
	popq	%rbx
	popq	%r12
	popq	%r13
	popq	%r14
	popq	%r15
	popq	%rbp
	retq
.LBB7_15:
	movq	16(%rsp), %rcx
	movl	%ecx, %eax
	shrl	$3, %eax
	andl	$7, %ecx
	addl	$7, %ecx
	shrl	$3, %ecx
	addl	%eax, %ecx
	addl	%r14d, %ecx
	addl	$12, %ecx
	movl	$1, %eax
	cmpq	%rcx, %rbx
	jbe	.LBB7_19
	movq	8(%rsp), %rdx
	movl	(%rdx,%rcx,8), %edx
	andl	$7, %edx
	cmpl	$2, %edx
	jne	.LBB7_19
	incl	%ecx
	movl	$2, %eax
	cmpq	%rcx, %rbx
	jbe	.LBB7_20
	movq	8(%rsp), %rdx
	movq	(%rdx,%rcx,8), %rcx
	jmp	.LBB7_21
.LBB7_19:
	xorl	%r14d, %r14d
.LBB7_20:
	xorl	%ecx, %ecx
.LBB7_21:
	movq	(%rsp), %rdx
	movl	%eax, (%rdx)
	movl	%r14d, 4(%rdx)
	movq	%rcx, 8(%rdx)
	jmp	.LBB7_14
.Lfunc_end7:
	.size	"counter_entry::looking::look_for::<#feb48aca4256a9fc>", .Lfunc_end7-"counter_entry::looking::look_for::<#feb48aca4256a9fc>"

	.section	".text.cache_core::cache::Core::store_content::<#dd204406e0587c1d>","ax",@progbits
	.p2align	4
	.type	"cache_core::cache::Core::store_content::<#dd204406e0587c1d>",@function
"cache_core::cache::Core::store_content::<#dd204406e0587c1d>":
	pushq	%rbp
	pushq	%r15
	pushq	%r14
	pushq	%r13
	pushq	%r12
	pushq	%rbx
	subq	$136, %rsp
	movq	%rcx, %r15
	movq	%rdx, 48(%rsp)
	movq	%rsi, %r14
	movq	%rdi, %rbx
	movl	148(%rdi), %ecx
	testl	%ecx, %ecx
	movl	%r8d, 60(%rsp)
	je	.LBB8_4
	cmpl	$1, %ecx
	jne	.LBB8_3
	movl	136(%rbx), %ecx
	xorl	%eax, %eax
	subl	140(%rbx), %ecx
	cmovbl	%eax, %ecx
	movzbl	(%r9), %ebp
	movl	$2, %eax
	movzbl	%bpl, %edx
	leaq	.LJTI8_0(%rip), %rsi
	movslq	(%rsi,%rdx,4), %rdx
	addq	%rsi, %rdx
	jmpq	*%rdx
.LBB8_3:
	movl	136(%rbx), %eax
	xorl	%edx, %edx
	divl	%ecx
	movl	%eax, %ecx
.LBB8_4:
	movzbl	(%r9), %ebp
	movl	$2, %eax
	movzbl	%bpl, %edx
	leaq	.LJTI8_0(%rip), %rsi
	movslq	(%rsi,%rdx,4), %rdx
	addq	%rsi, %rdx
	jmpq	*%rdx
.LBB8_7:
	movl	$1, %eax
	jmp	.LBB8_8
.LBB8_6:
	movl	16(%r9), %eax
	movl	%eax, %edx
	shrl	$3, %edx
	andl	$7, %eax
	addl	$7, %eax
	shrl	$3, %eax
	addl	%edx, %eax
	incl	%eax
	jmp	.LBB8_8
.LBB8_5:
	movq	8(%r9), %rax
	movq	56(%rax), %rax
.LBB8_8:
	movl	%r15d, %edx
	andl	$7, %edx
	addl	$7, %edx
	shrl	$3, %edx
	movl	%r15d, %r12d
	shrl	$3, %r12d
	addl	%edx, %r12d
	addq	%r12, %rax
	addq	$12, %rax
	movl	%eax, %edx
	andl	$1, %edx
	addq	%rax, %rdx
	movl	%ecx, %ecx
	xorl	%r13d, %r13d
	movl	$0, %eax
	cmpq	%rcx, %rdx
	ja	.LBB8_106
	movq	208(%rsp), %rcx
	cmpb	$0, 200(%rsp)
	movq	%r9, 88(%rsp)
	je	.LBB8_10
	xorps	%xmm0, %xmm0
	movaps	%xmm0, 64(%rsp)
	movl	144(%rbx), %eax
	movq	%rcx, 8(%rsp)
	movl	%eax, (%rsp)
	leaq	64(%rsp), %rdi
	movq	%rbx, %rsi
	movq	%r14, %rdx
	movq	48(%rsp), %rcx
	movq	%r15, %r8
	movl	60(%rsp), %r9d
	callq	"entry_slots::slots::EntrySlots::seek::<#feb48aca4256a9fc>"
	movl	72(%rsp), %r13d
	testl	%r13d, %r13d
	je	.LBB8_24
	leal	4(%r13), %eax
	movq	8(%r14), %rcx
	cmpq	%rax, %rcx
	jbe	.LBB8_30
	movq	(%r14), %rdx
	movq	(%rdx,%rax,8), %rax
	testq	%rax, %rax
	je	.LBB8_30
	leal	5(%r13), %esi
	cmpq	%rsi, %rcx
	jbe	.LBB8_29
	addq	(%rdx,%rsi,8), %rax
	movq	$-1, %rcx
	cmovbq	%rcx, %rax
.LBB8_29:
	movq	208(%rsp), %rcx
	cmpq	%rcx, %rax
	jae	.LBB8_30
.LBB8_24:
	movzbl	76(%rsp), %eax
	movq	%rax, 112(%rsp)
	movq	%r15, 40(%rsp)
	movq	64(%rsp), %rax
	movq	%rax, 128(%rsp)
	movq	88(%rsp), %r9
	movl	104(%rbx), %r15d
	testl	%r15d, %r15d
	jne	.LBB8_12
	jmp	.LBB8_42
.LBB8_10:
	movq	%r15, 40(%rsp)
	movq	$0, 112(%rsp)
	movq	$0, 128(%rsp)
	movl	104(%rbx), %r15d
	testl	%r15d, %r15d
	je	.LBB8_42
.LBB8_12:
	movq	%r13, 32(%rsp)
	jmp	.LBB8_13
.LBB8_22:
	movl	%edx, 104(%rbx)
	.p2align	4
.LBB8_39:
	movq	%rbx, %rdi
	movq	%r14, %rsi
	movl	%r15d, %edx
	callq	"entry_slots::slots::EntrySlots::free_unlinked::<#dd204406e0587c1d>"
.LBB8_40:
	movl	%ebp, %r15d
	testl	%ebp, %ebp
	je	.LBB8_41
.LBB8_13:
	leal	1(%r15), %r13d
	xorl	%ebp, %ebp
	cmpq	%r13, 8(%r14)
	jbe	.LBB8_15
	movq	(%r14), %rax
	movl	(%rax,%r13,8), %ebp
.LBB8_15:
	movq	%r14, %rdi
	movl	%r15d, %esi
	callq	"ttl_expunge::expunge::is_let_go::<#dd204406e0587c1d>"
	testb	%al, %al
	je	.LBB8_40
	movl	4(%rbx), %edx
	testl	%edx, %edx
	je	.LBB8_39
	movl	104(%rbx), %esi
	cmpl	%r15d, %esi
	jne	.LBB8_32
	movq	8(%r14), %rcx
	xorl	%eax, %eax
.LBB8_19:
	xorl	%edx, %edx
	cmpq	%r13, %rcx
	jbe	.LBB8_21
	movq	(%r14), %rdx
	movl	(%rdx,%r13,8), %edx
.LBB8_21:
	testl	%eax, %eax
	je	.LBB8_22
	movl	%edx, %r13d
	movl	%eax, %esi
	cmpq	%rsi, %rcx
	jbe	.LBB8_38
	movq	(%r14), %rax
	movq	%r13, (%rax,%rsi,8)
	jmp	.LBB8_39
	.p2align	4
.LBB8_32:
	testl	%esi, %esi
	je	.LBB8_39
	movl	%esi, %eax
	incl	%eax
	movq	8(%r14), %rcx
	xorl	%esi, %esi
	cmpq	%rax, %rcx
	jbe	.LBB8_35
	movq	(%r14), %rsi
	movl	(%rsi,%rax,8), %esi
.LBB8_35:
	decl	%edx
	je	.LBB8_39
	cmpl	%r15d, %esi
	jne	.LBB8_32
	jmp	.LBB8_19
.LBB8_38:
	movq	%r14, %rdi
	callq	"late_words::late_words::LateWords::pad"
	movq	(%r14), %rax
	movq	8(%r14), %rcx
	movq	%r13, (%rax,%rcx,8)
	incq	%rcx
	movq	%rcx, 8(%r14)
	jmp	.LBB8_39
.LBB8_41:
	movq	88(%rsp), %r9
	movzbl	(%r9), %ebp
	movq	32(%rsp), %r13
.LBB8_42:
	addq	$12, %r12
	movzbl	%bpl, %eax
	leaq	.LJTI8_1(%rip), %rcx
	movslq	(%rcx,%rax,4), %rax
	addq	%rcx, %rax
	jmpq	*%rax
.LBB8_46:
	movl	$1, %eax
	jmp	.LBB8_47
.LBB8_30:
	movb	$1, %al
	jmp	.LBB8_106
.LBB8_43:
	movl	$2, %eax
	jmp	.LBB8_47
.LBB8_44:
	movq	8(%r9), %rax
	movq	56(%rax), %rax
	jmp	.LBB8_47
.LBB8_45:
	movl	16(%r9), %eax
	movl	%eax, %ecx
	shrl	$3, %ecx
	andl	$7, %eax
	addl	$7, %eax
	shrl	$3, %eax
	addl	%ecx, %eax
	incl	%eax
.LBB8_47:
	addl	%r12d, %eax
	movl	%eax, %r15d
	andl	$1, %r15d
	addl	%eax, %r15d
	movl	120(%rbx), %eax
	movl	%eax, 124(%rsp)
	movl	144(%rbx), %ebp
	movq	%rbx, %rdi
	movq	%r14, %rsi
	movl	%r15d, %edx
	callq	"entry_slots::slots::EntrySlots::take::<#dd204406e0587c1d>"
	testb	$1, %al
	jne	.LBB8_92
	testq	%rbp, %rbp
	movq	208(%rsp), %rdx
	je	.LBB8_90
	cmpq	128(%rbx), %rdx
	jbe	.LBB8_90
	movq	%r13, 32(%rsp)
	movl	(%rbx), %r13d
	testq	%r13, %r13
	je	.LBB8_69
	movq	8(%r14), %rax
	xorl	%ecx, %ecx
	jmp	.LBB8_52
	.p2align	4
.LBB8_68:
	incq	%rcx
	cmpq	%r13, %rcx
	je	.LBB8_69
.LBB8_52:
	cmpq	%rcx, %rax
	jbe	.LBB8_68
	movq	(%r14), %r9
	movl	(%r9,%rcx,8), %esi
	testl	%esi, %esi
	je	.LBB8_68
	.p2align	4
.LBB8_55:
	leal	4(%rsi), %edi
	cmpq	%rdi, %rax
	jbe	.LBB8_64
	movq	(%r9,%rdi,8), %rdi
	testq	%rdi, %rdi
	je	.LBB8_64
	leal	5(%rsi), %r8d
	cmpq	%r8, %rax
	jbe	.LBB8_59
	addq	(%r9,%r8,8), %rdi
	movq	$-1, %r8
	cmovbq	%r8, %rdi
	jmp	.LBB8_59
	.p2align	4
.LBB8_64:
	leal	7(%rsi), %r8d
	movq	%rbp, %rdi
	cmpq	%r8, %rax
	jbe	.LBB8_59
	movq	(%r9,%r8,8), %r8
	addq	%rbp, %r8
	movq	$-1, %rdi
	cmovaeq	%r8, %rdi
.LBB8_59:
	cmpq	%rdx, %rdi
	jae	.LBB8_60
	incl	%esi
	cmpq	%rsi, %rax
	jbe	.LBB8_68
	movl	(%r9,%rsi,8), %esi
	testl	%esi, %esi
	jne	.LBB8_55
	jmp	.LBB8_68
.LBB8_69:
	movq	%rbx, %rdi
	movq	%r14, %rsi
	callq	"ttl_expunge::at_once::expunge_at_once::<#dd204406e0587c1d>"
	movq	32(%rsp), %r13
	jmp	.LBB8_90
.LBB8_60:
	xorl	%r12d, %r12d
	.p2align	4
.LBB8_61:
	movq	%rbx, %rdi
	movq	%r14, %rsi
	movl	%r12d, %edx
	movl	$1, %ecx
	movl	%ebp, %r8d
	movq	208(%rsp), %r9
	callq	"ttl_expunge::chains::drop_chain::<#dd204406e0587c1d>"
	incl	%r12d
	cmpl	%r12d, %r13d
	jne	.LBB8_61
	movl	(%rbx), %eax
	testq	%rax, %rax
	je	.LBB8_63
	movq	8(%r14), %rdx
	movq	$-1, %rcx
	xorl	%esi, %esi
	movq	32(%rsp), %r13
	jmp	.LBB8_71
	.p2align	4
.LBB8_88:
	incq	%rsi
	cmpq	%rax, %rsi
	je	.LBB8_89
.LBB8_71:
	cmpq	%rsi, %rdx
	jbe	.LBB8_88
	movl	120(%rbx), %edi
	testl	%edi, %edi
	je	.LBB8_88
	movq	(%r14), %r8
	movl	(%r8,%rsi,8), %r9d
	testl	%r9d, %r9d
	je	.LBB8_88
	movl	$1, %r10d
	.p2align	4
.LBB8_75:
	leal	4(%r9), %r11d
	cmpq	%r11, %rdx
	jbe	.LBB8_79
	movq	(%r8,%r11,8), %r11
	testq	%r11, %r11
	je	.LBB8_79
	leal	5(%r9), %r12d
	cmpq	%r12, %rdx
	jbe	.LBB8_84
	addq	(%r8,%r12,8), %r11
	movq	$-1, %r12
	cmovbq	%r12, %r11
	jmp	.LBB8_84
	.p2align	4
.LBB8_79:
	leal	7(%r9), %r11d
	cmpq	%r11, %rdx
	jbe	.LBB8_80
	movq	(%r8,%r11,8), %r11
	movl	124(%rbx), %r12d
	testq	%r12, %r12
	jne	.LBB8_83
	jmp	.LBB8_85
	.p2align	4
.LBB8_80:
	xorl	%r11d, %r11d
	movl	124(%rbx), %r12d
	testq	%r12, %r12
	je	.LBB8_85
.LBB8_83:
	addq	%r11, %r12
	movq	$-1, %r11
	cmovaeq	%r12, %r11
.LBB8_84:
	cmpq	%rcx, %r11
	cmovbq	%r11, %rcx
.LBB8_85:
	incl	%r9d
	cmpq	%r9, %rdx
	jbe	.LBB8_88
	cmpl	%edi, %r10d
	jae	.LBB8_88
	movl	(%r8,%r9,8), %r9d
	incl	%r10d
	testl	%r9d, %r9d
	jne	.LBB8_75
	jmp	.LBB8_88
.LBB8_63:
	movq	$-1, %rcx
	movq	32(%rsp), %r13
.LBB8_89:
	movq	%rcx, 128(%rbx)
.LBB8_90:
	movq	%rbx, %rdi
	movq	%r14, %rsi
	movl	%r15d, %edx
	callq	"entry_slots::slots::EntrySlots::take::<#dd204406e0587c1d>"
	testb	$1, %al
	jne	.LBB8_92
	movq	%rbx, %rdi
	movq	%r14, %rsi
	movq	208(%rsp), %rdx
	callq	"ttl_expunge::at_once::expunge_at_once::<#dd204406e0587c1d>"
	movq	%rbx, %rdi
	movq	%r14, %rsi
	movl	%r15d, %edx
	callq	"entry_slots::slots::EntrySlots::take::<#dd204406e0587c1d>"
	movl	%eax, %ecx
	movq	176(%rbx), %rax
	incq	%rax
	movq	$-1, %rsi
	cmovneq	%rax, %rsi
	xorps	%xmm0, %xmm0
	movups	%xmm0, 152(%rbx)
	movq	$0, 168(%rbx)
	movq	%rsi, 176(%rbx)
	movb	$2, %al
	cmpb	$1, %cl
	jne	.LBB8_106
.LBB8_92:
	movl	%edx, 32(%rsp)
	movq	208(%rsp), %r9
	cmpb	$0, 200(%rsp)
	je	.LBB8_96
	movl	124(%rsp), %eax
	cmpl	%eax, 120(%rbx)
	jne	.LBB8_96
	movzbl	112(%rsp), %ecx
	movq	%rbx, %rdi
	movq	%r14, %rsi
	movl	%r13d, %edx
	movl	%ebp, %r8d
	callq	"entry_slots::slots::EntrySlots::has_expired::<#feb48aca4256a9fc>"
	testb	%al, %al
	movq	128(%rsp), %rax
	je	.LBB8_100
	xorps	%xmm0, %xmm0
	movaps	%xmm0, 64(%rsp)
	movaps	%xmm0, 96(%rsp)
	movq	208(%rsp), %r13
	movq	%r13, 8(%rsp)
	movl	%ebp, (%rsp)
	leaq	96(%rsp), %r15
	movq	%r15, %rdi
	movq	%rbx, %rsi
	movq	%r14, %rdx
	movq	48(%rsp), %rcx
	movq	40(%rsp), %r8
	movl	60(%rsp), %r12d
	jmp	.LBB8_97
.LBB8_96:
	xorps	%xmm0, %xmm0
	movaps	%xmm0, 64(%rsp)
	movaps	%xmm0, 96(%rsp)
	movq	%r9, 8(%rsp)
	movl	%ebp, (%rsp)
	leaq	96(%rsp), %r15
	movq	%r15, %rdi
	movq	%rbx, %rsi
	movq	%r14, %rdx
	movq	48(%rsp), %rcx
	movq	40(%rsp), %r8
	movl	60(%rsp), %r12d
	movq	%r9, %r13
.LBB8_97:
	movl	%r12d, %r9d
	callq	"entry_slots::slots::EntrySlots::seek::<#feb48aca4256a9fc>"
	movl	104(%rsp), %edx
	movl	108(%rsp), %ecx
	movq	%rbx, %rdi
	movq	%r14, %rsi
	movl	%ebp, %r8d
	movq	%r13, %r9
	movq	%rdx, %r13
	callq	"entry_slots::slots::EntrySlots::has_expired::<#feb48aca4256a9fc>"
	testb	%al, %al
	je	.LBB8_99
	movq	%rbx, %rdi
	movq	%r14, %rsi
	movl	%r12d, %edx
	movl	$1, %ecx
	movl	%ebp, %r8d
	movq	208(%rsp), %r15
	movq	%r15, %r9
	callq	"ttl_expunge::chains::drop_chain::<#dd204406e0587c1d>"
	movq	%r15, 8(%rsp)
	movl	%ebp, (%rsp)
	leaq	64(%rsp), %r15
	movq	%r15, %rdi
	movq	%rbx, %rsi
	movq	%r14, %rdx
	movq	48(%rsp), %rcx
	movq	40(%rsp), %r8
	movl	%r12d, %r9d
	callq	"entry_slots::slots::EntrySlots::seek::<#feb48aca4256a9fc>"
	movl	72(%rsp), %r13d
.LBB8_99:
	movq	(%r15), %rax
.LBB8_100:
	movl	192(%rsp), %r15d
	shrq	$32, %rax
	testl	%r13d, %r13d
	je	.LBB8_101
	movq	%r14, %rdi
	movl	%r13d, %esi
	movq	%rax, %r12
	callq	"ttl_expunge::expunge::is_let_go::<#dd204406e0587c1d>"
	movl	%eax, %ebp
	movl	%r13d, 24(%rsp)
	movl	%r12d, 16(%rsp)
	movq	208(%rsp), %r12
	movq	%r12, 8(%rsp)
	movl	%r15d, (%rsp)
	movq	%rbx, %rdi
	movq	%r14, %rsi
	movl	32(%rsp), %edx
	movq	48(%rsp), %rcx
	movq	40(%rsp), %r8
	movq	88(%rsp), %r9
	callq	"entry_slots::slots::EntrySlots::link_at::<#dd204406e0587c1d>"
	movq	%rbx, %rdi
	movq	%r14, %rsi
	movl	%r13d, %edx
	testb	%bpl, %bpl
	je	.LBB8_104
	callq	"entry_slots::slots::EntrySlots::free_unlinked::<#dd204406e0587c1d>"
	jmp	.LBB8_105
.LBB8_101:
	movl	%eax, 16(%rsp)
	movq	208(%rsp), %rax
	movq	%rax, 8(%rsp)
	movl	%r15d, (%rsp)
	movl	$0, 24(%rsp)
	movq	%rbx, %rdi
	movq	%r14, %rsi
	movl	32(%rsp), %edx
	movq	48(%rsp), %rcx
	movq	40(%rsp), %r8
	movq	88(%rsp), %r9
	callq	"entry_slots::slots::EntrySlots::link_at::<#dd204406e0587c1d>"
	jmp	.LBB8_105
.LBB8_104:
	movq	%r12, %rcx
	callq	"entry_slots::slots::EntrySlots::to_removed::<#dd204406e0587c1d>"
.LBB8_105:
	movq	168(%rbx), %rax
	incq	%rax
	movq	$-1, %rcx
	cmovneq	%rax, %rcx
	movq	%rcx, 168(%rbx)
	movb	$3, %al
.LBB8_106:
	addq	$136, %rsp
	popq	%rbx
	popq	%r12
	popq	%r13
	popq	%r14
	popq	%r15
	popq	%rbp
	retq
.Lfunc_end8:
	.size	"cache_core::cache::Core::store_content::<#dd204406e0587c1d>", .Lfunc_end8-"cache_core::cache::Core::store_content::<#dd204406e0587c1d>"
	.section	".rodata.cache_core::cache::Core::store_content::<#dd204406e0587c1d>","a",@progbits
	.p2align	2, 0x0
.LJTI8_0:
	.long	.LBB8_5-.LJTI8_0
	.long	.LBB8_6-.LJTI8_0
	.long	.LBB8_7-.LJTI8_0
	.long	.LBB8_7-.LJTI8_0
	.long	.LBB8_8-.LJTI8_0
.LJTI8_1:
	.long	.LBB8_44-.LJTI8_1
	.long	.LBB8_45-.LJTI8_1
	.long	.LBB8_46-.LJTI8_1
	.long	.LBB8_46-.LJTI8_1
	.long	.LBB8_43-.LJTI8_1

	.section	".text.entry_slots::slots::EntrySlots::seek::<#feb48aca4256a9fc>","ax",@progbits
	.p2align	4
	.type	"entry_slots::slots::EntrySlots::seek::<#feb48aca4256a9fc>",@function
"entry_slots::slots::EntrySlots::seek::<#feb48aca4256a9fc>":
	pushq	%rbp
	pushq	%r15
	pushq	%r14
	pushq	%r13
	pushq	%r12
	pushq	%rbx
	subq	$56, %rsp
	movq	%r8, 48(%rsp)
	movq	%rcx, 40(%rsp)
	movq	%rdx, %r12
	movq	%rsi, 24(%rsp)
	movl	%r9d, %ecx
	movq	8(%rdx), %r14
	xorl	%eax, %eax
	cmpq	%rcx, %r14
	jbe	.LBB9_2
	movq	(%r12), %rax
	movl	(%rax,%rcx,8), %eax
.LBB9_2:
	movq	24(%rsp), %rcx
	movl	120(%rcx), %r15d
	testl	%r15d, %r15d
	movq	%rdi, 16(%rsp)
	movl	%r9d, 12(%rsp)
	je	.LBB9_3
	movl	112(%rsp), %ecx
	testl	%ecx, %ecx
	je	.LBB9_10
	movl	%ecx, %ecx
	movq	%rcx, 32(%rsp)
	xorl	%ebx, %ebx
	movl	%r9d, %r13d
	jmp	.LBB9_6
	.p2align	4
.LBB9_36:
	orb	%cl, %bl
	movl	%ebp, %r13d
	decl	%r15d
	je	.LBB9_37
.LBB9_6:
	testl	%eax, %eax
	je	.LBB9_7
	movl	%eax, %ebp
	movq	%r12, %rdi
	movl	%eax, %esi
	movq	40(%rsp), %rdx
	movq	48(%rsp), %rcx
	callq	"entry_slots::reading::has_key_at::<#feb48aca4256a9fc>"
	testb	%al, %al
	jne	.LBB9_25
	xorl	%eax, %eax
	movl	$0, %ecx
	movq	24(%rsp), %rdx
	movq	120(%rsp), %rsi
	cmpq	128(%rdx), %rsi
	ja	.LBB9_27
	incl	%ebp
	cmpq	%rbp, %r14
	jbe	.LBB9_36
	jmp	.LBB9_35
	.p2align	4
.LBB9_27:
	leal	4(%rbp), %ecx
	cmpq	%rcx, %r14
	jbe	.LBB9_31
	movq	(%r12), %rdx
	movq	(%rdx,%rcx,8), %rcx
	testq	%rcx, %rcx
	je	.LBB9_31
	leal	5(%rbp), %esi
	cmpq	%rsi, %r14
	jbe	.LBB9_33
	addq	(%rdx,%rsi,8), %rcx
	movq	$-1, %rdx
	cmovbq	%rdx, %rcx
	jmp	.LBB9_33
	.p2align	4
.LBB9_31:
	leal	7(%rbp), %edx
	movq	32(%rsp), %rcx
	cmpq	%rdx, %r14
	jbe	.LBB9_33
	movq	(%r12), %rcx
	movq	(%rcx,%rdx,8), %rdx
	addq	32(%rsp), %rdx
	movq	$-1, %rcx
	cmovaeq	%rdx, %rcx
.LBB9_33:
	cmpq	120(%rsp), %rcx
	setb	%cl
	incl	%ebp
	cmpq	%rbp, %r14
	jbe	.LBB9_36
.LBB9_35:
	movq	(%r12), %rax
	movl	(%rax,%rbp,8), %eax
	jmp	.LBB9_36
.LBB9_3:
	xorl	%ebx, %ebx
	movl	%r9d, %ebp
.LBB9_37:
	andb	$1, %bl
	movq	16(%rsp), %rax
	movl	12(%rsp), %ecx
	movl	%ecx, (%rax)
	movl	%ebp, 4(%rax)
	jmp	.LBB9_8
.LBB9_10:
	xorl	%ebx, %ebx
	movl	%r9d, %r13d
	jmp	.LBB9_11
	.p2align	4
.LBB9_23:
	orb	%cl, %bl
	movl	%ebp, %r13d
	decl	%r15d
	je	.LBB9_37
.LBB9_11:
	testl	%eax, %eax
	je	.LBB9_7
	movl	%eax, %ebp
	movq	%r12, %rdi
	movl	%eax, %esi
	movq	40(%rsp), %rdx
	movq	48(%rsp), %rcx
	callq	"entry_slots::reading::has_key_at::<#feb48aca4256a9fc>"
	testb	%al, %al
	jne	.LBB9_25
	xorl	%eax, %eax
	movl	$0, %ecx
	movq	24(%rsp), %rdx
	movq	120(%rsp), %rsi
	cmpq	128(%rdx), %rsi
	jbe	.LBB9_21
	leal	4(%rbp), %ecx
	cmpq	%rcx, %r14
	jbe	.LBB9_15
	movq	(%r12), %rdx
	movq	(%rdx,%rcx,8), %rcx
	testq	%rcx, %rcx
	je	.LBB9_17
	leal	5(%rbp), %esi
	cmpq	%rsi, %r14
	jbe	.LBB9_20
	addq	(%rdx,%rsi,8), %rcx
	movq	$-1, %rdx
	cmovbq	%rdx, %rcx
.LBB9_20:
	cmpq	120(%rsp), %rcx
	setb	%cl
	incl	%ebp
	cmpq	%rbp, %r14
	jbe	.LBB9_23
	jmp	.LBB9_22
	.p2align	4
.LBB9_15:
	xorl	%ecx, %ecx
.LBB9_21:
	incl	%ebp
	cmpq	%rbp, %r14
	jbe	.LBB9_23
.LBB9_22:
	movq	(%r12), %rax
	movl	(%rax,%rbp,8), %eax
	jmp	.LBB9_23
.LBB9_17:
	xorl	%ecx, %ecx
	incl	%ebp
	cmpq	%rbp, %r14
	jbe	.LBB9_23
	jmp	.LBB9_22
.LBB9_7:
	andb	$1, %bl
	movq	16(%rsp), %rax
	movl	12(%rsp), %ecx
	movl	%ecx, (%rax)
	movl	%r13d, 4(%rax)
.LBB9_8:
	movl	$0, 8(%rax)
	jmp	.LBB9_9
.LBB9_25:
	andb	$1, %bl
	movq	16(%rsp), %rax
	movl	12(%rsp), %ecx
	movl	%ecx, (%rax)
	movl	%r13d, 4(%rax)
	movl	%ebp, 8(%rax)
.LBB9_9:
	movb	%bl, 12(%rax)
	movw	$0, 13(%rax)
	movb	$0, 15(%rax)
	addq	$56, %rsp
	popq	%rbx
	popq	%r12
	popq	%r13
	popq	%r14
	popq	%r15
	popq	%rbp
	retq
.Lfunc_end9:
	.size	"entry_slots::slots::EntrySlots::seek::<#feb48aca4256a9fc>", .Lfunc_end9-"entry_slots::slots::EntrySlots::seek::<#feb48aca4256a9fc>"

	.section	".text.ttl_expunge::expunge::is_let_go::<#dd204406e0587c1d>","ax",@progbits
	.p2align	4
	.type	"ttl_expunge::expunge::is_let_go::<#dd204406e0587c1d>",@function
"ttl_expunge::expunge::is_let_go::<#dd204406e0587c1d>":
	movb	$1, %al
	cmpb	$1, 288(%rdi)
	jne	.LBB10_13
	testl	%esi, %esi
	je	.LBB10_13
	movdqu	32(%rdi), %xmm1
	movdqu	48(%rdi), %xmm2
	movdqu	64(%rdi), %xmm3
	movdqu	80(%rdi), %xmm4
	movd	%esi, %xmm0
	pshufd	$0, %xmm0, %xmm0
	pcmpeqd	%xmm0, %xmm4
	pcmpeqd	%xmm0, %xmm3
	packssdw	%xmm4, %xmm3
	pcmpeqd	%xmm0, %xmm2
	pcmpeqd	%xmm0, %xmm1
	packssdw	%xmm2, %xmm1
	packsswb	%xmm3, %xmm1
	pmovmskb	%xmm1, %ecx
	testl	%ecx, %ecx
	je	.LBB10_4
	xorl	%ecx, %ecx
	jmp	.LBB10_7
.LBB10_4:
	movdqu	96(%rdi), %xmm1
	movdqu	112(%rdi), %xmm2
	movdqu	128(%rdi), %xmm3
	movdqu	144(%rdi), %xmm4
	pcmpeqd	%xmm0, %xmm2
	pcmpeqd	%xmm0, %xmm1
	packssdw	%xmm2, %xmm1
	pcmpeqd	%xmm0, %xmm3
	pcmpeqd	%xmm0, %xmm4
	packssdw	%xmm4, %xmm3
	packsswb	%xmm3, %xmm1
	pmovmskb	%xmm1, %edx
	movl	$16, %ecx
	testl	%edx, %edx
	jne	.LBB10_7
	movdqu	160(%rdi), %xmm1
	movdqu	176(%rdi), %xmm2
	movdqu	192(%rdi), %xmm3
	movdqu	208(%rdi), %xmm4
	pcmpeqd	%xmm0, %xmm2
	pcmpeqd	%xmm0, %xmm1
	packssdw	%xmm2, %xmm1
	pcmpeqd	%xmm0, %xmm3
	pcmpeqd	%xmm0, %xmm4
	packssdw	%xmm4, %xmm3
	packsswb	%xmm3, %xmm1
	pmovmskb	%xmm1, %edx
	movl	$32, %ecx
	testl	%edx, %edx
	jne	.LBB10_7
	movdqu	224(%rdi), %xmm1
	movdqu	240(%rdi), %xmm2
	movdqu	256(%rdi), %xmm3
	movdqu	272(%rdi), %xmm4
	pcmpeqd	%xmm0, %xmm2
	pcmpeqd	%xmm0, %xmm1
	packssdw	%xmm2, %xmm1
	pcmpeqd	%xmm0, %xmm3
	pcmpeqd	%xmm0, %xmm4
	packssdw	%xmm4, %xmm3
	packsswb	%xmm3, %xmm1
	pmovmskb	%xmm1, %edx
	movl	$48, %ecx
	testl	%edx, %edx
	je	.LBB10_11
.LBB10_7:
	addq	$-65, %rcx
	.p2align	4
.LBB10_8:
	movdqu	292(%rdi,%rcx,4), %xmm1
	movdqu	308(%rdi,%rcx,4), %xmm2
	pcmpeqd	%xmm0, %xmm2
	pcmpeqd	%xmm0, %xmm1
	packssdw	%xmm2, %xmm1
	pmovmskb	%xmm1, %edx
	testl	%edx, %edx
	jne	.LBB10_10
	addq	$8, %rcx
	cmpq	$-1, %rcx
	jne	.LBB10_8
	jmp	.LBB10_11
.LBB10_10:
	cmpq	$-8, %rcx
	jb	.LBB10_12
.LBB10_11:
	movdqu	256(%rdi), %xmm1
	movdqu	272(%rdi), %xmm2
	pcmpeqd	%xmm0, %xmm2
	pcmpeqd	%xmm0, %xmm1
	packssdw	%xmm2, %xmm1
	pmovmskb	%xmm1, %ecx
	testl	%ecx, %ecx
	je	.LBB10_13
.LBB10_12:
	movl	292(%rdi), %eax
	decl	%eax
	movl	%eax, 292(%rdi)
	movl	%esi, 296(%rdi,%rax,4)
	xorl	%eax, %eax
.LBB10_13:
	retq
.Lfunc_end10:
	.size	"ttl_expunge::expunge::is_let_go::<#dd204406e0587c1d>", .Lfunc_end10-"ttl_expunge::expunge::is_let_go::<#dd204406e0587c1d>"

	.section	".text.entry_slots::slots::EntrySlots::free_unlinked::<#dd204406e0587c1d>","ax",@progbits
	.p2align	4
	.type	"entry_slots::slots::EntrySlots::free_unlinked::<#dd204406e0587c1d>",@function
"entry_slots::slots::EntrySlots::free_unlinked::<#dd204406e0587c1d>":
	pushq	%rbp
	pushq	%r15
	pushq	%r14
	pushq	%r13
	pushq	%r12
	pushq	%rbx
	subq	$40, %rsp
	movl	%edx, %r8d
	movq	%rsi, %rbx
	movq	%rdi, %r10
	movl	%edx, %eax
	movq	8(%rsi), %r9
	xorl	%r14d, %r14d
	cmpq	%rax, %r9
	jbe	.LBB11_2
	movq	(%rbx), %rcx
	movl	(%rcx,%rax,8), %r14d
	andl	$-2, %r14d
.LBB11_2:
	leal	(%r14,%r8), %r13d
	movl	%r13d, %ebp
	cmpl	4(%r10), %r13d
	jae	.LBB11_10
	movl	%r13d, %edx
	shrl	%edx
	movq	24(%r10), %rax
	movl	%r13d, %ecx
	andl	$-4, %ecx
	movl	(%rax,%rcx), %eax
	andl	$1, %edx
	movl	%eax, %ecx
	andl	$3, %ecx
	cmpl	%edx, %ecx
	jne	.LBB11_5
.LBB11_4:
	shrl	%eax
	movl	%r13d, %ebp
	andl	$-2, %eax
	movl	%eax, %ecx
	jne	.LBB11_7
	jmp	.LBB11_10
.LBB11_5:
	movl	%r13d, %ebp
	cmpl	$2, %ecx
	jne	.LBB11_10
	movl	$2, %ecx
	testl	%edx, %edx
	jne	.LBB11_4
.LBB11_7:
	movl	8(%r10), %esi
	testl	%esi, %esi
	je	.LBB11_9
	movl	%r13d, %eax
	xorl	%edx, %edx
	divl	%esi
	testl	%edx, %edx
	cmovel	%edx, %ecx
.LBB11_9:
	addl	%r13d, %ecx
	movl	%ecx, %ebp
.LBB11_10:
	leaq	24(%r10), %rdi
	movl	%r8d, %r12d
	shrl	%r12d
	testb	$1, %r12b
	movq	%r8, 24(%rsp)
	movq	%r14, 32(%rsp)
	je	.LBB11_14
	movq	(%rdi), %rax
	movl	%r12d, %ecx
	andl	$-2, %ecx
	movl	(%rax,%rcx,2), %ecx
	movl	%ecx, %edx
	andl	$3, %edx
	cmpl	$2, %edx
	je	.LBB11_17
	testl	%edx, %edx
	jne	.LBB11_14
	cmpl	$4, %ecx
	jae	.LBB11_17
.LBB11_14:
	movl	%ebp, 8(%rsp)
	movq	%rbx, %r15
	movq	%r9, %rbx
	shrl	%r12d
	movq	64(%r10), %rdi
	movq	72(%r10), %rsi
	movq	88(%r10), %rdx
	movq	96(%r10), %rcx
	movq	%r12, %r8
	movq	%r10, %rbp
	callq	"max_tree::words::last_before"
	cmpb	$1, %al
	jne	.LBB11_16
	leaq	24(%rbp), %rdi
	movq	(%rdi), %rax
	xorl	%ecx, %ecx
	testb	$3, (%rax,%rdx,4)
	setne	%cl
	leaq	(%rcx,%rdx,2), %r12
	movq	24(%rsp), %r8
	movq	%rbx, %r9
	movq	%r15, %rbx
	movq	%rbp, %r10
	movl	8(%rsp), %ebp
	jmp	.LBB11_18
.LBB11_16:
	movb	$1, %al
	movl	%eax, 20(%rsp)
	xorl	%ecx, %ecx
	xorl	%r12d, %r12d
	movq	24(%rsp), %r8
	movl	%r8d, %r14d
	leaq	24(%rbp), %rdi
	movq	%rbx, %r9
	movq	%r15, %rbx
	movq	%rbp, %r10
	movl	8(%rsp), %ebp
	cmpl	%ebp, %r13d
	movq	%r10, %r15
	jae	.LBB11_31
.LBB11_26:
	leal	1(%r13), %eax
	cmpq	%rax, %r9
	jbe	.LBB11_28
	movq	(%rbx), %rcx
	movq	(%rcx,%rax,8), %rax
	movq	%rax, 8(%rsp)
	jmp	.LBB11_29
.LBB11_17:
	decq	%r12
.LBB11_18:
	leal	(%r12,%r12), %r14d
	movq	%r12, %rcx
	andq	$-2, %rcx
	movl	(%rax,%rcx,2), %edx
	movl	%r12d, %ecx
	andl	$1, %ecx
	movl	%edx, %eax
	shrl	%eax
	andl	$-2, %eax
	andl	$3, %edx
	cmpl	%ecx, %edx
	je	.LBB11_21
	xorl	%esi, %esi
	cmpl	$2, %edx
	jne	.LBB11_22
	testl	%ecx, %ecx
	movl	$2, %ecx
	cmovel	%ecx, %eax
.LBB11_21:
	movl	%eax, %esi
.LBB11_22:
	addl	%r14d, %esi
	movb	$1, %cl
	cmpl	%r8d, %esi
	jne	.LBB11_25
	movl	8(%r10), %esi
	testl	%esi, %esi
	je	.LBB11_30
	movl	$0, 20(%rsp)
	movl	%r8d, %eax
	xorl	%edx, %edx
	divl	%esi
	testl	%edx, %edx
	cmovel	%r8d, %r14d
	cmpl	%ebp, %r13d
	movq	%r10, %r15
	jb	.LBB11_26
	jmp	.LBB11_31
.LBB11_25:
	movl	$0, 20(%rsp)
	movl	%r8d, %r14d
	cmpl	%ebp, %r13d
	movq	%r10, %r15
	jb	.LBB11_26
.LBB11_31:
	cmpl	%r8d, %r14d
	jae	.LBB11_34
	leal	1(%r14), %eax
	cmpq	%rax, %r9
	jbe	.LBB11_33
.LBB11_36:
	movq	(%rbx), %rcx
	movq	(%rcx,%rax,8), %rax
	jmp	.LBB11_38
.LBB11_28:
	movq	$0, 8(%rsp)
.LBB11_29:
	shrl	%r13d
	movl	%r14d, %edx
	shrl	%edx
	subl	%r14d, %ebp
	movq	%r13, %rsi
	movl	%ebp, %ecx
	callq	"max_tree::pairs::PairRow::move_to"
	movl	%ebp, %r13d
	jmp	.LBB11_46
.LBB11_34:
	testb	%cl, %cl
	je	.LBB11_37
	leal	(%r12,%r12), %eax
	incq	%rax
	cmpq	%rax, %r9
	ja	.LBB11_36
.LBB11_33:
	movq	$0, 8(%rsp)
	jmp	.LBB11_39
.LBB11_37:
	movl	12(%r10), %eax
.LBB11_38:
	movq	%rax, 8(%rsp)
.LBB11_39:
	movl	%r14d, %eax
	shrl	%eax
	movl	%ebp, %r13d
	subl	%r14d, %r13d
	movl	%r14d, %esi
	shrl	$2, %esi
	movq	(%rdi), %rcx
	movl	%r14d, %edx
	andl	$-4, %edx
	movl	(%rcx,%rdx), %edx
	andl	$1, %eax
	testl	%edx, %edx
	je	.LBB11_44
	movl	%edx, %r8d
	andl	$3, %r8d
	cmpl	%eax, %r8d
	je	.LBB11_44
	movl	%edx, %ecx
	shrl	%ecx
	andl	$-2, %ecx
	testl	%eax, %eax
	jne	.LBB11_54
	addl	$-3, %r8d
	cmpl	$-2, %r8d
	setae	%al
	testl	%ecx, %ecx
	setne	%r8b
	testb	%r8b, %al
	jne	.LBB11_60
	leal	(,%r13,2), %ecx
	jmp	.LBB11_45
.LBB11_44:
	xorl	%r8d, %r8d
	cmpl	%r14d, %ebp
	leal	(%rax,%r13,2), %ecx
	cmovel	%r8d, %ecx
.LBB11_45:
	callq	"max_tree::row::MaxRow::change"
.LBB11_46:
	movq	32(%rsp), %rax
	addl	%eax, 16(%r15)
	movl	%r13d, %ebp
	incq	%rbp
	movl	%r14d, %r13d
	cmpq	%r13, 8(%rbx)
	jbe	.LBB11_61
	movq	%r15, %rdi
	movq	(%rbx), %rax
	movq	%rbp, (%rax,%r13,8)
	movq	8(%rbx), %rax
	leal	1(%r14), %esi
	cmpq	%rsi, %rax
	movq	24(%rsp), %rdx
	jbe	.LBB11_62
.LBB11_48:
	movq	(%rbx), %rax
	movq	8(%rsp), %rcx
	movq	%rcx, (%rax,%rsi,8)
	cmpl	%edx, %r14d
	jne	.LBB11_53
.LBB11_49:
	cmpb	$0, 20(%rsp)
	je	.LBB11_51
	movl	%edx, 12(%rdi)
	jmp	.LBB11_53
.LBB11_51:
	addl	%r12d, %r12d
	incq	%r12
	cmpq	%r12, 8(%rbx)
	jbe	.LBB11_65
	movq	(%rbx), %rax
	movq	%r13, (%rax,%r12,8)
.LBB11_53:
	addq	$40, %rsp
	popq	%rbx
	popq	%r12
	popq	%r13
	popq	%r14
	popq	%r15
	popq	%rbp
	retq
.LBB11_54:
	testl	%r8d, %r8d
	je	.LBB11_57
	cmpl	$2, %r8d
	jne	.LBB11_63
	movl	$2, %ecx
.LBB11_57:
	cmpl	%r14d, %ebp
	jne	.LBB11_64
.LBB11_58:
	addl	%ecx, %ecx
	jmp	.LBB11_45
.LBB11_30:
	movl	$0, 20(%rsp)
	cmpl	%ebp, %r13d
	movq	%r10, %r15
	jb	.LBB11_26
	jmp	.LBB11_31
.LBB11_60:
	xorl	%eax, %eax
	cmpl	%r14d, %ebp
	sete	%al
	addl	%ecx, %ecx
	subl	%eax, %ecx
	addl	$2, %ecx
	jmp	.LBB11_45
.LBB11_61:
	movq	%rbx, %rdi
	movq	%r13, %rsi
	callq	"late_words::late_words::LateWords::pad"
	movq	%r15, %rdi
	movq	(%rbx), %rcx
	movq	8(%rbx), %rax
	movq	%rbp, (%rcx,%rax,8)
	incq	%rax
	movq	%rax, 8(%rbx)
	leal	1(%r14), %esi
	cmpq	%rsi, %rax
	movq	24(%rsp), %rdx
	ja	.LBB11_48
.LBB11_62:
	movq	%rbx, %rdi
	callq	"late_words::late_words::LateWords::pad"
	movq	%r15, %rdi
	movq	24(%rsp), %rdx
	movq	(%rbx), %rax
	movq	8(%rbx), %rcx
	movq	8(%rsp), %rsi
	movq	%rsi, (%rax,%rcx,8)
	incq	%rcx
	movq	%rcx, 8(%rbx)
	cmpl	%edx, %r14d
	je	.LBB11_49
	jmp	.LBB11_53
.LBB11_63:
	xorl	%ecx, %ecx
	cmpl	%r14d, %ebp
	je	.LBB11_58
.LBB11_64:
	testl	%ecx, %ecx
	leal	1(%r13,%r13), %eax
	leal	2(%r13,%r13), %ecx
	cmovel	%eax, %ecx
	jmp	.LBB11_45
.LBB11_65:
	movq	%rbx, %rdi
	movq	%r12, %rsi
	callq	"late_words::late_words::LateWords::pad"
	movq	(%rbx), %rax
	movq	8(%rbx), %rcx
	movq	%r13, (%rax,%rcx,8)
	incq	%rcx
	movq	%rcx, 8(%rbx)
	jmp	.LBB11_53
.Lfunc_end11:
	.size	"entry_slots::slots::EntrySlots::free_unlinked::<#dd204406e0587c1d>", .Lfunc_end11-"entry_slots::slots::EntrySlots::free_unlinked::<#dd204406e0587c1d>"

	.section	".text.max_tree::pairs::PairRow::move_to","ax",@progbits
	.p2align	4
	.type	"max_tree::pairs::PairRow::move_to",@function
"max_tree::pairs::PairRow::move_to":
	pushq	%r15
	pushq	%r14
	pushq	%rbx
	movq	%rdx, %r8
	movq	%rsi, %r14
	movq	%rsi, %rbx
	shrq	%rbx
	movq	%rdx, %rsi
	shrq	%rsi
	cmpq	%rsi, %rbx
	jne	.LBB12_2
	andl	$1, %r8d
	testl	%ecx, %ecx
	leal	(%r8,%rcx,2), %eax
	cmovel	%ecx, %eax
	movq	(%rdi), %rcx
	movl	(%rcx,%rbx,4), %edx
	movq	%rbx, %rsi
	movl	%eax, %ecx
	popq	%rbx
	popq	%r14
	popq	%r15
	jmp	"max_tree::row::MaxRow::change"
.LBB12_2:
	movq	(%rdi), %rax
	movl	(%rax,%rsi,4), %edx
	andl	$1, %r8d
	testl	%edx, %edx
	je	.LBB12_4
	movl	%edx, %r9d
	andl	$3, %r9d
	cmpl	%r8d, %r9d
	je	.LBB12_4
	movl	%edx, %eax
	shrl	%eax
	andl	$-2, %eax
	testl	%r8d, %r8d
	jne	.LBB12_9
	addl	$-3, %r9d
	cmpl	$-2, %r9d
	setae	%r8b
	testl	%eax, %eax
	setne	%r9b
	testb	%r9b, %r8b
	jne	.LBB12_8
	addl	%ecx, %ecx
	movl	%ecx, %eax
	jmp	.LBB12_16
.LBB12_4:
	testl	%ecx, %ecx
	leal	(%r8,%rcx,2), %eax
	cmovel	%ecx, %eax
	jmp	.LBB12_16
.LBB12_9:
	testl	%r9d, %r9d
	je	.LBB12_13
	cmpl	$2, %r9d
	jne	.LBB12_12
	movl	$2, %eax
.LBB12_13:
	testl	%ecx, %ecx
	je	.LBB12_14
.LBB12_15:
	testl	%eax, %eax
	leal	1(%rcx,%rcx), %r8d
	leal	2(%rcx,%rcx), %eax
	cmovel	%r8d, %eax
	jmp	.LBB12_16
.LBB12_8:
	addl	%eax, %eax
	cmpl	$1, %ecx
	sbbl	$0, %eax
	addl	$2, %eax
	jmp	.LBB12_16
.LBB12_12:
	xorl	%eax, %eax
	testl	%ecx, %ecx
	jne	.LBB12_15
.LBB12_14:
	addl	%eax, %eax
.LBB12_16:
	movq	%rdi, %r15
	movl	%eax, %ecx
	callq	"max_tree::row::MaxRow::change"
	movq	(%r15), %rax
	movl	(%rax,%rbx,4), %edx
	xorl	%ecx, %ecx
	testl	%edx, %edx
	je	.LBB12_26
	andl	$1, %r14d
	movl	%edx, %esi
	andl	$3, %esi
	cmpl	%r14d, %esi
	je	.LBB12_26
	movl	%edx, %eax
	shrl	%eax
	andl	$-2, %eax
	testl	%r14d, %r14d
	jne	.LBB12_21
	addl	$-3, %esi
	cmpl	$-2, %esi
	setb	%sil
	testl	%eax, %eax
	sete	%r8b
	orb	%sil, %r8b
	jne	.LBB12_26
	leal	1(,%rax,2), %ecx
	jmp	.LBB12_26
.LBB12_21:
	testl	%esi, %esi
	je	.LBB12_25
	cmpl	$2, %esi
	jne	.LBB12_24
	movl	$2, %eax
	jmp	.LBB12_25
.LBB12_24:
	xorl	%eax, %eax
.LBB12_25:
	addl	%eax, %eax
	movl	%eax, %ecx
.LBB12_26:
	movq	%r15, %rdi
	movq	%rbx, %rsi
	popq	%rbx
	popq	%r14
	popq	%r15
	jmp	"max_tree::row::MaxRow::change"
.Lfunc_end12:
	.size	"max_tree::pairs::PairRow::move_to", .Lfunc_end12-"max_tree::pairs::PairRow::move_to"

	.section	".text.ttl_expunge::chains::drop_chain::<#dd204406e0587c1d>","ax",@progbits
	.p2align	4
	.type	"ttl_expunge::chains::drop_chain::<#dd204406e0587c1d>",@function
"ttl_expunge::chains::drop_chain::<#dd204406e0587c1d>":
	movl	%edx, %eax
	cmpq	%rax, 8(%rsi)
	jbe	.LBB13_30
	pushq	%rbp
	pushq	%r15
	pushq	%r14
	pushq	%r13
	pushq	%r12
	pushq	%rbx
	subq	$24, %rsp
	movl	%edx, %r13d
	movq	%rsi, %r14
	movq	(%rsi), %rdx
	movl	(%rdx,%rax,8), %r12d
	testl	%r12d, %r12d
	je	.LBB13_29
	movq	%r9, %rbx
	movq	%rdi, %r15
	testb	$1, %cl
	je	.LBB13_26
	testl	%r8d, %r8d
	je	.LBB13_11
	movl	%r8d, %r8d
	movl	%r13d, %ebp
	movl	%r13d, 20(%rsp)
	jmp	.LBB13_5
	.p2align	4
.LBB13_28:
	movl	%r13d, 4(%rsp)
	movl	%r13d, 8(%rsp)
	movl	%r12d, 12(%rsp)
	movl	$0, 16(%rsp)
	leaq	4(%rsp), %rdx
	movq	%r15, %rdi
	movq	%r14, %rsi
	movq	%rbx, %rcx
	callq	"ttl_expunge::expunge::drop_row_at::<#dd204406e0587c1d>"
	movl	%ebp, %r12d
	testl	%ebp, %ebp
	je	.LBB13_29
.LBB13_26:
	leal	1(%r12), %eax
	xorl	%ebp, %ebp
	cmpq	%rax, 8(%r14)
	jbe	.LBB13_28
	movq	(%r14), %rcx
	movl	(%rcx,%rax,8), %ebp
	jmp	.LBB13_28
	.p2align	4
.LBB13_25:
	movl	%eax, %ebp
	testl	%r12d, %r12d
	je	.LBB13_29
.LBB13_5:
	movl	%r12d, %ecx
	leal	1(%rcx), %eax
	movq	8(%r14), %rdx
	xorl	%r12d, %r12d
	cmpq	%rax, %rdx
	jbe	.LBB13_7
	movq	(%r14), %rsi
	movl	(%rsi,%rax,8), %r12d
.LBB13_7:
	movl	%r13d, 4(%rsp)
	movl	%ebp, 8(%rsp)
	movl	%ecx, 12(%rsp)
	leal	4(%rcx), %esi
	movl	$0, 16(%rsp)
	cmpq	%rsi, %rdx
	jbe	.LBB13_21
	movq	(%r14), %rdi
	movq	(%rdi,%rsi,8), %rsi
	testq	%rsi, %rsi
	je	.LBB13_21
	addl	$5, %ecx
	cmpq	%rcx, %rdx
	jbe	.LBB13_23
	addq	(%rdi,%rcx,8), %rsi
	movq	$-1, %rcx
	cmovbq	%rcx, %rsi
	jmp	.LBB13_23
	.p2align	4
.LBB13_21:
	addl	$7, %ecx
	movq	%r8, %rsi
	cmpq	%rcx, %rdx
	jbe	.LBB13_23
	movq	(%r14), %rdx
	movq	(%rdx,%rcx,8), %rcx
	addq	%r8, %rcx
	movq	$-1, %rsi
	cmovaeq	%rcx, %rsi
.LBB13_23:
	cmpq	%rbx, %rsi
	jae	.LBB13_25
	leaq	4(%rsp), %rdx
	movq	%r15, %rdi
	movq	%r14, %rsi
	movq	%rbx, %rcx
	movq	%rbx, %r13
	movq	%r15, %rbx
	movq	%r8, %r15
	callq	"ttl_expunge::expunge::drop_row_at::<#dd204406e0587c1d>"
	movq	%r15, %r8
	movq	%rbx, %r15
	movq	%r13, %rbx
	movl	20(%rsp), %r13d
	movl	%ebp, %eax
	jmp	.LBB13_25
.LBB13_11:
	movl	%r13d, %ebp
	jmp	.LBB13_12
	.p2align	4
.LBB13_20:
	movl	%eax, %ebp
	testl	%r12d, %r12d
	je	.LBB13_29
.LBB13_12:
	movl	%r12d, %ecx
	leal	1(%rcx), %eax
	movq	8(%r14), %rdx
	xorl	%r12d, %r12d
	cmpq	%rax, %rdx
	jbe	.LBB13_14
	movq	(%r14), %rsi
	movl	(%rsi,%rax,8), %r12d
.LBB13_14:
	movl	%r13d, 4(%rsp)
	movl	%ebp, 8(%rsp)
	movl	%ecx, 12(%rsp)
	leal	4(%rcx), %esi
	movl	$0, 16(%rsp)
	cmpq	%rsi, %rdx
	jbe	.LBB13_20
	movq	(%r14), %rdi
	movq	(%rdi,%rsi,8), %rsi
	testq	%rsi, %rsi
	je	.LBB13_20
	addl	$5, %ecx
	cmpq	%rcx, %rdx
	jbe	.LBB13_18
	addq	(%rdi,%rcx,8), %rsi
	movq	$-1, %rcx
	cmovbq	%rcx, %rsi
.LBB13_18:
	cmpq	%rbx, %rsi
	jae	.LBB13_20
	leaq	4(%rsp), %rdx
	movq	%r15, %rdi
	movq	%r14, %rsi
	movq	%rbx, %rcx
	callq	"ttl_expunge::expunge::drop_row_at::<#dd204406e0587c1d>"
	movl	%ebp, %eax
	jmp	.LBB13_20
.LBB13_29:
	addq	$24, %rsp
	popq	%rbx
	popq	%r12
	popq	%r13
	popq	%r14
	popq	%r15
	popq	%rbp
.LBB13_30:
	retq
.Lfunc_end13:
	.size	"ttl_expunge::chains::drop_chain::<#dd204406e0587c1d>", .Lfunc_end13-"ttl_expunge::chains::drop_chain::<#dd204406e0587c1d>"

	.section	".text.ttl_expunge::expunge::drop_row_at::<#dd204406e0587c1d>","ax",@progbits
	.p2align	4
	.type	"ttl_expunge::expunge::drop_row_at::<#dd204406e0587c1d>",@function
"ttl_expunge::expunge::drop_row_at::<#dd204406e0587c1d>":
	pushq	%rbp
	pushq	%r15
	pushq	%r14
	pushq	%r13
	pushq	%r12
	pushq	%rbx
	pushq	%rax
	movq	%rcx, %rbx
	movq	%rsi, %r14
	movq	%rdi, %r12
	movl	4(%rdx), %r13d
	movl	8(%rdx), %r15d
	movq	%rsi, %rdi
	movl	%r15d, %esi
	callq	"ttl_expunge::expunge::is_let_go::<#dd204406e0587c1d>"
	testl	%r15d, %r15d
	je	.LBB14_1
	leal	1(%r15), %edx
	movq	8(%r14), %rcx
	cmpq	%rdx, %rcx
	jbe	.LBB14_3
	movq	(%r14), %rsi
	movl	(%rsi,%rdx,8), %ebp
	cmpq	%r13, %rcx
	ja	.LBB14_6
	jmp	.LBB14_7
.LBB14_1:
	movq	8(%r14), %rcx
	xorl	%ebp, %ebp
	cmpq	%r13, %rcx
	jbe	.LBB14_7
.LBB14_6:
	movq	(%r14), %rcx
	movq	%rbp, (%rcx,%r13,8)
	decl	120(%r12)
	movq	$-1, %rcx
	je	.LBB14_10
.LBB14_9:
	movq	128(%r12), %rcx
.LBB14_10:
	movq	%rcx, 128(%r12)
	movq	%r12, %rdi
	movq	%r14, %rsi
	movl	%r15d, %edx
	testb	%al, %al
	je	.LBB14_12
	addq	$8, %rsp
	popq	%rbx
	popq	%r12
	popq	%r13
	popq	%r14
	popq	%r15
	popq	%rbp
	jmp	"entry_slots::slots::EntrySlots::free_unlinked::<#dd204406e0587c1d>"
.LBB14_12:
	movq	%rbx, %rcx
	addq	$8, %rsp
	popq	%rbx
	popq	%r12
	popq	%r13
	popq	%r14
	popq	%r15
	popq	%rbp
	jmp	"entry_slots::slots::EntrySlots::to_removed::<#dd204406e0587c1d>"
.LBB14_3:
	xorl	%ebp, %ebp
	cmpq	%r13, %rcx
	ja	.LBB14_6
.LBB14_7:
	movq	%r14, %rdi
	movq	%r13, %rsi
	movl	%eax, %r13d
	callq	"late_words::late_words::LateWords::pad"
	movl	%r13d, %eax
	movq	(%r14), %rcx
	movq	8(%r14), %rdx
	movq	%rbp, (%rcx,%rdx,8)
	incq	%rdx
	movq	%rdx, 8(%r14)
	decl	120(%r12)
	movq	$-1, %rcx
	jne	.LBB14_9
	jmp	.LBB14_10
.Lfunc_end14:
	.size	"ttl_expunge::expunge::drop_row_at::<#dd204406e0587c1d>", .Lfunc_end14-"ttl_expunge::expunge::drop_row_at::<#dd204406e0587c1d>"

	.section	".text.entry_slots::slots::EntrySlots::to_removed::<#dd204406e0587c1d>","ax",@progbits
	.p2align	4
	.type	"entry_slots::slots::EntrySlots::to_removed::<#dd204406e0587c1d>",@function
"entry_slots::slots::EntrySlots::to_removed::<#dd204406e0587c1d>":
	pushq	%r15
	pushq	%r14
	pushq	%r12
	pushq	%rbx
	pushq	%rax
	leal	1(%rdx), %eax
	cmpq	%rax, 8(%rsi)
	jbe	.LBB15_2
	movq	(%rsi), %r8
	movq	$0, (%r8,%rax,8)
	movq	8(%rsi), %r8
	leal	8(%rdx), %eax
	cmpq	%rax, %r8
	jbe	.LBB15_5
.LBB15_4:
	movq	(%rsi), %r8
	movq	%rcx, (%r8,%rax,8)
	movl	4(%rdi), %ecx
	testl	%ecx, %ecx
	je	.LBB15_18
.LBB15_7:
	movl	104(%rdi), %r9d
	testl	%r9d, %r9d
	je	.LBB15_16
	movq	8(%rsi), %r8
	.p2align	4
.LBB15_10:
	movl	%r9d, %eax
	incl	%eax
	cmpq	%rax, %r8
	jbe	.LBB15_12
	decl	%ecx
	je	.LBB15_18
	movq	(%rsi), %r10
	movl	(%r10,%rax,8), %r9d
	testl	%r9d, %r9d
	jne	.LBB15_10
	testq	%rax, %rax
	je	.LBB15_16
	movl	%edx, %ecx
	movq	%rcx, (%r10,%rax,8)
	jmp	.LBB15_18
.LBB15_12:
	cmpl	$1, %ecx
	je	.LBB15_18
	testq	%rax, %rax
	jne	.LBB15_14
.LBB15_16:
	movl	%edx, 104(%rdi)
.LBB15_18:
	addq	$8, %rsp
	popq	%rbx
	popq	%r12
	popq	%r14
	popq	%r15
	retq
.LBB15_2:
	movq	%rdi, %rbx
	movq	%rsi, %rdi
	movq	%rsi, %r14
	movq	%rax, %rsi
	movq	%rdx, %r15
	movq	%rcx, %r12
	callq	"late_words::late_words::LateWords::pad"
	movq	%r12, %rcx
	movq	%rbx, %rdi
	movq	%r15, %rdx
	movq	%r14, %rsi
	movq	(%r14), %rax
	movq	8(%r14), %r8
	movq	$0, (%rax,%r8,8)
	incq	%r8
	movq	%r8, 8(%r14)
	leal	8(%rdx), %eax
	cmpq	%rax, %r8
	ja	.LBB15_4
.LBB15_5:
	movq	%rdi, %rbx
	movq	%rsi, %rdi
	movq	%rsi, %r14
	movq	%rax, %rsi
	movq	%rdx, %r15
	movq	%rcx, %r12
	callq	"late_words::late_words::LateWords::pad"
	movq	%rbx, %rdi
	movq	%r15, %rdx
	movq	%r14, %rsi
	movq	(%r14), %rax
	movq	8(%r14), %rcx
	movq	%r12, (%rax,%rcx,8)
	incq	%rcx
	movq	%rcx, 8(%r14)
	movl	4(%rdi), %ecx
	testl	%ecx, %ecx
	jne	.LBB15_7
	jmp	.LBB15_18
.LBB15_14:
	movl	%edx, %ebx
	movq	%rsi, %rdi
	movq	%rsi, %r14
	movq	%rax, %rsi
	callq	"late_words::late_words::LateWords::pad"
	movq	(%r14), %rax
	movq	8(%r14), %rcx
	movq	%rbx, (%rax,%rcx,8)
	incq	%rcx
	movq	%rcx, 8(%r14)
	jmp	.LBB15_18
.Lfunc_end15:
	.size	"entry_slots::slots::EntrySlots::to_removed::<#dd204406e0587c1d>", .Lfunc_end15-"entry_slots::slots::EntrySlots::to_removed::<#dd204406e0587c1d>"

	.section	".text.ttl_expunge::at_once::expunge_at_once::<#dd204406e0587c1d>","ax",@progbits
	.p2align	4
	.type	"ttl_expunge::at_once::expunge_at_once::<#dd204406e0587c1d>",@function
"ttl_expunge::at_once::expunge_at_once::<#dd204406e0587c1d>":
	pushq	%rbp
	pushq	%r15
	pushq	%r14
	pushq	%r13
	pushq	%r12
	pushq	%rbx
	subq	$344, %rsp
	movq	%rdx, %r15
	movq	%rsi, %rbx
	movq	%rdi, %r14
	movl	(%rdi), %eax
	movq	%rax, 16(%rsp)
	testq	%rax, %rax
	movq	%rsi, 8(%rsp)
	je	.LBB16_53
	xorl	%eax, %eax
	movq	%r15, 32(%rsp)
	jmp	.LBB16_2
	.p2align	4
.LBB16_52:
	movq	24(%rsp), %rax
	incq	%rax
	cmpq	16(%rsp), %rax
	je	.LBB16_53
.LBB16_2:
	movq	%rax, 24(%rsp)
	cmpq	%rax, 8(%rbx)
	jbe	.LBB16_52
	movq	(%rbx), %rax
	movq	24(%rsp), %rcx
	movl	(%rax,%rcx,8), %ebp
	jmp	.LBB16_4
.LBB16_47:
	testq	%rsi, %rsi
	jne	.LBB16_48
.LBB16_50:
	movl	%r12d, 104(%r14)
	.p2align	4
.LBB16_4:
	testl	%ebp, %ebp
	je	.LBB16_52
	movl	%ebp, %r12d
	leal	1(%r12), %r13d
	xorl	%ebp, %ebp
	cmpq	%r13, 8(%rbx)
	jbe	.LBB16_7
	movq	(%rbx), %rax
	movl	(%rax,%r13,8), %ebp
.LBB16_7:
	movq	%rbx, %rdi
	movl	%r12d, %esi
	callq	"ttl_expunge::expunge::is_let_go::<#dd204406e0587c1d>"
	testb	%al, %al
	jne	.LBB16_4
	leal	2(%r12), %ecx
	movq	8(%rbx), %rdi
	movabsq	$-9223372036854770427, %rax
	cmpq	%rcx, %rdi
	jbe	.LBB16_17
	movq	(%rbx), %rdx
	movl	(%rdx,%rcx,8), %esi
	testl	%esi, %esi
	je	.LBB16_17
	leal	12(%r12), %r8d
	movl	$5381, %eax
	xorl	%r9d, %r9d
	xorl	%r11d, %r11d
	xorl	%r10d, %r10d
	jmp	.LBB16_11
.LBB16_14:
	movq	(%rdx,%rcx,8), %r11
	.p2align	4
.LBB16_15:
	movl	%r9d, %ecx
	andb	$56, %cl
	movq	%r11, %rbx
	shrq	%cl, %rbx
	movq	%rax, %rcx
	shlq	$5, %rcx
	addq	%rax, %rcx
	movzbl	%bl, %eax
	addq	%rcx, %rax
	incl	%r10d
	addl	$8, %r9d
	cmpl	%r10d, %esi
	je	.LBB16_16
.LBB16_11:
	testb	$7, %r10b
	jne	.LBB16_15
	movl	%r10d, %ecx
	shrl	$3, %ecx
	addl	%r8d, %ecx
	cmpq	%rcx, %rdi
	ja	.LBB16_14
	xorl	%r11d, %r11d
	jmp	.LBB16_15
.LBB16_16:
	movabsq	$-9223372036854770427, %rcx
	addq	$-5381, %rcx
	orq	%rcx, %rax
	movq	8(%rsp), %rbx
.LBB16_17:
	movl	(%r14), %ecx
	cmpq	$4096, %rcx
	je	.LBB16_21
	testl	%ecx, %ecx
	je	.LBB16_20
	xorl	%edx, %edx
	divq	%rcx
	movq	%rdx, %rax
	movl	120(%r14), %ecx
	testl	%ecx, %ecx
	jne	.LBB16_23
	jmp	.LBB16_26
	.p2align	4
.LBB16_21:
	andl	$4095, %eax
	movl	120(%r14), %ecx
	testl	%ecx, %ecx
	jne	.LBB16_23
	jmp	.LBB16_26
	.p2align	4
.LBB16_25:
	incl	%edx
	movl	%edx, %eax
	decl	%ecx
	je	.LBB16_26
.LBB16_23:
	movl	%eax, %esi
	xorl	%edx, %edx
	cmpq	%rsi, %rdi
	jbe	.LBB16_25
	movq	(%rbx), %rdx
	movl	(%rdx,%rsi,8), %edx
	cmpl	%edx, %r12d
	jne	.LBB16_25
.LBB16_26:
	cmpq	%r13, %rdi
	jbe	.LBB16_27
	movq	(%rbx), %rcx
	movl	(%rcx,%r13,8), %ebx
	movl	%eax, %esi
	cmpq	%rsi, %rdi
	ja	.LBB16_30
.LBB16_31:
	movq	8(%rsp), %r15
	movq	%r15, %rdi
	callq	"late_words::late_words::LateWords::pad"
	movq	(%r15), %rax
	movq	8(%r15), %rcx
	movq	%rbx, (%rax,%rcx,8)
	incq	%rcx
	movq	%rcx, 8(%r15)
	movq	32(%rsp), %r15
	decl	120(%r14)
	movq	$-1, %rax
	jne	.LBB16_33
	jmp	.LBB16_34
	.p2align	4
.LBB16_27:
	xorl	%ebx, %ebx
	movl	%eax, %esi
	cmpq	%rsi, %rdi
	jbe	.LBB16_31
.LBB16_30:
	movq	8(%rsp), %rax
	movq	(%rax), %rax
	movq	%rbx, (%rax,%rsi,8)
	decl	120(%r14)
	movq	$-1, %rax
	je	.LBB16_34
.LBB16_33:
	movq	128(%r14), %rax
.LBB16_34:
	movq	%rax, 128(%r14)
	movq	8(%rsp), %rbx
	cmpq	%r13, 8(%rbx)
	jbe	.LBB16_36
	movq	(%rbx), %rax
	movq	$0, (%rax,%r13,8)
	movq	8(%rbx), %rax
	leal	8(%r12), %esi
	cmpq	%rsi, %rax
	jbe	.LBB16_39
.LBB16_38:
	movq	(%rbx), %rax
	movq	%r15, (%rax,%rsi,8)
	movl	4(%r14), %eax
	testl	%eax, %eax
	je	.LBB16_4
.LBB16_41:
	movl	104(%r14), %edx
	testl	%edx, %edx
	je	.LBB16_50
	movq	8(%rbx), %rcx
	.p2align	4
.LBB16_44:
	movl	%edx, %esi
	incl	%esi
	cmpq	%rsi, %rcx
	jbe	.LBB16_46
	decl	%eax
	je	.LBB16_4
	movq	(%rbx), %rdi
	movl	(%rdi,%rsi,8), %edx
	testl	%edx, %edx
	jne	.LBB16_44
	testq	%rsi, %rsi
	je	.LBB16_50
	movl	%r12d, %eax
	movq	%rax, (%rdi,%rsi,8)
	jmp	.LBB16_4
.LBB16_46:
	cmpl	$1, %eax
	je	.LBB16_4
	jmp	.LBB16_47
.LBB16_36:
	movq	%rbx, %rdi
	movq	%r13, %rsi
	callq	"late_words::late_words::LateWords::pad"
	movq	(%rbx), %rcx
	movq	8(%rbx), %rax
	movq	$0, (%rcx,%rax,8)
	incq	%rax
	movq	%rax, 8(%rbx)
	leal	8(%r12), %esi
	cmpq	%rsi, %rax
	ja	.LBB16_38
.LBB16_39:
	movq	%rbx, %rdi
	callq	"late_words::late_words::LateWords::pad"
	movq	(%rbx), %rax
	movq	8(%rbx), %rcx
	movq	%r15, (%rax,%rcx,8)
	incq	%rcx
	movq	%rcx, 8(%rbx)
	movl	4(%r14), %eax
	testl	%eax, %eax
	jne	.LBB16_41
	jmp	.LBB16_4
.LBB16_48:
	movl	%r12d, %ebx
	movq	8(%rsp), %rdi
	callq	"late_words::late_words::LateWords::pad"
	movq	8(%rsp), %rax
	movq	(%rax), %rax
	movq	8(%rsp), %rcx
	movq	8(%rcx), %rcx
	movq	%rbx, (%rax,%rcx,8)
	movq	8(%rsp), %rbx
	incq	%rcx
	movq	%rcx, 8(%rbx)
	jmp	.LBB16_4
.LBB16_53:
	xorps	%xmm0, %xmm0
	movaps	%xmm0, 320(%rsp)
	movaps	%xmm0, 304(%rsp)
	movaps	%xmm0, 288(%rsp)
	movaps	%xmm0, 272(%rsp)
	movaps	%xmm0, 256(%rsp)
	movaps	%xmm0, 240(%rsp)
	movaps	%xmm0, 224(%rsp)
	movaps	%xmm0, 208(%rsp)
	movaps	%xmm0, 192(%rsp)
	movaps	%xmm0, 176(%rsp)
	movaps	%xmm0, 160(%rsp)
	movaps	%xmm0, 144(%rsp)
	movaps	%xmm0, 128(%rsp)
	movaps	%xmm0, 112(%rsp)
	movaps	%xmm0, 96(%rsp)
	movaps	%xmm0, 80(%rsp)
	movl	104(%r14), %eax
	testl	%eax, %eax
	je	.LBB16_54
	movq	8(%rbx), %rcx
	xorl	%r8d, %r8d
	jmp	.LBB16_56
	.p2align	4
.LBB16_57:
	movq	(%rbx), %rdx
	movl	(%rdx,%rax,8), %eax
	cmpq	$63, %r8
	je	.LBB16_64
.LBB16_58:
	incq	%r8
	testl	%eax, %eax
	je	.LBB16_66
.LBB16_56:
	movl	%eax, 80(%rsp,%r8,4)
	incl	%eax
	cmpq	%rax, %rcx
	ja	.LBB16_57
	xorl	%eax, %eax
	cmpq	$63, %r8
	jne	.LBB16_58
	movl	$64, %r8d
	jmp	.LBB16_61
.LBB16_54:
	xorl	%r8d, %r8d
.LBB16_66:
	cmpq	$20, %r8
	ja	.LBB16_61
.LBB16_67:
	cmpq	$2, %r8
	movq	%r8, 40(%rsp)
	jb	.LBB16_84
	movl	$1, %eax
	jmp	.LBB16_69
.LBB16_71:
	xorl	%edx, %edx
.LBB16_76:
	movl	%ecx, 80(%rsp,%rdx)
.LBB16_77:
	incq	%rax
	cmpq	%r8, %rax
	je	.LBB16_84
.LBB16_69:
	movl	76(%rsp,%rax,4), %esi
	movl	80(%rsp,%rax,4), %ecx
	cmpl	%esi, %ecx
	jae	.LBB16_77
	movq	%rax, %rdx
	movl	%esi, 80(%rsp,%rax,4)
	decq	%rdx
	je	.LBB16_71
	.p2align	4
.LBB16_72:
	movl	76(%rsp,%rdx,4), %esi
	cmpl	%esi, %ecx
	jae	.LBB16_75
	movl	%esi, 80(%rsp,%rdx,4)
	decq	%rdx
	jne	.LBB16_72
	xorl	%edx, %edx
.LBB16_75:
	shlq	$2, %rdx
	jmp	.LBB16_76
.LBB16_64:
	testl	%eax, %eax
	je	.LBB16_65
	movl	(%r14), %ebx
	testq	%rbx, %rbx
	je	.LBB16_116
	movq	%r15, %r13
	movq	%r14, %r15
	xorl	%r14d, %r14d
	jmp	.LBB16_119
	.p2align	4
.LBB16_124:
	incq	%r14
	cmpq	%rbx, %r14
	je	.LBB16_116
.LBB16_119:
	movq	8(%rsp), %r12
	cmpq	%r14, 8(%r12)
	jbe	.LBB16_124
	movq	(%r12), %rax
	movl	(%rax,%r14,8), %eax
	testl	%eax, %eax
	jne	.LBB16_121
	jmp	.LBB16_124
	.p2align	4
.LBB16_123:
	movl	%r14d, 48(%rsp)
	movl	%r14d, 52(%rsp)
	movl	%eax, 56(%rsp)
	movl	$0, 60(%rsp)
	leaq	48(%rsp), %rdx
	movq	%r15, %rdi
	movq	%r12, %rsi
	movq	%r13, %rcx
	callq	"ttl_expunge::expunge::drop_row_at::<#dd204406e0587c1d>"
	movl	%ebp, %eax
	testl	%ebp, %ebp
	je	.LBB16_124
.LBB16_121:
	leal	1(%rax), %ecx
	xorl	%ebp, %ebp
	cmpq	%rcx, 8(%r12)
	jbe	.LBB16_123
	movq	(%r12), %rdx
	movl	(%rdx,%rcx,8), %ebp
	jmp	.LBB16_123
.LBB16_65:
	movl	$64, %r8d
	cmpq	$20, %r8
	jbe	.LBB16_67
.LBB16_61:
	movl	80(%rsp), %eax
	movl	84(%rsp), %ecx
	cmpl	%eax, %ecx
	movq	%r8, 40(%rsp)
	movl	$2, %edx
	jae	.LBB16_62
	.p2align	4
.LBB16_78:
	movl	80(%rsp,%rdx,4), %esi
	cmpl	76(%rsp,%rdx,4), %esi
	jae	.LBB16_80
	incq	%rdx
	cmpq	%rdx, %r8
	jne	.LBB16_78
	jmp	.LBB16_83
	.p2align	4
.LBB16_62:
	movl	80(%rsp,%rdx,4), %esi
	cmpl	76(%rsp,%rdx,4), %esi
	jb	.LBB16_80
	incq	%rdx
	cmpq	%rdx, %r8
	jne	.LBB16_62
	jmp	.LBB16_84
.LBB16_80:
	cmpq	%r8, %rdx
	jae	.LBB16_82
	bsrq	%r8, %rcx
	xorl	$63, %ecx
	addl	%ecx, %ecx
	xorl	$126, %ecx
	leaq	80(%rsp), %rdi
	xorl	%esi, %esi
	movq	%r8, %rdx
	callq	"core::slice::sort::unstable::quicksort::<#3e4d6a262d983f84>"
	jmp	.LBB16_84
.LBB16_82:
	cmpl	%eax, %ecx
	jae	.LBB16_84
.LBB16_83:
	movq	%r8, %rdx
	shrq	%rdx
	subq	%rdx, %r8
	leaq	(%rsp,%r8,4), %rsi
	addq	$80, %rsi
	leaq	80(%rsp), %rdi
	callq	"core::slice::edits::mirror::<i32>"
.LBB16_84:
	movl	(%r14), %ebx
	testq	%rbx, %rbx
	je	.LBB16_90
	xorl	%r15d, %r15d
	.p2align	4
.LBB16_86:
	movq	8(%rsp), %r12
	cmpq	%r15, 8(%r12)
	jbe	.LBB16_88
	movq	(%r12), %rax
	movq	$0, (%rax,%r15,8)
	incq	%r15
	cmpq	%r15, %rbx
	jne	.LBB16_86
	jmp	.LBB16_90
.LBB16_88:
	movq	%r12, %rdi
	movq	%r15, %rsi
	callq	"late_words::late_words::LateWords::pad"
	movq	(%r12), %rax
	movq	8(%r12), %rcx
	movq	$0, (%rax,%rcx,8)
	incq	%rcx
	movq	%rcx, 8(%r12)
	incq	%r15
	cmpq	%r15, %rbx
	jne	.LBB16_86
.LBB16_90:
	movq	24(%r14), %r15
	movq	32(%r14), %rbx
	movq	56(%r14), %rax
	testq	%rax, %rax
	movq	%r14, 64(%rsp)
	je	.LBB16_97
	movq	48(%r14), %rcx
	jmp	.LBB16_92
	.p2align	4
.LBB16_110:
	leaq	(%r15,%rcx,4), %r15
	movq	32(%rsp), %rbx
	subq	%rcx, %rbx
	movq	16(%rsp), %rcx
	movq	72(%rsp), %rax
	decq	%rax
	je	.LBB16_97
.LBB16_92:
	movq	%rax, 72(%rsp)
	movq	%rbx, 32(%rsp)
	leaq	31(%rcx), %rax
	shrq	$5, %rax
	movq	%rax, 16(%rsp)
	je	.LBB16_110
	leaq	(,%rcx,4), %r13
	xorl	%ebp, %ebp
	movq	%rcx, %r12
	movq	%rcx, %rbx
	movq	16(%rsp), %r14
	movq	%rcx, 24(%rsp)
	jmp	.LBB16_94
	.p2align	4
.LBB16_96:
	xorps	%xmm0, %xmm0
	movups	%xmm0, 112(%r15,%rbp,4)
	movups	%xmm0, 96(%r15,%rbp,4)
	movups	%xmm0, 80(%r15,%rbp,4)
	movups	%xmm0, 64(%r15,%rbp,4)
	movups	%xmm0, 48(%r15,%rbp,4)
	movups	%xmm0, 32(%r15,%rbp,4)
	movups	%xmm0, 16(%r15,%rbp,4)
	movups	%xmm0, (%r15,%rbp,4)
.LBB16_109:
	addq	$32, %rbp
	addq	$-128, %r13
	addq	$-32, %rbx
	incq	%r12
	decq	%r14
	je	.LBB16_110
.LBB16_94:
	cmpl	$0, (%r15,%r12,4)
	je	.LBB16_109
	cmpq	$32, %rbx
	jae	.LBB16_96
	cmpq	%rcx, %rbp
	jae	.LBB16_109
	leaq	(%r15,%rbp,4), %rdi
	xorl	%esi, %esi
	movq	%r13, %rdx
	callq	memset@PLT
	movq	24(%rsp), %rcx
	jmp	.LBB16_109
.LBB16_97:
	testq	%rbx, %rbx
	movq	64(%rsp), %r14
	movq	40(%rsp), %r12
	je	.LBB16_101
	cmpq	$1, %rbx
	je	.LBB16_100
	leaq	-4(,%rbx,4), %rdx
	movq	%r15, %rdi
	xorl	%esi, %esi
	callq	memset@PLT
.LBB16_100:
	movl	$0, -4(%r15,%rbx,4)
.LBB16_101:
	movq	72(%r14), %rbx
	testq	%rbx, %rbx
	je	.LBB16_105
	movq	64(%r14), %r15
	cmpq	$1, %rbx
	je	.LBB16_104
	leaq	-8(,%rbx,8), %rdx
	movq	%r15, %rdi
	xorl	%esi, %esi
	callq	memset@PLT
.LBB16_104:
	movq	$0, -8(%r15,%rbx,8)
.LBB16_105:
	movq	$0, 12(%r14)
	movl	4(%r14), %ecx
	testq	%r12, %r12
	je	.LBB16_106
	movq	8(%rsp), %rbx
	jmp	.LBB16_112
	.p2align	4
.LBB16_114:
	decq	%r12
	addl	%r15d, %edx
	movq	%r14, %rdi
	movq	%rbx, %rsi
	callq	"sma_blocks::sma::Sma::lay::<#dd204406e0587c1d>"
	movl	%r15d, %ecx
	testq	%r12, %r12
	je	.LBB16_115
.LBB16_112:
	movl	76(%rsp,%r12,4), %r15d
	xorl	%edx, %edx
	cmpq	%r15, 8(%rbx)
	jbe	.LBB16_114
	movq	(%rbx), %rax
	movl	(%rax,%r15,8), %edx
	jmp	.LBB16_114
.LBB16_106:
	movl	%ecx, %r15d
	movq	8(%rsp), %rbx
.LBB16_115:
	movl	(%r14), %edx
	movq	%r14, %rdi
	movq	%rbx, %rsi
	movl	%r15d, %ecx
	callq	"sma_blocks::sma::Sma::lay::<#dd204406e0587c1d>"
	movl	$0, 120(%r14)
	movq	$-1, 128(%r14)
.LBB16_116:
	addq	$344, %rsp
	popq	%rbx
	popq	%r12
	popq	%r13
	popq	%r14
	popq	%r15
	popq	%rbp
	retq
.LBB16_20:
	ud2
.Lfunc_end16:
	.size	"ttl_expunge::at_once::expunge_at_once::<#dd204406e0587c1d>", .Lfunc_end16-"ttl_expunge::at_once::expunge_at_once::<#dd204406e0587c1d>"

	.section	".text.core::slice::sort::unstable::quicksort::<#3e4d6a262d983f84>","ax",@progbits
	.p2align	4
	.type	"core::slice::sort::unstable::quicksort::<#3e4d6a262d983f84>",@function
"core::slice::sort::unstable::quicksort::<#3e4d6a262d983f84>":
	pushq	%rbp
	pushq	%r15
	pushq	%r14
	pushq	%r13
	pushq	%r12
	pushq	%rbx
	subq	$40, %rsp
	movq	%rdx, %rbx
	movq	%rdi, %r14
	movq	%rdx, %r12
	subq	%rsi, %r12
	cmpq	$17, %r12
	jb	.LBB17_72
	movl	%ecx, %ebp
	movq	%rsi, %r15
	movq	%rbx, 24(%rsp)
	jmp	.LBB17_2
	.p2align	4
.LBB17_49:
	xorl	%ecx, %ecx
.LBB17_70:
	movl	%eax, (%rsi,%rcx)
	addq	%r15, %rdx
	movq	%r14, %rdi
	movq	%r15, %rsi
	movl	%ebp, %ecx
	callq	"core::slice::sort::unstable::quicksort::<#3e4d6a262d983f84>"
.LBB17_71:
	addq	%r13, %r15
	movq	%rbx, %r12
	subq	%r15, %r12
	cmpq	$16, %r12
	jbe	.LBB17_72
.LBB17_2:
	testl	%ebp, %ebp
	je	.LBB17_3
	movq	%r12, %r8
	shrq	$3, %r8
	movq	%r12, %rcx
	andq	$-8, %rcx
	subq	%r8, %rcx
	addq	%r15, %rcx
	leaq	(%r15,%r8,4), %rax
	cmpq	$63, %r12
	ja	.LBB17_31
	movl	(%r14,%r15,4), %edx
	movl	(%r14,%rax,4), %esi
	cmpl	%esi, %edx
	setb	%dil
	movl	(%r14,%rcx,4), %r8d
	cmpl	%r8d, %edx
	setb	%dl
	xorb	%dil, %dl
	cmpl	%r8d, %esi
	setb	%sil
	xorb	%dil, %sil
	cmovneq	%rcx, %rax
	testb	%dl, %dl
	cmovneq	%r15, %rax
	decl	%ebp
	testq	%r15, %r15
	je	.LBB17_33
.LBB17_50:
	leaq	(,%r15,4), %rcx
	movl	-4(%r14,%r15,4), %edx
	cmpl	(%r14,%rax,4), %edx
	jb	.LBB17_34
	leaq	(%r14,%r15,4), %rdx
	subq	%r15, %rax
	je	.LBB17_53
	movl	(%rdx), %esi
	movl	(%rdx,%rax,4), %edi
	movl	%edi, (%rdx)
	movl	%esi, (%rdx,%rax,4)
.LBB17_53:
	movl	(%rdx), %eax
	movl	$1, %r13d
	.p2align	4
.LBB17_54:
	cmpl	(%rdx,%r13,4), %eax
	jb	.LBB17_57
	incq	%r13
	cmpq	%r13, %r12
	jne	.LBB17_54
	movq	%r12, %r13
.LBB17_57:
	leaq	-1(%r12), %r8
	cmpq	%r8, %r13
	jae	.LBB17_65
	leaq	1(%r13), %rdi
	movl	4(%rdx,%r13,4), %esi
	cmpq	%r8, %rdi
	jae	.LBB17_64
	movl	%r12d, %r8d
	subl	%r13d, %r8d
	movq	%r13, %r9
	testb	$1, %r8b
	je	.LBB17_61
	leaq	2(%r13), %rdi
	movl	(%rdx,%r13,4), %r8d
	movl	8(%rdx,%r13,4), %r9d
	cmpl	%r9d, %eax
	movl	%r8d, 4(%rdx,%r13,4)
	movl	%r9d, (%rdx,%r13,4)
	movq	%r13, %r9
	sbbq	$-1, %r9
.LBB17_61:
	leaq	-3(%r12), %r8
	cmpq	%r13, %r8
	movq	%r9, %r13
	je	.LBB17_64
	movq	%r12, %r8
	subq	%rdi, %r8
	leaq	(%rcx,%rdi,4), %rcx
	addq	%r14, %rcx
	movl	$1, %edi
	movq	%r9, %r13
	.p2align	4
.LBB17_63:
	movl	(%rcx,%rdi,4), %r9d
	cmpl	%r9d, %eax
	movl	(%rdx,%r13,4), %r10d
	movl	%r10d, -4(%rcx,%rdi,4)
	movl	%r9d, (%rdx,%r13,4)
	sbbq	$-1, %r13
	movl	4(%rcx,%rdi,4), %r9d
	cmpl	%r9d, %eax
	movl	(%rdx,%r13,4), %r10d
	movl	%r10d, (%rcx,%rdi,4)
	movl	%r9d, (%rdx,%r13,4)
	sbbq	$-1, %r13
	addq	$2, %rdi
	cmpq	%rdi, %r8
	jne	.LBB17_63
.LBB17_64:
	cmpl	%esi, %eax
	movl	(%rdx,%r13,4), %ecx
	movl	%ecx, -4(%rdx,%r12,4)
	movl	%esi, (%rdx,%r13,4)
	sbbq	$-1, %r13
.LBB17_65:
	movq	%r13, %rcx
	decq	%rcx
	je	.LBB17_66
	movl	(%rdx,%rcx,4), %esi
	shlq	$2, %rcx
	movl	%esi, (%rdx)
	movl	%eax, (%rdx,%rcx)
	jmp	.LBB17_71
	.p2align	4
.LBB17_31:
	movq	%r14, %rdi
	movq	%r15, %rsi
	movq	%rax, %rdx
	callq	"core::slice::sort::pivot::median_of_medians::<#3e4d6a262d983f84>"
	decl	%ebp
	testq	%r15, %r15
	jne	.LBB17_50
.LBB17_33:
	xorl	%ecx, %ecx
.LBB17_34:
	leaq	(%r14,%rcx), %rsi
	subq	%r15, %rax
	je	.LBB17_36
	movl	(%rsi), %edx
	movl	(%rsi,%rax,4), %edi
	movl	%edi, (%rsi)
	movl	%edx, (%rsi,%rax,4)
.LBB17_36:
	movl	(%rsi), %eax
	movl	$1, %r13d
	.p2align	4
.LBB17_37:
	cmpl	%eax, (%rsi,%r13,4)
	jae	.LBB17_40
	incq	%r13
	cmpq	%r13, %r12
	jne	.LBB17_37
	movq	%r12, %r13
.LBB17_40:
	leaq	-1(%r12), %r8
	cmpq	%r8, %r13
	jae	.LBB17_48
	leaq	1(%r13), %rdi
	movl	4(%rsi,%r13,4), %edx
	cmpq	%r8, %rdi
	jae	.LBB17_47
	movl	%r12d, %r8d
	subl	%r13d, %r8d
	movq	%r13, %r9
	testb	$1, %r8b
	je	.LBB17_44
	leaq	2(%r13), %rdi
	movl	(%rsi,%r13,4), %r8d
	movl	8(%rsi,%r13,4), %r9d
	cmpl	%eax, %r9d
	movl	%r8d, 4(%rsi,%r13,4)
	movl	%r9d, (%rsi,%r13,4)
	movq	%r13, %r9
	adcq	$0, %r9
.LBB17_44:
	leaq	-3(%r12), %r8
	cmpq	%r13, %r8
	movq	%r9, %r13
	je	.LBB17_47
	movq	%r12, %r8
	subq	%rdi, %r8
	leaq	(%rcx,%rdi,4), %rcx
	addq	%r14, %rcx
	movl	$1, %edi
	movq	%r9, %r13
	.p2align	4
.LBB17_46:
	movl	(%rcx,%rdi,4), %r9d
	xorl	%r10d, %r10d
	cmpl	%eax, %r9d
	setb	%r10b
	movl	(%rsi,%r13,4), %r11d
	movl	%r11d, -4(%rcx,%rdi,4)
	movl	%r9d, (%rsi,%r13,4)
	leaq	(%r10,%r13), %r9
	movl	4(%rcx,%rdi,4), %r11d
	cmpl	%eax, %r11d
	movl	(%rsi,%r9,4), %ebx
	movl	%ebx, (%rcx,%rdi,4)
	movl	%r11d, (%rsi,%r9,4)
	adcq	%r10, %r13
	addq	$2, %rdi
	cmpq	%rdi, %r8
	jne	.LBB17_46
.LBB17_47:
	cmpl	%eax, %edx
	movl	(%rsi,%r13,4), %ecx
	movl	%ecx, -4(%rsi,%r12,4)
	movl	%edx, (%rsi,%r13,4)
	adcq	$0, %r13
	movq	24(%rsp), %rbx
.LBB17_48:
	movq	%r13, %rdx
	decq	%rdx
	je	.LBB17_49
	leaq	(,%rdx,4), %rcx
	movl	(%rsi,%rdx,4), %edi
	movl	%edi, (%rsi)
	jmp	.LBB17_70
.LBB17_66:
	xorl	%ecx, %ecx
	movl	%eax, (%rdx,%rcx)
	jmp	.LBB17_71
.LBB17_72:
	cmpq	$2, %r12
	jb	.LBB17_90
	xorl	%eax, %eax
	cmpq	$13, %r12
	setae	%al
	leaq	12(,%rax,4), %rax
	cmpq	$9, %r12
	movl	$8, %ecx
	cmovaeq	%rax, %rcx
	xorl	%edx, %edx
	movq	%rbx, %rax
	subq	%rcx, %rax
	cmovaeq	%rax, %rdx
	leaq	(%r14,%rdx,4), %rax
	subq	%rdx, %rbx
	cmpq	$16, %rbx
	jb	.LBB17_75
	movl	52(%rax), %ecx
	movl	(%rax), %esi
	movl	4(%rax), %edx
	cmpl	%esi, %ecx
	movl	%esi, %edi
	cmovbl	%ecx, %edi
	movl	%edi, 24(%rsp)
	cmoval	%ecx, %esi
	movl	%esi, (%rsp)
	movl	48(%rax), %ecx
	cmpl	%edx, %ecx
	movl	%edx, %esi
	cmovbl	%ecx, %esi
	movl	%esi, 8(%rsp)
	cmoval	%ecx, %edx
	movl	%edx, 16(%rsp)
	movl	8(%rax), %edx
	movl	60(%rax), %ecx
	cmpl	%edx, %ecx
	movl	%edx, %r11d
	cmoval	%ecx, %edx
	movl	%edx, 4(%rsp)
	cmovbl	%ecx, %r11d
	movl	12(%rax), %r10d
	movl	56(%rax), %ecx
	cmpl	%r10d, %ecx
	movl	%r10d, %r15d
	cmovbl	%ecx, %r15d
	cmoval	%ecx, %r10d
	movl	16(%rax), %r13d
	movl	32(%rax), %ecx
	cmpl	%r13d, %ecx
	movl	%r13d, %edx
	cmoval	%ecx, %r13d
	cmovbl	%ecx, %edx
	movl	%edx, 20(%rsp)
	movl	20(%rax), %r8d
	movl	24(%rax), %ecx
	cmpl	%r8d, %ecx
	movl	%r8d, %r14d
	cmovbl	%ecx, %r14d
	cmoval	%ecx, %r8d
	movl	28(%rax), %edi
	movl	44(%rax), %edx
	cmpl	%edi, %edx
	movl	%edi, %esi
	cmoval	%edx, %edi
	cmovbl	%edx, %esi
	movl	36(%rax), %r12d
	movl	40(%rax), %r9d
	cmpl	%r12d, %r9d
	movl	%r12d, %ebp
	cmovbl	%r9d, %ebp
	cmoval	%r9d, %r12d
	movl	24(%rsp), %ecx
	cmpl	%ecx, %r14d
	movl	%ecx, %r9d
	cmovbl	%r14d, %r9d
	cmovbel	%ecx, %r14d
	movl	8(%rsp), %edx
	cmpl	%edx, %esi
	movl	%edx, %ecx
	cmovbl	%esi, %ecx
	movl	%ecx, 12(%rsp)
	cmovbel	%edx, %esi
	cmpl	%r11d, %ebp
	movq	%rbx, 24(%rsp)
	movl	%r11d, %ebx
	cmovbl	%ebp, %ebx
	cmovbel	%r11d, %ebp
	movl	20(%rsp), %ecx
	cmpl	%r15d, %ecx
	movl	%r15d, %r11d
	cmovbl	%ecx, %r11d
	cmovbel	%r15d, %ecx
	movl	%ecx, 20(%rsp)
	movl	(%rsp), %r15d
	cmpl	%r8d, %r15d
	movl	%r8d, %ecx
	cmovbl	%r15d, %ecx
	cmoval	%r15d, %r8d
	cmpl	%r13d, %r10d
	movl	%r13d, %edx
	cmovbl	%r10d, %edx
	movl	%edx, (%rsp)
	cmoval	%r10d, %r13d
	movl	%r13d, 8(%rsp)
	movl	4(%rsp), %edx
	cmpl	%r12d, %edx
	movl	%r12d, %r15d
	cmovbl	%edx, %r15d
	cmoval	%edx, %r12d
	movl	16(%rsp), %r10d
	cmpl	%edi, %r10d
	movl	%edi, %edx
	cmovbl	%r10d, %edx
	cmoval	%r10d, %edi
	movl	12(%rsp), %r10d
	cmpl	%r9d, %r10d
	movl	%r9d, %r13d
	cmovbl	%r10d, %r13d
	movl	%r13d, 4(%rsp)
	cmovbel	%r9d, %r10d
	movl	%r10d, 12(%rsp)
	cmpl	%ebx, %r11d
	movl	%ebx, %r13d
	cmovbl	%r11d, %r13d
	cmovbel	%ebx, %r11d
	movl	20(%rsp), %ebx
	cmpl	%ebx, %r14d
	movl	%ebx, %r9d
	cmovbl	%r14d, %r9d
	movl	%r9d, 16(%rsp)
	cmoval	%r14d, %ebx
	movl	(%rsp), %r9d
	cmpl	%ecx, %r9d
	movl	%ecx, %r14d
	cmovbl	%r9d, %r14d
	cmovbel	%ecx, %r9d
	movl	%r9d, (%rsp)
	cmpl	%esi, %ebp
	movl	%esi, %r10d
	cmovbl	%ebp, %r10d
	cmovbel	%esi, %ebp
	cmpl	%r15d, %edx
	movl	%r15d, %r9d
	cmovbl	%edx, %r9d
	cmovbel	%r15d, %edx
	cmpl	%edi, %r8d
	movl	%edi, %ecx
	cmovbl	%r8d, %ecx
	movl	%ecx, 36(%rsp)
	cmoval	%r8d, %edi
	movl	8(%rsp), %esi
	cmpl	%esi, %r12d
	movl	%esi, %r8d
	cmovbl	%r12d, %r8d
	cmovbel	%esi, %r12d
	movl	4(%rsp), %r15d
	cmpl	%r15d, %r13d
	movl	%r15d, %esi
	cmovbl	%r13d, %esi
	movl	%esi, 20(%rsp)
	cmovbel	%r15d, %r13d
	movl	12(%rsp), %esi
	cmpl	%esi, %r11d
	movl	%esi, %r15d
	cmovbl	%r11d, %r15d
	cmovbel	%esi, %r11d
	movl	16(%rsp), %ecx
	cmpl	%ecx, %r9d
	movl	%ecx, %esi
	cmovbl	%r9d, %esi
	movl	%esi, 8(%rsp)
	cmovbel	%ecx, %r9d
	cmpl	%ebx, %edx
	movl	%ebx, %ecx
	cmovbl	%edx, %ecx
	movl	%ecx, 4(%rsp)
	cmovbel	%ebx, %edx
	cmpl	%r14d, %r10d
	movl	%r14d, %esi
	cmovbl	%r10d, %esi
	cmovbel	%r14d, %r10d
	movl	(%rsp), %ebx
	cmpl	%ebx, %ebp
	movl	%ebx, %r14d
	cmovbl	%ebp, %r14d
	cmovbel	%ebx, %ebp
	movl	36(%rsp), %ecx
	cmpl	%ecx, %r8d
	movl	%ecx, %ebx
	cmovbl	%r8d, %ebx
	cmovbel	%ecx, %r8d
	movl	%r12d, %ecx
	cmpl	%edi, %r12d
	movl	%edi, %r12d
	cmovbl	%ecx, %r12d
	cmovbel	%edi, %ecx
	movl	%ecx, (%rsp)
	cmpl	%r15d, %r13d
	movl	%r15d, %edi
	cmovbl	%r13d, %edi
	cmoval	%r13d, %r15d
	cmpl	%r11d, %ebx
	movl	%r11d, %ecx
	cmovbl	%ebx, %ecx
	movl	%ecx, 16(%rsp)
	cmovbel	%r11d, %ebx
	movl	%ebx, 12(%rsp)
	movl	8(%rsp), %r11d
	cmpl	%r11d, %esi
	movl	%r11d, %ecx
	cmovbl	%esi, %ecx
	cmovbel	%r11d, %esi
	movl	4(%rsp), %r11d
	cmpl	%r11d, %r10d
	movl	%r11d, %ebx
	cmovbl	%r10d, %ebx
	cmovbel	%r11d, %r10d
	cmpl	%r14d, %r9d
	movl	%r14d, %r11d
	cmovbl	%r9d, %r11d
	cmoval	%r9d, %r14d
	cmpl	%ebp, %edx
	movl	%ebp, %r13d
	cmovbl	%edx, %r13d
	cmoval	%edx, %ebp
	cmpl	%r12d, %r8d
	movl	%r12d, %r9d
	cmovbl	%r8d, %r9d
	cmoval	%r8d, %r12d
	movl	%r12d, %edx
	cmpl	%edi, %ecx
	movl	%edi, %r8d
	cmovbl	%ecx, %r8d
	movl	%r8d, 8(%rsp)
	cmovbel	%edi, %ecx
	cmpl	%r15d, %esi
	movl	%r15d, %r12d
	cmovbl	%esi, %r12d
	cmovbel	%r15d, %esi
	cmpl	%ebx, %r11d
	movl	%ebx, %r15d
	cmovbl	%r11d, %r15d
	cmovbel	%ebx, %r11d
	cmpl	%r10d, %r14d
	movl	%r10d, %edi
	cmovbl	%r14d, %edi
	movl	%edi, 4(%rsp)
	cmovbel	%r10d, %r14d
	cmpl	%r13d, %r9d
	movl	%r13d, %edi
	cmovbl	%r9d, %edi
	cmovbel	%r13d, %r9d
	cmpl	%ebp, %edx
	movl	%ebp, %r8d
	cmovbl	%edx, %r8d
	cmovbel	%ebp, %edx
	movl	%edx, %ebp
	cmpl	%r12d, %ecx
	movl	%r12d, %edx
	cmovbl	%ecx, %edx
	movl	%edx, 36(%rsp)
	cmoval	%ecx, %r12d
	movl	16(%rsp), %ecx
	cmpl	%ecx, %esi
	movl	%ecx, %r13d
	cmovbl	%esi, %r13d
	cmovbel	%ecx, %esi
	movl	12(%rsp), %ecx
	cmpl	%edi, %ecx
	movl	%edi, %r10d
	cmovbl	%ecx, %r10d
	cmoval	%ecx, %edi
	cmpl	%r8d, %r9d
	movl	%r8d, %edx
	cmovbl	%r9d, %edx
	movl	20(%rsp), %ecx
	movl	%ecx, (%rax)
	cmoval	%r9d, %r8d
	cmpl	%r13d, %r15d
	movl	%r13d, %ebx
	cmovbl	%r15d, %ebx
	movl	(%rsp), %ecx
	movl	%ecx, 60(%rax)
	cmoval	%r15d, %r13d
	cmpl	%esi, %r11d
	movl	%esi, %r9d
	cmovbl	%r11d, %r9d
	movl	8(%rsp), %ecx
	movl	%ecx, 4(%rax)
	cmoval	%r11d, %esi
	movl	4(%rsp), %r11d
	cmpl	%r11d, %r10d
	movl	%r11d, %ecx
	cmovbl	%r10d, %ecx
	movl	%ebp, 56(%rax)
	cmovbel	%r11d, %r10d
	cmpl	%r14d, %edi
	movl	%r14d, %r11d
	cmovbl	%edi, %r11d
	movl	36(%rsp), %r15d
	movl	%r15d, 8(%rax)
	cmovbel	%r14d, %edi
	cmpl	%ebx, %r12d
	movl	%ebx, %r14d
	cmovbl	%r12d, %r14d
	movl	%r8d, 52(%rax)
	cmoval	%r12d, %ebx
	cmpl	%r13d, %r9d
	movl	%r13d, %ebp
	cmovbl	%r9d, %ebp
	movl	%r14d, 12(%rax)
	cmovbel	%r13d, %r9d
	cmpl	%ecx, %esi
	movl	%ecx, %r8d
	cmovbl	%esi, %r8d
	movl	%ebx, 16(%rax)
	movq	24(%rsp), %rbx
	cmoval	%esi, %ecx
	cmpl	%r10d, %r11d
	movl	%r10d, %esi
	cmovbl	%r11d, %esi
	movl	%ebp, 20(%rax)
	cmovbel	%r10d, %r11d
	cmpl	%edx, %edi
	movl	%edx, %r10d
	cmovbl	%edi, %r10d
	movl	%r11d, 40(%rax)
	cmovbel	%edx, %edi
	cmpl	%r9d, %r8d
	movl	%r9d, %edx
	cmovbl	%r8d, %edx
	movl	%r10d, 44(%rax)
	cmovbel	%r9d, %r8d
	cmpl	%ecx, %esi
	movl	%ecx, %r9d
	cmovbl	%esi, %r9d
	movl	%edi, 48(%rax)
	cmovbel	%ecx, %esi
	movl	%edx, 24(%rax)
	movl	%r8d, 28(%rax)
	movl	%r9d, 32(%rax)
	movl	%esi, 36(%rax)
	jmp	.LBB17_80
.LBB17_3:
	leaq	(%r14,%r15,4), %rax
	movq	%r12, %rcx
	shrq	%rcx
	movq	%rcx, %rdx
	jmp	.LBB17_4
	.p2align	4
.LBB17_15:
	testq	%rdx, %rdx
	je	.LBB17_16
.LBB17_4:
	decq	%rdx
	movq	%rdx, %rsi
	jmp	.LBB17_5
	.p2align	4
.LBB17_11:
	movl	%r9d, (%rax,%rdi,4)
	movl	%r8d, (%rax,%rsi,4)
.LBB17_14:
	cmpq	%rcx, %rsi
	jae	.LBB17_15
.LBB17_5:
	movq	%rsi, %rdi
	leaq	1(,%rsi,2), %rsi
	leaq	2(,%rdi,2), %r8
	cmpq	%r12, %r8
	je	.LBB17_9
	leaq	(%rdi,%rdi), %r9
	movl	(%rax,%rsi,4), %r10d
	cmpl	8(%rax,%r9,4), %r10d
	jb	.LBB17_8
	movq	%rsi, %r8
.LBB17_8:
	movq	%r8, %rsi
.LBB17_9:
	movl	(%rax,%rdi,4), %r8d
	movl	(%rax,%rsi,4), %r9d
	cmpl	%r9d, %r8d
	jae	.LBB17_15
	cmpq	%rsi, %rdi
	jb	.LBB17_11
	jbe	.LBB17_14
	movl	%r8d, (%rax,%rsi,4)
	movl	%r9d, (%rax,%rdi,4)
	jmp	.LBB17_14
	.p2align	4
.LBB17_28:
	cmpq	$1, %r12
	jbe	.LBB17_90
.LBB17_16:
	movl	(%rax), %ecx
	movl	-4(%rax,%r12,4), %edx
	movl	%edx, (%rax)
	movl	%ecx, -4(%rax,%r12,4)
	decq	%r12
	movq	%r12, %rcx
	shrq	%rcx
	je	.LBB17_28
	xorl	%edx, %edx
	jmp	.LBB17_18
	.p2align	4
.LBB17_24:
	movl	%r8d, (%rax,%rsi,4)
	movl	%edi, (%rax,%rdx,4)
.LBB17_27:
	cmpq	%rcx, %rdx
	jae	.LBB17_28
.LBB17_18:
	movq	%rdx, %rsi
	leaq	1(,%rdx,2), %rdx
	leaq	2(,%rsi,2), %rdi
	cmpq	%r12, %rdi
	je	.LBB17_22
	leaq	(%rsi,%rsi), %r8
	movl	(%rax,%rdx,4), %r9d
	cmpl	8(%rax,%r8,4), %r9d
	jb	.LBB17_21
	movq	%rdx, %rdi
.LBB17_21:
	movq	%rdi, %rdx
.LBB17_22:
	movl	(%rax,%rsi,4), %edi
	movl	(%rax,%rdx,4), %r8d
	cmpl	%r8d, %edi
	jae	.LBB17_28
	cmpq	%rdx, %rsi
	jb	.LBB17_24
	jbe	.LBB17_27
	movl	%edi, (%rax,%rdx,4)
	movl	%r8d, (%rax,%rsi,4)
	jmp	.LBB17_27
.LBB17_75:
	cmpq	$12, %rbx
	jb	.LBB17_77
	movl	32(%rax), %ecx
	movl	(%rax), %r15d
	movl	4(%rax), %r13d
	cmpl	%r15d, %ecx
	movl	%r15d, %r9d
	cmovbl	%ecx, %r9d
	cmoval	%ecx, %r15d
	movl	28(%rax), %ecx
	cmpl	%r13d, %ecx
	movl	%r13d, %esi
	cmovbl	%ecx, %esi
	cmoval	%ecx, %r13d
	movl	8(%rax), %ebp
	movl	24(%rax), %ecx
	cmpl	%ebp, %ecx
	movl	%ebp, %edx
	cmoval	%ecx, %ebp
	cmovbl	%ecx, %edx
	movl	12(%rax), %r10d
	movl	44(%rax), %ecx
	cmpl	%r10d, %ecx
	movq	%rbx, 24(%rsp)
	movl	%r10d, %ebx
	cmovbl	%ecx, %ebx
	cmoval	%ecx, %r10d
	movl	16(%rax), %ecx
	movl	40(%rax), %r8d
	cmpl	%ecx, %r8d
	movl	%ecx, %edi
	cmoval	%r8d, %ecx
	cmovbl	%r8d, %edi
	movl	20(%rax), %r11d
	movl	36(%rax), %r8d
	cmpl	%r11d, %r8d
	movl	%r11d, %r14d
	cmovbl	%r8d, %r14d
	cmoval	%r8d, %r11d
	cmpl	%r9d, %esi
	movl	%r9d, %r8d
	cmovbl	%esi, %r8d
	cmovbel	%r9d, %esi
	cmpl	%edx, %r14d
	movl	%edx, %r12d
	cmovbl	%r14d, %r12d
	cmovbel	%edx, %r14d
	cmpl	%ebx, %edi
	movl	%ebx, %edx
	cmovbl	%edi, %edx
	cmovbel	%ebx, %edi
	cmpl	%ebp, %r11d
	movl	%ebp, %r9d
	cmovbl	%r11d, %r9d
	cmovbel	%ebp, %r11d
	cmpl	%r13d, %r15d
	movl	%r13d, %ebx
	cmovbl	%r15d, %ebx
	movl	%ebx, 12(%rsp)
	cmoval	%r15d, %r13d
	cmpl	%ecx, %r10d
	movl	%ecx, %r15d
	cmovbl	%r10d, %r15d
	cmoval	%r10d, %ecx
	cmpl	%r8d, %r12d
	movl	%r8d, %ebp
	cmovbl	%r12d, %ebp
	cmovbel	%r8d, %r12d
	cmpl	%esi, %r9d
	movl	%esi, %r10d
	cmovbl	%r9d, %r10d
	cmovbel	%esi, %r9d
	cmpl	%r14d, %r15d
	movl	%r14d, %r8d
	cmovbl	%r15d, %r8d
	cmovbel	%r14d, %r15d
	cmpl	%r11d, %ecx
	movl	%r11d, %esi
	cmovbl	%ecx, %esi
	cmovbel	%r11d, %ecx
	cmpl	%ebp, %edx
	movl	%ebp, %r11d
	cmovbl	%edx, %r11d
	movl	%r11d, (%rsp)
	cmoval	%edx, %ebp
	cmpl	%r10d, %r12d
	movl	%r10d, %ebx
	cmovbl	%r12d, %ebx
	cmoval	%r12d, %r10d
	cmpl	%edi, %r9d
	movl	%edi, %r11d
	cmovbl	%r9d, %r11d
	cmovbel	%edi, %r9d
	movl	12(%rsp), %edx
	cmpl	%r8d, %edx
	movl	%r8d, %edi
	cmovbl	%edx, %edi
	cmoval	%edx, %r8d
	cmpl	%r13d, %ecx
	movl	%r13d, %r12d
	cmovbl	%ecx, %r12d
	cmovbel	%r13d, %ecx
	cmpl	%esi, %r15d
	movl	%esi, %r14d
	cmovbl	%r15d, %r14d
	cmoval	%r15d, %esi
	cmpl	%ebx, %r11d
	movl	%ebx, %edx
	cmovbl	%r11d, %edx
	cmovbel	%ebx, %r11d
	cmpl	%ebp, %edi
	movl	%ebp, %ebx
	cmovbl	%edi, %ebx
	cmovbel	%ebp, %edi
	cmpl	%r9d, %r12d
	movl	%r9d, %ebp
	cmovbl	%r12d, %ebp
	cmovbel	%r9d, %r12d
	cmpl	%r8d, %esi
	movl	%r8d, %r15d
	cmovbl	%esi, %r15d
	cmovbel	%r8d, %esi
	cmpl	%edx, %ebx
	movl	%edx, %r13d
	cmovbl	%ebx, %r13d
	cmovbel	%edx, %ebx
	cmpl	%r10d, %edi
	movl	%r10d, %r9d
	cmovbl	%edi, %r9d
	cmovbel	%r10d, %edi
	cmpl	%ebp, %r14d
	movl	%ebp, %edx
	cmovbl	%r14d, %edx
	cmoval	%r14d, %ebp
	cmpl	%r12d, %esi
	movl	%r12d, %r8d
	cmovbl	%esi, %r8d
	cmovbel	%r12d, %esi
	cmpl	%r9d, %ebx
	movl	%r9d, %r14d
	cmovbl	%ebx, %r14d
	cmoval	%ebx, %r9d
	cmpl	%r11d, %edi
	movl	%r11d, %ebx
	cmovbl	%edi, %ebx
	movl	(%rsp), %r10d
	movl	%r10d, (%rax)
	cmovbel	%r11d, %edi
	cmpl	%edx, %r15d
	movl	%edx, %r10d
	cmovbl	%r15d, %r10d
	movl	%ecx, 44(%rax)
	cmoval	%r15d, %edx
	cmpl	%r8d, %ebp
	movl	%r8d, %ecx
	cmovbl	%ebp, %ecx
	movl	%r13d, 4(%rax)
	cmoval	%ebp, %r8d
	cmpl	%ebx, %r10d
	movl	%ebx, %r11d
	cmovbl	%r10d, %r11d
	movl	%esi, 40(%rax)
	cmovbel	%ebx, %r10d
	movq	24(%rsp), %rbx
	cmpl	%edi, %edx
	movl	%edi, %esi
	cmovbl	%edx, %esi
	movl	%r14d, 8(%rax)
	cmovbel	%edi, %edx
	cmpl	%r9d, %r11d
	movl	%r9d, %edi
	cmovbl	%r11d, %edi
	movl	%r8d, 36(%rax)
	cmovbel	%r9d, %r11d
	cmpl	%esi, %r10d
	movl	%esi, %r8d
	cmovbl	%r10d, %r8d
	movl	%edi, 12(%rax)
	cmoval	%r10d, %esi
	movl	%r11d, 16(%rax)
	movl	%r8d, 20(%rax)
	movl	%esi, 24(%rax)
	cmpl	%edx, %ecx
	movl	%edx, %esi
	cmoval	%ecx, %edx
	cmovbl	%ecx, %esi
	movl	%esi, 28(%rax)
	movl	%edx, 32(%rax)
	jmp	.LBB17_80
.LBB17_77:
	cmpq	$8, %rbx
	jb	.LBB17_79
	movl	8(%rax), %ecx
	movl	(%rax), %r10d
	movl	4(%rax), %r9d
	cmpl	%r10d, %ecx
	movl	%r10d, %edi
	cmovbl	%ecx, %edi
	cmoval	%ecx, %r10d
	movl	12(%rax), %ecx
	cmpl	%r9d, %ecx
	movl	%r9d, %r11d
	cmovbl	%ecx, %r11d
	cmoval	%ecx, %r9d
	movl	16(%rax), %esi
	movl	24(%rax), %ecx
	cmpl	%esi, %ecx
	movl	%esi, %r8d
	cmoval	%ecx, %esi
	cmovbl	%ecx, %r8d
	movl	20(%rax), %edx
	movq	%rbx, %r14
	movl	28(%rax), %ebx
	cmpl	%edx, %ebx
	movl	%edx, %ecx
	cmovbl	%ebx, %ecx
	cmoval	%ebx, %edx
	cmpl	%edi, %r8d
	movl	%edi, %ebx
	cmovbl	%r8d, %ebx
	cmovbel	%edi, %r8d
	cmpl	%r11d, %ecx
	movl	%r11d, %edi
	cmovbl	%ecx, %edi
	cmovbel	%r11d, %ecx
	cmpl	%r10d, %esi
	movl	%r10d, %ebp
	cmovbl	%esi, %ebp
	cmovbel	%r10d, %esi
	cmpl	%r9d, %edx
	movl	%r9d, %r11d
	cmovbl	%edx, %r11d
	cmovbel	%r9d, %edx
	cmpl	%ebx, %edi
	movl	%ebx, %r10d
	cmovbl	%edi, %r10d
	cmovbel	%ebx, %edi
	cmpl	%ebp, %r11d
	movl	%ebp, %ebx
	cmovbl	%r11d, %ebx
	cmovbel	%ebp, %r11d
	cmpl	%r8d, %ecx
	movl	%r8d, %r9d
	cmovbl	%ecx, %r9d
	cmovbel	%r8d, %ecx
	cmpl	%esi, %edx
	movl	%esi, %r8d
	cmovbl	%edx, %r8d
	cmovbel	%esi, %edx
	cmpl	%ebx, %r9d
	movl	%ebx, %ebp
	cmovbl	%r9d, %ebp
	cmovbel	%ebx, %r9d
	movq	%r14, %rbx
	cmpl	%r11d, %ecx
	movl	%r11d, %esi
	cmovbl	%ecx, %esi
	cmovbel	%r11d, %ecx
	cmpl	%edi, %r9d
	movl	%edi, %r11d
	cmovbl	%r9d, %r11d
	cmovbel	%edi, %r9d
	cmpl	%esi, %r8d
	movl	%esi, %edi
	cmovbl	%r8d, %edi
	movl	%r10d, (%rax)
	cmoval	%r8d, %esi
	cmpl	%r11d, %ebp
	movl	%r11d, %r8d
	cmovbl	%ebp, %r8d
	movl	%edx, 28(%rax)
	cmoval	%ebp, %r11d
	cmpl	%edi, %r9d
	movl	%edi, %edx
	cmovbl	%r9d, %edx
	movl	%r8d, 4(%rax)
	cmoval	%r9d, %edi
	cmpl	%ecx, %esi
	movl	%ecx, %r8d
	cmovbl	%esi, %r8d
	movl	%r11d, 8(%rax)
	cmovbel	%ecx, %esi
	movl	%edx, 12(%rax)
	movl	%edi, 16(%rax)
	movl	%r8d, 20(%rax)
	movl	%esi, 24(%rax)
	jmp	.LBB17_80
.LBB17_79:
	cmpq	$2, %rbx
	jb	.LBB17_90
.LBB17_80:
	movl	$1, %ecx
	jmp	.LBB17_81
.LBB17_83:
	xorl	%esi, %esi
.LBB17_88:
	movl	%edx, (%rax,%rsi)
.LBB17_89:
	incq	%rcx
	cmpq	%rbx, %rcx
	je	.LBB17_90
.LBB17_81:
	movl	-4(%rax,%rcx,4), %edi
	movl	(%rax,%rcx,4), %edx
	cmpl	%edi, %edx
	jae	.LBB17_89
	movq	%rcx, %rsi
	movl	%edi, (%rax,%rcx,4)
	decq	%rsi
	je	.LBB17_83
	.p2align	4
.LBB17_84:
	movl	-4(%rax,%rsi,4), %edi
	cmpl	%edi, %edx
	jae	.LBB17_87
	movl	%edi, (%rax,%rsi,4)
	decq	%rsi
	jne	.LBB17_84
	xorl	%esi, %esi
.LBB17_87:
	shlq	$2, %rsi
	jmp	.LBB17_88
.LBB17_90:
	addq	$40, %rsp
	popq	%rbx
	popq	%r12
	popq	%r13
	popq	%r14
	popq	%r15
	popq	%rbp
	retq
.Lfunc_end17:
	.size	"core::slice::sort::unstable::quicksort::<#3e4d6a262d983f84>", .Lfunc_end17-"core::slice::sort::unstable::quicksort::<#3e4d6a262d983f84>"

	.section	".text.core::slice::sort::pivot::median_of_medians::<#3e4d6a262d983f84>","ax",@progbits
	.p2align	4
	.type	"core::slice::sort::pivot::median_of_medians::<#3e4d6a262d983f84>",@function
"core::slice::sort::pivot::median_of_medians::<#3e4d6a262d983f84>":
	pushq	%rbp
	pushq	%r15
	pushq	%r14
	pushq	%r13
	pushq	%r12
	pushq	%rbx
	pushq	%rax
	movq	%rcx, %r14
	movq	%rdx, %rbx
	cmpq	$8, %r8
	jae	.LBB18_2
	movl	(%rdi,%rsi,4), %eax
	movl	(%rdi,%rbx,4), %ecx
	cmpl	%ecx, %eax
	setb	%dl
	movl	(%rdi,%r14,4), %edi
	cmpl	%edi, %eax
	setb	%al
	xorb	%dl, %al
	cmpl	%edi, %ecx
	setb	%cl
	xorb	%dl, %cl
	cmovneq	%r14, %rbx
	testb	%al, %al
	cmovneq	%rsi, %rbx
	jmp	.LBB18_3
.LBB18_2:
	movq	%r8, %r12
	shrq	$3, %r12
	leaq	(%rsi,%r12,4), %rdx
	andq	$-8, %r8
	subq	%r12, %r8
	leaq	(%r8,%rsi), %rcx
	movq	%rdi, %r13
	movq	%r8, %rbp
	movq	%r12, %r8
	callq	"core::slice::sort::pivot::median_of_medians::<#3e4d6a262d983f84>"
	movq	%rax, %r15
	leaq	(%rbx,%r12,4), %rdx
	leaq	(%rbx,%rbp), %rcx
	movq	%r13, %rdi
	movq	%rbx, %rsi
	movq	%r12, %r8
	callq	"core::slice::sort::pivot::median_of_medians::<#3e4d6a262d983f84>"
	movq	%rax, %rbx
	leaq	(%r14,%r12,4), %rdx
	addq	%r14, %rbp
	movq	%r13, %rdi
	movq	%r14, %rsi
	movq	%rbp, %rcx
	movq	%r12, %r8
	callq	"core::slice::sort::pivot::median_of_medians::<#3e4d6a262d983f84>"
	movl	(%r13,%r15,4), %ecx
	movl	(%r13,%rbx,4), %edx
	cmpl	%edx, %ecx
	setb	%sil
	movl	(%r13,%rax,4), %edi
	cmpl	%edi, %ecx
	setb	%cl
	xorb	%sil, %cl
	cmpl	%edi, %edx
	setb	%dl
	xorb	%sil, %dl
	cmovneq	%rax, %rbx
	testb	%cl, %cl
	cmovneq	%r15, %rbx
.LBB18_3:
	movq	%rbx, %rax
	addq	$8, %rsp
	popq	%rbx
	popq	%r12
	popq	%r13
	popq	%r14
	popq	%r15
	popq	%rbp
	retq
.Lfunc_end18:
	.size	"core::slice::sort::pivot::median_of_medians::<#3e4d6a262d983f84>", .Lfunc_end18-"core::slice::sort::pivot::median_of_medians::<#3e4d6a262d983f84>"

	.section	".text.core::slice::edits::mirror::<i32>","ax",@progbits
	.p2align	4
	.type	"core::slice::edits::mirror::<i32>",@function
"core::slice::edits::mirror::<i32>":
	leaq	(%rdi,%rdx,4), %rax
	leaq	(%rsi,%rdx,4), %rcx
	cmpq	%rcx, %rdi
	setb	%cl
	cmpq	%rax, %rsi
	setb	%al
	testb	%al, %cl
	je	.LBB19_2
	xorl	%eax, %eax
	jmp	.LBB19_5
.LBB19_2:
	movabsq	$9223372036854775804, %rax
	andq	%rdx, %rax
	movq	%rdx, %rcx
	andq	$-4, %rcx
	negq	%rcx
	leaq	(%rsi,%rdx,4), %r8
	addq	$-16, %r8
	xorl	%r9d, %r9d
	movq	%rdi, %r10
	.p2align	4
.LBB19_3:
	movdqu	(%r10), %xmm0
	movdqu	(%r8,%r9,4), %xmm1
	pshufd	$27, %xmm1, %xmm1
	movdqu	%xmm1, (%r10)
	pshufd	$27, %xmm0, %xmm0
	movdqu	%xmm0, (%r8,%r9,4)
	addq	$-4, %r9
	addq	$16, %r10
	cmpq	%r9, %rcx
	jne	.LBB19_3
	cmpq	%rax, %rdx
	je	.LBB19_10
.LBB19_5:
	movq	%rax, %rcx
	orq	$1, %rcx
	testb	$1, %dl
	je	.LBB19_7
	movq	%rax, %r8
	notq	%r8
	addq	%rdx, %r8
	movl	(%rdi,%rax,4), %r9d
	movl	(%rsi,%r8,4), %r10d
	movl	%r10d, (%rdi,%rax,4)
	movl	%r9d, (%rsi,%r8,4)
	movq	%rcx, %rax
.LBB19_7:
	cmpq	%rcx, %rdx
	je	.LBB19_10
	subq	%rax, %rdx
	leaq	(%rdi,%rax,4), %rax
	addq	$4, %rax
	.p2align	4
.LBB19_9:
	movl	-4(%rax), %ecx
	movl	-4(%rsi,%rdx,4), %edi
	movl	%edi, -4(%rax)
	movl	%ecx, -4(%rsi,%rdx,4)
	movl	(%rax), %ecx
	movl	-8(%rsi,%rdx,4), %edi
	movl	%edi, (%rax)
	movl	%ecx, -8(%rsi,%rdx,4)
	addq	$8, %rax
	addq	$-2, %rdx
	jne	.LBB19_9
.LBB19_10:
	retq
.Lfunc_end19:
	.size	"core::slice::edits::mirror::<i32>", .Lfunc_end19-"core::slice::edits::mirror::<i32>"

	.section	".text.sma_blocks::sma::Sma::lay::<#dd204406e0587c1d>","ax",@progbits
	.p2align	4
	.type	"sma_blocks::sma::Sma::lay::<#dd204406e0587c1d>",@function
"sma_blocks::sma::Sma::lay::<#dd204406e0587c1d>":
	cmpl	%ecx, %edx
	jae	.LBB20_26
	pushq	%rbp
	pushq	%r15
	pushq	%r14
	pushq	%r13
	pushq	%r12
	pushq	%rbx
	subq	$24, %rsp
	movl	%ecx, %r12d
	movl	%edx, %r14d
	movq	%rsi, %r8
	leaq	24(%rdi), %r15
	movq	%rsi, (%rsp)
	movq	%rdi, 16(%rsp)
	jmp	.LBB20_2
	.p2align	4
.LBB20_12:
	xorl	%esi, %esi
	cmpl	%r12d, %r9d
	leal	(%rax,%rbp,2), %ecx
	cmovel	%esi, %ecx
.LBB20_24:
	movl	%r12d, %esi
	shrl	$2, %esi
	movq	%r15, %rdi
	callq	"max_tree::row::MaxRow::change"
	movq	16(%rsp), %rdi
	addl	%ebp, 16(%rdi)
	movl	%r12d, 12(%rdi)
	cmpl	%r12d, %r14d
	movq	(%rsp), %r8
	jae	.LBB20_25
.LBB20_2:
	movq	%r15, %r13
	movl	%r12d, %r9d
	movl	8(%rdi), %ecx
	movl	%r14d, %r12d
	testl	%ecx, %ecx
	je	.LBB20_4
	leal	-1(%r9), %r12d
	movl	%r12d, %eax
	xorl	%edx, %edx
	divl	%ecx
	subl	%edx, %r12d
	cmpl	%r12d, %r14d
	cmoval	%r14d, %r12d
.LBB20_4:
	movl	12(%rdi), %ebx
	movl	%r9d, %ebp
	subl	%r12d, %ebp
	leaq	1(%rbp), %r15
	movl	%r12d, %esi
	cmpq	%rsi, 8(%r8)
	jbe	.LBB20_6
	movq	(%r8), %rax
	movq	%r15, (%rax,%rsi,8)
	movq	8(%r8), %rax
	leal	1(%r12), %esi
	cmpq	%rsi, %rax
	movq	%r13, %r15
	jbe	.LBB20_9
.LBB20_8:
	movq	(%r8), %rax
	movq	%rbx, (%rax,%rsi,8)
.LBB20_10:
	movl	%r12d, %eax
	shrl	%eax
	movq	(%r15), %rcx
	movl	%r12d, %edx
	andl	$-4, %edx
	movl	(%rcx,%rdx), %edx
	andl	$1, %eax
	testl	%edx, %edx
	je	.LBB20_12
	movl	%edx, %esi
	andl	$3, %esi
	cmpl	%eax, %esi
	je	.LBB20_12
	movl	%edx, %ecx
	shrl	%ecx
	andl	$-2, %ecx
	testl	%eax, %eax
	jne	.LBB20_17
	addl	$-3, %esi
	cmpl	$-2, %esi
	setae	%al
	testl	%ecx, %ecx
	setne	%sil
	testb	%sil, %al
	jne	.LBB20_16
	leal	(,%rbp,2), %ecx
	jmp	.LBB20_24
	.p2align	4
.LBB20_17:
	testl	%esi, %esi
	je	.LBB20_21
	cmpl	$2, %esi
	jne	.LBB20_20
	movl	$2, %ecx
.LBB20_21:
	cmpl	%r12d, %r9d
	jne	.LBB20_23
.LBB20_22:
	addl	%ecx, %ecx
	jmp	.LBB20_24
.LBB20_16:
	xorl	%eax, %eax
	cmpl	%r12d, %r9d
	sete	%al
	addl	%ecx, %ecx
	subl	%eax, %ecx
	addl	$2, %ecx
	jmp	.LBB20_24
.LBB20_20:
	xorl	%ecx, %ecx
	cmpl	%r12d, %r9d
	je	.LBB20_22
.LBB20_23:
	testl	%ecx, %ecx
	leal	1(%rbp,%rbp), %eax
	leal	2(%rbp,%rbp), %ecx
	cmovel	%eax, %ecx
	jmp	.LBB20_24
.LBB20_6:
	movq	%r8, %rdi
	movq	%r9, 8(%rsp)
	callq	"late_words::late_words::LateWords::pad"
	movq	8(%rsp), %r9
	movq	(%rsp), %r8
	movq	(%r8), %rcx
	movq	8(%r8), %rax
	movq	%r15, (%rcx,%rax,8)
	incq	%rax
	movq	%rax, 8(%r8)
	leal	1(%r12), %esi
	cmpq	%rsi, %rax
	movq	%r13, %r15
	ja	.LBB20_8
.LBB20_9:
	movq	%r8, %rdi
	movq	%r9, %r13
	callq	"late_words::late_words::LateWords::pad"
	movq	%r13, %r9
	movq	(%rsp), %rdx
	movq	(%rdx), %rax
	movq	8(%rdx), %rcx
	movq	%rbx, (%rax,%rcx,8)
	incq	%rcx
	movq	%rcx, 8(%rdx)
	jmp	.LBB20_10
.LBB20_25:
	addq	$24, %rsp
	popq	%rbx
	popq	%r12
	popq	%r13
	popq	%r14
	popq	%r15
	popq	%rbp
.LBB20_26:
	retq
.Lfunc_end20:
	.size	"sma_blocks::sma::Sma::lay::<#dd204406e0587c1d>", .Lfunc_end20-"sma_blocks::sma::Sma::lay::<#dd204406e0587c1d>"

	.section	".text.entry_slots::slots::EntrySlots::take::<#dd204406e0587c1d>","ax",@progbits
	.p2align	4
	.type	"entry_slots::slots::EntrySlots::take::<#dd204406e0587c1d>",@function
"entry_slots::slots::EntrySlots::take::<#dd204406e0587c1d>":
	pushq	%rbp
	pushq	%r15
	pushq	%r14
	pushq	%r13
	pushq	%r12
	pushq	%rbx
	subq	$24, %rsp
	movl	%edx, %ebx
	movq	%rsi, %r15
	movq	%rdi, %r14
	cmpl	%edx, 16(%rdi)
	jae	.LBB21_6
.LBB21_1:
	testl	%ebx, %ebx
	js	.LBB21_13
	leal	(%rbx,%rbx), %r8d
	movq	24(%r14), %r13
	movq	32(%r14), %rsi
	movq	48(%r14), %rdx
	movq	56(%r14), %rcx
	movq	%r13, %rdi
	callq	"max_tree::levels::first_at_least"
	xorl	%r12d, %r12d
	cmpb	$1, %al
	jne	.LBB21_14
	movl	(%r13,%rdx,4), %ecx
	movl	%ecx, %eax
	andl	$3, %eax
	movl	%eax, %esi
	xorl	$2, %esi
	movl	%ebx, %edi
	xorl	$2, %edi
	orl	%esi, %edi
	setne	%sil
	testl	%eax, %eax
	setne	%dil
	andb	%sil, %dil
	shrl	%ecx
	andl	$-2, %ecx
	testb	%dil, %dil
	movl	$2, %esi
	cmovnel	%ecx, %esi
	movl	%eax, %r8d
	xorl	$2, %r8d
	cmovel	%esi, %r12d
	movzbl	%dil, %esi
	cmpl	%esi, %eax
	cmovel	%ecx, %r12d
	movl	%ebx, %ecx
	xorl	$2, %ecx
	leaq	(%rsi,%rdx,2), %rbp
	je	.LBB21_17
	cmpl	$2, %eax
	jne	.LBB21_17
	leaq	-1(%rbp), %rax
	jmp	.LBB21_19
.LBB21_6:
	movq	24(%r14), %r13
	movl	12(%r14), %eax
	movl	%eax, %ebp
	shrl	%ebp
	movl	%eax, %ecx
	andl	$-4, %ecx
	movl	(%r13,%rcx), %edx
	movl	%ebp, %ecx
	andl	$1, %ecx
	movl	%edx, %r12d
	shrl	%r12d
	andl	$-2, %r12d
	andl	$3, %edx
	cmpl	%ecx, %edx
	je	.LBB21_9
	cmpl	$2, %edx
	jne	.LBB21_15
	testl	%ecx, %ecx
	movl	$2, %ecx
	cmovel	%ecx, %r12d
.LBB21_9:
	cmpl	%r12d, %ebx
	jbe	.LBB21_20
	testl	%r12d, %r12d
	je	.LBB21_1
	orq	$1, %rax
	movq	8(%r15), %rcx
	cmpq	%rax, %rcx
	jbe	.LBB21_43
	movq	(%r15), %rdx
	movq	(%rdx,%rax,8), %rdx
	jmp	.LBB21_44
.LBB21_13:
	xorl	%r12d, %r12d
.LBB21_14:
	xorl	%r13d, %r13d
	jmp	.LBB21_62
.LBB21_15:
	testl	%ebx, %ebx
	jne	.LBB21_1
	movq	%r13, %r8
	leal	(,%rbp,2), %r13d
	movq	$0, 16(%rsp)
	movq	%rbp, %rsi
	movq	$0, (%rsp)
	jmp	.LBB21_25
.LBB21_17:
	movabsq	$9223372036854775807, %r8
	andq	%rdx, %r8
	movq	64(%r14), %rdi
	movq	72(%r14), %rsi
	movq	88(%r14), %rdx
	movq	96(%r14), %rcx
	callq	"max_tree::words::last_before"
	cmpb	$1, %al
	jne	.LBB21_20
	xorl	%eax, %eax
	testb	$3, (%r13,%rdx,4)
	setne	%al
	leaq	(%rax,%rdx,2), %rax
.LBB21_19:
	movq	%rax, (%rsp)
	movb	$1, %sil
	jmp	.LBB21_21
.LBB21_20:
	movq	$0, (%rsp)
	xorl	%esi, %esi
.LBB21_21:
	movq	%rsi, 16(%rsp)
	movq	%r13, %r8
	leal	(,%rbp,2), %r13d
	subl	%ebx, %r12d
	jbe	.LBB21_24
	leal	(%rbx,%r13), %eax
	movq	%rax, 8(%rsp)
	leaq	24(%r14), %rdi
	movl	%ebx, %edx
	shrl	%edx
	addq	%rbp, %rdx
	movq	%rbp, %rsi
	movl	%r12d, %ecx
	callq	"max_tree::pairs::PairRow::move_to"
	movl	%r13d, %ecx
	orl	$1, %ecx
	movq	8(%r15), %rax
	cmpq	%rcx, %rax
	jbe	.LBB21_33
	movq	(%r15), %rdx
	movq	(%rdx,%rcx,8), %rbp
	jmp	.LBB21_34
.LBB21_24:
	movq	%rbp, %rsi
.LBB21_25:
	movl	%r13d, %eax
	orl	$1, %eax
	xorl	%ecx, %ecx
	cmpq	%rax, 8(%r15)
	jbe	.LBB21_27
	movq	(%r15), %rdx
	movq	(%rdx,%rax,8), %r9
	jmp	.LBB21_28
.LBB21_27:
	xorl	%r9d, %r9d
.LBB21_28:
	leaq	24(%r14), %rdi
	shrq	%rsi
	movl	(%r8,%rsi,4), %edx
	testl	%edx, %edx
	movq	%r9, 8(%rsp)
	je	.LBB21_39
	andl	$1, %ebp
	movl	%edx, %r8d
	andl	$3, %r8d
	cmpl	%ebp, %r8d
	je	.LBB21_39
	movl	%edx, %eax
	shrl	%eax
	andl	$-2, %eax
	testl	%ebp, %ebp
	jne	.LBB21_40
	addl	$-3, %r8d
	cmpl	$-2, %r8d
	setb	%r8b
	testl	%eax, %eax
	sete	%r9b
	orb	%r8b, %r9b
	movq	(%rsp), %rbp
	jne	.LBB21_54
	leal	1(,%rax,2), %ecx
	jmp	.LBB21_54
.LBB21_39:
	movq	(%rsp), %rbp
	jmp	.LBB21_54
.LBB21_33:
	xorl	%ebp, %ebp
.LBB21_34:
	movl	%r12d, %r12d
	incq	%r12
	movq	8(%rsp), %rsi
	cmpq	%rsi, %rax
	jbe	.LBB21_69
	movq	(%r15), %rax
	movq	%r12, (%rax,%rsi,8)
	movq	8(%r15), %rax
	incl	%esi
	cmpq	%rsi, %rax
	jbe	.LBB21_70
.LBB21_36:
	movq	(%r15), %rax
	movq	%rbp, (%rax,%rsi,8)
.LBB21_37:
	movq	(%rsp), %rbp
	movl	%ebx, %r12d
	movl	%r13d, %esi
	cmpq	%rsi, 8(%r15)
	ja	.LBB21_56
.LBB21_59:
	movq	%r15, %rdi
	callq	"late_words::late_words::LateWords::pad"
	movq	(%r15), %rax
	movq	8(%r15), %rcx
	movq	%r12, (%rax,%rcx,8)
	incq	%rcx
	movq	%rcx, 8(%r15)
	movq	8(%rsp), %rcx
	cmpb	$0, 16(%rsp)
	jne	.LBB21_57
.LBB21_60:
	movl	%ecx, 12(%r14)
	jmp	.LBB21_61
.LBB21_40:
	testl	%r8d, %r8d
	movq	(%rsp), %rbp
	je	.LBB21_53
	cmpl	$2, %r8d
	jne	.LBB21_52
	movl	$2, %eax
	jmp	.LBB21_53
.LBB21_43:
	xorl	%edx, %edx
.LBB21_44:
	movq	%rdx, %rax
	shrq	%rax
	movq	%rdx, %rsi
	andq	$-4, %rsi
	movl	(%r13,%rsi), %edi
	movl	%eax, %esi
	andl	$1, %esi
	movl	%edi, %r12d
	shrl	%r12d
	andl	$-2, %r12d
	andl	$3, %edi
	cmpl	%esi, %edi
	je	.LBB21_47
	cmpl	$2, %edi
	jne	.LBB21_1
	testl	%esi, %esi
	movl	$2, %esi
	cmovel	%esi, %r12d
.LBB21_47:
	movb	$1, %sil
	cmpl	%r12d, %ebx
	jbe	.LBB21_51
	testl	%r12d, %r12d
	je	.LBB21_1
	orl	$1, %edx
	cmpq	%rdx, %rcx
	jbe	.LBB21_64
	movq	(%r15), %rcx
	movq	(%rcx,%rdx,8), %rcx
	jmp	.LBB21_65
.LBB21_51:
	movq	%rbp, (%rsp)
	movq	%rax, %rbp
	jmp	.LBB21_21
.LBB21_52:
	xorl	%eax, %eax
.LBB21_53:
	addl	%eax, %eax
	movl	%eax, %ecx
.LBB21_54:
	callq	"max_tree::row::MaxRow::change"
	movl	%ebx, %r12d
	movl	%r13d, %esi
	cmpq	%rsi, 8(%r15)
	jbe	.LBB21_59
.LBB21_56:
	movq	(%r15), %rax
	movq	%r12, (%rax,%rsi,8)
	movq	8(%rsp), %rcx
	cmpb	$0, 16(%rsp)
	je	.LBB21_60
.LBB21_57:
	addl	%ebp, %ebp
	incq	%rbp
	cmpq	%rbp, 8(%r15)
	jbe	.LBB21_63
	movq	(%r15), %rax
	movq	%rcx, (%rax,%rbp,8)
.LBB21_61:
	subl	%ebx, 16(%r14)
	movb	$1, %r12b
.LBB21_62:
	movl	%r12d, %eax
	movl	%r13d, %edx
	addq	$24, %rsp
	popq	%rbx
	popq	%r12
	popq	%r13
	popq	%r14
	popq	%r15
	popq	%rbp
	retq
.LBB21_63:
	movq	%r15, %rdi
	movq	%rbp, %rsi
	movq	%rcx, %r12
	callq	"late_words::late_words::LateWords::pad"
	movq	(%r15), %rax
	movq	8(%r15), %rcx
	movq	%r12, (%rax,%rcx,8)
	incq	%rcx
	movq	%rcx, 8(%r15)
	jmp	.LBB21_61
.LBB21_64:
	xorl	%ecx, %ecx
.LBB21_65:
	movq	%rcx, %rbp
	shrq	%rbp
	andq	$-4, %rcx
	movl	(%r13,%rcx), %edx
	movl	%ebp, %ecx
	andl	$1, %ecx
	movl	%edx, %r12d
	shrl	%r12d
	andl	$-2, %r12d
	andl	$3, %edx
	cmpl	%ecx, %edx
	je	.LBB21_68
	cmpl	$2, %edx
	jne	.LBB21_1
	testl	%ecx, %ecx
	movl	$2, %ecx
	cmovel	%ecx, %r12d
.LBB21_68:
	movq	%rax, (%rsp)
	cmpl	%r12d, %ebx
	ja	.LBB21_1
	jmp	.LBB21_21
.LBB21_69:
	movq	%r15, %rdi
	callq	"late_words::late_words::LateWords::pad"
	movq	8(%rsp), %rsi
	movq	(%r15), %rcx
	movq	8(%r15), %rax
	movq	%r12, (%rcx,%rax,8)
	incq	%rax
	movq	%rax, 8(%r15)
	incl	%esi
	cmpq	%rsi, %rax
	ja	.LBB21_36
.LBB21_70:
	movq	%r15, %rdi
	callq	"late_words::late_words::LateWords::pad"
	movq	(%r15), %rax
	movq	8(%r15), %rcx
	movq	%rbp, (%rax,%rcx,8)
	incq	%rcx
	movq	%rcx, 8(%r15)
	jmp	.LBB21_37
.Lfunc_end21:
	.size	"entry_slots::slots::EntrySlots::take::<#dd204406e0587c1d>", .Lfunc_end21-"entry_slots::slots::EntrySlots::take::<#dd204406e0587c1d>"

	.section	".text.max_tree::levels::first_at_least","ax",@progbits
	.p2align	4
	.type	"max_tree::levels::first_at_least",@function
"max_tree::levels::first_at_least":
	pushq	%r15
	pushq	%r14
	pushq	%rbx
	movl	%r8d, %ebx
	testq	%rcx, %rcx
	je	.LBB22_3
	movq	%rdx, %r14
	movq	%rdi, %r15
	leaq	(%rdi,%rdx,4), %rdi
	subq	%rdx, %rsi
	addq	$31, %rdx
	shrq	$5, %rdx
	decq	%rcx
	movl	%ebx, %r8d
	callq	"max_tree::levels::first_at_least"
	cmpb	$1, %al
	jne	.LBB22_5
	movq	%r15, %rdi
	movq	%r14, %rsi
	jmp	.LBB22_4
.LBB22_3:
	xorl	%edx, %edx
.LBB22_4:
	movl	%ebx, %ecx
	callq	"max_tree::pages::first_in_page"
	popq	%rbx
	popq	%r14
	popq	%r15
	retq
.LBB22_5:
	xorl	%edx, %edx
	xorl	%eax, %eax
	popq	%rbx
	popq	%r14
	popq	%r15
	retq
.Lfunc_end22:
	.size	"max_tree::levels::first_at_least", .Lfunc_end22-"max_tree::levels::first_at_least"

	.section	.rodata.cst16,"aM",@progbits,16
	.p2align	4, 0x0
.LCPI23_0:
	.long	2147483648
	.long	2147483648
	.long	2147483648
	.long	2147483648
.LCPI23_1:
	.long	16
	.long	8
	.long	4
	.long	2
.LCPI23_2:
	.long	4194304
	.long	2097152
	.long	1048576
	.long	524288
.LCPI23_3:
	.long	16384
	.long	8192
	.long	4096
	.long	2048
.LCPI23_4:
	.long	1073741824
	.long	536870912
	.long	268435456
	.long	134217728
.LCPI23_5:
	.long	262144
	.long	131072
	.long	65536
	.long	32768
.LCPI23_6:
	.long	1024
	.long	512
	.long	256
	.long	128
.LCPI23_7:
	.long	67108864
	.long	33554432
	.long	16777216
	.long	8388608
	.section	".text.max_tree::pages::first_in_page","ax",@progbits
	.p2align	4
	.type	"max_tree::pages::first_in_page",@function
"max_tree::pages::first_in_page":
	movq	%rdx, %rax
	shlq	$5, %rdx
	movq	%rsi, %r8
	subq	%rdx, %r8
	cmpq	$31, %r8
	jbe	.LBB23_1
	shlq	$7, %rax
	xorl	%esi, %esi
	cmpl	(%rdi,%rax), %ecx
	setbe	%sil
	xorl	%r8d, %r8d
	cmpl	100(%rdi,%rax), %ecx
	setbe	%r8b
	xorl	%r9d, %r9d
	cmpl	104(%rdi,%rax), %ecx
	setbe	%r9b
	xorl	%r10d, %r10d
	cmpl	124(%rdi,%rax), %ecx
	setbe	%r10b
	movdqu	108(%rdi,%rax), %xmm2
	movd	%ecx, %xmm0
	pshufd	$0, %xmm0, %xmm0
	movdqa	.LCPI23_0(%rip), %xmm1
	pxor	%xmm1, %xmm2
	pxor	%xmm1, %xmm0
	movdqa	%xmm0, %xmm3
	pcmpgtd	%xmm2, %xmm3
	pandn	.LCPI23_1(%rip), %xmm3
	shll	$5, %r9d
	shll	$6, %r8d
	orl	%r10d, %r8d
	orl	%r9d, %r8d
	pshufd	$238, %xmm3, %xmm2
	por	%xmm3, %xmm2
	pshufd	$85, %xmm2, %xmm3
	por	%xmm2, %xmm3
	movd	%xmm3, %ecx
	orl	%r8d, %ecx
	movdqu	84(%rdi,%rax), %xmm3
	movdqu	68(%rdi,%rax), %xmm4
	movdqu	4(%rdi,%rax), %xmm5
	movdqu	20(%rdi,%rax), %xmm2
	movdqu	36(%rdi,%rax), %xmm6
	movdqu	52(%rdi,%rax), %xmm7
	pxor	%xmm1, %xmm6
	movdqa	%xmm0, %xmm8
	pcmpgtd	%xmm6, %xmm8
	pandn	.LCPI23_2(%rip), %xmm8
	pxor	%xmm1, %xmm4
	movdqa	%xmm0, %xmm6
	pcmpgtd	%xmm4, %xmm6
	pandn	.LCPI23_3(%rip), %xmm6
	pxor	%xmm1, %xmm5
	movdqa	%xmm0, %xmm4
	pcmpgtd	%xmm5, %xmm4
	pandn	.LCPI23_4(%rip), %xmm4
	por	%xmm6, %xmm4
	por	%xmm8, %xmm4
	pxor	%xmm1, %xmm7
	movdqa	%xmm0, %xmm5
	pcmpgtd	%xmm7, %xmm5
	pandn	.LCPI23_5(%rip), %xmm5
	pxor	%xmm1, %xmm3
	movdqa	%xmm0, %xmm6
	pcmpgtd	%xmm3, %xmm6
	pandn	.LCPI23_6(%rip), %xmm6
	pxor	%xmm1, %xmm2
	pcmpgtd	%xmm2, %xmm0
	pandn	.LCPI23_7(%rip), %xmm0
	por	%xmm6, %xmm0
	por	%xmm5, %xmm0
	por	%xmm4, %xmm0
	shll	$31, %esi
	movd	%xmm0, %eax
	pshufd	$85, %xmm0, %xmm1
	movd	%xmm1, %edi
	orl	%eax, %edi
	pshufd	$238, %xmm0, %xmm1
	movd	%xmm1, %r8d
	pshufd	$255, %xmm0, %xmm0
	movd	%xmm0, %eax
	addl	%r8d, %eax
	addl	%edi, %eax
	addl	%esi, %eax
	addl	%ecx, %eax
	je	.LBB23_7
	bsrl	%eax, %eax
	orq	%rax, %rdx
	xorq	$31, %rdx
	movb	$1, %al
	retq
.LBB23_1:
	cmpq	%rdx, %rsi
	jbe	.LBB23_7
	.p2align	4
.LBB23_2:
	cmpl	(%rdi,%rdx,4), %ecx
	jbe	.LBB23_3
	incq	%rdx
	cmpq	%rdx, %rsi
	jne	.LBB23_2
.LBB23_7:
	xorl	%edx, %edx
	xorl	%eax, %eax
	retq
.LBB23_3:
	movb	$1, %al
	retq
.Lfunc_end23:
	.size	"max_tree::pages::first_in_page", .Lfunc_end23-"max_tree::pages::first_in_page"

	.section	".text.entry_slots::slots::EntrySlots::has_expired::<#feb48aca4256a9fc>","ax",@progbits
	.p2align	4
	.type	"entry_slots::slots::EntrySlots::has_expired::<#feb48aca4256a9fc>",@function
"entry_slots::slots::EntrySlots::has_expired::<#feb48aca4256a9fc>":
	cmpq	128(%rdi), %r9
	jbe	.LBB24_3
	testb	$1, %cl
	je	.LBB24_5
	movb	$1, %al
	retq
.LBB24_3:
	xorl	%eax, %eax
.LBB24_4:
	retq
.LBB24_5:
	movl	120(%rdi), %ecx
	xorl	%eax, %eax
	testl	%ecx, %ecx
	je	.LBB24_4
	testl	%edx, %edx
	je	.LBB24_4
	pushq	%rbx
	movq	8(%rsi), %rdi
	testl	%r8d, %r8d
	je	.LBB24_20
	movl	%r8d, %r8d
	movl	$1, %r10d
	.p2align	4
.LBB24_9:
	leal	4(%rdx), %eax
	cmpq	%rax, %rdi
	jbe	.LBB24_14
	movq	(%rsi), %r11
	movq	(%r11,%rax,8), %rax
	testq	%rax, %rax
	je	.LBB24_14
	leal	5(%rdx), %ebx
	cmpq	%rbx, %rdi
	jbe	.LBB24_13
	addq	(%r11,%rbx,8), %rax
	movq	$-1, %r11
	cmovbq	%r11, %rax
.LBB24_13:
	cmpq	%r9, %rax
	jae	.LBB24_17
	jmp	.LBB24_31
	.p2align	4
.LBB24_14:
	leal	7(%rdx), %r11d
	movq	%r8, %rax
	cmpq	%r11, %rdi
	jbe	.LBB24_16
	movq	(%rsi), %rax
	movq	(%rax,%r11,8), %r11
	addq	%r8, %r11
	movq	$-1, %rax
	cmovaeq	%r11, %rax
.LBB24_16:
	cmpq	%r9, %rax
	jb	.LBB24_31
.LBB24_17:
	incl	%edx
	xorl	%eax, %eax
	cmpq	%rdx, %rdi
	jbe	.LBB24_29
	cmpl	%ecx, %r10d
	jae	.LBB24_29
	movq	(%rsi), %r11
	movl	(%r11,%rdx,8), %edx
	incl	%r10d
	testl	%edx, %edx
	jne	.LBB24_9
	jmp	.LBB24_29
.LBB24_20:
	movl	$1, %r8d
	.p2align	4
.LBB24_21:
	leal	4(%rdx), %eax
	cmpq	%rax, %rdi
	jbe	.LBB24_26
	movq	(%rsi), %r10
	movq	(%r10,%rax,8), %rax
	testq	%rax, %rax
	je	.LBB24_26
	leal	5(%rdx), %r11d
	cmpq	%r11, %rdi
	jbe	.LBB24_25
	addq	(%r10,%r11,8), %rax
	movq	$-1, %r10
	cmovbq	%r10, %rax
.LBB24_25:
	cmpq	%r9, %rax
	jb	.LBB24_31
.LBB24_26:
	incl	%edx
	xorl	%eax, %eax
	cmpq	%rdx, %rdi
	jbe	.LBB24_29
	cmpl	%ecx, %r8d
	jae	.LBB24_29
	movq	(%rsi), %r10
	movl	(%r10,%rdx,8), %edx
	incl	%r8d
	testl	%edx, %edx
	jne	.LBB24_21
.LBB24_29:
	popq	%rbx
	retq
.LBB24_31:
	movb	$1, %al
	popq	%rbx
	retq
.Lfunc_end24:
	.size	"entry_slots::slots::EntrySlots::has_expired::<#feb48aca4256a9fc>", .Lfunc_end24-"entry_slots::slots::EntrySlots::has_expired::<#feb48aca4256a9fc>"

	.section	".text.entry_slots::slots::EntrySlots::link_at::<#dd204406e0587c1d>","ax",@progbits
	.p2align	4
	.type	"entry_slots::slots::EntrySlots::link_at::<#dd204406e0587c1d>",@function
"entry_slots::slots::EntrySlots::link_at::<#dd204406e0587c1d>":
	pushq	%rbp
	pushq	%r15
	pushq	%r14
	pushq	%r13
	pushq	%r12
	pushq	%rbx
	subq	$120, %rsp
	movq	%r9, %r13
	movq	%r8, %rbp
	movq	%rcx, %r12
	movq	%rdx, 8(%rsp)
	movq	%rsi, %r14
	movl	200(%rsp), %eax
	testl	%eax, %eax
	je	.LBB25_4
	incl	%eax
	cmpq	%rax, 8(%r14)
	jbe	.LBB25_4
	movq	(%r14), %rcx
	movl	(%rcx,%rax,8), %eax
	jmp	.LBB25_5
.LBB25_4:
	xorl	%eax, %eax
.LBB25_5:
	movq	184(%rsp), %rsi
	movzbl	(%r13), %ecx
	leaq	.LJTI25_0(%rip), %rdx
	movslq	(%rdx,%rcx,4), %rcx
	addq	%rdx, %rcx
	jmpq	*%rcx
.LBB25_6:
	movl	$1, %ecx
	jmp	.LBB25_10
.LBB25_7:
	movl	$2, %ecx
	jmp	.LBB25_10
.LBB25_8:
	movq	8(%r13), %rcx
	movq	56(%rcx), %rcx
	jmp	.LBB25_10
.LBB25_9:
	movl	16(%r13), %ecx
	movl	%ecx, %edx
	shrl	$3, %edx
	andl	$7, %ecx
	addl	$7, %ecx
	shrl	$3, %ecx
	addl	%edx, %ecx
	incl	%ecx
.LBB25_10:
	movq	%rdi, 32(%rsp)
	movq	112(%rdi), %rbx
	movl	176(%rsp), %edx
	movq	%rax, 56(%rsp)
	movq	%rbp, 64(%rsp)
	movq	%rcx, 72(%rsp)
	movq	%rdx, 80(%rsp)
	movq	%rsi, 88(%rsp)
	movq	%rsi, 96(%rsp)
	movq	%rsi, 104(%rsp)
	movq	$0, 112(%rsp)
	movq	8(%rsp), %r15
	leal	1(%r15), %esi
	leaq	56(%rsp), %rdx
	movq	%r14, %rdi
	callq	"cache_c::seat_words::SeatWordsSegment::store_eight"
	leal	9(%r15), %esi
	cmpq	%rsi, 8(%r14)
	jbe	.LBB25_115
	movq	(%r14), %rax
	movq	$0, (%rax,%rsi,8)
	movq	8(%r14), %rax
	movq	8(%rsp), %rcx
	leal	10(%rcx), %esi
	cmpq	%rsi, %rax
	jbe	.LBB25_116
.LBB25_12:
	movq	(%r14), %rax
	movq	%rbx, (%rax,%rsi,8)
	movq	8(%r14), %rax
	movq	8(%rsp), %rcx
	leal	11(%rcx), %esi
	cmpq	%rsi, %rax
	jbe	.LBB25_117
.LBB25_13:
	movq	(%r14), %rax
	movq	$0, (%rax,%rsi,8)
.LBB25_14:
	movq	8(%rsp), %rbx
	leal	12(%rbx), %esi
	movq	%r14, %rdi
	movq	%r12, %rdx
	movq	%rbp, %rcx
	callq	"value_image::bytes::put_bytes::<#dd204406e0587c1d>"
	movl	%ebp, %eax
	shrl	$3, %eax
	andl	$7, %ebp
	addl	$7, %ebp
	shrl	$3, %ebp
	leal	(%rax,%rbx), %r12d
	addl	$12, %r12d
	addl	%ebp, %r12d
	movzbl	(%r13), %eax
	leaq	.LJTI25_1(%rip), %rcx
	movslq	(%rcx,%rax,4), %rax
	addq	%rcx, %rax
	jmpq	*%rax
.LBB25_15:
	movq	8(%r13), %rdx
	movl	40(%rdx), %eax
	incl	%eax
	je	.LBB25_108
	movl	%eax, %eax
	movq	%rax, 40(%rsp)
	xorl	%r15d, %r15d
	movq	%rdx, 16(%rsp)
	jmp	.LBB25_24
	.p2align	4
.LBB25_21:
	movq	(%r14), %rax
	movq	%rbx, (%rax,%rsi,8)
.LBB25_22:
	addl	$2, %r12d
.LBB25_23:
	movq	48(%rsp), %r15
	incq	%r15
	cmpq	40(%rsp), %r15
	movq	16(%rsp), %rdx
	je	.LBB25_108
.LBB25_24:
	movq	%rdx, %r13
	testq	%r15, %r15
	je	.LBB25_26
	movq	32(%rdx), %rax
	leaq	(%r15,%r15,4), %rcx
	leaq	(%rax,%rcx,8), %r13
	addq	$-40, %r13
.LBB25_26:
	movzbl	(%r13), %eax
	leaq	.LJTI25_2(%rip), %rcx
	movslq	(%rcx,%rax,4), %rax
	addq	%rcx, %rax
	movq	%r15, 48(%rsp)
	jmpq	*%rax
.LBB25_27:
	movl	%r12d, %esi
	cmpq	%rsi, 8(%r14)
	jbe	.LBB25_73
	movq	(%r14), %rax
	movq	$0, (%rax,%rsi,8)
	incl	%r12d
	jmp	.LBB25_23
.LBB25_29:
	movq	16(%r13), %rbx
	shlq	$3, %rbx
	movabsq	$34359738360, %rax
	andq	%rax, %rbx
	orq	$4, %rbx
	movl	%r12d, %esi
	cmpq	%rsi, 8(%r14)
	jbe	.LBB25_70
	movq	(%r14), %rax
	movq	%rbx, (%rax,%rsi,8)
	incl	%r12d
	movl	16(%r13), %edx
	testq	%rdx, %rdx
	je	.LBB25_23
.LBB25_31:
	shlq	$5, %rdx
	xorl	%ebx, %ebx
	movq	%rdx, (%rsp)
	jmp	.LBB25_47
.LBB25_17:
	movq	8(%r13), %rbx
	movl	%r12d, %esi
	cmpq	%rsi, 8(%r14)
	jbe	.LBB25_71
	movq	(%r14), %rax
	movq	$2, (%rax,%rsi,8)
	jmp	.LBB25_19
.LBB25_32:
	cmpb	$0, 8(%r13)
	je	.LBB25_65
	movl	12(%r13), %ebp
	movq	16(%r13), %r13
	leaq	3(,%rbp,8), %rbx
	movl	%r12d, %esi
	cmpq	%rsi, 8(%r14)
	jbe	.LBB25_66
.LBB25_34:
	movq	(%r14), %rax
	movq	%rbx, (%rax,%rsi,8)
.LBB25_35:
	leal	1(%r12), %esi
	movq	%r14, %rdi
	movq	%r13, %rdx
	movq	%rbp, %rcx
	callq	"value_image::bytes::put_bytes::<#dd204406e0587c1d>"
	movl	%ebp, %eax
	shrl	$3, %eax
	andl	$7, %ebp
	addl	$7, %ebp
	shrl	$3, %ebp
	addl	%eax, %r12d
	incl	%r12d
	addl	%ebp, %r12d
	jmp	.LBB25_23
.LBB25_36:
	movzbl	1(%r13), %eax
	leaq	1(,%rax,8), %rbx
	movl	%r12d, %esi
	cmpq	%rsi, 8(%r14)
	jbe	.LBB25_74
	movq	(%r14), %rax
	movq	%rbx, (%rax,%rsi,8)
	incl	%r12d
	jmp	.LBB25_23
.LBB25_38:
	movq	24(%r13), %rax
	movq	8(%rax), %rbx
	shlq	$3, %rbx
	movabsq	$34359738360, %rax
	andq	%rax, %rbx
	orq	$5, %rbx
	movl	%r12d, %esi
	cmpq	%rsi, 8(%r14)
	jbe	.LBB25_76
	movq	(%r14), %rax
	movq	%rbx, (%rax,%rsi,8)
	cmpb	$0, 8(%r13)
	je	.LBB25_77
.LBB25_40:
	movq	16(%r13), %rdx
	movl	12(%r13), %ebp
	jmp	.LBB25_78
.LBB25_41:
	movl	4(%r13), %eax
	decl	%eax
	je	.LBB25_67
	movl	%eax, %eax
	movq	32(%rdx), %rcx
	leaq	(%rax,%rax,4), %rax
	movq	-8(%rcx,%rax,8), %rbx
	movl	%r12d, %esi
	cmpq	%rsi, 8(%r14)
	jbe	.LBB25_68
.LBB25_43:
	movq	(%r14), %rax
	movq	$6, (%rax,%rsi,8)
.LBB25_19:
	movq	8(%r14), %rax
	leal	1(%r12), %esi
	cmpq	%rsi, %rax
	ja	.LBB25_21
.LBB25_69:
	movq	%r14, %rdi
	callq	"late_words::late_words::LateWords::pad"
	movq	(%r14), %rax
	movq	8(%r14), %rcx
	movq	%rbx, (%rax,%rcx,8)
	incq	%rcx
	movq	%rcx, 8(%r14)
	jmp	.LBB25_22
.LBB25_63:
	movq	%r14, %rdi
	callq	"late_words::late_words::LateWords::pad"
	movq	(%rsp), %rdx
	movq	(%r14), %rcx
	movq	8(%r14), %rax
	movq	$2, (%rcx,%rax,8)
	incq	%rax
	movq	%rax, 8(%r14)
	leal	2(%r12), %esi
	cmpq	%rsi, %rax
	jbe	.LBB25_64
	.p2align	4
.LBB25_62:
	movq	(%r14), %rax
	movq	%r15, (%rax,%rsi,8)
	addl	$3, %r12d
.LBB25_46:
	addq	$32, %rbx
	cmpq	%rbx, %rdx
	je	.LBB25_23
.LBB25_47:
	movq	8(%r13), %r15
	movl	28(%r15,%rbx), %eax
	decl	%eax
	cmpb	$0, 24(%r15,%rbx)
	je	.LBB25_50
	testl	%eax, %eax
	je	.LBB25_52
	movl	%eax, %eax
	movq	16(%rsp), %rcx
	movq	32(%rcx), %rcx
	leaq	(%rax,%rax,4), %rax
	movq	-8(%rcx,%rax,8), %rax
	leaq	1(,%rax,2), %rbp
	movl	%r12d, %esi
	cmpq	%rsi, 8(%r14)
	jbe	.LBB25_59
.LBB25_53:
	movq	(%r14), %rax
	movq	%rbp, (%rax,%rsi,8)
	leal	1(%r12), %eax
	cmpb	$0, (%r15,%rbx)
	movl	%eax, %esi
	je	.LBB25_60
.LBB25_54:
	cmpb	$0, 8(%r15,%rbx)
	je	.LBB25_56
	movq	16(%r15,%rbx), %rdx
	movl	12(%r15,%rbx), %ebp
	leaq	3(,%rbp,8), %r15
	cmpq	%rsi, 8(%r14)
	jbe	.LBB25_44
.LBB25_57:
	movq	(%r14), %rax
	movq	%r15, (%rax,%rsi,8)
.LBB25_45:
	leal	2(%r12), %esi
	movq	%r14, %rdi
	movq	%rbp, %rcx
	callq	"value_image::bytes::put_bytes::<#dd204406e0587c1d>"
	movl	%ebp, %eax
	shrl	$3, %eax
	andl	$7, %ebp
	addl	$7, %ebp
	shrl	$3, %ebp
	addl	%eax, %r12d
	addl	$2, %r12d
	addl	%ebp, %r12d
	movq	(%rsp), %rdx
	jmp	.LBB25_46
	.p2align	4
.LBB25_50:
	testl	%eax, %eax
	je	.LBB25_58
	movl	%eax, %eax
	movq	16(%rsp), %rcx
	movq	32(%rcx), %rcx
	leaq	(%rax,%rax,4), %rax
	movq	-8(%rcx,%rax,8), %rbp
	addq	%rbp, %rbp
	movl	%r12d, %esi
	cmpq	%rsi, 8(%r14)
	ja	.LBB25_53
.LBB25_59:
	movq	%r14, %rdi
	callq	"late_words::late_words::LateWords::pad"
	movq	(%rsp), %rdx
	movq	(%r14), %rax
	movq	8(%r14), %rcx
	movq	%rbp, (%rax,%rcx,8)
	incq	%rcx
	movq	%rcx, 8(%r14)
	leal	1(%r12), %eax
	cmpb	$0, (%r15,%rbx)
	movl	%eax, %esi
	jne	.LBB25_54
	.p2align	4
.LBB25_60:
	movq	8(%r15,%rbx), %r15
	cmpq	%rsi, 8(%r14)
	jbe	.LBB25_63
	movq	(%r14), %rax
	movq	$2, (%rax,%rsi,8)
	movq	8(%r14), %rax
	leal	2(%r12), %esi
	cmpq	%rsi, %rax
	ja	.LBB25_62
.LBB25_64:
	movq	%r14, %rdi
	callq	"late_words::late_words::LateWords::pad"
	movq	(%rsp), %rdx
	movq	(%r14), %rax
	movq	8(%r14), %rcx
	movq	%r15, (%rax,%rcx,8)
	incq	%rcx
	movq	%rcx, 8(%r14)
	addl	$3, %r12d
	jmp	.LBB25_46
	.p2align	4
.LBB25_52:
	movl	$1, %ebp
	movl	%r12d, %esi
	cmpq	%rsi, 8(%r14)
	ja	.LBB25_53
	jmp	.LBB25_59
	.p2align	4
.LBB25_56:
	movzbl	9(%r15,%rbx), %ebp
	leaq	(%r15,%rbx), %rdx
	addq	$10, %rdx
	leaq	3(,%rbp,8), %r15
	cmpq	%rsi, 8(%r14)
	ja	.LBB25_57
.LBB25_44:
	movq	%r14, %rdi
	movq	%rdx, 24(%rsp)
	callq	"late_words::late_words::LateWords::pad"
	movq	24(%rsp), %rdx
	movq	(%r14), %rax
	movq	8(%r14), %rcx
	movq	%r15, (%rax,%rcx,8)
	incq	%rcx
	movq	%rcx, 8(%r14)
	jmp	.LBB25_45
.LBB25_58:
	xorl	%ebp, %ebp
	movl	%r12d, %esi
	cmpq	%rsi, 8(%r14)
	ja	.LBB25_53
	jmp	.LBB25_59
.LBB25_65:
	movzbl	9(%r13), %ebp
	addq	$10, %r13
	leaq	3(,%rbp,8), %rbx
	movl	%r12d, %esi
	cmpq	%rsi, 8(%r14)
	ja	.LBB25_34
.LBB25_66:
	movq	%r14, %rdi
	callq	"late_words::late_words::LateWords::pad"
	movq	(%r14), %rax
	movq	8(%r14), %rcx
	movq	%rbx, (%rax,%rcx,8)
	incq	%rcx
	movq	%rcx, 8(%r14)
	jmp	.LBB25_35
.LBB25_67:
	xorl	%ebx, %ebx
	movl	%r12d, %esi
	cmpq	%rsi, 8(%r14)
	ja	.LBB25_43
.LBB25_68:
	movq	%r14, %rdi
	callq	"late_words::late_words::LateWords::pad"
	movq	(%r14), %rcx
	movq	8(%r14), %rax
	movq	$6, (%rcx,%rax,8)
	jmp	.LBB25_72
.LBB25_70:
	movq	%r14, %rdi
	callq	"late_words::late_words::LateWords::pad"
	movq	(%r14), %rax
	movq	8(%r14), %rcx
	movq	%rbx, (%rax,%rcx,8)
	incq	%rcx
	movq	%rcx, 8(%r14)
	incl	%r12d
	movl	16(%r13), %edx
	testq	%rdx, %rdx
	jne	.LBB25_31
	jmp	.LBB25_23
.LBB25_71:
	movq	%r14, %rdi
	callq	"late_words::late_words::LateWords::pad"
	movq	(%r14), %rcx
	movq	8(%r14), %rax
	movq	$2, (%rcx,%rax,8)
.LBB25_72:
	incq	%rax
	movq	%rax, 8(%r14)
	leal	1(%r12), %esi
	cmpq	%rsi, %rax
	ja	.LBB25_21
	jmp	.LBB25_69
.LBB25_73:
	movq	%r14, %rdi
	callq	"late_words::late_words::LateWords::pad"
	movq	(%r14), %rax
	movq	8(%r14), %rcx
	movq	$0, (%rax,%rcx,8)
	jmp	.LBB25_75
.LBB25_74:
	movq	%r14, %rdi
	callq	"late_words::late_words::LateWords::pad"
	movq	(%r14), %rax
	movq	8(%r14), %rcx
	movq	%rbx, (%rax,%rcx,8)
.LBB25_75:
	incq	%rcx
	movq	%rcx, 8(%r14)
	incl	%r12d
	jmp	.LBB25_23
.LBB25_76:
	movq	%r14, %rdi
	callq	"late_words::late_words::LateWords::pad"
	movq	(%r14), %rax
	movq	8(%r14), %rcx
	movq	%rbx, (%rax,%rcx,8)
	incq	%rcx
	movq	%rcx, 8(%r14)
	cmpb	$0, 8(%r13)
	jne	.LBB25_40
.LBB25_77:
	movzbl	9(%r13), %ebp
	leaq	10(%r13), %rdx
.LBB25_78:
	leal	1(%r12), %eax
	leaq	3(,%rbp,8), %rbx
	movl	%eax, %esi
	cmpq	%rsi, 8(%r14)
	jbe	.LBB25_97
	movq	(%r14), %rax
	movq	%rbx, (%rax,%rsi,8)
.LBB25_80:
	leal	2(%r12), %esi
	movq	%r14, %rdi
	movq	%rbp, %rcx
	callq	"value_image::bytes::put_bytes::<#dd204406e0587c1d>"
	movl	%ebp, %eax
	shrl	$3, %eax
	andl	$7, %ebp
	addl	$7, %ebp
	shrl	$3, %ebp
	addl	%eax, %r12d
	addl	$2, %r12d
	addl	%ebp, %r12d
	movq	24(%r13), %rax
	movl	8(%rax), %eax
	testq	%rax, %rax
	je	.LBB25_23
	shlq	$3, %rax
	leaq	(%rax,%rax,2), %rax
	movq	%rax, (%rsp)
	xorl	%r15d, %r15d
	.p2align	4
.LBB25_82:
	movq	24(%r13), %rax
	movq	(%rax), %rbx
	movl	20(%rbx,%r15), %eax
	decl	%eax
	cmpb	$0, 16(%rbx,%r15)
	je	.LBB25_85
	testl	%eax, %eax
	je	.LBB25_87
	movl	%eax, %eax
	movq	16(%rsp), %rcx
	movq	32(%rcx), %rcx
	leaq	(%rax,%rax,4), %rax
	movq	-8(%rcx,%rax,8), %rax
	leaq	1(,%rax,2), %rbp
	movl	%r12d, %esi
	cmpq	%rsi, 8(%r14)
	jbe	.LBB25_91
.LBB25_88:
	movq	(%r14), %rax
	movq	%rbp, (%rax,%rsi,8)
	cmpb	$0, (%rbx,%r15)
	je	.LBB25_92
.LBB25_89:
	movq	8(%rbx,%r15), %rdx
	movl	4(%rbx,%r15), %ebp
	jmp	.LBB25_93
	.p2align	4
.LBB25_85:
	testl	%eax, %eax
	je	.LBB25_90
	movl	%eax, %eax
	movq	16(%rsp), %rcx
	movq	32(%rcx), %rcx
	leaq	(%rax,%rax,4), %rax
	movq	-8(%rcx,%rax,8), %rbp
	addq	%rbp, %rbp
	movl	%r12d, %esi
	cmpq	%rsi, 8(%r14)
	ja	.LBB25_88
.LBB25_91:
	movq	%r14, %rdi
	callq	"late_words::late_words::LateWords::pad"
	movq	(%r14), %rax
	movq	8(%r14), %rcx
	movq	%rbp, (%rax,%rcx,8)
	incq	%rcx
	movq	%rcx, 8(%r14)
	cmpb	$0, (%rbx,%r15)
	jne	.LBB25_89
	.p2align	4
.LBB25_92:
	movzbl	1(%rbx,%r15), %ebp
	leaq	(%rbx,%r15), %rdx
	addq	$2, %rdx
.LBB25_93:
	leal	1(%r12), %eax
	leaq	3(,%rbp,8), %rbx
	movl	%eax, %esi
	cmpq	%rsi, 8(%r14)
	jbe	.LBB25_96
	movq	(%r14), %rax
	movq	%rbx, (%rax,%rsi,8)
.LBB25_95:
	leal	2(%r12), %esi
	movq	%r14, %rdi
	movq	%rbp, %rcx
	callq	"value_image::bytes::put_bytes::<#dd204406e0587c1d>"
	movl	%ebp, %eax
	shrl	$3, %eax
	andl	$7, %ebp
	addl	$7, %ebp
	shrl	$3, %ebp
	addl	%eax, %r12d
	addl	$2, %r12d
	addl	%ebp, %r12d
	addq	$24, %r15
	cmpq	%r15, (%rsp)
	jne	.LBB25_82
	jmp	.LBB25_23
	.p2align	4
.LBB25_87:
	movl	$1, %ebp
	movl	%r12d, %esi
	cmpq	%rsi, 8(%r14)
	ja	.LBB25_88
	jmp	.LBB25_91
.LBB25_90:
	xorl	%ebp, %ebp
	movl	%r12d, %esi
	cmpq	%rsi, 8(%r14)
	ja	.LBB25_88
	jmp	.LBB25_91
.LBB25_96:
	movq	%r14, %rdi
	movq	%rdx, 24(%rsp)
	callq	"late_words::late_words::LateWords::pad"
	movq	24(%rsp), %rdx
	movq	(%r14), %rax
	movq	8(%r14), %rcx
	movq	%rbx, (%rax,%rcx,8)
	incq	%rcx
	movq	%rcx, 8(%r14)
	jmp	.LBB25_95
.LBB25_97:
	movq	%r14, %rdi
	movq	%rdx, (%rsp)
	callq	"late_words::late_words::LateWords::pad"
	movq	(%rsp), %rdx
	movq	(%r14), %rax
	movq	8(%r14), %rcx
	movq	%rbx, (%rax,%rcx,8)
	incq	%rcx
	movq	%rcx, 8(%r14)
	jmp	.LBB25_80
.LBB25_98:
	movq	8(%r13), %rbx
	movl	%r12d, %esi
	cmpq	%rsi, 8(%r14)
	jbe	.LBB25_118
	movq	(%r14), %rax
	movq	$2, (%rax,%rsi,8)
	movq	8(%r14), %rax
	incl	%r12d
	cmpq	%r12, %rax
	jbe	.LBB25_119
.LBB25_100:
	movq	(%r14), %rax
	movq	%rbx, (%rax,%r12,8)
	movl	8(%rsp), %ebx
	movl	192(%rsp), %esi
	cmpq	%rsi, 8(%r14)
	ja	.LBB25_109
.LBB25_124:
	movq	%r14, %rdi
	callq	"late_words::late_words::LateWords::pad"
	movq	(%r14), %rax
	movq	8(%r14), %rcx
	movq	%rbx, (%rax,%rcx,8)
	incq	%rcx
	movq	%rcx, 8(%r14)
	jmp	.LBB25_110
.LBB25_101:
	movl	%r12d, %esi
	cmpq	%rsi, 8(%r14)
	jbe	.LBB25_120
	movq	(%r14), %rax
	movq	$0, (%rax,%rsi,8)
	movl	8(%rsp), %ebx
	movl	192(%rsp), %esi
	cmpq	%rsi, 8(%r14)
	ja	.LBB25_109
	jmp	.LBB25_124
.LBB25_103:
	movzbl	1(%r13), %eax
	leaq	1(,%rax,8), %rbx
	movl	%r12d, %esi
	cmpq	%rsi, 8(%r14)
	jbe	.LBB25_121
	movq	(%r14), %rax
	movq	%rbx, (%rax,%rsi,8)
	movl	8(%rsp), %ebx
	movl	192(%rsp), %esi
	cmpq	%rsi, 8(%r14)
	ja	.LBB25_109
	jmp	.LBB25_124
.LBB25_105:
	movq	8(%r13), %rdx
	movq	16(%r13), %rcx
	leaq	3(,%rcx,8), %rbx
	movl	%r12d, %esi
	cmpq	%rsi, 8(%r14)
	jbe	.LBB25_125
	movq	(%r14), %rax
	movq	%rbx, (%rax,%rsi,8)
.LBB25_107:
	incl	%r12d
	movq	%r14, %rdi
	movl	%r12d, %esi
	callq	"value_image::bytes::put_bytes::<#dd204406e0587c1d>"
.LBB25_108:
	movl	8(%rsp), %ebx
	movl	192(%rsp), %esi
	cmpq	%rsi, 8(%r14)
	jbe	.LBB25_124
.LBB25_109:
	movq	(%r14), %rax
	movq	%rbx, (%rax,%rsi,8)
.LBB25_110:
	movl	176(%rsp), %esi
	movq	32(%rsp), %rdx
	movq	112(%rdx), %rax
	incq	%rax
	movq	$-1, %rcx
	cmovneq	%rax, %rcx
	movq	%rcx, 112(%rdx)
	movl	200(%rsp), %eax
	cmpl	$1, %eax
	adcl	$0, 120(%rdx)
	cmpl	$0, 176(%rsp)
	movq	184(%rsp), %rcx
	je	.LBB25_112
	movq	128(%rdx), %rax
	jmp	.LBB25_113
.LBB25_112:
	movl	124(%rdx), %esi
	movq	128(%rdx), %rax
	testq	%rsi, %rsi
	je	.LBB25_114
.LBB25_113:
	addq	%rcx, %rsi
	movq	$-1, %rcx
	cmovaeq	%rsi, %rcx
	cmpq	%rax, %rcx
	cmovbq	%rcx, %rax
.LBB25_114:
	movq	%rax, 128(%rdx)
	addq	$120, %rsp
	popq	%rbx
	popq	%r12
	popq	%r13
	popq	%r14
	popq	%r15
	popq	%rbp
	retq
.LBB25_115:
	movq	%r14, %rdi
	callq	"late_words::late_words::LateWords::pad"
	movq	(%r14), %rcx
	movq	8(%r14), %rax
	movq	$0, (%rcx,%rax,8)
	incq	%rax
	movq	%rax, 8(%r14)
	movq	8(%rsp), %rcx
	leal	10(%rcx), %esi
	cmpq	%rsi, %rax
	ja	.LBB25_12
.LBB25_116:
	movq	%r14, %rdi
	callq	"late_words::late_words::LateWords::pad"
	movq	(%r14), %rcx
	movq	8(%r14), %rax
	movq	%rbx, (%rcx,%rax,8)
	incq	%rax
	movq	%rax, 8(%r14)
	movq	8(%rsp), %rcx
	leal	11(%rcx), %esi
	cmpq	%rsi, %rax
	ja	.LBB25_13
.LBB25_117:
	movq	%r14, %rdi
	callq	"late_words::late_words::LateWords::pad"
	movq	(%r14), %rax
	movq	8(%r14), %rcx
	movq	$0, (%rax,%rcx,8)
	incq	%rcx
	movq	%rcx, 8(%r14)
	jmp	.LBB25_14
.LBB25_118:
	movq	%r14, %rdi
	callq	"late_words::late_words::LateWords::pad"
	movq	(%r14), %rcx
	movq	8(%r14), %rax
	movq	$2, (%rcx,%rax,8)
	incq	%rax
	movq	%rax, 8(%r14)
	incl	%r12d
	cmpq	%r12, %rax
	ja	.LBB25_100
.LBB25_119:
	movq	%r14, %rdi
	movq	%r12, %rsi
	jmp	.LBB25_122
.LBB25_120:
	movq	%r14, %rdi
	callq	"late_words::late_words::LateWords::pad"
	movq	(%r14), %rax
	movq	8(%r14), %rcx
	movq	$0, (%rax,%rcx,8)
	jmp	.LBB25_123
.LBB25_121:
	movq	%r14, %rdi
.LBB25_122:
	callq	"late_words::late_words::LateWords::pad"
	movq	(%r14), %rax
	movq	8(%r14), %rcx
	movq	%rbx, (%rax,%rcx,8)
.LBB25_123:
	incq	%rcx
	movq	%rcx, 8(%r14)
	movl	8(%rsp), %ebx
	movl	192(%rsp), %esi
	cmpq	%rsi, 8(%r14)
	ja	.LBB25_109
	jmp	.LBB25_124
.LBB25_125:
	movq	%r14, %rdi
	movq	%rcx, %r15
	movq	%rdx, %r13
	callq	"late_words::late_words::LateWords::pad"
	movq	%r13, %rdx
	movq	%r15, %rcx
	movq	(%r14), %rax
	movq	8(%r14), %rsi
	movq	%rbx, (%rax,%rsi,8)
	incq	%rsi
	movq	%rsi, 8(%r14)
	jmp	.LBB25_107
.Lfunc_end25:
	.size	"entry_slots::slots::EntrySlots::link_at::<#dd204406e0587c1d>", .Lfunc_end25-"entry_slots::slots::EntrySlots::link_at::<#dd204406e0587c1d>"
	.section	".rodata.entry_slots::slots::EntrySlots::link_at::<#dd204406e0587c1d>","a",@progbits
	.p2align	2, 0x0
.LJTI25_0:
	.long	.LBB25_8-.LJTI25_0
	.long	.LBB25_9-.LJTI25_0
	.long	.LBB25_6-.LJTI25_0
	.long	.LBB25_6-.LJTI25_0
	.long	.LBB25_7-.LJTI25_0
.LJTI25_1:
	.long	.LBB25_15-.LJTI25_1
	.long	.LBB25_105-.LJTI25_1
	.long	.LBB25_101-.LJTI25_1
	.long	.LBB25_103-.LJTI25_1
	.long	.LBB25_98-.LJTI25_1
.LJTI25_2:
	.long	.LBB25_27-.LJTI25_2
	.long	.LBB25_36-.LJTI25_2
	.long	.LBB25_17-.LJTI25_2
	.long	.LBB25_32-.LJTI25_2
	.long	.LBB25_29-.LJTI25_2
	.long	.LBB25_38-.LJTI25_2
	.long	.LBB25_41-.LJTI25_2

	.section	".text.cache_c::seat_words::SeatWordsSegment::store_eight","ax",@progbits
	.p2align	4
	.type	"cache_c::seat_words::SeatWordsSegment::store_eight",@function
"cache_c::seat_words::SeatWordsSegment::store_eight":
	pushq	%r15
	pushq	%r14
	pushq	%r12
	pushq	%rbx
	pushq	%rax
	movl	%esi, %eax
	leaq	8(%rax), %r8
	movq	8(%rdi), %rcx
	cmpq	%rcx, %r8
	jbe	.LBB26_3
	movq	(%rdx), %r14
	cmpq	%rax, %rcx
	jbe	.LBB26_6
	movq	(%rdi), %rcx
	movq	%r14, (%rcx,%rax,8)
	movq	8(%rdi), %rcx
	leal	1(%rsi), %eax
	movq	8(%rdx), %r14
	cmpq	%rax, %rcx
	jbe	.LBB26_8
.LBB26_9:
	movq	(%rdi), %rcx
	movq	%r14, (%rcx,%rax,8)
	movq	8(%rdi), %rcx
	leal	2(%rsi), %eax
	movq	16(%rdx), %r14
	cmpq	%rax, %rcx
	jbe	.LBB26_11
.LBB26_12:
	movq	(%rdi), %rcx
	movq	%r14, (%rcx,%rax,8)
	movq	8(%rdi), %rcx
	leal	3(%rsi), %eax
	movq	24(%rdx), %r14
	cmpq	%rax, %rcx
	jbe	.LBB26_14
.LBB26_15:
	movq	(%rdi), %rcx
	movq	%r14, (%rcx,%rax,8)
	movq	8(%rdi), %rcx
	leal	4(%rsi), %eax
	movq	32(%rdx), %r14
	cmpq	%rax, %rcx
	jbe	.LBB26_17
.LBB26_18:
	movq	(%rdi), %rcx
	movq	%r14, (%rcx,%rax,8)
	movq	8(%rdi), %rcx
	leal	5(%rsi), %eax
	movq	40(%rdx), %r14
	cmpq	%rax, %rcx
	jbe	.LBB26_20
.LBB26_21:
	movq	(%rdi), %rcx
	movq	%r14, (%rcx,%rax,8)
	movq	8(%rdi), %rcx
	leal	6(%rsi), %eax
	movq	48(%rdx), %r14
	cmpq	%rax, %rcx
	jbe	.LBB26_23
.LBB26_24:
	movq	(%rdi), %rcx
	movq	%r14, (%rcx,%rax,8)
	movq	8(%rdi), %rax
	addl	$7, %esi
	movq	56(%rdx), %r14
	cmpq	%rsi, %rax
	jbe	.LBB26_26
.LBB26_27:
	movq	(%rdi), %rax
	movq	%r14, (%rax,%rsi,8)
	jmp	.LBB26_28
.LBB26_3:
	shlq	$3, %rax
	addq	(%rdi), %rax
	movq	%rax, %rcx
	subq	%rdx, %rcx
	cmpq	$63, %rcx
	ja	.LBB26_5
	movq	(%rdx), %rcx
	movq	%rcx, (%rax)
	movq	8(%rdx), %rcx
	movq	%rcx, 8(%rax)
	movq	16(%rdx), %rcx
	movq	%rcx, 16(%rax)
	movq	24(%rdx), %rcx
	movq	%rcx, 24(%rax)
	movq	32(%rdx), %rcx
	movq	%rcx, 32(%rax)
	movq	40(%rdx), %rcx
	movq	%rcx, 40(%rax)
	movq	48(%rdx), %rcx
	movq	%rcx, 48(%rax)
	movq	56(%rdx), %rcx
	movq	%rcx, 56(%rax)
	jmp	.LBB26_28
.LBB26_5:
	movups	(%rdx), %xmm0
	movups	16(%rdx), %xmm1
	movups	32(%rdx), %xmm2
	movups	48(%rdx), %xmm3
	movups	%xmm3, 48(%rax)
	movups	%xmm2, 32(%rax)
	movups	%xmm1, 16(%rax)
	movups	%xmm0, (%rax)
.LBB26_28:
	addq	$8, %rsp
	popq	%rbx
	popq	%r12
	popq	%r14
	popq	%r15
	retq
.LBB26_6:
	movq	%rdi, %rbx
	movq	%rsi, %r15
	movq	%rax, %rsi
	movq	%rdx, %r12
	callq	"late_words::late_words::LateWords::pad"
	movq	%r15, %rsi
	movq	%rbx, %rdi
	movq	%r12, %rdx
	movq	(%rbx), %rax
	movq	8(%rbx), %rcx
	movq	%r14, (%rax,%rcx,8)
	incq	%rcx
	movq	%rcx, 8(%rbx)
	leal	1(%rsi), %eax
	movq	8(%rdx), %r14
	cmpq	%rax, %rcx
	ja	.LBB26_9
.LBB26_8:
	movq	%rdi, %rbx
	movq	%rsi, %r15
	movq	%rax, %rsi
	movq	%rdx, %r12
	callq	"late_words::late_words::LateWords::pad"
	movq	%r15, %rsi
	movq	%rbx, %rdi
	movq	%r12, %rdx
	movq	(%rbx), %rax
	movq	8(%rbx), %rcx
	movq	%r14, (%rax,%rcx,8)
	incq	%rcx
	movq	%rcx, 8(%rbx)
	leal	2(%rsi), %eax
	movq	16(%rdx), %r14
	cmpq	%rax, %rcx
	ja	.LBB26_12
.LBB26_11:
	movq	%rdi, %rbx
	movq	%rsi, %r15
	movq	%rax, %rsi
	movq	%rdx, %r12
	callq	"late_words::late_words::LateWords::pad"
	movq	%r15, %rsi
	movq	%rbx, %rdi
	movq	%r12, %rdx
	movq	(%rbx), %rax
	movq	8(%rbx), %rcx
	movq	%r14, (%rax,%rcx,8)
	incq	%rcx
	movq	%rcx, 8(%rbx)
	leal	3(%rsi), %eax
	movq	24(%rdx), %r14
	cmpq	%rax, %rcx
	ja	.LBB26_15
.LBB26_14:
	movq	%rdi, %rbx
	movq	%rsi, %r15
	movq	%rax, %rsi
	movq	%rdx, %r12
	callq	"late_words::late_words::LateWords::pad"
	movq	%r15, %rsi
	movq	%rbx, %rdi
	movq	%r12, %rdx
	movq	(%rbx), %rax
	movq	8(%rbx), %rcx
	movq	%r14, (%rax,%rcx,8)
	incq	%rcx
	movq	%rcx, 8(%rbx)
	leal	4(%rsi), %eax
	movq	32(%rdx), %r14
	cmpq	%rax, %rcx
	ja	.LBB26_18
.LBB26_17:
	movq	%rdi, %rbx
	movq	%rsi, %r15
	movq	%rax, %rsi
	movq	%rdx, %r12
	callq	"late_words::late_words::LateWords::pad"
	movq	%r15, %rsi
	movq	%rbx, %rdi
	movq	%r12, %rdx
	movq	(%rbx), %rax
	movq	8(%rbx), %rcx
	movq	%r14, (%rax,%rcx,8)
	incq	%rcx
	movq	%rcx, 8(%rbx)
	leal	5(%rsi), %eax
	movq	40(%rdx), %r14
	cmpq	%rax, %rcx
	ja	.LBB26_21
.LBB26_20:
	movq	%rdi, %rbx
	movq	%rsi, %r15
	movq	%rax, %rsi
	movq	%rdx, %r12
	callq	"late_words::late_words::LateWords::pad"
	movq	%r15, %rsi
	movq	%rbx, %rdi
	movq	%r12, %rdx
	movq	(%rbx), %rax
	movq	8(%rbx), %rcx
	movq	%r14, (%rax,%rcx,8)
	incq	%rcx
	movq	%rcx, 8(%rbx)
	leal	6(%rsi), %eax
	movq	48(%rdx), %r14
	cmpq	%rax, %rcx
	ja	.LBB26_24
.LBB26_23:
	movq	%rdi, %rbx
	movq	%rsi, %r15
	movq	%rax, %rsi
	movq	%rdx, %r12
	callq	"late_words::late_words::LateWords::pad"
	movq	%r15, %rsi
	movq	%rbx, %rdi
	movq	%r12, %rdx
	movq	(%rbx), %rcx
	movq	8(%rbx), %rax
	movq	%r14, (%rcx,%rax,8)
	incq	%rax
	movq	%rax, 8(%rbx)
	addl	$7, %esi
	movq	56(%rdx), %r14
	cmpq	%rsi, %rax
	ja	.LBB26_27
.LBB26_26:
	movq	%rdi, %rbx
	callq	"late_words::late_words::LateWords::pad"
	movq	(%rbx), %rax
	movq	8(%rbx), %rcx
	movq	%r14, (%rax,%rcx,8)
	incq	%rcx
	movq	%rcx, 8(%rbx)
	jmp	.LBB26_28
.Lfunc_end26:
	.size	"cache_c::seat_words::SeatWordsSegment::store_eight", .Lfunc_end26-"cache_c::seat_words::SeatWordsSegment::store_eight"

	.section	".text.value_image::bytes::put_bytes::<#dd204406e0587c1d>","ax",@progbits
	.p2align	4
	.type	"value_image::bytes::put_bytes::<#dd204406e0587c1d>",@function
"value_image::bytes::put_bytes::<#dd204406e0587c1d>":
	pushq	%rbp
	pushq	%r15
	pushq	%r14
	pushq	%r13
	pushq	%r12
	pushq	%rbx
	subq	$104, %rsp
	movq	%rcx, %rbp
	movq	%rdx, %r15
	movq	%rsi, (%rsp)
	movq	%rdi, %rbx
	movq	%rcx, %rax
	shrq	$3, %rax
	movq	%rax, 8(%rsp)
	movq	%rcx, 24(%rsp)
	shrq	$6, %rbp
	je	.LBB27_3
	leaq	(,%rbp,8), %r14
	movl	(%rsp), %r12d
	xorl	%r13d, %r13d
	.p2align	4
.LBB27_2:
	movups	(%r15,%r13,8), %xmm0
	movaps	%xmm0, 32(%rsp)
	movups	16(%r15,%r13,8), %xmm0
	movaps	%xmm0, 48(%rsp)
	movups	32(%r15,%r13,8), %xmm0
	movaps	%xmm0, 64(%rsp)
	movups	48(%r15,%r13,8), %xmm0
	movaps	%xmm0, 80(%rsp)
	leal	(%r12,%r13), %esi
	leaq	32(%rsp), %rdx
	movq	%rbx, %rdi
	callq	"cache_c::seat_words::SeatWordsSegment::store_eight"
	addq	$8, %r13
	cmpq	%r13, %r14
	jne	.LBB27_2
.LBB27_3:
	leaq	(,%rbp,8), %rax
	movq	8(%rsp), %r13
	subq	%rax, %r13
	jbe	.LBB27_9
	movq	%rbp, %rcx
	movq	(%rsp), %rax
	leal	(%rax,%rbp,8), %r14d
	shlq	$6, %rcx
	addq	%r15, %rcx
	xorl	%r12d, %r12d
	movq	%rcx, 16(%rsp)
	.p2align	4
.LBB27_5:
	leal	(%r14,%r12), %esi
	movq	(%rcx,%r12,8), %rbp
	cmpq	%rsi, 8(%rbx)
	jbe	.LBB27_7
	movq	(%rbx), %rax
	movq	%rbp, (%rax,%rsi,8)
	incq	%r12
	cmpq	%r12, %r13
	jne	.LBB27_5
	jmp	.LBB27_9
.LBB27_7:
	movq	%rbx, %rdi
	callq	"late_words::late_words::LateWords::pad"
	movq	(%rbx), %rax
	movq	8(%rbx), %rcx
	movq	%rbp, (%rax,%rcx,8)
	incq	%rcx
	movq	%rcx, 8(%rbx)
	movq	16(%rsp), %rcx
	incq	%r12
	cmpq	%r12, %r13
	jne	.LBB27_5
.LBB27_9:
	movq	24(%rsp), %rdx
	testb	$7, %dl
	je	.LBB27_31
	movabsq	$34359738360, %rax
	andq	%rdx, %rax
	movabsq	$-34359738361, %rcx
	andq	%rdx, %rcx
	cmpq	$8, %rcx
	jb	.LBB27_12
	movq	(%r15,%rax), %rcx
	movq	(%rsp), %rsi
	addl	8(%rsp), %esi
	cmpq	%rsi, 8(%rbx)
	ja	.LBB27_29
	jmp	.LBB27_30
.LBB27_12:
	cmpq	$7, %rdx
	movq	(%rsp), %rsi
	ja	.LBB27_27
	cmpq	$3, %rcx
	ja	.LBB27_20
	testq	%rcx, %rcx
	je	.LBB27_28
	cmpq	$1, %rcx
	jne	.LBB27_17
	movzbl	(%r15,%rax), %ecx
	addl	8(%rsp), %esi
	cmpq	%rsi, 8(%rbx)
	ja	.LBB27_29
	jmp	.LBB27_30
.LBB27_27:
	movq	-8(%r15,%rdx), %rax
	shll	$3, %ecx
	negb	%cl
	shrq	%cl, %rax
	movq	%rax, %rcx
	addl	8(%rsp), %esi
	cmpq	%rsi, 8(%rbx)
	ja	.LBB27_29
	jmp	.LBB27_30
.LBB27_20:
	movl	(%r15,%rax), %edx
	cmpq	$4, %rcx
	je	.LBB27_21
	cmpq	$5, %rcx
	jne	.LBB27_24
	movzbl	4(%r15,%rax), %edi
	jmp	.LBB27_26
.LBB27_21:
	xorl	%edi, %edi
	jmp	.LBB27_26
.LBB27_17:
	movzwl	(%r15,%rax), %edx
	cmpq	$2, %rcx
	jne	.LBB27_19
	movq	%rdx, %rcx
	addl	8(%rsp), %esi
	cmpq	%rsi, 8(%rbx)
	ja	.LBB27_29
	jmp	.LBB27_30
.LBB27_24:
	movzwl	4(%r15,%rax), %edi
	cmpq	$6, %rcx
	je	.LBB27_26
	movzbl	6(%r15,%rax), %eax
	shll	$16, %eax
	orq	%rax, %rdi
.LBB27_26:
	shlq	$32, %rdi
	orq	%rdx, %rdi
	movq	%rdi, %rcx
.LBB27_28:
	addl	8(%rsp), %esi
	cmpq	%rsi, 8(%rbx)
	jbe	.LBB27_30
.LBB27_29:
	movq	(%rbx), %rax
	movq	%rcx, (%rax,%rsi,8)
.LBB27_31:
	addq	$104, %rsp
	popq	%rbx
	popq	%r12
	popq	%r13
	popq	%r14
	popq	%r15
	popq	%rbp
	retq
.LBB27_19:
	movzbl	2(%r15,%rax), %ecx
	shll	$16, %ecx
	orq	%rdx, %rcx
	addl	8(%rsp), %esi
	cmpq	%rsi, 8(%rbx)
	ja	.LBB27_29
.LBB27_30:
	movq	%rbx, %rdi
	movq	%rcx, %r14
	callq	"late_words::late_words::LateWords::pad"
	movq	(%rbx), %rax
	movq	8(%rbx), %rcx
	movq	%r14, (%rax,%rcx,8)
	incq	%rcx
	movq	%rcx, 8(%rbx)
	jmp	.LBB27_31
.Lfunc_end27:
	.size	"value_image::bytes::put_bytes::<#dd204406e0587c1d>", .Lfunc_end27-"value_image::bytes::put_bytes::<#dd204406e0587c1d>"

	.section	".text.cache_core::finding::find_live_in::<#cb700d0c354f31d0>","ax",@progbits
	.p2align	4
	.type	"cache_core::finding::find_live_in::<#cb700d0c354f31d0>",@function
"cache_core::finding::find_live_in::<#cb700d0c354f31d0>":
	pushq	%rbp
	pushq	%r15
	pushq	%r14
	pushq	%r13
	pushq	%r12
	pushq	%rbx
	movq	%rcx, %r10
	movl	%r8d, %ebx
	movq	8(%rsi), %r8
	xorl	%ecx, %ecx
	movl	$0, %eax
	cmpq	%rbx, %r8
	jbe	.LBB28_65
	xorl	%ecx, %ecx
	testl	%edi, %edi
	je	.LBB28_64
	movq	(%rsi), %r11
	movl	(%r11,%rbx,8), %esi
	testl	%esi, %esi
	je	.LBB28_65
	movl	%r10d, %ecx
	shrl	$3, %ecx
	movl	%r10d, %eax
	andl	$7, %eax
	addl	$7, %eax
	shrl	$3, %eax
	addl	%ecx, %eax
	je	.LBB28_34
	movl	%eax, %ebx
	cmpq	$8, %r10
	jae	.LBB28_42
	shlq	$3, %rbx
	xorl	%ebp, %ebp
.LBB28_6:
	leal	2(%rsi), %eax
	cmpq	%rax, %r8
	jbe	.LBB28_8
	movq	(%r11,%rax,8), %rax
	cmpq	%r10, %rax
	je	.LBB28_9
	jmp	.LBB28_30
.LBB28_8:
	xorl	%eax, %eax
	cmpq	%r10, %rax
	jne	.LBB28_30
.LBB28_9:
	leal	12(%rsi), %eax
	xorl	%ecx, %ecx
	movq	%rdx, %r14
	.p2align	4
.LBB28_10:
	movl	%eax, %eax
	cmpq	%rax, %r8
	jbe	.LBB28_17
	movq	(%r11,%rax,8), %r15
	leaq	(%r10,%rcx), %r12
	cmpq	$7, %r12
	ja	.LBB28_18
.LBB28_12:
	cmpq	$4, %r12
	jae	.LBB28_19
	cmpq	$1, %r12
	je	.LBB28_22
	testq	%r12, %r12
	je	.LBB28_28
	leaq	(%r10,%rcx), %r13
	addq	$-2, %r13
	movzwl	(%r14), %r12d
	testq	%r13, %r13
	je	.LBB28_28
	movzbl	2(%r14), %r13d
	shll	$16, %r13d
	jmp	.LBB28_27
	.p2align	4
.LBB28_17:
	xorl	%r15d, %r15d
	leaq	(%r10,%rcx), %r12
	cmpq	$7, %r12
	jbe	.LBB28_12
.LBB28_18:
	movq	(%r14), %r12
	jmp	.LBB28_28
	.p2align	4
.LBB28_19:
	je	.LBB28_23
	cmpq	$5, %r12
	jne	.LBB28_24
	movzbl	4(%r14), %r12d
	jmp	.LBB28_26
.LBB28_22:
	movzbl	(%r14), %r12d
	jmp	.LBB28_28
.LBB28_23:
	xorl	%r12d, %r12d
	jmp	.LBB28_26
.LBB28_24:
	leaq	(%r10,%rcx), %r13
	addq	$-6, %r13
	movzwl	4(%r14), %r12d
	testq	%r13, %r13
	je	.LBB28_26
	movzbl	6(%r14), %r13d
	shll	$16, %r13d
	orq	%r13, %r12
.LBB28_26:
	movl	(%r14), %r13d
	shlq	$32, %r12
.LBB28_27:
	orq	%r13, %r12
.LBB28_28:
	cmpq	%r12, %r15
	jne	.LBB28_30
	addq	$-8, %rcx
	addq	$8, %r14
	incl	%eax
	movq	%rbx, %r15
	addq	%rcx, %r15
	jne	.LBB28_10
	jmp	.LBB28_55
	.p2align	4
.LBB28_30:
	incl	%esi
	cmpq	%rsi, %r8
	jbe	.LBB28_61
	incl	%ebp
	xorl	%ecx, %ecx
	cmpl	%edi, %ebp
	jae	.LBB28_64
	movl	(%r11,%rsi,8), %esi
	movl	$0, %eax
	testl	%esi, %esi
	jne	.LBB28_6
	jmp	.LBB28_65
.LBB28_34:
	movl	$1, %edx
	.p2align	4
.LBB28_35:
	leal	2(%rsi), %eax
	cmpq	%rax, %r8
	jbe	.LBB28_37
	movq	(%r11,%rax,8), %rax
	jmp	.LBB28_38
	.p2align	4
.LBB28_37:
	xorl	%eax, %eax
.LBB28_38:
	cmpq	%r10, %rax
	je	.LBB28_55
	incl	%esi
	cmpq	%rsi, %r8
	jbe	.LBB28_61
	xorl	%ecx, %ecx
	cmpl	%edi, %edx
	jae	.LBB28_64
	movl	(%r11,%rsi,8), %esi
	incl	%edx
	movl	$0, %eax
	testl	%esi, %esi
	jne	.LBB28_35
	jmp	.LBB28_65
.LBB28_42:
	leaq	(,%r10,8), %rax
	movl	$64, %ecx
	subq	%rax, %rcx
	movq	%rcx, -8(%rsp)
	xorl	%ebp, %ebp
	.p2align	4
.LBB28_43:
	leal	2(%rsi), %eax
	cmpq	%rax, %r8
	jbe	.LBB28_52
	cmpq	%r10, (%r11,%rax,8)
	jne	.LBB28_52
	leal	12(%rsi), %eax
	xorl	%r15d, %r15d
	movq	%r10, %r12
	movq	-8(%rsp), %rcx
	jmp	.LBB28_46
	.p2align	4
.LBB28_50:
	movq	(%rdx,%r15,8), %r14
	cmpq	%r14, %r13
	jne	.LBB28_52
.LBB28_51:
	incq	%r15
	addq	$64, %rcx
	addq	$-8, %r12
	cmpq	%r15, %rbx
	je	.LBB28_55
.LBB28_46:
	leal	(%rax,%r15), %r14d
	cmpq	%r14, %r8
	jbe	.LBB28_49
	movq	(%r11,%r14,8), %r13
	cmpq	$8, %r12
	jae	.LBB28_50
	jmp	.LBB28_48
	.p2align	4
.LBB28_49:
	xorl	%r13d, %r13d
	cmpq	$8, %r12
	jae	.LBB28_50
.LBB28_48:
	movq	-8(%rdx,%r10), %r14
	shrq	%cl, %r14
	cmpq	%r14, %r13
	je	.LBB28_51
	.p2align	4
.LBB28_52:
	incl	%esi
	cmpq	%rsi, %r8
	jbe	.LBB28_61
	incl	%ebp
	xorl	%ecx, %ecx
	cmpl	%edi, %ebp
	jae	.LBB28_64
	movl	(%r11,%rsi,8), %esi
	movl	$0, %eax
	testl	%esi, %esi
	jne	.LBB28_43
	jmp	.LBB28_65
.LBB28_55:
	leal	4(%rsi), %eax
	cmpq	%rax, %r8
	jbe	.LBB28_60
	movq	(%r11,%rax,8), %rdx
	testq	%rdx, %rdx
	je	.LBB28_60
	leal	5(%rsi), %eax
	cmpq	%rax, %r8
	jbe	.LBB28_59
	addq	(%r11,%rax,8), %rdx
	movq	$-1, %rax
	cmovbq	%rax, %rdx
.LBB28_59:
	xorl	%ecx, %ecx
	movl	$0, %eax
	cmpq	%r9, %rdx
	jb	.LBB28_65
.LBB28_60:
	movb	$1, %al
	movl	%esi, %ecx
	jmp	.LBB28_65
.LBB28_61:
	xorl	%ecx, %ecx
.LBB28_64:
	xorl	%eax, %eax
.LBB28_65:
	movl	%ecx, %edx
	popq	%rbx
	popq	%r12
	popq	%r13
	popq	%r14
	popq	%r15
	popq	%rbp
	retq
.Lfunc_end28:
	.size	"cache_core::finding::find_live_in::<#cb700d0c354f31d0>", .Lfunc_end28-"cache_core::finding::find_live_in::<#cb700d0c354f31d0>"

	.section	".text.cache_c::cache::Cache::row","ax",@progbits
	.p2align	4
	.type	"cache_c::cache::Cache::row",@function
"cache_c::cache::Cache::row":
	pushq	%rbp
	pushq	%r15
	pushq	%r14
	pushq	%r13
	pushq	%r12
	pushq	%rbx
	movl	%edx, -20(%rsp)
	movq	184(%rsi), %rbx
	movq	192(%rsi), %r14
	movl	%ecx, %eax
	xorl	%esi, %esi
	movl	$0, %r10d
	cmpq	%rax, %r14
	jbe	.LBB29_1
	movl	(%rbx,%rax,8), %r10d
	leal	2(%rcx), %eax
	cmpq	%rax, %r14
	ja	.LBB29_10
.LBB29_2:
	leal	4(%rcx), %eax
	xorl	%r8d, %r8d
	cmpq	%rax, %r14
	jbe	.LBB29_3
.LBB29_11:
	movl	(%rbx,%rax,8), %r8d
	leal	5(%rcx), %eax
	cmpq	%rax, %r14
	ja	.LBB29_4
.LBB29_12:
	movq	$0, -8(%rsp)
	leal	6(%rcx), %eax
	cmpq	%rax, %r14
	jbe	.LBB29_5
.LBB29_13:
	movq	(%rbx,%rax,8), %rax
	movq	%rax, -16(%rsp)
	leal	7(%rcx), %eax
	cmpq	%rax, %r14
	jbe	.LBB29_6
.LBB29_14:
	movq	(%rbx,%rax,8), %r11
	leal	8(%rcx), %eax
	cmpq	%rax, %r14
	jbe	.LBB29_7
.LBB29_15:
	movq	(%rbx,%rax,8), %r15
	leal	9(%rcx), %eax
	xorl	%r13d, %r13d
	cmpq	%rax, %r14
	jbe	.LBB29_8
.LBB29_16:
	movq	(%rbx,%rax,8), %r12
	jmp	.LBB29_17
.LBB29_1:
	leal	2(%rcx), %eax
	cmpq	%rax, %r14
	jbe	.LBB29_2
.LBB29_10:
	movl	(%rbx,%rax,8), %esi
	leal	4(%rcx), %eax
	xorl	%r8d, %r8d
	cmpq	%rax, %r14
	ja	.LBB29_11
.LBB29_3:
	leal	5(%rcx), %eax
	cmpq	%rax, %r14
	jbe	.LBB29_12
.LBB29_4:
	movq	(%rbx,%rax,8), %rax
	movq	%rax, -8(%rsp)
	leal	6(%rcx), %eax
	cmpq	%rax, %r14
	ja	.LBB29_13
.LBB29_5:
	movq	$0, -16(%rsp)
	leal	7(%rcx), %eax
	cmpq	%rax, %r14
	ja	.LBB29_14
.LBB29_6:
	xorl	%r11d, %r11d
	leal	8(%rcx), %eax
	cmpq	%rax, %r14
	ja	.LBB29_15
.LBB29_7:
	xorl	%r15d, %r15d
	leal	9(%rcx), %eax
	xorl	%r13d, %r13d
	cmpq	%rax, %r14
	ja	.LBB29_16
.LBB29_8:
	xorl	%r12d, %r12d
.LBB29_17:
	movl	%esi, %eax
	shrl	$3, %eax
	movl	%esi, %edx
	andl	$7, %edx
	addl	$7, %edx
	shrl	$3, %edx
	leal	12(%rcx), %ebp
	leal	(%rax,%rcx), %r9d
	addl	$12, %r9d
	addl	%edx, %r9d
	cmpq	%r9, %r14
	jbe	.LBB29_23
	movq	(%rbx,%r9,8), %rax
	movq	%rax, %rdx
	andq	$7, %rdx
	je	.LBB29_27
	cmpl	$1, %edx
	je	.LBB29_26
	cmpl	$2, %edx
	jne	.LBB29_28
	incl	%r9d
	movl	$2, %r13d
	cmpq	%r9, %r14
	jbe	.LBB29_23
	movq	(%rbx,%r9,8), %rdx
	xorl	%r9d, %r9d
	jmp	.LBB29_24
.LBB29_23:
	xorl	%r9d, %r9d
	xorl	%edx, %edx
.LBB29_24:
	xorl	%ebx, %ebx
.LBB29_25:
	movl	%ecx, (%rdi)
	movl	-20(%rsp), %eax
	movl	%eax, 4(%rdi)
	movl	%ebp, 8(%rdi)
	movl	%esi, 12(%rdi)
	movl	%r8d, 16(%rdi)
	movl	%r10d, 20(%rdi)
	movq	-8(%rsp), %rax
	movq	%rax, 24(%rdi)
	movq	-16(%rsp), %rax
	movq	%rax, 32(%rdi)
	movq	%r11, 40(%rdi)
	movq	%r15, 48(%rdi)
	movq	%r12, 56(%rdi)
	movl	%r13d, 64(%rdi)
	movl	%r9d, 68(%rdi)
	movq	%rdx, 72(%rdi)
	movq	%rbx, 80(%rdi)
	popq	%rbx
	popq	%r12
	popq	%r13
	popq	%r14
	popq	%r15
	popq	%rbp
	retq
.LBB29_26:
	xorl	%edx, %edx
	cmpq	$1, %rax
	setne	%dl
	xorl	%r9d, %r9d
	movl	$1, %r13d
	jmp	.LBB29_24
.LBB29_27:
	xorl	%r9d, %r9d
	movq	%rdx, %rbx
	jmp	.LBB29_25
.LBB29_28:
	shrq	$3, %rax
	incl	%r9d
	xorl	%r14d, %r14d
	xorl	%r13d, %r13d
	cmpq	$3, %rdx
	movl	%eax, %ebx
	setne	%r13b
	cmovneq	%r14, %rbx
	addl	$3, %r13d
	cmpl	$3, %edx
	cmovnel	%r14d, %r9d
	xorl	%edx, %edx
	jmp	.LBB29_25
.Lfunc_end29:
	.size	"cache_c::cache::Cache::row", .Lfunc_end29-"cache_c::cache::Cache::row"

	.section	.text.cache_hash_unchecked,"ax",@progbits
	.globl	cache_hash_unchecked
	.p2align	4
	.type	cache_hash_unchecked,@function
cache_hash_unchecked:
	movabsq	$-9223372036854775808, %rcx
	xorl	%r8d, %r8d
	testq	%rdi, %rdi
	sete	%al
	testq	%rsi, %rsi
	je	.LBB30_1
	movb	%al, %r8b
	shll	$12, %r8d
	movl	%esi, %edx
	andl	$3, %edx
	cmpq	$4, %rsi
	jae	.LBB30_4
	movl	$5381, %eax
	xorl	%r9d, %r9d
	jmp	.LBB30_7
.LBB30_1:
	orq	$5381, %rcx
	movq	%rcx, %rax
	retq
.LBB30_4:
	pushq	%rbx
	andq	$-4, %rsi
	leaq	(%r8,%rdi), %r10
	addq	$3, %r10
	movl	$5381, %eax
	xorl	%r9d, %r9d
	.p2align	4
.LBB30_5:
	movzbl	-3(%r10,%r9), %r11d
	movq	%rax, %rbx
	shlq	$5, %rbx
	addq	%rax, %rbx
	addq	%r11, %rbx
	movzbl	-2(%r10,%r9), %eax
	addq	%rbx, %rax
	shlq	$5, %rbx
	addq	%rbx, %rax
	movzbl	-1(%r10,%r9), %r11d
	addq	%rax, %r11
	shlq	$5, %rax
	addq	%rax, %r11
	movzbl	(%r10,%r9), %eax
	addq	%r11, %rax
	shlq	$5, %r11
	addq	%r11, %rax
	addq	$4, %r9
	cmpq	%r9, %rsi
	jne	.LBB30_5
	testq	%rdx, %rdx
	popq	%rbx
	je	.LBB30_9
.LBB30_7:
	addq	%r9, %rdi
	addq	%r8, %rdi
	xorl	%esi, %esi
	movq	%rax, %r8
	.p2align	4
.LBB30_8:
	movzbl	(%rdi,%rsi), %r9d
	shlq	$5, %rax
	addq	%r8, %rax
	addq	%r9, %rax
	incq	%rsi
	movq	%rax, %r8
	cmpq	%rsi, %rdx
	jne	.LBB30_8
.LBB30_9:
	orq	%rcx, %rax
	retq
.Lfunc_end30:
	.size	cache_hash_unchecked, .Lfunc_end30-cache_hash_unchecked

	.section	.text.cache_size,"ax",@progbits
	.globl	cache_size
	.p2align	4
	.type	cache_size,@function
cache_size:
	movl	$736, %eax
	retq
.Lfunc_end31:
	.size	cache_size, .Lfunc_end31-cache_size

	.section	.text.cache_count_unchecked,"ax",@progbits
	.globl	cache_count_unchecked
	.p2align	4
	.type	cache_count_unchecked,@function
cache_count_unchecked:
	pushq	%rbp
	pushq	%r15
	pushq	%r14
	pushq	%r13
	pushq	%r12
	pushq	%rbx
	pushq	%rax
	movq	%rcx, (%rsp)
	movq	%rdi, %r14
	xorl	%eax, %eax
	testq	%rsi, %rsi
	sete	%cl
	testq	%rdx, %rdx
	je	.LBB32_11
	movq	%r8, %r15
	movq	%rdx, %r12
	movq	%rsi, %r13
	movb	%cl, %al
	shll	$12, %eax
	addq	%rax, %r13
	xorl	%ebx, %ebx
	jmp	.LBB32_2
	.p2align	4
.LBB32_10:
	movq	%rax, 128(%r14)
	movq	152(%r14), %rax
	incq	%rax
	movq	$-1, %rcx
	cmovneq	%rax, %rcx
	movq	%rcx, 152(%r14)
	incq	%rbx
	cmpq	%rbx, %r12
	je	.LBB32_11
.LBB32_2:
	movl	(%r13,%rbx,4), %ebp
	leal	9(%rbp), %esi
	cmpq	%rsi, 192(%r14)
	jbe	.LBB32_4
	movq	184(%r14), %rax
	movq	(%rax,%rsi,8), %rcx
	incq	%rcx
	movq	$-1, %rdx
	cmovneq	%rcx, %rdx
	movq	%rdx, (%rax,%rsi,8)
	movq	192(%r14), %rax
	addl	$7, %ebp
	cmpq	%rbp, %rax
	jbe	.LBB32_7
.LBB32_6:
	movq	184(%r14), %rax
	movq	%r15, (%rax,%rbp,8)
	movq	128(%r14), %rax
	movl	124(%r14), %ecx
	testq	%rcx, %rcx
	je	.LBB32_10
.LBB32_9:
	addq	%r15, %rcx
	movq	$-1, %rdx
	cmovaeq	%rcx, %rdx
	cmpq	%rax, %rdx
	cmovbq	%rdx, %rax
	jmp	.LBB32_10
.LBB32_4:
	leaq	184(%r14), %rdi
	callq	"late_words::late_words::LateWords::pad"
	movq	184(%r14), %rcx
	movq	192(%r14), %rax
	movq	$1, (%rcx,%rax,8)
	incq	%rax
	movq	%rax, 192(%r14)
	addl	$7, %ebp
	cmpq	%rbp, %rax
	ja	.LBB32_6
.LBB32_7:
	leaq	184(%r14), %rdi
	movq	%rbp, %rsi
	callq	"late_words::late_words::LateWords::pad"
	movq	184(%r14), %rax
	movq	192(%r14), %rcx
	movq	%r15, (%rax,%rcx,8)
	incq	%rcx
	movq	%rcx, 192(%r14)
	movq	128(%r14), %rax
	movl	124(%r14), %ecx
	testq	%rcx, %rcx
	jne	.LBB32_9
	jmp	.LBB32_10
.LBB32_11:
	movq	(%rsp), %rcx
	addq	160(%r14), %rcx
	movq	$-1, %rax
	cmovaeq	%rcx, %rax
	movq	%rax, 160(%r14)
	movb	$1, %al
	addq	$8, %rsp
	popq	%rbx
	popq	%r12
	popq	%r13
	popq	%r14
	popq	%r15
	popq	%rbp
	retq
.Lfunc_end32:
	.size	cache_count_unchecked, .Lfunc_end32-cache_count_unchecked

	.section	.text.cache_copy_unchecked,"ax",@progbits
	.globl	cache_copy_unchecked
	.p2align	4
	.type	cache_copy_unchecked,@function
cache_copy_unchecked:
	movl	208(%rdi), %eax
	subl	%esi, %eax
	setb	%r8b
	movq	%rcx, %r9
	shrq	$32, %r9
	setne	%r9b
	orb	%r8b, %r9b
	je	.LBB33_2
	xorl	%eax, %eax
	retq
.LBB33_2:
	movl	%ecx, %r8d
	shrl	$3, %r8d
	movl	%ecx, %r9d
	andl	$7, %r9d
	addl	$7, %r9d
	shrl	$3, %r9d
	addl	%r8d, %r9d
	cmpl	%r9d, %eax
	jae	.LBB33_4
	xorl	%eax, %eax
	retq
.LBB33_4:
	pushq	%rbp
	pushq	%r15
	pushq	%r14
	pushq	%r13
	pushq	%r12
	pushq	%rbx
	subq	$40, %rsp
	movq	%rsi, 16(%rsp)
	movq	184(%rdi), %r8
	movq	192(%rdi), %rdi
	movq	%rcx, %rax
	shrq	$3, %rax
	movq	%rax, 8(%rsp)
	movq	%rcx, 24(%rsp)
	movq	%rcx, %rax
	shrq	$6, %rax
	je	.LBB33_33
	leaq	(,%rax,8), %rcx
	movl	16(%rsp), %r11d
	xorl	%ebx, %ebx
	jmp	.LBB33_6
	.p2align	4
.LBB33_7:
	movq	(%r8,%rsi,8), %r14
	movq	8(%r8,%rsi,8), %r15
	movq	16(%r8,%rsi,8), %r12
	movq	24(%r8,%rsi,8), %r13
	movq	32(%r8,%rsi,8), %rbp
	movq	40(%r8,%rsi,8), %r9
	movq	48(%r8,%rsi,8), %r10
	movq	56(%r8,%rsi,8), %rsi
.LBB33_32:
	movq	%r14, (%rdx,%rbx,8)
	movq	%r15, 8(%rdx,%rbx,8)
	movq	%r12, 16(%rdx,%rbx,8)
	movq	%r13, 24(%rdx,%rbx,8)
	movq	%rbp, 32(%rdx,%rbx,8)
	movq	%r9, 40(%rdx,%rbx,8)
	movq	%r10, 48(%rdx,%rbx,8)
	movq	%rsi, 56(%rdx,%rbx,8)
	addq	$8, %rbx
	cmpq	%rbx, %rcx
	je	.LBB33_33
.LBB33_6:
	leal	(%r11,%rbx), %esi
	leaq	8(%rsi), %r9
	cmpq	%rdi, %r9
	jbe	.LBB33_7
	cmpq	%rsi, %rdi
	jbe	.LBB33_9
	movq	(%r8,%rsi,8), %r14
	leal	(%r11,%rbx), %esi
	incl	%esi
	cmpq	%rsi, %rdi
	ja	.LBB33_13
.LBB33_12:
	xorl	%r15d, %r15d
	leal	(%r11,%rbx), %esi
	addl	$2, %esi
	cmpq	%rsi, %rdi
	ja	.LBB33_16
.LBB33_15:
	xorl	%r12d, %r12d
	leal	(%r11,%rbx), %esi
	addl	$3, %esi
	cmpq	%rsi, %rdi
	ja	.LBB33_19
.LBB33_18:
	xorl	%r13d, %r13d
	leal	(%r11,%rbx), %esi
	addl	$4, %esi
	cmpq	%rsi, %rdi
	ja	.LBB33_22
.LBB33_21:
	xorl	%ebp, %ebp
	leal	(%r11,%rbx), %esi
	addl	$5, %esi
	cmpq	%rsi, %rdi
	ja	.LBB33_25
.LBB33_24:
	xorl	%r9d, %r9d
	leal	(%r11,%rbx), %esi
	addl	$6, %esi
	cmpq	%rsi, %rdi
	ja	.LBB33_28
.LBB33_27:
	xorl	%r10d, %r10d
	leal	(%r11,%rbx), %esi
	addl	$7, %esi
	cmpq	%rsi, %rdi
	ja	.LBB33_31
.LBB33_30:
	xorl	%esi, %esi
	jmp	.LBB33_32
	.p2align	4
.LBB33_9:
	xorl	%r14d, %r14d
	leal	(%r11,%rbx), %esi
	incl	%esi
	cmpq	%rsi, %rdi
	jbe	.LBB33_12
.LBB33_13:
	movq	(%r8,%rsi,8), %r15
	leal	(%r11,%rbx), %esi
	addl	$2, %esi
	cmpq	%rsi, %rdi
	jbe	.LBB33_15
.LBB33_16:
	movq	(%r8,%rsi,8), %r12
	leal	(%r11,%rbx), %esi
	addl	$3, %esi
	cmpq	%rsi, %rdi
	jbe	.LBB33_18
.LBB33_19:
	movq	(%r8,%rsi,8), %r13
	leal	(%r11,%rbx), %esi
	addl	$4, %esi
	cmpq	%rsi, %rdi
	jbe	.LBB33_21
.LBB33_22:
	movq	(%r8,%rsi,8), %rbp
	leal	(%r11,%rbx), %esi
	addl	$5, %esi
	cmpq	%rsi, %rdi
	jbe	.LBB33_24
.LBB33_25:
	movq	(%r8,%rsi,8), %r9
	leal	(%r11,%rbx), %esi
	addl	$6, %esi
	cmpq	%rsi, %rdi
	jbe	.LBB33_27
.LBB33_28:
	movq	(%r8,%rsi,8), %r10
	leal	(%r11,%rbx), %esi
	addl	$7, %esi
	cmpq	%rsi, %rdi
	jbe	.LBB33_30
.LBB33_31:
	movq	(%r8,%rsi,8), %rsi
	jmp	.LBB33_32
.LBB33_33:
	shlq	$3, %rax
	cmpq	8(%rsp), %rax
	movq	24(%rsp), %r11
	movq	16(%rsp), %rbx
	jae	.LBB33_48
	movq	%rax, %rcx
	orq	$1, %rcx
	testb	$8, %r11b
	je	.LBB33_39
	addl	%ebx, %eax
	cmpq	%rax, %rdi
	jbe	.LBB33_36
	movq	(%r8,%rax,8), %rax
	jmp	.LBB33_38
.LBB33_36:
	xorl	%eax, %eax
.LBB33_38:
	movl	%r11d, %esi
	andl	$-64, %esi
	movq	%rax, (%rdx,%rsi)
	movq	%rcx, %rax
.LBB33_39:
	cmpq	%rcx, 8(%rsp)
	jne	.LBB33_40
.LBB33_48:
	movq	%r11, %rax
	andq	$7, %rax
	je	.LBB33_53
	addl	8(%rsp), %ebx
	cmpq	%rbx, %rdi
	jbe	.LBB33_50
	movq	(%r8,%rbx,8), %rcx
	jmp	.LBB33_52
.LBB33_50:
	xorl	%ecx, %ecx
.LBB33_52:
	andl	$-8, %r11d
	addq	%r11, %rdx
	movq	%rcx, 32(%rsp)
	leaq	32(%rsp), %rsi
	movq	%rdx, %rdi
	movq	%rax, %rdx
	callq	memcpy@PLT
.LBB33_53:
	movb	$1, %al
	addq	$40, %rsp
	popq	%rbx
	popq	%r12
	popq	%r13
	popq	%r14
	popq	%r15
	popq	%rbp
	retq
.LBB33_40:
	movq	%rax, %rsi
	subq	8(%rsp), %rsi
	leaq	(%rdx,%rax,8), %r9
	addl	%ebx, %eax
	movl	$1, %r10d
	jmp	.LBB33_41
	.p2align	4
.LBB33_46:
	movq	(%r8,%rcx,8), %rcx
.LBB33_47:
	movq	%rcx, (%r9,%r10,8)
	leaq	(%rsi,%r10), %rcx
	addq	$2, %rcx
	addq	$2, %r10
	addl	$2, %eax
	cmpq	$1, %rcx
	je	.LBB33_48
.LBB33_41:
	movl	%eax, %eax
	cmpq	%rax, %rdi
	jbe	.LBB33_42
	movq	(%r8,%rax,8), %rcx
	movq	%rcx, -8(%r9,%r10,8)
	leal	1(%rax), %ecx
	cmpq	%rcx, %rdi
	ja	.LBB33_46
	jmp	.LBB33_45
	.p2align	4
.LBB33_42:
	xorl	%ecx, %ecx
	movq	%rcx, -8(%r9,%r10,8)
	leal	1(%rax), %ecx
	cmpq	%rcx, %rdi
	ja	.LBB33_46
.LBB33_45:
	xorl	%ecx, %ecx
	jmp	.LBB33_47
.Lfunc_end33:
	.size	cache_copy_unchecked, .Lfunc_end33-cache_copy_unchecked

	.section	.text.cache_get_counts_unchecked,"ax",@progbits
	.globl	cache_get_counts_unchecked
	.p2align	4
	.type	cache_get_counts_unchecked,@function
cache_get_counts_unchecked:
	movq	%rdi, %rax
	movups	152(%rsi), %xmm0
	movups	168(%rsi), %xmm1
	movl	120(%rsi), %ecx
	movl	4(%rsi), %edi
	movl	16(%rsi), %edx
	movl	(%rsi), %r8d
	addl	%edx, %r8d
	subl	%r8d, %edi
	movl	104(%rsi), %r9d
	testl	%r9d, %r9d
	je	.LBB34_6
	movq	184(%rsi), %r8
	movq	192(%rsi), %rsi
	.p2align	4
.LBB34_2:
	movl	%r9d, %r9d
	xorl	%r10d, %r10d
	cmpq	%r9, %rsi
	jbe	.LBB34_4
	movl	(%r8,%r9,8), %r10d
.LBB34_4:
	subl	%r10d, %edi
	incl	%r9d
	cmpq	%r9, %rsi
	jbe	.LBB34_6
	movl	(%r8,%r9,8), %r9d
	testl	%r9d, %r9d
	jne	.LBB34_2
.LBB34_6:
	movl	%edi, %esi
	movups	%xmm0, (%rax)
	movups	%xmm1, 16(%rax)
	movq	%rcx, 32(%rax)
	movq	%rsi, 40(%rax)
	movq	%rdx, 48(%rax)
	retq
.Lfunc_end34:
	.size	cache_get_counts_unchecked, .Lfunc_end34-cache_get_counts_unchecked

	.section	.text.cache_let_go_unchecked,"ax",@progbits
	.globl	cache_let_go_unchecked
	.p2align	4
	.type	cache_let_go_unchecked,@function
cache_let_go_unchecked:
	cmpl	$63, %esi
	ja	.LBB35_5
	movl	%esi, %eax
	movl	$0, 216(%rdi,%rax,4)
	xorl	%eax, %eax
	.p2align	4
.LBB35_2:
	movl	216(%rdi,%rax,4), %ecx
	testl	%ecx, %ecx
	jne	.LBB35_4
	cmpq	$63, %rax
	leaq	1(%rax), %rax
	jne	.LBB35_2
.LBB35_4:
	testl	%ecx, %ecx
	setne	472(%rdi)
	movl	$64, 476(%rdi)
.LBB35_5:
	cmpl	$64, %esi
	setb	%al
	retq
.Lfunc_end35:
	.size	cache_let_go_unchecked, .Lfunc_end35-cache_let_go_unchecked

	.section	.text.cache_list_gaps_unchecked,"ax",@progbits
	.globl	cache_list_gaps_unchecked
	.p2align	4
	.type	cache_list_gaps_unchecked,@function
cache_list_gaps_unchecked:
	pushq	%rbp
	pushq	%r15
	pushq	%r14
	pushq	%r13
	pushq	%r12
	pushq	%rbx
	pushq	%rax
	movq	%rcx, (%rsp)
	testq	%rcx, %rcx
	je	.LBB36_1
	movq	%rdx, %r15
	movl	%esi, %ebp
	movq	%rdi, %r12
	xorl	%ebx, %ebx
	jmp	.LBB36_3
	.p2align	4
.LBB36_20:
	shrl	%ecx
	andl	$-2, %ecx
	movl	%ecx, %ebp
	je	.LBB36_23
.LBB36_21:
	movl	%eax, (%r15,%rbx,8)
	movl	%ebp, 4(%r15,%rbx,8)
	addl	%eax, %ebp
	incq	%rbx
	cmpq	%rbx, (%rsp)
	je	.LBB36_22
.LBB36_3:
	movl	4(%r12), %eax
	subl	%ebp, %eax
	jbe	.LBB36_23
	cmpl	$2, %eax
	jb	.LBB36_23
	movq	184(%r12), %r13
	movq	192(%r12), %r14
	movl	%ebp, %r8d
	movl	%ebp, %eax
	shrl	%eax
	subq	%rax, %r8
	testb	$1, %r8b
	je	.LBB36_10
	movq	24(%r12), %rax
	movq	%r8, %rcx
	andq	$-2, %rcx
	movl	(%rax,%rcx,2), %eax
	movl	%eax, %ecx
	andl	$3, %ecx
	cmpl	$2, %ecx
	je	.LBB36_9
	testl	%ecx, %ecx
	jne	.LBB36_10
	cmpl	$4, %eax
	jae	.LBB36_9
	.p2align	4
.LBB36_10:
	shrq	%r8
	movq	64(%r12), %rdi
	movq	72(%r12), %rsi
	movq	88(%r12), %rdx
	movq	96(%r12), %rcx
	callq	"max_tree::words::last_before"
	cmpb	$1, %al
	jne	.LBB36_15
	movq	24(%r12), %rax
	xorl	%ecx, %ecx
	testb	$3, (%rax,%rdx,4)
	setne	%cl
	leaq	(%rcx,%rdx,2), %r8
	addl	%r8d, %r8d
	incq	%r8
	cmpq	%r8, %r14
	jbe	.LBB36_13
.LBB36_14:
	movq	(%r13,%r8,8), %rax
	cmpl	%eax, %ebp
	jbe	.LBB36_17
	jmp	.LBB36_23
	.p2align	4
.LBB36_15:
	movl	12(%r12), %eax
	cmpl	%eax, %ebp
	jbe	.LBB36_17
	jmp	.LBB36_23
	.p2align	4
.LBB36_9:
	decq	%r8
	addl	%r8d, %r8d
	incq	%r8
	cmpq	%r8, %r14
	ja	.LBB36_14
.LBB36_13:
	xorl	%eax, %eax
	cmpl	%eax, %ebp
	ja	.LBB36_23
.LBB36_17:
	movq	24(%r12), %rcx
	movl	%eax, %edx
	andl	$-4, %edx
	movl	(%rcx,%rdx), %ecx
	movl	%eax, %edx
	shrl	%edx
	andl	$1, %edx
	movl	%ecx, %esi
	andl	$3, %esi
	cmpl	%edx, %esi
	je	.LBB36_20
	cmpl	$2, %esi
	jne	.LBB36_23
	movl	$2, %ebp
	testl	%edx, %edx
	jne	.LBB36_20
	jmp	.LBB36_21
.LBB36_1:
	xorl	%ebx, %ebx
	jmp	.LBB36_23
.LBB36_22:
	movq	(%rsp), %rbx
.LBB36_23:
	movq	%rbx, %rax
	addq	$8, %rsp
	popq	%rbx
	popq	%r12
	popq	%r13
	popq	%r14
	popq	%r15
	popq	%rbp
	retq
.Lfunc_end36:
	.size	cache_list_gaps_unchecked, .Lfunc_end36-cache_list_gaps_unchecked

	.section	.text.cache_new_unchecked,"ax",@progbits
	.globl	cache_new_unchecked
	.p2align	4
	.type	cache_new_unchecked,@function
cache_new_unchecked:
	pushq	%rbp
	pushq	%r15
	pushq	%r14
	pushq	%r13
	pushq	%r12
	pushq	%rbx
	subq	$1896, %rsp
	movq	%rsi, %r14
	movq	%rdi, %r15
	xorps	%xmm0, %xmm0
	movaps	%xmm0, 112(%rsp)
	movaps	%xmm0, 128(%rsp)
	movaps	%xmm0, 144(%rsp)
	movaps	%xmm0, 160(%rsp)
	movaps	%xmm0, 176(%rsp)
	movaps	%xmm0, 192(%rsp)
	movq	$0, 208(%rsp)
	movaps	%xmm0, 624(%rsp)
	movaps	%xmm0, 640(%rsp)
	movaps	%xmm0, 656(%rsp)
	movaps	%xmm0, 672(%rsp)
	movaps	%xmm0, 688(%rsp)
	movaps	%xmm0, 704(%rsp)
	movups	%xmm0, 719(%rsp)
	movaps	%xmm0, 224(%rsp)
	movaps	%xmm0, 240(%rsp)
	movaps	%xmm0, 256(%rsp)
	movaps	%xmm0, 272(%rsp)
	movaps	%xmm0, 288(%rsp)
	movaps	%xmm0, 304(%rsp)
	movq	$0, 320(%rsp)
	movaps	%xmm0, 336(%rsp)
	movaps	%xmm0, 352(%rsp)
	leaq	1608(%rsp), %rdi
	xorl	%ebx, %ebx
	movl	$288, %edx
	xorl	%esi, %esi
	callq	memset@PLT
	xorps	%xmm0, %xmm0
	movaps	%xmm0, 368(%rsp)
	movaps	%xmm0, 384(%rsp)
	movaps	%xmm0, 400(%rsp)
	movaps	%xmm0, 416(%rsp)
	movaps	%xmm0, 432(%rsp)
	movaps	%xmm0, 448(%rsp)
	movaps	%xmm0, 464(%rsp)
	movaps	%xmm0, 480(%rsp)
	movaps	%xmm0, 496(%rsp)
	movaps	%xmm0, 512(%rsp)
	movaps	%xmm0, 528(%rsp)
	movaps	%xmm0, 544(%rsp)
	movaps	%xmm0, 560(%rsp)
	movaps	%xmm0, 576(%rsp)
	movaps	%xmm0, 592(%rsp)
	movaps	%xmm0, 608(%rsp)
	movl	(%r15), %ebp
	movl	4(%r15), %esi
	movl	8(%r15), %r13d
	movl	12(%r15), %r15d
	leal	-1(%r15), %eax
	cmpl	$63, %eax
	ja	.LBB37_2
	leal	(%r15,%r15), %ecx
	movl	%ebp, %eax
	xorl	%edx, %edx
	divl	%ecx
	testl	%edx, %edx
	sete	%bl
.LBB37_2:
	testl	%r15d, %r15d
	je	.LBB37_8
	leal	-2(%rsi), %eax
	cmpl	$1048574, %eax
	ja	.LBB37_8
	leal	-32(%rbp), %eax
	cmpl	$268435424, %eax
	ja	.LBB37_8
	testb	%bl, %bl
	je	.LBB37_8
	testb	$1, %sil
	jne	.LBB37_8
	leal	16(%rsi), %ecx
	movl	%ebp, %eax
	xorl	%edx, %edx
	divl	%r15d
	cmpl	%eax, %ecx
	jbe	.LBB37_9
.LBB37_8:
	movl	$1, %eax
.LBB37_63:
	addq	$1896, %rsp
	popq	%rbx
	popq	%r12
	popq	%r13
	popq	%r14
	popq	%r15
	popq	%rbp
	retq
.LBB37_9:
	movl	%eax, %ebx
	movq	%rsi, 8(%rsp)
	leaq	(,%rbp,8), %rdi
	movl	$8, %esi
	callq	rattle_alloc@PLT
	testb	$1, %al
	movq	%r14, 104(%rsp)
	je	.LBB37_32
	movq	%rdx, (%rsp)
	movq	%rdx, 1056(%rsp)
	movq	$0, 1064(%rsp)
	movq	%rbp, 1072(%rsp)
	movl	%ebp, 1080(%rsp)
	movl	$0, 1084(%rsp)
	movl	%ebp, %edi
	shrl	$2, %edi
	movl	%ebp, %eax
	andl	$3, %eax
	cmpl	$1, %eax
	sbbq	$-1, %rdi
	movq	%rdi, 96(%rsp)
	callq	"max_tree::levels::shape_for"
	leaq	16(%rsp), %rcx
	testq	%rdx, %rdx
	movq	%rax, 88(%rsp)
	movq	%rcx, 48(%rsp)
	je	.LBB37_11
	movq	%rdx, %rax
	shrq	$61, %rax
	jne	.LBB37_31
	leaq	(,%rdx,4), %r12
	movl	$4, %esi
	movq	%r12, %rdi
	movq	%rdx, 24(%rsp)
	callq	rattle_alloc@PLT
	movq	24(%rsp), %rcx
	testb	$1, %al
	je	.LBB37_31
	movl	%r13d, 20(%rsp)
	cmpq	$1, %rcx
	movq	%rdx, 32(%rsp)
	jne	.LBB37_16
	xorl	%eax, %eax
	jmp	.LBB37_17
.LBB37_11:
	movq	%rdx, 24(%rsp)
	movl	%r13d, 20(%rsp)
	movq	$0, 72(%rsp)
	movq	%rcx, 32(%rsp)
	jmp	.LBB37_18
.LBB37_16:
	addq	$-4, %r12
	movq	%rdx, %rdi
	xorl	%esi, %esi
	movq	%r12, %rdx
	callq	memset@PLT
	movq	32(%rsp), %rdx
	movq	24(%rsp), %rax
	decq	%rax
.LBB37_17:
	movl	$0, (%rdx,%rax,4)
	incq	%rax
	movq	%rax, 72(%rsp)
.LBB37_18:
	movl	%ebx, 44(%rsp)
	movq	96(%rsp), %rbx
	leaq	63(%rbx), %rdi
	shrq	$6, %rdi
	movq	%rdi, %r13
	callq	"max_tree::words::shape_for"
	movq	%rax, 80(%rsp)
	testq	%rdx, %rdx
	je	.LBB37_19
	movq	%rdx, %rax
	shrq	$60, %rax
	jne	.LBB37_29
	leaq	(,%rdx,8), %r12
	movl	$8, %esi
	movq	%r12, %rdi
	movq	%rdx, 64(%rsp)
	callq	rattle_alloc@PLT
	movq	64(%rsp), %rcx
	testb	$1, %al
	je	.LBB37_29
	movq	%rbp, 56(%rsp)
	cmpq	$1, %rcx
	movq	%rdx, 48(%rsp)
	jne	.LBB37_27
	xorl	%ebp, %ebp
	jmp	.LBB37_28
.LBB37_29:
	cmpq	$0, 24(%rsp)
	movq	32(%rsp), %rdi
	je	.LBB37_31
	callq	rattle_dealloc@PLT
.LBB37_31:
	movq	(%rsp), %rdi
	callq	rattle_dealloc@PLT
.LBB37_32:
	movl	$2, %ebp
	xorl	%r13d, %r13d
	movq	$0, 56(%rsp)
	movq	$0, 8(%rsp)
	movl	$0, 20(%rsp)
	movq	$0, (%rsp)
	xorl	%r12d, %r12d
	xorl	%r15d, %r15d
	xorl	%ebx, %ebx
.LBB37_61:
	movq	320(%rsp), %rax
	movq	%rax, 208(%rsp)
	movaps	304(%rsp), %xmm0
	movaps	%xmm0, 192(%rsp)
	movaps	288(%rsp), %xmm0
	movaps	%xmm0, 176(%rsp)
	movaps	224(%rsp), %xmm0
	movaps	240(%rsp), %xmm1
	movaps	256(%rsp), %xmm2
	movaps	272(%rsp), %xmm3
	movaps	%xmm3, 160(%rsp)
	movaps	%xmm2, 144(%rsp)
	movaps	%xmm1, 128(%rsp)
	movaps	%xmm0, 112(%rsp)
	movaps	336(%rsp), %xmm0
	movaps	352(%rsp), %xmm1
	movaps	%xmm0, 736(%rsp)
	movaps	%xmm1, 752(%rsp)
	leaq	768(%rsp), %rdi
	leaq	1608(%rsp), %rsi
	movl	$288, %edx
	callq	memcpy@PLT
	leaq	1056(%rsp), %rdi
	leaq	368(%rsp), %rsi
	movl	$256, %edx
	callq	memcpy@PLT
	testb	%r13b, %r13b
	movl	%ebp, %eax
	je	.LBB37_63
	movq	208(%rsp), %rax
	movq	104(%rsp), %r14
	movq	%rax, 96(%r14)
	movaps	192(%rsp), %xmm0
	movups	%xmm0, 80(%r14)
	movaps	176(%rsp), %xmm0
	movups	%xmm0, 64(%r14)
	movaps	112(%rsp), %xmm0
	movaps	128(%rsp), %xmm1
	movaps	144(%rsp), %xmm2
	movaps	160(%rsp), %xmm3
	movups	%xmm3, 48(%r14)
	movups	%xmm2, 32(%r14)
	movups	%xmm1, 16(%r14)
	movups	%xmm0, (%r14)
	movq	$0, 104(%r14)
	movq	%r12, 112(%r14)
	movl	$0, 120(%r14)
	movl	20(%rsp), %ecx
	movl	%ecx, 124(%r14)
	movq	%r15, 128(%r14)
	movq	56(%rsp), %rax
	movl	%eax, 136(%r14)
	movq	8(%rsp), %rax
	movl	%eax, 140(%r14)
	movl	%ecx, 144(%r14)
	movq	(%rsp), %rax
	movl	%eax, 148(%r14)
	movaps	736(%rsp), %xmm0
	movaps	752(%rsp), %xmm1
	movups	%xmm0, 152(%r14)
	movups	%xmm1, 168(%r14)
	leaq	184(%r14), %rdi
	leaq	768(%rsp), %rsi
	movl	$288, %edx
	callq	memcpy@PLT
	movl	$0, 472(%r14)
	movl	%ebx, 476(%r14)
	addq	$480, %r14
	leaq	1056(%rsp), %rsi
	movl	$256, %edx
	movq	%r14, %rdi
	callq	memcpy@PLT
	xorl	%eax, %eax
	jmp	.LBB37_63
.LBB37_19:
	movq	%rdx, 64(%rsp)
	movq	%rbp, 56(%rsp)
	xorl	%ebp, %ebp
	movq	8(%rsp), %rcx
	movq	(%rsp), %rdi
	movq	%r13, %r14
	jmp	.LBB37_20
.LBB37_27:
	movq	%rcx, %r14
	addq	$-8, %r12
	movq	48(%rsp), %rdi
	xorl	%esi, %esi
	movq	%r12, %rdx
	callq	memset@PLT
	movq	48(%rsp), %rdx
	leaq	-1(%r14), %rbp
.LBB37_28:
	movq	8(%rsp), %rcx
	movq	%r13, %r14
	movq	$0, (%rdx,%rbp,8)
	incq	%rbp
	movq	(%rsp), %rdi
.LBB37_20:
	movq	72(%rsp), %r13
	xorl	%r8d, %r8d
	xorl	%r12d, %r12d
	.p2align	4
.LBB37_21:
	cmpq	%r12, %r8
	jbe	.LBB37_33
	movq	$0, (%rdi,%r12,8)
	incq	%r12
	cmpq	%r12, %rcx
	jne	.LBB37_21
	jmp	.LBB37_35
.LBB37_33:
	leaq	1056(%rsp), %rdi
	movq	%r12, %rsi
	callq	"late_words::late_words::LateWords::pad"
	movq	8(%rsp), %rcx
	movq	1056(%rsp), %rdi
	movq	1064(%rsp), %r8
	movq	$0, (%rdi,%r8,8)
	incq	%r8
	movq	%r8, 1064(%rsp)
	incq	%r12
	cmpq	%r12, %rcx
	jne	.LBB37_21
.LBB37_35:
	movq	%r15, (%rsp)
	movq	$0, 784(%rsp)
	movl	1080(%rsp), %r15d
	movq	32(%rsp), %rax
	movq	%rax, 792(%rsp)
	movq	%r13, 800(%rsp)
	movq	24(%rsp), %rax
	movq	%rax, 808(%rsp)
	movq	88(%rsp), %rax
	movq	%rax, 824(%rsp)
	movq	48(%rsp), %rax
	movq	%rax, 832(%rsp)
	movq	%rbp, 840(%rsp)
	movq	64(%rsp), %rax
	movq	%rax, 848(%rsp)
	movq	%r14, 856(%rsp)
	movq	80(%rsp), %rax
	movq	%rax, 864(%rsp)
	movl	%ecx, 768(%rsp)
	movl	%r15d, 772(%rsp)
	movl	44(%rsp), %eax
	movl	%eax, 776(%rsp)
	movl	$0, 780(%rsp)
	movq	%rbx, 816(%rsp)
	cmpl	%r15d, %ecx
	jae	.LBB37_60
	xorl	%ebp, %ebp
	xorl	%r12d, %r12d
	jmp	.LBB37_37
	.p2align	4
.LBB37_47:
	movq	%r8, %r14
	xorl	%esi, %esi
	cmpl	%ebp, %r15d
	leal	(%rax,%r13,2), %ecx
	cmovel	%esi, %ecx
.LBB37_59:
	movl	%ebp, %esi
	shrl	$2, %esi
	leaq	792(%rsp), %rdi
	callq	"max_tree::row::MaxRow::change"
	addl	%r13d, %r12d
	movl	%r12d, 784(%rsp)
	movl	%ebp, 780(%rsp)
	movl	%ebp, %r15d
	movq	8(%rsp), %rcx
	cmpl	%ebp, %ecx
	movq	%rbx, %rdi
	movq	%r14, %r8
	jae	.LBB37_60
.LBB37_37:
	movl	%ebp, %r14d
	movq	%rcx, %rsi
	movl	%ecx, %ebp
	movq	(%rsp), %rax
	cmpl	56(%rsp), %eax
	ja	.LBB37_39
	leal	-1(%r15), %esi
	movl	%esi, %eax
	xorl	%edx, %edx
	divl	44(%rsp)
	subl	%edx, %esi
	cmpl	%esi, %ecx
	cmoval	%ecx, %esi
	movl	%esi, %ebp
.LBB37_39:
	movl	%r15d, %r13d
	subl	%ebp, %r13d
	leaq	1(%r13), %rbx
	cmpq	%rsi, %r8
	jbe	.LBB37_41
	movq	%rbx, (%rdi,%rsi,8)
	movl	%r14d, %r14d
	leal	1(%rbp), %esi
	cmpq	%rsi, %r8
	jbe	.LBB37_44
.LBB37_43:
	movq	1056(%rsp), %rbx
	movq	%r14, (%rbx,%rsi,8)
.LBB37_45:
	movl	%ebp, %eax
	shrl	%eax
	movl	%ebp, %ecx
	andl	$-4, %ecx
	movq	32(%rsp), %rdx
	movl	(%rdx,%rcx), %edx
	andl	$1, %eax
	testl	%edx, %edx
	je	.LBB37_47
	movl	%edx, %esi
	andl	$3, %esi
	cmpl	%eax, %esi
	je	.LBB37_47
	movl	%edx, %ecx
	shrl	%ecx
	andl	$-2, %ecx
	testl	%eax, %eax
	jne	.LBB37_52
	movq	%r8, %r14
	addl	$-3, %esi
	cmpl	$-2, %esi
	setae	%al
	testl	%ecx, %ecx
	setne	%sil
	testb	%sil, %al
	jne	.LBB37_51
	leal	(,%r13,2), %ecx
	jmp	.LBB37_59
.LBB37_52:
	testl	%esi, %esi
	je	.LBB37_56
	cmpl	$2, %esi
	jne	.LBB37_55
	movl	$2, %ecx
.LBB37_56:
	movq	%r8, %r14
	cmpl	%ebp, %r15d
	jne	.LBB37_58
.LBB37_57:
	addl	%ecx, %ecx
	jmp	.LBB37_59
.LBB37_51:
	xorl	%eax, %eax
	cmpl	%ebp, %r15d
	sete	%al
	addl	%ecx, %ecx
	subl	%eax, %ecx
	addl	$2, %ecx
	jmp	.LBB37_59
.LBB37_55:
	xorl	%ecx, %ecx
	movq	%r8, %r14
	cmpl	%ebp, %r15d
	je	.LBB37_57
.LBB37_58:
	testl	%ecx, %ecx
	leal	1(%r13,%r13), %eax
	leal	2(%r13,%r13), %ecx
	cmovel	%eax, %ecx
	jmp	.LBB37_59
.LBB37_41:
	leaq	1056(%rsp), %rdi
	callq	"late_words::late_words::LateWords::pad"
	movq	1056(%rsp), %rax
	movq	1064(%rsp), %r8
	movq	%rbx, (%rax,%r8,8)
	incq	%r8
	movq	%r8, 1064(%rsp)
	movl	%r14d, %r14d
	leal	1(%rbp), %esi
	cmpq	%rsi, %r8
	ja	.LBB37_43
.LBB37_44:
	leaq	1056(%rsp), %rdi
	callq	"late_words::late_words::LateWords::pad"
	movq	1056(%rsp), %rbx
	movq	1064(%rsp), %r8
	movq	%r14, (%rbx,%r8,8)
	incq	%r8
	movq	%r8, 1064(%rsp)
	jmp	.LBB37_45
.LBB37_60:
	movups	1056(%rsp), %xmm0
	movups	1072(%rsp), %xmm1
	movaps	%xmm1, 1328(%rsp)
	movaps	%xmm0, 1312(%rsp)
	xorps	%xmm0, %xmm0
	movaps	%xmm0, 1344(%rsp)
	movaps	%xmm0, 1360(%rsp)
	movaps	%xmm0, 1376(%rsp)
	movaps	%xmm0, 1392(%rsp)
	movaps	%xmm0, 1408(%rsp)
	movaps	%xmm0, 1424(%rsp)
	movaps	%xmm0, 1440(%rsp)
	movaps	%xmm0, 1456(%rsp)
	movaps	%xmm0, 1472(%rsp)
	movaps	%xmm0, 1488(%rsp)
	movaps	%xmm0, 1504(%rsp)
	movaps	%xmm0, 1520(%rsp)
	movaps	%xmm0, 1536(%rsp)
	movaps	%xmm0, 1552(%rsp)
	movaps	%xmm0, 1568(%rsp)
	movaps	%xmm0, 1584(%rsp)
	xorps	%xmm6, %xmm6
	movq	864(%rsp), %rax
	movq	%rax, 727(%rsp)
	movups	848(%rsp), %xmm0
	movups	%xmm0, 711(%rsp)
	movups	832(%rsp), %xmm1
	movups	%xmm1, 695(%rsp)
	movups	768(%rsp), %xmm2
	movups	784(%rsp), %xmm3
	movups	800(%rsp), %xmm4
	movups	816(%rsp), %xmm5
	movups	%xmm5, 679(%rsp)
	movups	%xmm4, 663(%rsp)
	movups	%xmm3, 647(%rsp)
	movups	%xmm2, 631(%rsp)
	movq	%rax, 320(%rsp)
	movaps	%xmm0, 304(%rsp)
	movaps	%xmm1, 288(%rsp)
	movaps	%xmm5, 272(%rsp)
	movaps	%xmm4, 256(%rsp)
	movaps	%xmm3, 240(%rsp)
	movaps	%xmm2, 224(%rsp)
	movaps	%xmm6, 352(%rsp)
	movaps	%xmm6, 336(%rsp)
	leaq	1608(%rsp), %rdi
	leaq	1312(%rsp), %rsi
	movl	$288, %edx
	callq	memcpy@PLT
	xorps	%xmm0, %xmm0
	movaps	%xmm0, 368(%rsp)
	movaps	%xmm0, 384(%rsp)
	movaps	%xmm0, 400(%rsp)
	movaps	%xmm0, 416(%rsp)
	movaps	%xmm0, 432(%rsp)
	movaps	%xmm0, 448(%rsp)
	movaps	%xmm0, 464(%rsp)
	movaps	%xmm0, 480(%rsp)
	movaps	%xmm0, 496(%rsp)
	movaps	%xmm0, 512(%rsp)
	movaps	%xmm0, 528(%rsp)
	movaps	%xmm0, 544(%rsp)
	movaps	%xmm0, 560(%rsp)
	movaps	%xmm0, 576(%rsp)
	movaps	%xmm0, 592(%rsp)
	movaps	%xmm0, 608(%rsp)
	xorl	%ebp, %ebp
	movl	$64, %ebx
	movq	$-1, %r15
	movl	$1, %r12d
	movb	$1, %r13b
	jmp	.LBB37_61
.Lfunc_end37:
	.size	cache_new_unchecked, .Lfunc_end37-cache_new_unchecked

	.section	.text.cache_ask_unchecked,"ax",@progbits
	.globl	cache_ask_unchecked
	.p2align	4
	.type	cache_ask_unchecked,@function
cache_ask_unchecked:
	pushq	%rbp
	pushq	%r15
	pushq	%r14
	pushq	%r13
	pushq	%r12
	pushq	%rbx
	subq	$232, %rsp
	movq	%rdi, %rbx
	movq	288(%rsp), %rdi
	xorl	%r14d, %r14d
	testq	%rcx, %rcx
	sete	%bpl
	xorl	%r10d, %r10d
	testq	%r9, %r9
	sete	%r11b
	movq	%rdi, %rax
	orq	%r8, %rax
	shrq	$32, %rax
	jne	.LBB38_5
	movq	40(%rdx), %r15
	movl	(%rsi), %r12d
	cmpq	$4096, %r12
	je	.LBB38_9
	testl	%r12d, %r12d
	je	.LBB38_141
	movq	%rdx, %r13
	movq	%r15, %rax
	shrq	$32, %rax
	je	.LBB38_10
	movq	%r15, %rax
	xorl	%edx, %edx
	divq	%r12
	movq	%rdx, %r15
	jmp	.LBB38_11
.LBB38_5:
	xorl	%eax, %eax
	movl	$10, %edx
.LBB38_6:
	xorl	%r14d, %r14d
.LBB38_7:
	xorl	%ecx, %ecx
.LBB38_8:
	movl	%edx, (%rbx)
	movl	%eax, 4(%rbx)
	movq	%r14, 8(%rbx)
	movq	%rcx, 16(%rbx)
	movq	%rbx, %rax
	addq	$232, %rsp
	popq	%rbx
	popq	%r12
	popq	%r13
	popq	%r14
	popq	%r15
	popq	%rbp
	retq
.LBB38_9:
	andl	$4095, %r15d
	jmp	.LBB38_12
.LBB38_10:
	movl	%r15d, %eax
	xorl	%edx, %edx
	divl	%r12d
	movl	%edx, %r15d
.LBB38_11:
	movq	%r13, %rdx
.LBB38_12:
	movb	%bpl, %r14b
	shll	$12, %r14d
	addq	%r14, %rcx
	movl	(%rdx), %eax
	cmpl	$8, %eax
	jne	.LBB38_20
	movq	16(%rdx), %r9
	movq	24(%rdx), %r14
	movq	32(%rdx), %r12
	xorps	%xmm0, %xmm0
	movaps	%xmm0, 80(%rsp)
	movaps	%xmm0, 64(%rsp)
	leaq	64(%rsp), %rdi
	movq	%rsi, %r13
	movq	%rcx, %rdx
	movq	%r8, %rcx
	movl	%r15d, %r8d
	callq	"cache_c::cache::Cache::look"
	movl	64(%rsp), %edx
	movq	80(%rsp), %rcx
	cmpq	$63, %r14
	ja	.LBB38_24
	cmpl	$3, %edx
	jne	.LBB38_24
	cmpq	%rcx, %r12
	ja	.LBB38_24
	movl	88(%rsp), %eax
	movl	%eax, 216(%r13,%r14,4)
	xorl	%eax, %eax
	.p2align	4
.LBB38_17:
	movl	216(%r13,%rax,4), %edx
	testl	%edx, %edx
	jne	.LBB38_19
	cmpq	$63, %rax
	leaq	1(%rax), %rax
	jne	.LBB38_17
.LBB38_19:
	testl	%edx, %edx
	setne	472(%r13)
	movl	$64, 476(%r13)
	movl	68(%rsp), %eax
	movl	$3, %edx
	movq	72(%rsp), %r14
	jmp	.LBB38_8
.LBB38_20:
	xorps	%xmm0, %xmm0
	movaps	%xmm0, 208(%rsp)
	movaps	%xmm0, 192(%rsp)
	jae	.LBB38_61
	movb	%r11b, %r10b
	shll	$12, %r10d
	addq	%r10, %r9
	movq	16(%rdx), %rbp
	movl	8(%rdx), %r12d
	movq	24(%rdx), %r14
	movl	%eax, %eax
	leaq	.LJTI38_0(%rip), %r10
	movslq	(%r10,%rax,4), %rax
	addq	%r10, %rax
	jmpq	*%rax
.LBB38_22:
	movl	4(%rdx), %eax
	cmpq	$3, %rax
	jne	.LBB38_62
	movl	$64, 476(%rsi)
	leaq	184(%rsi), %rax
	movq	$1, 64(%rsp)
	movq	%r9, 72(%rsp)
	movq	%rdi, 80(%rsp)
	jmp	.LBB38_77
.LBB38_24:
	movl	68(%rsp), %eax
	movq	72(%rsp), %r14
	jmp	.LBB38_8
.LBB38_25:
	movl	$64, 476(%rsi)
	leaq	184(%rsi), %r12
	movaps	%xmm0, 64(%rsp)
	movl	144(%rsi), %eax
	movq	%rbp, 8(%rsp)
	movl	%eax, (%rsp)
	leaq	64(%rsp), %rdi
	movq	%rsi, %r13
	movq	%r12, %rdx
	movl	%r15d, %r9d
	callq	"entry_slots::slots::EntrySlots::seek::<#feb48aca4256a9fc>"
	movl	72(%rsp), %eax
	testl	%eax, %eax
	je	.LBB38_88
	leal	4(%rax), %ecx
	movq	192(%r13), %rdx
	cmpq	%rcx, %rdx
	jbe	.LBB38_31
	movq	(%r12), %rsi
	movq	(%rsi,%rcx,8), %rcx
	testq	%rcx, %rcx
	je	.LBB38_31
	addl	$5, %eax
	cmpq	%rax, %rdx
	jbe	.LBB38_30
	addq	(%rsi,%rax,8), %rcx
	movq	$-1, %rax
	cmovbq	%rax, %rcx
.LBB38_30:
	cmpq	%rbp, %rcx
	jb	.LBB38_88
.LBB38_31:
	movaps	64(%rsp), %xmm0
	movaps	%xmm0, 160(%rsp)
	leaq	160(%rsp), %rdx
	movq	%r13, %rdi
	movq	%r12, %rsi
	movq	%rbp, %rcx
	callq	"ttl_expunge::expunge::drop_row_at::<#dd204406e0587c1d>"
	jmp	.LBB38_42
.LBB38_32:
	leaq	192(%rsp), %rdi
	movq	%rcx, %rdx
	movq	%r8, %rcx
	movl	%r15d, %r8d
	movq	%rbp, %r9
	callq	"cache_c::cache::Cache::look"
	movl	192(%rsp), %edx
	movl	196(%rsp), %eax
	movq	200(%rsp), %r14
	movq	208(%rsp), %rcx
	jmp	.LBB38_8
.LBB38_33:
	movq	%rbp, 136(%rsp)
	movl	%r15d, %eax
	movq	192(%rsi), %rdx
	movq	%rdx, 40(%rsp)
	cmpq	%rax, %rdx
	jbe	.LBB38_88
	movl	120(%rsi), %edx
	movl	%edx, 128(%rsp)
	testl	%edx, %edx
	je	.LBB38_88
	addq	$184, %rsi
	movq	(%rsi), %rdx
	movq	%rdx, 48(%rsp)
	movl	(%rdx,%rax,8), %r15d
	testl	%r15d, %r15d
	je	.LBB38_88
	movl	$1, %r14d
.LBB38_37:
	movq	%rsi, %r13
	movq	%rsi, %rdi
	movl	%r15d, %esi
	movq	%rcx, %rbp
	movq	%rcx, %rdx
	movq	%r8, %r12
	movq	%r8, %rcx
	callq	"entry_slots::reading::has_key_at::<#feb48aca4256a9fc>"
	testb	%al, %al
	jne	.LBB38_83
	incl	%r15d
	cmpq	%r15, 40(%rsp)
	jbe	.LBB38_88
	cmpl	128(%rsp), %r14d
	jae	.LBB38_88
	movq	%r13, %rsi
	movq	%r12, %r8
	movq	%rbp, %rcx
	movq	48(%rsp), %rax
	movl	(%rax,%r15,8), %r15d
	incl	%r14d
	testl	%r15d, %r15d
	jne	.LBB38_37
	jmp	.LBB38_88
.LBB38_41:
	movl	$64, 476(%rsi)
	leaq	184(%rsi), %rax
	movq	%rsi, %rdi
	movq	%rsi, %r14
	movq	%rax, %rsi
	movq	%rbp, %rdx
	callq	"ttl_expunge::at_once::expunge_at_once::<#dd204406e0587c1d>"
	xorps	%xmm0, %xmm0
	movups	%xmm0, 168(%r14)
	movups	%xmm0, 152(%r14)
.LBB38_42:
	xorl	%eax, %eax
	movl	$7, %edx
	jmp	.LBB38_6
.LBB38_43:
	movl	4(%rdx), %eax
	cmpq	$3, %rax
	jne	.LBB38_66
	movl	$64, 476(%rsi)
	leaq	184(%rsi), %rax
	movq	$1, 64(%rsp)
	movq	%r9, 72(%rsp)
	movq	%rdi, 80(%rsp)
	jmp	.LBB38_80
.LBB38_45:
	movl	$64, 476(%rsi)
	leaq	184(%rsi), %rdx
	movaps	%xmm0, 144(%rsp)
	movq	%rsi, 40(%rsp)
	movl	120(%rsi), %esi
	movq	%rbp, (%rsp)
	leaq	144(%rsp), %rdi
	movq	%rdx, %r13
	movq	%rcx, 48(%rsp)
	movq	%r8, 128(%rsp)
	movl	%r15d, %r9d
	callq	"counter_entry::looking::look_for::<#feb48aca4256a9fc>"
	movzbl	144(%rsp), %eax
	testl	%eax, %eax
	je	.LBB38_70
	cmpl	$2, %eax
	jne	.LBB38_72
	movl	148(%rsp), %r15d
	leal	2(%r15), %esi
	movq	40(%rsp), %rax
	movq	192(%rax), %rcx
	xorl	%edx, %edx
	cmpq	%rsi, %rcx
	jbe	.LBB38_49
	movq	(%r13), %rdx
	movl	(%rdx,%rsi,8), %edx
.LBB38_49:
	addq	152(%rsp), %r14
	movl	%edx, %esi
	shrl	$3, %esi
	andl	$7, %edx
	addl	$7, %edx
	shrl	$3, %edx
	addl	%r15d, %esi
	addl	%edx, %esi
	addl	$13, %esi
	cmpq	%rsi, %rcx
	jbe	.LBB38_139
	movq	184(%rax), %rcx
	movq	%r14, (%rcx,%rsi,8)
	movq	192(%rax), %rcx
	addl	$6, %r15d
	cmpq	%r15, %rcx
	jbe	.LBB38_140
.LBB38_51:
	movq	(%r13), %rax
	movq	%rbp, (%rax,%r15,8)
.LBB38_52:
	xorl	%eax, %eax
	movl	$2, %edx
	jmp	.LBB38_7
.LBB38_53:
	movq	32(%rdx), %rax
	movq	%rax, 40(%rsp)
	movl	$64, 476(%rsi)
	leaq	184(%rsi), %r12
	movq	%rsi, %r13
	movl	120(%rsi), %esi
	movaps	%xmm0, 64(%rsp)
	movq	%rbp, (%rsp)
	leaq	64(%rsp), %rdi
	movq	%r12, %rdx
	movl	%r15d, %r9d
	callq	"counter_entry::looking::look_for::<#feb48aca4256a9fc>"
	cmpb	$2, 64(%rsp)
	movl	$6, %edx
	jne	.LBB38_82
	cmpq	%r14, 72(%rsp)
	jne	.LBB38_82
	movl	68(%rsp), %r15d
	leal	2(%r15), %esi
	movq	%r13, %rax
	movq	192(%r13), %rcx
	xorl	%edx, %edx
	cmpq	%rsi, %rcx
	jbe	.LBB38_57
	movq	(%r12), %rdx
	movl	(%rdx,%rsi,8), %edx
.LBB38_57:
	movl	%edx, %esi
	shrl	$3, %esi
	andl	$7, %edx
	addl	$7, %edx
	shrl	$3, %edx
	addl	%r15d, %esi
	addl	%edx, %esi
	addl	$13, %esi
	cmpq	%rsi, %rcx
	jbe	.LBB38_137
	movq	184(%rax), %rcx
	movq	40(%rsp), %rdx
	movq	%rdx, (%rcx,%rsi,8)
	movq	192(%rax), %rcx
	addl	$6, %r15d
	cmpq	%r15, %rcx
	jbe	.LBB38_138
.LBB38_59:
	movq	(%r12), %rax
	movq	%rbp, (%rax,%r15,8)
.LBB38_60:
	movl	$7, %edx
	xorl	%eax, %eax
	jmp	.LBB38_6
.LBB38_61:
	xorl	%eax, %eax
	movl	$9, %edx
	jmp	.LBB38_6
.LBB38_62:
	movq	$0, 64(%rsp)
	testq	%rax, %rax
	je	.LBB38_75
	cmpl	$2, %eax
	je	.LBB38_73
	movl	$9, %edx
	cmpl	$1, %eax
	jne	.LBB38_82
	testq	%r14, %r14
	setne	%dl
	movb	$3, %dil
	xorl	%eax, %eax
	jmp	.LBB38_76
.LBB38_66:
	movq	$0, 64(%rsp)
	testq	%rax, %rax
	je	.LBB38_78
	cmpl	$2, %eax
	je	.LBB38_74
	movl	$9, %edx
	cmpl	$1, %eax
	jne	.LBB38_82
	testq	%r14, %r14
	setne	%dl
	movb	$3, %dil
	xorl	%eax, %eax
	jmp	.LBB38_79
.LBB38_70:
	movq	$2, 64(%rsp)
	movq	%r14, 136(%rsp)
	movq	%r14, 72(%rsp)
	xorps	%xmm0, %xmm0
	movups	%xmm0, 80(%rsp)
	leaq	56(%rsp), %rax
	movq	%rax, 96(%rsp)
	movups	%xmm0, 104(%rsp)
	movq	$2, 120(%rsp)
	movq	$0, 160(%rsp)
	leaq	64(%rsp), %rax
	movq	%rax, 168(%rsp)
	movq	$0, 176(%rsp)
	movq	%rbp, 16(%rsp)
	movl	%r12d, (%rsp)
	movl	$0, 8(%rsp)
	leaq	160(%rsp), %r9
	movq	40(%rsp), %rdi
	movq	%r13, %rsi
	movq	48(%rsp), %rdx
	movq	128(%rsp), %rcx
	movl	%r15d, %r8d
	callq	"cache_core::cache::Core::store_content::<#dd204406e0587c1d>"
	movb	%al, 39(%rsp)
	movzbl	64(%rsp), %eax
	movq	72(%rsp), %r13
	movq	80(%rsp), %r15
	movq	88(%rsp), %r12
	movq	96(%rsp), %rbp
	movq	104(%rsp), %rcx
	movq	%rcx, 40(%rsp)
	movq	112(%rsp), %rcx
	movq	%rcx, 184(%rsp)
	leaq	.LJTI38_1(%rip), %rcx
	movslq	(%rcx,%rax,4), %rax
	addq	%rcx, %rax
	jmpq	*%rax
.LBB38_71:
	testb	%r13b, %r13b
	sete	%al
	testl	$256, %r13d
	sete	%cl
	orb	%al, %cl
	je	.LBB38_107
	jmp	.LBB38_109
.LBB38_72:
	xorl	%eax, %eax
	movl	$8, %edx
	jmp	.LBB38_6
.LBB38_73:
	movb	$4, %dil
	xorl	%edx, %edx
	movq	%r14, %rax
	jmp	.LBB38_76
.LBB38_74:
	movb	$4, %dil
	xorl	%edx, %edx
	movq	%r14, %rax
	jmp	.LBB38_79
.LBB38_75:
	movb	$2, %dil
	xorl	%edx, %edx
.LBB38_76:
	movb	%dil, 64(%rsp)
	movb	%dl, 65(%rsp)
	movq	%rax, 72(%rsp)
	movq	$0, 80(%rsp)
	movl	$64, 476(%rsi)
	leaq	184(%rsi), %rax
.LBB38_77:
	movq	%rbp, 16(%rsp)
	movl	%r12d, (%rsp)
	movl	$0, 8(%rsp)
	jmp	.LBB38_81
.LBB38_78:
	movb	$2, %dil
	xorl	%edx, %edx
.LBB38_79:
	movb	%dil, 64(%rsp)
	movb	%dl, 65(%rsp)
	movq	%rax, 72(%rsp)
	movq	$0, 80(%rsp)
	movl	$64, 476(%rsi)
	leaq	184(%rsi), %rax
.LBB38_80:
	movq	%rbp, 16(%rsp)
	movl	%r12d, (%rsp)
	movl	$1, 8(%rsp)
.LBB38_81:
	leaq	64(%rsp), %r9
	movq	%rsi, %rdi
	movq	%rax, %rsi
	movq	%rcx, %rdx
	movq	%r8, %rcx
	movl	%r15d, %r8d
	callq	"cache_core::cache::Core::store_content::<#dd204406e0587c1d>"
	xorl	%edx, %edx
	cmpb	$3, %al
	sete	%dl
	orl	$6, %edx
.LBB38_82:
	xorl	%eax, %eax
	jmp	.LBB38_6
.LBB38_83:
	leal	4(%r15), %eax
	movl	$7, %edx
	cmpq	%rax, 40(%rsp)
	jbe	.LBB38_82
	movq	48(%rsp), %rcx
	movq	(%rcx,%rax,8), %rax
	testq	%rax, %rax
	je	.LBB38_82
	addl	$5, %r15d
	cmpq	%r15, 40(%rsp)
	jbe	.LBB38_87
	movq	48(%rsp), %rcx
	addq	(%rcx,%r15,8), %rax
	movq	$-1, %rcx
	cmovbq	%rcx, %rax
.LBB38_87:
	movq	136(%rsp), %rcx
	cmpq	%rcx, %rax
	jae	.LBB38_82
.LBB38_88:
	xorl	%eax, %eax
	movl	$6, %edx
	jmp	.LBB38_6
.LBB38_89:
	testq	%r15, %r15
	je	.LBB38_96
	leaq	16(%r13), %r14
	jmp	.LBB38_92
.LBB38_91:
	addq	$32, %r14
	decq	%r15
	je	.LBB38_96
.LBB38_92:
	cmpb	$0, -16(%r14)
	je	.LBB38_91
	cmpb	$0, -8(%r14)
	je	.LBB38_91
	testb	$1, -7(%r14)
	je	.LBB38_91
	movq	(%r14), %rdi
	callq	rattle_dealloc@PLT
	jmp	.LBB38_91
.LBB38_96:
	testq	%r12, %r12
	je	.LBB38_109
	movq	%r13, %rdi
	jmp	.LBB38_108
.LBB38_98:
	testb	%r13b, %r13b
	sete	%al
	testl	$256, %r13d
	sete	%cl
	orb	%al, %cl
	jne	.LBB38_100
	movq	%r15, %rdi
	callq	rattle_dealloc@PLT
.LBB38_100:
	movq	(%r12), %r15
	movq	8(%r12), %r13
	movq	16(%r12), %r14
	movq	%r12, %rdi
	callq	rattle_dealloc@PLT
	testq	%r13, %r13
	je	.LBB38_106
	movq	%r15, %r12
	jmp	.LBB38_103
.LBB38_102:
	addq	$24, %r12
	decq	%r13
	je	.LBB38_106
.LBB38_103:
	cmpb	$0, (%r12)
	je	.LBB38_102
	testb	$1, 1(%r12)
	je	.LBB38_102
	movq	8(%r12), %rdi
	callq	rattle_dealloc@PLT
	jmp	.LBB38_102
.LBB38_106:
	testq	%r14, %r14
	je	.LBB38_109
.LBB38_107:
	movq	%r15, %rdi
.LBB38_108:
	callq	rattle_dealloc@PLT
.LBB38_109:
	cmpq	$0, 40(%rsp)
	je	.LBB38_134
	xorl	%r14d, %r14d
	movq	%rbp, 48(%rsp)
	jmp	.LBB38_115
.LBB38_111:
	cmpq	$0, 128(%rsp)
	je	.LBB38_114
.LBB38_112:
	movq	%r15, %rdi
.LBB38_113:
	callq	rattle_dealloc@PLT
.LBB38_114:
	incq	%r14
	cmpq	40(%rsp), %r14
	je	.LBB38_134
.LBB38_115:
	leaq	(%r14,%r14,4), %rax
	movzbl	(%rbp,%rax,8), %ecx
	movq	8(%rbp,%rax,8), %r13
	movq	16(%rbp,%rax,8), %r15
	movq	24(%rbp,%rax,8), %r12
	leaq	.LJTI38_2(%rip), %rax
	movslq	(%rax,%rcx,4), %rcx
	addq	%rax, %rcx
	jmpq	*%rcx
.LBB38_116:
	testb	%r13b, %r13b
	sete	%al
	testl	$256, %r13d
	sete	%cl
	orb	%al, %cl
	je	.LBB38_112
	jmp	.LBB38_114
.LBB38_117:
	testq	%r15, %r15
	je	.LBB38_124
	leaq	16(%r13), %rbp
	jmp	.LBB38_120
	.p2align	4
.LBB38_119:
	addq	$32, %rbp
	decq	%r15
	je	.LBB38_124
.LBB38_120:
	cmpb	$0, -16(%rbp)
	je	.LBB38_119
	cmpb	$0, -8(%rbp)
	je	.LBB38_119
	testb	$1, -7(%rbp)
	je	.LBB38_119
	movq	(%rbp), %rdi
	callq	rattle_dealloc@PLT
	jmp	.LBB38_119
.LBB38_124:
	testq	%r12, %r12
	movq	48(%rsp), %rbp
	je	.LBB38_114
	movq	%r13, %rdi
	jmp	.LBB38_113
.LBB38_126:
	testb	%r13b, %r13b
	sete	%al
	testl	$256, %r13d
	sete	%cl
	orb	%al, %cl
	jne	.LBB38_128
	movq	%r15, %rdi
	callq	rattle_dealloc@PLT
.LBB38_128:
	movq	(%r12), %r15
	movq	8(%r12), %r13
	movq	16(%r12), %rax
	movq	%rax, 128(%rsp)
	movq	%r12, %rdi
	callq	rattle_dealloc@PLT
	testq	%r13, %r13
	je	.LBB38_111
	movq	%r15, %r12
	jmp	.LBB38_131
	.p2align	4
.LBB38_130:
	addq	$24, %r12
	decq	%r13
	je	.LBB38_111
.LBB38_131:
	cmpb	$0, (%r12)
	je	.LBB38_130
	testb	$1, 1(%r12)
	je	.LBB38_130
	movq	8(%r12), %rdi
	callq	rattle_dealloc@PLT
	jmp	.LBB38_130
.LBB38_134:
	cmpq	$0, 184(%rsp)
	je	.LBB38_136
	movq	%rbp, %rdi
	callq	rattle_dealloc@PLT
.LBB38_136:
	xorl	%eax, %eax
	cmpb	$3, 39(%rsp)
	movl	$2, %ecx
	movl	$8, %edx
	cmovel	%ecx, %edx
	movq	136(%rsp), %r14
	cmovneq	%rax, %r14
	jmp	.LBB38_7
.LBB38_137:
	movq	%r12, %rdi
	callq	"late_words::late_words::LateWords::pad"
	movq	%r13, %rax
	movq	184(%r13), %rdx
	movq	192(%r13), %rcx
	movq	40(%rsp), %rsi
	movq	%rsi, (%rdx,%rcx,8)
	incq	%rcx
	movq	%rcx, 192(%r13)
	addl	$6, %r15d
	cmpq	%r15, %rcx
	ja	.LBB38_59
.LBB38_138:
	movq	%r12, %rdi
	movq	%rax, %r14
	movq	%r15, %rsi
	callq	"late_words::late_words::LateWords::pad"
	movq	184(%r14), %rax
	movq	192(%r14), %rcx
	movq	%rbp, (%rax,%rcx,8)
	incq	%rcx
	movq	%rcx, 192(%r14)
	jmp	.LBB38_60
.LBB38_139:
	movq	%r13, %rdi
	callq	"late_words::late_words::LateWords::pad"
	movq	40(%rsp), %rax
	movq	184(%rax), %rdx
	movq	192(%rax), %rcx
	movq	%r14, (%rdx,%rcx,8)
	incq	%rcx
	movq	%rcx, 192(%rax)
	addl	$6, %r15d
	cmpq	%r15, %rcx
	ja	.LBB38_51
.LBB38_140:
	movq	%r13, %rdi
	movq	%r14, %r12
	movq	%rax, %r14
	movq	%r15, %rsi
	callq	"late_words::late_words::LateWords::pad"
	movq	184(%r14), %rax
	movq	192(%r14), %rcx
	movq	%rbp, (%rax,%rcx,8)
	incq	%rcx
	movq	%rcx, 192(%r14)
	movq	%r12, %r14
	jmp	.LBB38_52
.LBB38_141:
	ud2
.Lfunc_end38:
	.size	cache_ask_unchecked, .Lfunc_end38-cache_ask_unchecked
	.section	.rodata.cache_ask_unchecked,"a",@progbits
	.p2align	2, 0x0
.LJTI38_0:
	.long	.LBB38_22-.LJTI38_0
	.long	.LBB38_43-.LJTI38_0
	.long	.LBB38_32-.LJTI38_0
	.long	.LBB38_33-.LJTI38_0
	.long	.LBB38_25-.LJTI38_0
	.long	.LBB38_45-.LJTI38_0
	.long	.LBB38_53-.LJTI38_0
	.long	.LBB38_41-.LJTI38_0
.LJTI38_1:
	.long	.LBB38_109-.LJTI38_1
	.long	.LBB38_109-.LJTI38_1
	.long	.LBB38_109-.LJTI38_1
	.long	.LBB38_71-.LJTI38_1
	.long	.LBB38_89-.LJTI38_1
	.long	.LBB38_98-.LJTI38_1
	.long	.LBB38_109-.LJTI38_1
.LJTI38_2:
	.long	.LBB38_114-.LJTI38_2
	.long	.LBB38_114-.LJTI38_2
	.long	.LBB38_114-.LJTI38_2
	.long	.LBB38_116-.LJTI38_2
	.long	.LBB38_117-.LJTI38_2
	.long	.LBB38_126-.LJTI38_2
	.long	.LBB38_114-.LJTI38_2

	.section	.text.cache_find_row_unchecked,"ax",@progbits
	.globl	cache_find_row_unchecked
	.p2align	4
	.type	cache_find_row_unchecked,@function
cache_find_row_unchecked:
	pushq	%r15
	pushq	%r14
	pushq	%r12
	pushq	%rbx
	subq	$216, %rsp
	movq	%rdi, %rbx
	xorl	%r11d, %r11d
	testq	%rdx, %rdx
	sete	%al
	xorps	%xmm0, %xmm0
	movaps	%xmm0, (%rsp)
	movaps	%xmm0, 16(%rsp)
	movaps	%xmm0, 32(%rsp)
	movaps	%xmm0, 48(%rsp)
	movaps	%xmm0, 64(%rsp)
	movq	$0, 80(%rsp)
	movq	%rcx, %rdi
	shrq	$32, %rdi
	jne	.LBB39_19
	movq	%r8, %r9
	movb	%al, %r11b
	shll	$12, %r11d
	leaq	(%rdx,%r11), %r8
	movabsq	$-9223372036854775808, %rax
	testq	%rcx, %rcx
	je	.LBB39_2
	movl	%ecx, %edi
	andl	$3, %edi
	cmpq	$4, %rcx
	jae	.LBB39_5
	movl	$5381, %r14d
	xorl	%edx, %edx
	jmp	.LBB39_8
.LBB39_2:
	orq	$5381, %rax
	movq	%rax, %r14
	movl	(%rsi), %edi
	cmpq	$4096, %rdi
	jne	.LBB39_12
.LBB39_15:
	andl	$4095, %r14d
	jmp	.LBB39_16
.LBB39_5:
	movl	%ecx, %r10d
	andl	$-4, %r10d
	addq	%rdx, %r11
	addq	$3, %r11
	movl	$5381, %r14d
	xorl	%edx, %edx
	.p2align	4
.LBB39_6:
	movzbl	-3(%r11,%rdx), %r15d
	movq	%r14, %r12
	shlq	$5, %r12
	addq	%r14, %r12
	addq	%r15, %r12
	movzbl	-2(%r11,%rdx), %r14d
	addq	%r12, %r14
	shlq	$5, %r12
	addq	%r12, %r14
	movzbl	-1(%r11,%rdx), %r15d
	addq	%r14, %r15
	shlq	$5, %r14
	addq	%r14, %r15
	movzbl	(%r11,%rdx), %r14d
	addq	%r15, %r14
	shlq	$5, %r15
	addq	%r15, %r14
	addq	$4, %rdx
	cmpq	%rdx, %r10
	jne	.LBB39_6
	testq	%rdi, %rdi
	je	.LBB39_10
.LBB39_8:
	addq	%r8, %rdx
	xorl	%r10d, %r10d
	movq	%r14, %r11
	.p2align	4
.LBB39_9:
	movzbl	(%rdx,%r10), %r15d
	shlq	$5, %r14
	addq	%r11, %r14
	addq	%r15, %r14
	incq	%r10
	movq	%r14, %r11
	cmpq	%r10, %rdi
	jne	.LBB39_9
.LBB39_10:
	orq	%rax, %r14
	movl	(%rsi), %edi
	cmpq	$4096, %rdi
	je	.LBB39_15
.LBB39_12:
	testl	%edi, %edi
	je	.LBB39_14
	movq	%r14, %rax
	xorl	%edx, %edx
	divq	%rdi
	movq	%rdx, %r14
.LBB39_16:
	movups	184(%rsi), %xmm0
	movl	208(%rsi), %eax
	movups	%xmm0, 192(%rsp)
	movl	%eax, 208(%rsp)
	movl	$0, 212(%rsp)
	movq	%rsi, %r15
	movl	120(%rsi), %edi
	leaq	192(%rsp), %rsi
	movq	%r8, %rdx
	movl	%r14d, %r8d
	callq	"cache_core::finding::find_live_in::<#cb700d0c354f31d0>"
	cmpb	$1, %al
	jne	.LBB39_18
	movl	%edx, %ecx
	movq	%rsp, %rdi
	movq	%r15, %rsi
	movl	%r14d, %edx
	callq	"cache_c::cache::Cache::row"
	movq	80(%rsp), %rax
	movq	%rax, 176(%rsp)
	movaps	64(%rsp), %xmm0
	movaps	%xmm0, 160(%rsp)
	movaps	(%rsp), %xmm0
	movaps	16(%rsp), %xmm1
	movaps	32(%rsp), %xmm2
	movaps	48(%rsp), %xmm3
	movaps	%xmm3, 144(%rsp)
	movaps	%xmm2, 128(%rsp)
	movaps	%xmm1, 112(%rsp)
	movaps	%xmm0, 96(%rsp)
	jmp	.LBB39_20
.LBB39_18:
	xorps	%xmm0, %xmm0
.LBB39_19:
	movaps	%xmm0, 48(%rsp)
	movaps	%xmm0, 32(%rsp)
	movaps	%xmm0, 16(%rsp)
	movaps	%xmm0, (%rsp)
	movl	$5, 64(%rsp)
	movups	%xmm0, 68(%rsp)
	movl	$0, 84(%rsp)
	movaps	%xmm0, 96(%rsp)
	movaps	%xmm0, 112(%rsp)
	movaps	%xmm0, 128(%rsp)
	movaps	%xmm0, 144(%rsp)
	movl	64(%rsp), %eax
	movl	%eax, 160(%rsp)
	movq	68(%rsp), %rax
	movq	%rax, 164(%rsp)
	movl	76(%rsp), %eax
	movl	%eax, 172(%rsp)
	movq	80(%rsp), %rax
	movq	%rax, 176(%rsp)
.LBB39_20:
	movq	176(%rsp), %rax
	movq	%rax, 80(%rbx)
	movl	160(%rsp), %eax
	movl	%eax, 64(%rbx)
	movq	164(%rsp), %rax
	movq	%rax, 68(%rbx)
	movl	172(%rsp), %eax
	movl	%eax, 76(%rbx)
	movaps	96(%rsp), %xmm0
	movaps	112(%rsp), %xmm1
	movaps	128(%rsp), %xmm2
	movaps	144(%rsp), %xmm3
	movups	%xmm3, 48(%rbx)
	movups	%xmm2, 32(%rbx)
	movups	%xmm1, 16(%rbx)
	movups	%xmm0, (%rbx)
	movq	%rbx, %rax
	addq	$216, %rsp
	popq	%rbx
	popq	%r12
	popq	%r14
	popq	%r15
	retq
.LBB39_14:
	ud2
.Lfunc_end39:
	.size	cache_find_row_unchecked, .Lfunc_end39-cache_find_row_unchecked

	.section	.text.cache_list_rows_unchecked,"ax",@progbits
	.globl	cache_list_rows_unchecked
	.p2align	4
	.type	cache_list_rows_unchecked,@function
cache_list_rows_unchecked:
	pushq	%rbp
	pushq	%r15
	pushq	%r14
	pushq	%r13
	pushq	%r12
	pushq	%rbx
	subq	$88, %rsp
	movq	%r8, %rbx
	movq	%rcx, %r14
	movl	%esi, %ebp
	movq	%rdi, %r15
	movl	(%rdi), %eax
	cmpl	%eax, %esi
	jae	.LBB40_3
	movl	%ebp, %eax
	cmpq	%rax, 192(%r15)
	jbe	.LBB40_10
	movq	184(%r15), %rcx
	movl	(%rcx,%rax,8), %r12d
	testq	%rdx, %rdx
	jne	.LBB40_5
	jmp	.LBB40_12
.LBB40_3:
	jne	.LBB40_11
	movl	104(%r15), %r12d
	testq	%rdx, %rdx
	je	.LBB40_12
.LBB40_5:
	testl	%r12d, %r12d
	je	.LBB40_12
	movq	192(%r15), %rax
	movl	$1, %ecx
	.p2align	4
.LBB40_7:
	incl	%r12d
	cmpq	%r12, %rax
	jbe	.LBB40_10
	movq	184(%r15), %rsi
	movl	(%rsi,%r12,8), %r12d
	cmpq	%rdx, %rcx
	jae	.LBB40_12
	incq	%rcx
	testl	%r12d, %r12d
	jne	.LBB40_7
	jmp	.LBB40_12
.LBB40_10:
	xorl	%r12d, %r12d
	xorl	%r13d, %r13d
	testq	%rbx, %rbx
	jne	.LBB40_15
	jmp	.LBB40_19
.LBB40_11:
	xorl	%r12d, %r12d
.LBB40_12:
	xorl	%r13d, %r13d
	testq	%rbx, %rbx
	jne	.LBB40_15
	jmp	.LBB40_19
	.p2align	4
.LBB40_14:
	incq	%r13
	addq	$88, %r14
	cmpq	%r13, %rbx
	je	.LBB40_18
.LBB40_15:
	testl	%r12d, %r12d
	je	.LBB40_19
	movq	%rsp, %rdi
	movq	%r15, %rsi
	movl	%ebp, %edx
	movl	%r12d, %ecx
	callq	"cache_c::cache::Cache::row"
	movq	80(%rsp), %rax
	movq	%rax, 80(%r14)
	movups	64(%rsp), %xmm0
	movups	%xmm0, 64(%r14)
	movups	(%rsp), %xmm0
	movups	16(%rsp), %xmm1
	movups	32(%rsp), %xmm2
	movups	48(%rsp), %xmm3
	movups	%xmm3, 48(%r14)
	movups	%xmm2, 32(%r14)
	movups	%xmm1, 16(%r14)
	movups	%xmm0, (%r14)
	movl	%r12d, %eax
	incl	%eax
	xorl	%r12d, %r12d
	cmpq	%rax, 192(%r15)
	jbe	.LBB40_14
	movq	184(%r15), %rcx
	movl	(%rcx,%rax,8), %r12d
	jmp	.LBB40_14
.LBB40_18:
	movq	%rbx, %r13
.LBB40_19:
	movq	%r13, %rax
	addq	$88, %rsp
	popq	%rbx
	popq	%r12
	popq	%r13
	popq	%r14
	popq	%r15
	popq	%rbp
	retq
.Lfunc_end40:
	.size	cache_list_rows_unchecked, .Lfunc_end40-cache_list_rows_unchecked

	.section	.text.cache_list_slots_unchecked,"ax",@progbits
	.globl	cache_list_slots_unchecked
	.p2align	4
	.type	cache_list_slots_unchecked,@function
cache_list_slots_unchecked:
	pushq	%rbp
	pushq	%r15
	pushq	%r14
	pushq	%r13
	pushq	%r12
	pushq	%rbx
	movq	%r8, -16(%rsp)
	movq	%rcx, -32(%rsp)
	cmpl	%edx, %esi
	jae	.LBB41_57
	movl	%esi, %ebp
	movl	%edx, %eax
	movq	%rax, -24(%rsp)
	xorl	%r10d, %r10d
	movl	%edx, -64(%rsp)
	jmp	.LBB41_4
	.p2align	4
.LBB41_2:
	testl	%eax, %eax
	jne	.LBB41_60
.LBB41_3:
	addq	%r9, %r10
	incq	%rbp
	cmpq	-24(%rsp), %rbp
	je	.LBB41_58
.LBB41_4:
	movq	%r10, %r9
	movl	(%rdi), %eax
	cmpq	%rax, %rbp
	jae	.LBB41_7
	cmpq	%rbp, 192(%rdi)
	jbe	.LBB41_9
	movq	184(%rdi), %rax
	movl	(%rax,%rbp,8), %r11d
	movq	-16(%rsp), %r10
	subq	%r9, %r10
	jne	.LBB41_10
	jmp	.LBB41_56
	.p2align	4
.LBB41_7:
	jne	.LBB41_9
	movl	104(%rdi), %r11d
	movq	-16(%rsp), %r10
	subq	%r9, %r10
	jne	.LBB41_10
.LBB41_56:
	xorl	%ebx, %ebx
	cmpq	%r10, %rbx
	movq	%rbx, %r10
	jb	.LBB41_3
	jmp	.LBB41_44
	.p2align	4
.LBB41_9:
	xorl	%r11d, %r11d
	movq	-16(%rsp), %r10
	subq	%r9, %r10
	je	.LBB41_56
.LBB41_10:
	movq	%r9, -56(%rsp)
	imulq	$88, %r9, %r14
	addq	-32(%rsp), %r14
	xorl	%ebx, %ebx
	movq	%rbp, -72(%rsp)
	movq	%r10, -8(%rsp)
	jmp	.LBB41_12
	.p2align	4
.LBB41_11:
	incq	%rbx
	addq	$88, %r14
	movl	%eax, %r11d
	movq	-8(%rsp), %r10
	cmpq	%rbx, %r10
	je	.LBB41_47
.LBB41_12:
	testl	%r11d, %r11d
	je	.LBB41_43
	movq	184(%rdi), %rcx
	movq	192(%rdi), %rsi
	movl	%r11d, %eax
	xorl	%r15d, %r15d
	movl	$0, %edx
	cmpq	%rax, %rsi
	jbe	.LBB41_14
	movl	(%rcx,%rax,8), %edx
	leal	2(%r11), %eax
	cmpq	%rax, %rsi
	ja	.LBB41_23
.LBB41_15:
	leal	4(%r11), %eax
	xorl	%r12d, %r12d
	cmpq	%rax, %rsi
	jbe	.LBB41_16
.LBB41_24:
	movl	(%rcx,%rax,8), %r12d
	leal	5(%r11), %eax
	cmpq	%rax, %rsi
	ja	.LBB41_17
.LBB41_25:
	movq	$0, -40(%rsp)
	leal	6(%r11), %eax
	cmpq	%rax, %rsi
	jbe	.LBB41_18
.LBB41_26:
	movq	(%rcx,%rax,8), %rax
	movq	%rax, -48(%rsp)
	movl	%edx, -60(%rsp)
	leal	7(%r11), %eax
	cmpq	%rax, %rsi
	jbe	.LBB41_19
.LBB41_27:
	movq	(%rcx,%rax,8), %rdx
	movq	%rdi, %r9
	leal	8(%r11), %eax
	cmpq	%rax, %rsi
	jbe	.LBB41_20
.LBB41_28:
	movq	(%rcx,%rax,8), %r8
	leal	9(%r11), %eax
	xorl	%r10d, %r10d
	cmpq	%rax, %rsi
	jbe	.LBB41_21
.LBB41_29:
	movq	(%rcx,%rax,8), %rax
	jmp	.LBB41_30
	.p2align	4
.LBB41_14:
	leal	2(%r11), %eax
	cmpq	%rax, %rsi
	jbe	.LBB41_15
.LBB41_23:
	movl	(%rcx,%rax,8), %r15d
	leal	4(%r11), %eax
	xorl	%r12d, %r12d
	cmpq	%rax, %rsi
	ja	.LBB41_24
.LBB41_16:
	leal	5(%r11), %eax
	cmpq	%rax, %rsi
	jbe	.LBB41_25
.LBB41_17:
	movq	(%rcx,%rax,8), %rax
	movq	%rax, -40(%rsp)
	leal	6(%r11), %eax
	cmpq	%rax, %rsi
	ja	.LBB41_26
.LBB41_18:
	movq	$0, -48(%rsp)
	movl	%edx, -60(%rsp)
	leal	7(%r11), %eax
	cmpq	%rax, %rsi
	ja	.LBB41_27
.LBB41_19:
	xorl	%edx, %edx
	movq	%rdi, %r9
	leal	8(%r11), %eax
	cmpq	%rax, %rsi
	ja	.LBB41_28
.LBB41_20:
	xorl	%r8d, %r8d
	leal	9(%r11), %eax
	xorl	%r10d, %r10d
	cmpq	%rax, %rsi
	ja	.LBB41_29
.LBB41_21:
	xorl	%eax, %eax
.LBB41_30:
	movl	%r15d, %edi
	shrl	$3, %edi
	movl	%r15d, %ebp
	andl	$7, %ebp
	addl	$7, %ebp
	shrl	$3, %ebp
	leal	(%rdi,%r11), %r13d
	addl	$12, %r13d
	addl	%ebp, %r13d
	cmpq	%r13, %rsi
	jbe	.LBB41_36
	movq	(%rcx,%r13,8), %rbp
	movq	%rbp, %rdi
	andq	$7, %rdi
	je	.LBB41_41
	cmpl	$1, %edi
	je	.LBB41_40
	cmpl	$2, %edi
	jne	.LBB41_42
	incl	%r13d
	movl	$2, %r10d
	cmpq	%r13, %rsi
	jbe	.LBB41_36
	movq	(%rcx,%r13,8), %rdi
	xorl	%r13d, %r13d
	jmp	.LBB41_37
	.p2align	4
.LBB41_36:
	xorl	%r13d, %r13d
	xorl	%edi, %edi
.LBB41_37:
	xorl	%ecx, %ecx
.LBB41_38:
	movq	-72(%rsp), %rbp
	leal	12(%r11), %esi
	movl	%r11d, (%r14)
	movl	%ebp, 4(%r14)
	movl	%esi, 8(%r14)
	movl	%r15d, 12(%r14)
	movl	%r12d, 16(%r14)
	movl	-60(%rsp), %esi
	movl	%esi, 20(%r14)
	movq	-40(%rsp), %rsi
	movq	%rsi, 24(%r14)
	movq	-48(%rsp), %rsi
	movq	%rsi, 32(%r14)
	movq	%rdx, 40(%r14)
	movq	%r8, 48(%r14)
	movq	%rax, 56(%r14)
	movl	%r10d, 64(%r14)
	movl	%r13d, 68(%r14)
	movq	%rdi, 72(%r14)
	movq	%rcx, 80(%r14)
	incl	%r11d
	xorl	%eax, %eax
	movq	%r9, %rdi
	cmpq	%r11, 192(%r9)
	jbe	.LBB41_11
	movq	184(%rdi), %rax
	movl	(%rax,%r11,8), %eax
	jmp	.LBB41_11
.LBB41_40:
	xorl	%edi, %edi
	cmpq	$1, %rbp
	setne	%dil
	xorl	%r13d, %r13d
	movl	$1, %r10d
	jmp	.LBB41_37
.LBB41_41:
	xorl	%r13d, %r13d
	movq	%rdi, %rcx
	jmp	.LBB41_38
.LBB41_42:
	shrq	$3, %rbp
	incl	%r13d
	xorl	%esi, %esi
	xorl	%r10d, %r10d
	cmpq	$3, %rdi
	movl	%ebp, %ecx
	setne	%r10b
	cmovneq	%rsi, %rcx
	addl	$3, %r10d
	cmpl	$3, %edi
	cmovnel	%esi, %r13d
	xorl	%edi, %edi
	jmp	.LBB41_38
	.p2align	4
.LBB41_43:
	movl	-64(%rsp), %edx
	movq	-56(%rsp), %r9
	cmpq	%r10, %rbx
	movq	%rbx, %r10
	jb	.LBB41_3
.LBB41_44:
	movl	(%rdi), %eax
	cmpq	%rax, %rbp
	jae	.LBB41_48
.LBB41_45:
	cmpq	%rbp, 192(%rdi)
	jbe	.LBB41_3
	movq	184(%rdi), %rax
	movl	(%rax,%rbp,8), %eax
	testq	%r10, %r10
	jne	.LBB41_50
	jmp	.LBB41_2
	.p2align	4
.LBB41_47:
	movl	-64(%rsp), %edx
	movq	-56(%rsp), %r9
	movl	(%rdi), %eax
	cmpq	%rax, %rbp
	jb	.LBB41_45
.LBB41_48:
	jne	.LBB41_3
	movl	104(%rdi), %eax
	testq	%r10, %r10
	je	.LBB41_2
.LBB41_50:
	testl	%eax, %eax
	je	.LBB41_2
	movq	192(%rdi), %rcx
	movl	$1, %r8d
	.p2align	4
.LBB41_52:
	incl	%eax
	cmpq	%rax, %rcx
	jbe	.LBB41_3
	movq	184(%rdi), %rsi
	movl	(%rsi,%rax,8), %eax
	cmpq	%r10, %r8
	jae	.LBB41_2
	incq	%r8
	testl	%eax, %eax
	jne	.LBB41_52
	jmp	.LBB41_2
.LBB41_57:
	xorl	%r9d, %r9d
	jmp	.LBB41_59
.LBB41_58:
	movq	%r10, %r9
.LBB41_59:
	movl	%edx, %eax
	movq	%r9, %rdx
	popq	%rbx
	popq	%r12
	popq	%r13
	popq	%r14
	popq	%r15
	popq	%rbp
	retq
.LBB41_60:
	movl	%ebp, %edx
	jmp	.LBB41_59
.Lfunc_end41:
	.size	cache_list_slots_unchecked, .Lfunc_end41-cache_list_slots_unchecked

	.section	.text.cache_get_view_unchecked,"ax",@progbits
	.globl	cache_get_view_unchecked
	.p2align	4
	.type	cache_get_view_unchecked,@function
cache_get_view_unchecked:
	movl	(%rdi), %ecx
	movl	120(%rdi), %eax
	movl	208(%rdi), %edx
	shlq	$32, %rax
	orq	%rcx, %rax
	retq
.Lfunc_end42:
	.size	cache_get_view_unchecked, .Lfunc_end42-cache_get_view_unchecked

	.section	.text.cache_find_shared_unchecked,"ax",@progbits
	.globl	cache_find_shared_unchecked
	.p2align	4
	.type	cache_find_shared_unchecked,@function
cache_find_shared_unchecked:
	pushq	%rbp
	pushq	%r15
	pushq	%r14
	pushq	%r12
	pushq	%rbx
	subq	$32, %rsp
	movq	%rdi, %rbx
	xorl	%r15d, %r15d
	testq	%rdx, %rdx
	sete	%r12b
	xorl	%r11d, %r11d
	testq	%r8, %r8
	sete	%bpl
	movq	%r9, %rax
	shrq	$32, %rax
	je	.LBB43_3
	xorl	%eax, %eax
	movl	$10, %ecx
	jmp	.LBB43_2
.LBB43_3:
	movq	%rdx, %r14
	movq	80(%rsp), %rax
	movl	(%rsi), %r10d
	movl	4(%rsi), %edi
	cmpq	$4096, %r10
	je	.LBB43_9
	testl	%r10d, %r10d
	je	.LBB43_8
	movq	%rax, %rdx
	shrq	$32, %rdx
	je	.LBB43_6
	xorl	%edx, %edx
	divq	%r10
	movq	%rdx, %rax
	jmp	.LBB43_10
.LBB43_9:
	andl	$4095, %eax
	jmp	.LBB43_10
.LBB43_6:
	xorl	%edx, %edx
	divl	%r10d
	movl	%edx, %eax
.LBB43_10:
	movq	88(%rsp), %r10
	movb	%r12b, %r15b
	shll	$12, %r15d
	addq	%r15, %r14
	movb	%bpl, %r11b
	shll	$12, %r11d
	addq	%r11, %r8
	movl	8(%rsi), %edx
	movq	%r14, 8(%rsp)
	movq	%rcx, %r15
	movq	%rcx, 16(%rsp)
	movl	%edx, 24(%rsp)
	movl	$0, 28(%rsp)
	leaq	8(%rsp), %rsi
	movq	%r8, %rdx
	movq	%r9, %r12
	movq	%r9, %rcx
	movl	%eax, %r8d
	movq	%r10, %r9
	callq	"cache_core::finding::find_live_in::<#cb700d0c354f31d0>"
	cmpb	$1, %al
	jne	.LBB43_11
	movl	%r12d, %eax
	shrl	$3, %eax
	andl	$7, %r12d
	addl	$7, %r12d
	shrl	$3, %r12d
	addl	%eax, %r12d
	leal	(%rdx,%r12), %eax
	addl	$12, %eax
	xorl	%ecx, %ecx
	cmpq	%rax, %r15
	jbe	.LBB43_13
	movq	(%r14,%rax,8), %rdi
	movq	%rdi, %rsi
	andq	$7, %rsi
	je	.LBB43_15
	cmpl	$1, %esi
	je	.LBB43_20
	cmpl	$2, %esi
	jne	.LBB43_21
	incl	%eax
	movl	$2, %ecx
	cmpq	%rax, %r15
	jbe	.LBB43_13
	movq	(%r14,%rax,8), %rsi
	xorl	%eax, %eax
	xorl	%edi, %edi
	jmp	.LBB43_22
.LBB43_11:
	xorl	%eax, %eax
	movl	$5, %ecx
.LBB43_2:
	xorl	%esi, %esi
	xorl	%edi, %edi
	xorl	%edx, %edx
.LBB43_22:
	movl	%ecx, (%rbx)
	movl	%eax, 4(%rbx)
	movq	%rsi, 8(%rbx)
	movq	%rdi, 16(%rbx)
	movl	%edx, 24(%rbx)
	movl	$0, 28(%rbx)
	movq	%rbx, %rax
	addq	$32, %rsp
	popq	%rbx
	popq	%r12
	popq	%r14
	popq	%r15
	popq	%rbp
	retq
.LBB43_13:
	xorl	%eax, %eax
	xorl	%esi, %esi
	xorl	%edi, %edi
	jmp	.LBB43_22
.LBB43_20:
	xorl	%esi, %esi
	cmpq	$1, %rdi
	setne	%sil
	xorl	%eax, %eax
	movl	$1, %ecx
	xorl	%edi, %edi
	jmp	.LBB43_22
.LBB43_15:
	xorl	%eax, %eax
	movq	%rsi, %rdi
	jmp	.LBB43_22
.LBB43_21:
	shrq	$3, %rdi
	incl	%eax
	xorl	%r8d, %r8d
	xorl	%ecx, %ecx
	cmpq	$3, %rsi
	movl	%edi, %edi
	setne	%cl
	cmovneq	%r8, %rdi
	addl	$3, %ecx
	cmpl	$3, %esi
	cmovnel	%r8d, %eax
	xorl	%esi, %esi
	jmp	.LBB43_22
.LBB43_8:
	ud2
.Lfunc_end43:
	.size	cache_find_shared_unchecked, .Lfunc_end43-cache_find_shared_unchecked

	.ident	"rattle logic=dac8208d650f15bf3e2dc313a14fa4c783a3acf887bdfab66e1714b038d9e11b"
	.section	".note.GNU-stack","",@progbits
