/* SPDX-License-Identifier: MIT
 *
 * The engine: the functions of ../cache_c.h whose names end in _unchecked, and cache_size, for aarch64.
 *
 * Don't edit this file. capi/engine/write.sh writes it: the crates below are proved, rattle compiles them to a module of
 * LLVM, and the kit's clang writes the module's instructions as this text. Functions have the names of the sources.
 *
 * The verdict on what was compiled:
 *
 *   logic=proved functions=74 axioms=3 target=aarch64-unknown-linux-gnu sum=dac8208d650f15bf native=nat,char,string logic-built=trusted libraries-built=trusted statements=trusted
 *   rattle-kit-13f logic dac8208d650f15bf
 *
 * The crates, each with the SHA-256 of its sources without comments:
 *
 *   6315073eb6db1dfa97264a41d3eae264e16236ae059f33d208c3c432dd833f64 ghost_log
 *   e3245f7b9bc854649efeabcdae1e83deecfe09f1c8af5b856670344c2e7fdef8 seg_words
 *   b9c42a7c93ad9e6c7f34db6ccc5147bdbfb3fd83f51f8fe99fffedc3197ff458 late_words
 *   b22de9be8678377cb3e367db87c94d146cb555821c60c73a8a07c4c3782dbea2 byte_box
 *   e7e72fd300de2360cfb3cdd9b5e7f33229990cdd6701f80d3fe021113c36bac3 php_graph
 *   7102fcd5c8589a2c61de561a089a7cf28be6994efda4604c65902dfec47f2099 max_tree
 *   77224e3ca02602ab87a259020fab51f966e13e41a3ff913bec2a3f7dc34203d0 sma_blocks
 *   5d33c64609dfef32839d1e4356edc037413f001639e829d93f83e6bc82c423dd value_image
 *   42afc5173d4d94a3411175bc386f5f60830d0daaa50a488277a1c02528fcf5d4 apcu_model
 *   2e32c10f9b2d3e91b91406e0f0ca72aad5f96a12e9b548bfc96f6fd6a5707b91 info_tables
 *   057fd2fc414544595cc87ff1a5edab360538a66eaedc89725052c504dce76207 entry_slots
 *   a2483397b4de7c7f0a5931e54f34cf1710470bc0404287e653416dbc5759ee35 ttl_expunge
 *   27dab362184bc8febbe043482d495865794f5dd18944287733cc1868ec9b296e cache_core
 *   fd2865c073b76da72588dc4984d33af3824efe64dea62c5bf9738d17cff12082 counter_entry
 *   e188dfec8f05df594a359f0594ff38e9166c8dbf2d90a1ba2d3a6a19a51ee8b8 cache_info
 *   fe434152eb08dba0c85c78d7571fce45d10b09a9048e9d5a95b03cf3389a24b6 cache_c
 */
	.file	"rattle"
	.section	".text.unlikely.late_words::late_words::LateWords::pad","ax",@progbits
	.p2align	2
	.type	"late_words::late_words::LateWords::pad",@function
"late_words::late_words::LateWords::pad":
	ldr	x8, [x0, #8]
	cmp	x8, x1
	b.hs	.LBB0_2
.LBB0_1:
	ldr	x9, [x0]
	str	xzr, [x9, x8, lsl #3]
	add	x8, x8, #1
	cmp	x1, x8
	str	x8, [x0, #8]
	b.ne	.LBB0_1
.LBB0_2:
	ret
.Lfunc_end0:
	.size	"late_words::late_words::LateWords::pad", .Lfunc_end0-"late_words::late_words::LateWords::pad"

	.section	".text.max_tree::words::last_before","ax",@progbits
	.p2align	2
	.type	"max_tree::words::last_before",@function
"max_tree::words::last_before":
	mov	x8, x4
	lsr	x4, x4, #6
	mov	x9, #-1
	lsl	x9, x9, x8
	ldr	x10, [x0, x4, lsl #3]
	bics	x9, x10, x9
	b.eq	.LBB1_2
	and	x8, x8, #0x7fffffffffffffc0
	clz	x9, x9
	mov	w0, #1
	orr	x8, x9, x8
	eor	x1, x8, #0x3f
	ret
.LBB1_2:
	cbz	x3, .LBB1_5
	stp	x29, x30, [sp, #-32]!
	add	x8, x2, #63
	str	x19, [sp, #16]
	mov	x19, x0
	lsr	x8, x8, #6
	add	x0, x0, x2, lsl #3
	sub	x1, x1, x2
	sub	x3, x3, #1
	mov	x29, sp
	mov	x2, x8
	bl	"max_tree::words::last_before"
	and	w8, w0, #0xff
	cmp	w8, #1
	b.ne	.LBB1_6
	ldr	x8, [x19, x1, lsl #3]
	mov	w9, #63
	mov	w0, #1
	orr	x9, x9, x1, lsl #6
	clz	x8, x8
	sub	x1, x9, x8
	ldr	x19, [sp, #16]
	ldp	x29, x30, [sp], #32
	ret
.LBB1_5:
	mov	x1, xzr
	mov	w0, wzr
	ret
.LBB1_6:
	mov	x1, xzr
	mov	w0, wzr
	ldr	x19, [sp, #16]
	ldp	x29, x30, [sp], #32
	ret
.Lfunc_end1:
	.size	"max_tree::words::last_before", .Lfunc_end1-"max_tree::words::last_before"

	.section	".text.max_tree::levels::shape_for","ax",@progbits
	.p2align	2
	.type	"max_tree::levels::shape_for",@function
"max_tree::levels::shape_for":
	stp	x29, x30, [sp, #-32]!
	str	x19, [sp, #16]
	mov	x19, x0
	cmp	x0, #33
	mov	x29, sp
	b.hs	.LBB2_2
	mov	x0, xzr
	mov	x1, x19
	ldr	x19, [sp, #16]
	ldp	x29, x30, [sp], #32
	ret
.LBB2_2:
	add	x8, x19, #31
	lsr	x0, x8, #5
	bl	"max_tree::levels::shape_for"
	add	x0, x0, #1
	add	x19, x1, x19
	mov	x1, x19
	ldr	x19, [sp, #16]
	ldp	x29, x30, [sp], #32
	ret
.Lfunc_end2:
	.size	"max_tree::levels::shape_for", .Lfunc_end2-"max_tree::levels::shape_for"

	.section	".text.max_tree::words::shape_for","ax",@progbits
	.p2align	2
	.type	"max_tree::words::shape_for",@function
"max_tree::words::shape_for":
	stp	x29, x30, [sp, #-32]!
	str	x19, [sp, #16]
	mov	x19, x0
	cmp	x0, #2
	mov	x29, sp
	b.hs	.LBB3_2
	mov	x0, xzr
	mov	x1, x19
	ldr	x19, [sp, #16]
	ldp	x29, x30, [sp], #32
	ret
.LBB3_2:
	add	x8, x19, #63
	lsr	x0, x8, #6
	bl	"max_tree::words::shape_for"
	add	x0, x0, #1
	add	x19, x1, x19
	mov	x1, x19
	ldr	x19, [sp, #16]
	ldp	x29, x30, [sp], #32
	ret
.Lfunc_end3:
	.size	"max_tree::words::shape_for", .Lfunc_end3-"max_tree::words::shape_for"

	.section	".text.max_tree::row::MaxRow::change","ax",@progbits
	.p2align	2
	.type	"max_tree::row::MaxRow::change",@function
"max_tree::row::MaxRow::change":
	ldr	x8, [x0, #32]
	ldr	x13, [x0]
	cbz	x8, .LBB4_17
	ldr	x9, [x0, #24]
	mov	w14, w3
	mov	w16, w2
	mov	x15, x1
.LBB4_2:
	lsl	x17, x15, #2
	add	x10, x13, x9, lsl #2
	lsr	x11, x15, #5
	str	w14, [x13, x17]
	ldr	w12, [x10, x11, lsl #2]
	cmp	w12, w14
	b.ls	.LBB4_15
	cmp	w16, w12
	b.lo	.LBB4_19
	and	x15, x15, #0x7fffffffffffffe0
	and	x16, x17, #0xffffffffffffff80
	sub	x14, x9, x15
	cmp	x14, #32
	b.lo	.LBB4_6
	add	x13, x13, x16
	ldp	q0, q1, [x13, #96]
	ldp	q2, q3, [x13, #32]
	ldp	q4, q5, [x13, #64]
	ldp	q6, q7, [x13]
	umax	v1.4s, v3.4s, v1.4s
	umax	v0.4s, v2.4s, v0.4s
	umax	v3.4s, v7.4s, v5.4s
	umax	v2.4s, v6.4s, v4.4s
	umax	v1.4s, v3.4s, v1.4s
	umax	v0.4s, v2.4s, v0.4s
	umax	v0.4s, v0.4s, v1.4s
	umaxv	s0, v0.4s
	fmov	w14, s0
	b	.LBB4_15
.LBB4_6:
	cmp	x9, x15
	b.ne	.LBB4_8
	mov	w14, wzr
	b	.LBB4_15
.LBB4_8:
	cmp	x14, #8
	b.hs	.LBB4_10
	mov	w14, wzr
	mov	x17, xzr
	b	.LBB4_13
.LBB4_10:
	movi	v0.2d, #0000000000000000
	movi	v1.2d, #0000000000000000
	and	x18, x9, #0x7
	sub	x17, x14, x18
	add	x14, x13, x16
	add	x14, x14, #16
	mov	x4, x17
.LBB4_11:
	ldp	q2, q3, [x14, #-16]
	subs	x4, x4, #8
	add	x14, x14, #32
	umax	v0.4s, v2.4s, v0.4s
	umax	v1.4s, v3.4s, v1.4s
	b.ne	.LBB4_11
	umax	v0.4s, v0.4s, v1.4s
	umaxv	s0, v0.4s
	fmov	w14, s0
	cbz	x18, .LBB4_15
.LBB4_13:
	add	x16, x16, x17, lsl #2
	sub	x17, x9, x17
	sub	x15, x17, x15
	add	x13, x13, x16
.LBB4_14:
	ldr	w16, [x13], #4
	cmp	w16, w14
	csel	w14, w16, w14, hi
	subs	x15, x15, #1
	b.ne	.LBB4_14
.LBB4_15:
	cmp	w14, w12
	b.eq	.LBB4_19
	add	x9, x9, #31
	subs	x8, x8, #1
	mov	w16, w12
	lsr	x9, x9, #5
	mov	x15, x11
	mov	x13, x10
	b.ne	.LBB4_2
	b	.LBB4_18
.LBB4_17:
	mov	x10, x13
	mov	x11, x1
	mov	w14, w3
.LBB4_18:
	str	w14, [x10, x11, lsl #2]
.LBB4_19:
	cbz	w3, .LBB4_22
	cbz	w2, .LBB4_27
.LBB4_21:
	ret
.LBB4_22:
	ldr	x8, [x0, #40]
	lsr	x10, x1, #6
	mov	w9, #1
	lsl	x13, x9, x1
	ldp	x9, x11, [x0, #64]
	ldr	x12, [x8, x10, lsl #3]
	bic	x12, x12, x13
	str	x12, [x8, x10, lsl #3]
	cbz	x11, .LBB4_21
	cbnz	x12, .LBB4_21
	sub	x11, x11, #1
.LBB4_25:
	add	x8, x8, x9, lsl #3
	lsr	x12, x10, #6
	mov	w13, #1
	lsl	x10, x13, x10
	ldr	x14, [x8, x12, lsl #3]
	bic	x13, x14, x10
	str	x13, [x8, x12, lsl #3]
	cbz	x11, .LBB4_21
	add	x9, x9, #63
	sub	x11, x11, #1
	mov	x10, x12
	lsr	x9, x9, #6
	cbz	x13, .LBB4_25
	b	.LBB4_21
.LBB4_27:
	ldr	x8, [x0, #40]
	lsr	x10, x1, #6
	mov	w9, #1
	lsl	x13, x9, x1
	ldp	x9, x11, [x0, #64]
	ldr	x12, [x8, x10, lsl #3]
	orr	x13, x12, x13
	str	x13, [x8, x10, lsl #3]
	cbz	x11, .LBB4_21
	cbnz	x12, .LBB4_21
	sub	x11, x11, #1
.LBB4_30:
	add	x8, x8, x9, lsl #3
	lsr	x12, x10, #6
	mov	w14, #1
	lsl	x10, x14, x10
	ldr	x13, [x8, x12, lsl #3]
	orr	x10, x13, x10
	str	x10, [x8, x12, lsl #3]
	cbz	x11, .LBB4_21
	add	x9, x9, #63
	sub	x11, x11, #1
	mov	x10, x12
	lsr	x9, x9, #6
	cbz	x13, .LBB4_30
	b	.LBB4_21
.Lfunc_end4:
	.size	"max_tree::row::MaxRow::change", .Lfunc_end4-"max_tree::row::MaxRow::change"

	.section	".text.cache_c::cache::Cache::look","ax",@progbits
	.p2align	2
	.type	"cache_c::cache::Cache::look",@function
"cache_c::cache::Cache::look":
	stp	x29, x30, [sp, #-96]!
	stp	x26, x25, [sp, #32]
	ldr	x25, [x1, #192]
	mov	w8, w4
	stp	x22, x21, [sp, #64]
	mov	x21, x1
	mov	x29, sp
	stp	x20, x19, [sp, #80]
	cmp	x25, x8
	mov	x19, x0
	stp	x28, x27, [sp, #16]
	stp	x24, x23, [sp, #48]
	b.ls	.LBB5_13
	ldr	w27, [x21, #120]
	cbz	w27, .LBB5_13
	ldur	x26, [x21, #184]
	ldr	x20, [x26, x8, lsl #3]
	cbz	w20, .LBB5_13
	mov	x22, x5
	mov	x23, x3
	mov	x24, x2
	mov	w28, #1
.LBB5_4:
	add	x0, x21, #184
	mov	w1, w20
	mov	x2, x24
	mov	x3, x23
	bl	"entry_slots::reading::has_key_at::<#feb48aca4256a9fc>"
	tbnz	w0, #0, .LBB5_8
	add	w8, w20, #1
	cmp	x25, x8
	b.ls	.LBB5_13
	cmp	w28, w27
	b.hs	.LBB5_13
	ldr	x20, [x26, x8, lsl #3]
	add	w28, w28, #1
	cbnz	w20, .LBB5_4
	b	.LBB5_13
.LBB5_8:
	add	w8, w20, #4
	cmp	x25, x8
	b.ls	.LBB5_15
	ldr	x8, [x26, x8, lsl #3]
	cbz	x8, .LBB5_15
	add	w9, w20, #5
	cmp	x25, x9
	b.ls	.LBB5_12
	ldr	x9, [x26, x9, lsl #3]
	adds	x8, x8, x9
	csinv	x8, x8, xzr, lo
.LBB5_12:
	cmp	x8, x22
	b.hs	.LBB5_15
.LBB5_13:
	ldr	x10, [x21, #160]
	mov	w8, wzr
	mov	x23, xzr
	mov	x9, xzr
	mov	w20, wzr
	mov	w27, #5
	adds	x10, x10, #1
	csinv	x10, x10, xzr, lo
	str	x10, [x21, #160]
.LBB5_14:
	stp	w27, w8, [x19]
	ldp	x22, x21, [sp, #64]
	stp	x23, x9, [x19, #8]
	ldp	x24, x23, [sp, #48]
	stp	w20, wzr, [x19, #24]
	ldp	x20, x19, [sp, #80]
	ldp	x26, x25, [sp, #32]
	ldp	x28, x27, [sp, #16]
	ldp	x29, x30, [sp], #96
	ret
.LBB5_15:
	lsr	w8, w23, #3
	and	w9, w23, #0x7
	add	w9, w9, #7
	add	w8, w8, w9, lsr #3
	add	w8, w8, w20
	add	w24, w8, #12
	cmp	x25, x24
	b.ls	.LBB5_20
	ldr	x8, [x26, x24, lsl #3]
	ands	x23, x8, #0x7
	b.eq	.LBB5_37
	cmp	x23, #2
	b.eq	.LBB5_35
	cmp	x23, #1
	b.ne	.LBB5_38
	cmp	x8, #1
	mov	x12, xzr
	mov	w28, #1
	cset	w23, ne
	mov	w27, #1
	b	.LBB5_22
.LBB5_20:
	mov	w27, wzr
	mov	x23, xzr
	mov	x12, xzr
.LBB5_21:
	mov	w28, #1
.LBB5_22:
	add	w8, w20, #9
	cmp	x25, x8
	b.ls	.LBB5_41
	ldr	x9, [x26, x8, lsl #3]
	adds	x9, x9, #1
	csinv	x9, x9, xzr, lo
	str	x9, [x26, x8, lsl #3]
	ldr	x8, [x21, #192]
	add	w9, w20, #7
	cmp	x8, x9
	b.ls	.LBB5_42
.LBB5_24:
	ldur	x8, [x21, #184]
	str	x22, [x8, x9, lsl #3]
.LBB5_25:
	ldr	w8, [x21, #124]
	ldr	x9, [x21, #128]
	ldr	x11, [x21, #152]
	adds	x10, x8, x22
	csinv	x10, x10, xzr, lo
	cmp	x10, x9
	csel	x10, x10, x9, lo
	cmp	w8, #0
	csel	x8, x9, x10, eq
	adds	x9, x11, #1
	str	x8, [x21, #128]
	csinv	x8, x9, xzr, lo
	str	x8, [x21, #152]
	tbz	w28, #0, .LBB5_29
	cbz	w27, .LBB5_33
	cmp	w27, #2
	b.ne	.LBB5_34
	mov	w8, wzr
	mov	x9, xzr
	mov	w20, wzr
	mov	x23, x12
	b	.LBB5_14
.LBB5_29:
	ldr	x8, [x21, #192]
	cmp	x8, x24
	b.ls	.LBB5_31
	ldur	x8, [x21, #184]
	ldr	x8, [x8, x24, lsl #3]
	b	.LBB5_32
.LBB5_31:
	mov	x8, xzr
.LBB5_32:
	and	x9, x8, #0x7
	ubfx	x10, x8, #3, #32
	mov	w8, #3
	cmp	x9, #3
	mov	x23, xzr
	cinc	w27, w8, ne
	csinc	w8, wzr, w24, ne
	csel	x9, x10, xzr, eq
	b	.LBB5_14
.LBB5_33:
	mov	w23, w27
	mov	w8, w27
	mov	w20, w27
	mov	x9, x23
	b	.LBB5_14
.LBB5_34:
	mov	w8, wzr
	mov	x9, xzr
	mov	w20, wzr
	mov	w27, #1
	b	.LBB5_14
.LBB5_35:
	add	w8, w24, #1
	cmp	x25, x8
	b.ls	.LBB5_39
	ldr	x12, [x26, x8, lsl #3]
	mov	x23, xzr
	b	.LBB5_40
.LBB5_37:
	mov	w27, wzr
	mov	w28, #1
	mov	x12, x23
	b	.LBB5_22
.LBB5_38:
	mov	w28, wzr
	mov	w27, wzr
	mov	x23, xzr
	mov	x12, xzr
	b	.LBB5_22
.LBB5_39:
	mov	x23, xzr
	mov	x12, xzr
.LBB5_40:
	mov	w27, #2
	b	.LBB5_21
.LBB5_41:
	add	x0, x21, #184
	add	w1, w20, #9
	mov	x25, x12
	bl	"late_words::late_words::LateWords::pad"
	ldp	x9, x8, [x21, #184]
	mov	x12, x25
	mov	w10, #1
	str	x10, [x9, x8, lsl #3]
	add	x8, x8, #1
	str	x8, [x21, #192]
	add	w9, w20, #7
	cmp	x8, x9
	b.hi	.LBB5_24
.LBB5_42:
	add	x0, x21, #184
	add	w1, w20, #7
	mov	x25, x12
	bl	"late_words::late_words::LateWords::pad"
	ldp	x9, x8, [x21, #184]
	mov	x12, x25
	str	x22, [x9, x8, lsl #3]
	add	x8, x8, #1
	str	x8, [x21, #192]
	b	.LBB5_25
.Lfunc_end5:
	.size	"cache_c::cache::Cache::look", .Lfunc_end5-"cache_c::cache::Cache::look"

	.section	".text.entry_slots::reading::has_key_at::<#feb48aca4256a9fc>","ax",@progbits
	.p2align	2
	.type	"entry_slots::reading::has_key_at::<#feb48aca4256a9fc>",@function
"entry_slots::reading::has_key_at::<#feb48aca4256a9fc>":
	ldr	x9, [x0, #8]
	add	w8, w1, #2
	cmp	x9, x8
	b.ls	.LBB6_4
	ldr	x10, [x0]
	ldr	x8, [x10, x8, lsl #3]
	cmp	x8, x3
	b.eq	.LBB6_5
.LBB6_2:
	mov	w8, wzr
.LBB6_3:
	mov	w0, w8
	ret
.LBB6_4:
	cmp	xzr, x3
	b.ne	.LBB6_2
.LBB6_5:
	and	w8, w3, #0x7
	add	w8, w8, #7
	lsr	w8, w8, #3
	adds	w8, w8, w3, lsr #3
	b.eq	.LBB6_27
	cmp	x3, #8
	b.hs	.LBB6_28
	lsl	x8, x8, #3
	mov	x13, xzr
	sub	x11, x3, #6
	sub	x12, x3, #2
	add	w14, w1, #12
	sub	x10, x8, #8
.LBB6_8:
	mov	w14, w14
	cmp	x9, x14
	b.ls	.LBB6_15
	ldr	x8, [x0]
	ldr	x8, [x8, x14, lsl #3]
	cmp	x3, #7
	b.hi	.LBB6_16
.LBB6_10:
	cmp	x3, #4
	b.hs	.LBB6_17
	cmp	x3, #1
	b.eq	.LBB6_20
	mov	x15, x3
	cbz	x3, .LBB6_25
	ldrh	w15, [x2, x13]
	cmp	x12, x13
	b.eq	.LBB6_25
	add	x16, x2, x13
	ldrb	w16, [x16, #2]
	orr	x15, x15, x16, lsl #16
	b	.LBB6_25
.LBB6_15:
	mov	x8, xzr
	cmp	x3, #7
	b.ls	.LBB6_10
.LBB6_16:
	ldr	x15, [x2, x13]
	b	.LBB6_25
.LBB6_17:
	cmp	x3, #4
	add	x15, x2, x13
	b.eq	.LBB6_21
	cmp	x3, #5
	b.ne	.LBB6_22
	ldrb	w16, [x15, #4]
	b	.LBB6_24
.LBB6_20:
	ldrb	w15, [x2, x13]
	b	.LBB6_25
.LBB6_21:
	mov	x16, xzr
	b	.LBB6_24
.LBB6_22:
	add	x17, x2, x13
	ldrb	w16, [x15, #4]
	cmp	x11, x13
	ldrb	w18, [x17, #5]
	orr	x16, x16, x18, lsl #8
	b.eq	.LBB6_24
	ldrb	w17, [x17, #6]
	orr	x16, x16, x17, lsl #16
.LBB6_24:
	ldr	w15, [x15]
	orr	x15, x15, x16, lsl #32
.LBB6_25:
	cmp	x8, x15
	cset	w8, eq
	b.ne	.LBB6_3
	cmp	x10, x13
	add	x13, x13, #8
	sub	x3, x3, #8
	add	w14, w14, #1
	b.ne	.LBB6_8
	b	.LBB6_3
.LBB6_27:
	mov	w0, #1
	ret
.LBB6_28:
	mov	w10, #64
	add	x11, x2, x3
	sub	x12, x8, #1
	sub	x10, x10, x3, lsl #3
	add	w13, w1, #12
.LBB6_29:
	mov	w13, w13
	cmp	x9, x13
	b.ls	.LBB6_32
	ldr	x8, [x0]
	ldr	x8, [x8, x13, lsl #3]
	subs	x3, x3, #8
	b.hs	.LBB6_33
.LBB6_31:
	ldur	x14, [x11, #-8]
	lsr	x15, x14, x10
	subs	x12, x12, #1
	cset	w14, hs
	cmp	x8, x15
	cset	w8, eq
	b.eq	.LBB6_34
	b	.LBB6_3
.LBB6_32:
	mov	x8, xzr
	subs	x3, x3, #8
	b.lo	.LBB6_31
.LBB6_33:
	ldr	x15, [x2]
	subs	x12, x12, #1
	cset	w14, hs
	cmp	x8, x15
	cset	w8, eq
	b.ne	.LBB6_3
.LBB6_34:
	add	w13, w13, #1
	add	x10, x10, #64
	add	x2, x2, #8
	tbnz	w14, #0, .LBB6_29
	b	.LBB6_3
.Lfunc_end6:
	.size	"entry_slots::reading::has_key_at::<#feb48aca4256a9fc>", .Lfunc_end6-"entry_slots::reading::has_key_at::<#feb48aca4256a9fc>"

	.section	".text.counter_entry::looking::look_for::<#feb48aca4256a9fc>","ax",@progbits
	.p2align	2
	.type	"counter_entry::looking::look_for::<#feb48aca4256a9fc>",@function
"counter_entry::looking::look_for::<#feb48aca4256a9fc>":
	stp	x29, x30, [sp, #-96]!
	stp	x26, x25, [sp, #32]
	ldr	x26, [x2, #8]
	mov	w8, w5
	stp	x20, x19, [sp, #80]
	mov	x19, x0
	mov	x29, sp
	cmp	x26, x8
	stp	x28, x27, [sp, #16]
	stp	x24, x23, [sp, #48]
	stp	x22, x21, [sp, #64]
	b.ls	.LBB7_13
	mov	w25, w1
	cbz	w1, .LBB7_13
	ldr	x27, [x2]
	mov	x23, x2
	ldr	x20, [x27, x8, lsl #3]
	cbz	w20, .LBB7_13
	mov	x22, x6
	mov	x21, x4
	mov	x24, x3
	mov	w28, #1
.LBB7_4:
	mov	x0, x23
	mov	w1, w20
	mov	x2, x24
	mov	x3, x21
	bl	"entry_slots::reading::has_key_at::<#feb48aca4256a9fc>"
	tbnz	w0, #0, .LBB7_8
	add	w8, w20, #1
	cmp	x26, x8
	b.ls	.LBB7_13
	cmp	w28, w25
	b.hs	.LBB7_13
	ldr	x20, [x27, x8, lsl #3]
	add	w28, w28, #1
	cbnz	w20, .LBB7_4
	b	.LBB7_13
.LBB7_8:
	add	w8, w20, #4
	cmp	x26, x8
	b.ls	.LBB7_15
	ldr	x8, [x27, x8, lsl #3]
	cbz	x8, .LBB7_15
	add	w9, w20, #5
	cmp	x26, x9
	b.ls	.LBB7_12
	ldr	x9, [x27, x9, lsl #3]
	adds	x8, x8, x9
	csinv	x8, x8, xzr, lo
.LBB7_12:
	cmp	x8, x22
	b.hs	.LBB7_15
.LBB7_13:
	stp	xzr, xzr, [x19]
.LBB7_14:
	ldp	x20, x19, [sp, #80]
	ldp	x22, x21, [sp, #64]
	ldp	x24, x23, [sp, #48]
	ldp	x26, x25, [sp, #32]
	ldp	x28, x27, [sp, #16]
	ldp	x29, x30, [sp], #96
	ret
.LBB7_15:
	lsr	w8, w21, #3
	and	w9, w21, #0x7
	add	w9, w9, #7
	add	w8, w8, w9, lsr #3
	add	w8, w8, w20
	add	w8, w8, #12
	cmp	x26, x8
	b.ls	.LBB7_19
	ldr	x9, [x27, x8, lsl #3]
	and	x9, x9, #0x7
	cmp	x9, #2
	b.ne	.LBB7_19
	add	w8, w8, #1
	cmp	x26, x8
	b.ls	.LBB7_20
	ldr	x8, [x27, x8, lsl #3]
	b	.LBB7_21
.LBB7_19:
	mov	w20, wzr
	mov	x8, xzr
	mov	w9, #1
	b	.LBB7_22
.LBB7_20:
	mov	x8, xzr
.LBB7_21:
	mov	w9, #2
.LBB7_22:
	stp	w9, w20, [x19]
	str	x8, [x19, #8]
	b	.LBB7_14
.Lfunc_end7:
	.size	"counter_entry::looking::look_for::<#feb48aca4256a9fc>", .Lfunc_end7-"counter_entry::looking::look_for::<#feb48aca4256a9fc>"

	.section	".text.cache_core::cache::Core::store_content::<#dd204406e0587c1d>","ax",@progbits
	.p2align	2
	.type	"cache_core::cache::Core::store_content::<#dd204406e0587c1d>",@function
"cache_core::cache::Core::store_content::<#dd204406e0587c1d>":
	sub	sp, sp, #192
	ldr	w8, [x0, #148]
	stp	x28, x27, [sp, #112]
	mov	x28, x5
	stp	x24, x23, [sp, #144]
	mov	x23, x3
	mov	x3, x2
	stp	x22, x21, [sp, #160]
	mov	w22, w7
	mov	x21, x1
	stp	x20, x19, [sp, #176]
	mov	x19, x0
	mov	w20, w4
	stp	x29, x30, [sp, #96]
	add	x29, sp, #96
	stp	x26, x25, [sp, #128]
	cbz	w8, .LBB8_3
	cmp	w8, #1
	b.ne	.LBB8_5
	ldp	w8, w9, [x19, #136]
	subs	w8, w8, w9
	csel	w8, wzr, w8, lo
.LBB8_3:
	ldrb	w26, [x28]
	cmp	w26, #1
	b.le	.LBB8_6
.LBB8_4:
	sub	w9, w26, #2
	mov	w10, #2
	cmp	w9, #2
	csinc	x9, x10, xzr, hs
	b	.LBB8_9
.LBB8_5:
	ldr	w9, [x19, #136]
	udiv	w8, w9, w8
	ldrb	w26, [x28]
	cmp	w26, #1
	b.gt	.LBB8_4
.LBB8_6:
	cbnz	w26, .LBB8_8
	ldr	x9, [x28, #8]
	ldr	x9, [x9, #56]
	b	.LBB8_9
.LBB8_8:
	ldr	w9, [x28, #16]
	lsr	w10, w9, #3
	and	w9, w9, #0x7
	add	w9, w9, #7
	add	w9, w10, w9, lsr #3
	add	w9, w9, #1
.LBB8_9:
	and	w10, w23, #0x7
	lsr	w11, w23, #3
	add	w10, w10, #7
	add	w10, w11, w10, lsr #3
	add	w24, w10, #12
	add	x9, x9, x24
	and	x10, x9, #0x1
	add	x9, x10, x9
	cmp	x9, w8, uxtw
	b.ls	.LBB8_11
	mov	w0, wzr
	b	.LBB8_110
.LBB8_11:
	ldr	x25, [x29, #96]
	stur	x3, [x29, #-40]
	cbz	w22, .LBB8_19
	mov	w27, w6
	ldr	w6, [x19, #144]
	sub	x0, x29, #16
	mov	x1, x19
	mov	x2, x21
	mov	x4, x23
	mov	w5, w20
	mov	x7, x25
	stp	xzr, xzr, [x29, #-16]
	bl	"entry_slots::slots::EntrySlots::seek::<#feb48aca4256a9fc>"
	ldur	w8, [x29, #-8]
	cbz	w8, .LBB8_23
	ldr	x10, [x21, #8]
	mov	w12, w8
	add	w8, w8, #4
	cmp	x10, x8
	b.ls	.LBB8_18
	ldr	x9, [x21]
	ldr	x8, [x9, x8, lsl #3]
	cbz	x8, .LBB8_18
	add	w11, w12, #5
	cmp	x10, x11
	b.ls	.LBB8_17
	ldr	x9, [x9, x11, lsl #3]
	adds	x8, x8, x9
	csinv	x8, x8, xzr, lo
.LBB8_17:
	cmp	x8, x25
	b.lo	.LBB8_24
.LBB8_18:
	mov	w0, #1
	b	.LBB8_110
.LBB8_19:
	str	w20, [sp, #48]
	mov	w27, wzr
	str	wzr, [sp, #20]
	str	xzr, [sp, #24]
	ldr	w20, [x19, #104]
	stur	w6, [x29, #-44]
	cbnz	w20, .LBB8_25
.LBB8_20:
	cmp	w26, #1
	b.le	.LBB8_47
.LBB8_21:
	sub	w8, w26, #2
	cmp	w8, #2
	b.hs	.LBB8_49
	mov	w8, #1
	b	.LBB8_51
.LBB8_23:
	mov	w12, w8
.LBB8_24:
	ldurb	w8, [x29, #-4]
	mov	w6, w27
	mov	w27, w12
	str	w20, [sp, #48]
	str	w8, [sp, #20]
	ldur	x8, [x29, #-16]
	str	x8, [sp, #24]
	ldr	w20, [x19, #104]
	stur	w6, [x29, #-44]
	cbz	w20, .LBB8_20
.LBB8_25:
	str	w22, [sp, #36]
	mov	x22, x28
	b	.LBB8_29
.LBB8_26:
	str	w28, [x19, #104]
.LBB8_27:
	mov	x0, x19
	mov	x1, x21
	mov	w2, w20
	bl	"entry_slots::slots::EntrySlots::free_unlinked::<#dd204406e0587c1d>"
.LBB8_28:
	mov	w20, w26
	cbz	w26, .LBB8_46
.LBB8_29:
	ldr	x8, [x21, #8]
	add	w28, w20, #1
	cmp	x8, x28
	b.ls	.LBB8_31
	ldr	x8, [x21]
	ldr	x26, [x8, x28, lsl #3]
	mov	x0, x21
	mov	w1, w20
	bl	"ttl_expunge::expunge::is_let_go::<#dd204406e0587c1d>"
	cbz	w0, .LBB8_28
	b	.LBB8_32
.LBB8_31:
	mov	w26, wzr
	mov	x0, x21
	mov	w1, w20
	bl	"ttl_expunge::expunge::is_let_go::<#dd204406e0587c1d>"
	cbz	w0, .LBB8_28
.LBB8_32:
	ldr	w10, [x19, #4]
	cbz	w10, .LBB8_27
	ldr	w11, [x19, #104]
	cmp	w11, w20
	b.ne	.LBB8_37
	ldr	x8, [x21, #8]
	mov	w9, wzr
.LBB8_35:
	cmp	x8, x28
	b.ls	.LBB8_42
	ldr	x10, [x21]
	lsl	x11, x28, #3
	ldr	w28, [x10, x11]
	cbnz	w9, .LBB8_43
	b	.LBB8_26
.LBB8_37:
	cbz	w11, .LBB8_27
	ldr	x8, [x21, #8]
	add	w9, w11, #1
	cmp	x8, x9
	b.ls	.LBB8_40
	ldr	x11, [x21]
	ldr	x11, [x11, x9, lsl #3]
	subs	w10, w10, #1
	b.ne	.LBB8_41
	b	.LBB8_27
.LBB8_40:
	mov	w11, wzr
	subs	w10, w10, #1
	b.eq	.LBB8_27
.LBB8_41:
	cmp	w11, w20
	b.ne	.LBB8_37
	b	.LBB8_35
.LBB8_42:
	mov	x28, xzr
	cbz	w9, .LBB8_26
.LBB8_43:
	mov	w1, w9
	cmp	x8, x1
	b.ls	.LBB8_45
	ldr	x8, [x21]
	str	x28, [x8, x1, lsl #3]
	b	.LBB8_27
.LBB8_45:
	mov	x0, x21
	bl	"late_words::late_words::LateWords::pad"
	ldp	x9, x8, [x21]
	str	x28, [x9, x8, lsl #3]
	add	x8, x8, #1
	str	x8, [x21, #8]
	b	.LBB8_27
.LBB8_46:
	mov	x28, x22
	ldrb	w26, [x22]
	ldr	w22, [sp, #36]
	cmp	w26, #1
	b.gt	.LBB8_21
.LBB8_47:
	cbnz	w26, .LBB8_50
	ldr	x8, [x28, #8]
	ldr	x8, [x8, #56]
	b	.LBB8_51
.LBB8_49:
	mov	w8, #2
	b	.LBB8_51
.LBB8_50:
	ldr	w8, [x28, #16]
	lsr	w9, w8, #3
	and	w8, w8, #0x7
	add	w8, w8, #7
	add	w8, w9, w8, lsr #3
	add	w8, w8, #1
.LBB8_51:
	add	w24, w8, w24
	ldr	w8, [x19, #120]
	ldr	w20, [x19, #144]
	mov	x0, x19
	mov	x1, x21
	str	w8, [sp, #40]
	and	w8, w24, #0x1
	add	w2, w8, w24
	bl	"entry_slots::slots::EntrySlots::take::<#dd204406e0587c1d>"
	and	w8, w0, #0xff
	cmp	w8, #1
	b.ne	.LBB8_53
	mov	w26, w1
	cbnz	w22, .LBB8_96
	b	.LBB8_104
.LBB8_53:
	and	w26, w24, #0x1
	str	w27, [sp, #16]
	cbz	w20, .LBB8_93
	ldr	x8, [x19, #128]
	cmp	x25, x8
	b.ls	.LBB8_93
	str	w22, [sp, #36]
	mov	x22, x28
	ldr	w28, [x19]
	cbz	w28, .LBB8_70
	ldr	x8, [x21, #8]
	mov	x9, xzr
	b	.LBB8_58
.LBB8_57:
	add	x9, x9, #1
	cmp	x9, x28
	b.eq	.LBB8_70
.LBB8_58:
	cmp	x8, x9
	b.ls	.LBB8_57
	ldr	x10, [x21]
	ldr	x11, [x10, x9, lsl #3]
	cbz	w11, .LBB8_57
.LBB8_60:
	add	w12, w11, #4
	cmp	x8, x12
	b.ls	.LBB8_64
	ldr	x12, [x10, x12, lsl #3]
	cbz	x12, .LBB8_64
	add	w13, w11, #5
	cmp	x8, x13
	b.ls	.LBB8_67
	ldr	x13, [x10, x13, lsl #3]
	adds	x12, x12, x13
	b	.LBB8_66
.LBB8_64:
	add	w13, w11, #7
	mov	x12, x20
	cmp	x8, x13
	b.ls	.LBB8_67
	ldr	x12, [x10, x13, lsl #3]
	adds	x12, x20, x12
.LBB8_66:
	csinv	x12, x12, xzr, lo
.LBB8_67:
	cmp	x12, x25
	b.hs	.LBB8_71
	add	w11, w11, #1
	cmp	x8, x11
	b.ls	.LBB8_57
	ldr	x11, [x10, x11, lsl #3]
	cbnz	w11, .LBB8_60
	b	.LBB8_57
.LBB8_70:
	mov	x0, x19
	mov	x1, x21
	mov	x2, x25
	bl	"ttl_expunge::at_once::expunge_at_once::<#dd204406e0587c1d>"
	mov	x28, x22
	ldr	w22, [sp, #36]
	b	.LBB8_93
.LBB8_71:
	mov	w26, wzr
.LBB8_72:
	mov	x0, x19
	mov	x1, x21
	mov	w2, w26
	mov	w3, #1
	mov	w4, w20
	mov	x5, x25
	bl	"ttl_expunge::chains::drop_chain::<#dd204406e0587c1d>"
	add	w26, w26, #1
	cmp	w28, w26
	b.ne	.LBB8_72
	ldr	w8, [x19]
	cbz	w8, .LBB8_91
	ldr	x11, [x21, #8]
	mov	x28, x22
	ldr	w22, [sp, #36]
	mov	x10, xzr
	mov	x9, #-1
	and	w26, w24, #0x1
	b	.LBB8_76
.LBB8_75:
	add	x10, x10, #1
	cmp	x10, x8
	b.eq	.LBB8_92
.LBB8_76:
	cmp	x11, x10
	b.ls	.LBB8_75
	ldr	w12, [x19, #120]
	cbz	w12, .LBB8_75
	ldr	x13, [x21]
	ldr	x15, [x13, x10, lsl #3]
	cbz	w15, .LBB8_75
	mov	w14, #1
.LBB8_80:
	add	w16, w15, #4
	cmp	x11, x16
	b.ls	.LBB8_85
	ldr	x16, [x13, x16, lsl #3]
	cbz	x16, .LBB8_85
	add	w17, w15, #5
	cmp	x11, x17
	b.ls	.LBB8_84
	ldr	x17, [x13, x17, lsl #3]
	adds	x16, x16, x17
	csinv	x16, x16, xzr, lo
.LBB8_84:
	cmp	x16, x9
	csel	x9, x16, x9, lo
	add	w15, w15, #1
	cmp	x11, x15
	b.hi	.LBB8_89
	b	.LBB8_75
.LBB8_85:
	add	w16, w15, #7
	cmp	x11, x16
	b.ls	.LBB8_87
	ldr	x16, [x13, x16, lsl #3]
	b	.LBB8_88
.LBB8_87:
	mov	x16, xzr
.LBB8_88:
	ldr	w17, [x19, #124]
	adds	x16, x17, x16
	csinv	x16, x16, xzr, lo
	cmp	x16, x9
	csel	x16, x16, x9, lo
	cmp	w17, #0
	csel	x9, x9, x16, eq
	add	w15, w15, #1
	cmp	x11, x15
	b.ls	.LBB8_75
.LBB8_89:
	cmp	w14, w12
	b.hs	.LBB8_75
	ldr	x15, [x13, x15, lsl #3]
	add	w14, w14, #1
	cbnz	w15, .LBB8_80
	b	.LBB8_75
.LBB8_91:
	mov	x28, x22
	ldr	w22, [sp, #36]
	mov	x9, #-1
	and	w26, w24, #0x1
.LBB8_92:
	str	x9, [x19, #128]
.LBB8_93:
	add	w2, w26, w24
	mov	x0, x19
	mov	x1, x21
	bl	"entry_slots::slots::EntrySlots::take::<#dd204406e0587c1d>"
	and	w8, w0, #0xff
	and	w27, w24, #0x1
	cmp	w8, #1
	b.eq	.LBB8_95
	mov	x0, x19
	mov	x1, x21
	mov	x2, x25
	bl	"ttl_expunge::at_once::expunge_at_once::<#dd204406e0587c1d>"
	add	w2, w27, w24
	mov	x0, x19
	mov	x1, x21
	bl	"entry_slots::slots::EntrySlots::take::<#dd204406e0587c1d>"
	ldr	x8, [x19, #176]
	and	w9, w0, #0xff
	stp	xzr, xzr, [x19, #152]
	adds	x8, x8, #1
	csinv	x8, x8, xzr, lo
	cmp	w9, #1
	stp	xzr, x8, [x19, #168]
	b.ne	.LBB8_111
.LBB8_95:
	ldr	w27, [sp, #16]
	mov	w26, w1
	cbz	w22, .LBB8_104
.LBB8_96:
	ldr	w8, [x19, #120]
	ldr	w9, [sp, #40]
	cmp	w8, w9
	b.ne	.LBB8_104
	ldr	w3, [sp, #20]
	mov	x0, x19
	mov	x1, x21
	mov	w2, w27
	mov	w4, w20
	mov	x5, x25
	bl	"entry_slots::slots::EntrySlots::has_expired::<#feb48aca4256a9fc>"
	ldr	x8, [sp, #24]
	tbz	w0, #0, .LBB8_101
	str	x28, [sp, #40]
	ldur	x28, [x29, #-40]
	ldr	w22, [sp, #48]
	sub	x0, x29, #32
	mov	x1, x19
	mov	x2, x21
	mov	x3, x28
	mov	x4, x23
	mov	w5, w22
	mov	w6, w20
	mov	x7, x25
	stp	xzr, xzr, [x29, #-16]
	stp	xzr, xzr, [x29, #-32]
	sub	x24, x29, #32
	bl	"entry_slots::slots::EntrySlots::seek::<#feb48aca4256a9fc>"
	ldur	w27, [x29, #-24]
	ldurb	w3, [x29, #-20]
	mov	x0, x19
	mov	x1, x21
	mov	w4, w20
	mov	x5, x25
	mov	w2, w27
	bl	"entry_slots::slots::EntrySlots::has_expired::<#feb48aca4256a9fc>"
	cbz	w0, .LBB8_100
	mov	x0, x19
	mov	x1, x21
	mov	w2, w22
	mov	w3, #1
	mov	w4, w20
	mov	x5, x25
	bl	"ttl_expunge::chains::drop_chain::<#dd204406e0587c1d>"
	sub	x0, x29, #16
	mov	x1, x19
	mov	x2, x21
	mov	x3, x28
	mov	x4, x23
	mov	w5, w22
	mov	w6, w20
	mov	x7, x25
	sub	x24, x29, #16
	bl	"entry_slots::slots::EntrySlots::seek::<#feb48aca4256a9fc>"
	ldur	w27, [x29, #-8]
.LBB8_100:
	ldr	x8, [x24]
	ldr	x28, [sp, #40]
.LBB8_101:
	lsr	x24, x8, #32
	cbz	w27, .LBB8_107
.LBB8_102:
	mov	x0, x21
	mov	w1, w27
	bl	"ttl_expunge::expunge::is_let_go::<#dd204406e0587c1d>"
	ldur	x3, [x29, #-40]
	ldur	w6, [x29, #-44]
	mov	w20, w0
	mov	x0, x19
	mov	x1, x21
	mov	w2, w26
	mov	x4, x23
	mov	x5, x28
	mov	x7, x25
	str	w27, [sp, #8]
	str	w24, [sp]
	bl	"entry_slots::slots::EntrySlots::link_at::<#dd204406e0587c1d>"
	mov	x0, x19
	mov	x1, x21
	mov	w2, w27
	cbz	w20, .LBB8_108
	bl	"entry_slots::slots::EntrySlots::free_unlinked::<#dd204406e0587c1d>"
	b	.LBB8_109
.LBB8_104:
	str	x28, [sp, #40]
	ldur	x28, [x29, #-40]
	ldr	w22, [sp, #48]
	sub	x0, x29, #32
	mov	x1, x19
	mov	x2, x21
	mov	x3, x28
	mov	x4, x23
	mov	w5, w22
	mov	w6, w20
	mov	x7, x25
	stp	xzr, xzr, [x29, #-16]
	stp	xzr, xzr, [x29, #-32]
	sub	x24, x29, #32
	bl	"entry_slots::slots::EntrySlots::seek::<#feb48aca4256a9fc>"
	ldur	w2, [x29, #-24]
	ldurb	w3, [x29, #-20]
	mov	x0, x19
	mov	x1, x21
	mov	w4, w20
	mov	x5, x25
	mov	w27, w2
	bl	"entry_slots::slots::EntrySlots::has_expired::<#feb48aca4256a9fc>"
	cbz	w0, .LBB8_106
	mov	x0, x19
	mov	x1, x21
	mov	w2, w22
	mov	w3, #1
	mov	w4, w20
	mov	x5, x25
	bl	"ttl_expunge::chains::drop_chain::<#dd204406e0587c1d>"
	sub	x0, x29, #16
	mov	x1, x19
	mov	x2, x21
	mov	x3, x28
	mov	x4, x23
	mov	w5, w22
	mov	w6, w20
	mov	x7, x25
	sub	x24, x29, #16
	bl	"entry_slots::slots::EntrySlots::seek::<#feb48aca4256a9fc>"
	ldur	w27, [x29, #-8]
.LBB8_106:
	ldr	x28, [sp, #40]
	ldr	x8, [x24]
	lsr	x24, x8, #32
	cbnz	w27, .LBB8_102
.LBB8_107:
	ldur	x3, [x29, #-40]
	ldur	w6, [x29, #-44]
	mov	x0, x19
	mov	x1, x21
	mov	w2, w26
	mov	x4, x23
	mov	x5, x28
	mov	x7, x25
	str	wzr, [sp, #8]
	str	w24, [sp]
	bl	"entry_slots::slots::EntrySlots::link_at::<#dd204406e0587c1d>"
	b	.LBB8_109
.LBB8_108:
	mov	x3, x25
	bl	"entry_slots::slots::EntrySlots::to_removed::<#dd204406e0587c1d>"
.LBB8_109:
	ldr	x8, [x19, #168]
	mov	w0, #3
	adds	x8, x8, #1
	csinv	x8, x8, xzr, lo
	str	x8, [x19, #168]
.LBB8_110:
	ldp	x20, x19, [sp, #176]
	ldp	x22, x21, [sp, #160]
	ldp	x24, x23, [sp, #144]
	ldp	x26, x25, [sp, #128]
	ldp	x28, x27, [sp, #112]
	ldp	x29, x30, [sp, #96]
	add	sp, sp, #192
	ret
.LBB8_111:
	mov	w0, #2
	b	.LBB8_110
.Lfunc_end8:
	.size	"cache_core::cache::Core::store_content::<#dd204406e0587c1d>", .Lfunc_end8-"cache_core::cache::Core::store_content::<#dd204406e0587c1d>"

	.section	".text.entry_slots::slots::EntrySlots::seek::<#feb48aca4256a9fc>","ax",@progbits
	.p2align	2
	.type	"entry_slots::slots::EntrySlots::seek::<#feb48aca4256a9fc>",@function
"entry_slots::slots::EntrySlots::seek::<#feb48aca4256a9fc>":
	sub	sp, sp, #128
	stp	x28, x27, [sp, #48]
	ldr	x28, [x2, #8]
	mov	w8, w5
	stp	x29, x30, [sp, #32]
	add	x29, sp, #32
	stp	x26, x25, [sp, #64]
	mov	x25, x1
	cmp	x28, x8
	stp	x24, x23, [sp, #80]
	mov	x24, x3
	stp	x22, x21, [sp, #96]
	mov	x21, x7
	mov	x22, x2
	stp	x20, x19, [sp, #112]
	stur	x4, [x29, #-8]
	b.ls	.LBB9_19
	ldr	x9, [x22]
	ldr	x26, [x9, x8, lsl #3]
	ldr	w20, [x25, #120]
	mov	w27, wzr
	str	x0, [sp, #8]
	str	w5, [sp, #4]
	cbz	w20, .LBB9_20
.LBB9_2:
	cbz	w6, .LBB9_22
	mov	w8, w6
	mov	w23, w5
	str	x8, [sp, #16]
	b	.LBB9_5
.LBB9_4:
	ldr	x9, [x22]
	ldr	x26, [x9, x23, lsl #3]
	subs	w20, w20, #1
	orr	w27, w27, w8
	mov	w19, w23
	b.eq	.LBB9_21
.LBB9_5:
	cbz	w26, .LBB9_37
	ldur	x3, [x29, #-8]
	mov	x0, x22
	mov	w1, w26
	mov	x2, x24
	bl	"entry_slots::reading::has_key_at::<#feb48aca4256a9fc>"
	cbnz	w0, .LBB9_40
	ldr	x8, [x25, #128]
	cmp	x21, x8
	b.ls	.LBB9_13
	add	w8, w26, #4
	cmp	x28, x8
	b.ls	.LBB9_14
	ldr	x9, [x22]
	ldr	x8, [x9, x8, lsl #3]
	cbz	x8, .LBB9_14
	add	w10, w26, #5
	cmp	x28, x10
	b.ls	.LBB9_12
	ldr	x9, [x9, x10, lsl #3]
	adds	x8, x8, x9
	csinv	x8, x8, xzr, lo
.LBB9_12:
	cmp	x8, x21
	b	.LBB9_17
.LBB9_13:
	mov	w8, wzr
	add	w23, w26, #1
	cmp	x28, x23
	b.hi	.LBB9_4
	b	.LBB9_18
.LBB9_14:
	add	w8, w26, #7
	ldr	x9, [sp, #16]
	cmp	x28, x8
	b.ls	.LBB9_16
	ldr	x9, [x22]
	ldr	x8, [x9, x8, lsl #3]
	ldr	x9, [sp, #16]
	adds	x8, x9, x8
	csinv	x9, x8, xzr, lo
.LBB9_16:
	cmp	x9, x21
.LBB9_17:
	cset	w8, lo
	add	w23, w26, #1
	cmp	x28, x23
	b.hi	.LBB9_4
.LBB9_18:
	mov	w26, wzr
	subs	w20, w20, #1
	orr	w27, w27, w8
	mov	w19, w23
	b.ne	.LBB9_5
	b	.LBB9_21
.LBB9_19:
	mov	w26, wzr
	ldr	w20, [x25, #120]
	mov	w27, wzr
	str	x0, [sp, #8]
	str	w5, [sp, #4]
	cbnz	w20, .LBB9_2
.LBB9_20:
	mov	w19, w5
.LBB9_21:
	ldr	x9, [sp, #8]
	ldr	w8, [sp, #4]
	stp	w8, w19, [x9]
	b	.LBB9_38
.LBB9_22:
	mov	w19, w5
	b	.LBB9_24
.LBB9_23:
	ldr	x9, [x22]
	ldr	x26, [x9, x19, lsl #3]
	subs	w20, w20, #1
	orr	w27, w27, w8
	b.eq	.LBB9_21
.LBB9_24:
	cbz	w26, .LBB9_36
	ldur	x3, [x29, #-8]
	mov	x0, x22
	mov	w1, w26
	mov	x2, x24
	bl	"entry_slots::reading::has_key_at::<#feb48aca4256a9fc>"
	tbnz	w0, #0, .LBB9_39
	ldr	x8, [x25, #128]
	cmp	x21, x8
	b.ls	.LBB9_32
	add	w8, w26, #4
	cmp	x28, x8
	b.ls	.LBB9_35
	ldr	x9, [x22]
	ldr	x8, [x9, x8, lsl #3]
	cbz	x8, .LBB9_33
	add	w10, w26, #5
	cmp	x28, x10
	b.ls	.LBB9_31
	ldr	x9, [x9, x10, lsl #3]
	adds	x8, x8, x9
	csinv	x8, x8, xzr, lo
.LBB9_31:
	cmp	x8, x21
	cset	w8, lo
	add	w19, w26, #1
	cmp	x28, x19
	b.hi	.LBB9_23
	b	.LBB9_34
.LBB9_32:
	mov	w8, wzr
.LBB9_33:
	add	w19, w26, #1
	cmp	x28, x19
	b.hi	.LBB9_23
.LBB9_34:
	mov	w26, wzr
	subs	w20, w20, #1
	orr	w27, w27, w8
	b.ne	.LBB9_24
	b	.LBB9_21
.LBB9_35:
	mov	w8, wzr
	add	w19, w26, #1
	cmp	x28, x19
	b.hi	.LBB9_23
	b	.LBB9_34
.LBB9_36:
	mov	w23, w19
.LBB9_37:
	ldr	x9, [sp, #8]
	ldr	w8, [sp, #4]
	stp	w8, w23, [x9]
.LBB9_38:
	and	w8, w27, #0x1
	str	wzr, [x9, #8]
	b	.LBB9_41
.LBB9_39:
	mov	w23, w19
.LBB9_40:
	ldr	x9, [sp, #8]
	ldr	w8, [sp, #4]
	stp	w8, w23, [x9]
	and	w8, w27, #0x1
	str	w26, [x9, #8]
.LBB9_41:
	ldp	x20, x19, [sp, #112]
	strb	w8, [x9, #12]
	ldp	x22, x21, [sp, #96]
	sturh	wzr, [x9, #13]
	strb	wzr, [x9, #15]
	ldp	x24, x23, [sp, #80]
	ldp	x26, x25, [sp, #64]
	ldp	x28, x27, [sp, #48]
	ldp	x29, x30, [sp, #32]
	add	sp, sp, #128
	ret
.Lfunc_end9:
	.size	"entry_slots::slots::EntrySlots::seek::<#feb48aca4256a9fc>", .Lfunc_end9-"entry_slots::slots::EntrySlots::seek::<#feb48aca4256a9fc>"

	.section	".text.ttl_expunge::expunge::is_let_go::<#dd204406e0587c1d>","ax",@progbits
	.p2align	2
	.type	"ttl_expunge::expunge::is_let_go::<#dd204406e0587c1d>",@function
"ttl_expunge::expunge::is_let_go::<#dd204406e0587c1d>":
	ldrb	w8, [x0, #288]
	cmp	w8, #1
	b.ne	.LBB10_16
	cbz	w1, .LBB10_16
	dup	v0.4s, w1
	ldp	q2, q1, [x0, #64]
	ldp	q3, q4, [x0, #32]
	cmeq	v1.4s, v1.4s, v0.4s
	cmeq	v2.4s, v2.4s, v0.4s
	cmeq	v4.4s, v4.4s, v0.4s
	cmeq	v3.4s, v3.4s, v0.4s
	uzp1	v1.8h, v2.8h, v1.8h
	uzp1	v2.8h, v3.8h, v4.8h
	uzp1	v1.16b, v2.16b, v1.16b
	umaxv	b1, v1.16b
	fmov	w8, s1
	tbz	w8, #0, .LBB10_4
	mov	x8, xzr
	b	.LBB10_10
.LBB10_4:
	ldp	q2, q1, [x0, #96]
	ldp	q4, q3, [x0, #128]
	cmeq	v1.4s, v1.4s, v0.4s
	cmeq	v2.4s, v2.4s, v0.4s
	cmeq	v4.4s, v4.4s, v0.4s
	cmeq	v3.4s, v3.4s, v0.4s
	uzp1	v1.8h, v2.8h, v1.8h
	uzp1	v2.8h, v4.8h, v3.8h
	uzp1	v1.16b, v1.16b, v2.16b
	umaxv	b1, v1.16b
	fmov	w8, s1
	tbz	w8, #0, .LBB10_6
	mov	w8, #16
	b	.LBB10_10
.LBB10_6:
	ldp	q2, q1, [x0, #160]
	ldp	q4, q3, [x0, #192]
	cmeq	v1.4s, v1.4s, v0.4s
	cmeq	v2.4s, v2.4s, v0.4s
	cmeq	v4.4s, v4.4s, v0.4s
	cmeq	v3.4s, v3.4s, v0.4s
	uzp1	v1.8h, v2.8h, v1.8h
	uzp1	v2.8h, v4.8h, v3.8h
	uzp1	v1.16b, v1.16b, v2.16b
	umaxv	b1, v1.16b
	fmov	w8, s1
	tbz	w8, #0, .LBB10_8
	mov	w8, #32
	b	.LBB10_10
.LBB10_8:
	ldp	q2, q1, [x0, #224]
	ldp	q4, q3, [x0, #256]
	cmeq	v1.4s, v1.4s, v0.4s
	cmeq	v2.4s, v2.4s, v0.4s
	cmeq	v4.4s, v4.4s, v0.4s
	cmeq	v3.4s, v3.4s, v0.4s
	uzp1	v1.8h, v2.8h, v1.8h
	uzp1	v2.8h, v4.8h, v3.8h
	uzp1	v1.16b, v1.16b, v2.16b
	umaxv	b1, v1.16b
	fmov	w8, s1
	tbz	w8, #0, .LBB10_14
	mov	w8, #48
.LBB10_10:
	add	x9, x0, x8, lsl #2
	mov	w10, #65
	sub	x8, x10, x8
	add	x9, x9, #32
.LBB10_11:
	ldp	q1, q2, [x9], #32
	cmeq	v2.4s, v2.4s, v0.4s
	cmeq	v1.4s, v1.4s, v0.4s
	uzp1	v1.8h, v1.8h, v2.8h
	umaxv	h1, v1.8h
	fmov	w10, s1
	tbnz	w10, #0, .LBB10_13
	sub	x8, x8, #8
	cmp	x8, #1
	b.ne	.LBB10_11
	b	.LBB10_14
.LBB10_13:
	neg	x8, x8
	cmn	x8, #8
	b.lo	.LBB10_15
.LBB10_14:
	ldp	q1, q2, [x0, #256]
	cmeq	v2.4s, v2.4s, v0.4s
	cmeq	v0.4s, v1.4s, v0.4s
	uzp1	v0.8h, v0.8h, v2.8h
	umaxv	h0, v0.8h
	fmov	w8, s0
	tbz	w8, #0, .LBB10_16
.LBB10_15:
	ldr	w9, [x0, #292]
	sub	w9, w9, #1
	add	x10, x0, w9, uxtw #2
	str	w9, [x0, #292]
	mov	w0, wzr
	str	w1, [x10, #296]
	ret
.LBB10_16:
	mov	w0, #1
	ret
.Lfunc_end10:
	.size	"ttl_expunge::expunge::is_let_go::<#dd204406e0587c1d>", .Lfunc_end10-"ttl_expunge::expunge::is_let_go::<#dd204406e0587c1d>"

	.section	".text.entry_slots::slots::EntrySlots::free_unlinked::<#dd204406e0587c1d>","ax",@progbits
	.p2align	2
	.type	"entry_slots::slots::EntrySlots::free_unlinked::<#dd204406e0587c1d>",@function
"entry_slots::slots::EntrySlots::free_unlinked::<#dd204406e0587c1d>":
	sub	sp, sp, #112
	stp	x22, x21, [sp, #80]
	ldr	x22, [x1, #8]
	mov	w8, w2
	stp	x20, x19, [sp, #96]
	mov	w20, w2
	mov	x19, x1
	cmp	x22, x8
	mov	x21, x0
	stp	x29, x30, [sp, #16]
	stp	x28, x27, [sp, #32]
	add	x29, sp, #16
	stp	x26, x25, [sp, #48]
	stp	x24, x23, [sp, #64]
	b.ls	.LBB11_2
	ldr	x9, [x19]
	ldr	x8, [x9, x8, lsl #3]
	and	w23, w8, #0xfffffffe
	ldr	w8, [x21, #4]
	add	w28, w23, w20
	cmp	w28, w8
	b.lo	.LBB11_3
	b	.LBB11_12
.LBB11_2:
	mov	w23, wzr
	ldr	w8, [x21, #4]
	add	w28, wzr, w20
	cmp	w28, w8
	b.hs	.LBB11_12
.LBB11_3:
	ldr	x8, [x21, #24]
	and	x9, x28, #0xfffffffc
	ldr	w8, [x8, x9]
	ubfx	w9, w28, #1, #1
	and	w10, w8, #0x3
	cmp	w10, w9
	b.ne	.LBB11_9
.LBB11_4:
	lsr	w8, w8, #1
	add	w26, w23, w20
	and	w8, w8, #0x7ffffffe
	cbz	w8, .LBB11_8
	ldr	w9, [x21, #8]
	cbz	w9, .LBB11_7
.LBB11_6:
	udiv	w10, w28, w9
	msub	w9, w10, w9, w28
	cmp	w9, #0
	csel	w8, wzr, w8, eq
.LBB11_7:
	add	w26, w8, w28
.LBB11_8:
	lsr	w9, w20, #1
	tbz	w9, #0, .LBB11_16
	b	.LBB11_13
.LBB11_9:
	cmp	w10, #2
	b.ne	.LBB11_12
	cbnz	w9, .LBB11_4
	mov	w8, #2
	ldr	w9, [x21, #8]
	cbnz	w9, .LBB11_6
	b	.LBB11_7
.LBB11_12:
	add	w26, w23, w20
	lsr	w9, w20, #1
	tbz	w9, #0, .LBB11_16
.LBB11_13:
	lsl	x10, x9, #1
	ldur	x8, [x21, #24]
	and	x10, x10, #0xfffffffc
	ldr	w10, [x8, x10]
	and	w11, w10, #0x3
	cmp	w11, #2
	b.eq	.LBB11_21
	cbnz	w11, .LBB11_16
	cmp	w10, #4
	b.hs	.LBB11_21
.LBB11_16:
	ldp	x0, x1, [x21, #64]
	lsr	x4, x9, #1
	ldp	x2, x3, [x21, #88]
	bl	"max_tree::words::last_before"
	and	w8, w0, #0xff
	cmp	w8, #1
	b.ne	.LBB11_18
	ldur	x8, [x21, #24]
	ldr	w9, [x8, x1, lsl #2]
	tst	w9, #0x3
	cset	w9, ne
	orr	x24, x9, x1, lsl #1
	b	.LBB11_22
.LBB11_18:
	mov	w9, #1
	mov	w8, wzr
	mov	x24, xzr
	stur	w9, [x29, #-4]
	mov	w25, w20
	cmp	w28, w26
	b.hs	.LBB11_33
.LBB11_19:
	add	w8, w28, #1
	cmp	x22, x8
	b.ls	.LBB11_28
	ldr	x9, [x19]
	ldr	x27, [x9, x8, lsl #3]
	b	.LBB11_29
.LBB11_21:
	sub	x24, x9, #1
.LBB11_22:
	lsl	x9, x24, #1
	lsl	w25, w24, #1
	and	x9, x9, #0xfffffffffffffffc
	ldr	w8, [x8, x9]
	and	w9, w24, #0x1
	lsr	w11, w8, #1
	and	w10, w8, #0x3
	cmp	w10, w9
	and	w8, w11, #0x7ffffffe
	b.eq	.LBB11_25
	cmp	w10, #2
	b.ne	.LBB11_30
	cmp	w9, #0
	mov	w9, #2
	csel	w8, w9, w8, eq
.LBB11_25:
	add	w8, w8, w25
	cmp	w8, w20
	b.ne	.LBB11_31
.LBB11_26:
	ldr	w8, [x21, #8]
	cbz	w8, .LBB11_32
	udiv	w9, w20, w8
	stur	wzr, [x29, #-4]
	msub	w8, w9, w8, w20
	cmp	w8, #0
	csel	w25, w20, w25, eq
	mov	w8, #1
	cmp	w28, w26
	b.hs	.LBB11_33
	b	.LBB11_19
.LBB11_28:
	mov	x27, xzr
.LBB11_29:
	lsr	w1, w28, #1
	lsr	w2, w25, #1
	sub	w22, w26, w25
	add	x0, x21, #24
	mov	w3, w22
	bl	"max_tree::pairs::PairRow::move_to"
	b	.LBB11_47
.LBB11_30:
	add	w8, wzr, w25
	cmp	w8, w20
	b.eq	.LBB11_26
.LBB11_31:
	stur	wzr, [x29, #-4]
	mov	w8, #1
	mov	w25, w20
	cmp	w28, w26
	b.lo	.LBB11_19
	b	.LBB11_33
.LBB11_32:
	stur	wzr, [x29, #-4]
	mov	w8, #1
	cmp	w28, w26
	b.lo	.LBB11_19
.LBB11_33:
	cmp	w25, w20
	b.hs	.LBB11_36
	add	w8, w25, #1
	cmp	x22, x8
	b.ls	.LBB11_38
.LBB11_35:
	ldr	x9, [x19]
	ldr	x27, [x9, x8, lsl #3]
	lsr	w1, w25, #2
	ldur	x8, [x21, #24]
	ubfx	w10, w25, #1, #1
	sub	w22, w26, w25
	ldr	w2, [x8, w1, uxtw #2]
	cbnz	w2, .LBB11_40
	b	.LBB11_45
.LBB11_36:
	cbz	w8, .LBB11_39
	mov	w8, #1
	bfi	x8, x24, #1, #31
	cmp	x22, x8
	b.hi	.LBB11_35
.LBB11_38:
	mov	x27, xzr
	lsr	w1, w25, #2
	ldur	x8, [x21, #24]
	ubfx	w10, w25, #1, #1
	sub	w22, w26, w25
	ldr	w2, [x8, w1, uxtw #2]
	cbnz	w2, .LBB11_40
	b	.LBB11_45
.LBB11_39:
	ldr	w27, [x21, #12]
	lsr	w1, w25, #2
	ldur	x8, [x21, #24]
	ubfx	w10, w25, #1, #1
	sub	w22, w26, w25
	ldr	w2, [x8, w1, uxtw #2]
	cbz	w2, .LBB11_45
.LBB11_40:
	and	w9, w2, #0x3
	cmp	w9, w10
	b.eq	.LBB11_45
	lsr	w8, w2, #1
	and	w8, w8, #0x7ffffffe
	cbnz	w10, .LBB11_55
	sub	w9, w9, #3
	cmn	w9, #2
	b.lo	.LBB11_60
	cbz	w8, .LBB11_60
	cmp	w26, w25
	mov	w9, #1
	cinc	w9, w9, ne
	orr	w3, w9, w8, lsl #1
	b	.LBB11_46
.LBB11_45:
	orr	w8, w10, w22, lsl #1
	cmp	w26, w25
	csel	w3, wzr, w8, eq
.LBB11_46:
	add	x0, x21, #24
	bl	"max_tree::row::MaxRow::change"
.LBB11_47:
	ldr	w8, [x21, #16]
	mov	w9, w22
	add	x22, x9, #1
	add	w8, w8, w23
	mov	w23, w25
	str	w8, [x21, #16]
	ldr	x8, [x19, #8]
	cmp	x8, x23
	b.ls	.LBB11_61
	ldr	x8, [x19]
	str	x22, [x8, x23, lsl #3]
	ldr	x8, [x19, #8]
	add	w9, w25, #1
	cmp	x8, x9
	b.ls	.LBB11_62
.LBB11_49:
	ldr	x8, [x19]
	str	x27, [x8, x9, lsl #3]
	cmp	w25, w20
	b.ne	.LBB11_54
.LBB11_50:
	ldur	w8, [x29, #-4]
	tbz	w8, #0, .LBB11_52
	str	w20, [x21, #12]
	b	.LBB11_54
.LBB11_52:
	mov	w1, #1
	ldr	x8, [x19, #8]
	bfi	x1, x24, #1, #31
	cmp	x8, x1
	b.ls	.LBB11_65
	ldr	x8, [x19]
	str	x23, [x8, x1, lsl #3]
.LBB11_54:
	ldp	x20, x19, [sp, #96]
	ldp	x22, x21, [sp, #80]
	ldp	x24, x23, [sp, #64]
	ldp	x26, x25, [sp, #48]
	ldp	x28, x27, [sp, #32]
	ldp	x29, x30, [sp, #16]
	add	sp, sp, #112
	ret
.LBB11_55:
	cbz	w9, .LBB11_58
	cmp	w9, #2
	b.ne	.LBB11_63
	mov	w8, #2
.LBB11_58:
	cmp	w26, w25
	b.ne	.LBB11_64
.LBB11_59:
	lsl	w3, w8, #1
	b	.LBB11_46
.LBB11_60:
	lsl	w3, w22, #1
	b	.LBB11_46
.LBB11_61:
	mov	x0, x19
	mov	x1, x23
	bl	"late_words::late_words::LateWords::pad"
	ldp	x9, x8, [x19]
	str	x22, [x9, x8, lsl #3]
	add	x8, x8, #1
	str	x8, [x19, #8]
	add	w9, w25, #1
	cmp	x8, x9
	b.hi	.LBB11_49
.LBB11_62:
	add	w1, w25, #1
	mov	x0, x19
	bl	"late_words::late_words::LateWords::pad"
	ldp	x9, x8, [x19]
	str	x27, [x9, x8, lsl #3]
	add	x8, x8, #1
	str	x8, [x19, #8]
	cmp	w25, w20
	b.eq	.LBB11_50
	b	.LBB11_54
.LBB11_63:
	mov	w8, wzr
	cmp	w26, w25
	b.eq	.LBB11_59
.LBB11_64:
	lsl	w9, w22, #1
	cmp	w8, #0
	add	w10, w9, #2
	csinc	w3, w10, w9, ne
	b	.LBB11_46
.LBB11_65:
	mov	x0, x19
	bl	"late_words::late_words::LateWords::pad"
	ldp	x9, x8, [x19]
	str	x23, [x9, x8, lsl #3]
	add	x8, x8, #1
	str	x8, [x19, #8]
	b	.LBB11_54
.Lfunc_end11:
	.size	"entry_slots::slots::EntrySlots::free_unlinked::<#dd204406e0587c1d>", .Lfunc_end11-"entry_slots::slots::EntrySlots::free_unlinked::<#dd204406e0587c1d>"

	.section	".text.max_tree::pairs::PairRow::move_to","ax",@progbits
	.p2align	2
	.type	"max_tree::pairs::PairRow::move_to",@function
"max_tree::pairs::PairRow::move_to":
	stp	x29, x30, [sp, #-48]!
	stp	x20, x19, [sp, #32]
	mov	x20, x1
	lsr	x19, x1, #1
	lsr	x1, x2, #1
	mov	x8, x2
	str	x21, [sp, #16]
	mov	x29, sp
	cmp	x19, x1
	b.ne	.LBB12_2
	ldr	x9, [x0]
	bfi	w8, w3, #1, #31
	cmp	w3, #0
	ldr	w2, [x9, x19, lsl #2]
	csel	w3, wzr, w8, eq
	mov	x1, x19
	ldp	x20, x19, [sp, #32]
	ldr	x21, [sp, #16]
	ldp	x29, x30, [sp], #48
	b	"max_tree::row::MaxRow::change"
.LBB12_2:
	ldr	x9, [x0]
	and	w10, w8, #0x1
	ldr	w2, [x9, x1, lsl #2]
	cbz	w2, .LBB12_8
	and	w9, w2, #0x3
	cmp	w9, w10
	b.eq	.LBB12_8
	lsr	w8, w2, #1
	and	w8, w8, #0x7ffffffe
	cbnz	w10, .LBB12_9
	sub	w9, w9, #3
	cmn	w9, #2
	b.lo	.LBB12_14
	cbz	w8, .LBB12_14
	cmp	w3, #0
	mov	w9, #1
	cinc	w9, w9, ne
	orr	w3, w9, w8, lsl #1
	mov	x21, x0
	bl	"max_tree::row::MaxRow::change"
	ldr	x8, [x21]
	mov	w3, wzr
	ldr	w2, [x8, x19, lsl #2]
	cbnz	w2, .LBB12_17
	b	.LBB12_22
.LBB12_8:
	orr	w8, w10, w3, lsl #1
	cmp	w3, #0
	csel	w3, wzr, w8, eq
	mov	x21, x0
	bl	"max_tree::row::MaxRow::change"
	ldr	x8, [x21]
	mov	w3, wzr
	ldr	w2, [x8, x19, lsl #2]
	cbnz	w2, .LBB12_17
	b	.LBB12_22
.LBB12_9:
	cbz	w9, .LBB12_12
	cmp	w9, #2
	b.ne	.LBB12_15
	mov	w8, #2
.LBB12_12:
	cbz	w3, .LBB12_16
.LBB12_13:
	lsl	w9, w3, #1
	cmp	w8, #0
	add	w10, w9, #2
	csinc	w3, w10, w9, ne
	mov	x21, x0
	bl	"max_tree::row::MaxRow::change"
	ldr	x8, [x21]
	mov	w3, wzr
	ldr	w2, [x8, x19, lsl #2]
	cbnz	w2, .LBB12_17
	b	.LBB12_22
.LBB12_14:
	lsl	w3, w3, #1
	mov	x21, x0
	bl	"max_tree::row::MaxRow::change"
	ldr	x8, [x21]
	mov	w3, wzr
	ldr	w2, [x8, x19, lsl #2]
	cbnz	w2, .LBB12_17
	b	.LBB12_22
.LBB12_15:
	mov	w8, wzr
	cbnz	w3, .LBB12_13
.LBB12_16:
	lsl	w3, w8, #1
	mov	x21, x0
	bl	"max_tree::row::MaxRow::change"
	ldr	x8, [x21]
	mov	w3, wzr
	ldr	w2, [x8, x19, lsl #2]
	cbz	w2, .LBB12_22
.LBB12_17:
	and	w10, w20, #0x1
	and	w9, w2, #0x3
	cmp	w9, w10
	b.eq	.LBB12_22
	lsr	w8, w2, #1
	and	w8, w8, #0x7ffffffe
	cbnz	w10, .LBB12_23
	sub	w9, w9, #3
	mov	w3, wzr
	cmn	w9, #2
	b.lo	.LBB12_22
	cbz	w8, .LBB12_22
	mov	w9, #1
	orr	w3, w9, w8, lsl #1
.LBB12_22:
	mov	x0, x21
	mov	x1, x19
	ldp	x20, x19, [sp, #32]
	ldr	x21, [sp, #16]
	ldp	x29, x30, [sp], #48
	b	"max_tree::row::MaxRow::change"
.LBB12_23:
	cbz	w9, .LBB12_27
	cmp	w9, #2
	b.ne	.LBB12_26
	mov	w8, #2
	b	.LBB12_27
.LBB12_26:
	mov	w8, wzr
.LBB12_27:
	lsl	w3, w8, #1
	mov	x0, x21
	mov	x1, x19
	ldp	x20, x19, [sp, #32]
	ldr	x21, [sp, #16]
	ldp	x29, x30, [sp], #48
	b	"max_tree::row::MaxRow::change"
.Lfunc_end12:
	.size	"max_tree::pairs::PairRow::move_to", .Lfunc_end12-"max_tree::pairs::PairRow::move_to"

	.section	".text.ttl_expunge::chains::drop_chain::<#dd204406e0587c1d>","ax",@progbits
	.p2align	2
	.type	"ttl_expunge::chains::drop_chain::<#dd204406e0587c1d>",@function
"ttl_expunge::chains::drop_chain::<#dd204406e0587c1d>":
	ldr	x9, [x1, #8]
	mov	w8, w2
	cmp	x9, x8
	b.ls	.LBB13_32
	sub	sp, sp, #96
	ldr	x9, [x1]
	stp	x24, x23, [sp, #48]
	stp	x20, x19, [sp, #80]
	mov	x20, x1
	ldr	x23, [x9, x8, lsl #3]
	stp	x29, x30, [sp, #16]
	add	x29, sp, #16
	str	x25, [sp, #32]
	stp	x22, x21, [sp, #64]
	cbz	w23, .LBB13_31
	mov	x19, x5
	mov	w21, w2
	mov	x22, x0
	tbz	w3, #0, .LBB13_7
	cbz	w4, .LBB13_21
	mov	w24, w4
	mov	w25, w21
	b	.LBB13_11
.LBB13_5:
	ldr	x9, [x20]
	ldr	x24, [x9, x8, lsl #3]
.LBB13_6:
	mov	x2, sp
	mov	x0, x22
	mov	x1, x20
	mov	x3, x19
	stp	w21, w21, [sp]
	stp	w23, wzr, [sp, #8]
	bl	"ttl_expunge::expunge::drop_row_at::<#dd204406e0587c1d>"
	mov	w23, w24
	cbz	w24, .LBB13_31
.LBB13_7:
	ldr	x9, [x20, #8]
	add	w8, w23, #1
	cmp	x9, x8
	b.hi	.LBB13_5
	mov	w24, wzr
	b	.LBB13_6
.LBB13_9:
	mov	x2, sp
	mov	x0, x22
	mov	x1, x20
	mov	x3, x19
	bl	"ttl_expunge::expunge::drop_row_at::<#dd204406e0587c1d>"
	mov	w8, w25
.LBB13_10:
	mov	w25, w8
	cbz	w23, .LBB13_31
.LBB13_11:
	ldr	x10, [x20, #8]
	add	w8, w23, #1
	mov	w9, w23
	cmp	x10, x8
	b.ls	.LBB13_13
	ldr	x11, [x20]
	ldr	x23, [x11, x8, lsl #3]
	add	w11, w9, #4
	stp	w21, w25, [sp]
	cmp	x10, x11
	stp	w9, wzr, [sp, #8]
	b.hi	.LBB13_14
	b	.LBB13_18
.LBB13_13:
	mov	w23, wzr
	add	w11, w9, #4
	stp	w21, w25, [sp]
	cmp	x10, x11
	stp	w9, wzr, [sp, #8]
	b.ls	.LBB13_18
.LBB13_14:
	ldr	x12, [x20]
	ldr	x11, [x12, x11, lsl #3]
	cbz	x11, .LBB13_18
	add	w9, w9, #5
	cmp	x10, x9
	b.ls	.LBB13_17
	ldr	x9, [x12, x9, lsl #3]
	adds	x9, x11, x9
	csinv	x11, x9, xzr, lo
.LBB13_17:
	cmp	x11, x19
	b.lo	.LBB13_9
	b	.LBB13_10
.LBB13_18:
	add	w9, w9, #7
	cmp	x10, x9
	mov	x10, x24
	b.ls	.LBB13_20
	ldr	x10, [x20]
	ldr	x9, [x10, x9, lsl #3]
	adds	x9, x24, x9
	csinv	x10, x9, xzr, lo
.LBB13_20:
	cmp	x10, x19
	b.lo	.LBB13_9
	b	.LBB13_10
.LBB13_21:
	mov	w24, w21
	b	.LBB13_23
.LBB13_22:
	mov	w24, w8
	cbz	w23, .LBB13_31
.LBB13_23:
	ldr	x10, [x20, #8]
	add	w8, w23, #1
	mov	w9, w23
	cmp	x10, x8
	b.ls	.LBB13_25
	ldr	x11, [x20]
	ldr	x23, [x11, x8, lsl #3]
	add	w11, w9, #4
	stp	w21, w24, [sp]
	cmp	x10, x11
	stp	w9, wzr, [sp, #8]
	b.ls	.LBB13_22
	b	.LBB13_26
.LBB13_25:
	mov	w23, wzr
	add	w11, w9, #4
	stp	w21, w24, [sp]
	cmp	x10, x11
	stp	w9, wzr, [sp, #8]
	b.ls	.LBB13_22
.LBB13_26:
	ldr	x12, [x20]
	ldr	x11, [x12, x11, lsl #3]
	cbz	x11, .LBB13_22
	add	w9, w9, #5
	cmp	x10, x9
	b.ls	.LBB13_29
	ldr	x9, [x12, x9, lsl #3]
	adds	x9, x11, x9
	csinv	x11, x9, xzr, lo
.LBB13_29:
	cmp	x11, x19
	b.hs	.LBB13_22
	mov	x2, sp
	mov	x0, x22
	mov	x1, x20
	mov	x3, x19
	bl	"ttl_expunge::expunge::drop_row_at::<#dd204406e0587c1d>"
	mov	w8, w24
	b	.LBB13_22
.LBB13_31:
	ldp	x20, x19, [sp, #80]
	ldr	x25, [sp, #32]
	ldp	x22, x21, [sp, #64]
	ldp	x24, x23, [sp, #48]
	ldp	x29, x30, [sp, #16]
	add	sp, sp, #96
.LBB13_32:
	ret
.Lfunc_end13:
	.size	"ttl_expunge::chains::drop_chain::<#dd204406e0587c1d>", .Lfunc_end13-"ttl_expunge::chains::drop_chain::<#dd204406e0587c1d>"

	.section	".text.ttl_expunge::expunge::drop_row_at::<#dd204406e0587c1d>","ax",@progbits
	.p2align	2
	.type	"ttl_expunge::expunge::drop_row_at::<#dd204406e0587c1d>",@function
"ttl_expunge::expunge::drop_row_at::<#dd204406e0587c1d>":
	stp	x29, x30, [sp, #-80]!
	stp	x24, x23, [sp, #32]
	mov	x29, sp
	stp	x22, x21, [sp, #48]
	mov	x22, x0
	mov	x0, x1
	ldp	w23, w21, [x2, #4]
	stp	x20, x19, [sp, #64]
	mov	x20, x1
	mov	x19, x3
	str	x25, [sp, #16]
	mov	w1, w21
	bl	"ttl_expunge::expunge::is_let_go::<#dd204406e0587c1d>"
	cbz	w21, .LBB14_3
	ldr	x8, [x20, #8]
	add	w9, w21, #1
	cmp	x8, x9
	b.ls	.LBB14_8
	ldr	x10, [x20]
	lsl	x9, x9, #3
	ldr	w24, [x10, x9]
	cmp	x8, x23
	b.hi	.LBB14_4
	b	.LBB14_9
.LBB14_3:
	ldr	x8, [x20, #8]
	mov	x24, xzr
	cmp	x8, x23
	b.ls	.LBB14_9
.LBB14_4:
	ldr	x8, [x20]
	str	x24, [x8, x23, lsl #3]
.LBB14_5:
	ldr	w8, [x22, #120]
	ldr	x9, [x22, #128]
	subs	w8, w8, #1
	str	w8, [x22, #120]
	csinv	x8, x9, xzr, ne
	str	x8, [x22, #128]
	cbz	w0, .LBB14_7
	mov	x0, x22
	mov	x1, x20
	mov	w2, w21
	ldp	x20, x19, [sp, #64]
	ldr	x25, [sp, #16]
	ldp	x22, x21, [sp, #48]
	ldp	x24, x23, [sp, #32]
	ldp	x29, x30, [sp], #80
	b	"entry_slots::slots::EntrySlots::free_unlinked::<#dd204406e0587c1d>"
.LBB14_7:
	mov	x0, x22
	mov	x1, x20
	mov	w2, w21
	mov	x3, x19
	ldp	x20, x19, [sp, #64]
	ldp	x22, x21, [sp, #48]
	ldr	x25, [sp, #16]
	ldp	x24, x23, [sp, #32]
	ldp	x29, x30, [sp], #80
	b	"entry_slots::slots::EntrySlots::to_removed::<#dd204406e0587c1d>"
.LBB14_8:
	mov	x24, xzr
	cmp	x8, x23
	b.hi	.LBB14_4
.LBB14_9:
	mov	w25, w0
	mov	x0, x20
	mov	x1, x23
	bl	"late_words::late_words::LateWords::pad"
	ldp	x9, x8, [x20]
	mov	w0, w25
	str	x24, [x9, x8, lsl #3]
	add	x8, x8, #1
	str	x8, [x20, #8]
	b	.LBB14_5
.Lfunc_end14:
	.size	"ttl_expunge::expunge::drop_row_at::<#dd204406e0587c1d>", .Lfunc_end14-"ttl_expunge::expunge::drop_row_at::<#dd204406e0587c1d>"

	.section	".text.entry_slots::slots::EntrySlots::to_removed::<#dd204406e0587c1d>","ax",@progbits
	.p2align	2
	.type	"entry_slots::slots::EntrySlots::to_removed::<#dd204406e0587c1d>",@function
"entry_slots::slots::EntrySlots::to_removed::<#dd204406e0587c1d>":
	stp	x29, x30, [sp, #-48]!
	ldr	x9, [x1, #8]
	add	w8, w2, #1
	stp	x22, x21, [sp, #16]
	stp	x20, x19, [sp, #32]
	mov	x29, sp
	cmp	x9, x8
	b.ls	.LBB15_14
	ldr	x9, [x1]
	str	xzr, [x9, x8, lsl #3]
	ldr	x8, [x1, #8]
	add	w9, w2, #8
	cmp	x8, x9
	b.ls	.LBB15_15
.LBB15_2:
	ldr	x8, [x1]
	str	x3, [x8, x9, lsl #3]
	ldr	w9, [x0, #4]
	cbz	w9, .LBB15_10
.LBB15_3:
	ldr	w11, [x0, #104]
	cbz	w11, .LBB15_13
	ldr	x10, [x1, #8]
.LBB15_5:
	add	w8, w11, #1
	cmp	x10, x8
	b.ls	.LBB15_11
	subs	w9, w9, #1
	b.eq	.LBB15_10
	ldr	x12, [x1]
	ldr	x11, [x12, x8, lsl #3]
	cbnz	w11, .LBB15_5
	cbz	w8, .LBB15_13
	mov	w9, w2
	str	x9, [x12, x8, lsl #3]
.LBB15_10:
	ldp	x20, x19, [sp, #32]
	ldp	x22, x21, [sp, #16]
	ldp	x29, x30, [sp], #48
	ret
.LBB15_11:
	cmp	w9, #1
	b.eq	.LBB15_10
	cbnz	w8, .LBB15_16
.LBB15_13:
	str	w2, [x0, #104]
	ldp	x20, x19, [sp, #32]
	ldp	x22, x21, [sp, #16]
	ldp	x29, x30, [sp], #48
	ret
.LBB15_14:
	mov	x19, x1
	add	w1, w2, #1
	mov	x20, x0
	mov	x0, x19
	mov	w21, w2
	mov	x22, x3
	bl	"late_words::late_words::LateWords::pad"
	ldp	x9, x8, [x19]
	mov	x3, x22
	mov	x0, x20
	mov	w2, w21
	mov	x1, x19
	str	xzr, [x9, x8, lsl #3]
	add	x8, x8, #1
	str	x8, [x19, #8]
	add	w9, w21, #8
	cmp	x8, x9
	b.hi	.LBB15_2
.LBB15_15:
	mov	x19, x1
	add	w1, w2, #8
	mov	x20, x0
	mov	x0, x19
	mov	w21, w2
	mov	x22, x3
	bl	"late_words::late_words::LateWords::pad"
	ldp	x9, x8, [x19]
	mov	x0, x20
	mov	w2, w21
	mov	x1, x19
	str	x22, [x9, x8, lsl #3]
	add	x8, x8, #1
	str	x8, [x19, #8]
	ldr	w9, [x20, #4]
	cbnz	w9, .LBB15_3
	b	.LBB15_10
.LBB15_16:
	mov	x0, x1
	mov	x20, x1
	mov	x1, x8
	mov	w19, w2
	bl	"late_words::late_words::LateWords::pad"
	ldp	x9, x8, [x20]
	str	x19, [x9, x8, lsl #3]
	add	x8, x8, #1
	str	x8, [x20, #8]
	ldp	x20, x19, [sp, #32]
	ldp	x22, x21, [sp, #16]
	ldp	x29, x30, [sp], #48
	ret
.Lfunc_end15:
	.size	"entry_slots::slots::EntrySlots::to_removed::<#dd204406e0587c1d>", .Lfunc_end15-"entry_slots::slots::EntrySlots::to_removed::<#dd204406e0587c1d>"

	.section	".text.ttl_expunge::at_once::expunge_at_once::<#dd204406e0587c1d>","ax",@progbits
	.p2align	2
	.type	"ttl_expunge::at_once::expunge_at_once::<#dd204406e0587c1d>",@function
"ttl_expunge::at_once::expunge_at_once::<#dd204406e0587c1d>":
	sub	sp, sp, #416
	stp	x24, x23, [sp, #368]
	ldr	w23, [x0]
	stp	x28, x27, [sp, #336]
	mov	x27, x0
	stp	x22, x21, [sp, #384]
	mov	x21, x2
	stp	x20, x19, [sp, #400]
	mov	x20, x1
	stp	x29, x30, [sp, #320]
	add	x29, sp, #320
	stp	x26, x25, [sp, #352]
	cbz	w23, .LBB16_47
	mov	x24, xzr
	b	.LBB16_3
.LBB16_2:
	add	x24, x24, #1
	cmp	x24, x23
	b.eq	.LBB16_47
.LBB16_3:
	ldr	x8, [x20, #8]
	cmp	x8, x24
	b.ls	.LBB16_2
	ldr	x8, [x20]
	ldr	x25, [x8, x24, lsl #3]
	cbnz	w25, .LBB16_7
	b	.LBB16_2
.LBB16_5:
	str	w22, [x27, #104]
.LBB16_6:
	cbz	w25, .LBB16_2
.LBB16_7:
	ldr	x8, [x20, #8]
	add	w26, w25, #1
	mov	w22, w25
	cmp	x8, x26
	b.ls	.LBB16_9
	ldr	x8, [x20]
	ldr	x25, [x8, x26, lsl #3]
	mov	x0, x20
	mov	w1, w22
	bl	"ttl_expunge::expunge::is_let_go::<#dd204406e0587c1d>"
	tbnz	w0, #0, .LBB16_6
	b	.LBB16_10
.LBB16_9:
	mov	w25, wzr
	mov	x0, x20
	mov	w1, w22
	bl	"ttl_expunge::expunge::is_let_go::<#dd204406e0587c1d>"
	tbnz	w0, #0, .LBB16_6
.LBB16_10:
	ldr	x8, [x20, #8]
	add	w10, w22, #2
	mov	x11, #5381
	movk	x11, #32768, lsl #48
	cmp	x8, x10
	b.ls	.LBB16_19
	ldr	x9, [x20]
	ldr	x10, [x9, x10, lsl #3]
	cbz	w10, .LBB16_19
	mov	w11, wzr
	mov	x14, xzr
	mov	w12, wzr
	add	w13, w22, #12
	mov	w15, #5381
	b	.LBB16_15
.LBB16_13:
	ldr	x14, [x9, x14, lsl #3]
.LBB16_14:
	and	w16, w11, #0x38
	add	x15, x15, x15, lsl #5
	add	w12, w12, #1
	lsr	x16, x14, x16
	cmp	w10, w12
	add	w11, w11, #8
	add	x15, x15, w16, uxtb
	b.eq	.LBB16_18
.LBB16_15:
	tst	w12, #0x7
	b.ne	.LBB16_14
	add	w14, w13, w12, lsr #3
	cmp	x8, x14
	b.hi	.LBB16_13
	mov	x14, xzr
	b	.LBB16_14
.LBB16_18:
	orr	x11, x15, #0x8000000000000000
.LBB16_19:
	ldr	w9, [x27]
	cmp	w9, #1, lsl #12
	b.eq	.LBB16_22
	cbz	w9, .LBB16_122
	udiv	x10, x11, x9
	msub	w9, w10, w9, w11
	ldr	w10, [x27, #120]
	cbnz	w10, .LBB16_25
	b	.LBB16_27
.LBB16_22:
	and	w9, w11, #0xfff
	ldr	w10, [x27, #120]
	cbnz	w10, .LBB16_25
	b	.LBB16_27
.LBB16_23:
	mov	w11, wzr
.LBB16_24:
	subs	w10, w10, #1
	add	w9, w11, #1
	b.eq	.LBB16_27
.LBB16_25:
	mov	w11, w9
	cmp	x8, x11
	b.ls	.LBB16_23
	ldr	x12, [x20]
	ldr	x11, [x12, x11, lsl #3]
	cmp	w22, w11
	b.ne	.LBB16_24
.LBB16_27:
	cmp	x8, x26
	b.ls	.LBB16_30
	ldr	x10, [x20]
	lsl	x11, x26, #3
	ldr	w19, [x10, x11]
	mov	w1, w9
	cmp	x8, x1
	b.hi	.LBB16_31
.LBB16_29:
	mov	x0, x20
	bl	"late_words::late_words::LateWords::pad"
	ldp	x9, x8, [x20]
	str	x19, [x9, x8, lsl #3]
	add	x8, x8, #1
	str	x8, [x20, #8]
	b	.LBB16_32
.LBB16_30:
	mov	x19, xzr
	mov	w1, w9
	cmp	x8, x1
	b.ls	.LBB16_29
.LBB16_31:
	ldr	x8, [x20]
	str	x19, [x8, x1, lsl #3]
.LBB16_32:
	ldr	w8, [x27, #120]
	ldr	x9, [x27, #128]
	subs	w8, w8, #1
	str	w8, [x27, #120]
	csinv	x8, x9, xzr, ne
	str	x8, [x27, #128]
	ldr	x8, [x20, #8]
	cmp	x8, x26
	b.ls	.LBB16_45
	ldr	x8, [x20]
	str	xzr, [x8, x26, lsl #3]
	ldr	x8, [x20, #8]
	add	w9, w22, #8
	cmp	x8, x9
	b.ls	.LBB16_46
.LBB16_34:
	ldr	x8, [x20]
	str	x21, [x8, x9, lsl #3]
	ldr	w8, [x27, #4]
	cbz	w8, .LBB16_6
.LBB16_35:
	ldr	w10, [x27, #104]
	cbz	w10, .LBB16_5
	ldr	x9, [x20, #8]
.LBB16_37:
	add	w1, w10, #1
	cmp	x9, x1
	b.ls	.LBB16_42
	subs	w8, w8, #1
	b.eq	.LBB16_6
	ldr	x11, [x20]
	ldr	x10, [x11, x1, lsl #3]
	cbnz	w10, .LBB16_37
	cbz	w1, .LBB16_5
	mov	w8, w22
	str	x8, [x11, x1, lsl #3]
	b	.LBB16_6
.LBB16_42:
	cmp	w8, #1
	b.eq	.LBB16_6
	cbz	w1, .LBB16_5
	mov	x0, x20
	mov	w19, w22
	bl	"late_words::late_words::LateWords::pad"
	ldp	x9, x8, [x20]
	str	x19, [x9, x8, lsl #3]
	add	x8, x8, #1
	str	x8, [x20, #8]
	b	.LBB16_6
.LBB16_45:
	add	w1, w22, #1
	mov	x0, x20
	bl	"late_words::late_words::LateWords::pad"
	ldp	x9, x8, [x20]
	str	xzr, [x9, x8, lsl #3]
	add	x8, x8, #1
	str	x8, [x20, #8]
	add	w9, w22, #8
	cmp	x8, x9
	b.hi	.LBB16_34
.LBB16_46:
	add	w1, w22, #8
	mov	x0, x20
	bl	"late_words::late_words::LateWords::pad"
	ldp	x9, x8, [x20]
	str	x21, [x9, x8, lsl #3]
	add	x8, x8, #1
	str	x8, [x20, #8]
	ldr	w8, [x27, #4]
	cbnz	w8, .LBB16_35
	b	.LBB16_6
.LBB16_47:
	movi	v0.2d, #0000000000000000
	ldr	w9, [x27, #104]
	stp	q0, q0, [sp, #32]
	stp	q0, q0, [sp, #64]
	stp	q0, q0, [sp, #96]
	stp	q0, q0, [sp, #128]
	stp	q0, q0, [sp, #160]
	stp	q0, q0, [sp, #192]
	stp	q0, q0, [sp, #224]
	stp	q0, q0, [sp, #256]
	cbz	w9, .LBB16_54
	ldr	x8, [x20, #8]
	mov	x22, xzr
	b	.LBB16_51
.LBB16_49:
	ldr	x9, [x20]
	cmp	x22, #63
	ldr	x9, [x9, x10, lsl #3]
	b.eq	.LBB16_75
	add	x22, x22, #1
	cbz	w9, .LBB16_55
.LBB16_51:
	add	w10, w9, #1
	add	x11, sp, #32
	cmp	x8, x10
	str	w9, [x11, x22, lsl #2]
	b.hi	.LBB16_49
	cmp	x22, #63
	b.eq	.LBB16_65
	mov	w9, wzr
	add	x22, x22, #1
	cbnz	w9, .LBB16_51
	b	.LBB16_55
.LBB16_54:
	mov	x22, xzr
.LBB16_55:
	cmp	x22, #20
	b.hi	.LBB16_66
.LBB16_56:
	cmp	x22, #2
	b.lo	.LBB16_87
	mov	w8, #1
	b	.LBB16_61
.LBB16_58:
	lsl	x10, x10, #2
.LBB16_59:
	add	x11, sp, #32
	str	w9, [x11, x10]
.LBB16_60:
	add	x8, x8, #1
	cmp	x8, x22
	b.eq	.LBB16_87
.LBB16_61:
	sub	x10, x8, #1
	add	x11, sp, #32
	ldr	w9, [x11, x8, lsl #2]
	ldr	w12, [x11, x10, lsl #2]
	cmp	w9, w12
	b.hs	.LBB16_60
	str	w12, [x11, x8, lsl #2]
	cbz	x10, .LBB16_59
.LBB16_63:
	add	x11, sp, #32
	add	x12, x11, x10, lsl #2
	ldur	w12, [x12, #-4]
	cmp	w9, w12
	b.hs	.LBB16_58
	sub	x13, x10, #1
	str	w12, [x11, x10, lsl #2]
	mov	x10, x13
	cbnz	x13, .LBB16_63
	b	.LBB16_58
.LBB16_65:
	mov	w22, #64
.LBB16_66:
	ldp	w9, w8, [sp, #32]
	add	x10, sp, #32
	cmp	w8, w9
	b.hs	.LBB16_70
	neg	x11, x22
	orr	x12, x10, #0x8
	mov	x10, #-2
.LBB16_68:
	ldp	w14, w13, [x12, #-4]
	cmp	w13, w14
	b.hs	.LBB16_73
	sub	x10, x10, #1
	add	x12, x12, #4
	cmp	x11, x10
	b.ne	.LBB16_68
	b	.LBB16_86
.LBB16_70:
	orr	x11, x10, #0x8
	mov	x10, #-2
.LBB16_71:
	ldp	w13, w12, [x11, #-4]
	cmp	w12, w13
	b.lo	.LBB16_73
	sub	x10, x10, #1
	add	x11, x11, #4
	cmn	x22, x10
	b.ne	.LBB16_71
	b	.LBB16_87
.LBB16_73:
	neg	x10, x10
	cmp	x10, x22
	b.hs	.LBB16_85
	clz	x8, x22
	add	x0, sp, #32
	mov	x1, xzr
	lsl	w8, w8, #1
	mov	x2, x22
	eor	w3, w8, #0x7e
	bl	"core::slice::sort::unstable::quicksort::<#3e4d6a262d983f84>"
	b	.LBB16_87
.LBB16_75:
	cbz	w9, .LBB16_121
	ldr	w22, [x27]
	cbz	w22, .LBB16_120
	mov	x19, xzr
	b	.LBB16_79
.LBB16_78:
	add	x19, x19, #1
	cmp	x19, x22
	b.eq	.LBB16_120
.LBB16_79:
	ldr	x8, [x20, #8]
	cmp	x8, x19
	b.ls	.LBB16_78
	ldr	x8, [x20]
	ldr	x8, [x8, x19, lsl #3]
	cbnz	w8, .LBB16_83
	b	.LBB16_78
.LBB16_81:
	ldr	x10, [x20]
	ldr	x23, [x10, x9, lsl #3]
.LBB16_82:
	sub	x2, x29, #24
	mov	x0, x27
	mov	x1, x20
	mov	x3, x21
	stp	w19, w19, [x29, #-24]
	stp	w8, wzr, [x29, #-16]
	bl	"ttl_expunge::expunge::drop_row_at::<#dd204406e0587c1d>"
	mov	w8, w23
	cbz	w23, .LBB16_78
.LBB16_83:
	ldr	x10, [x20, #8]
	add	w9, w8, #1
	cmp	x10, x9
	b.hi	.LBB16_81
	mov	w23, wzr
	b	.LBB16_82
.LBB16_85:
	cmp	w8, w9
	b.hs	.LBB16_87
.LBB16_86:
	lsr	x2, x22, #1
	add	x9, sp, #32
	add	x0, sp, #32
	sub	x8, x22, x2
	add	x1, x9, x8, lsl #2
	bl	"core::slice::edits::mirror::<i32>"
.LBB16_87:
	ldr	w19, [x27]
	cbz	w19, .LBB16_92
	mov	x21, xzr
.LBB16_89:
	ldr	x8, [x20, #8]
	cmp	x8, x21
	b.ls	.LBB16_91
	ldr	x8, [x20]
	str	xzr, [x8, x21, lsl #3]
	add	x21, x21, #1
	cmp	x19, x21
	b.ne	.LBB16_89
	b	.LBB16_92
.LBB16_91:
	mov	x0, x20
	mov	x1, x21
	bl	"late_words::late_words::LateWords::pad"
	ldp	x9, x8, [x20]
	str	xzr, [x9, x8, lsl #3]
	add	x8, x8, #1
	str	x8, [x20, #8]
	add	x21, x21, #1
	cmp	x19, x21
	b.ne	.LBB16_89
.LBB16_92:
	ldp	x23, x25, [x27, #24]
	ldr	x26, [x27, #56]
	stp	x22, x27, [sp]
	cbz	x26, .LBB16_103
	ldr	x28, [x27, #48]
	b	.LBB16_95
.LBB16_94:
	sub	x25, x25, x28
	ldp	x21, x28, [sp, #16]
	subs	x26, x26, #1
	mov	x23, x21
	b.eq	.LBB16_104
.LBB16_95:
	add	x8, x28, #31
	lsl	x24, x28, #2
	lsr	x9, x8, #5
	add	x8, x23, x24
	stp	x8, x9, [sp, #16]
	cbz	x9, .LBB16_94
	ldr	x22, [sp, #24]
	mov	x21, xzr
	add	x19, x23, x24
	mov	x27, x28
	b	.LBB16_99
.LBB16_97:
	movi	v0.2d, #0000000000000000
	stp	q0, q0, [x23]
	stp	q0, q0, [x23, #32]
	stp	q0, q0, [x23, #64]
	stp	q0, q0, [x23, #96]
.LBB16_98:
	add	x23, x23, #128
	sub	x22, x22, #1
	add	x21, x21, #32
	sub	x24, x24, #128
	sub	x27, x27, #32
	cbz	x22, .LBB16_94
.LBB16_99:
	ldr	w8, [x19], #4
	cbz	w8, .LBB16_98
	cmp	x27, #32
	b.hs	.LBB16_97
	cmp	x21, x28
	b.hs	.LBB16_98
	mov	x0, x23
	mov	w1, wzr
	mov	x2, x24
	bl	memset
	b	.LBB16_98
.LBB16_103:
	mov	x21, x23
.LBB16_104:
	ldp	x23, x22, [sp]
	cbz	x25, .LBB16_108
	subs	x19, x25, #1
	b.eq	.LBB16_107
	lsl	x8, x25, #2
	mov	x0, x21
	mov	w1, wzr
	sub	x2, x8, #4
	bl	memset
.LBB16_107:
	str	wzr, [x21, x19, lsl #2]
.LBB16_108:
	ldr	x8, [x22, #72]
	cbz	x8, .LBB16_112
	ldr	x21, [x22, #64]
	subs	x19, x8, #1
	b.eq	.LBB16_111
	lsl	x8, x8, #3
	mov	x0, x21
	mov	w1, wzr
	sub	x2, x8, #8
	bl	memset
.LBB16_111:
	str	xzr, [x21, x19, lsl #3]
.LBB16_112:
	ldr	w3, [x22, #4]
	stp	wzr, wzr, [x22, #12]
	cbz	x23, .LBB16_118
	add	x8, sp, #32
	sub	x19, x8, #4
	b	.LBB16_116
.LBB16_114:
	ldr	x8, [x20]
	ldr	x8, [x8, x21, lsl #3]
.LBB16_115:
	add	w2, w8, w21
	mov	x0, x22
	mov	x1, x20
	sub	x23, x23, #1
	bl	"sma_blocks::sma::Sma::lay::<#dd204406e0587c1d>"
	mov	w3, w21
	cbz	x23, .LBB16_119
.LBB16_116:
	ldr	w21, [x19, x23, lsl #2]
	ldr	x8, [x20, #8]
	cmp	x8, x21
	b.hi	.LBB16_114
	mov	w8, wzr
	b	.LBB16_115
.LBB16_118:
	mov	w21, w3
.LBB16_119:
	ldr	w2, [x22]
	mov	x0, x22
	mov	x1, x20
	mov	w3, w21
	bl	"sma_blocks::sma::Sma::lay::<#dd204406e0587c1d>"
	mov	x8, #-1
	str	wzr, [x22, #120]
	str	x8, [x22, #128]
.LBB16_120:
	ldp	x20, x19, [sp, #400]
	ldp	x22, x21, [sp, #384]
	ldp	x24, x23, [sp, #368]
	ldp	x26, x25, [sp, #352]
	ldp	x28, x27, [sp, #336]
	ldp	x29, x30, [sp, #320]
	add	sp, sp, #416
	ret
.LBB16_121:
	mov	w22, #64
	cmp	x22, #20
	b.ls	.LBB16_56
	b	.LBB16_66
.LBB16_122:
	brk	#0x1
.Lfunc_end16:
	.size	"ttl_expunge::at_once::expunge_at_once::<#dd204406e0587c1d>", .Lfunc_end16-"ttl_expunge::at_once::expunge_at_once::<#dd204406e0587c1d>"

	.section	".text.core::slice::sort::unstable::quicksort::<#3e4d6a262d983f84>","ax",@progbits
	.p2align	2
	.type	"core::slice::sort::unstable::quicksort::<#3e4d6a262d983f84>",@function
"core::slice::sort::unstable::quicksort::<#3e4d6a262d983f84>":
	stp	x29, x30, [sp, #-80]!
	stp	x24, x23, [sp, #32]
	sub	x23, x2, x1
	mov	x29, sp
	stp	x20, x19, [sp, #64]
	mov	x19, x2
	cmp	x23, #17
	mov	x20, x0
	str	x25, [sp, #16]
	stp	x22, x21, [sp, #48]
	b.lo	.LBB17_37
	mov	w22, w3
	mov	x21, x1
	add	x24, x20, #8
	b	.LBB17_4
.LBB17_2:
	mov	x11, xzr
.LBB17_3:
	add	x2, x9, x21
	mov	x0, x20
	mov	x1, x21
	mov	w3, w22
	str	w10, [x8, x11]
	bl	"core::slice::sort::unstable::quicksort::<#3e4d6a262d983f84>"
	add	x21, x25, x21
	sub	x23, x19, x21
	cmp	x23, #16
	b.ls	.LBB17_37
.LBB17_4:
	cbz	w22, .LBB17_40
	lsr	x4, x23, #3
	cmp	x23, #63
	sub	x8, x21, x4
	add	x2, x21, x4, lsl #2
	add	x3, x8, x4, lsl #3
	b.hi	.LBB17_22
	ldr	w8, [x20, x21, lsl #2]
	ldr	w9, [x20, x2, lsl #2]
	ldr	w10, [x20, x3, lsl #2]
	cmp	w8, w9
	cset	w11, lo
	cmp	w8, w10
	cset	w8, lo
	cmp	w9, w10
	cset	w9, lo
	eor	w8, w11, w8
	eor	w9, w11, w9
	cmp	w9, #0
	csel	x9, x3, x2, ne
	cmp	w8, #0
	csel	x0, x21, x9, ne
	sub	w22, w22, #1
	cbz	x21, .LBB17_23
.LBB17_7:
	lsl	x9, x21, #2
	ldr	w11, [x20, x0, lsl #2]
	add	x8, x20, x9
	ldur	w10, [x8, #-4]
	cmp	w10, w11
	b.lo	.LBB17_24
	subs	x10, x0, x21
	b.eq	.LBB17_10
	ldr	w11, [x8, x10, lsl #2]
	ldr	w12, [x8]
	str	w11, [x8]
	str	w12, [x8, x10, lsl #2]
.LBB17_10:
	ldr	w10, [x8]
	mov	w25, #1
.LBB17_11:
	ldr	w11, [x8, x25, lsl #2]
	cmp	w10, w11
	b.lo	.LBB17_14
	add	x25, x25, #1
	cmp	x23, x25
	b.ne	.LBB17_11
	mov	x25, x23
.LBB17_14:
	sub	x11, x23, #1
	cmp	x25, x11
	b.hs	.LBB17_19
	add	x13, x25, #1
	ldr	w12, [x8, x13, lsl #2]
	cmp	x13, x11
	b.hs	.LBB17_18
	add	x9, x9, x25, lsl #2
	sub	x13, x23, x25
	sub	x13, x13, #2
	add	x9, x24, x9
.LBB17_17:
	ldr	w14, [x9]
	ldr	w15, [x8, x25, lsl #2]
	cmp	w10, w14
	stur	w15, [x9, #-4]
	add	x9, x9, #4
	str	w14, [x8, x25, lsl #2]
	cinc	x25, x25, hs
	subs	x13, x13, #1
	b.ne	.LBB17_17
.LBB17_18:
	ldr	w9, [x8, x25, lsl #2]
	cmp	w10, w12
	str	w9, [x8, x11, lsl #2]
	str	w12, [x8, x25, lsl #2]
	cinc	x25, x25, hs
.LBB17_19:
	subs	x9, x25, #1
	b.eq	.LBB17_21
	lsl	x9, x9, #2
	ldr	w11, [x8, x9]
	str	w11, [x8]
.LBB17_21:
	str	w10, [x8, x9]
	add	x21, x25, x21
	sub	x23, x19, x21
	cmp	x23, #16
	b.hi	.LBB17_4
	b	.LBB17_37
.LBB17_22:
	mov	x0, x20
	mov	x1, x21
	bl	"core::slice::sort::pivot::median_of_medians::<#3e4d6a262d983f84>"
	sub	w22, w22, #1
	cbnz	x21, .LBB17_7
.LBB17_23:
	mov	x9, xzr
.LBB17_24:
	subs	x10, x0, x21
	add	x8, x20, x9
	b.eq	.LBB17_26
	ldr	w11, [x8, x10, lsl #2]
	ldr	w12, [x8]
	str	w11, [x8]
	str	w12, [x8, x10, lsl #2]
.LBB17_26:
	ldr	w10, [x8]
	mov	w25, #1
.LBB17_27:
	ldr	w11, [x8, x25, lsl #2]
	cmp	w11, w10
	b.hs	.LBB17_30
	add	x25, x25, #1
	cmp	x23, x25
	b.ne	.LBB17_27
	mov	x25, x23
.LBB17_30:
	sub	x11, x23, #1
	cmp	x25, x11
	b.hs	.LBB17_35
	add	x13, x25, #1
	ldr	w12, [x8, x13, lsl #2]
	cmp	x13, x11
	b.hs	.LBB17_34
	add	x9, x9, x25, lsl #2
	sub	x13, x23, x25
	sub	x13, x13, #2
	add	x9, x24, x9
.LBB17_33:
	ldr	w14, [x9]
	ldr	w15, [x8, x25, lsl #2]
	cmp	w14, w10
	stur	w15, [x9, #-4]
	add	x9, x9, #4
	str	w14, [x8, x25, lsl #2]
	cinc	x25, x25, lo
	subs	x13, x13, #1
	b.ne	.LBB17_33
.LBB17_34:
	ldr	w9, [x8, x25, lsl #2]
	cmp	w12, w10
	str	w9, [x8, x11, lsl #2]
	str	w12, [x8, x25, lsl #2]
	cinc	x25, x25, lo
.LBB17_35:
	subs	x9, x25, #1
	b.eq	.LBB17_2
	lsl	x11, x9, #2
	ldr	w12, [x8, x11]
	str	w12, [x8]
	b	.LBB17_3
.LBB17_37:
	cmp	x23, #2
	b.lo	.LBB17_76
	cmp	x23, #12
	mov	w8, #12
	mov	w9, #16
	csel	x8, x9, x8, hi
	cmp	x23, #8
	mov	w9, #8
	csel	x8, x8, x9, hi
	subs	x8, x19, x8
	csel	x9, xzr, x8, lo
	sub	x8, x19, x9
	add	x9, x20, x9, lsl #2
	cmp	x8, #16
	b.lo	.LBB17_62
	ldp	w10, w11, [x9]
	ldp	w13, w12, [x9, #48]
	ldp	w14, w15, [x9, #8]
	ldp	w17, w16, [x9, #56]
	cmp	w12, w10
	csel	w18, w12, w10, lo
	csel	w12, w12, w10, hi
	cmp	w13, w11
	csel	w0, w13, w11, lo
	csel	w10, w13, w11, hi
	cmp	w16, w14
	csel	w11, w16, w14, lo
	csel	w13, w16, w14, hi
	cmp	w17, w15
	ldp	w16, w2, [x9, #32]
	csel	w1, w17, w15, lo
	csel	w15, w17, w15, hi
	ldp	w14, w17, [x9, #16]
	ldp	w3, w5, [x9, #24]
	cmp	w16, w14
	csel	w4, w16, w14, lo
	csel	w14, w16, w14, hi
	cmp	w3, w17
	ldp	w16, w6, [x9, #40]
	csel	w7, w3, w17, lo
	csel	w17, w3, w17, hi
	cmp	w6, w5
	csel	w3, w6, w5, lo
	csel	w5, w6, w5, hi
	cmp	w16, w2
	csel	w6, w16, w2, lo
	csel	w16, w16, w2, hi
	cmp	w7, w18
	csel	w2, w7, w18, lo
	csel	w18, w7, w18, hi
	cmp	w3, w0
	csel	w7, w3, w0, lo
	csel	w0, w3, w0, hi
	cmp	w6, w11
	csel	w3, w6, w11, lo
	csel	w11, w6, w11, hi
	cmp	w4, w1
	csel	w6, w4, w1, lo
	csel	w1, w4, w1, hi
	cmp	w12, w17
	csel	w4, w12, w17, lo
	csel	w12, w12, w17, hi
	cmp	w15, w14
	csel	w17, w15, w14, lo
	csel	w14, w15, w14, hi
	cmp	w13, w16
	csel	w15, w13, w16, lo
	csel	w13, w13, w16, hi
	cmp	w10, w5
	csel	w16, w10, w5, lo
	csel	w10, w10, w5, hi
	cmp	w7, w2
	csel	w5, w7, w2, lo
	csel	w2, w7, w2, hi
	cmp	w6, w3
	csel	w7, w6, w3, lo
	csel	w3, w6, w3, hi
	cmp	w18, w1
	csel	w6, w18, w1, lo
	csel	w18, w18, w1, hi
	cmp	w17, w4
	csel	w1, w17, w4, lo
	csel	w17, w17, w4, hi
	cmp	w11, w0
	csel	w4, w11, w0, lo
	csel	w11, w11, w0, hi
	cmp	w16, w15
	csel	w0, w16, w15, lo
	csel	w15, w16, w15, hi
	cmp	w12, w10
	csel	w16, w12, w10, lo
	csel	w12, w12, w10, hi
	cmp	w13, w14
	csel	w19, w13, w14, lo
	csel	w13, w13, w14, hi
	cmp	w7, w5
	csel	w10, w7, w5, lo
	csel	w14, w7, w5, hi
	cmp	w3, w2
	csel	w5, w3, w2, lo
	csel	w2, w3, w2, hi
	cmp	w0, w6
	csel	w3, w0, w6, lo
	csel	w0, w0, w6, hi
	cmp	w15, w18
	csel	w6, w15, w18, lo
	csel	w15, w15, w18, hi
	cmp	w4, w1
	csel	w18, w4, w1, lo
	csel	w1, w4, w1, hi
	cmp	w11, w17
	csel	w4, w11, w17, lo
	csel	w11, w11, w17, hi
	cmp	w19, w16
	csel	w17, w19, w16, lo
	csel	w16, w19, w16, hi
	cmp	w13, w12
	csel	w7, w13, w12, lo
	csel	w12, w13, w12, hi
	cmp	w14, w5
	csel	w13, w14, w5, lo
	csel	w14, w14, w5, hi
	cmp	w17, w2
	csel	w5, w17, w2, lo
	csel	w17, w17, w2, hi
	cmp	w18, w3
	csel	w2, w18, w3, lo
	csel	w18, w18, w3, hi
	cmp	w1, w6
	csel	w3, w1, w6, lo
	csel	w1, w1, w6, hi
	cmp	w0, w4
	csel	w6, w0, w4, lo
	csel	w0, w0, w4, hi
	cmp	w15, w11
	csel	w4, w15, w11, lo
	csel	w11, w15, w11, hi
	cmp	w16, w7
	csel	w15, w16, w7, lo
	csel	w16, w16, w7, hi
	cmp	w2, w13
	csel	w7, w2, w13, lo
	csel	w13, w2, w13, hi
	cmp	w18, w14
	csel	w2, w18, w14, lo
	csel	w14, w18, w14, hi
	cmp	w6, w3
	csel	w18, w6, w3, lo
	csel	w3, w6, w3, hi
	cmp	w0, w1
	csel	w6, w0, w1, lo
	csel	w0, w0, w1, hi
	cmp	w15, w4
	csel	w1, w15, w4, lo
	csel	w15, w15, w4, hi
	cmp	w16, w11
	csel	w4, w16, w11, hi
	stp	w10, w7, [x9]
	csel	w10, w16, w11, lo
	cmp	w13, w2
	stp	w4, w12, [x9, #56]
	csel	w11, w13, w2, lo
	csel	w12, w13, w2, hi
	cmp	w14, w5
	csel	w13, w14, w5, lo
	csel	w14, w14, w5, hi
	cmp	w17, w1
	csel	w16, w17, w1, lo
	csel	w17, w17, w1, hi
	cmp	w15, w10
	csel	w1, w15, w10, lo
	csel	w10, w15, w10, hi
	cmp	w18, w13
	csel	w15, w18, w13, lo
	csel	w13, w18, w13, hi
	cmp	w3, w14
	csel	w18, w3, w14, lo
	csel	w14, w3, w14, hi
	cmp	w16, w6
	csel	w2, w16, w6, lo
	csel	w16, w16, w6, hi
	cmp	w17, w0
	csel	w3, w17, w0, lo
	csel	w17, w17, w0, hi
	cmp	w12, w15
	csel	w0, w12, w15, lo
	stp	w11, w0, [x9, #8]
	csel	w11, w12, w15, hi
	cmp	w18, w13
	csel	w12, w18, w13, lo
	stp	w11, w12, [x9, #16]
	csel	w11, w18, w13, hi
	cmp	w14, w2
	csel	w12, w14, w2, lo
	csel	w13, w14, w2, hi
	cmp	w3, w16
	csel	w14, w3, w16, lo
	csel	w15, w3, w16, hi
	cmp	w17, w1
	csel	w16, w17, w1, lo
	stp	w15, w16, [x9, #40]
	csel	w15, w17, w1, hi
	cmp	w12, w11
	stp	w15, w10, [x9, #48]
	csel	w10, w12, w11, lo
	csel	w11, w12, w11, hi
	cmp	w14, w13
	stp	w10, w11, [x9, #24]
	csel	w10, w14, w13, lo
	csel	w11, w14, w13, hi
	stp	w10, w11, [x9, #32]
	b	.LBB17_67
.LBB17_40:
	lsr	x9, x23, #1
	add	x8, x20, x21, lsl #2
	mov	x10, x9
	b	.LBB17_42
.LBB17_41:
	cbz	x10, .LBB17_52
.LBB17_42:
	sub	x10, x10, #1
	mov	x11, x10
	b	.LBB17_45
.LBB17_43:
	str	w14, [x8, x12, lsl #2]
	str	w13, [x8, x11, lsl #2]
.LBB17_44:
	cmp	x11, x9
	b.hs	.LBB17_41
.LBB17_45:
	mov	x12, x11
	mov	w11, #1
	lsl	x13, x12, #1
	bfi	x11, x12, #1, #63
	add	x13, x13, #2
	cmp	x13, x23
	b.eq	.LBB17_47
	ldr	w14, [x8, x11, lsl #2]
	ldr	w15, [x8, x13, lsl #2]
	cmp	w14, w15
	csel	x11, x13, x11, lo
.LBB17_47:
	ldr	w13, [x8, x12, lsl #2]
	ldr	w14, [x8, x11, lsl #2]
	cmp	w13, w14
	b.hs	.LBB17_41
	cmp	x12, x11
	b.lo	.LBB17_43
	cmp	x11, x12
	b.hs	.LBB17_44
	str	w13, [x8, x11, lsl #2]
	str	w14, [x8, x12, lsl #2]
	b	.LBB17_44
.LBB17_51:
	cmp	x23, #1
	b.ls	.LBB17_76
.LBB17_52:
	sub	x23, x23, #1
	ldr	w11, [x8]
	ldr	w10, [x8, x23, lsl #2]
	lsr	x9, x23, #1
	str	w10, [x8]
	str	w11, [x8, x23, lsl #2]
	cbz	x9, .LBB17_51
	mov	x10, xzr
	b	.LBB17_56
.LBB17_54:
	str	w13, [x8, x11, lsl #2]
	str	w12, [x8, x10, lsl #2]
.LBB17_55:
	cmp	x10, x9
	b.hs	.LBB17_51
.LBB17_56:
	mov	x11, x10
	mov	w10, #1
	lsl	x12, x11, #1
	bfi	x10, x11, #1, #63
	add	x12, x12, #2
	cmp	x12, x23
	b.eq	.LBB17_58
	ldr	w13, [x8, x10, lsl #2]
	ldr	w14, [x8, x12, lsl #2]
	cmp	w13, w14
	csel	x10, x12, x10, lo
.LBB17_58:
	ldr	w12, [x8, x11, lsl #2]
	ldr	w13, [x8, x10, lsl #2]
	cmp	w12, w13
	b.hs	.LBB17_51
	cmp	x11, x10
	b.lo	.LBB17_54
	cmp	x10, x11
	b.hs	.LBB17_55
	str	w12, [x8, x10, lsl #2]
	str	w13, [x8, x11, lsl #2]
	b	.LBB17_55
.LBB17_62:
	cmp	x8, #12
	b.lo	.LBB17_64
	ldp	w10, w13, [x9, #32]
	ldp	w11, w12, [x9]
	ldp	w15, w14, [x9, #24]
	cmp	w10, w11
	csel	w16, w10, w11, lo
	csel	w10, w10, w11, hi
	cmp	w14, w12
	ldp	w11, w17, [x9, #8]
	csel	w18, w14, w12, lo
	csel	w12, w14, w12, hi
	ldp	w2, w14, [x9, #40]
	cmp	w15, w11
	csel	w1, w15, w11, lo
	csel	w11, w15, w11, hi
	ldp	w0, w15, [x9, #16]
	cmp	w14, w17
	csel	w3, w14, w17, lo
	csel	w14, w14, w17, hi
	cmp	w2, w0
	csel	w17, w2, w0, lo
	csel	w0, w2, w0, hi
	cmp	w13, w15
	csel	w2, w13, w15, lo
	csel	w13, w13, w15, hi
	cmp	w18, w16
	csel	w15, w18, w16, lo
	csel	w16, w18, w16, hi
	cmp	w2, w1
	csel	w18, w2, w1, lo
	csel	w1, w2, w1, hi
	cmp	w17, w3
	csel	w2, w17, w3, lo
	csel	w17, w17, w3, hi
	cmp	w13, w11
	csel	w3, w13, w11, lo
	csel	w11, w13, w11, hi
	cmp	w10, w12
	csel	w13, w10, w12, lo
	csel	w10, w10, w12, hi
	cmp	w14, w0
	csel	w12, w14, w0, lo
	csel	w14, w14, w0, hi
	cmp	w18, w15
	csel	w0, w18, w15, lo
	csel	w15, w18, w15, hi
	cmp	w3, w16
	csel	w18, w3, w16, lo
	csel	w16, w3, w16, hi
	cmp	w12, w1
	csel	w3, w12, w1, lo
	csel	w12, w12, w1, hi
	cmp	w14, w11
	csel	w1, w14, w11, lo
	csel	w11, w14, w11, hi
	cmp	w2, w0
	csel	w14, w2, w0, lo
	csel	w0, w2, w0, hi
	cmp	w15, w18
	csel	w2, w15, w18, lo
	csel	w15, w15, w18, hi
	cmp	w16, w17
	csel	w18, w16, w17, lo
	csel	w16, w16, w17, hi
	cmp	w13, w3
	csel	w17, w13, w3, lo
	csel	w13, w13, w3, hi
	cmp	w11, w10
	csel	w3, w11, w10, lo
	csel	w10, w11, w10, hi
	cmp	w12, w1
	csel	w11, w12, w1, lo
	csel	w12, w12, w1, hi
	cmp	w18, w2
	csel	w1, w18, w2, lo
	csel	w18, w18, w2, hi
	cmp	w17, w0
	csel	w2, w17, w0, lo
	csel	w17, w17, w0, hi
	cmp	w3, w16
	csel	w0, w3, w16, lo
	csel	w16, w3, w16, hi
	cmp	w12, w13
	csel	w3, w12, w13, lo
	csel	w12, w12, w13, hi
	cmp	w2, w1
	csel	w13, w2, w1, lo
	csel	w1, w2, w1, hi
	cmp	w17, w15
	csel	w2, w17, w15, lo
	csel	w15, w17, w15, hi
	cmp	w11, w0
	csel	w17, w11, w0, lo
	csel	w11, w11, w0, hi
	cmp	w12, w16
	csel	w0, w12, w16, hi
	stp	w14, w13, [x9]
	stp	w0, w10, [x9, #40]
	csel	w10, w12, w16, lo
	cmp	w1, w2
	csel	w12, w1, w2, lo
	csel	w13, w1, w2, hi
	cmp	w15, w18
	csel	w14, w15, w18, lo
	csel	w15, w15, w18, hi
	cmp	w3, w17
	csel	w16, w3, w17, lo
	csel	w17, w3, w17, hi
	cmp	w11, w10
	csel	w18, w11, w10, lo
	csel	w10, w11, w10, hi
	cmp	w16, w14
	csel	w11, w16, w14, lo
	csel	w14, w16, w14, hi
	cmp	w17, w15
	csel	w16, w17, w15, lo
	csel	w15, w17, w15, hi
	cmp	w11, w13
	csel	w17, w11, w13, lo
	csel	w11, w11, w13, hi
	cmp	w14, w16
	stp	w12, w17, [x9, #8]
	csel	w12, w14, w16, lo
	stp	w11, w12, [x9, #16]
	csel	w11, w14, w16, hi
	cmp	w18, w15
	csel	w12, w18, w15, lo
	stp	w11, w12, [x9, #24]
	csel	w11, w18, w15, hi
	stp	w11, w10, [x9, #32]
	b	.LBB17_67
.LBB17_64:
	cmp	x8, #8
	b.lo	.LBB17_66
	ldp	w10, w11, [x9]
	ldp	w12, w13, [x9, #8]
	ldp	w14, w15, [x9, #16]
	ldp	w16, w17, [x9, #24]
	cmp	w12, w10
	csel	w18, w12, w10, lo
	csel	w10, w12, w10, hi
	cmp	w13, w11
	csel	w12, w13, w11, lo
	csel	w11, w13, w11, hi
	cmp	w16, w14
	csel	w13, w16, w14, lo
	csel	w14, w16, w14, hi
	cmp	w17, w15
	csel	w16, w17, w15, lo
	csel	w15, w17, w15, hi
	cmp	w13, w18
	csel	w17, w13, w18, lo
	csel	w13, w13, w18, hi
	cmp	w16, w12
	csel	w18, w16, w12, lo
	csel	w12, w16, w12, hi
	cmp	w14, w10
	csel	w16, w14, w10, lo
	csel	w10, w14, w10, hi
	cmp	w15, w11
	csel	w14, w15, w11, lo
	csel	w11, w15, w11, hi
	cmp	w18, w17
	csel	w15, w18, w17, lo
	csel	w17, w18, w17, hi
	cmp	w14, w16
	csel	w18, w14, w16, lo
	csel	w14, w14, w16, hi
	cmp	w12, w13
	csel	w16, w12, w13, lo
	csel	w12, w12, w13, hi
	cmp	w11, w10
	csel	w13, w11, w10, lo
	csel	w10, w11, w10, hi
	cmp	w16, w18
	csel	w11, w16, w18, lo
	csel	w16, w16, w18, hi
	cmp	w12, w14
	csel	w18, w12, w14, lo
	csel	w12, w12, w14, hi
	cmp	w16, w17
	csel	w14, w16, w17, lo
	csel	w16, w16, w17, hi
	cmp	w13, w18
	csel	w17, w13, w18, lo
	csel	w13, w13, w18, hi
	cmp	w11, w14
	csel	w18, w11, w14, lo
	csel	w11, w11, w14, hi
	cmp	w16, w17
	csel	w14, w16, w17, lo
	stp	w15, w18, [x9]
	stp	w11, w14, [x9, #8]
	csel	w11, w16, w17, hi
	cmp	w13, w12
	csel	w14, w13, w12, lo
	stp	w11, w14, [x9, #16]
	csel	w11, w13, w12, hi
	stp	w11, w10, [x9, #24]
	b	.LBB17_67
.LBB17_66:
	cmp	x8, #2
	b.lo	.LBB17_76
.LBB17_67:
	mov	w10, #1
	mov	x11, x9
	b	.LBB17_71
.LBB17_68:
	lsl	x13, x13, #2
.LBB17_69:
	str	w12, [x9, x13]
.LBB17_70:
	add	x10, x10, #1
	add	x11, x11, #4
	cmp	x10, x8
	b.eq	.LBB17_76
.LBB17_71:
	sub	x13, x10, #1
	ldr	w12, [x9, x10, lsl #2]
	ldr	w14, [x9, x13, lsl #2]
	cmp	w12, w14
	b.hs	.LBB17_70
	str	w14, [x9, x10, lsl #2]
	cbz	x13, .LBB17_69
	mov	x15, x11
	mov	x14, x11
.LBB17_74:
	ldr	w16, [x14, #-4]!
	cmp	w12, w16
	b.hs	.LBB17_68
	sub	x13, x13, #1
	str	w16, [x15]
	mov	x15, x14
	cbnz	x13, .LBB17_74
	b	.LBB17_68
.LBB17_76:
	ldp	x20, x19, [sp, #64]
	ldr	x25, [sp, #16]
	ldp	x22, x21, [sp, #48]
	ldp	x24, x23, [sp, #32]
	ldp	x29, x30, [sp], #80
	ret
.Lfunc_end17:
	.size	"core::slice::sort::unstable::quicksort::<#3e4d6a262d983f84>", .Lfunc_end17-"core::slice::sort::unstable::quicksort::<#3e4d6a262d983f84>"

	.section	".text.core::slice::sort::pivot::median_of_medians::<#3e4d6a262d983f84>","ax",@progbits
	.p2align	2
	.type	"core::slice::sort::pivot::median_of_medians::<#3e4d6a262d983f84>",@function
"core::slice::sort::pivot::median_of_medians::<#3e4d6a262d983f84>":
	stp	x29, x30, [sp, #-80]!
	stp	x20, x19, [sp, #64]
	mov	x19, x3
	mov	x20, x2
	cmp	x4, #8
	str	x25, [sp, #16]
	mov	x29, sp
	stp	x24, x23, [sp, #32]
	stp	x22, x21, [sp, #48]
	b.hs	.LBB18_2
	ldr	w8, [x0, x1, lsl #2]
	ldr	w9, [x0, x20, lsl #2]
	ldr	w10, [x0, x19, lsl #2]
	cmp	w8, w9
	cset	w11, lo
	cmp	w8, w10
	cset	w8, lo
	cmp	w9, w10
	cset	w9, lo
	eor	w8, w11, w8
	eor	w9, w11, w9
	cmp	w9, #0
	csel	x9, x19, x20, ne
	cmp	w8, #0
	csel	x0, x1, x9, ne
	ldp	x20, x19, [sp, #64]
	ldr	x25, [sp, #16]
	ldp	x22, x21, [sp, #48]
	ldp	x24, x23, [sp, #32]
	ldp	x29, x30, [sp], #80
	ret
.LBB18_2:
	lsr	x21, x4, #3
	mov	x22, x0
	lsl	x8, x21, #3
	lsl	x24, x21, #2
	mov	x4, x21
	sub	x25, x8, x21
	add	x2, x24, x1
	add	x3, x25, x1
	bl	"core::slice::sort::pivot::median_of_medians::<#3e4d6a262d983f84>"
	mov	x23, x0
	add	x2, x24, x20
	add	x3, x25, x20
	mov	x0, x22
	mov	x1, x20
	mov	x4, x21
	bl	"core::slice::sort::pivot::median_of_medians::<#3e4d6a262d983f84>"
	mov	x20, x0
	add	x2, x24, x19
	add	x3, x25, x19
	mov	x0, x22
	mov	x1, x19
	mov	x4, x21
	bl	"core::slice::sort::pivot::median_of_medians::<#3e4d6a262d983f84>"
	ldr	w8, [x22, x23, lsl #2]
	ldr	w9, [x22, x20, lsl #2]
	ldr	w10, [x22, x0, lsl #2]
	cmp	w8, w9
	cset	w11, lo
	cmp	w8, w10
	cset	w8, lo
	cmp	w9, w10
	cset	w9, lo
	eor	w8, w11, w8
	eor	w9, w11, w9
	cmp	w9, #0
	csel	x9, x0, x20, ne
	cmp	w8, #0
	csel	x0, x23, x9, ne
	ldp	x20, x19, [sp, #64]
	ldr	x25, [sp, #16]
	ldp	x22, x21, [sp, #48]
	ldp	x24, x23, [sp, #32]
	ldp	x29, x30, [sp], #80
	ret
.Lfunc_end18:
	.size	"core::slice::sort::pivot::median_of_medians::<#3e4d6a262d983f84>", .Lfunc_end18-"core::slice::sort::pivot::median_of_medians::<#3e4d6a262d983f84>"

	.section	".text.core::slice::edits::mirror::<i32>","ax",@progbits
	.p2align	2
	.type	"core::slice::edits::mirror::<i32>",@function
"core::slice::edits::mirror::<i32>":
	lsl	x8, x2, #2
	add	x9, x1, x8
	add	x8, x0, x8
	cmp	x0, x9
	ccmp	x1, x8, #2, lo
	b.lo	.LBB19_4
	add	x9, x1, x2, lsl #2
	and	x8, x2, #0x7ffffffffffffffc
	mov	x10, x0
	and	x11, x2, #0x7ffffffffffffffc
	sub	x9, x9, #16
.LBB19_2:
	ldr	q0, [x9]
	ldr	q1, [x10]
	subs	x11, x11, #4
	rev64	v0.4s, v0.4s
	rev64	v1.4s, v1.4s
	ext	v0.16b, v0.16b, v0.16b, #8
	ext	v1.16b, v1.16b, v1.16b, #8
	str	q0, [x10], #16
	str	q1, [x9], #-16
	b.ne	.LBB19_2
	cmp	x2, x8
	b.ne	.LBB19_5
	b	.LBB19_7
.LBB19_4:
	mov	x8, xzr
.LBB19_5:
	add	x9, x0, x8, lsl #2
	sub	x8, x2, x8
	sub	x10, x1, #4
.LBB19_6:
	ldr	w11, [x10, x8, lsl #2]
	ldr	w12, [x9]
	str	w11, [x9], #4
	str	w12, [x10, x8, lsl #2]
	subs	x8, x8, #1
	b.ne	.LBB19_6
.LBB19_7:
	ret
.Lfunc_end19:
	.size	"core::slice::edits::mirror::<i32>", .Lfunc_end19-"core::slice::edits::mirror::<i32>"

	.section	".text.sma_blocks::sma::Sma::lay::<#dd204406e0587c1d>","ax",@progbits
	.p2align	2
	.type	"sma_blocks::sma::Sma::lay::<#dd204406e0587c1d>",@function
"sma_blocks::sma::Sma::lay::<#dd204406e0587c1d>":
	cmp	w2, w3
	b.hs	.LBB20_25
	stp	x29, x30, [sp, #-80]!
	stp	x22, x21, [sp, #48]
	mov	w22, w3
	mov	x21, x0
	stp	x20, x19, [sp, #64]
	mov	w19, w2
	mov	x20, x1
	stp	x26, x25, [sp, #16]
	mov	x29, sp
	stp	x24, x23, [sp, #32]
	b	.LBB20_4
.LBB20_2:
	orr	w8, w10, w23, lsl #1
	cmp	w24, w22
	csel	w3, wzr, w8, eq
.LBB20_3:
	add	x0, x21, #24
	bl	"max_tree::row::MaxRow::change"
	ldr	w8, [x21, #16]
	cmp	w19, w22
	add	w8, w8, w23
	stp	w22, w8, [x21, #12]
	b.hs	.LBB20_24
.LBB20_4:
	ldr	w8, [x21, #8]
	mov	w24, w22
	mov	w22, w19
	cbz	w8, .LBB20_6
	sub	w9, w24, #1
	udiv	w9, w9, w8
	mul	w8, w9, w8
	cmp	w19, w8
	csel	w22, w19, w8, hi
.LBB20_6:
	ldr	x8, [x20, #8]
	mov	w1, w22
	ldr	w25, [x21, #12]
	sub	w23, w24, w22
	cmp	x8, x1
	add	x26, x23, #1
	b.ls	.LBB20_22
	ldr	x8, [x20]
	str	x26, [x8, x1, lsl #3]
	ldr	x8, [x20, #8]
	add	w9, w22, #1
	cmp	x8, x9
	b.ls	.LBB20_23
.LBB20_8:
	ldr	x8, [x20]
	str	x25, [x8, x9, lsl #3]
	lsr	w1, w22, #2
	ldur	x8, [x21, #24]
	ubfx	w10, w22, #1, #1
	ldr	w2, [x8, w1, uxtw #2]
	cbz	w2, .LBB20_2
.LBB20_9:
	and	w9, w2, #0x3
	cmp	w9, w10
	b.eq	.LBB20_2
	lsr	w8, w2, #1
	and	w8, w8, #0x7ffffffe
	cbnz	w10, .LBB20_14
	sub	w9, w9, #3
	cmn	w9, #2
	b.lo	.LBB20_19
	cbz	w8, .LBB20_19
	cmp	w24, w22
	mov	w9, #1
	cinc	w9, w9, ne
	orr	w3, w9, w8, lsl #1
	b	.LBB20_3
.LBB20_14:
	cbz	w9, .LBB20_17
	cmp	w9, #2
	b.ne	.LBB20_20
	mov	w8, #2
.LBB20_17:
	cmp	w24, w22
	b.ne	.LBB20_21
.LBB20_18:
	lsl	w3, w8, #1
	b	.LBB20_3
.LBB20_19:
	lsl	w3, w23, #1
	b	.LBB20_3
.LBB20_20:
	mov	w8, wzr
	cmp	w24, w22
	b.eq	.LBB20_18
.LBB20_21:
	lsl	w9, w23, #1
	cmp	w8, #0
	add	w10, w9, #2
	csinc	w3, w10, w9, ne
	b	.LBB20_3
.LBB20_22:
	mov	x0, x20
	bl	"late_words::late_words::LateWords::pad"
	ldp	x9, x8, [x20]
	str	x26, [x9, x8, lsl #3]
	add	x8, x8, #1
	str	x8, [x20, #8]
	add	w9, w22, #1
	cmp	x8, x9
	b.hi	.LBB20_8
.LBB20_23:
	add	w1, w22, #1
	mov	x0, x20
	bl	"late_words::late_words::LateWords::pad"
	ldp	x9, x8, [x20]
	str	x25, [x9, x8, lsl #3]
	add	x8, x8, #1
	str	x8, [x20, #8]
	lsr	w1, w22, #2
	ldur	x8, [x21, #24]
	ubfx	w10, w22, #1, #1
	ldr	w2, [x8, w1, uxtw #2]
	cbnz	w2, .LBB20_9
	b	.LBB20_2
.LBB20_24:
	ldp	x20, x19, [sp, #64]
	ldp	x22, x21, [sp, #48]
	ldp	x24, x23, [sp, #32]
	ldp	x26, x25, [sp, #16]
	ldp	x29, x30, [sp], #80
.LBB20_25:
	ret
.Lfunc_end20:
	.size	"sma_blocks::sma::Sma::lay::<#dd204406e0587c1d>", .Lfunc_end20-"sma_blocks::sma::Sma::lay::<#dd204406e0587c1d>"

	.section	".text.entry_slots::slots::EntrySlots::take::<#dd204406e0587c1d>","ax",@progbits
	.p2align	2
	.type	"entry_slots::slots::EntrySlots::take::<#dd204406e0587c1d>",@function
"entry_slots::slots::EntrySlots::take::<#dd204406e0587c1d>":
	stp	x29, x30, [sp, #-96]!
	ldr	w8, [x0, #16]
	stp	x22, x21, [sp, #64]
	mov	x21, x1
	stp	x20, x19, [sp, #80]
	mov	x19, x0
	mov	w20, w2
	cmp	w8, w2
	stp	x28, x27, [sp, #16]
	mov	x29, sp
	stp	x26, x25, [sp, #32]
	stp	x24, x23, [sp, #48]
	b.hs	.LBB21_6
.LBB21_1:
	tbnz	w20, #31, .LBB21_13
	ldp	x22, x1, [x19, #24]
	lsl	w4, w20, #1
	ldp	x2, x3, [x19, #48]
	mov	x0, x22
	bl	"max_tree::levels::first_at_least"
	and	w8, w0, #0xff
	cmp	w8, #1
	b.ne	.LBB21_13
	ldr	w9, [x22, x1, lsl #2]
	cmp	w20, #2
	cset	w10, ne
	ands	w8, w9, #0x3
	lsr	w9, w9, #1
	cset	w11, ne
	cmp	w8, #2
	csinc	w10, w10, wzr, eq
	and	w9, w9, #0x7ffffffe
	ands	w10, w11, w10
	mov	w11, #2
	csel	w11, w9, w11, ne
	cmp	w8, #2
	orr	x24, x10, x1, lsl #1
	csel	w11, w11, wzr, eq
	cmp	w8, w10
	csel	w25, w9, w11, eq
	cmp	w20, #2
	b.eq	.LBB21_18
	cmp	w8, #2
	b.ne	.LBB21_18
	sub	x26, x24, #1
	b	.LBB21_20
.LBB21_6:
	ldr	w10, [x19, #12]
	ldr	x22, [x19, #24]
	and	x8, x10, #0xfffffffc
	ubfx	x9, x10, #1, #1
	ldr	w8, [x22, x8]
	lsr	w12, w8, #1
	and	w11, w8, #0x3
	lsr	x8, x10, #1
	cmp	w11, w9
	and	w25, w12, #0x7ffffffe
	b.eq	.LBB21_9
	cmp	w11, #2
	b.ne	.LBB21_15
	cmp	w9, #0
	mov	w9, #2
	csel	w25, w9, w25, eq
.LBB21_9:
	cmp	w20, w25
	b.ls	.LBB21_14
	cbz	w25, .LBB21_1
	ldr	x9, [x21, #8]
	orr	x10, x10, #0x1
	cmp	x9, x10
	b.ls	.LBB21_21
	ldr	x11, [x21]
	ldr	x10, [x11, x10, lsl #3]
	b	.LBB21_22
.LBB21_13:
	mov	w0, wzr
	mov	w23, wzr
	b	.LBB21_65
.LBB21_14:
	mov	x26, xzr
	mov	w27, wzr
	mov	x24, x8
	lsl	w23, w24, #1
	subs	w25, w25, w20
	b.hi	.LBB21_31
	b	.LBB21_43
.LBB21_15:
	cbnz	w20, .LBB21_1
	mov	w27, wzr
	mov	x26, xzr
	lsl	w23, w8, #1
	mov	w24, w8
	ldr	x10, [x21, #8]
	orr	w9, w23, #0x1
	cmp	x10, x9
	b.hi	.LBB21_44
.LBB21_17:
	mov	x28, xzr
	lsr	x1, x8, #1
	mov	w3, wzr
	ldr	w2, [x22, x1, lsl #2]
	cbnz	w2, .LBB21_45
	b	.LBB21_55
.LBB21_18:
	ldp	x0, x8, [x19, #64]
	and	x4, x1, #0x7fffffffffffffff
	ldp	x2, x3, [x19, #88]
	mov	x1, x8
	bl	"max_tree::words::last_before"
	and	w8, w0, #0xff
	cmp	w8, #1
	b.ne	.LBB21_29
	ldr	w8, [x22, x1, lsl #2]
	tst	w8, #0x3
	cset	w8, ne
	orr	x26, x8, x1, lsl #1
.LBB21_20:
	mov	w27, #1
	lsl	w23, w24, #1
	subs	w25, w25, w20
	b.hi	.LBB21_31
	b	.LBB21_43
.LBB21_21:
	mov	x10, xzr
.LBB21_22:
	and	x11, x10, #0xfffffffffffffffc
	ldr	w12, [x22, x11]
	ubfx	x11, x10, #1, #1
	lsr	w13, w12, #1
	and	w12, w12, #0x3
	cmp	w12, w11
	and	w25, w13, #0x7ffffffe
	b.eq	.LBB21_25
	cmp	w12, #2
	b.ne	.LBB21_1
	cmp	w11, #0
	mov	w11, #2
	csel	w25, w11, w25, eq
.LBB21_25:
	lsr	x24, x10, #1
	cmp	w20, w25
	b.ls	.LBB21_30
	cbz	w25, .LBB21_1
	and	x8, x10, #0xfffffffe
	orr	x8, x8, #0x1
	cmp	x9, x8
	b.ls	.LBB21_37
	ldr	x9, [x21]
	ldr	x8, [x9, x8, lsl #3]
	b	.LBB21_38
.LBB21_29:
	mov	x26, xzr
	mov	w27, wzr
	lsl	w23, w24, #1
	subs	w25, w25, w20
	b.hi	.LBB21_31
	b	.LBB21_43
.LBB21_30:
	mov	w27, #1
	mov	x26, x8
	lsl	w23, w24, #1
	subs	w25, w25, w20
	b.ls	.LBB21_43
.LBB21_31:
	lsr	w8, w20, #1
	add	x0, x19, #24
	mov	x1, x24
	mov	w3, w25
	add	w28, w23, w20
	add	x2, x24, x8
	bl	"max_tree::pairs::PairRow::move_to"
	ldr	x8, [x21, #8]
	orr	w9, w23, #0x1
	cmp	x8, x9
	b.ls	.LBB21_33
	ldr	x10, [x21]
	ldr	x22, [x10, x9, lsl #3]
	b	.LBB21_34
.LBB21_33:
	mov	x22, xzr
.LBB21_34:
	cmp	x8, x28
	add	x24, x25, #1
	b.ls	.LBB21_60
	ldr	x8, [x21]
	str	x24, [x8, x28, lsl #3]
	ldr	x8, [x21, #8]
	add	w1, w28, #1
	cmp	x8, x1
	b.ls	.LBB21_61
.LBB21_36:
	ldr	x8, [x21]
	str	x22, [x8, x1, lsl #3]
	ldr	x8, [x21, #8]
	mov	w1, w23
	mov	w22, w20
	cmp	x8, x1
	b.hi	.LBB21_56
	b	.LBB21_62
.LBB21_37:
	mov	x8, xzr
.LBB21_38:
	and	x9, x8, #0xfffffffffffffffc
	ldr	w10, [x22, x9]
	ubfx	x9, x8, #1, #1
	lsr	w11, w10, #1
	and	w10, w10, #0x3
	cmp	w10, w9
	and	w25, w11, #0x7ffffffe
	b.eq	.LBB21_41
	cmp	w10, #2
	b.ne	.LBB21_1
	cmp	w9, #0
	mov	w9, #2
	csel	w25, w9, w25, eq
.LBB21_41:
	cmp	w20, w25
	b.hi	.LBB21_1
	lsr	x8, x8, #1
	mov	x26, x24
	mov	w27, #1
	mov	x24, x8
	lsl	w23, w24, #1
	subs	w25, w25, w20
	b.hi	.LBB21_31
.LBB21_43:
	mov	x8, x24
	ldr	x10, [x21, #8]
	orr	w9, w23, #0x1
	cmp	x10, x9
	b.ls	.LBB21_17
.LBB21_44:
	ldr	x10, [x21]
	ldr	x28, [x10, x9, lsl #3]
	lsr	x1, x8, #1
	mov	w3, wzr
	ldr	w2, [x22, x1, lsl #2]
	cbz	w2, .LBB21_55
.LBB21_45:
	and	w10, w24, #0x1
	and	w9, w2, #0x3
	cmp	w9, w10
	b.eq	.LBB21_55
	lsr	w8, w2, #1
	and	w8, w8, #0x7ffffffe
	cbnz	w10, .LBB21_50
	sub	w9, w9, #3
	mov	w3, wzr
	cmn	w9, #2
	b.lo	.LBB21_55
	cbz	w8, .LBB21_55
	mov	w9, #1
	orr	w3, w9, w8, lsl #1
	b	.LBB21_55
.LBB21_50:
	cbz	w9, .LBB21_54
	cmp	w9, #2
	b.ne	.LBB21_53
	mov	w8, #2
	b	.LBB21_54
.LBB21_53:
	mov	w8, wzr
.LBB21_54:
	lsl	w3, w8, #1
.LBB21_55:
	add	x0, x19, #24
	bl	"max_tree::row::MaxRow::change"
	ldr	x8, [x21, #8]
	mov	w1, w23
	mov	w22, w20
	cmp	x8, x1
	b.ls	.LBB21_62
.LBB21_56:
	ldr	x8, [x21]
	str	x22, [x8, x1, lsl #3]
	cbz	w27, .LBB21_63
.LBB21_57:
	mov	w1, #1
	ldr	x8, [x21, #8]
	bfi	x1, x26, #1, #31
	cmp	x8, x1
	b.ls	.LBB21_59
	ldr	x8, [x21]
	str	x28, [x8, x1, lsl #3]
	b	.LBB21_64
.LBB21_59:
	mov	x0, x21
	bl	"late_words::late_words::LateWords::pad"
	ldp	x9, x8, [x21]
	str	x28, [x9, x8, lsl #3]
	add	x8, x8, #1
	str	x8, [x21, #8]
	b	.LBB21_64
.LBB21_60:
	add	w1, w23, w20
	mov	x0, x21
	bl	"late_words::late_words::LateWords::pad"
	ldp	x9, x8, [x21]
	str	x24, [x9, x8, lsl #3]
	add	x8, x8, #1
	str	x8, [x21, #8]
	add	w1, w28, #1
	cmp	x8, x1
	b.hi	.LBB21_36
.LBB21_61:
	mov	x0, x21
	bl	"late_words::late_words::LateWords::pad"
	ldp	x9, x8, [x21]
	str	x22, [x9, x8, lsl #3]
	add	x8, x8, #1
	str	x8, [x21, #8]
	mov	w1, w23
	mov	w22, w20
	cmp	x8, x1
	b.hi	.LBB21_56
.LBB21_62:
	mov	x0, x21
	bl	"late_words::late_words::LateWords::pad"
	ldp	x9, x8, [x21]
	str	x22, [x9, x8, lsl #3]
	add	x8, x8, #1
	str	x8, [x21, #8]
	cbnz	w27, .LBB21_57
.LBB21_63:
	str	w28, [x19, #12]
.LBB21_64:
	ldr	w8, [x19, #16]
	mov	w0, #1
	sub	w8, w8, w20
	str	w8, [x19, #16]
.LBB21_65:
	mov	w1, w23
	ldp	x20, x19, [sp, #80]
	ldp	x22, x21, [sp, #64]
	ldp	x24, x23, [sp, #48]
	ldp	x26, x25, [sp, #32]
	ldp	x28, x27, [sp, #16]
	ldp	x29, x30, [sp], #96
	ret
.Lfunc_end21:
	.size	"entry_slots::slots::EntrySlots::take::<#dd204406e0587c1d>", .Lfunc_end21-"entry_slots::slots::EntrySlots::take::<#dd204406e0587c1d>"

	.section	".text.max_tree::levels::first_at_least","ax",@progbits
	.p2align	2
	.type	"max_tree::levels::first_at_least",@function
"max_tree::levels::first_at_least":
	stp	x29, x30, [sp, #-48]!
	stp	x20, x19, [sp, #32]
	mov	w19, w4
	mov	x29, sp
	str	x21, [sp, #16]
	cbz	x3, .LBB22_3
	add	x8, x2, #31
	mov	x20, x2
	mov	x21, x0
	add	x0, x0, x2, lsl #2
	lsr	x2, x8, #5
	sub	x1, x1, x20
	sub	x3, x3, #1
	mov	w4, w19
	bl	"max_tree::levels::first_at_least"
	and	w8, w0, #0xff
	cmp	w8, #1
	b.ne	.LBB22_4
	mov	x2, x1
	mov	x0, x21
	mov	x1, x20
	mov	w3, w19
	bl	"max_tree::pages::first_in_page"
	ldp	x20, x19, [sp, #32]
	ldr	x21, [sp, #16]
	ldp	x29, x30, [sp], #48
	ret
.LBB22_3:
	mov	x2, xzr
	mov	w3, w19
	bl	"max_tree::pages::first_in_page"
	ldp	x20, x19, [sp, #32]
	ldr	x21, [sp, #16]
	ldp	x29, x30, [sp], #48
	ret
.LBB22_4:
	mov	x1, xzr
	mov	w0, wzr
	ldp	x20, x19, [sp, #32]
	ldr	x21, [sp, #16]
	ldp	x29, x30, [sp], #48
	ret
.Lfunc_end22:
	.size	"max_tree::levels::first_at_least", .Lfunc_end22-"max_tree::levels::first_at_least"

	.section	.rodata.cst16,"aM",@progbits,16
	.p2align	4, 0x0
.LCPI23_0:
	.word	16
	.word	8
	.word	4
	.word	2
.LCPI23_1:
	.word	4194304
	.word	2097152
	.word	1048576
	.word	524288
.LCPI23_2:
	.word	16384
	.word	8192
	.word	4096
	.word	2048
.LCPI23_3:
	.word	1073741824
	.word	536870912
	.word	268435456
	.word	134217728
.LCPI23_4:
	.word	262144
	.word	131072
	.word	65536
	.word	32768
.LCPI23_5:
	.word	1024
	.word	512
	.word	256
	.word	128
.LCPI23_6:
	.word	67108864
	.word	33554432
	.word	16777216
	.word	8388608
	.section	".text.max_tree::pages::first_in_page","ax",@progbits
	.p2align	2
	.type	"max_tree::pages::first_in_page",@function
"max_tree::pages::first_in_page":
	lsl	x8, x2, #5
	sub	x9, x1, x8
	cmp	x9, #31
	b.ls	.LBB23_3
	add	x9, x0, x2, lsl #7
	dup	v0.4s, w3
	adrp	x11, .LCPI23_2
	ldr	q2, [x11, :lo12:.LCPI23_2]
	adrp	x12, .LCPI23_3
	adrp	x13, .LCPI23_5
	ldur	q1, [x9, #68]
	ldur	q4, [x9, #4]
	ldur	q7, [x9, #84]
	ldur	q16, [x9, #20]
	ldur	q6, [x9, #108]
	ldur	q17, [x9, #36]
	cmhs	v1.4s, v1.4s, v0.4s
	cmhs	v4.4s, v4.4s, v0.4s
	adrp	x11, .LCPI23_6
	ldr	q3, [x12, :lo12:.LCPI23_3]
	cmhs	v7.4s, v7.4s, v0.4s
	cmhs	v16.4s, v16.4s, v0.4s
	adrp	x10, .LCPI23_0
	ldr	q5, [x13, :lo12:.LCPI23_5]
	cmhs	v6.4s, v6.4s, v0.4s
	and	v1.16b, v1.16b, v2.16b
	ldur	q2, [x9, #52]
	cmhs	v17.4s, v17.4s, v0.4s
	and	v3.16b, v4.16b, v3.16b
	ldr	q4, [x10, :lo12:.LCPI23_0]
	adrp	x10, .LCPI23_1
	cmhs	v0.4s, v2.4s, v0.4s
	ldr	q2, [x11, :lo12:.LCPI23_6]
	and	v5.16b, v7.16b, v5.16b
	ldr	q7, [x10, :lo12:.LCPI23_1]
	adrp	x10, .LCPI23_4
	and	v4.16b, v6.16b, v4.16b
	and	v2.16b, v16.16b, v2.16b
	ldr	q16, [x10, :lo12:.LCPI23_4]
	orr	v1.16b, v3.16b, v1.16b
	and	v6.16b, v17.16b, v7.16b
	ldr	w12, [x9, #124]
	and	v0.16b, v0.16b, v16.16b
	ext	v3.16b, v4.16b, v4.16b, #8
	orr	v2.16b, v2.16b, v5.16b
	orr	v1.16b, v1.16b, v6.16b
	ldp	w11, w10, [x9, #100]
	orr	v0.16b, v2.16b, v0.16b
	orr	v2.8b, v4.8b, v3.8b
	ldr	w9, [x9]
	cmp	w3, w10
	mov	w10, #32
	orr	v0.16b, v1.16b, v0.16b
	fmov	x13, d2
	csel	w10, wzr, w10, hi
	cmp	w3, w11
	mov	w11, #64
	csel	w11, wzr, w11, hi
	cmp	w3, w12
	addv	s0, v0.4s
	orr	w10, w13, w10
	cinc	w11, w11, ls
	orr	w10, w10, w11
	lsr	x12, x13, #32
	cmp	w3, w9
	mov	w9, #-2147483648
	fmov	w11, s0
	csel	w9, wzr, w9, hi
	orr	w10, w10, w12
	add	w9, w11, w9
	adds	w9, w9, w10
	b.eq	.LBB23_6
	clz	w9, w9
	mov	w0, #1
	eor	w9, w9, #0x1f
	orr	x8, x8, x9
	eor	x1, x8, #0x1f
	ret
.LBB23_3:
	cmp	x1, x8
	b.ls	.LBB23_6
.LBB23_4:
	ldr	w9, [x0, x8, lsl #2]
	cmp	w3, w9
	b.ls	.LBB23_7
	add	x8, x8, #1
	cmp	x1, x8
	b.ne	.LBB23_4
.LBB23_6:
	mov	w0, wzr
	mov	x1, xzr
	ret
.LBB23_7:
	mov	w0, #1
	mov	x1, x8
	ret
.Lfunc_end23:
	.size	"max_tree::pages::first_in_page", .Lfunc_end23-"max_tree::pages::first_in_page"

	.section	".text.entry_slots::slots::EntrySlots::has_expired::<#feb48aca4256a9fc>","ax",@progbits
	.p2align	2
	.type	"entry_slots::slots::EntrySlots::has_expired::<#feb48aca4256a9fc>",@function
"entry_slots::slots::EntrySlots::has_expired::<#feb48aca4256a9fc>":
	ldr	x8, [x0, #128]
	cmp	x5, x8
	b.ls	.LBB24_27
	tbz	w3, #0, .LBB24_3
.LBB24_2:
	mov	w0, #1
	ret
.LBB24_3:
	ldr	w8, [x0, #120]
	mov	w0, wzr
	cbz	w8, .LBB24_28
	cbz	w2, .LBB24_28
	ldr	x9, [x1, #8]
	cbz	w4, .LBB24_18
	mov	w10, w4
	mov	w11, #1
.LBB24_7:
	add	w12, w2, #4
	cmp	x9, x12
	b.ls	.LBB24_12
	ldr	x13, [x1]
	ldr	x12, [x13, x12, lsl #3]
	cbz	x12, .LBB24_12
	add	w14, w2, #5
	cmp	x9, x14
	b.ls	.LBB24_11
	ldr	x13, [x13, x14, lsl #3]
	adds	x12, x12, x13
	csinv	x12, x12, xzr, lo
.LBB24_11:
	cmp	x12, x5
	b.hs	.LBB24_15
	b	.LBB24_2
.LBB24_12:
	add	w12, w2, #7
	mov	x13, x10
	cmp	x9, x12
	b.ls	.LBB24_14
	ldr	x13, [x1]
	ldr	x12, [x13, x12, lsl #3]
	adds	x12, x10, x12
	csinv	x13, x12, xzr, lo
.LBB24_14:
	cmp	x13, x5
	b.lo	.LBB24_2
.LBB24_15:
	add	w12, w2, #1
	cmp	x9, x12
	b.ls	.LBB24_27
	cmp	w11, w8
	mov	w0, wzr
	b.hs	.LBB24_28
	ldr	x13, [x1]
	add	w11, w11, #1
	ldr	x2, [x13, x12, lsl #3]
	cbnz	w2, .LBB24_7
	b	.LBB24_28
.LBB24_18:
	mov	w10, #1
.LBB24_19:
	add	w11, w2, #4
	cmp	x9, x11
	b.ls	.LBB24_24
	ldr	x12, [x1]
	ldr	x11, [x12, x11, lsl #3]
	cbz	x11, .LBB24_24
	add	w13, w2, #5
	cmp	x9, x13
	b.ls	.LBB24_23
	ldr	x12, [x12, x13, lsl #3]
	adds	x11, x11, x12
	csinv	x11, x11, xzr, lo
.LBB24_23:
	cmp	x11, x5
	b.lo	.LBB24_2
.LBB24_24:
	add	w11, w2, #1
	cmp	x9, x11
	b.ls	.LBB24_27
	cmp	w10, w8
	mov	w0, wzr
	b.hs	.LBB24_28
	ldr	x12, [x1]
	add	w10, w10, #1
	ldr	x2, [x12, x11, lsl #3]
	cbnz	w2, .LBB24_19
	b	.LBB24_28
.LBB24_27:
	mov	w0, wzr
.LBB24_28:
	ret
.Lfunc_end24:
	.size	"entry_slots::slots::EntrySlots::has_expired::<#feb48aca4256a9fc>", .Lfunc_end24-"entry_slots::slots::EntrySlots::has_expired::<#feb48aca4256a9fc>"

	.section	".text.entry_slots::slots::EntrySlots::link_at::<#dd204406e0587c1d>","ax",@progbits
	.p2align	2
	.type	"entry_slots::slots::EntrySlots::link_at::<#dd204406e0587c1d>",@function
"entry_slots::slots::EntrySlots::link_at::<#dd204406e0587c1d>":
	sub	sp, sp, #224
	stp	x29, x30, [sp, #128]
	add	x29, sp, #128
	stp	x28, x27, [sp, #144]
	ldr	w28, [x29, #104]
	mov	x27, x3
	stp	x26, x25, [sp, #160]
	mov	x26, x5
	mov	x25, x4
	stp	x24, x23, [sp, #176]
	mov	x23, x7
	mov	w24, w6
	stp	x22, x21, [sp, #192]
	mov	x22, x1
	mov	x21, x0
	stp	x20, x19, [sp, #208]
	str	w2, [sp, #60]
	cbz	w28, .LBB25_5
	ldr	x9, [x22, #8]
	add	w8, w28, #1
	cmp	x9, x8
	b.ls	.LBB25_5
	ldr	x9, [x22]
	lsl	x8, x8, #3
	ldr	w8, [x9, x8]
	ldrb	w9, [x26]
	cmp	w9, #1
	b.gt	.LBB25_6
.LBB25_3:
	cbnz	w9, .LBB25_9
	ldr	x9, [x26, #8]
	ldr	x9, [x9, #56]
	b	.LBB25_10
.LBB25_5:
	mov	x8, xzr
	ldrb	w9, [x26]
	cmp	w9, #1
	b.le	.LBB25_3
.LBB25_6:
	sub	w9, w9, #2
	cmp	w9, #2
	b.hs	.LBB25_8
	mov	w9, #1
	b	.LBB25_10
.LBB25_8:
	mov	w9, #2
	b	.LBB25_10
.LBB25_9:
	ldr	w9, [x26, #16]
	lsr	w10, w9, #3
	and	w9, w9, #0x7
	add	w9, w9, #7
	add	w9, w10, w9, lsr #3
	add	w9, w9, #1
.LBB25_10:
	ldr	w19, [sp, #60]
	stp	x8, x25, [sp, #64]
	mov	w8, w24
	ldr	x20, [x21, #112]
	add	x2, sp, #64
	mov	x0, x22
	add	w1, w19, #1
	stp	x9, x8, [sp, #80]
	str	x8, [sp, #8]
	stp	x23, x23, [sp, #96]
	stp	x23, xzr, [sp, #112]
	bl	"cache_c::seat_words::SeatWordsSegment::store_eight"
	ldr	x9, [x22, #8]
	add	w8, w19, #9
	cmp	x9, x8
	b.ls	.LBB25_118
	ldr	x9, [x22]
	str	xzr, [x9, x8, lsl #3]
	ldr	x8, [x22, #8]
	ldr	w9, [sp, #60]
	add	w9, w9, #10
	cmp	x8, x9
	b.ls	.LBB25_119
.LBB25_12:
	ldr	x8, [x22]
	str	x20, [x8, x9, lsl #3]
	ldr	x8, [x22, #8]
	ldr	w9, [sp, #60]
	add	w9, w9, #11
	cmp	x8, x9
	b.ls	.LBB25_120
.LBB25_13:
	ldr	x8, [x22]
	str	xzr, [x8, x9, lsl #3]
.LBB25_14:
	ldr	w8, [x29, #96]
	mov	x0, x22
	mov	x2, x27
	mov	x3, x25
	str	x8, [sp, #16]
	ldr	w8, [sp, #60]
	add	w1, w8, #12
	add	w19, w8, #12
	bl	"value_image::bytes::put_bytes::<#dd204406e0587c1d>"
	and	w9, w25, #0x7
	add	w10, w19, w25, lsr #3
	ldrb	w8, [x26]
	add	w9, w9, #7
	stp	x23, x21, [sp, #32]
	add	w25, w10, w9, lsr #3
	cmp	w8, #1
	stp	w28, w24, [sp, #24]
	b.le	.LBB25_19
	cmp	w8, #2
	b.eq	.LBB25_22
	cmp	w8, #3
	b.ne	.LBB25_25
	ldrb	w8, [x26, #1]
	ldr	x9, [x22, #8]
	mov	w10, #1
	orr	x19, x10, x8, lsl #3
	cmp	x9, x25
	b.ls	.LBB25_122
	ldr	x8, [x22]
	str	x19, [x8, x25, lsl #3]
	ldr	x8, [x22, #8]
	ldr	x1, [sp, #16]
	cmp	x8, x1
	ldr	w8, [sp, #60]
	mov	w19, w8
	b.hi	.LBB25_32
	b	.LBB25_24
.LBB25_19:
	cbnz	w8, .LBB25_28
	ldr	x28, [x26, #8]
	ldr	w8, [x28, #40]
	adds	w8, w8, #1
	str	x8, [sp, #48]
	b.hs	.LBB25_31
	mov	x24, xzr
	b	.LBB25_42
.LBB25_22:
	ldr	x8, [x22, #8]
	cmp	x8, x25
	b.ls	.LBB25_121
	ldr	x8, [x22]
	str	xzr, [x8, x25, lsl #3]
	ldr	x8, [x22, #8]
	ldr	x1, [sp, #16]
	cmp	x8, x1
	ldr	w8, [sp, #60]
	mov	w19, w8
	b.hi	.LBB25_32
.LBB25_24:
	mov	x0, x22
	bl	"late_words::late_words::LateWords::pad"
	ldp	x9, x8, [x22]
	str	x19, [x9, x8, lsl #3]
	add	x8, x8, #1
	str	x8, [x22, #8]
	b	.LBB25_33
.LBB25_25:
	ldr	x8, [x22, #8]
	ldr	x20, [x26, #8]
	cmp	x8, x25
	b.ls	.LBB25_123
	ldr	x8, [x22]
	mov	w9, #2
	str	x9, [x8, x25, lsl #3]
	ldr	x8, [x22, #8]
	add	w1, w25, #1
	cmp	x8, x1
	b.ls	.LBB25_124
.LBB25_27:
	ldr	x8, [x22]
	str	x20, [x8, x1, lsl #3]
	ldr	x8, [x22, #8]
	ldr	x1, [sp, #16]
	cmp	x8, x1
	ldr	w8, [sp, #60]
	mov	w19, w8
	b.hi	.LBB25_32
	b	.LBB25_24
.LBB25_28:
	ldp	x2, x3, [x26, #8]
	mov	w9, #3
	ldr	x8, [x22, #8]
	orr	x19, x9, x3, lsl #3
	cmp	x8, x25
	b.ls	.LBB25_126
	ldr	x8, [x22]
	str	x19, [x8, x25, lsl #3]
.LBB25_30:
	add	w1, w25, #1
	mov	x0, x22
	bl	"value_image::bytes::put_bytes::<#dd204406e0587c1d>"
.LBB25_31:
	ldr	x8, [x22, #8]
	ldr	x1, [sp, #16]
	cmp	x8, x1
	ldr	w8, [sp, #60]
	mov	w19, w8
	b.ls	.LBB25_24
.LBB25_32:
	ldr	x8, [x22]
	str	x19, [x8, x1, lsl #3]
.LBB25_33:
	ldp	x10, x11, [sp, #32]
	ldp	w13, w12, [sp, #24]
	ldr	x8, [x11, #112]
	ldr	w9, [x11, #120]
	adds	x8, x8, #1
	csinv	x8, x8, xzr, lo
	cmp	w13, #0
	str	x8, [x11, #112]
	cinc	w8, w9, eq
	str	w8, [x11, #120]
	cbz	w12, .LBB25_35
	ldr	x9, [sp, #8]
	ldr	x8, [x11, #128]!
	adds	x9, x9, x10
	csinv	x9, x9, xzr, lo
	cmp	x9, x8
	csel	x8, x9, x8, lo
	b	.LBB25_36
.LBB25_35:
	ldr	x8, [x11, #128]!
	ldur	w9, [x11, #-4]
	adds	x10, x9, x10
	csinv	x10, x10, xzr, lo
	cmp	x10, x8
	csel	x10, x10, x8, lo
	cmp	w9, #0
	csel	x8, x8, x10, eq
.LBB25_36:
	ldp	x20, x19, [sp, #208]
	str	x8, [x11]
	ldp	x22, x21, [sp, #192]
	ldp	x24, x23, [sp, #176]
	ldp	x26, x25, [sp, #160]
	ldp	x28, x27, [sp, #144]
	ldp	x29, x30, [sp, #128]
	add	sp, sp, #224
	ret
.LBB25_37:
	mov	x20, xzr
	ldr	x8, [x22, #8]
	mov	w1, w25
	cmp	x8, x1
	b.ls	.LBB25_86
.LBB25_38:
	ldr	x8, [x22]
	mov	w9, #6
	str	x9, [x8, x1, lsl #3]
	ldr	x8, [x22, #8]
	add	w9, w25, #1
	cmp	x8, x9
	b.ls	.LBB25_80
.LBB25_39:
	ldr	x8, [x22]
	str	x20, [x8, x9, lsl #3]
.LBB25_40:
	add	w25, w25, #2
.LBB25_41:
	ldr	x8, [sp, #48]
	add	x24, x24, #1
	cmp	x24, x8
	b.eq	.LBB25_31
.LBB25_42:
	mov	x27, x28
	cbz	x24, .LBB25_44
	mov	w8, #40
	ldr	x9, [x28, #32]
	madd	x8, x24, x8, x9
	sub	x27, x8, #40
.LBB25_44:
	ldrb	w8, [x27]
	cmp	w8, #2
	b.le	.LBB25_51
	cmp	w8, #4
	b.gt	.LBB25_55
	cmp	w8, #3
	b.ne	.LBB25_81
	ldrb	w8, [x27, #8]
	cbz	w8, .LBB25_108
	ldr	x2, [x27, #16]
	ldr	w26, [x27, #12]
	ldr	x8, [x22, #8]
	mov	w9, #3
	mov	w1, w25
	orr	x19, x9, x26, lsl #3
	cmp	x8, x1
	b.ls	.LBB25_109
.LBB25_49:
	ldr	x8, [x22]
	str	x19, [x8, x1, lsl #3]
.LBB25_50:
	add	w25, w25, #1
	mov	x0, x22
	mov	x3, x26
	mov	w1, w25
	bl	"value_image::bytes::put_bytes::<#dd204406e0587c1d>"
	and	w8, w26, #0x7
	add	w9, w25, w26, lsr #3
	add	w8, w8, #7
	add	w25, w9, w8, lsr #3
	b	.LBB25_41
.LBB25_51:
	cbz	w8, .LBB25_76
	cmp	w8, #1
	b.ne	.LBB25_78
	ldrb	w8, [x27, #1]
	ldr	x9, [x22, #8]
	mov	w10, #1
	mov	w1, w25
	orr	x19, x10, x8, lsl #3
	cmp	x9, x1
	b.ls	.LBB25_111
	ldr	x8, [x22]
	add	w25, w25, #1
	str	x19, [x8, x1, lsl #3]
	b	.LBB25_41
.LBB25_55:
	cmp	w8, #5
	b.ne	.LBB25_84
	ldr	x8, [x27, #24]
	ldr	x9, [x22, #8]
	mov	w19, #5
	mov	w1, w25
	ldr	x8, [x8, #8]
	cmp	x9, x1
	bfi	x19, x8, #3, #32
	b.ls	.LBB25_114
	ldr	x8, [x22]
	str	x19, [x8, x1, lsl #3]
	ldrb	w8, [x27, #8]
	cbz	w8, .LBB25_115
.LBB25_58:
	ldr	x2, [x27, #16]
	ldr	w26, [x27, #12]
	ldr	x9, [x22, #8]
	mov	w10, #3
	add	w8, w25, #1
	orr	x19, x10, x26, lsl #3
	cmp	x9, x8
	b.ls	.LBB25_116
.LBB25_59:
	ldr	x9, [x22]
	str	x19, [x9, x8, lsl #3]
.LBB25_60:
	add	w25, w25, #2
	mov	x0, x22
	mov	x3, x26
	mov	w1, w25
	bl	"value_image::bytes::put_bytes::<#dd204406e0587c1d>"
	ldr	x8, [x27, #24]
	and	w9, w26, #0x7
	add	w10, w25, w26, lsr #3
	add	w9, w9, #7
	ldr	w8, [x8, #8]
	add	w25, w10, w9, lsr #3
	cbz	x8, .LBB25_41
	add	x8, x8, x8, lsl #1
	mov	x21, xzr
	lsl	x20, x8, #3
.LBB25_62:
	ldr	x8, [x27, #24]
	ldr	x26, [x8]
	add	x23, x26, x21
	ldr	w8, [x23, #20]
	ldrb	w9, [x23, #16]
	sub	w8, w8, #1
	cbz	w9, .LBB25_69
	cbz	w8, .LBB25_74
	mov	w9, #40
	ldr	x10, [x28, #32]
	umaddl	x8, w8, w9, x10
	mov	w9, #1
	ldur	x8, [x8, #-8]
	orr	x19, x9, x8, lsl #1
	ldr	x8, [x22, #8]
	mov	w1, w25
	cmp	x8, x1
	b.ls	.LBB25_71
.LBB25_65:
	ldr	x8, [x22]
	str	x19, [x8, x1, lsl #3]
	ldrb	w8, [x23]
	cbz	w8, .LBB25_72
.LBB25_66:
	add	x8, x26, x21
	ldr	x2, [x8, #8]
	ldr	w26, [x8, #4]
	ldr	x9, [x22, #8]
	mov	w10, #3
	add	w8, w25, #1
	orr	x19, x10, x26, lsl #3
	cmp	x9, x8
	b.ls	.LBB25_73
.LBB25_67:
	ldr	x9, [x22]
	str	x19, [x9, x8, lsl #3]
.LBB25_68:
	add	w25, w25, #2
	mov	x0, x22
	mov	x3, x26
	mov	w1, w25
	bl	"value_image::bytes::put_bytes::<#dd204406e0587c1d>"
	and	w8, w26, #0x7
	add	w9, w25, w26, lsr #3
	add	x21, x21, #24
	add	w8, w8, #7
	cmp	x20, x21
	add	w25, w9, w8, lsr #3
	b.ne	.LBB25_62
	b	.LBB25_41
.LBB25_69:
	cbz	w8, .LBB25_75
	mov	w9, #40
	ldr	x10, [x28, #32]
	umaddl	x8, w8, w9, x10
	ldur	x8, [x8, #-8]
	lsl	x19, x8, #1
	ldr	x8, [x22, #8]
	mov	w1, w25
	cmp	x8, x1
	b.hi	.LBB25_65
.LBB25_71:
	mov	x0, x22
	bl	"late_words::late_words::LateWords::pad"
	ldp	x9, x8, [x22]
	str	x19, [x9, x8, lsl #3]
	add	x8, x8, #1
	str	x8, [x22, #8]
	ldrb	w8, [x23]
	cbnz	w8, .LBB25_66
.LBB25_72:
	add	x8, x26, x21
	ldrb	w26, [x8, #1]
	add	x2, x8, #2
	ldr	x9, [x22, #8]
	mov	w10, #3
	add	w8, w25, #1
	orr	x19, x10, x26, lsl #3
	cmp	x9, x8
	b.hi	.LBB25_67
.LBB25_73:
	add	w1, w25, #1
	mov	x0, x22
	mov	x23, x2
	bl	"late_words::late_words::LateWords::pad"
	ldp	x9, x8, [x22]
	mov	x2, x23
	str	x19, [x9, x8, lsl #3]
	add	x8, x8, #1
	str	x8, [x22, #8]
	b	.LBB25_68
.LBB25_74:
	mov	w19, #1
	ldr	x8, [x22, #8]
	mov	w1, w25
	cmp	x8, x1
	b.hi	.LBB25_65
	b	.LBB25_71
.LBB25_75:
	mov	x19, xzr
	ldr	x8, [x22, #8]
	mov	w1, w25
	cmp	x8, x1
	b.hi	.LBB25_65
	b	.LBB25_71
.LBB25_76:
	ldr	x8, [x22, #8]
	mov	w1, w25
	cmp	x8, x1
	b.ls	.LBB25_110
	ldr	x8, [x22]
	add	w25, w25, #1
	str	xzr, [x8, x1, lsl #3]
	b	.LBB25_41
.LBB25_78:
	ldr	x8, [x22, #8]
	mov	w1, w25
	ldr	x20, [x27, #8]
	cmp	x8, x1
	b.ls	.LBB25_112
	ldr	x8, [x22]
	mov	w9, #2
	str	x9, [x8, x1, lsl #3]
	ldr	x8, [x22, #8]
	add	w9, w25, #1
	cmp	x8, x9
	b.hi	.LBB25_39
.LBB25_80:
	add	w1, w25, #1
	mov	x0, x22
	bl	"late_words::late_words::LateWords::pad"
	ldp	x9, x8, [x22]
	str	x20, [x9, x8, lsl #3]
	add	x8, x8, #1
	str	x8, [x22, #8]
	b	.LBB25_40
.LBB25_81:
	ldr	x8, [x27, #16]
	ldr	x9, [x22, #8]
	mov	w19, #4
	mov	w1, w25
	bfi	x19, x8, #3, #32
	cmp	x9, x1
	b.ls	.LBB25_117
	ldr	x8, [x22]
	str	x19, [x8, x1, lsl #3]
	ldr	w8, [x27, #16]
	add	w25, w25, #1
	cbz	x8, .LBB25_41
.LBB25_83:
	lsl	x21, x8, #5
	mov	x20, xzr
	b	.LBB25_90
.LBB25_84:
	ldr	w8, [x27, #4]
	subs	w8, w8, #1
	b.eq	.LBB25_37
	mov	w9, #40
	ldr	x10, [x28, #32]
	umaddl	x8, w8, w9, x10
	ldur	x20, [x8, #-8]
	ldr	x8, [x22, #8]
	mov	w1, w25
	cmp	x8, x1
	b.hi	.LBB25_38
.LBB25_86:
	mov	x0, x22
	bl	"late_words::late_words::LateWords::pad"
	ldp	x9, x8, [x22]
	mov	w10, #6
	b	.LBB25_113
.LBB25_87:
	add	w1, w25, #1
	mov	x0, x22
	bl	"late_words::late_words::LateWords::pad"
	ldp	x9, x8, [x22]
	mov	w10, #2
	str	x10, [x9, x8, lsl #3]
	add	x8, x8, #1
	str	x8, [x22, #8]
	add	w9, w25, #2
	cmp	x8, x9
	b.ls	.LBB25_103
.LBB25_88:
	ldr	x8, [x22]
	add	w25, w25, #3
	str	x23, [x8, x9, lsl #3]
.LBB25_89:
	add	x20, x20, #32
	cmp	x21, x20
	b.eq	.LBB25_41
.LBB25_90:
	ldr	x26, [x27, #8]
	add	x8, x26, x20
	ldrb	w9, [x8, #24]
	ldr	w8, [x8, #28]
	sub	w8, w8, #1
	cbz	w9, .LBB25_98
	cbz	w8, .LBB25_104
	mov	w9, #40
	ldr	x10, [x28, #32]
	umaddl	x8, w8, w9, x10
	mov	w9, #1
	ldur	x8, [x8, #-8]
	orr	x23, x9, x8, lsl #1
	ldr	x8, [x22, #8]
	mov	w1, w25
	cmp	x8, x1
	b.ls	.LBB25_100
.LBB25_93:
	ldr	x8, [x22]
	str	x23, [x8, x1, lsl #3]
	add	x9, x26, x20
	add	w8, w25, #1
	ldrb	w10, [x9]
	cbz	w10, .LBB25_101
.LBB25_94:
	ldrb	w9, [x9, #8]
	cbz	w9, .LBB25_105
	add	x9, x26, x20
	ldr	x2, [x9, #16]
	ldr	w26, [x9, #12]
	ldr	x9, [x22, #8]
	mov	w10, #3
	orr	x19, x10, x26, lsl #3
	cmp	x9, x8
	b.ls	.LBB25_106
.LBB25_96:
	ldr	x9, [x22]
	str	x19, [x9, x8, lsl #3]
.LBB25_97:
	add	w25, w25, #2
	mov	x0, x22
	mov	x3, x26
	mov	w1, w25
	bl	"value_image::bytes::put_bytes::<#dd204406e0587c1d>"
	and	w8, w26, #0x7
	add	w9, w25, w26, lsr #3
	add	w8, w8, #7
	add	w25, w9, w8, lsr #3
	b	.LBB25_89
.LBB25_98:
	cbz	w8, .LBB25_107
	mov	w9, #40
	ldr	x10, [x28, #32]
	umaddl	x8, w8, w9, x10
	ldur	x8, [x8, #-8]
	lsl	x23, x8, #1
	ldr	x8, [x22, #8]
	mov	w1, w25
	cmp	x8, x1
	b.hi	.LBB25_93
.LBB25_100:
	mov	x0, x22
	bl	"late_words::late_words::LateWords::pad"
	ldp	x9, x8, [x22]
	str	x23, [x9, x8, lsl #3]
	add	x8, x8, #1
	str	x8, [x22, #8]
	add	x9, x26, x20
	add	w8, w25, #1
	ldrb	w10, [x9]
	cbnz	w10, .LBB25_94
.LBB25_101:
	ldr	x10, [x22, #8]
	ldr	x23, [x9, #8]
	cmp	x10, x8
	b.ls	.LBB25_87
	ldr	x9, [x22]
	mov	w10, #2
	str	x10, [x9, x8, lsl #3]
	ldr	x8, [x22, #8]
	add	w9, w25, #2
	cmp	x8, x9
	b.hi	.LBB25_88
.LBB25_103:
	add	w1, w25, #2
	mov	x0, x22
	bl	"late_words::late_words::LateWords::pad"
	ldp	x9, x8, [x22]
	add	w25, w25, #3
	str	x23, [x9, x8, lsl #3]
	add	x8, x8, #1
	str	x8, [x22, #8]
	b	.LBB25_89
.LBB25_104:
	mov	w23, #1
	ldr	x8, [x22, #8]
	mov	w1, w25
	cmp	x8, x1
	b.hi	.LBB25_93
	b	.LBB25_100
.LBB25_105:
	add	x9, x26, x20
	ldrb	w26, [x9, #9]
	add	x2, x9, #10
	ldr	x9, [x22, #8]
	mov	w10, #3
	orr	x19, x10, x26, lsl #3
	cmp	x9, x8
	b.hi	.LBB25_96
.LBB25_106:
	add	w1, w25, #1
	mov	x0, x22
	mov	x23, x2
	bl	"late_words::late_words::LateWords::pad"
	ldp	x9, x8, [x22]
	mov	x2, x23
	str	x19, [x9, x8, lsl #3]
	add	x8, x8, #1
	str	x8, [x22, #8]
	b	.LBB25_97
.LBB25_107:
	mov	x23, xzr
	ldr	x8, [x22, #8]
	mov	w1, w25
	cmp	x8, x1
	b.hi	.LBB25_93
	b	.LBB25_100
.LBB25_108:
	ldrb	w26, [x27, #9]
	add	x2, x27, #10
	ldr	x8, [x22, #8]
	mov	w9, #3
	mov	w1, w25
	orr	x19, x9, x26, lsl #3
	cmp	x8, x1
	b.hi	.LBB25_49
.LBB25_109:
	mov	x0, x22
	mov	x20, x2
	bl	"late_words::late_words::LateWords::pad"
	ldp	x9, x8, [x22]
	mov	x2, x20
	str	x19, [x9, x8, lsl #3]
	add	x8, x8, #1
	str	x8, [x22, #8]
	b	.LBB25_50
.LBB25_110:
	mov	x0, x22
	bl	"late_words::late_words::LateWords::pad"
	ldp	x9, x8, [x22]
	add	w25, w25, #1
	str	xzr, [x9, x8, lsl #3]
	add	x8, x8, #1
	str	x8, [x22, #8]
	b	.LBB25_41
.LBB25_111:
	mov	x0, x22
	bl	"late_words::late_words::LateWords::pad"
	ldp	x9, x8, [x22]
	add	w25, w25, #1
	str	x19, [x9, x8, lsl #3]
	add	x8, x8, #1
	str	x8, [x22, #8]
	b	.LBB25_41
.LBB25_112:
	mov	x0, x22
	bl	"late_words::late_words::LateWords::pad"
	ldp	x9, x8, [x22]
	mov	w10, #2
.LBB25_113:
	str	x10, [x9, x8, lsl #3]
	add	x8, x8, #1
	str	x8, [x22, #8]
	add	w9, w25, #1
	cmp	x8, x9
	b.hi	.LBB25_39
	b	.LBB25_80
.LBB25_114:
	mov	x0, x22
	bl	"late_words::late_words::LateWords::pad"
	ldp	x9, x8, [x22]
	str	x19, [x9, x8, lsl #3]
	add	x8, x8, #1
	str	x8, [x22, #8]
	ldrb	w8, [x27, #8]
	cbnz	w8, .LBB25_58
.LBB25_115:
	ldrb	w26, [x27, #9]
	add	x2, x27, #10
	ldr	x9, [x22, #8]
	mov	w10, #3
	add	w8, w25, #1
	orr	x19, x10, x26, lsl #3
	cmp	x9, x8
	b.hi	.LBB25_59
.LBB25_116:
	add	w1, w25, #1
	mov	x0, x22
	mov	x20, x2
	bl	"late_words::late_words::LateWords::pad"
	ldp	x9, x8, [x22]
	mov	x2, x20
	str	x19, [x9, x8, lsl #3]
	add	x8, x8, #1
	str	x8, [x22, #8]
	b	.LBB25_60
.LBB25_117:
	mov	x0, x22
	bl	"late_words::late_words::LateWords::pad"
	ldp	x9, x8, [x22]
	str	x19, [x9, x8, lsl #3]
	add	x8, x8, #1
	str	x8, [x22, #8]
	ldr	w8, [x27, #16]
	add	w25, w25, #1
	cbnz	x8, .LBB25_83
	b	.LBB25_41
.LBB25_118:
	ldr	w8, [sp, #60]
	mov	x0, x22
	add	w1, w8, #9
	bl	"late_words::late_words::LateWords::pad"
	ldp	x9, x8, [x22]
	str	xzr, [x9, x8, lsl #3]
	add	x8, x8, #1
	str	x8, [x22, #8]
	ldr	w9, [sp, #60]
	add	w9, w9, #10
	cmp	x8, x9
	b.hi	.LBB25_12
.LBB25_119:
	ldr	w8, [sp, #60]
	mov	x0, x22
	add	w1, w8, #10
	bl	"late_words::late_words::LateWords::pad"
	ldp	x9, x8, [x22]
	str	x20, [x9, x8, lsl #3]
	add	x8, x8, #1
	str	x8, [x22, #8]
	ldr	w9, [sp, #60]
	add	w9, w9, #11
	cmp	x8, x9
	b.hi	.LBB25_13
.LBB25_120:
	ldr	w8, [sp, #60]
	mov	x0, x22
	add	w1, w8, #11
	bl	"late_words::late_words::LateWords::pad"
	ldp	x9, x8, [x22]
	str	xzr, [x9, x8, lsl #3]
	add	x8, x8, #1
	str	x8, [x22, #8]
	b	.LBB25_14
.LBB25_121:
	mov	x0, x22
	mov	x1, x25
	bl	"late_words::late_words::LateWords::pad"
	ldp	x9, x8, [x22]
	str	xzr, [x9, x8, lsl #3]
	b	.LBB25_125
.LBB25_122:
	mov	x0, x22
	mov	x1, x25
	bl	"late_words::late_words::LateWords::pad"
	ldp	x9, x8, [x22]
	str	x19, [x9, x8, lsl #3]
	b	.LBB25_125
.LBB25_123:
	mov	x0, x22
	mov	x1, x25
	bl	"late_words::late_words::LateWords::pad"
	ldp	x9, x8, [x22]
	mov	w10, #2
	str	x10, [x9, x8, lsl #3]
	add	x8, x8, #1
	str	x8, [x22, #8]
	add	w1, w25, #1
	cmp	x8, x1
	b.hi	.LBB25_27
.LBB25_124:
	mov	x0, x22
	bl	"late_words::late_words::LateWords::pad"
	ldp	x9, x8, [x22]
	str	x20, [x9, x8, lsl #3]
.LBB25_125:
	add	x8, x8, #1
	str	x8, [x22, #8]
	ldr	x1, [sp, #16]
	cmp	x8, x1
	ldr	w8, [sp, #60]
	mov	w19, w8
	b.hi	.LBB25_32
	b	.LBB25_24
.LBB25_126:
	mov	x0, x22
	mov	x1, x25
	mov	x20, x3
	mov	x21, x2
	bl	"late_words::late_words::LateWords::pad"
	ldp	x9, x8, [x22]
	mov	x2, x21
	mov	x3, x20
	str	x19, [x9, x8, lsl #3]
	add	x8, x8, #1
	str	x8, [x22, #8]
	b	.LBB25_30
.Lfunc_end25:
	.size	"entry_slots::slots::EntrySlots::link_at::<#dd204406e0587c1d>", .Lfunc_end25-"entry_slots::slots::EntrySlots::link_at::<#dd204406e0587c1d>"

	.section	".text.cache_c::seat_words::SeatWordsSegment::store_eight","ax",@progbits
	.p2align	2
	.type	"cache_c::seat_words::SeatWordsSegment::store_eight",@function
"cache_c::seat_words::SeatWordsSegment::store_eight":
	stp	x29, x30, [sp, #-48]!
	mov	w8, w1
	ldr	x9, [x0, #8]
	stp	x22, x21, [sp, #16]
	add	x10, x8, #8
	stp	x20, x19, [sp, #32]
	mov	x29, sp
	cmp	x10, x9
	b.ls	.LBB26_10
	ldr	x20, [x2]
	cmp	x9, x8
	b.ls	.LBB26_13
	ldr	x9, [x0]
	str	x20, [x9, x8, lsl #3]
	ldr	x8, [x0, #8]
	add	w9, w1, #1
	ldr	x20, [x2, #8]
	cmp	x8, x9
	b.ls	.LBB26_14
.LBB26_3:
	ldr	x8, [x0]
	str	x20, [x8, x9, lsl #3]
	ldr	x8, [x0, #8]
	add	w9, w1, #2
	ldr	x20, [x2, #16]
	cmp	x8, x9
	b.ls	.LBB26_15
.LBB26_4:
	ldr	x8, [x0]
	str	x20, [x8, x9, lsl #3]
	ldr	x8, [x0, #8]
	add	w9, w1, #3
	ldr	x20, [x2, #24]
	cmp	x8, x9
	b.ls	.LBB26_16
.LBB26_5:
	ldr	x8, [x0]
	str	x20, [x8, x9, lsl #3]
	ldr	x8, [x0, #8]
	add	w9, w1, #4
	ldr	x20, [x2, #32]
	cmp	x8, x9
	b.ls	.LBB26_17
.LBB26_6:
	ldr	x8, [x0]
	str	x20, [x8, x9, lsl #3]
	ldr	x8, [x0, #8]
	add	w9, w1, #5
	ldr	x20, [x2, #40]
	cmp	x8, x9
	b.ls	.LBB26_18
.LBB26_7:
	ldr	x8, [x0]
	str	x20, [x8, x9, lsl #3]
	ldr	x8, [x0, #8]
	add	w9, w1, #6
	ldr	x20, [x2, #48]
	cmp	x8, x9
	b.ls	.LBB26_19
.LBB26_8:
	ldr	x8, [x0]
	str	x20, [x8, x9, lsl #3]
	ldr	x8, [x0, #8]
	add	w1, w1, #7
	ldr	x20, [x2, #56]
	cmp	x8, x1
	b.ls	.LBB26_20
.LBB26_9:
	ldr	x8, [x0]
	str	x20, [x8, x1, lsl #3]
	ldp	x20, x19, [sp, #32]
	ldp	x22, x21, [sp, #16]
	ldp	x29, x30, [sp], #48
	ret
.LBB26_10:
	ldr	x9, [x0]
	add	x8, x9, x8, lsl #3
	sub	x9, x8, x2
	cmp	x9, #63
	b.hi	.LBB26_12
	ldr	x9, [x2]
	str	x9, [x8]
	ldr	x9, [x2, #8]
	str	x9, [x8, #8]
	ldr	x9, [x2, #16]
	str	x9, [x8, #16]
	ldr	x9, [x2, #24]
	str	x9, [x8, #24]
	ldr	x9, [x2, #32]
	str	x9, [x8, #32]
	ldr	x9, [x2, #40]
	str	x9, [x8, #40]
	ldr	x9, [x2, #48]
	str	x9, [x8, #48]
	ldr	x9, [x2, #56]
	str	x9, [x8, #56]
	ldp	x20, x19, [sp, #32]
	ldp	x22, x21, [sp, #16]
	ldp	x29, x30, [sp], #48
	ret
.LBB26_12:
	ldp	q1, q0, [x2, #32]
	ldp	q2, q3, [x2]
	stp	q1, q0, [x8, #32]
	stp	q2, q3, [x8]
	ldp	x20, x19, [sp, #32]
	ldp	x22, x21, [sp, #16]
	ldp	x29, x30, [sp], #48
	ret
.LBB26_13:
	mov	w21, w1
	mov	x1, x8
	mov	x19, x0
	mov	x22, x2
	bl	"late_words::late_words::LateWords::pad"
	ldp	x9, x8, [x19]
	mov	w1, w21
	mov	x0, x19
	mov	x2, x22
	str	x20, [x9, x8, lsl #3]
	add	x8, x8, #1
	str	x8, [x19, #8]
	add	w9, w21, #1
	ldr	x20, [x22, #8]
	cmp	x8, x9
	b.hi	.LBB26_3
.LBB26_14:
	mov	w21, w1
	add	w1, w1, #1
	mov	x19, x0
	mov	x22, x2
	bl	"late_words::late_words::LateWords::pad"
	ldp	x9, x8, [x19]
	mov	w1, w21
	mov	x0, x19
	mov	x2, x22
	str	x20, [x9, x8, lsl #3]
	add	x8, x8, #1
	str	x8, [x19, #8]
	add	w9, w21, #2
	ldr	x20, [x22, #16]
	cmp	x8, x9
	b.hi	.LBB26_4
.LBB26_15:
	mov	w21, w1
	add	w1, w1, #2
	mov	x19, x0
	mov	x22, x2
	bl	"late_words::late_words::LateWords::pad"
	ldp	x9, x8, [x19]
	mov	w1, w21
	mov	x0, x19
	mov	x2, x22
	str	x20, [x9, x8, lsl #3]
	add	x8, x8, #1
	str	x8, [x19, #8]
	add	w9, w21, #3
	ldr	x20, [x22, #24]
	cmp	x8, x9
	b.hi	.LBB26_5
.LBB26_16:
	mov	w21, w1
	add	w1, w1, #3
	mov	x19, x0
	mov	x22, x2
	bl	"late_words::late_words::LateWords::pad"
	ldp	x9, x8, [x19]
	mov	w1, w21
	mov	x0, x19
	mov	x2, x22
	str	x20, [x9, x8, lsl #3]
	add	x8, x8, #1
	str	x8, [x19, #8]
	add	w9, w21, #4
	ldr	x20, [x22, #32]
	cmp	x8, x9
	b.hi	.LBB26_6
.LBB26_17:
	mov	w21, w1
	add	w1, w1, #4
	mov	x19, x0
	mov	x22, x2
	bl	"late_words::late_words::LateWords::pad"
	ldp	x9, x8, [x19]
	mov	w1, w21
	mov	x0, x19
	mov	x2, x22
	str	x20, [x9, x8, lsl #3]
	add	x8, x8, #1
	str	x8, [x19, #8]
	add	w9, w21, #5
	ldr	x20, [x22, #40]
	cmp	x8, x9
	b.hi	.LBB26_7
.LBB26_18:
	mov	w21, w1
	add	w1, w1, #5
	mov	x19, x0
	mov	x22, x2
	bl	"late_words::late_words::LateWords::pad"
	ldp	x9, x8, [x19]
	mov	w1, w21
	mov	x0, x19
	mov	x2, x22
	str	x20, [x9, x8, lsl #3]
	add	x8, x8, #1
	str	x8, [x19, #8]
	add	w9, w21, #6
	ldr	x20, [x22, #48]
	cmp	x8, x9
	b.hi	.LBB26_8
.LBB26_19:
	mov	w21, w1
	add	w1, w1, #6
	mov	x19, x0
	mov	x22, x2
	bl	"late_words::late_words::LateWords::pad"
	ldp	x9, x8, [x19]
	mov	x0, x19
	str	x20, [x9, x8, lsl #3]
	add	x8, x8, #1
	str	x8, [x19, #8]
	add	w1, w21, #7
	ldr	x20, [x22, #56]
	cmp	x8, x1
	b.hi	.LBB26_9
.LBB26_20:
	mov	x19, x0
	bl	"late_words::late_words::LateWords::pad"
	ldp	x9, x8, [x19]
	str	x20, [x9, x8, lsl #3]
	add	x8, x8, #1
	str	x8, [x19, #8]
	ldp	x20, x19, [sp, #32]
	ldp	x22, x21, [sp, #16]
	ldp	x29, x30, [sp], #48
	ret
.Lfunc_end26:
	.size	"cache_c::seat_words::SeatWordsSegment::store_eight", .Lfunc_end26-"cache_c::seat_words::SeatWordsSegment::store_eight"

	.section	".text.value_image::bytes::put_bytes::<#dd204406e0587c1d>","ax",@progbits
	.p2align	2
	.type	"value_image::bytes::put_bytes::<#dd204406e0587c1d>",@function
"value_image::bytes::put_bytes::<#dd204406e0587c1d>":
	sub	sp, sp, #160
	stp	x26, x25, [sp, #96]
	lsr	x25, x3, #6
	stp	x24, x23, [sp, #112]
	lsr	x24, x3, #3
	stp	x22, x21, [sp, #128]
	mov	x21, x3
	mov	x22, x2
	stp	x20, x19, [sp, #144]
	mov	w20, w1
	mov	x19, x0
	stp	x29, x30, [sp, #64]
	add	x29, sp, #64
	str	x27, [sp, #80]
	cbz	x25, .LBB27_3
	add	x26, x22, #32
	mov	w23, w20
	mov	x27, x25
.LBB27_2:
	ldp	q0, q1, [x26, #-32]
	mov	x2, sp
	mov	x0, x19
	mov	w1, w23
	stp	q0, q1, [sp]
	ldp	q0, q2, [x26], #64
	stp	q0, q2, [sp, #32]
	bl	"cache_c::seat_words::SeatWordsSegment::store_eight"
	subs	x27, x27, #1
	add	w23, w23, #8
	b.ne	.LBB27_2
.LBB27_3:
	lsl	x8, x25, #3
	subs	x26, x24, x8
	b.ls	.LBB27_8
	add	w8, w20, w25, lsl #3
	add	x25, x22, x25, lsl #6
.LBB27_5:
	ldr	x9, [x19, #8]
	mov	w23, w8
	ldr	x27, [x25], #8
	cmp	x9, x23
	b.ls	.LBB27_7
	ldr	x8, [x19]
	str	x27, [x8, x23, lsl #3]
	subs	x26, x26, #1
	add	w8, w23, #1
	b.ne	.LBB27_5
	b	.LBB27_8
.LBB27_7:
	mov	x0, x19
	mov	x1, x23
	bl	"late_words::late_words::LateWords::pad"
	ldp	x9, x8, [x19]
	str	x27, [x9, x8, lsl #3]
	add	x8, x8, #1
	str	x8, [x19, #8]
	subs	x26, x26, #1
	add	w8, w23, #1
	b.ne	.LBB27_5
.LBB27_8:
	tst	x21, #0x7
	b.eq	.LBB27_19
	and	x9, x21, #0xfffffff800000007
	and	x8, x21, #0x7fffffff8
	cmp	x9, #8
	add	x8, x22, x8
	b.lo	.LBB27_11
	ldr	x21, [x8]
	b	.LBB27_17
.LBB27_11:
	cmp	x21, #7
	b.hi	.LBB27_16
	cmp	x9, #3
	b.hi	.LBB27_20
	mov	x21, x9
	cbz	x9, .LBB27_17
	cmp	x9, #1
	b.ne	.LBB27_25
	ldrb	w21, [x8]
	b	.LBB27_17
.LBB27_16:
	add	x8, x22, x21
	lsl	x9, x9, #3
	ldur	x8, [x8, #-8]
	neg	x9, x9
	lsr	x21, x8, x9
.LBB27_17:
	ldr	x8, [x19, #8]
	add	w1, w20, w24
	cmp	x8, x1
	b.ls	.LBB27_23
	ldr	x8, [x19]
	str	x21, [x8, x1, lsl #3]
.LBB27_19:
	ldp	x20, x19, [sp, #144]
	ldr	x27, [sp, #80]
	ldp	x22, x21, [sp, #128]
	ldp	x24, x23, [sp, #112]
	ldp	x26, x25, [sp, #96]
	ldp	x29, x30, [sp, #64]
	add	sp, sp, #160
	ret
.LBB27_20:
	ldr	w10, [x8]
	cmp	x9, #4
	b.eq	.LBB27_24
	cmp	x9, #5
	b.ne	.LBB27_27
	ldrb	w11, [x8, #4]
	orr	x21, x10, x11, lsl #32
	b	.LBB27_17
.LBB27_23:
	mov	x0, x19
	bl	"late_words::late_words::LateWords::pad"
	ldp	x9, x8, [x19]
	str	x21, [x9, x8, lsl #3]
	add	x8, x8, #1
	str	x8, [x19, #8]
	b	.LBB27_19
.LBB27_24:
	orr	x21, x10, xzr, lsl #32
	b	.LBB27_17
.LBB27_25:
	ldrh	w21, [x8]
	cmp	x9, #2
	b.eq	.LBB27_17
	ldrb	w8, [x8, #2]
	orr	x21, x21, x8, lsl #16
	b	.LBB27_17
.LBB27_27:
	ldrh	w11, [x8, #4]
	cmp	x9, #6
	b.eq	.LBB27_29
	ldrb	w8, [x8, #6]
	orr	x11, x11, x8, lsl #16
.LBB27_29:
	orr	x21, x10, x11, lsl #32
	b	.LBB27_17
.Lfunc_end27:
	.size	"value_image::bytes::put_bytes::<#dd204406e0587c1d>", .Lfunc_end27-"value_image::bytes::put_bytes::<#dd204406e0587c1d>"

	.section	".text.cache_core::finding::find_live_in::<#cb700d0c354f31d0>","ax",@progbits
	.p2align	2
	.type	"cache_core::finding::find_live_in::<#cb700d0c354f31d0>",@function
"cache_core::finding::find_live_in::<#cb700d0c354f31d0>":
	ldr	x9, [x1, #8]
	mov	w11, w4
	cmp	x9, x11
	b.ls	.LBB28_58
	mov	x8, x1
	mov	w1, wzr
	cbz	w0, .LBB28_60
	ldr	x10, [x8]
	mov	w8, w1
	ldr	x15, [x10, x11, lsl #3]
	cbz	w15, .LBB28_59
	and	w8, w3, #0x7
	add	w8, w8, #7
	lsr	w8, w8, #3
	add	w12, w8, w3, lsr #3
	cbz	w12, .LBB28_32
	cmp	x3, #8
	b.hs	.LBB28_40
	lsl	x12, x12, #3
	mov	w11, wzr
	sub	x13, x3, #6
	sub	x14, x3, #2
.LBB28_6:
	add	w8, w15, #2
	cmp	x9, x8
	b.ls	.LBB28_8
	ldr	x8, [x10, x8, lsl #3]
	cmp	x8, x3
	b.eq	.LBB28_9
	b	.LBB28_29
.LBB28_8:
	cmp	xzr, x3
	b.ne	.LBB28_29
.LBB28_9:
	mov	x8, xzr
	mov	w16, #12
	mov	x17, x3
.LBB28_10:
	add	w18, w15, w16
	cmp	x9, x18
	b.ls	.LBB28_17
	ldr	x18, [x10, x18, lsl #3]
	cmp	x17, #7
	b.hi	.LBB28_18
.LBB28_12:
	cmp	x17, #4
	b.hs	.LBB28_19
	cmp	x17, #1
	b.eq	.LBB28_22
	mov	x1, x17
	cbz	x17, .LBB28_27
	ldrh	w1, [x2, x8]
	cmp	x14, x8
	b.eq	.LBB28_27
	add	x4, x2, x8
	ldrb	w4, [x4, #2]
	orr	x1, x1, x4, lsl #16
	b	.LBB28_27
.LBB28_17:
	mov	x18, xzr
	cmp	x17, #7
	b.ls	.LBB28_12
.LBB28_18:
	ldr	x1, [x2, x8]
	b	.LBB28_27
.LBB28_19:
	cmp	x17, #4
	add	x1, x2, x8
	b.eq	.LBB28_23
	cmp	x17, #5
	b.ne	.LBB28_24
	ldrb	w4, [x1, #4]
	b	.LBB28_26
.LBB28_22:
	ldrb	w1, [x2, x8]
	b	.LBB28_27
.LBB28_23:
	mov	x4, xzr
	b	.LBB28_26
.LBB28_24:
	add	x6, x2, x8
	ldrb	w4, [x1, #4]
	cmp	x13, x8
	ldrb	w7, [x6, #5]
	orr	x4, x4, x7, lsl #8
	b.eq	.LBB28_26
	ldrb	w6, [x6, #6]
	orr	x4, x4, x6, lsl #16
.LBB28_26:
	ldr	w1, [x1]
	orr	x1, x1, x4, lsl #32
.LBB28_27:
	cmp	x18, x1
	b.ne	.LBB28_29
	add	x8, x8, #8
	sub	x17, x17, #8
	add	w16, w16, #1
	cmp	x12, x8
	b.ne	.LBB28_10
	b	.LBB28_53
.LBB28_29:
	add	w8, w15, #1
	cmp	x9, x8
	b.ls	.LBB28_58
	add	w11, w11, #1
	mov	w1, wzr
	cmp	w11, w0
	b.hs	.LBB28_60
	ldr	x15, [x10, x8, lsl #3]
	mov	w8, w1
	cbnz	w15, .LBB28_6
	b	.LBB28_59
.LBB28_32:
	mov	w11, #1
.LBB28_33:
	add	w8, w15, #2
	cmp	x9, x8
	b.ls	.LBB28_35
	ldr	x8, [x10, x8, lsl #3]
	b	.LBB28_36
.LBB28_35:
	mov	x8, xzr
.LBB28_36:
	cmp	x8, x3
	b.eq	.LBB28_53
	add	w8, w15, #1
	cmp	x9, x8
	b.ls	.LBB28_58
	cmp	w11, w0
	mov	w1, wzr
	b.hs	.LBB28_60
	ldr	x15, [x10, x8, lsl #3]
	add	w11, w11, #1
	mov	w8, w1
	cbnz	w15, .LBB28_33
	b	.LBB28_59
.LBB28_40:
	mov	w8, #64
	mov	w11, wzr
	add	x14, x2, x3
	sub	x13, x8, x3, lsl #3
.LBB28_41:
	add	w8, w15, #2
	cmp	x9, x8
	b.ls	.LBB28_50
	ldr	x8, [x10, x8, lsl #3]
	cmp	x8, x3
	b.ne	.LBB28_50
	add	w1, w15, #12
	mov	x8, x3
	mov	x16, x13
	mov	x17, x2
	mov	x18, x12
	b	.LBB28_46
.LBB28_44:
	ldr	x6, [x17]
	cmp	x4, x6
	b.ne	.LBB28_50
.LBB28_45:
	sub	x18, x18, #1
	add	x17, x17, #8
	add	x16, x16, #64
	add	w1, w1, #1
	cbz	x18, .LBB28_53
.LBB28_46:
	mov	w1, w1
	cmp	x9, x1
	b.ls	.LBB28_48
	ldr	x4, [x10, x1, lsl #3]
	subs	x8, x8, #8
	b.hs	.LBB28_44
	b	.LBB28_49
.LBB28_48:
	mov	x4, xzr
	subs	x8, x8, #8
	b.hs	.LBB28_44
.LBB28_49:
	ldur	x6, [x14, #-8]
	lsr	x6, x6, x16
	cmp	x4, x6
	b.eq	.LBB28_45
.LBB28_50:
	add	w8, w15, #1
	cmp	x9, x8
	b.ls	.LBB28_58
	add	w11, w11, #1
	mov	w1, wzr
	cmp	w11, w0
	b.hs	.LBB28_60
	ldr	x15, [x10, x8, lsl #3]
	mov	w8, w1
	cbnz	w15, .LBB28_41
	b	.LBB28_59
.LBB28_53:
	add	w8, w15, #4
	mov	w1, w15
	cmp	x9, x8
	b.ls	.LBB28_61
	ldr	x8, [x10, x8, lsl #3]
	cbz	x8, .LBB28_61
	add	w11, w1, #5
	cmp	x9, x11
	b.ls	.LBB28_57
	ldr	x9, [x10, x11, lsl #3]
	adds	x8, x8, x9
	csinv	x8, x8, xzr, lo
.LBB28_57:
	cmp	x8, x5
	b.hs	.LBB28_61
.LBB28_58:
	mov	w1, wzr
	mov	w8, wzr
.LBB28_59:
	mov	w0, w8
	ret
.LBB28_60:
	mov	w0, w1
	ret
.LBB28_61:
	mov	w0, #1
	ret
.Lfunc_end28:
	.size	"cache_core::finding::find_live_in::<#cb700d0c354f31d0>", .Lfunc_end28-"cache_core::finding::find_live_in::<#cb700d0c354f31d0>"

	.section	".text.cache_c::cache::Cache::row","ax",@progbits
	.p2align	2
	.type	"cache_c::cache::Cache::row",@function
"cache_c::cache::Cache::row":
	ldp	x14, x15, [x1, #184]
	mov	w8, w3
	cmp	x15, x8
	b.ls	.LBB29_9
	ldr	x8, [x14, x8, lsl #3]
	add	w9, w3, #2
	cmp	x15, x9
	b.hi	.LBB29_10
.LBB29_2:
	mov	w9, wzr
	add	w10, w3, #4
	cmp	x15, x10
	b.hi	.LBB29_11
.LBB29_3:
	mov	w10, wzr
	add	w11, w3, #5
	cmp	x15, x11
	b.hi	.LBB29_12
.LBB29_4:
	mov	x11, xzr
	add	w12, w3, #6
	cmp	x15, x12
	b.hi	.LBB29_13
.LBB29_5:
	mov	x12, xzr
	add	w13, w3, #7
	cmp	x15, x13
	b.hi	.LBB29_14
.LBB29_6:
	mov	x13, xzr
	add	w16, w3, #8
	cmp	x15, x16
	b.hi	.LBB29_15
.LBB29_7:
	mov	x16, xzr
	add	w17, w3, #9
	cmp	x15, x17
	b.hi	.LBB29_16
.LBB29_8:
	mov	x17, xzr
	b	.LBB29_17
.LBB29_9:
	mov	w8, wzr
	add	w9, w3, #2
	cmp	x15, x9
	b.ls	.LBB29_2
.LBB29_10:
	ldr	x9, [x14, x9, lsl #3]
	add	w10, w3, #4
	cmp	x15, x10
	b.ls	.LBB29_3
.LBB29_11:
	ldr	x10, [x14, x10, lsl #3]
	add	w11, w3, #5
	cmp	x15, x11
	b.ls	.LBB29_4
.LBB29_12:
	ldr	x11, [x14, x11, lsl #3]
	add	w12, w3, #6
	cmp	x15, x12
	b.ls	.LBB29_5
.LBB29_13:
	ldr	x12, [x14, x12, lsl #3]
	add	w13, w3, #7
	cmp	x15, x13
	b.ls	.LBB29_6
.LBB29_14:
	ldr	x13, [x14, x13, lsl #3]
	add	w16, w3, #8
	cmp	x15, x16
	b.ls	.LBB29_7
.LBB29_15:
	ldr	x16, [x14, x16, lsl #3]
	add	w17, w3, #9
	cmp	x15, x17
	b.ls	.LBB29_8
.LBB29_16:
	ldr	x17, [x14, x17, lsl #3]
.LBB29_17:
	add	w18, w3, #12
	and	w1, w9, #0x7
	add	w4, w18, w9, lsr #3
	add	w1, w1, #7
	add	w4, w4, w1, lsr #3
	cmp	x15, x4
	b.ls	.LBB29_23
	ldr	x5, [x14, x4, lsl #3]
	ands	x1, x5, #0x7
	b.eq	.LBB29_26
	cmp	x1, #1
	b.eq	.LBB29_25
	cmp	x1, #2
	b.ne	.LBB29_27
	add	w1, w4, #1
	cmp	x15, x1
	b.ls	.LBB29_28
	ldr	x1, [x14, x1, lsl #3]
	mov	w15, wzr
	mov	x4, xzr
	mov	w14, #2
	b	.LBB29_24
.LBB29_23:
	mov	w14, wzr
	mov	w15, wzr
	mov	x1, xzr
	mov	x4, xzr
.LBB29_24:
	stp	w3, w2, [x0]
	stp	w18, w9, [x0, #8]
	stp	w10, w8, [x0, #16]
	stp	x11, x12, [x0, #24]
	stp	x13, x16, [x0, #40]
	str	x17, [x0, #56]
	stp	w14, w15, [x0, #64]
	stp	x1, x4, [x0, #72]
	ret
.LBB29_25:
	cmp	x5, #1
	mov	w15, wzr
	mov	x4, xzr
	cset	w1, ne
	mov	w14, #1
	b	.LBB29_24
.LBB29_26:
	mov	w14, wzr
	mov	w15, wzr
	mov	x4, x1
	b	.LBB29_24
.LBB29_27:
	ubfx	x5, x5, #3, #32
	cmp	x1, #3
	mov	w14, #3
	cinc	w14, w14, ne
	csinc	w15, wzr, w4, ne
	mov	x1, xzr
	csel	x4, x5, xzr, eq
	b	.LBB29_24
.LBB29_28:
	mov	w15, wzr
	mov	x1, xzr
	mov	x4, xzr
	mov	w14, #2
	b	.LBB29_24
.Lfunc_end29:
	.size	"cache_c::cache::Cache::row", .Lfunc_end29-"cache_c::cache::Cache::row"

	.section	.text.cache_hash_unchecked,"ax",@progbits
	.globl	cache_hash_unchecked
	.p2align	2
	.type	cache_hash_unchecked,@function
cache_hash_unchecked:
	mov	w8, #4096
	cmp	x0, #0
	csel	x8, x8, xzr, eq
	cbz	x1, .LBB30_4
	add	x8, x0, x8
	mov	w9, #5381
.LBB30_2:
	ldrb	w10, [x8], #1
	add	x9, x9, x9, lsl #5
	subs	x1, x1, #1
	add	x9, x9, x10
	b.ne	.LBB30_2
	orr	x0, x9, #0x8000000000000000
	ret
.LBB30_4:
	mov	x0, #5381
	movk	x0, #32768, lsl #48
	ret
.Lfunc_end30:
	.size	cache_hash_unchecked, .Lfunc_end30-cache_hash_unchecked

	.section	.text.cache_size,"ax",@progbits
	.globl	cache_size
	.p2align	2
	.type	cache_size,@function
cache_size:
	mov	w0, #736
	ret
.Lfunc_end31:
	.size	cache_size, .Lfunc_end31-cache_size

	.section	.text.cache_count_unchecked,"ax",@progbits
	.globl	cache_count_unchecked
	.p2align	2
	.type	cache_count_unchecked,@function
cache_count_unchecked:
	stp	x29, x30, [sp, #-64]!
	mov	w8, #4096
	cmp	x1, #0
	stp	x20, x19, [sp, #48]
	mov	x20, x3
	mov	x19, x0
	csel	x8, x8, xzr, eq
	stp	x24, x23, [sp, #16]
	mov	x29, sp
	stp	x22, x21, [sp, #32]
	cbz	x2, .LBB32_8
	mov	x21, x4
	mov	x22, x2
	add	x23, x1, x8
.LBB32_2:
	ldr	w24, [x23], #4
	ldr	x9, [x19, #192]
	add	w8, w24, #9
	cmp	x9, x8
	b.ls	.LBB32_6
	ldr	x9, [x19, #184]
	ldr	x10, [x9, x8, lsl #3]
	adds	x10, x10, #1
	csinv	x10, x10, xzr, lo
	str	x10, [x9, x8, lsl #3]
	ldr	x8, [x19, #192]
	add	w1, w24, #7
	cmp	x8, x1
	b.ls	.LBB32_7
.LBB32_4:
	ldr	x8, [x19, #184]
	str	x21, [x8, x1, lsl #3]
.LBB32_5:
	ldr	w8, [x19, #124]
	ldr	x9, [x19, #128]
	ldr	x11, [x19, #152]
	adds	x10, x8, x21
	csinv	x10, x10, xzr, lo
	cmp	x10, x9
	csel	x10, x10, x9, lo
	cmp	w8, #0
	csel	x8, x9, x10, eq
	adds	x9, x11, #1
	str	x8, [x19, #128]
	csinv	x8, x9, xzr, lo
	subs	x22, x22, #1
	str	x8, [x19, #152]
	b.ne	.LBB32_2
	b	.LBB32_8
.LBB32_6:
	add	x0, x19, #184
	add	w1, w24, #9
	bl	"late_words::late_words::LateWords::pad"
	ldp	x9, x8, [x19, #184]
	mov	w10, #1
	str	x10, [x9, x8, lsl #3]
	add	x8, x8, #1
	str	x8, [x19, #192]
	add	w1, w24, #7
	cmp	x8, x1
	b.hi	.LBB32_4
.LBB32_7:
	add	x0, x19, #184
	bl	"late_words::late_words::LateWords::pad"
	ldp	x9, x8, [x19, #184]
	str	x21, [x9, x8, lsl #3]
	add	x8, x8, #1
	str	x8, [x19, #192]
	b	.LBB32_5
.LBB32_8:
	ldr	x8, [x19, #160]
	ldp	x22, x21, [sp, #32]
	ldp	x24, x23, [sp, #16]
	mov	w0, #1
	adds	x8, x20, x8
	csinv	x8, x8, xzr, lo
	str	x8, [x19, #160]
	ldp	x20, x19, [sp, #48]
	ldp	x29, x30, [sp], #64
	ret
.Lfunc_end32:
	.size	cache_count_unchecked, .Lfunc_end32-cache_count_unchecked

	.section	.text.cache_copy_unchecked,"ax",@progbits
	.globl	cache_copy_unchecked
	.p2align	2
	.type	cache_copy_unchecked,@function
cache_copy_unchecked:
	lsr	x9, x3, #32
	mov	w8, wzr
	cbnz	x9, .LBB33_37
	ldr	w9, [x0, #208]
	subs	w9, w9, w1
	b.lo	.LBB33_37
	and	w8, w3, #0x7
	add	w8, w8, #7
	lsr	w8, w8, #3
	add	w8, w8, w3, lsr #3
	cmp	w9, w8
	b.hs	.LBB33_4
	mov	w0, wzr
	ret
.LBB33_4:
	sub	sp, sp, #32
	lsr	x8, x3, #6
	ldp	x9, x10, [x0, #184]
	lsr	x11, x3, #3
	stp	x29, x30, [sp, #16]
	add	x29, sp, #16
	lsl	x12, x8, #3
	cbz	x8, .LBB33_26
	mov	x13, xzr
	mov	w14, w1
	add	x15, x2, #32
	b	.LBB33_8
.LBB33_6:
	add	x7, x9, x16, lsl #3
	ldp	x16, x17, [x7]
	ldp	x18, x0, [x7, #16]
	ldp	x4, x5, [x7, #32]
	ldp	x6, x7, [x7, #48]
.LBB33_7:
	add	x13, x13, #8
	stp	x16, x17, [x15, #-32]
	stp	x18, x0, [x15, #-16]
	cmp	x12, x13
	stp	x4, x5, [x15]
	stp	x6, x7, [x15, #16]
	add	x15, x15, #64
	b.eq	.LBB33_26
.LBB33_8:
	add	w16, w14, w13
	add	x17, x16, #8
	cmp	x17, x10
	b.ls	.LBB33_6
	cmp	x10, x16
	b.ls	.LBB33_18
	ldr	x16, [x9, x16, lsl #3]
	add	w17, w14, w13
	add	w17, w17, #1
	cmp	x10, x17
	b.hi	.LBB33_19
.LBB33_11:
	mov	x17, xzr
	add	w18, w14, w13
	add	w18, w18, #2
	cmp	x10, x18
	b.hi	.LBB33_20
.LBB33_12:
	mov	x18, xzr
	add	w0, w14, w13
	add	w0, w0, #3
	cmp	x10, x0
	b.hi	.LBB33_21
.LBB33_13:
	mov	x0, xzr
	add	w4, w14, w13
	add	w4, w4, #4
	cmp	x10, x4
	b.hi	.LBB33_22
.LBB33_14:
	mov	x4, xzr
	add	w5, w14, w13
	add	w5, w5, #5
	cmp	x10, x5
	b.hi	.LBB33_23
.LBB33_15:
	mov	x5, xzr
	add	w6, w14, w13
	add	w6, w6, #6
	cmp	x10, x6
	b.hi	.LBB33_24
.LBB33_16:
	mov	x6, xzr
	add	w7, w14, w13
	add	w7, w7, #7
	cmp	x10, x7
	b.hi	.LBB33_25
.LBB33_17:
	mov	x7, xzr
	b	.LBB33_7
.LBB33_18:
	mov	x16, xzr
	add	w17, w14, w13
	add	w17, w17, #1
	cmp	x10, x17
	b.ls	.LBB33_11
.LBB33_19:
	ldr	x17, [x9, x17, lsl #3]
	add	w18, w14, w13
	add	w18, w18, #2
	cmp	x10, x18
	b.ls	.LBB33_12
.LBB33_20:
	ldr	x18, [x9, x18, lsl #3]
	add	w0, w14, w13
	add	w0, w0, #3
	cmp	x10, x0
	b.ls	.LBB33_13
.LBB33_21:
	ldr	x0, [x9, x0, lsl #3]
	add	w4, w14, w13
	add	w4, w4, #4
	cmp	x10, x4
	b.ls	.LBB33_14
.LBB33_22:
	ldr	x4, [x9, x4, lsl #3]
	add	w5, w14, w13
	add	w5, w5, #5
	cmp	x10, x5
	b.ls	.LBB33_15
.LBB33_23:
	ldr	x5, [x9, x5, lsl #3]
	add	w6, w14, w13
	add	w6, w6, #6
	cmp	x10, x6
	b.ls	.LBB33_16
.LBB33_24:
	ldr	x6, [x9, x6, lsl #3]
	add	w7, w14, w13
	add	w7, w7, #7
	cmp	x10, x7
	b.ls	.LBB33_17
.LBB33_25:
	ldr	x7, [x9, x7, lsl #3]
	b	.LBB33_7
.LBB33_26:
	subs	x11, x11, x12
	b.ls	.LBB33_31
	add	x12, x2, x8, lsl #6
	add	w8, w1, w8, lsl #3
	b	.LBB33_29
.LBB33_28:
	ldr	x13, [x9, x8, lsl #3]
	subs	x11, x11, #1
	add	w8, w8, #1
	str	x13, [x12], #8
	b.eq	.LBB33_31
.LBB33_29:
	mov	w8, w8
	cmp	x10, x8
	b.hi	.LBB33_28
	subs	x11, x11, #1
	add	w8, w8, #1
	str	xzr, [x12], #8
	b.ne	.LBB33_29
.LBB33_31:
	ands	x8, x3, #0x7
	b.eq	.LBB33_36
	add	x11, x1, x3, lsr #3
	mov	w11, w11
	cmp	x10, x11
	b.ls	.LBB33_34
	ldr	x9, [x9, x11, lsl #3]
	b	.LBB33_35
.LBB33_34:
	mov	x9, xzr
.LBB33_35:
	and	x10, x3, #0xfffffff8
	add	x1, sp, #8
	str	x9, [sp, #8]
	add	x0, x2, x10
	mov	x2, x8
	bl	memcpy
.LBB33_36:
	ldp	x29, x30, [sp, #16]
	mov	w8, #1
	add	sp, sp, #32
.LBB33_37:
	mov	w0, w8
	ret
.Lfunc_end33:
	.size	cache_copy_unchecked, .Lfunc_end33-cache_copy_unchecked

	.section	.text.cache_get_counts_unchecked,"ax",@progbits
	.globl	cache_get_counts_unchecked
	.p2align	2
	.type	cache_get_counts_unchecked,@function
cache_get_counts_unchecked:
	ldp	w11, w12, [x0]
	ldr	w9, [x0, #16]
	ldur	q0, [x0, #152]
	ldr	w14, [x0, #104]
	ldur	q1, [x0, #168]
	ldr	w10, [x0, #120]
	add	w11, w9, w11
	sub	w11, w12, w11
	cbz	w14, .LBB34_6
	ldp	x12, x13, [x0, #184]
.LBB34_2:
	mov	w14, w14
	cmp	x13, x14
	b.ls	.LBB34_4
	ldr	x15, [x12, x14, lsl #3]
	add	w14, w14, #1
	sub	w11, w11, w15
	cmp	x13, x14
	b.hi	.LBB34_5
	b	.LBB34_6
.LBB34_4:
	mov	w15, wzr
	add	w14, w14, #1
	sub	w11, w11, w15
	cmp	x13, x14
	b.ls	.LBB34_6
.LBB34_5:
	ldr	x14, [x12, x14, lsl #3]
	cbnz	w14, .LBB34_2
.LBB34_6:
	mov	w11, w11
	stp	q0, q1, [x8]
	stp	x10, x11, [x8, #32]
	str	x9, [x8, #48]
	ret
.Lfunc_end34:
	.size	cache_get_counts_unchecked, .Lfunc_end34-cache_get_counts_unchecked

	.section	.text.cache_let_go_unchecked,"ax",@progbits
	.globl	cache_let_go_unchecked
	.p2align	2
	.type	cache_let_go_unchecked,@function
cache_let_go_unchecked:
	cmp	w1, #63
	b.hi	.LBB35_5
	mov	x9, xzr
	add	x8, x0, #216
	str	wzr, [x8, w1, uxtw #2]
.LBB35_2:
	ldr	w10, [x8, x9]
	cbnz	w10, .LBB35_4
	cmp	x9, #252
	add	x9, x9, #4
	b.ne	.LBB35_2
.LBB35_4:
	cmp	w10, #0
	mov	w9, #64
	cset	w8, ne
	str	w9, [x0, #476]
	strb	w8, [x0, #472]
.LBB35_5:
	cmp	w1, #64
	cset	w0, lo
	ret
.Lfunc_end35:
	.size	cache_let_go_unchecked, .Lfunc_end35-cache_let_go_unchecked

	.section	.text.cache_list_gaps_unchecked,"ax",@progbits
	.globl	cache_list_gaps_unchecked
	.p2align	2
	.type	cache_list_gaps_unchecked,@function
cache_list_gaps_unchecked:
	stp	x29, x30, [sp, #-80]!
	str	x25, [sp, #16]
	mov	x29, sp
	stp	x24, x23, [sp, #32]
	stp	x22, x21, [sp, #48]
	stp	x20, x19, [sp, #64]
	cbz	x3, .LBB36_21
	mov	x20, x3
	mov	w22, w1
	mov	x21, x0
	mov	x19, xzr
	add	x23, x2, #4
	b	.LBB36_4
.LBB36_2:
	lsr	w9, w9, #1
	and	w9, w9, #0x7ffffffe
	cbz	w9, .LBB36_22
	add	x19, x19, #1
	stp	w8, w9, [x23, #-4]
	add	w22, w9, w8
	cmp	x20, x19
	add	x23, x23, #8
	b.eq	.LBB36_20
.LBB36_4:
	ldr	w8, [x21, #4]
	subs	w8, w8, w22
	b.ls	.LBB36_22
	cmp	w8, #2
	b.lo	.LBB36_22
	mov	w8, w22
	ldp	x24, x25, [x21, #184]
	sub	x8, x8, x8, lsr #1
	tbz	w8, #0, .LBB36_10
	lsl	x9, x8, #1
	ldr	x10, [x21, #24]
	and	x9, x9, #0xfffffffffffffffc
	ldr	w9, [x10, x9]
	and	w10, w9, #0x3
	cmp	w10, #2
	b.eq	.LBB36_14
	cbnz	w10, .LBB36_10
	cmp	w9, #4
	b.hs	.LBB36_14
.LBB36_10:
	ldp	x0, x1, [x21, #64]
	lsr	x4, x8, #1
	ldp	x2, x3, [x21, #88]
	bl	"max_tree::words::last_before"
	and	w8, w0, #0xff
	cmp	w8, #1
	b.ne	.LBB36_13
	ldr	x8, [x21, #24]
	ldr	w8, [x8, x1, lsl #2]
	tst	w8, #0x3
	cset	w8, ne
	orr	x8, x8, x1, lsl #1
	mov	w9, #1
	bfi	x9, x8, #1, #31
	cmp	x25, x9
	b.ls	.LBB36_15
.LBB36_12:
	ldr	x8, [x24, x9, lsl #3]
	cmp	w22, w8
	b.ls	.LBB36_16
	b	.LBB36_22
.LBB36_13:
	ldr	w8, [x21, #12]
	cmp	w22, w8
	b.ls	.LBB36_16
	b	.LBB36_22
.LBB36_14:
	sub	x8, x8, #1
	mov	w9, #1
	bfi	x9, x8, #1, #31
	cmp	x25, x9
	b.hi	.LBB36_12
.LBB36_15:
	mov	x8, xzr
	cmp	w22, w8
	b.hi	.LBB36_22
.LBB36_16:
	ldr	x9, [x21, #24]
	and	x10, x8, #0xfffffffc
	ldr	w9, [x9, x10]
	ubfx	w10, w8, #1, #1
	and	w11, w9, #0x3
	cmp	w11, w10
	b.eq	.LBB36_2
	cmp	w11, #2
	b.ne	.LBB36_22
	cbnz	w10, .LBB36_2
	mov	w9, #2
	add	x19, x19, #1
	stp	w8, w9, [x23, #-4]
	add	w22, w9, w8
	cmp	x20, x19
	add	x23, x23, #8
	b.ne	.LBB36_4
.LBB36_20:
	mov	x19, x20
	b	.LBB36_22
.LBB36_21:
	mov	x19, xzr
.LBB36_22:
	mov	x0, x19
	ldp	x20, x19, [sp, #64]
	ldp	x22, x21, [sp, #48]
	ldr	x25, [sp, #16]
	ldp	x24, x23, [sp, #32]
	ldp	x29, x30, [sp], #80
	ret
.Lfunc_end36:
	.size	cache_list_gaps_unchecked, .Lfunc_end36-cache_list_gaps_unchecked

	.section	.text.cache_new_unchecked,"ax",@progbits
	.globl	cache_new_unchecked
	.p2align	2
	.type	cache_new_unchecked,@function
cache_new_unchecked:
	stp	x29, x30, [sp, #-96]!
	stp	x28, x27, [sp, #16]
	mov	x29, sp
	stp	x26, x25, [sp, #32]
	stp	x24, x23, [sp, #48]
	stp	x22, x21, [sp, #64]
	stp	x20, x19, [sp, #80]
	sub	sp, sp, #1888
	movi	v0.2d, #0000000000000000
	str	xzr, [sp]
	add	x8, sp, #1456
	ldr	w26, [x0, #12]
	ldr	w22, [x0]
	str	xzr, [sp, #752]
	str	xzr, [sp, #1440]
	str	q0, [sp, #1536]
	stur	q0, [x8, #95]
	sub	w8, w26, #1
	cmp	w8, #63
	stp	q0, q0, [sp, #656]
	stp	q0, q0, [sp, #688]
	stp	q0, q0, [sp, #720]
	str	q0, [sp, #1456]
	str	q0, [sp, #1472]
	str	q0, [sp, #1488]
	str	q0, [sp, #1504]
	str	q0, [sp, #1520]
	str	q0, [sp, #1344]
	str	q0, [sp, #1360]
	str	q0, [sp, #1376]
	str	q0, [sp, #1392]
	str	q0, [sp, #1408]
	str	q0, [sp, #1424]
	str	q0, [sp, #1312]
	str	q0, [sp, #1328]
	str	q0, [sp, #1296]
	str	q0, [sp, #1280]
	str	q0, [sp, #1264]
	str	q0, [sp, #1248]
	str	q0, [sp, #1232]
	str	q0, [sp, #1216]
	str	q0, [sp, #1200]
	str	q0, [sp, #1184]
	str	q0, [sp, #1168]
	str	q0, [sp, #1152]
	str	q0, [sp, #1136]
	str	q0, [sp, #1120]
	str	q0, [sp, #1104]
	str	q0, [sp, #1088]
	str	q0, [sp, #1072]
	str	q0, [sp, #1056]
	str	q0, [sp, #1040]
	stp	q0, q0, [sp, #784]
	stp	q0, q0, [sp, #816]
	stp	q0, q0, [sp, #848]
	stp	q0, q0, [sp, #880]
	stp	q0, q0, [sp, #912]
	stp	q0, q0, [sp, #944]
	stp	q0, q0, [sp, #976]
	stp	q0, q0, [sp, #1008]
	str	q0, [sp, #768]
	b.hi	.LBB37_2
	lsl	w8, w26, #1
	udiv	w9, w22, w8
	msub	w8, w9, w8, w22
	cmp	w8, #0
	cset	w8, eq
	cbnz	w26, .LBB37_3
	b	.LBB37_8
.LBB37_2:
	mov	w8, wzr
	cbz	w26, .LBB37_8
.LBB37_3:
	ldr	w27, [x0, #4]
	mov	w10, #1048574
	sub	w9, w27, #2
	cmp	w9, w10
	b.hi	.LBB37_8
	sub	w9, w22, #32
	mov	w10, #268435424
	cmp	w9, w10
	b.hi	.LBB37_8
	cbz	w8, .LBB37_8
	tbnz	w27, #0, .LBB37_8
	udiv	w20, w22, w26
	add	w8, w27, #16
	cmp	w8, w20
	b.ls	.LBB37_10
.LBB37_8:
	mov	w0, #1
.LBB37_9:
	add	sp, sp, #1888
	ldp	x20, x19, [sp, #80]
	ldp	x22, x21, [sp, #64]
	ldp	x24, x23, [sp, #48]
	ldp	x26, x25, [sp, #32]
	ldp	x28, x27, [sp, #16]
	ldp	x29, x30, [sp], #96
	ret
.LBB37_10:
	ldr	w19, [x0, #8]
	lsl	x0, x22, #3
	str	x1, [sp, #56]
	mov	w1, #8
	bl	rattle_alloc
	tbz	w0, #0, .LBB37_27
	lsr	x8, x22, #2
	tst	w22, #0x3
	mov	x25, x1
	stp	x1, xzr, [sp, #80]
	cinc	x28, x8, ne
	str	x22, [sp, #96]
	mov	x0, x28
	stp	w22, wzr, [sp, #104]
	bl	"max_tree::levels::shape_for"
	mov	x23, x1
	str	x0, [sp, #48]
	cbz	x1, .LBB37_17
	lsr	x8, x23, #61
	cbnz	x8, .LBB37_26
	lsl	x24, x23, #2
	mov	w1, #4
	mov	x0, x24
	bl	rattle_alloc
	tbz	w0, #0, .LBB37_26
	mov	x21, x1
	str	w20, [sp, #68]
	subs	x20, x23, #1
	b.eq	.LBB37_16
	sub	x2, x24, #4
	mov	x0, x21
	mov	w1, wzr
	bl	memset
.LBB37_16:
	str	wzr, [x21, x20, lsl #2]
	add	x20, x20, #1
	b	.LBB37_18
.LBB37_17:
	str	w20, [sp, #68]
	mov	x20, xzr
	sub	x21, x29, #24
.LBB37_18:
	add	x8, x28, #63
	str	w19, [sp, #44]
	lsr	x24, x8, #6
	str	x28, [sp, #32]
	mov	x0, x24
	bl	"max_tree::words::shape_for"
	mov	x19, x0
	cbz	x1, .LBB37_30
	lsr	x8, x1, #60
	str	x20, [sp, #8]
	cbnz	x8, .LBB37_24
	lsl	x28, x1, #3
	mov	x20, x1
	mov	w1, #8
	mov	x0, x28
	bl	rattle_alloc
	tbz	w0, #0, .LBB37_24
	str	x21, [sp, #72]
	subs	x21, x20, #1
	stp	x20, x19, [sp, #16]
	b.eq	.LBB37_23
	sub	x2, x28, #8
	mov	x0, x1
	mov	x19, x1
	mov	w1, wzr
	bl	memset
	mov	x1, x19
.LBB37_23:
	ldr	x20, [sp, #8]
	str	x24, [sp, #8]
	str	xzr, [x1, x21, lsl #3]
	add	x21, x21, #1
	b	.LBB37_31
.LBB37_24:
	cbz	x23, .LBB37_26
	mov	x0, x21
	bl	rattle_dealloc
.LBB37_26:
	mov	x0, x25
	bl	rattle_dealloc
.LBB37_27:
	mov	w24, wzr
	mov	w22, wzr
	mov	w27, wzr
	mov	w25, wzr
	mov	w26, wzr
	mov	x21, xzr
	mov	x20, xzr
	mov	w19, wzr
	mov	w23, #2
.LBB37_28:
	ldr	q0, [sp, #1408]
	ldr	q1, [sp, #1424]
	add	x0, sp, #336
	ldr	q2, [sp, #1392]
	ldr	x8, [sp, #1440]
	add	x1, sp, #1024
	stp	q0, q1, [sp, #720]
	ldr	q0, [sp, #1344]
	mov	w2, #288
	ldr	q1, [sp, #1360]
	str	x8, [sp, #752]
	stp	q0, q1, [sp, #656]
	ldr	q0, [sp, #1376]
	ldr	q1, [sp, #1312]
	stp	q0, q2, [sp, #688]
	ldr	q0, [sp, #1328]
	stp	q1, q0, [sp, #624]
	bl	memcpy
	ldp	q0, q1, [sp, #960]
	mov	w0, w23
	stp	q0, q1, [sp, #272]
	ldp	q0, q2, [sp, #992]
	stp	q0, q2, [sp, #304]
	ldp	q1, q0, [sp, #896]
	stp	q1, q0, [sp, #208]
	ldp	q2, q0, [sp, #928]
	stp	q2, q0, [sp, #240]
	ldp	q1, q0, [sp, #832]
	stp	q1, q0, [sp, #144]
	ldp	q2, q0, [sp, #864]
	stp	q2, q0, [sp, #176]
	ldp	q1, q0, [sp, #768]
	stp	q1, q0, [sp, #80]
	ldp	q2, q0, [sp, #800]
	stp	q2, q0, [sp, #112]
	cbz	w24, .LBB37_9
	ldp	q0, q1, [sp, #704]
	add	x1, sp, #336
	ldr	x23, [sp, #56]
	ldr	q2, [sp, #736]
	mov	w2, #288
	ldr	x8, [sp, #752]
	stp	q0, q1, [x23, #48]
	ldp	q1, q3, [sp, #672]
	ldr	q0, [sp, #656]
	add	x0, x23, #184
	str	q2, [x23, #80]
	stp	x8, xzr, [x23, #96]
	stp	q0, q1, [x23]
	ldp	q1, q0, [sp, #624]
	str	q3, [x23, #32]
	str	x21, [x23, #112]
	stur	q0, [x23, #168]
	stp	wzr, w25, [x23, #120]
	str	x20, [x23, #128]
	stp	w22, w27, [x23, #136]
	stp	w25, w26, [x23, #144]
	stur	q1, [x23, #152]
	bl	memcpy
	ldp	q0, q1, [sp, #272]
	mov	w0, wzr
	str	w19, [x23, #476]
	str	wzr, [x23, #472]
	stp	q0, q1, [x23, #672]
	ldp	q2, q0, [sp, #304]
	stp	q2, q0, [x23, #704]
	ldp	q1, q0, [sp, #208]
	stp	q1, q0, [x23, #608]
	ldp	q2, q0, [sp, #240]
	stp	q2, q0, [x23, #640]
	ldp	q1, q0, [sp, #144]
	stp	q1, q0, [x23, #544]
	ldp	q2, q0, [sp, #176]
	stp	q2, q0, [x23, #576]
	ldp	q1, q0, [sp, #80]
	stp	q1, q0, [x23, #480]
	ldp	q2, q0, [sp, #112]
	stp	q2, q0, [x23, #512]
	b	.LBB37_9
.LBB37_30:
	stp	x1, x19, [sp, #16]
	sub	x1, x29, #24
	str	x21, [sp, #72]
	mov	x21, xzr
	str	x24, [sp, #8]
.LBB37_31:
	mov	x19, x1
	mov	x24, xzr
	mov	x28, xzr
.LBB37_32:
	cmp	x24, x28
	b.ls	.LBB37_34
	str	xzr, [x25, x28, lsl #3]
	add	x28, x28, #1
	cmp	x27, x28
	b.ne	.LBB37_32
	b	.LBB37_35
.LBB37_34:
	add	x0, sp, #80
	mov	x1, x28
	bl	"late_words::late_words::LateWords::pad"
	ldp	x25, x8, [sp, #80]
	add	x24, x8, #1
	str	xzr, [x25, x8, lsl #3]
	str	x24, [sp, #88]
	add	x28, x28, #1
	cmp	x27, x28
	b.ne	.LBB37_32
.LBB37_35:
	ldr	x8, [sp, #72]
	stp	x20, x23, [sp, #368]
	ldr	w20, [sp, #104]
	stp	x19, x21, [sp, #400]
	stp	xzr, x8, [sp, #352]
	ldr	x8, [sp, #16]
	cmp	w27, w20
	str	w27, [sp, #336]
	str	x8, [sp, #416]
	ldr	x8, [sp, #8]
	str	w20, [sp, #340]
	str	x8, [sp, #424]
	ldr	x8, [sp, #24]
	str	wzr, [sp, #348]
	str	x8, [sp, #432]
	ldr	w8, [sp, #68]
	str	w8, [sp, #344]
	ldr	x8, [sp, #48]
	str	x8, [sp, #392]
	ldr	x8, [sp, #32]
	str	x8, [sp, #384]
	b.hs	.LBB37_59
	mov	w23, wzr
	mov	w28, wzr
	b	.LBB37_39
.LBB37_37:
	orr	w8, w10, w21, lsl #1
	cmp	w20, w28
	csel	w3, wzr, w8, eq
.LBB37_38:
	add	x8, sp, #336
	add	x0, x8, #24
	bl	"max_tree::row::MaxRow::change"
	add	w23, w21, w23
	cmp	w27, w28
	mov	w20, w28
	str	w23, [sp, #352]
	str	w28, [sp, #348]
	b.hs	.LBB37_59
.LBB37_39:
	mov	x10, x25
	mov	x25, x22
	mov	w19, w26
	cmp	w26, w22
	mov	w26, w28
	mov	x1, x27
	mov	w28, w27
	b.hi	.LBB37_41
	ldr	w9, [sp, #68]
	sub	w8, w20, #1
	udiv	w8, w8, w9
	mul	w8, w8, w9
	cmp	w27, w8
	csel	w1, w27, w8, hi
	mov	w28, w1
.LBB37_41:
	sub	w21, w20, w28
	cmp	x24, x1
	add	x22, x21, #1
	b.ls	.LBB37_57
	str	x22, [x10, x1, lsl #3]
	add	w8, w28, #1
	mov	w26, w26
	mov	x22, x25
	cmp	x24, x8
	b.ls	.LBB37_58
.LBB37_43:
	ldr	x25, [sp, #80]
	str	x26, [x25, x8, lsl #3]
	lsr	w1, w28, #2
	ldr	x8, [sp, #72]
	ubfx	w10, w28, #1, #1
	mov	w26, w19
	ldr	w2, [x8, w1, uxtw #2]
	cbz	w2, .LBB37_37
.LBB37_44:
	and	w9, w2, #0x3
	cmp	w9, w10
	b.eq	.LBB37_37
	lsr	w8, w2, #1
	and	w8, w8, #0x7ffffffe
	cbnz	w10, .LBB37_49
	sub	w9, w9, #3
	cmn	w9, #2
	b.lo	.LBB37_54
	cbz	w8, .LBB37_54
	cmp	w20, w28
	mov	w9, #1
	cinc	w9, w9, ne
	orr	w3, w9, w8, lsl #1
	b	.LBB37_38
.LBB37_49:
	cbz	w9, .LBB37_52
	cmp	w9, #2
	b.ne	.LBB37_55
	mov	w8, #2
.LBB37_52:
	cmp	w20, w28
	b.ne	.LBB37_56
.LBB37_53:
	lsl	w3, w8, #1
	b	.LBB37_38
.LBB37_54:
	lsl	w3, w21, #1
	b	.LBB37_38
.LBB37_55:
	mov	w8, wzr
	cmp	w20, w28
	b.eq	.LBB37_53
.LBB37_56:
	lsl	w9, w21, #1
	cmp	w8, #0
	add	w10, w9, #2
	csinc	w3, w10, w9, ne
	b	.LBB37_38
.LBB37_57:
	add	x0, sp, #80
	bl	"late_words::late_words::LateWords::pad"
	ldp	x9, x8, [sp, #80]
	add	x24, x8, #1
	str	x22, [x9, x8, lsl #3]
	str	x24, [sp, #88]
	add	w8, w28, #1
	mov	w26, w26
	mov	x22, x25
	cmp	x24, x8
	b.hi	.LBB37_43
.LBB37_58:
	add	x0, sp, #80
	add	w1, w28, #1
	bl	"late_words::late_words::LateWords::pad"
	ldp	x25, x8, [sp, #80]
	add	x24, x8, #1
	str	x26, [x25, x8, lsl #3]
	str	x24, [sp, #88]
	lsr	w1, w28, #2
	ldr	x8, [sp, #72]
	ubfx	w10, w28, #1, #1
	mov	w26, w19
	ldr	w2, [x8, w1, uxtw #2]
	cbnz	w2, .LBB37_44
	b	.LBB37_37
.LBB37_59:
	ldp	q0, q1, [sp, #80]
	movi	v6.2d, #0000000000000000
	ldp	q3, q2, [sp, #368]
	add	x9, sp, #1456
	ldp	q5, q4, [sp, #336]
	add	x0, sp, #1024
	str	q0, [sp, #1568]
	ldr	x8, [sp, #432]
	add	x1, sp, #1568
	str	q1, [sp, #1584]
	ldp	q1, q0, [sp, #400]
	mov	w2, #288
	str	q6, [sp, #1600]
	str	q6, [sp, #1616]
	str	q6, [sp, #1632]
	str	q6, [sp, #1648]
	str	q6, [sp, #1664]
	str	q6, [sp, #1680]
	str	q6, [sp, #1696]
	str	q6, [sp, #1712]
	str	q6, [sp, #1728]
	str	q6, [sp, #1744]
	str	q6, [sp, #1760]
	str	q6, [sp, #1776]
	str	q6, [sp, #1792]
	str	q6, [sp, #1808]
	str	q6, [sp, #1824]
	str	q6, [sp, #1840]
	stur	x8, [x9, #103]
	stur	q0, [x9, #87]
	stur	q1, [x9, #71]
	stur	q2, [x9, #55]
	stur	q3, [x9, #39]
	stur	q4, [x9, #23]
	stur	q5, [x9, #7]
	str	x8, [sp, #1440]
	str	q0, [sp, #1424]
	str	q1, [sp, #1408]
	str	q2, [sp, #1392]
	str	q3, [sp, #1376]
	str	q4, [sp, #1360]
	str	q5, [sp, #1344]
	str	q6, [sp, #1328]
	str	q6, [sp, #1312]
	bl	memcpy
	movi	v0.2d, #0000000000000000
	ldr	w25, [sp, #44]
	mov	w23, wzr
	mov	w19, #64
	mov	x20, #-1
	mov	w24, #1
	mov	w21, #1
	stp	q0, q0, [sp, #768]
	stp	q0, q0, [sp, #800]
	stp	q0, q0, [sp, #832]
	stp	q0, q0, [sp, #864]
	stp	q0, q0, [sp, #896]
	stp	q0, q0, [sp, #928]
	stp	q0, q0, [sp, #960]
	stp	q0, q0, [sp, #992]
	b	.LBB37_28
.Lfunc_end37:
	.size	cache_new_unchecked, .Lfunc_end37-cache_new_unchecked

	.section	.text.cache_ask_unchecked,"ax",@progbits
	.globl	cache_ask_unchecked
	.p2align	2
	.type	cache_ask_unchecked,@function
cache_ask_unchecked:
	sub	sp, sp, #256
	stp	x20, x19, [sp, #240]
	mov	x19, x8
	orr	x8, x5, x3
	cmp	x2, #0
	mov	w9, #4096
	stp	x26, x25, [sp, #192]
	lsr	x8, x8, #32
	csel	x26, x9, xzr, eq
	cmp	x4, #0
	csel	x10, x9, xzr, eq
	stp	x29, x30, [sp, #160]
	add	x29, sp, #160
	stp	x28, x27, [sp, #176]
	stp	x24, x23, [sp, #208]
	stp	x22, x21, [sp, #224]
	cbnz	x8, .LBB38_10
	ldr	w9, [x0]
	ldr	x8, [x1, #40]
	mov	x20, x0
	cmp	w9, #1, lsl #12
	b.eq	.LBB38_12
	cbz	w9, .LBB38_152
	udiv	x11, x8, x9
	mov	x12, x4
	msub	w4, w11, w9, w8
	ldr	w11, [x1]
	cmp	w11, #8
	b.eq	.LBB38_13
.LBB38_4:
	movi	v0.2d, #0000000000000000
	ldp	x21, x25, [x1, #16]
	ldr	w6, [x1, #8]
	mov	x22, xzr
	mov	w8, wzr
	cmp	w11, #3
	mov	w9, #9
	stp	q0, q0, [sp, #16]
	b.gt	.LBB38_21
	cmp	w11, #1
	b.gt	.LBB38_28
	add	x12, x12, x10
	cbz	w11, .LBB38_41
	cmp	w11, #1
	mov	x10, x22
	b.ne	.LBB38_11
	ldr	w8, [x1, #4]
	cmp	w8, #3
	b.ne	.LBB38_63
	mov	w8, #64
	mov	w9, #1
	str	x5, [sp, #80]
	str	w8, [x20, #476]
	add	x1, x20, #184
	add	x2, x2, x26
	stp	x9, x12, [sp, #64]
	add	x5, sp, #64
	mov	x0, x20
	mov	w7, #1
	b	.LBB38_43
.LBB38_10:
	mov	w8, wzr
	mov	x22, xzr
	mov	x10, xzr
	mov	w9, #10
.LBB38_11:
	stp	w9, w8, [x19]
	ldp	x24, x23, [sp, #208]
	stp	x22, x10, [x19, #8]
	ldp	x20, x19, [sp, #240]
	ldp	x22, x21, [sp, #224]
	ldp	x26, x25, [sp, #192]
	ldp	x28, x27, [sp, #176]
	ldp	x29, x30, [sp, #160]
	add	sp, sp, #256
	ret
.LBB38_12:
	mov	x12, x4
	and	w4, w8, #0xfff
	ldr	w11, [x1]
	cmp	w11, #8
	b.ne	.LBB38_4
.LBB38_13:
	movi	v0.2d, #0000000000000000
	ldp	x21, x22, [x1, #24]
	ldr	x5, [x1, #16]
	add	x0, sp, #64
	add	x2, x2, x26
	mov	x1, x20
	stp	q0, q0, [sp, #64]
	bl	"cache_c::cache::Cache::look"
	ldr	w9, [sp, #64]
	ldr	x10, [sp, #80]
	cmp	x21, #63
	b.hi	.LBB38_20
	cmp	w9, #3
	b.ne	.LBB38_20
	cmp	x22, x10
	b.hi	.LBB38_20
	mov	x8, xzr
	ldr	w11, [sp, #88]
	add	x9, x20, #216
	str	w11, [x9, x21, lsl #2]
.LBB38_17:
	ldr	w11, [x9, x8]
	cbnz	w11, .LBB38_19
	cmp	x8, #252
	add	x8, x8, #4
	b.ne	.LBB38_17
.LBB38_19:
	cmp	w11, #0
	mov	w9, #64
	ldr	w8, [sp, #68]
	cset	w11, ne
	ldr	x22, [sp, #72]
	str	w9, [x20, #476]
	strb	w11, [x20, #472]
	mov	w9, #3
	b	.LBB38_11
.LBB38_20:
	ldr	w8, [sp, #68]
	ldr	x22, [sp, #72]
	b	.LBB38_11
.LBB38_21:
	cmp	w11, #5
	b.gt	.LBB38_38
	cmp	w11, #4
	b.eq	.LBB38_44
	cmp	w11, #5
	mov	x10, x22
	b.ne	.LBB38_11
	mov	w8, #64
	ldr	w1, [x20, #120]
	mov	x9, x2
	str	w8, [x20, #476]
	mov	x8, x3
	mov	w22, w6
	add	x0, sp, #48
	add	x2, x20, #184
	add	x3, x9, x26
	mov	w5, w4
	mov	x4, x8
	mov	x6, x21
	stp	xzr, xzr, [sp, #48]
	mov	x27, x9
	mov	x23, x8
	mov	w24, w5
	bl	"counter_entry::looking::look_for::<#feb48aca4256a9fc>"
	ldrb	w8, [sp, #48]
	cbz	w8, .LBB38_67
	cmp	w8, #2
	b.ne	.LBB38_72
	ldr	w23, [sp, #52]
	ldr	x8, [x20, #192]
	ldr	x9, [sp, #56]
	add	w10, w23, #2
	cmp	x8, x10
	b.ls	.LBB38_77
	ldur	x11, [x20, #184]
	ldr	x10, [x11, x10, lsl #3]
	b	.LBB38_78
.LBB38_28:
	cmp	w11, #2
	b.eq	.LBB38_51
	cmp	w11, #3
	mov	x10, x22
	b.ne	.LBB38_11
	ldr	x23, [x20, #192]
	mov	w8, w4
	str	x21, [sp, #8]
	cmp	x23, x8
	b.ls	.LBB38_50
	ldr	w25, [x20, #120]
	cbz	w25, .LBB38_50
	ldur	x24, [x20, #184]
	ldr	x22, [x24, x8, lsl #3]
	cbz	w22, .LBB38_50
	mov	w27, #1
.LBB38_34:
	add	x0, x20, #184
	mov	x28, x2
	add	x2, x2, x26
	mov	w1, w22
	mov	x21, x3
	bl	"entry_slots::reading::has_key_at::<#feb48aca4256a9fc>"
	tbnz	w0, #0, .LBB38_100
	add	w8, w22, #1
	cmp	x23, x8
	b.ls	.LBB38_50
	cmp	w27, w25
	b.hs	.LBB38_50
	ldr	x22, [x24, x8, lsl #3]
	mov	x3, x21
	mov	x2, x28
	add	w27, w27, #1
	cbnz	w22, .LBB38_34
	b	.LBB38_50
.LBB38_38:
	cmp	w11, #6
	b.eq	.LBB38_52
	cmp	w11, #7
	mov	x10, x22
	b.ne	.LBB38_11
	mov	w8, #64
	add	x1, x20, #184
	mov	x0, x20
	mov	x2, x21
	str	w8, [x20, #476]
	bl	"ttl_expunge::at_once::expunge_at_once::<#dd204406e0587c1d>"
	movi	v0.2d, #0000000000000000
	mov	w8, wzr
	mov	x22, xzr
	mov	x10, xzr
	mov	w9, #7
	stur	q0, [x20, #168]
	stur	q0, [x20, #152]
	b	.LBB38_11
.LBB38_41:
	ldr	w8, [x1, #4]
	cmp	w8, #3
	b.ne	.LBB38_59
	mov	w8, #64
	mov	w9, #1
	str	x5, [sp, #80]
	add	x1, x20, #184
	add	x2, x2, x26
	add	x5, sp, #64
	mov	x0, x20
	mov	w7, wzr
	str	w8, [x20, #476]
	stp	x9, x12, [sp, #64]
.LBB38_43:
	str	x21, [sp]
	bl	"cache_core::cache::Core::store_content::<#dd204406e0587c1d>"
	and	w9, w0, #0xff
	mov	w8, wzr
	mov	x22, xzr
	cmp	w9, #3
	mov	w9, #6
	mov	x10, xzr
	cinc	w9, w9, eq
	b	.LBB38_11
.LBB38_44:
	mov	w8, #64
	ldr	w6, [x20, #144]
	mov	x9, x2
	str	w8, [x20, #476]
	mov	x8, x3
	add	x0, sp, #64
	add	x2, x20, #184
	add	x3, x9, x26
	mov	x1, x20
	mov	w5, w4
	mov	x4, x8
	mov	x7, x21
	stp	xzr, xzr, [sp, #64]
	bl	"entry_slots::slots::EntrySlots::seek::<#feb48aca4256a9fc>"
	ldr	w9, [sp, #72]
	cbz	w9, .LBB38_50
	ldr	x11, [x20, #192]
	add	w8, w9, #4
	cmp	x11, x8
	b.ls	.LBB38_56
	ldur	x10, [x20, #184]
	ldr	x8, [x10, x8, lsl #3]
	cbz	x8, .LBB38_56
	add	w9, w9, #5
	cmp	x11, x9
	b.ls	.LBB38_49
	ldr	x9, [x10, x9, lsl #3]
	adds	x8, x8, x9
	csinv	x8, x8, xzr, lo
.LBB38_49:
	cmp	x8, x21
	b.hs	.LBB38_56
.LBB38_50:
	mov	w8, wzr
	mov	x22, xzr
	mov	x10, xzr
	mov	w9, #6
	b	.LBB38_11
.LBB38_51:
	add	x0, sp, #16
	add	x2, x2, x26
	mov	x1, x20
	mov	x5, x21
	bl	"cache_c::cache::Cache::look"
	ldp	w9, w8, [sp, #16]
	ldp	x22, x10, [sp, #24]
	b	.LBB38_11
.LBB38_52:
	mov	w8, #64
	ldr	x22, [x1, #32]
	ldr	w1, [x20, #120]
	str	w8, [x20, #476]
	mov	x9, x2
	mov	x8, x3
	add	x0, sp, #64
	add	x2, x20, #184
	add	x3, x9, x26
	mov	w5, w4
	mov	x4, x8
	mov	x6, x21
	stp	xzr, xzr, [sp, #64]
	bl	"counter_entry::looking::look_for::<#feb48aca4256a9fc>"
	ldrb	w8, [sp, #64]
	mov	w9, #6
	cmp	w8, #2
	b.ne	.LBB38_89
	ldr	x8, [sp, #72]
	cmp	x8, x25
	b.ne	.LBB38_89
	ldr	w23, [sp, #68]
	ldr	x8, [x20, #192]
	add	w9, w23, #2
	cmp	x8, x9
	b.ls	.LBB38_73
	ldur	x10, [x20, #184]
	ldr	x9, [x10, x9, lsl #3]
	b	.LBB38_74
.LBB38_56:
	ldr	q0, [sp, #64]
	add	x1, x20, #184
	sub	x2, x29, #32
	mov	x0, x20
	mov	x3, x21
	stur	q0, [x29, #-32]
	bl	"ttl_expunge::expunge::drop_row_at::<#dd204406e0587c1d>"
.LBB38_57:
	mov	w8, wzr
.LBB38_58:
	mov	x22, xzr
	mov	x10, xzr
	mov	w9, #7
	b	.LBB38_11
.LBB38_59:
	str	xzr, [sp, #64]
	cbz	w8, .LBB38_83
	cmp	w8, #2
	b.eq	.LBB38_82
	cmp	w8, #1
	b.ne	.LBB38_89
	cmp	x25, #0
	mov	x8, xzr
	mov	w10, #3
	cset	w9, ne
	b	.LBB38_84
.LBB38_63:
	str	xzr, [sp, #64]
	cbz	w8, .LBB38_86
	cmp	w8, #2
	b.eq	.LBB38_85
	cmp	w8, #1
	b.ne	.LBB38_89
	cmp	x25, #0
	mov	x8, xzr
	mov	w10, #3
	cset	w9, ne
	b	.LBB38_87
.LBB38_67:
	mov	w8, #2
	sub	x9, x29, #8
	add	x1, x20, #184
	stp	x8, x25, [sp, #64]
	add	x2, x27, x26
	sub	x5, x29, #32
	stp	xzr, x8, [sp, #112]
	add	x8, sp, #64
	mov	x0, x20
	mov	x3, x23
	mov	w4, w24
	mov	w6, w22
	mov	w7, wzr
	stp	xzr, xzr, [sp, #80]
	stp	x9, xzr, [sp, #96]
	stp	xzr, x8, [x29, #-32]
	stur	xzr, [x29, #-16]
	str	x21, [sp]
	bl	"cache_core::cache::Core::store_content::<#dd204406e0587c1d>"
	ldrb	w8, [sp, #64]
	ldp	x20, x27, [sp, #96]
	ldr	x9, [sp, #112]
	mov	w21, w0
	cmp	w8, #2
	str	x9, [sp, #8]
	b.le	.LBB38_117
	ldp	x23, x22, [sp, #72]
	cmp	w8, #4
	ldr	x24, [sp, #88]
	b.gt	.LBB38_90
	cmp	w8, #3
	b.ne	.LBB38_105
	tst	x23, #0xff
	b.eq	.LBB38_117
	tbnz	w23, #8, .LBB38_113
	b	.LBB38_117
.LBB38_72:
	mov	w8, wzr
	mov	x22, xzr
	mov	x10, xzr
	mov	w9, #8
	b	.LBB38_11
.LBB38_73:
	mov	w9, wzr
.LBB38_74:
	and	w10, w9, #0x7
	add	w9, w23, w9, lsr #3
	add	w10, w10, #7
	add	w9, w9, w10, lsr #3
	add	w1, w9, #13
	cmp	x8, x1
	b.ls	.LBB38_148
	ldr	x8, [x20, #184]
	str	x22, [x8, x1, lsl #3]
	ldr	x8, [x20, #192]
	add	w1, w23, #6
	cmp	x8, x1
	b.ls	.LBB38_149
.LBB38_76:
	ldur	x8, [x20, #184]
	mov	w9, #7
	str	x21, [x8, x1, lsl #3]
	b	.LBB38_89
.LBB38_77:
	mov	w10, wzr
.LBB38_78:
	and	w11, w10, #0x7
	add	w10, w23, w10, lsr #3
	add	x22, x9, x25
	add	w11, w11, #7
	add	w10, w10, w11, lsr #3
	add	w1, w10, #13
	cmp	x8, x1
	b.ls	.LBB38_150
	ldr	x8, [x20, #184]
	str	x22, [x8, x1, lsl #3]
	ldr	x8, [x20, #192]
	add	w1, w23, #6
	cmp	x8, x1
	b.ls	.LBB38_151
.LBB38_80:
	ldur	x8, [x20, #184]
	str	x21, [x8, x1, lsl #3]
.LBB38_81:
	mov	w8, wzr
	mov	x10, xzr
	mov	w9, #2
	b	.LBB38_11
.LBB38_82:
	mov	w9, wzr
	mov	w10, #4
	mov	x8, x25
	b	.LBB38_84
.LBB38_83:
	mov	w9, wzr
	mov	w10, #2
.LBB38_84:
	stp	x8, xzr, [sp, #72]
	mov	w8, #64
	add	x1, x20, #184
	add	x2, x2, x26
	add	x5, sp, #64
	mov	x0, x20
	mov	w7, wzr
	strb	w10, [sp, #64]
	strb	w9, [sp, #65]
	b	.LBB38_88
.LBB38_85:
	mov	w9, wzr
	mov	w10, #4
	mov	x8, x25
	b	.LBB38_87
.LBB38_86:
	mov	w9, wzr
	mov	w10, #2
.LBB38_87:
	stp	x8, xzr, [sp, #72]
	mov	w8, #64
	add	x1, x20, #184
	strb	w10, [sp, #64]
	add	x2, x2, x26
	add	x5, sp, #64
	strb	w9, [sp, #65]
	mov	x0, x20
	mov	w7, #1
.LBB38_88:
	str	w8, [x20, #476]
	str	x21, [sp]
	bl	"cache_core::cache::Core::store_content::<#dd204406e0587c1d>"
	and	w9, w0, #0xff
	mov	w8, #6
	cmp	w9, #3
	cinc	w9, w8, eq
.LBB38_89:
	mov	w8, wzr
	mov	x22, xzr
	mov	x10, xzr
	b	.LBB38_11
.LBB38_90:
	cmp	w8, #5
	b.ne	.LBB38_117
	tst	x23, #0xff
	b.eq	.LBB38_94
	tbz	w23, #8, .LBB38_94
	mov	x0, x22
	bl	rattle_dealloc
.LBB38_94:
	ldp	x22, x28, [x24]
	mov	x0, x24
	ldr	x23, [x24, #16]
	bl	rattle_dealloc
	cbz	x28, .LBB38_112
	mov	x24, x22
	b	.LBB38_97
.LBB38_96:
	subs	x28, x28, #1
	add	x24, x24, #24
	b.eq	.LBB38_112
.LBB38_97:
	ldrb	w8, [x24]
	cbz	w8, .LBB38_96
	ldrb	w8, [x24, #1]
	tbz	w8, #0, .LBB38_96
	ldr	x0, [x24, #8]
	bl	rattle_dealloc
	b	.LBB38_96
.LBB38_100:
	add	w8, w22, #4
	cmp	x23, x8
	b.ls	.LBB38_57
	ldr	x8, [x24, x8, lsl #3]
	cbz	x8, .LBB38_58
	add	w9, w22, #5
	cmp	x23, x9
	b.ls	.LBB38_104
	ldr	x9, [x24, x9, lsl #3]
	adds	x8, x8, x9
	csinv	x8, x8, xzr, lo
.LBB38_104:
	ldr	x9, [sp, #8]
	cmp	x8, x9
	b.lo	.LBB38_50
	b	.LBB38_57
.LBB38_105:
	cbz	x22, .LBB38_114
	add	x26, x23, #8
	b	.LBB38_108
.LBB38_107:
	subs	x22, x22, #1
	add	x26, x26, #32
	b.eq	.LBB38_114
.LBB38_108:
	ldurb	w8, [x26, #-8]
	cbz	w8, .LBB38_107
	ldrb	w8, [x26]
	cbz	w8, .LBB38_107
	ldrb	w8, [x26, #1]
	tbz	w8, #0, .LBB38_107
	ldr	x0, [x26, #8]
	bl	rattle_dealloc
	b	.LBB38_107
.LBB38_112:
	cbz	x23, .LBB38_117
.LBB38_113:
	mov	x0, x22
	b	.LBB38_116
.LBB38_114:
	cbz	x24, .LBB38_117
	mov	x0, x23
.LBB38_116:
	bl	rattle_dealloc
.LBB38_117:
	cbz	x27, .LBB38_145
	mov	x28, xzr
	b	.LBB38_123
.LBB38_119:
	cbz	x24, .LBB38_122
.LBB38_120:
	mov	x0, x22
.LBB38_121:
	bl	rattle_dealloc
.LBB38_122:
	add	x28, x28, #1
	cmp	x28, x27
	b.eq	.LBB38_145
.LBB38_123:
	mov	w8, #40
	madd	x9, x28, x8, x20
	ldrb	w8, [x9]
	cmp	w8, #2
	b.le	.LBB38_122
	ldp	x24, x22, [x9, #8]
	cmp	w8, #4
	ldr	x23, [x9, #24]
	b.gt	.LBB38_127
	cmp	w8, #3
	b.ne	.LBB38_136
	and	x8, x24, #0xff
	and	x9, x24, #0x100
	cmp	x8, #0
	ccmp	x9, #0, #4, ne
	b.ne	.LBB38_120
	b	.LBB38_122
.LBB38_127:
	cmp	w8, #5
	b.ne	.LBB38_122
	and	x8, x24, #0xff
	and	x9, x24, #0x100
	cmp	x8, #0
	ccmp	x9, #0, #4, ne
	b.eq	.LBB38_130
	mov	x0, x22
	bl	rattle_dealloc
.LBB38_130:
	ldp	x22, x26, [x23]
	mov	x0, x23
	ldr	x24, [x23, #16]
	bl	rattle_dealloc
	cbz	x26, .LBB38_119
	mov	x23, x22
	b	.LBB38_133
.LBB38_132:
	subs	x26, x26, #1
	add	x23, x23, #24
	b.eq	.LBB38_119
.LBB38_133:
	ldrb	w8, [x23]
	cbz	w8, .LBB38_132
	ldrb	w8, [x23, #1]
	tbz	w8, #0, .LBB38_132
	ldr	x0, [x23, #8]
	bl	rattle_dealloc
	b	.LBB38_132
.LBB38_136:
	cbz	x22, .LBB38_143
	add	x26, x24, #8
	b	.LBB38_139
.LBB38_138:
	subs	x22, x22, #1
	add	x26, x26, #32
	b.eq	.LBB38_143
.LBB38_139:
	ldurb	w8, [x26, #-8]
	cbz	w8, .LBB38_138
	ldrb	w8, [x26]
	cbz	w8, .LBB38_138
	ldrb	w8, [x26, #1]
	tbz	w8, #0, .LBB38_138
	ldr	x0, [x26, #8]
	bl	rattle_dealloc
	b	.LBB38_138
.LBB38_143:
	cbz	x23, .LBB38_122
	mov	x0, x24
	b	.LBB38_121
.LBB38_145:
	ldr	x8, [sp, #8]
	and	w21, w21, #0xff
	cbz	x8, .LBB38_147
	mov	x0, x20
	bl	rattle_dealloc
.LBB38_147:
	cmp	w21, #3
	mov	w9, #8
	mov	w11, #2
	mov	w8, wzr
	mov	x10, xzr
	csel	w9, w11, w9, eq
	csel	x22, x25, xzr, eq
	b	.LBB38_11
.LBB38_148:
	add	x0, x20, #184
	bl	"late_words::late_words::LateWords::pad"
	ldp	x9, x8, [x20, #184]
	str	x22, [x9, x8, lsl #3]
	add	x8, x8, #1
	str	x8, [x20, #192]
	add	w1, w23, #6
	cmp	x8, x1
	b.hi	.LBB38_76
.LBB38_149:
	add	x0, x20, #184
	bl	"late_words::late_words::LateWords::pad"
	ldp	x9, x8, [x20, #184]
	str	x21, [x9, x8, lsl #3]
	add	x8, x8, #1
	mov	w9, #7
	str	x8, [x20, #192]
	b	.LBB38_89
.LBB38_150:
	add	x0, x20, #184
	bl	"late_words::late_words::LateWords::pad"
	ldp	x9, x8, [x20, #184]
	str	x22, [x9, x8, lsl #3]
	add	x8, x8, #1
	str	x8, [x20, #192]
	add	w1, w23, #6
	cmp	x8, x1
	b.hi	.LBB38_80
.LBB38_151:
	add	x0, x20, #184
	bl	"late_words::late_words::LateWords::pad"
	ldp	x9, x8, [x20, #184]
	str	x21, [x9, x8, lsl #3]
	add	x8, x8, #1
	str	x8, [x20, #192]
	b	.LBB38_81
.LBB38_152:
	brk	#0x1
.Lfunc_end38:
	.size	cache_ask_unchecked, .Lfunc_end38-cache_ask_unchecked

	.section	.text.cache_find_row_unchecked,"ax",@progbits
	.globl	cache_find_row_unchecked
	.p2align	2
	.type	cache_find_row_unchecked,@function
cache_find_row_unchecked:
	sub	sp, sp, #256
	movi	v0.2d, #0000000000000000
	stp	x29, x30, [sp, #208]
	add	x29, sp, #208
	stp	x20, x19, [sp, #240]
	mov	x19, x8
	lsr	x9, x2, #32
	mov	w8, #4096
	cmp	x1, #0
	stp	x22, x21, [sp, #224]
	sub	x22, x29, #96
	csel	x8, x8, xzr, eq
	stur	xzr, [x29, #-16]
	stp	q0, q0, [x29, #-96]
	stp	q0, q0, [x29, #-64]
	stur	q0, [x29, #-32]
	cbz	x9, .LBB39_2
	stp	q0, q0, [x29, #-96]
	stp	q0, q0, [x29, #-64]
	stur	xzr, [x22, #76]
	b	.LBB39_13
.LBB39_2:
	mov	x5, x3
	mov	x3, x2
	add	x2, x1, x8
	cbz	x3, .LBB39_8
	mov	w9, #5381
	mov	x8, x2
	mov	x10, x3
.LBB39_4:
	ldrb	w11, [x8], #1
	add	x9, x9, x9, lsl #5
	subs	x10, x10, #1
	add	x9, x9, x11
	b.ne	.LBB39_4
	orr	x8, x9, #0x8000000000000000
	ldr	w9, [x0]
	cmp	w9, #1, lsl #12
	b.eq	.LBB39_9
.LBB39_6:
	cbz	w9, .LBB39_15
	udiv	x10, x8, x9
	msub	w20, w10, w9, w8
	b	.LBB39_10
.LBB39_8:
	mov	x8, #5381
	movk	x8, #32768, lsl #48
	ldr	w9, [x0]
	cmp	w9, #1, lsl #12
	b.ne	.LBB39_6
.LBB39_9:
	and	w20, w8, #0xfff
.LBB39_10:
	ldp	x8, x9, [x0, #184]
	mov	x21, x0
	ldr	w10, [x0, #208]
	ldr	w0, [x0, #120]
	add	x1, sp, #88
	mov	w4, w20
	stp	x8, x9, [sp, #88]
	stp	w10, wzr, [sp, #104]
	bl	"cache_core::finding::find_live_in::<#cb700d0c354f31d0>"
	and	w8, w0, #0xff
	cmp	w8, #1
	b.ne	.LBB39_12
	mov	w3, w1
	sub	x0, x29, #96
	mov	x1, x21
	mov	w2, w20
	bl	"cache_c::cache::Cache::row"
	ldp	q0, q1, [x29, #-64]
	b	.LBB39_14
.LBB39_12:
	movi	v0.2d, #0000000000000000
	stur	xzr, [x22, #76]
	stp	q0, q0, [x29, #-96]
	stp	q0, q0, [x29, #-64]
.LBB39_13:
	mov	w8, #5
	stur	xzr, [x22, #68]
	ldp	q0, q1, [x29, #-64]
	stur	w8, [x29, #-32]
	stur	wzr, [x29, #-12]
.LBB39_14:
	ldur	q2, [x29, #-32]
	ldur	x8, [x29, #-16]
	stp	q0, q1, [sp, #32]
	ldp	q0, q1, [x29, #-96]
	str	q2, [sp, #64]
	ldr	q2, [sp, #64]
	str	x8, [x19, #80]
	ldp	x22, x21, [sp, #224]
	str	x8, [sp, #80]
	stp	q0, q1, [sp]
	ldp	q0, q1, [sp, #32]
	str	q2, [x19, #64]
	ldp	x29, x30, [sp, #208]
	stp	q0, q1, [x19, #32]
	ldp	q0, q1, [sp]
	stp	q0, q1, [x19]
	ldp	x20, x19, [sp, #240]
	add	sp, sp, #256
	ret
.LBB39_15:
	brk	#0x1
.Lfunc_end39:
	.size	cache_find_row_unchecked, .Lfunc_end39-cache_find_row_unchecked

	.section	.text.cache_list_rows_unchecked,"ax",@progbits
	.globl	cache_list_rows_unchecked
	.p2align	2
	.type	cache_list_rows_unchecked,@function
cache_list_rows_unchecked:
	sub	sp, sp, #160
	ldr	w8, [x0]
	stp	x22, x21, [sp, #128]
	mov	x21, x0
	stp	x20, x19, [sp, #144]
	mov	x19, x4
	mov	x20, x3
	mov	w22, w1
	cmp	w1, w8
	stp	x29, x30, [sp, #96]
	stp	x24, x23, [sp, #112]
	add	x29, sp, #96
	b.hs	.LBB40_3
	ldr	x9, [x21, #192]
	mov	w8, w22
	cmp	x9, x8
	b.ls	.LBB40_10
	ldr	x9, [x21, #184]
	ldr	x24, [x9, x8, lsl #3]
	cbnz	x2, .LBB40_5
	b	.LBB40_12
.LBB40_3:
	b.ne	.LBB40_11
	ldr	w24, [x21, #104]
	cbz	x2, .LBB40_12
.LBB40_5:
	cbz	w24, .LBB40_12
	ldr	x8, [x21, #192]
	mov	w9, #1
.LBB40_7:
	add	w10, w24, #1
	cmp	x8, x10
	b.ls	.LBB40_10
	ldr	x11, [x21, #184]
	cmp	x9, x2
	ldr	x24, [x11, x10, lsl #3]
	b.hs	.LBB40_12
	add	x9, x9, #1
	cbnz	w24, .LBB40_7
	b	.LBB40_12
.LBB40_10:
	mov	w24, wzr
	mov	x23, xzr
	cbnz	x19, .LBB40_13
	b	.LBB40_19
.LBB40_11:
	mov	w24, wzr
.LBB40_12:
	mov	x23, xzr
	cbz	x19, .LBB40_19
.LBB40_13:
	b	.LBB40_15
.LBB40_14:
	ldr	x9, [x21, #184]
	ldr	x24, [x9, x8, lsl #3]
	add	x23, x23, #1
	add	x20, x20, #88
	cmp	x19, x23
	b.eq	.LBB40_18
.LBB40_15:
	cbz	w24, .LBB40_19
	add	x0, sp, #8
	mov	x1, x21
	mov	w2, w22
	mov	w3, w24
	bl	"cache_c::cache::Cache::row"
	ldur	q0, [sp, #8]
	ldur	q1, [sp, #24]
	ldr	x8, [sp, #88]
	stp	q0, q1, [x20]
	ldur	q0, [sp, #72]
	ldur	q1, [sp, #56]
	str	x8, [x20, #80]
	add	w8, w24, #1
	stp	q1, q0, [x20, #48]
	ldur	q0, [sp, #40]
	str	q0, [x20, #32]
	ldr	x9, [x21, #192]
	cmp	x9, x8
	b.hi	.LBB40_14
	mov	w24, wzr
	add	x23, x23, #1
	add	x20, x20, #88
	cmp	x19, x23
	b.ne	.LBB40_15
.LBB40_18:
	mov	x23, x19
.LBB40_19:
	mov	x0, x23
	ldp	x20, x19, [sp, #144]
	ldp	x22, x21, [sp, #128]
	ldp	x24, x23, [sp, #112]
	ldp	x29, x30, [sp, #96]
	add	sp, sp, #160
	ret
.Lfunc_end40:
	.size	cache_list_rows_unchecked, .Lfunc_end40-cache_list_rows_unchecked

	.section	.text.cache_list_slots_unchecked,"ax",@progbits
	.globl	cache_list_slots_unchecked
	.p2align	2
	.type	cache_list_slots_unchecked,@function
cache_list_slots_unchecked:
	cmp	w1, w2
	b.hs	.LBB41_54
	stp	x24, x23, [sp, #-48]!
	mov	w8, w1
	mov	x1, xzr
	mov	w9, w2
	mov	w8, w8
	add	x10, x3, #40
	stp	x22, x21, [sp, #16]
	stp	x20, x19, [sp, #32]
	b	.LBB41_4
.LBB41_2:
	cbnz	w12, .LBB41_55
.LBB41_3:
	add	x8, x8, #1
	add	x1, x11, x1
	cmp	x8, x9
	b.eq	.LBB41_56
.LBB41_4:
	ldr	w11, [x0]
	cmp	x8, x11
	b.hs	.LBB41_7
	ldr	x11, [x0, #192]
	cmp	x11, x8
	b.ls	.LBB41_9
	ldr	x11, [x0, #184]
	ldr	x13, [x11, x8, lsl #3]
	mov	x12, xzr
	sub	x11, x4, x1
	cbnz	x11, .LBB41_10
	b	.LBB41_43
.LBB41_7:
	b.ne	.LBB41_9
	ldr	w13, [x0, #104]
	mov	x12, xzr
	sub	x11, x4, x1
	cbnz	x11, .LBB41_10
	b	.LBB41_43
.LBB41_9:
	mov	w13, wzr
	mov	x12, xzr
	sub	x11, x4, x1
	cbz	x11, .LBB41_43
.LBB41_10:
	mov	w14, #88
	mul	x14, x1, x14
	add	x14, x10, x14
	b	.LBB41_12
.LBB41_11:
	ldr	x15, [x0, #184]
	ldr	x13, [x15, x13, lsl #3]
	add	x12, x12, #1
	add	x14, x14, #88
	cmp	x11, x12
	b.eq	.LBB41_44
.LBB41_12:
	cbz	w13, .LBB41_43
	ldp	x6, x19, [x0, #184]
	mov	w15, w13
	cmp	x19, x15
	b.ls	.LBB41_22
	ldr	x15, [x6, x15, lsl #3]
	add	w16, w13, #2
	cmp	x19, x16
	b.hi	.LBB41_23
.LBB41_15:
	mov	w16, wzr
	add	w17, w13, #4
	cmp	x19, x17
	b.hi	.LBB41_24
.LBB41_16:
	mov	w17, wzr
	add	w18, w13, #5
	cmp	x19, x18
	b.hi	.LBB41_25
.LBB41_17:
	mov	x18, xzr
	add	w3, w13, #6
	cmp	x19, x3
	b.hi	.LBB41_26
.LBB41_18:
	mov	x3, xzr
	add	w5, w13, #7
	cmp	x19, x5
	b.hi	.LBB41_27
.LBB41_19:
	mov	x5, xzr
	add	w7, w13, #8
	cmp	x19, x7
	b.hi	.LBB41_28
.LBB41_20:
	mov	x7, xzr
	add	w20, w13, #9
	cmp	x19, x20
	b.hi	.LBB41_29
.LBB41_21:
	mov	x20, xzr
	b	.LBB41_30
.LBB41_22:
	mov	w15, wzr
	add	w16, w13, #2
	cmp	x19, x16
	b.ls	.LBB41_15
.LBB41_23:
	ldr	x16, [x6, x16, lsl #3]
	add	w17, w13, #4
	cmp	x19, x17
	b.ls	.LBB41_16
.LBB41_24:
	ldr	x17, [x6, x17, lsl #3]
	add	w18, w13, #5
	cmp	x19, x18
	b.ls	.LBB41_17
.LBB41_25:
	ldr	x18, [x6, x18, lsl #3]
	add	w3, w13, #6
	cmp	x19, x3
	b.ls	.LBB41_18
.LBB41_26:
	ldr	x3, [x6, x3, lsl #3]
	add	w5, w13, #7
	cmp	x19, x5
	b.ls	.LBB41_19
.LBB41_27:
	ldr	x5, [x6, x5, lsl #3]
	add	w7, w13, #8
	cmp	x19, x7
	b.ls	.LBB41_20
.LBB41_28:
	ldr	x7, [x6, x7, lsl #3]
	add	w20, w13, #9
	cmp	x19, x20
	b.ls	.LBB41_21
.LBB41_29:
	ldr	x20, [x6, x20, lsl #3]
.LBB41_30:
	add	w21, w13, #12
	and	w22, w16, #0x7
	add	w23, w21, w16, lsr #3
	add	w22, w22, #7
	add	w23, w23, w22, lsr #3
	cmp	x19, x23
	b.ls	.LBB41_36
	ldr	x24, [x6, x23, lsl #3]
	ands	x22, x24, #0x7
	b.eq	.LBB41_40
	cmp	x22, #1
	b.eq	.LBB41_39
	cmp	x22, #2
	b.ne	.LBB41_41
	add	w22, w23, #1
	cmp	x19, x22
	b.ls	.LBB41_42
	ldr	x22, [x6, x22, lsl #3]
	mov	w19, wzr
	mov	x23, xzr
	mov	w6, #2
	b	.LBB41_37
.LBB41_36:
	mov	w6, wzr
	mov	w19, wzr
	mov	x22, xzr
	mov	x23, xzr
.LBB41_37:
	stp	w13, w8, [x14, #-40]
	add	w13, w13, #1
	stp	w21, w16, [x14, #-32]
	stp	w17, w15, [x14, #-24]
	stp	x18, x3, [x14, #-16]
	stp	x5, x7, [x14]
	str	x20, [x14, #16]
	stp	w6, w19, [x14, #24]
	stp	x22, x23, [x14, #32]
	ldr	x15, [x0, #192]
	cmp	x15, x13
	b.hi	.LBB41_11
	mov	w13, wzr
	add	x12, x12, #1
	add	x14, x14, #88
	cmp	x11, x12
	b.ne	.LBB41_12
	b	.LBB41_44
.LBB41_39:
	cmp	x24, #1
	mov	w19, wzr
	mov	x23, xzr
	cset	w22, ne
	mov	w6, #1
	b	.LBB41_37
.LBB41_40:
	mov	w6, wzr
	mov	w19, wzr
	mov	x23, x22
	b	.LBB41_37
.LBB41_41:
	ubfx	x24, x24, #3, #32
	cmp	x22, #3
	mov	w6, #3
	cinc	w6, w6, ne
	csinc	w19, wzr, w23, ne
	mov	x22, xzr
	csel	x23, x24, xzr, eq
	b	.LBB41_37
.LBB41_42:
	mov	w19, wzr
	mov	x22, xzr
	mov	x23, xzr
	mov	w6, #2
	b	.LBB41_37
.LBB41_43:
	cmp	x12, x11
	mov	x11, x12
	b.lo	.LBB41_3
.LBB41_44:
	ldr	w12, [x0]
	cmp	x8, x12
	b.hs	.LBB41_47
	ldr	x12, [x0, #192]
	cmp	x12, x8
	b.ls	.LBB41_3
	ldr	x12, [x0, #184]
	ldr	x12, [x12, x8, lsl #3]
	cbnz	x11, .LBB41_49
	b	.LBB41_2
.LBB41_47:
	b.ne	.LBB41_3
	ldr	w12, [x0, #104]
	cbz	x11, .LBB41_2
.LBB41_49:
	cbz	w12, .LBB41_2
	ldr	x13, [x0, #192]
	mov	w14, #1
.LBB41_51:
	add	w12, w12, #1
	cmp	x13, x12
	b.ls	.LBB41_3
	ldr	x15, [x0, #184]
	cmp	x14, x11
	ldr	x12, [x15, x12, lsl #3]
	b.hs	.LBB41_2
	add	x14, x14, #1
	cbnz	w12, .LBB41_51
	b	.LBB41_2
.LBB41_54:
	mov	x1, xzr
	mov	w0, w2
	ret
.LBB41_55:
	mov	w2, w8
.LBB41_56:
	ldp	x20, x19, [sp, #32]
	ldp	x22, x21, [sp, #16]
	ldp	x24, x23, [sp], #48
	mov	w0, w2
	ret
.Lfunc_end41:
	.size	cache_list_slots_unchecked, .Lfunc_end41-cache_list_slots_unchecked

	.section	.text.cache_get_view_unchecked,"ax",@progbits
	.globl	cache_get_view_unchecked
	.p2align	2
	.type	cache_get_view_unchecked,@function
cache_get_view_unchecked:
	ldr	w8, [x0]
	ldr	w9, [x0, #120]
	ldr	w1, [x0, #208]
	orr	x0, x8, x9, lsl #32
	ret
.Lfunc_end42:
	.size	cache_get_view_unchecked, .Lfunc_end42-cache_get_view_unchecked

	.section	.text.cache_find_shared_unchecked,"ax",@progbits
	.globl	cache_find_shared_unchecked
	.p2align	2
	.type	cache_find_shared_unchecked,@function
cache_find_shared_unchecked:
	sub	sp, sp, #80
	stp	x20, x19, [sp, #64]
	mov	x19, x8
	cmp	x1, #0
	mov	w8, #4096
	lsr	x9, x4, #32
	stp	x29, x30, [sp, #32]
	csel	x11, x8, xzr, eq
	cmp	x3, #0
	stp	x22, x21, [sp, #48]
	csel	x10, x8, xzr, eq
	add	x29, sp, #32
	cbz	x9, .LBB43_2
	mov	w9, wzr
	mov	x8, xzr
	mov	x10, xzr
	mov	w1, wzr
	mov	w11, #10
	b	.LBB43_15
.LBB43_2:
	ldp	w9, w8, [x0]
	cmp	w9, #1, lsl #12
	b.eq	.LBB43_5
	cbz	w9, .LBB43_20
	udiv	x12, x5, x9
	msub	w9, w12, w9, w5
	b	.LBB43_6
.LBB43_5:
	and	w9, w5, #0xfff
.LBB43_6:
	add	x20, x1, x11
	ldr	w11, [x0, #8]
	mov	x21, x2
	stp	x20, x2, [sp, #8]
	add	x1, sp, #8
	add	x2, x3, x10
	mov	w0, w8
	mov	x22, x4
	mov	x3, x4
	mov	w4, w9
	mov	x5, x6
	stp	w11, wzr, [sp, #24]
	bl	"cache_core::finding::find_live_in::<#cb700d0c354f31d0>"
	and	w8, w0, #0xff
	cmp	w8, #1
	b.ne	.LBB43_13
	lsr	w8, w22, #3
	and	w9, w22, #0x7
	add	w9, w9, #7
	add	w8, w8, w9, lsr #3
	add	w8, w8, w1
	add	w9, w8, #12
	cmp	x21, x9
	b.ls	.LBB43_14
	ldr	x11, [x20, x9, lsl #3]
	ands	x8, x11, #0x7
	b.eq	.LBB43_17
	cmp	x8, #1
	b.eq	.LBB43_16
	cmp	x8, #2
	b.ne	.LBB43_18
	add	w8, w9, #1
	cmp	x21, x8
	b.ls	.LBB43_19
	ldr	x8, [x20, x8, lsl #3]
	mov	w9, wzr
	mov	x10, xzr
	mov	w11, #2
	b	.LBB43_15
.LBB43_13:
	mov	w9, wzr
	mov	x8, xzr
	mov	x10, xzr
	mov	w1, wzr
	mov	w11, #5
	b	.LBB43_15
.LBB43_14:
	mov	w11, wzr
	mov	w9, wzr
	mov	x8, xzr
	mov	x10, xzr
.LBB43_15:
	stp	w11, w9, [x19]
	ldp	x22, x21, [sp, #48]
	stp	x8, x10, [x19, #8]
	ldp	x29, x30, [sp, #32]
	stp	w1, wzr, [x19, #24]
	ldp	x20, x19, [sp, #64]
	add	sp, sp, #80
	ret
.LBB43_16:
	cmp	x11, #1
	mov	w9, wzr
	mov	x10, xzr
	cset	w8, ne
	mov	w11, #1
	b	.LBB43_15
.LBB43_17:
	mov	w11, wzr
	mov	w9, wzr
	mov	x10, x8
	b	.LBB43_15
.LBB43_18:
	ubfx	x10, x11, #3, #32
	cmp	x8, #3
	mov	w8, #3
	cinc	w11, w8, ne
	csinc	w9, wzr, w9, ne
	mov	x8, xzr
	csel	x10, x10, xzr, eq
	b	.LBB43_15
.LBB43_19:
	mov	w9, wzr
	mov	x8, xzr
	mov	x10, xzr
	mov	w11, #2
	b	.LBB43_15
.LBB43_20:
	brk	#0x1
.Lfunc_end43:
	.size	cache_find_shared_unchecked, .Lfunc_end43-cache_find_shared_unchecked

	.ident	"rattle logic=dac8208d650f15bf3e2dc313a14fa4c783a3acf887bdfab66e1714b038d9e11b"
	.section	".note.GNU-stack","",@progbits
