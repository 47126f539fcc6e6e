/* The part cuts of the program fontcut, in C.
 * It is made of the crates of this repository and of the kit's libraries, which were proved and compiled to LLVM's IR
 * by rattle; tools/translator has translated that. Do not edit it: tools/generate writes it. */

#include "program.h"

static const u8 table_18327a07[4] = {0};
static const _Alignas(4) u8 table_55ba7287[1] = {0};
static const u8 table_62a9c92b[4] = {0,3};
static const u8 table_87e6e93c[2] = {0,1};
static const _Alignas(8) u8 table_faed1f12[232] = {16,0,0,0,0,0,0,0,17,0,0,0,0,0,0,0,18,0,0,0,0,0,0,0,19,0,0,0,0,0,0,0,21,0,0,0,0,0,0,0,22,0,0,0,0,0,0,0,
0,0,0,0,0,0,0,0,23,0,0,0,0,0,0,0,24,0,0,0,0,0,0,0,25,0,0,0,0,0,0,0,1,0,0,0,0,0,0,0,26,0,0,0,0,0,0,0,2,
0,0,0,0,0,0,0,3,0,0,0,0,0,0,0,27,0,0,0,0,0,0,0,4,0,0,0,0,0,0,0,5,0,0,0,0,0,0,0,28,0,0,0,0,0,0,0,6,0,0,
0,0,0,0,0,7,0,0,0,0,0,0,0,8,0,0,0,0,0,0,0,20,0,0,0,0,0,0,0,9,0,0,0,0,0,0,0,10,0,0,0,0,0,0,0,11,0,0,0,
0,0,0,0,12,0,0,0,0,0,0,0,13,0,0,0,0,0,0,0,14,0,0,0,0,0,0,0,15};
static const u8 text_BASEGDEFGPOSGSUBHVARMVAR[52] = "BASEGDEFGPOSGSUBHVARMVARSTATVVARavarcvarfvargvarkern";
static const u8 text_BASEGDEFGPOSGSUBkern[20] = "BASEGDEFGPOSGSUBkern";

static void divided_tables_all_tables_OpenTables_with(u8 *v0, u8 *v1, u8 *v2);
static void divided_tables_glyph_variations_GlyphVariationsPartedTable_frame(u8 *v0, u8 *v1);
static void divided_tables_glyph_variations_with_data(u8 *v0, u8 *v1, u8 *v2, u64 v3);
static void divided_tables_held_sequences_HeldSequences_open(u8 *v0, u8 *v1, u16 v2);
static void divided_tables_metrics_MetricsOpenFrom_open_543f(u8 *v0, u8 *v1);
static void divided_tables_metrics_MetricsOpenFrom_open_5adc(u8 *v0, u8 *v1);
static void divided_tables_metrics_copy_kept(u8 *v0, u8 *v1, u64 v2, u8 *v3, u64 v4);
static void divided_tables_metrics_kept_metrics_6f24(u8 *v0, u8 *v1, u64 v2, u64 v3);
static void divided_tables_metrics_metrics_frame(u8 *v0, u8 *v1, u64 v2, u64 v3);
static void divided_tables_sequence_tables_table_of_a10e(u8 *v0, u8 *v1, u64 v2);
static void divided_tables_sequence_union_UnionPairsIterator_next_ec12(u8 *v0, u8 *v1);
static void font_layout_entry_read_entry(u8 *v0, u8 *v1, u64 v2, u8 *v3, u16 v4, u64 v5);
static void font_layout_layout_Layout_open(u8 *v0, u8 *v1, u64 v2);
static void font_layout_lookup_subtable_read_plain(u8 *v0, u8 *v1, u64 v2, u16 v3, u64 v4, u32 v5);
static void font_layout_rule_read_reverse_rule(u8 *v0, u8 *v1, u64 v2, u64 v3);
static NOINLINE void font_layout_walk_Steps_next_part(u8 *v0, u8 *v1);
static void font_subset_font_to_cut_closing_refusal(u8 *v0, u8 *v1, u8 *v2);
static void font_subset_further_tables_FixedTable_of_1948(u8 *v0, u8 *v1, u64 v2);
static void font_subset_kind_source_CutOfKind_of_1490(u8 *v0, u8 *v1);
static void font_subset_presence_mark_between(u8 *v0, u8 *v1, u16 v2, u16 v3);
static void font_subset_selection_mark_roots(u8 *v0, u8 *v1, u8 *v2, u8 *v3);
static u8_u64 font_write_size_table_length_895b(u8 *v0, u8 *v1, u64 v2);
static u8_u64 font_write_size_table_length_a65d(u8 *v0, u8 v1, u8 *v2, u64 v3);
static flag font_write_whole_file_is_whole_file(u8 *v0, u8 v1, u8 *v2, u8 *v3, u64 v4);

void divided_tables_all_tables_MadeTables_drop_2de7(u8 *v0) {
    u8 v2 = at(u8, v0);
    u8 *v4 = at(ptr_1, v0 + 8);
    u64 v6 = at(u64_1, v0 + 24);
    u8 v8 = at(u8, v0 + 32);
    u8 *v10 = at(ptr_1, v0 + 40);
    u64 v12 = at(u64_1, v0 + 56);
    u8 v14 = at(u8, v0 + 64);
    u8 *v16 = at(ptr_1, v0 + 72);
    u64 v18 = at(u64_1, v0 + 88);
    u8 v20 = at(u8, v0 + 96);
    u8 *v22 = at(ptr_1, v0 + 104);
    u64 v24 = at(u64_1, v0 + 120);
    if ((at(u8, v0 + 128) != 1) ? 1 : (at(u64_1, v0 + 152) == 0)) goto v32;
    sys_rattle_dealloc(at(ptr_1, v0 + 136));
v32:;
    if ((v20 != 1) ? 1 : (v24 == 0)) goto v39;
    sys_rattle_dealloc(v22);
v39:;
    if ((v14 != 1) ? 1 : (v18 == 0)) goto v44;
    sys_rattle_dealloc(v16);
v44:;
    if ((v8 != 1) ? 1 : (v12 == 0)) goto v49;
    sys_rattle_dealloc(v10);
v49:;
    if ((v2 != 1) ? 1 : (v6 == 0)) return;
    sys_rattle_dealloc(v4);
    return;
}

void divided_tables_all_tables_MadeTables_frames(u8 *v0, u8 *v1) {
    u8 v3[1], *v86, *v197, *v309;
    _Alignas(8) u8 v4[40], v5[40], v6[16], v7[232], v8[240], v9[40];
    u64 v43, v107, v117, v120, v128, v130, v160, v153, v170, v196, v198, v308;
    flag v195;
    memset(v8, 0, 240u);
    memset(v9, 0, 40u);
    divided_tables_all_tables_OpenTables_of_08e2(v8, v1);
    if (!(at(u8, v8) == 0)) goto v13;
    memcpy(v7, v8 + 8, 232u);
    memset(v5, 0, 40u);
    divided_tables_metrics_metrics_frame(v5, v1, 7, 8);
    u8 v17 = at(u8, v5 + 8);
    u8 *v19 = at(ptr, v5 + 16);
    u64 v21 = at(u64, v5 + 24);
    u64 v23 = at(u64, v5 + 32);
    if (!(at(u8, v5) == 0)) goto v26;
    u64 v29 = (u64)v17;
    u8 *v32 = at(ptr_1, at(ptr, v1 + 8));
    u64 v33 = (u64)v32;
    u16 v35 = at(u16_1, v32 + 4);
    u64 v37 = (u64)bswap16(v35);
    if (v35 == 0) { v195 = 1; v196 = 0; v197 = (u8 *)0; v198 = 0; goto v39; }
    v43 = 0;
v40:;
    u64 v45 = v43 << 4;
    if (!((((at(u8, v32 + (i64)v45 + 12) == 112u) & (at(u8, v32 + (i64)v45 + 13) == 111u)) & (at(u8, v32 + (i64)v45 + 14) == 115u)) & (at(u8, v32 + (i64)v45 + 15) == 116u))) goto v41;
    u32 v67 = at(u32_1, v32 + (i64)v45 + 24);
    u32 v68 = bswap32(v67);
    u64 v69 = (u64)bswap32(at(u32_1, v32 + (i64)v45 + 20));
    u64 v70 = (u64)v68;
    if (!(v68 < 32u)) goto v74;
    if (v67 == 0) { v86 = v3; goto v76; }
    u64_u64 v79 = sys_rattle_alloc(v70, 1);
    if (!(v79._0 & 1)) goto v83;
    v86 = (u8 *)v79._1;
v76:;
    u64 v87 = (u64)v86;
    if (!((((u64)v86) - ((u64)(v32 + (i64)v69))) < v70)) goto v93;
    if (v68 < 4) { v128 = 0; goto v95; }
    if ((v87 - (v33 + v69)) < 32u) { v128 = 0; goto v95; }
    if (v68 < 16u) { v117 = 0; goto v102; }
    u64 v104 = v70 & 12u;
    u64 v105 = v70 & 16u;
    v107 = 0;
v106:;
    at(u8x16_1, v86 + v107) = at(u8x16_1, (v32 + (i64)v69) + v107);
    u64 v108 = v107 + 16u;
    if (!(v108 == v105)) { v107 = v108; goto v106; }
    if (v105 == v70) { v195 = 0; v196 = 1; v197 = v86; v198 = v70; goto v39; }
    if (v104 == 0) { v128 = v105; goto v95; }
    v117 = v105;
v102:;
    u64 v118 = v70 & 28u;
    v120 = v117;
v119:;
    at(u8x4_1, v86 + v120) = at(u8x4_1, (v32 + (i64)v69) + v120);
    u64 v121 = v120 + 4;
    if (!(v121 == v118)) { v120 = v121; goto v119; }
    if (v118 == v70) { v195 = 0; v196 = 1; v197 = v86; v198 = v70; goto v39; }
    v128 = v118;
v95:;
    v130 = v128;
v129:;
    at(u8, v86 + v130) = at(u8, (v32 + (i64)v69) + v130);
    u64 v131 = v130 + 1;
    if (v131 == v70) { v195 = 0; v196 = 1; v197 = v86; v198 = v70; goto v39; }
    v130 = v131; goto v129;
v93:;
    memmove_any(v86, v32 + (i64)v69, v70);
    v195 = 0; v196 = 1; v197 = v86; v198 = v70; goto v39;
v74:;
    u64_u64 v137 = sys_rattle_alloc(32u, 1);
    if (!(v137._0 & 1)) goto v83;
    u64 v141 = v137._1;
    u8 *v142 = (u8 *)v141;
    if (!((v141 - ((u64)(v32 + (i64)v69))) < 32u)) goto v147;
    if ((v141 - (v33 + v69)) < 32u) v160 = 0; else { v153 = 0; goto v152; }
v151:;
    at(u8, v142 + v160) = at(u8, (v32 + (i64)v69) + v160);
    u64 v161 = v160 + 1;
    if (v161 == 32u) goto v159;
    v160 = v161; goto v151;
v152:;
    at(u8x16_1, v142 + v153) = at(u8x16_1, (v32 + (i64)v69) + v153);
    u64 v154 = v153 + 16u;
    if (v154 == 32u) goto v159;
    v153 = v154; goto v152;
v147:;
    memmove(v142, v32 + (i64)v69, 32u);
v159:;
    if ((v141 - ((u64)(u8 *)table_62a9c92b)) < 4) v170 = 0; else goto v169;
v168:;
    at(u8, v142 + v170) = at(u8, (u8 *)table_62a9c92b + v170);
    u64 v171 = v170 + 1;
    if (v171 == 4) { v195 = 0; v196 = 1; v197 = v142; v198 = 32u; goto v39; }
    v170 = v171; goto v168;
v169:;
    at(u32_1, v142) = 768u;
    v195 = 0; v196 = 1; v197 = v142; v198 = 32u; goto v39;
v83:;
    if ((v17 != 1) ? 1 : (v23 == 0)) goto v214;
    sys_rattle_dealloc(v19);
v214:;
    u8 *v219 = at(ptr, v7 + 96);
    u8 *v221 = at(ptr, v7 + 120);
    u64 v223 = at(u64, v7 + 136);
    if (!(at(u8, v7 + 80) == 1)) goto v226;
    if (at(u64, v7 + 112) == 0) goto v230;
    sys_rattle_dealloc(v219);
v230:;
    if (v223 == 0) goto v226;
    sys_rattle_dealloc(v221);
v226:;
    at(u8, v0) = 1;
    memset(v0 + 8, 0, 160u);
    return;
v41:;
    u64 v42 = v43 + 1;
    if (v42 == v37) { v195 = 1; v196 = 0; v197 = (u8 *)0; v198 = 0; } else { v43 = v42; goto v40; }
v39:;
    memset(v4, 0, 40u);
    divided_tables_metrics_metrics_frame(v4, v1, 14u, 15u);
    u8 v201 = at(u8, v4 + 8);
    u8 *v203 = at(ptr, v4 + 16);
    u64 v205 = at(u64, v4 + 24);
    u64 v207 = at(u64, v4 + 32);
    if (!(at(u8, v4) == 0)) goto v210;
    u64 v235 = (u64)v201;
    divided_tables_glyph_variations_GlyphVariationsPartedTable_frame(v9, v7 + 144);
    u8 v239 = at(u8, v9 + 8);
    if (!(at(u8, v9) == 0)) goto v242;
    u8 *v273 = at(ptr, v9 + 16);
    u64 v275 = at(u64, v9 + 24);
    u64 v277 = at(u64, v9 + 32);
    if (!(at(u8, v1 + 112) == 1)) { v308 = 0; v309 = (u8 *)0; goto v282; }
    u8 v286 = at(u8, at(ptr, v1 + 120) + 312);
    if (v286 == 1) { v308 = 1; v309 = v3; goto v282; }
    v308 = (u64)v286; v309 = (v286 == 0) ? ((u8 *)0) : v3;
v282:;
    divided_tables_all_tables_OpenTables_drop(v8 + 8);
    at(u8, v0) = 0;
    at(u64_1, v0 + 8) = (u64)v239;
    at(ptr_1, v0 + 16) = v273;
    at(u64_1, v0 + 24) = v275;
    at(u64_1, v0 + 32) = v277;
    at(u64_1, v0 + 40) = v29;
    at(ptr_1, v0 + 48) = v19;
    at(u64_1, v0 + 56) = v21;
    at(u64_1, v0 + 64) = v23;
    at(u64_1, v0 + 72) = v196;
    at(ptr_1, v0 + 80) = v197;
    at(u64_1, v0 + 88) = v198;
    at(u64_1, v0 + 96) = v198;
    at(u64_1, v0 + 104) = v235;
    at(ptr_1, v0 + 112) = v203;
    at(u64_1, v0 + 120) = v205;
    at(u64_1, v0 + 128) = v207;
    at(u64_1, v0 + 136) = v308;
    at(ptr_1, v0 + 144) = v309;
    memset(v0 + 152, 0, 16u);
    return;
v242:;
    memset(v6, 0, 16u);
    if ((v201 != 1) ? 1 : (v207 == 0)) goto v295;
    sys_rattle_dealloc(v203);
v295:;
    if (v195 | (v198 == 0)) goto v299;
    sys_rattle_dealloc(v197);
v299:;
    if ((v17 != 1) ? 1 : (v23 == 0)) goto v304;
    sys_rattle_dealloc(v19);
v304:;
    divided_tables_all_tables_OpenTables_drop(v7);
    at(u8, v0) = 1;
    memset(v0 + 8, 0, 144u);
    memcpy(v0 + 152, v6, 16u);
    return;
v210:;
    memset(v6, 0, 16u);
    if (v195 | (v198 == 0)) goto v245;
    sys_rattle_dealloc(v197);
v245:;
    if ((v17 != 1) ? 1 : (v23 == 0)) goto v250;
    sys_rattle_dealloc(v19);
v250:;
    u8 *v255 = at(ptr, v7 + 96);
    u8 *v257 = at(ptr, v7 + 120);
    u64 v259 = at(u64, v7 + 136);
    if (!(at(u8, v7 + 80) == 1)) goto v262;
    if (at(u64, v7 + 112) == 0) goto v266;
    sys_rattle_dealloc(v255);
v266:;
    if (v259 == 0) goto v262;
    sys_rattle_dealloc(v257);
v262:;
    at(u8, v0) = 1;
    memset(v0 + 8, 0, 144u);
    memcpy(v0 + 152, v6, 16u);
    return;
v26:;
    u8 *v179 = at(ptr, v7 + 96);
    u8 *v181 = at(ptr, v7 + 120);
    u64 v183 = at(u64, v7 + 136);
    if (!(at(u8, v7 + 80) == 1)) goto v186;
    if (at(u64, v7 + 112) == 0) goto v190;
    sys_rattle_dealloc(v179);
v190:;
    if (v183 == 0) goto v186;
    sys_rattle_dealloc(v181);
v186:;
    at(u8, v0) = 1;
    memset(v0 + 8, 0, 160u);
    return;
v13:;
    at(u8, v0) = 1;
    memset(v0 + 8, 0, 160u);
    return;
}

void divided_tables_all_tables_OpenTables_drop(u8 *v0) {
    u8 *v5 = at(ptr_1, v0 + 96);
    u8 *v7 = at(ptr_1, v0 + 120);
    u64 v9 = at(u64_1, v0 + 136);
    if (!(at(u8, v0 + 80) == 1)) return;
    if (at(u64_1, v0 + 112) == 0) goto v16;
    sys_rattle_dealloc(v5);
v16:;
    if (v9 == 0) return;
    sys_rattle_dealloc(v7);
    return;
}

void divided_tables_all_tables_OpenTables_of_08e2(u8 *v0, u8 *v1) {
    _Alignas(8) u8 v3[24], v4[24], v5[24], v6[80], v7[24], v9[72], v10[80], v11[24], v15[72], v19[72];
    _Alignas(2) u8 v8[6], v12[6], v13[6], v14[6], v16[6], v17[6], v18[6], v20[6];
    u8 *v37, *v40, *v116, *v201, *v252, *v255, *v295, *v299, *v305, *v308, *v314, *v318, *v324, *v327;
    u64 v38, v41, v42, v86, v117, v121, v167, v171, v202, v206, v251, v253, v254, v256, v282, v296, v297, v300, v301, v302, v303, v304, v306, v307, v309, v310, v311, v315, v316, v319, v320, v321, v322, v323, v325, v326, v328, v329, v330;
    flag v294, v313;
    u16 v298, v317;
    memset(v16, 0, 6);
    memset(v17, 0, 6);
    memset(v18, 0, 6);
    memset(v19, 0, 72u);
    memset(v20, 0, 6);
    memset(v10, 0, 80u);
    memset(v12, 0, 6);
    memset(v13, 0, 6);
    if (!(at(u8, v1 + 112) == 1)) { v40 = (u8 *)0; v41 = 0; v42 = 0; goto v25; }
    u8 *v27 = at(ptr, v1 + 120);
    u8 v29 = at(u8, v27 + 312);
    if (!(v29 == 1)) { v37 = (u8 *)0; v38 = 0; goto v32; }
    v37 = at(ptr, v27 + 320); v38 = at(u64, v27 + 328);
v32:;
    v40 = v37; v41 = v38; v42 = (u64)v29;
v25:;
    at(u64, v11) = v42;
    at(ptr, v11 + 8) = v40;
    at(u64, v11 + 16) = v41;
    divided_tables_held_sequences_HeldSequences_open(v10, v11, at(u16, at(ptr, v1 + 8) + 64));
    u16 v51 = at(u16, v10 + 8);
    u8 v53 = at(u8, v10 + 16);
    flag v54 = at(u8, v10) == 0;
    if (!v54) goto v56;
    u64 v58 = at(u64, v10 + 24);
    u8 *v60 = at(ptr, v10 + 32);
    u64 v62 = at(u64, v10 + 40);
    u64 v64 = at(u64, v10 + 48);
    u8 *v66 = at(ptr, v10 + 56);
    u64 v68 = at(u64, v10 + 64);
    u64 v70 = at(u64, v10 + 72);
    u64 v71 = (u64)v53;
    u8 *v72 = at(ptr, v1 + 8);
    u16 v74 = at(u16, v72 + 64);
    u8 *v75 = at(ptr_2, v72);
    u16 v77 = at(u16_1, v75 + 4);
    u64 v79 = (u64)bswap16(v77);
    if (!(v77 == 0)) { v86 = 0; goto v82; }
    memset(v8, 0, 6);
    v251 = 0; v252 = (u8 *)table_55ba7287; v253 = 0; v254 = 0; v255 = (u8 *)table_55ba7287; v256 = 0; goto v83;
v82:;
    u64 v89 = v86 << 4;
    if (!((((at(u8, v75 + (i64)v89 + 12) == 104u) & (at(u8, v75 + (i64)v89 + 13) == 109u)) & (at(u8, v75 + (i64)v89 + 14) == 116u)) & (at(u8, v75 + (i64)v89 + 15) == 120u))) goto v84;
    v116 = v75 + (i64)((u64)bswap32(at(u32_1, v75 + (i64)v89 + 20))); v117 = (u64)bswap32(at(u32_1, v75 + (i64)v89 + 24)); goto v88;
v84:;
    u64 v85 = v86 + 1;
    if (v85 == v79) { v116 = (u8 *)table_55ba7287; v117 = 0; } else { v86 = v85; goto v82; }
v88:;
    v121 = 0;
v118:;
    u64 v124 = v121 << 4;
    if (!((((at(u8, v75 + (i64)v124 + 12) == 104u) & (at(u8, v75 + (i64)v124 + 13) == 104u)) & (at(u8, v75 + (i64)v124 + 14) == 101u)) & (at(u8, v75 + (i64)v124 + 15) == 97u))) goto v119;
    if (bswap32(at(u32_1, v75 + (i64)v124 + 24)) < 36u) { v167 = 0; goto v123; }
    u16 v153 = at(u16_1, v75 + (i64)((u64)bswap32(at(u32_1, v75 + (i64)v124 + 20))) + 34);
    u16 v155 = bswap16(v153);
    if ((v153 == 0) | (v74 < v155)) { v167 = 0; goto v123; }
    u64 v159 = (u64)v155;
    v167 = (v117 < ((((u64)((u16)(v74 - v155))) << 1) + (v159 << 2))) ? 0 : v159; goto v123;
v119:;
    u64 v120 = v121 + 1;
    if (v120 == v79) v167 = 0; else { v121 = v120; goto v118; }
v123:;
    memset(v8, 0, 6);
    v171 = 0;
v168:;
    u64 v174 = v171 << 4;
    if (!((((at(u8, v75 + (i64)v174 + 12) == 118u) & (at(u8, v75 + (i64)v174 + 13) == 109u)) & (at(u8, v75 + (i64)v174 + 14) == 116u)) & (at(u8, v75 + (i64)v174 + 15) == 120u))) goto v169;
    v201 = v75 + (i64)((u64)bswap32(at(u32_1, v75 + (i64)v174 + 20))); v202 = (u64)bswap32(at(u32_1, v75 + (i64)v174 + 24)); goto v173;
v169:;
    u64 v170 = v171 + 1;
    if (v170 == v79) { v201 = (u8 *)table_55ba7287; v202 = 0; } else { v171 = v170; goto v168; }
v173:;
    v206 = 0;
v203:;
    u64 v208 = v206 << 4;
    if (!((((at(u8, v75 + (i64)v208 + 12) == 118u) & (at(u8, v75 + (i64)v208 + 13) == 104u)) & (at(u8, v75 + (i64)v208 + 14) == 101u)) & (at(u8, v75 + (i64)v208 + 15) == 97u))) goto v204;
    if (bswap32(at(u32_1, v75 + (i64)v208 + 24)) < 36u) { v251 = v167; v252 = v116; v253 = v117; v254 = v202; v255 = v201; v256 = 0; goto v83; }
    u16 v237 = at(u16_1, v75 + (i64)((u64)bswap32(at(u32_1, v75 + (i64)v208 + 20))) + 34);
    u16 v239 = bswap16(v237);
    if ((v237 == 0) | (v74 < v239)) { v251 = v167; v252 = v116; v253 = v117; v254 = v202; v255 = v201; v256 = 0; goto v83; }
    u64 v243 = (u64)v239;
    v251 = v167; v252 = v116; v253 = v117; v254 = v202; v255 = v201; v256 = (v202 < ((((u64)((u16)(v74 - v239))) << 1) + (v243 << 2))) ? 0 : v243; goto v83;
v204:;
    u64 v205 = v206 + 1;
    if (v205 == v79) { v251 = v167; v252 = v116; v253 = v117; v254 = v202; v255 = v201; v256 = 0; } else { v206 = v205; goto v203; }
v83:;
    memset(v6, 0, 80u);
    memset(v5, 0, 24u);
    if (!(at(u8, v1 + 112) == 1)) goto v260;
    u8 *v263 = at(ptr, v1 + 120);
    font_subset_font_of_kind_FontOfKind_further_6e0a(v5, v263, 28u);
    u8 *v266 = at(ptr, v5 + 8);
    u64 v268 = at(u64, v5 + 16);
    if (!(at(u8, v5) == 1)) goto v261;
    memset(v3, 0, 24u);
    font_subset_font_of_kind_FontOfKind_further_6e0a(v3, v263, 27u);
    u8 v271 = at(u8, v3);
    memcpy(v4 + 8, v3 + 8, 16u);
    memcpy(v7 + 8, v4 + 8, 16u);
    at(u64, v7) = (u64)v271;
    font_variations_gvar_Variations_open(v6, v266, v268, v7, v74);
    if (!(at(u8, v6) == 1)) goto v279;
    memcpy(v9, v6 + 8, 72u);
    v282 = 1; goto v280;
v279:;
    if (!(v53 == 1)) goto v288;
    if (v64 == 0) goto v290;
    sys_rattle_dealloc(v60);
v290:;
    if (v70 == 0) goto v288;
    sys_rattle_dealloc(v66);
v288:;
    memset(v12, 0, 6);
    memset(v13, 0, 6);
    memset(v14, 0, 6);
    memset(v15, 0, 72u);
    v294 = 0; v295 = (u8 *)0; v296 = 0; v297 = 0; v298 = 0; v299 = (u8 *)0; v300 = 0; v301 = 0; v302 = 0; v303 = 0; v304 = 0; v305 = (u8 *)0; v306 = 0; v307 = 0; v308 = (u8 *)0; v309 = 0; v310 = 0; v311 = 0; goto v285;
v260:;
v261:;
    memset(v9, 0, 72u);
    v282 = 0;
v280:;
    memcpy(v12, v8, 6);
    memset(v13, 0, 6);
    memset(v14, 0, 6);
    memcpy(v15, v9, 72u);
    v294 = 1; v295 = v252; v296 = v253; v297 = v251; v298 = v74; v299 = v255; v300 = v254; v301 = v256; v302 = ((u64)v51) << 48u; v303 = v71; v304 = v58; v305 = v60; v306 = v62; v307 = v64; v308 = v66; v309 = v68; v310 = v70; v311 = v282;
v285:;
    memcpy(v16, v12, 6);
    memcpy(v17, v13, 6);
    memcpy(v18, v14, 6);
    memcpy(v19, v15, 72u);
    v313 = v294; v314 = v295; v315 = v296; v316 = v297; v317 = v298; v318 = v299; v319 = v300; v320 = v301; v321 = v302; v322 = v303; v323 = v304; v324 = v305; v325 = v306; v326 = v307; v327 = v308; v328 = v309; v329 = v310; v330 = v311; goto v312;
v56:;
    memset(v16, 0, 6);
    memset(v17, 0, 6);
    memset(v18, 0, 6);
    memset(v19, 0, 72u);
    v313 = 0; v314 = (u8 *)0; v315 = 0; v316 = 0; v317 = 0; v318 = (u8 *)0; v319 = 0; v320 = 0; v321 = 0; v322 = 0; v323 = 0; v324 = (u8 *)0; v325 = 0; v326 = 0; v327 = (u8 *)0; v328 = 0; v329 = 0; v330 = 0;
v312:;
    memset(v20, 0, 6);
    if (!v54) goto v332;
    if (!v313) goto v334;
    at(u8, v0) = 0;
    at(ptr_1, v0 + 8) = v314;
    at(u64_1, v0 + 16) = v315;
    at(u64_1, v0 + 24) = v316;
    at(u16_1, v0 + 32) = v317;
    memcpy(v0 + 34, v16, 6);
    at(ptr_1, v0 + 40) = v318;
    at(u64_1, v0 + 48) = v319;
    at(u64_1, v0 + 56) = v320;
    at(u16_1, v0 + 64) = v317;
    memcpy(v0 + 66, v17, 6);
    at(u16_1, v0 + 72) = v317;
    at(u64_1, v0 + 74) = v321;
    memcpy(v0 + 82, v18, 6);
    at(u64_1, v0 + 88) = v322;
    at(u64_1, v0 + 96) = v323;
    at(ptr_1, v0 + 104) = v324;
    at(u64_1, v0 + 112) = v325;
    at(u64_1, v0 + 120) = v326;
    at(ptr_1, v0 + 128) = v327;
    at(u64_1, v0 + 136) = v328;
    at(u64_1, v0 + 144) = v329;
    at(u64_1, v0 + 152) = v330;
    memcpy(v0 + 160, v19, 72u);
    at(u16_1, v0 + 232) = v317;
    memcpy(v0 + 234, v20, 6);
    return;
v334:;
    __builtin_trap();
    __builtin_trap();
v332:;
    at(u8, v0) = 1;
    memset(v0 + 8, 0, 232u);
    return;
}

void divided_tables_all_tables_OpenTables_of_3b65(u8 *v0, u8 *v1) {
    _Alignas(8) u8 v3[24], v4[24], v5[80], v6[24], v8[72], v9[80], v10[24], v14[72], v18[72];
    _Alignas(2) u8 v7[6], v11[6], v12[6], v13[6], v15[6], v16[6], v17[6], v19[6];
    u8 *v29, v43, *v44, *v119, *v136, *v224, *v239, *v310, *v338, *v342, *v348, *v351, *v357, *v361, *v367, *v370;
    u64 v30, v45, v89, v120, v137, v143, v189, v193, v222, v225, v240, v245, v290, v309, v325, v339, v340, v343, v344, v345, v346, v347, v349, v350, v352, v353, v354, v358, v359, v362, v363, v364, v365, v366, v368, v369, v371, v372, v373;
    flag v118, v223, v337, v356;
    u16 v341, v360;
    memset(v15, 0, 6);
    memset(v16, 0, 6);
    memset(v17, 0, 6);
    memset(v18, 0, 72u);
    memset(v19, 0, 6);
    memset(v9, 0, 80u);
    memset(v11, 0, 6);
    memset(v12, 0, 6);
    u8 v21 = at(u8, v1 + 312);
    if (!(v21 == 1)) { v29 = (u8 *)0; v30 = 0; goto v24; }
    v29 = at(ptr, v1 + 320); v30 = at(u64, v1 + 328);
v24:;
    if (at(u8, v1) == 0) { v43 = v21; v44 = v29; v45 = v30; goto v33; }
    u8 v36 = at(u8, v1 + 872);
    if (!(v36 == 1)) { v43 = v36; v44 = (u8 *)0; v45 = 0; goto v33; }
    v43 = 1; v44 = at(ptr, v1 + 880); v45 = at(u64, v1 + 888);
v33:;
    at(u64, v10) = (u64)v43;
    at(ptr, v10 + 8) = v44;
    at(u64, v10 + 16) = v45;
    divided_tables_held_sequences_HeldSequences_open(v9, v10, at(u16, at(ptr, v1 + 8) + 64));
    u16 v55 = at(u16, v9 + 8);
    u8 v57 = at(u8, v9 + 16);
    flag v58 = at(u8, v9) == 0;
    if (!v58) goto v60;
    u64 v62 = at(u64, v9 + 24);
    u8 *v64 = at(ptr, v9 + 32);
    u64 v66 = at(u64, v9 + 40);
    u64 v68 = at(u64, v9 + 48);
    u8 *v70 = at(ptr, v9 + 56);
    u64 v72 = at(u64, v9 + 64);
    u64 v74 = at(u64, v9 + 72);
    u64 v75 = (u64)v57;
    u8 *v76 = at(ptr, v1 + 8);
    u16 v78 = at(u16, v76 + 64);
    u8 *v79 = at(ptr_2, v76);
    u16 v81 = at(u16_1, v79 + 4);
    u64 v83 = (u64)bswap16(v81);
    flag v84 = v81 == 0;
    if (v84) { v118 = 0; v119 = (u8 *)0; v120 = 0; goto v85; }
    v89 = 0;
v86:;
    u64 v91 = v89 << 4;
    if (!((((at(u8, v79 + (i64)v91 + 12) == 104u) & (at(u8, v79 + (i64)v91 + 13) == 109u)) & (at(u8, v79 + (i64)v91 + 14) == 116u)) & (at(u8, v79 + (i64)v91 + 15) == 120u))) goto v87;
    v118 = 1; v119 = v79 + (i64)((u64)bswap32(at(u32_1, v79 + (i64)v91 + 20))); v120 = (u64)bswap32(at(u32_1, v79 + (i64)v91 + 24)); goto v85;
v87:;
    u64 v88 = v89 + 1;
    if (v88 == v83) { v118 = 0; v119 = (u8 *)0; v120 = 0; } else { v89 = v88; goto v86; }
v85:;
    flag v122 = at(u8, v1) == 0;
    if (!v122) goto v124;
    v136 = v118 ? v119 : (u8 *)table_55ba7287; v137 = v118 ? v120 : 0; goto v129;
v124:;
    if (!(at(u8, v1 + 776) == 1)) { v136 = (u8 *)table_55ba7287; v137 = 0; goto v129; }
    v136 = at(ptr, v1 + 784); v137 = at(u64, v1 + 792);
v129:;
    if (!v84) { v143 = 0; goto v139; }
    memset(v7, 0, 6);
    v222 = 0; v223 = 0; v224 = (u8 *)0; v225 = 0; goto v140;
v139:;
    u64 v146 = v143 << 4;
    if (!((((at(u8, v79 + (i64)v146 + 12) == 104u) & (at(u8, v79 + (i64)v146 + 13) == 104u)) & (at(u8, v79 + (i64)v146 + 14) == 101u)) & (at(u8, v79 + (i64)v146 + 15) == 97u))) goto v141;
    if (bswap32(at(u32_1, v79 + (i64)v146 + 24)) < 36u) { v189 = 0; goto v145; }
    u16 v175 = at(u16_1, v79 + (i64)((u64)bswap32(at(u32_1, v79 + (i64)v146 + 20))) + 34);
    u16 v177 = bswap16(v175);
    if ((v175 == 0) | (v78 < v177)) { v189 = 0; goto v145; }
    u64 v181 = (u64)v177;
    v189 = (v137 < ((((u64)((u16)(v78 - v177))) << 1) + (v181 << 2))) ? 0 : v181; goto v145;
v141:;
    u64 v142 = v143 + 1;
    if (v142 == v83) v189 = 0; else { v143 = v142; goto v139; }
v145:;
    memset(v7, 0, 6);
    v193 = 0;
v190:;
    u64 v195 = v193 << 4;
    if (!((((at(u8, v79 + (i64)v195 + 12) == 118u) & (at(u8, v79 + (i64)v195 + 13) == 109u)) & (at(u8, v79 + (i64)v195 + 14) == 116u)) & (at(u8, v79 + (i64)v195 + 15) == 120u))) goto v191;
    v222 = v189; v223 = 1; v224 = v79 + (i64)((u64)bswap32(at(u32_1, v79 + (i64)v195 + 20))); v225 = (u64)bswap32(at(u32_1, v79 + (i64)v195 + 24)); goto v140;
v191:;
    u64 v192 = v193 + 1;
    if (v192 == v83) { v222 = v189; v223 = 0; v224 = (u8 *)0; v225 = 0; } else { v193 = v192; goto v190; }
v140:;
    if (!v122) goto v227;
    v239 = v223 ? v224 : (u8 *)table_55ba7287; v240 = v223 ? v225 : 0; goto v232;
v227:;
    if (!(at(u8, v1 + 840) == 1)) { v239 = (u8 *)table_55ba7287; v240 = 0; goto v232; }
    v239 = at(ptr, v1 + 848); v240 = at(u64, v1 + 856);
v232:;
    if (v84) { v290 = 0; goto v241; }
    v245 = 0;
v242:;
    u64 v247 = v245 << 4;
    if (!((((at(u8, v79 + (i64)v247 + 12) == 118u) & (at(u8, v79 + (i64)v247 + 13) == 104u)) & (at(u8, v79 + (i64)v247 + 14) == 101u)) & (at(u8, v79 + (i64)v247 + 15) == 97u))) goto v243;
    if (bswap32(at(u32_1, v79 + (i64)v247 + 24)) < 36u) { v290 = 0; goto v241; }
    u16 v276 = at(u16_1, v79 + (i64)((u64)bswap32(at(u32_1, v79 + (i64)v247 + 20))) + 34);
    u16 v278 = bswap16(v276);
    if ((v276 == 0) | (v78 < v278)) { v290 = 0; goto v241; }
    u64 v282 = (u64)v278;
    v290 = (v240 < ((((u64)((u16)(v78 - v278))) << 1) + (v282 << 2))) ? 0 : v282; goto v241;
v243:;
    u64 v244 = v245 + 1;
    if (v244 == v83) v290 = 0; else { v245 = v244; goto v242; }
v241:;
    memset(v5, 0, 80u);
    memset(v4, 0, 24u);
    font_subset_font_of_kind_FontOfKind_further_6e0a(v4, v1, 28u);
    u8 v291 = at(u8, v4);
    u8 *v293 = at(ptr, v4 + 8);
    u64 v295 = at(u64, v4 + 16);
    if (!v122) goto v297;
    if (v291 == 1) { v309 = v295; v310 = v293; goto v307; }
    goto v302;
v297:;
    if (!(at(u8, v1 + 744) == 1)) goto v302;
    v309 = at(u64, v1 + 760); v310 = at(ptr, v1 + 752);
v307:;
    memset(v3, 0, 24u);
    font_subset_font_of_kind_FontOfKind_further_6e0a(v3, v1, 27u);
    u8 *v313 = at(ptr, v3 + 8);
    u64 v315 = at(u64, v3 + 16);
    at(u64, v6) = (u64)at(u8, v3);
    at(ptr, v6 + 8) = v313;
    at(u64, v6 + 16) = v315;
    font_variations_gvar_Variations_open(v5, v310, v309, v6, v78);
    if (!(at(u8, v5) == 1)) goto v322;
    memcpy(v8, v5 + 8, 72u);
    v325 = 1; goto v323;
v322:;
    if (!(v57 == 1)) goto v331;
    if (v68 == 0) goto v333;
    sys_rattle_dealloc(v64);
v333:;
    if (v74 == 0) goto v331;
    sys_rattle_dealloc(v70);
v331:;
    memset(v11, 0, 6);
    memset(v12, 0, 6);
    memset(v13, 0, 6);
    memset(v14, 0, 72u);
    v337 = 0; v338 = (u8 *)0; v339 = 0; v340 = 0; v341 = 0; v342 = (u8 *)0; v343 = 0; v344 = 0; v345 = 0; v346 = 0; v347 = 0; v348 = (u8 *)0; v349 = 0; v350 = 0; v351 = (u8 *)0; v352 = 0; v353 = 0; v354 = 0; goto v328;
v302:;
    memset(v8, 0, 72u);
    v325 = 0;
v323:;
    memcpy(v11, v7, 6);
    memset(v12, 0, 6);
    memset(v13, 0, 6);
    memcpy(v14, v8, 72u);
    v337 = 1; v338 = v136; v339 = v137; v340 = v222; v341 = v78; v342 = v239; v343 = v240; v344 = v290; v345 = ((u64)v55) << 48u; v346 = v75; v347 = v62; v348 = v64; v349 = v66; v350 = v68; v351 = v70; v352 = v72; v353 = v74; v354 = v325;
v328:;
    memcpy(v15, v11, 6);
    memcpy(v16, v12, 6);
    memcpy(v17, v13, 6);
    memcpy(v18, v14, 72u);
    v356 = v337; v357 = v338; v358 = v339; v359 = v340; v360 = v341; v361 = v342; v362 = v343; v363 = v344; v364 = v345; v365 = v346; v366 = v347; v367 = v348; v368 = v349; v369 = v350; v370 = v351; v371 = v352; v372 = v353; v373 = v354; goto v355;
v60:;
    memset(v15, 0, 6);
    memset(v16, 0, 6);
    memset(v17, 0, 6);
    memset(v18, 0, 72u);
    v356 = 0; v357 = (u8 *)0; v358 = 0; v359 = 0; v360 = 0; v361 = (u8 *)0; v362 = 0; v363 = 0; v364 = 0; v365 = 0; v366 = 0; v367 = (u8 *)0; v368 = 0; v369 = 0; v370 = (u8 *)0; v371 = 0; v372 = 0; v373 = 0;
v355:;
    memset(v19, 0, 6);
    if (!v58) goto v375;
    if (!v356) goto v377;
    at(u8, v0) = 0;
    at(ptr_1, v0 + 8) = v357;
    at(u64_1, v0 + 16) = v358;
    at(u64_1, v0 + 24) = v359;
    at(u16_1, v0 + 32) = v360;
    memcpy(v0 + 34, v15, 6);
    at(ptr_1, v0 + 40) = v361;
    at(u64_1, v0 + 48) = v362;
    at(u64_1, v0 + 56) = v363;
    at(u16_1, v0 + 64) = v360;
    memcpy(v0 + 66, v16, 6);
    at(u16_1, v0 + 72) = v360;
    at(u64_1, v0 + 74) = v364;
    memcpy(v0 + 82, v17, 6);
    at(u64_1, v0 + 88) = v365;
    at(u64_1, v0 + 96) = v366;
    at(ptr_1, v0 + 104) = v367;
    at(u64_1, v0 + 112) = v368;
    at(u64_1, v0 + 120) = v369;
    at(ptr_1, v0 + 128) = v370;
    at(u64_1, v0 + 136) = v371;
    at(u64_1, v0 + 144) = v372;
    at(u64_1, v0 + 152) = v373;
    memcpy(v0 + 160, v18, 72u);
    at(u16_1, v0 + 232) = v360;
    memcpy(v0 + 234, v19, 6);
    return;
v377:;
    __builtin_trap();
    __builtin_trap();
v375:;
    at(u8, v0) = 1;
    memset(v0 + 8, 0, 232u);
    return;
}

static void divided_tables_all_tables_OpenTables_with(u8 *v0, u8 *v1, u8 *v2) {
    _Alignas(8) u8 v4[24], v5[80], v6[24], v25[40], v26[40], v27[72], v28[64];
    u64 v74;
    u16 v7 = at(u16_1, v2);
    u8 v9 = at(u8, v2 + 8);
    u64 v10 = (u64)v9;
    u64 v12 = at(u64_1, v2 + 16);
    u8 *v14 = at(ptr_1, v2 + 24);
    u64 v16 = at(u64_1, v2 + 32);
    u64 v18 = at(u64_1, v2 + 40);
    u8 *v20 = at(ptr_1, v2 + 48);
    u64 v22 = at(u64_1, v2 + 56);
    u64 v24 = at(u64_1, v2 + 64);
    memset(v25, 0, 40u);
    memset(v26, 0, 40u);
    memset(v27, 0, 72u);
    memset(v28, 0, 64u);
    divided_tables_metrics_MetricsOpenFrom_open_543f(v25, v1);
    if (!(at(u8, v25) == 1)) goto v32;
    divided_tables_metrics_MetricsOpenFrom_open_5adc(v26, v1);
    if (!(at(u8, v26) == 1)) goto v37;
    u16 v51 = at(u16, at(ptr, v1 + 8) + 64);
    memset(v4, 0, 24u);
    memset(v5, 0, 80u);
    memset(v6, 0, 24u);
    font_subset_further_tables_FurtherTablesTablesBySlot_table_1234(v4, v1, 28u);
    if (!(at(u8, v4) == 1)) goto v55;
    u8 *v57 = at(ptr, v4 + 8);
    u64 v59 = at(u64, v4 + 16);
    font_subset_further_tables_FurtherTablesTablesBySlot_table_1234(v6, v1, 27u);
    font_variations_gvar_Variations_open(v5, v57, v59, v6, v51);
    if (!(at(u8, v5) == 1)) goto v63;
    memcpy(v27, v5 + 8, 72u);
    v74 = 1; goto v64;
v63:;
    if (!(v9 == 1)) goto v96;
    if (v18 == 0) goto v98;
    sys_rattle_dealloc(v14);
v98:;
    if (v24 == 0) goto v96;
    sys_rattle_dealloc(v20);
v96:;
    memset(v0, 0, 240u);
    return;
v55:;
    memset(v27, 0, 72u);
    v74 = 0;
v64:;
    memcpy(v28, v25 + 8, 32u);
    memcpy(v28 + 32, v26 + 8, 32u);
    at(u64_1, v0) = 1;
    memcpy(v0 + 8, v28, 64u);
    at(u16_1, v0 + 72) = v51;
    at(u64_1, v0 + 74) = ((u64)v7) << 48u;
    memset(v0 + 82, 0, 6);
    at(u64_1, v0 + 88) = v10;
    at(u64_1, v0 + 96) = v12;
    at(ptr_1, v0 + 104) = v14;
    at(u64_1, v0 + 112) = v16;
    at(u64_1, v0 + 120) = v18;
    at(ptr_1, v0 + 128) = v20;
    at(u64_1, v0 + 136) = v22;
    at(u64_1, v0 + 144) = v24;
    at(u64_1, v0 + 152) = v74;
    memcpy(v0 + 160, v27, 72u);
    at(u16_1, v0 + 232) = v51;
    memset(v0 + 234, 0, 6);
    return;
v37:;
    if (!(v9 == 1)) goto v68;
    if (v18 == 0) goto v70;
    sys_rattle_dealloc(v14);
v70:;
    if (v24 == 0) goto v68;
    sys_rattle_dealloc(v20);
v68:;
    memset(v0, 0, 240u);
    return;
v32:;
    if (!(v9 == 1)) goto v41;
    if (v18 == 0) goto v43;
    sys_rattle_dealloc(v14);
v43:;
    if (v24 == 0) goto v41;
    sys_rattle_dealloc(v20);
v41:;
    memset(v0, 0, 240u);
    return;
}

NOINLINE void divided_tables_all_tables_lay_over(u8 *v0, u64 v1, u8 *v2, u64 v3) {
    u64 v24, v36, v39, v49, v51;
    u64 v5 = umin64(v3, v1);
    if (v5 == 0) return;
    if (v5 < 4) { v49 = 0; goto v10; }
    if (((u64)v0 < (u64)(v2 + (i64)v5)) & ((u64)v2 < (u64)(v0 + (i64)v5))) { v49 = 0; goto v10; }
    if (v5 < 16u) { v36 = 0; goto v19; }
    u64 v21 = v5 & 12u;
    u64 v22 = v5 & 0xfffffffffffffff0u;
    v24 = 0;
v23:;
    at(u8x16_1, v0 + v24) = at(u8x16_1, v2 + v24) | at(u8x16_1, v0 + v24);
    u64 v25 = v24 + 16u;
    if (!(v25 == v22)) { v24 = v25; goto v23; }
    if (v5 == v22) return;
    if (v21 == 0) { v49 = v22; goto v10; }
    v36 = v22;
v19:;
    u64 v37 = v5 & 0xfffffffffffffffcu;
    v39 = v36;
v38:;
    at(u8x4_1, v0 + v39) = at(u8x4_1, v2 + v39) | at(u8x4_1, v0 + v39);
    u64 v40 = v39 + 4;
    if (!(v40 == v37)) { v39 = v40; goto v38; }
    if (v5 == v37) return;
    v49 = v37;
v10:;
    v51 = v49;
v50:;
    at(u8, v0 + v51) = (u8)(at(u8, v2 + v51) | at(u8, v0 + v51));
    u64 v52 = v51 + 1;
    if (v52 == v5) return;
    v51 = v52; goto v50;
}

static void divided_tables_glyph_variations_GlyphVariationsPartedTable_frame(u8 *v0, u8 *v1) {
    _Alignas(8) u8 v3[1], v4[32], v5[24];
    u8 v6[24];
    u64 v30;
    u8 v7 = at(u8, v1);
    if (!(v7 == 0)) goto v10;
    memset(v5, 0, 24u);
    goto v11;
v10:;
    memset(v4, 0, 32u);
    u16 v14 = at(u16, v1 + 74);
    u64 v15 = (u64)v14;
    if (!(v14 == 0)) goto v18;
    divided_tables_glyph_variations_with_data(v4, v1 + 8, v3, v15);
    goto v19;
v18:;
    u64_u64 v22 = sys_rattle_alloc(v15 << 4, 8);
    if (!(v22._0 & 1)) goto v26;
    u8 *v28 = (u8 *)v22._1;
    v30 = 0;
v29:;
    u64 v32 = v30 << 4;
    at(ptr_1, v28 + v32) = (u8 *)table_55ba7287;
    at(u64_1, v28 + v32 + 8) = 0;
    u64 v31 = v30 + 1;
    if (!(v31 == v15)) { v30 = v31; goto v29; }
    divided_tables_glyph_variations_with_data(v4, v1 + 8, v28, v15);
    sys_rattle_dealloc(v28);
v19:;
    u8 v38 = at(u8, v4);
    memcpy(v6, v4 + 8, 24u);
    if (!(v38 == 0)) goto v37;
    memcpy(v5, v6, 24u);
v11:;
    at(u8, v0) = 0;
    at(u64_1, v0 + 8) = (u64)v7;
    memcpy(v0 + 16, v5, 24u);
    return;
v26:;
v37:;
    at(u8, v0) = 1;
    memset(v0 + 8, 0, 32u);
    return;
}

static void divided_tables_glyph_variations_with_data(u8 *v0, u8 *v1, u8 *v2, u64 v3) {
    u8 v5[1], v7[31], v8[31], *v87, *v88, *v95, *v99, *v100, *v129, *v144, *v158, *v219;
    _Alignas(8) u8 v6[24];
    u64 v26, v44, v45, v47, v49, v56, v101, v102, v113, v130, v131, v145, v146, v159, v160, v172, v173, v179, v182, v186, v183, v197, v208, v209, v223, v224, v237, v238, v262, v273, v276, v284, v286, v301, v304, v306, v305, v323, v346, v356, v359, v367, v369;
    u64x2 v28;
    u32 v84, v86, v96, v98, v184, v210;
    u16 v85, v97;
    memset(v8, 0, 31u);
    u8 *v9 = at(ptr_1, v1);
    u8 *v11 = at(ptr_1, v1 + 48);
    u64 v12 = (u64)v11;
    u64 v14 = at(u64_1, v1 + 56);
    memset(v7, 0, 31u);
    memset(v6, 0, 24u);
    u64 v16 = (v3 << 2) + 24u;
    u64 v17 = v14 + v16;
    flag v18 = v3 == 0;
    if (v18) { v56 = 0; goto v19; }
    if (v3 == 1) { v44 = 0; v45 = 0; goto v22; }
    u64 v24 = v3 & 0xfffffffffffffffeu;
    v26 = 0; v28 = (u64x2){0};
v25:;
    u64 v36 = at(u64, v2 + (i64)(v26 << 4) + 8);
    u64 v37 = at(u64, v2 + (i64)(v26 << 4) + 24);
    u64x2 v29 = (u64x2){v36, v37} + v28;
    u64 v27 = v26 + 2;
    if (!(v27 == v24)) { v26 = v27; v28 = v29; goto v25; }
    u64 v42 = sum_u64x2(v29);
    if (v3 == v24) { v56 = v42; goto v19; }
    v44 = v42; v45 = v24;
v22:;
    v47 = v44; v49 = v45;
v46:;
    u64 v48 = at(u64, v2 + (i64)(v49 << 4) + 8) + v47;
    u64 v50 = v49 + 1;
    if (v50 == v3) v56 = v48; else { v47 = v48; v49 = v50; goto v46; }
v19:;
    u64 v57 = v56 + v17;
    if (!(v57 == 0)) goto v60;
    at(ptr, v6) = v5;
    memset(v6 + 8, 0, 16u);
    v84 = (u32)v17; v85 = (u16)v3; v86 = (u32)v16; v87 = v6 + 16; v88 = v6 + 8; goto v66;
v60:;
    if (!((i64)v57 > (i64)0xffffffffffffffffu)) goto v69;
    u64_u64 v71 = sys_rattle_alloc(v57, 1);
    if (!(v71._0 & 1)) goto v69;
    u8 *v76 = (u8 *)v71._1;
    at(ptr, v6) = v76;
    at(u64, v6 + 8) = 0;
    at(u64, v6 + 16) = v57;
    u32 v79 = (u32)v16;
    u16 v80 = (u16)v3;
    u32 v81 = (u32)v17;
    if (v57 < 8) { v84 = v81; v85 = v80; v86 = v79; v87 = v6 + 16; v88 = v6 + 8; } else { v95 = v76; v96 = v81; v97 = v80; v98 = v79; v99 = v6 + 16; v100 = v6 + 8; v101 = v57; v102 = 0; goto v83; }
v66:;
    if (!std_alloc_vec_Vec_grow_amortized_1cf2(v6, 8)) { v219 = v87; goto v91; }
    v95 = at(ptr, v6); v96 = v84; v97 = v85; v98 = v86; v99 = v87; v100 = v88; v101 = at(u64, v87); v102 = at(u64, v88);
v83:;
    u64 v103 = v102 + 8;
    memset(v100, 0, 16u);
    if ((((u64)(v95 + (i64)v102)) - ((u64)v9)) < 8) v113 = 0; else goto v110;
v109:;
    at(u8, (v95 + (i64)v102) + v113) = at(u8, v9 + v113);
    u64 v114 = v113 + 1;
    if (v114 == 8) goto v112;
    v113 = v114; goto v109;
v110:;
    at(u64_1, v95 + (i64)v102) = at(u64_1, v9);
v112:;
    at(ptr, v6) = v95;
    at(u64, v100) = v103;
    at(u64, v99) = v101;
    u32 v119 = bswap32(v98);
    if (!((v101 - v103) < 4)) { v129 = v95; v130 = v101; v131 = v103; goto v123; }
    if (!std_alloc_vec_Vec_grow_amortized_1cf2(v6, 4)) { v219 = v99; goto v91; }
    v129 = at(ptr, v6); v130 = at(u64, v99); v131 = at(u64, v100);
v123:;
    u64 v132 = v131 + 4;
    at(u32_1, v129 + (i64)v131) = v119;
    at(ptr, v6) = v129;
    at(u64, v100) = v132;
    at(u64, v99) = v130;
    u16 v134 = bswap16(v97);
    if (!((v130 - v132) < 2)) { v144 = v129; v145 = v130; v146 = v132; goto v138; }
    if (!std_alloc_vec_Vec_grow_amortized_1cf2(v6, 2)) { v219 = v99; goto v91; }
    v144 = at(ptr, v6); v145 = at(u64, v99); v146 = at(u64, v100);
v138:;
    u64 v147 = v146 + 2;
    at(u16_1, v144 + (i64)v146) = v134;
    at(ptr, v6) = v144;
    at(u64, v100) = v147;
    at(u64, v99) = v145;
    if (!((v145 - v147) < 2)) { v158 = v144; v159 = v145; v160 = v147; goto v152; }
    if (!std_alloc_vec_Vec_grow_amortized_1cf2(v6, 2)) { v219 = v99; goto v91; }
    v158 = at(ptr, v6); v159 = at(u64, v99); v160 = at(u64, v100);
v152:;
    u64 v161 = v160 + 2;
    at(u16_1, v158 + (i64)v160) = 256u;
    at(ptr, v6) = v158;
    at(u64, v100) = v161;
    at(u64, v99) = v159;
    u32 v163 = bswap32(v96);
    if (!((v159 - v161) < 4)) { v172 = v159; v173 = v161; goto v167; }
    if (!std_alloc_vec_Vec_grow_amortized_1cf2(v6, 4)) { v219 = v99; goto v91; }
    v172 = at(u64, v99); v173 = at(u64, v100); goto v167;
v91:;
    if (at(u64, v219) == 0) goto v69;
    goto v222;
v167:;
    u64 v174 = v173 + 4;
    at(u32_1, at(ptr, v6) + (i64)v173) = v163;
    at(u64, v100) = v174;
    at(u64, v99) = v172;
    if (v18) { v208 = v174; v209 = v172; v210 = 0; goto v177; }
    v179 = v174; v182 = v172; v184 = 0; v186 = 0;
v178:;
    u32 v188 = bswap32(v184);
    if (!((v182 - v179) < 4)) { v183 = v182; v197 = v179; goto v181; }
    if (!std_alloc_vec_Vec_grow_amortized_1cf2(v6, 4)) goto v194;
    v183 = at(u64, v99); v197 = at(u64, v100);
v181:;
    u64 v180 = v197 + 4;
    at(u32_1, at(ptr, v6) + (i64)v197) = v188;
    at(u64, v100) = v180;
    at(u64, v99) = v183;
    u32 v185 = v184 + ((u32)at(u64, v2 + (i64)(v186 << 4) + 8));
    u64 v187 = v186 + 1;
    if (!(v187 == v3)) { v179 = v180; v182 = v183; v184 = v185; v186 = v187; goto v178; }
    v208 = v180; v209 = v183; v210 = bswap32(v185);
v177:;
    if (!((v209 - v208) < 4)) { v223 = v209; v224 = v208; goto v214; }
    if (!std_alloc_vec_Vec_grow_amortized_1cf2(v6, 4)) goto v194;
    v223 = at(u64, v99); v224 = at(u64, v100); goto v214;
v194:;
    if (at(u64, v99) == 0) goto v69;
    goto v222;
v214:;
    u64 v225 = v224 + 4;
    at(u32_1, at(ptr, v6) + (i64)v224) = v210;
    at(u64, v100) = v225;
    at(u64, v99) = v223;
    if (!(v14 > (v223 - v225))) { v237 = v223; v238 = v225; goto v231; }
    if (!std_alloc_vec_Vec_grow_amortized_1cf2(v6, v14)) goto v234;
    v237 = at(u64, v99); v238 = at(u64, v100); goto v231;
v234:;
    if (at(u64, v99) == 0) goto v69;
    goto v222;
v231:;
    u64 v239 = v238 + v14;
    u8 *v240 = at(ptr, v6);
    u64 v241 = (u64)v240;
    memset(v100, 0, 16u);
    if (!((((u64)(v240 + (i64)v238)) - ((u64)v11)) < v14)) goto v248;
    if (v14 < 4) { v284 = 0; goto v250; }
    if (((v238 + v241) - v12) < 32u) { v284 = 0; goto v250; }
    if (v14 < 16u) { v273 = 0; goto v257; }
    u64 v259 = v14 & 12u;
    u64 v260 = v14 & 0xfffffffffffffff0u;
    v262 = 0;
v261:;
    at(u8x16_1, (v240 + (i64)v238) + v262) = at(u8x16_1, v11 + v262);
    u64 v263 = v262 + 16u;
    if (!(v263 == v260)) { v262 = v263; goto v261; }
    if (v14 == v260) goto v270;
    if (v259 == 0) { v284 = v260; goto v250; }
    v273 = v260;
v257:;
    u64 v274 = v14 & 0xfffffffffffffffcu;
    v276 = v273;
v275:;
    at(u8x4_1, (v240 + (i64)v238) + v276) = at(u8x4_1, v11 + v276);
    u64 v277 = v276 + 4;
    if (!(v277 == v274)) { v276 = v277; goto v275; }
    if (v14 == v274) goto v270;
    v284 = v274;
v250:;
    v286 = v284;
v285:;
    at(u8, (v240 + (i64)v238) + v286) = at(u8, v11 + v286);
    u64 v287 = v286 + 1;
    if (v287 == v14) goto v270;
    v286 = v287; goto v285;
v248:;
    memmove_any(v240 + (i64)v238, v11, v14);
v270:;
    at(u64, v100) = v239;
    at(u64, v99) = v237;
    if (v18) goto v294;
    v301 = at(u64, v6 + 8); v304 = at(u64, v6 + 16); v306 = 0;
v300:;
    u64 v308 = v306 << 4;
    u64 v311 = at(u64, v2 + (i64)v308 + 8);
    u8 *v312 = at(ptr, v2 + (i64)v308);
    u64 v313 = (u64)v312;
    if (!(v311 > (v304 - v301))) { v305 = v304; v323 = v301; goto v317; }
    if (!std_alloc_vec_Vec_grow_amortized_1cf2(v6, v311)) goto v320;
    v305 = at(u64, v6 + 16); v323 = at(u64, v6 + 8); goto v317;
v320:;
    if (at(u64, v99) == 0) goto v69;
v222:;
    sys_rattle_dealloc(at(ptr, v6));
    goto v69;
v317:;
    u64 v302 = v323 + v311;
    u8 *v324 = at(ptr, v6);
    u64 v325 = (u64)v324;
    if (!((((u64)(v324 + (i64)v323)) - ((u64)v312)) < v311)) goto v332;
    if (v311 < 4) { v367 = 0; goto v334; }
    if (((v323 + v325) - v313) < 32u) { v367 = 0; goto v334; }
    if (v311 < 16u) { v356 = 0; goto v341; }
    u64 v343 = v311 & 12u;
    u64 v344 = v311 & 0xfffffffffffffff0u;
    v346 = 0;
v345:;
    at(u8x16_1, (v324 + (i64)v323) + v346) = at(u8x16_1, v312 + v346);
    u64 v347 = v346 + 16u;
    if (!(v347 == v344)) { v346 = v347; goto v345; }
    if (v311 == v344) goto v303;
    if (v343 == 0) { v367 = v344; goto v334; }
    v356 = v344;
v341:;
    u64 v357 = v311 & 0xfffffffffffffffcu;
    v359 = v356;
v358:;
    at(u8x4_1, (v324 + (i64)v323) + v359) = at(u8x4_1, v312 + v359);
    u64 v360 = v359 + 4;
    if (!(v360 == v357)) { v359 = v360; goto v358; }
    if (v311 == v357) goto v303;
    v367 = v357;
v334:;
    v369 = v367;
v368:;
    at(u8, (v324 + (i64)v323) + v369) = at(u8, v312 + v369);
    u64 v370 = v369 + 1;
    if (v370 == v311) goto v303;
    v369 = v370; goto v368;
v332:;
    memmove_any(v324 + (i64)v323, v312, v311);
v303:;
    at(u64, v6 + 8) = v302;
    at(u64, v6 + 16) = v305;
    u64 v307 = v306 + 1;
    if (!(v307 == v3)) { v301 = v302; v304 = v305; v306 = v307; goto v300; }
v294:;
    memcpy(v7 + 7, v6, 24u);
    memcpy(v8 + 7, v7 + 7, 24u);
    at(u8, v0) = 0;
    memcpy(v0 + 8, v8 + 7, 24u);
    return;
v69:;
    memset(v7 + 7, 0, 24u);
    at(u8, v0) = 1;
    memset(v0 + 8, 0, 24u);
    return;
}

void divided_tables_held_sequences_HeldSequencesPartedTable_united(u8 *v0, u8 *v1, u8 *v2, u8 *v3) {
    _Alignas(4) u8 v5[1], v8[16];
    _Alignas(8) u8 v6[24], v7[40], v9[24], v10[24], v11[32], v12[24], v13[8], v14[24];
    u8 v34, *v59, *v73, *v74, *v105, v118, v120, v122;
    u64 v76, v86, v104, v106, v119, v121, v123;
    memset(v14, 0, 24u);
    if (!(at(u8, v1 + 8) == 1)) { v122 = 0; v123 = 0; goto v19; }
    if (!(at(u8, v2 + 8) == 1)) { v122 = 0; v123 = 0; goto v19; }
    memset(v12, 0, 24u);
    if (at(u8, v3) == 0) { v34 = at(u8, v3 + 312); goto v28; }
    u8 v31 = at(u8, v3 + 872);
    if (v31 == 1) goto v33;
    v34 = v31;
v28:;
    if (v34 == 0) { v120 = 0; v121 = 0; goto v36; }
v33:;
    at(ptr, v13) = v3;
    u8 *v38 = at(ptr, v1 + 24);
    u64 v40 = at(u64, v1 + 32);
    u8 *v42 = at(ptr, v2 + 24);
    u64 v44 = at(u64, v2 + 32);
    memset(v9, 0, 24u);
    memset(v10, 0, 24u);
    memset(v11, 0, 32u);
    memset(v8, 0, 16u);
    if (v40 == 0) { v59 = v5; goto v46; }
    if (!(v40 < 0xaaaaaaaaaaaaaabu)) goto v50;
    u64_u64 v53 = sys_rattle_alloc(v40 * 12u, 4);
    if (!(v53._0 & 1)) goto v50;
    v59 = (u8 *)v53._1;
v46:;
    at(ptr, v6) = v59;
    at(u64, v6 + 8) = 0;
    at(u64, v6 + 16) = v40;
    at(ptr, v7) = v13;
    at(ptr, v7 + 8) = v38;
    at(u64, v7 + 16) = v40;
    at(ptr, v7 + 24) = v42;
    at(u64, v7 + 32) = v44;
    divided_tables_sequence_union_UnionPairsIterator_next_73ab(v8, v7);
    if (!(at(u8, v8) == 1)) goto v69;
    v73 = v59; v76 = 0;
v72:;
    if (!(at(u64, v6 + 16) == v76)) { v74 = v73; v86 = v76; goto v75; }
    if (!std_alloc_vec_Vec_grow_amortized_5986(v6)) goto v83;
    v74 = at(ptr, v6); v86 = at(u64, v6 + 8); goto v75;
v83:;
    if (at(u64, v6 + 16) == 0) goto v50;
    sys_rattle_dealloc(at(ptr, v6));
    goto v50;
v75:;
    memmove(v74 + (v86 * 12u), v8 + 4, 12u);
    u64 v77 = v86 + 1;
    at(u64, v6 + 8) = v77;
    divided_tables_sequence_union_UnionPairsIterator_next_73ab(v8, v7);
    if (at(u8, v8) == 1) { v73 = v74; v76 = v77; goto v72; }
    u8 *v96 = at(ptr, v6);
    u64 v97 = at(u64, v6 + 16);
    if (!(v77 > 1048576u)) { v104 = v77; v105 = v96; v106 = v97; goto v70; }
    if (v97 == 0) goto v102;
    sys_rattle_dealloc(v96);
v102:;
    memcpy(v12, v10, 24u);
    v118 = 0; v119 = 0; goto v100;
v69:;
    v104 = 0; v105 = v59; v106 = v40;
v70:;
    divided_tables_sequence_tables_table_of_a10e(v11, v105, v104);
    if (!(at(u8, v11) == 0)) goto v110;
    memcpy(v9, v11 + 8, 24u);
    if (v106 == 0) goto v113;
    sys_rattle_dealloc(v105);
v113:;
    memcpy(v12, v9, 24u);
    v118 = 0; v119 = 1; goto v100;
v110:;
    memset(v9, 0, 24u);
    if (v106 == 0) goto v116;
    sys_rattle_dealloc(v105);
v116:;
    memcpy(v12, v9, 24u);
    v118 = 1; v119 = 0; goto v100;
v50:;
    memset(v12, 0, 24u);
    v118 = 1; v119 = 0;
v100:;
    v120 = v118; v121 = v119;
v36:;
    memcpy(v14, v12, 24u);
    v122 = v120; v123 = v121;
v19:;
    at(u8, v0) = v122;
    at(u64_1, v0 + 8) = v123;
    memcpy(v0 + 16, v14, 24u);
    return;
}

static void divided_tables_held_sequences_HeldSequences_open(u8 *v0, u8 *v1, u16 v2) {
    _Alignas(8) u8 v4[1], v5[24], v6[24], v8[24], v9[88], v19[24], v21[24];
    u8 v7[31], v11[31], *v72, *v96, *v73, *v136, *v137, *v117, *v120, *v176, *v185;
    _Alignas(4) u8 v10[16];
    _Alignas(2) u8 v12[6], v18[6], v20[6];
    u64 v75, v97, v76, v139, v141, v165, v116, v119, v174, v175, v186, v187, v188;
    u16 v184;
    u8 *v15 = at(ptr_1, v1 + 8);
    u64 v17 = at(u64_1, v1 + 16);
    u8 v13 = at(u8, v1);
    memset(v18, 0, 6);
    memset(v19, 0, 24u);
    memset(v20, 0, 6);
    memset(v21, 0, 24u);
    if (!(v13 == 0)) goto v24;
    memset(v19, 0, 24u);
    v184 = 0; v185 = (u8 *)0; v186 = 0; v187 = 0; v188 = 0; goto v25;
v24:;
    memset(v11, 0, 31u);
    memset(v12, 0, 6);
    if (!(v17 > 9)) { v116 = 0; v117 = v4; goto v28; }
    if (!(at(u16_1, v15) == 3584u)) { v116 = 0; v117 = v4; goto v28; }
    if (!(v17 == ((u64)bswap32(at(u32_1, v15 + 2))))) { v116 = 0; v117 = v4; goto v28; }
    if (!variation_sequences_strict_is_strict(v15, v17)) { v116 = 0; v117 = v4; goto v28; }
    u64 v42 = (u64)(((u32)v17) / 5);
    memset(v10, 0, 16u);
    u64_u64 v45 = sys_rattle_alloc(v42 * 12u, 4);
    if (!(v45._0 & 1)) goto v49;
    u8 *v51 = (u8 *)v45._1;
    at(ptr, v8) = v51;
    at(u64, v8 + 8) = 0;
    at(u64, v8 + 16) = v42;
    at(ptr, v9) = v15;
    at(u64, v9 + 8) = v17;
    at(u32, v9 + 16) = 0;
    at(u32, v9 + 20) = 0;
    at(ptr, v9 + 24) = (u8 *)table_18327a07;
    at(u64, v9 + 32) = 4;
    at(ptr, v9 + 40) = (u8 *)table_18327a07;
    at(u64, v9 + 48) = 4;
    at(u32, v9 + 56) = 1114112u;
    memset(v9 + 60, 0, 28u);
    variation_sequences_entries_EntriesIterator_next(v10, v9);
    if (!(at(u8, v10) == 1)) goto v66;
    v72 = v51; v75 = 0;
v71:;
    u32 v77 = at(u32, v10 + 4);
    u32 v78 = at(u32, v10 + 8);
    u16 v80 = at(u16, v10 + 14);
    if ((at(u8, v10 + 12) == 0) ? 1 : ((v80 >= v2) | (v80 == 0))) { v73 = v72; v76 = v75; goto v74; }
    if (!(at(u64, v8 + 16) == v75)) { v96 = v72; v97 = v75; goto v90; }
    if (!std_alloc_vec_Vec_grow_amortized_5986(v8)) goto v93;
    v96 = at(ptr, v8); v97 = at(u64, v8 + 8); goto v90;
v93:;
    if (at(u64, v8 + 16) == 0) goto v49;
    sys_rattle_dealloc(at(ptr, v8));
    goto v49;
v90:;
    u64 v98 = v97 * 12u;
    at(u32_1, v96 + v98) = v77;
    at(u32_1, v96 + v98 + 4) = v78;
    at(u16_1, v96 + v98 + 8) = v80;
    at(u16_1, v96 + v98 + 10) = 0;
    u64 v103 = v97 + 1;
    at(u64, v8 + 8) = v103;
    v73 = v96; v76 = v103;
v74:;
    variation_sequences_entries_EntriesIterator_next(v10, v9);
    if (at(u8, v10) == 1) { v72 = v73; v75 = v76; goto v71; }
    u8 *v111 = at(ptr, v8);
    u64 v112 = at(u64, v8 + 16);
    memset(v5, 0, 24u);
    if (v76 == 0) { v119 = v112; v120 = v111; goto v114; }
    if (!(v76 < 0x1000000000000000u)) goto v124;
    u64_u64 v127 = sys_rattle_alloc(v76 << 3, 8);
    if (!(v127._0 & 1)) goto v124;
    u8 *v132 = (u8 *)v127._1;
    at(ptr, v5) = v132;
    at(u64, v5 + 8) = 0;
    at(u64, v5 + 16) = v76;
    v136 = v132; v139 = 0; v141 = 0;
v135:;
    u64 v143 = v141 * 12u;
    u64 v156 = ((((u64)at(u32_1, v111 + (i64)v143)) * 1114112u) + ((u64)at(u32_1, v111 + (i64)v143 + 4))) + (((u64)at(u16_1, v111 + (i64)v143 + 8)) * 0x12100000000u);
    if (!(at(u64, v5 + 16) == v139)) { v137 = v136; v165 = v139; goto v138; }
    if (!std_alloc_vec_Vec_grow_amortized_483f(v5)) goto v162;
    v137 = at(ptr, v5); v165 = at(u64, v5 + 8); goto v138;
v162:;
    if (at(u64, v5 + 16) == 0) goto v124;
    sys_rattle_dealloc(at(ptr, v5));
    goto v124;
v138:;
    at(u64, v137 + (v165 << 3)) = v156;
    u64 v140 = v165 + 1;
    at(u64, v5 + 8) = v140;
    u64 v142 = v141 + 1;
    if (v142 == v76) { v174 = v112; v175 = v76; v176 = v111; goto v121; }
    v136 = v137; v139 = v140; v141 = v142; goto v135;
v124:;
    if (v112 == 0) goto v173;
    sys_rattle_dealloc(v111);
    goto v173;
v66:;
    v116 = v42; v117 = v51; goto v28;
v49:;
v173:;
    at(u8, v0) = 1;
    at(u16_1, v0 + 8) = 0;
    memset(v0 + 16, 0, 64u);
    return;
v28:;
    memset(v5 + 8, 0, 16u);
    v119 = v116; v120 = v117;
v114:;
    at(ptr, v5) = v4;
    v174 = v119; v175 = 0; v176 = v120;
v121:;
    memcpy(v7 + 7, v5, 24u);
    memcpy(v6, v7 + 7, 24u);
    std_alloc_vec_Vec_sort_unstable(v6);
    memcpy(v11 + 7, v7 + 7, 24u);
    memcpy(v20, v12, 6);
    memcpy(v21, v11 + 7, 24u);
    memcpy(v18, v20, 6);
    memcpy(v19, v21, 24u);
    v184 = v2; v185 = v176; v186 = v175; v187 = v174; v188 = 1;
v25:;
    at(u8, v0) = 0;
    at(u16_1, v0 + 8) = v2;
    at(u64_1, v0 + 16) = v188;
    at(u16_1, v0 + 24) = v184;
    memcpy(v0 + 26, v18, 6);
    at(ptr_1, v0 + 32) = v185;
    at(u64_1, v0 + 40) = v186;
    at(u64_1, v0 + 48) = v187;
    memcpy(v0 + 56, v19, 24u);
    return;
}

static void divided_tables_metrics_MetricsOpenFrom_open_543f(u8 *v0, u8 *v1) {
    u64 v17, v48, v52, v97, v99;
    u8 *v47, *v98;
    u8 *v4 = at(ptr, v1 + 8);
    u16 v6 = at(u16, v4 + 64);
    u8 *v7 = at(ptr_2, v4);
    u16 v9 = at(u16_1, v7 + 4);
    u64 v11 = (u64)bswap16(v9);
    if (v9 == 0) { v97 = 0; v98 = (u8 *)table_55ba7287; v99 = 0; goto v13; }
    v17 = 0;
v14:;
    u64 v20 = v17 << 4;
    if (!((((at(u8, v7 + (i64)v20 + 12) == 104u) & (at(u8, v7 + (i64)v20 + 13) == 109u)) & (at(u8, v7 + (i64)v20 + 14) == 116u)) & (at(u8, v7 + (i64)v20 + 15) == 120u))) goto v15;
    v47 = v7 + (i64)((u64)bswap32(at(u32_1, v7 + (i64)v20 + 20))); v48 = (u64)bswap32(at(u32_1, v7 + (i64)v20 + 24)); goto v19;
v15:;
    u64 v16 = v17 + 1;
    if (v16 == v11) { v47 = (u8 *)table_55ba7287; v48 = 0; } else { v17 = v16; goto v14; }
v19:;
    v52 = 0;
v49:;
    u64 v54 = v52 << 4;
    if (!((((at(u8, v7 + (i64)v54 + 12) == 104u) & (at(u8, v7 + (i64)v54 + 13) == 104u)) & (at(u8, v7 + (i64)v54 + 14) == 101u)) & (at(u8, v7 + (i64)v54 + 15) == 97u))) goto v50;
    if (bswap32(at(u32_1, v7 + (i64)v54 + 24)) < 36u) { v97 = v48; v98 = v47; v99 = 0; goto v13; }
    u16 v83 = at(u16_1, v7 + (i64)((u64)bswap32(at(u32_1, v7 + (i64)v54 + 20))) + 34);
    u16 v85 = bswap16(v83);
    if ((v83 == 0) | (v6 < v85)) { v97 = v48; v98 = v47; v99 = 0; goto v13; }
    u64 v89 = (u64)v85;
    v97 = v48; v98 = v47; v99 = (v48 < ((((u64)((u16)(v6 - v85))) << 1) + (v89 << 2))) ? 0 : v89; goto v13;
v50:;
    u64 v51 = v52 + 1;
    if (v51 == v11) { v97 = v48; v98 = v47; v99 = 0; } else { v52 = v51; goto v49; }
v13:;
    at(u64_1, v0) = 1;
    at(ptr_1, v0 + 8) = v98;
    at(u64_1, v0 + 16) = v97;
    at(u64_1, v0 + 24) = v99;
    at(u16_1, v0 + 32) = v6;
    memset(v0 + 34, 0, 6);
    return;
}

static void divided_tables_metrics_MetricsOpenFrom_open_5adc(u8 *v0, u8 *v1) {
    u64 v17, v48, v52, v97, v99;
    u8 *v47, *v98;
    u8 *v4 = at(ptr, v1 + 8);
    u16 v6 = at(u16, v4 + 64);
    u8 *v7 = at(ptr_2, v4);
    u16 v9 = at(u16_1, v7 + 4);
    u64 v11 = (u64)bswap16(v9);
    if (v9 == 0) { v97 = 0; v98 = (u8 *)table_55ba7287; v99 = 0; goto v13; }
    v17 = 0;
v14:;
    u64 v20 = v17 << 4;
    if (!((((at(u8, v7 + (i64)v20 + 12) == 118u) & (at(u8, v7 + (i64)v20 + 13) == 109u)) & (at(u8, v7 + (i64)v20 + 14) == 116u)) & (at(u8, v7 + (i64)v20 + 15) == 120u))) goto v15;
    v47 = v7 + (i64)((u64)bswap32(at(u32_1, v7 + (i64)v20 + 20))); v48 = (u64)bswap32(at(u32_1, v7 + (i64)v20 + 24)); goto v19;
v15:;
    u64 v16 = v17 + 1;
    if (v16 == v11) { v47 = (u8 *)table_55ba7287; v48 = 0; } else { v17 = v16; goto v14; }
v19:;
    v52 = 0;
v49:;
    u64 v54 = v52 << 4;
    if (!((((at(u8, v7 + (i64)v54 + 12) == 118u) & (at(u8, v7 + (i64)v54 + 13) == 104u)) & (at(u8, v7 + (i64)v54 + 14) == 101u)) & (at(u8, v7 + (i64)v54 + 15) == 97u))) goto v50;
    if (bswap32(at(u32_1, v7 + (i64)v54 + 24)) < 36u) { v97 = v48; v98 = v47; v99 = 0; goto v13; }
    u16 v83 = at(u16_1, v7 + (i64)((u64)bswap32(at(u32_1, v7 + (i64)v54 + 20))) + 34);
    u16 v85 = bswap16(v83);
    if ((v83 == 0) | (v6 < v85)) { v97 = v48; v98 = v47; v99 = 0; goto v13; }
    u64 v89 = (u64)v85;
    v97 = v48; v98 = v47; v99 = (v48 < ((((u64)((u16)(v6 - v85))) << 1) + (v89 << 2))) ? 0 : v89; goto v13;
v50:;
    u64 v51 = v52 + 1;
    if (v51 == v11) { v97 = v48; v98 = v47; v99 = 0; } else { v52 = v51; goto v49; }
v13:;
    at(u64_1, v0) = 1;
    at(ptr_1, v0 + 8) = v98;
    at(u64_1, v0 + 16) = v97;
    at(u64_1, v0 + 24) = v99;
    at(u16_1, v0 + 32) = v6;
    memset(v0 + 34, 0, 6);
    return;
}

static void divided_tables_metrics_copy_kept(u8 *v0, u8 *v1, u64 v2, u8 *v3, u64 v4) {
    u64 v25, v54, v65, v68, v76, v78, v97, v104, v117, v120, v127, v133, v151, v168, v188, v195, v208, v211, v134;
    u8x16 v106, v197;
    u64 v6 = (u64)v1;
    u64 v7 = (u64)v0;
    u16 v11 = at(u16, at(ptr, v3 + 8) + 64);
    u64 v12 = (u64)v11;
    u64 v14 = (v4 << 2) - 4;
    if ((((u64)(v0 + (i64)v14)) - ((u64)(v1 + (i64)v14))) < 2) v25 = 0; else goto v22;
v21:;
    at(u8, (v0 + (i64)v14) + v25) = at(u8, (v1 + (i64)v14) + v25);
    u64 v26 = v25 + 1;
    if (v26 == 2) goto v24;
    v25 = v26; goto v21;
v22:;
    at(u16_1, v0 + (i64)v14) = at(u16_1, v1 + (i64)v14);
v24:;
    u64 v32 = (v4 + v12) << 1;
    u64 v33 = v2 - v32;
    if (!((((u64)(v0 + (i64)v32)) - ((u64)(v1 + (i64)v32))) < v33)) goto v41;
    if ((v33 < 4) | ((v7 - v6) < 32u)) { v76 = 0; goto v46; }
    if (v33 < 16u) { v65 = 0; goto v49; }
    u64 v51 = v33 & 12u;
    u64 v52 = v33 & 0xfffffffffffffff0u;
    v54 = 0;
v53:;
    at(u8x16_1, (v0 + (i64)v32) + v54) = at(u8x16_1, (v1 + (i64)v32) + v54);
    u64 v55 = v54 + 16u;
    if (!(v55 == v52)) { v54 = v55; goto v53; }
    if (v33 == v52) goto v62;
    if (v51 == 0) { v76 = v52; goto v46; }
    v65 = v52;
v49:;
    u64 v66 = v33 & 0xfffffffffffffffcu;
    v68 = v65;
v67:;
    at(u8x4_1, (v0 + (i64)v32) + v68) = at(u8x4_1, (v1 + (i64)v32) + v68);
    u64 v69 = v68 + 4;
    if (!(v69 == v66)) { v68 = v69; goto v67; }
    if (v33 == v66) goto v62;
    v76 = v66;
v46:;
    v78 = v76;
v77:;
    at(u8, (v0 + (i64)v32) + v78) = at(u8, (v1 + (i64)v32) + v78);
    u64 v79 = v78 + 1;
    if (v79 == v33) goto v62;
    v78 = v79; goto v77;
v41:;
    memmove_any(v0 + (i64)v32, v1 + (i64)v32, v33);
v62:;
    u8 *v85 = at(ptr, v3 + 168);
    u64 v87 = at(u64, v3 + 176);
    if (v87 == 0) { v117 = 0; goto v89; }
    if (at(u8, v85) & 1) { v127 = 0; goto v93; }
    if (v87 < 64u) { v117 = 0; goto v89; }
    v97 = 0;
v96:;
    if (v97 == 0xffffffffffffffc0u) goto v99;
    v104 = 0; v106 = (u8x16){0};
v103:;
    u8x16 v107 = v106 | ((-(at(u8x16_1, (v85 + (i64)v97) + (i64)v104) & 1)));
    u64 v105 = v104 + 16u;
    if (!(v105 == 64u)) { v104 = v105; v106 = v107; goto v103; }
    if (!(bits_u8x16(v107) == 0)) { v117 = v97; goto v89; }
v99:;
    u64 v98 = v97 + 64u;
    if ((v87 - v98) < 64u) v117 = v98; else { v97 = v98; goto v96; }
v89:;
    if (v117 < v87) v120 = v117; else { v127 = v87; goto v93; }
v119:;
    if (at(u8, v85 + v120) & 1) { v127 = v120; goto v93; }
    u64 v121 = v120 + 1;
    if (v121 == v87) v127 = v87; else { v120 = v121; goto v119; }
v93:;
    u64 v128 = v4 - 1;
    if (v11 > ((u16)v127)) v133 = v127; else return;
v131:;
    u64 v136 = v133 & 65535u;
    if (!(v136 < v128)) goto v139;
    u64 v140 = v136 << 2;
    if ((((u64)(v0 + (i64)v140)) - ((u64)(v1 + (i64)v140))) < 4) v151 = 0; else goto v148;
v147:;
    at(u8, (v0 + (i64)v140) + v151) = at(u8, (v1 + (i64)v140) + v151);
    u64 v152 = v151 + 1;
    if (v152 == 4) goto v150;
    v151 = v152; goto v147;
v148:;
    at(u32_1, v0 + (i64)v140) = at(u32_1, v1 + (i64)v140);
    goto v150;
v139:;
    u64 v158 = (v136 + v4) << 1;
    if ((((u64)(v0 + (i64)v158)) - ((u64)(v1 + (i64)v158))) < 2) v168 = 0; else goto v166;
v165:;
    at(u8, (v0 + (i64)v158) + v168) = at(u8, (v1 + (i64)v158) + v168);
    u64 v169 = v168 + 1;
    if (v169 == 2) goto v150;
    v168 = v169; goto v165;
v166:;
    at(u16_1, v0 + (i64)v158) = at(u16_1, v1 + (i64)v158);
v150:;
    u64 v175 = (v133 + 1) & 65535u;
    u8 *v176 = at(ptr, v3 + 168);
    u64 v177 = at(u64, v3 + 176);
    if (!(v177 > v175)) goto v180;
    if (at(u8, v176 + v175) & 1) { v134 = v175; goto v135; }
v180:;
    if ((v177 - v175) < 64u) { v208 = v175; goto v186; }
    v188 = v175;
v187:;
    if (!(v188 < 0xffffffffffffffc0u)) goto v190;
    v195 = 0; v197 = (u8x16){0};
v194:;
    u8x16 v198 = v197 | ((-(at(u8x16_1, (v176 + (i64)v188) + (i64)v195) & 1)));
    u64 v196 = v195 + 16u;
    if (!(v196 == 64u)) { v195 = v196; v197 = v198; goto v194; }
    if (!(bits_u8x16(v198) == 0)) { v208 = v188; goto v186; }
v190:;
    u64 v189 = v188 + 64u;
    if ((v177 - v189) < 64u) v208 = v189; else { v188 = v189; goto v187; }
v186:;
    if (v208 < v177) v211 = v208; else { v134 = v177; goto v135; }
v210:;
    if (at(u8, v176 + v211) & 1) { v134 = v211; goto v135; }
    u64 v212 = v211 + 1;
    if (v212 == v177) v134 = v177; else { v211 = v212; goto v210; }
v135:;
    if (v11 > ((u16)v134)) { v133 = v134; goto v131; }
    return;
}

static void divided_tables_metrics_kept_metrics_6f24(u8 *v0, u8 *v1, u64 v2, u64 v3) {
    u8 v5[1], *v61, *v63;
    _Alignas(8) u8 v6[24], v7[24];
    u64 v64;
    u8 *v9 = at(ptr, v1 + 8);
    u16 v11 = at(u16, v9 + 64);
    memset(v7, 0, 24u);
    font_subset_accepted_copied(v7, v9, v3);
    u8 v12 = at(u8, v7);
    u64 v13 = (u64)v12;
    u8 *v15 = at(ptr, v7 + 8);
    u64 v17 = at(u64, v7 + 16);
    if (v12 == 0) { v63 = (u8 *)0; v64 = 0; goto v19; }
    memset(v6, 0, 24u);
    font_subset_accepted_copied(v6, v9, v2);
    u8 *v23 = at(ptr, v6 + 8);
    if ((at(u8, v6) != 1) ? 1 : (at(u64, v6 + 16) < 36u)) goto v29;
    u16 v32 = at(u16_1, v23 + 34);
    u16 v34 = bswap16(v32);
    if ((v32 == 0) | (v11 < v34)) goto v29;
    u64 v38 = (u64)v34;
    if (!(v17 < ((((u64)((u16)(v11 - v34))) << 1) + (v38 << 2)))) goto v45;
v29:;
    at(u8, v0) = 0;
    memset(v0 + 8, 0, 32u);
    return;
v45:;
    if (v17 == 0) { v61 = v5; goto v49; }
    if (!((i64)v17 > (i64)0xffffffffffffffffu)) goto v53;
    u64_u64 v55 = sys_rattle_alloc(v17, 1);
    if (!(v55._0 & 1)) goto v53;
    u8 *v60 = (u8 *)v55._1;
    memset_any(v60, 0, v17);
    v61 = v60;
v49:;
    divided_tables_metrics_copy_kept(v61, v15, v17, v1, v38);
    v63 = v61; v64 = v17;
v19:;
    at(u8, v0) = 0;
    at(u64_1, v0 + 8) = v13;
    at(ptr_1, v0 + 16) = v63;
    at(u64_1, v0 + 24) = v64;
    at(u64_1, v0 + 32) = v64;
    return;
v53:;
    at(u8, v0) = 1;
    memset(v0 + 8, 0, 32u);
    return;
}

static void divided_tables_metrics_metrics_frame(u8 *v0, u8 *v1, u64 v2, u64 v3) {
    u8 v5[1], *v63, *v121, *v196;
    _Alignas(8) u8 v6[24], v7[24];
    u64 v83, v93, v96, v104, v106, v135, v164, v174, v177, v185, v187, v195;
    u8 *v9 = at(ptr, v1 + 8);
    u16 v11 = at(u16, v9 + 64);
    memset(v7, 0, 24u);
    font_subset_accepted_copied(v7, v9, v3);
    u8 v12 = at(u8, v7);
    u8 *v14 = at(ptr, v7 + 8);
    u64 v15 = (u64)v14;
    u64 v17 = at(u64, v7 + 16);
    u64 v18 = (u64)v12;
    if (v12 == 0) { v195 = 0; v196 = (u8 *)0; goto v20; }
    memset(v6, 0, 24u);
    font_subset_accepted_copied(v6, v9, v2);
    u8 *v24 = at(ptr, v6 + 8);
    if ((at(u8, v6) != 1) ? 1 : (at(u64, v6 + 16) < 36u)) goto v30;
    u16 v33 = at(u16_1, v24 + 34);
    u16 v35 = bswap16(v33);
    if ((v33 == 0) | (v11 < v35)) goto v30;
    u64 v39 = (u64)v35;
    u64 v40 = v39 << 2;
    if (!(v17 < ((((u64)((u16)(v11 - v35))) << 1) + v40))) goto v46;
v30:;
    if (v17 == 0) { v63 = v5; goto v48; }
    if (!((i64)v17 > (i64)0xffffffffffffffffu)) goto v55;
    u64_u64 v57 = sys_rattle_alloc(v17, 1);
    if (!(v57._0 & 1)) goto v55;
    v63 = (u8 *)v57._1;
v48:;
    if (!((((u64)v63) - ((u64)v14)) < v17)) goto v69;
    if ((v17 < 4) ? 1 : ((((u64)v63) - v15) < 32u)) { v104 = 0; goto v75; }
    if (v17 < 16u) { v93 = 0; goto v78; }
    u64 v80 = v17 & 12u;
    u64 v81 = v17 & 0xfffffffffffffff0u;
    v83 = 0;
v82:;
    at(u8x16_1, v63 + v83) = at(u8x16_1, v14 + v83);
    u64 v84 = v83 + 16u;
    if (!(v84 == v81)) { v83 = v84; goto v82; }
    if (v17 == v81) { v195 = v17; v196 = v63; goto v20; }
    if (v80 == 0) { v104 = v81; goto v75; }
    v93 = v81;
v78:;
    u64 v94 = v17 & 0xfffffffffffffffcu;
    v96 = v93;
v95:;
    at(u8x4_1, v63 + v96) = at(u8x4_1, v14 + v96);
    u64 v97 = v96 + 4;
    if (!(v97 == v94)) { v96 = v97; goto v95; }
    if (v17 == v94) { v195 = v17; v196 = v63; goto v20; }
    v104 = v94;
v75:;
    v106 = v104;
v105:;
    at(u8, v63 + v106) = at(u8, v14 + v106);
    u64 v107 = v106 + 1;
    if (v107 == v17) { v195 = v17; v196 = v63; goto v20; }
    v106 = v107; goto v105;
v69:;
    memmove_any(v63, v14, v17);
    v195 = v17; v196 = v63; goto v20;
v46:;
    if (v17 == 0) { v121 = v5; goto v51; }
    if (!((i64)v17 > (i64)0xffffffffffffffffu)) goto v55;
    u64_u64 v115 = sys_rattle_alloc(v17, 1);
    if (!(v115._0 & 1)) goto v55;
    u8 *v120 = (u8 *)v115._1;
    memset_any(v120, 0, v17);
    v121 = v120;
v51:;
    u64 v122 = (u64)v121;
    u64 v123 = (u64)v11;
    u64 v124 = v40 - 4;
    if ((((u64)(v121 + (i64)v124)) - ((u64)(v14 + (i64)v124))) < 2) v135 = 0; else goto v132;
v131:;
    at(u8, (v121 + (i64)v124) + v135) = at(u8, (v14 + (i64)v124) + v135);
    u64 v136 = v135 + 1;
    if (v136 == 2) goto v134;
    v135 = v136; goto v131;
v132:;
    at(u16_1, v121 + (i64)v124) = at(u16_1, v14 + (i64)v124);
v134:;
    u64 v142 = (v39 + v123) << 1;
    u64 v143 = v17 - v142;
    if (!((((u64)(v121 + (i64)v142)) - ((u64)(v14 + (i64)v142))) < v143)) goto v151;
    if ((v143 < 4) ? 1 : ((v122 - v15) < 32u)) { v185 = 0; goto v156; }
    if (v143 < 16u) { v174 = 0; goto v159; }
    u64 v161 = v143 & 12u;
    u64 v162 = v143 & 0xfffffffffffffff0u;
    v164 = 0;
v163:;
    at(u8x16_1, (v121 + (i64)v142) + v164) = at(u8x16_1, (v14 + (i64)v142) + v164);
    u64 v165 = v164 + 16u;
    if (!(v165 == v162)) { v164 = v165; goto v163; }
    if (v143 == v162) { v195 = v17; v196 = v121; goto v20; }
    if (v161 == 0) { v185 = v162; goto v156; }
    v174 = v162;
v159:;
    u64 v175 = v143 & 0xfffffffffffffffcu;
    v177 = v174;
v176:;
    at(u8x4_1, (v121 + (i64)v142) + v177) = at(u8x4_1, (v14 + (i64)v142) + v177);
    u64 v178 = v177 + 4;
    if (!(v178 == v175)) { v177 = v178; goto v176; }
    if (v143 == v175) { v195 = v17; v196 = v121; goto v20; }
    v185 = v175;
v156:;
    v187 = v185;
v186:;
    at(u8, (v121 + (i64)v142) + v187) = at(u8, (v14 + (i64)v142) + v187);
    u64 v188 = v187 + 1;
    if (v188 == v143) { v195 = v17; v196 = v121; goto v20; }
    v187 = v188; goto v186;
v151:;
    memmove_any(v121 + (i64)v142, v14 + (i64)v142, v143);
    v195 = v17; v196 = v121;
v20:;
    at(u8, v0) = 0;
    at(u64_1, v0 + 8) = v18;
    at(ptr_1, v0 + 16) = v196;
    at(u64_1, v0 + 24) = v195;
    at(u64_1, v0 + 32) = v195;
    return;
v55:;
    at(u8, v0) = 1;
    memset(v0 + 8, 0, 32u);
    return;
}

static void divided_tables_sequence_tables_table_of_a10e(u8 *v0, u8 *v1, u64 v2) {
    u8 v4[1], *v18, *v41, *v83, *v84, *v92, *v93, *v95, *v132, *v142, *v196, *v210, *v222, *v231, *v260, *v267, *v296, *v268, *v223, v321, *v322;
    _Alignas(8) u8 v5[24];
    u64 v13, v16, v22, v32, v33, v39, v45, v55, v56, v85, v94, v96, v97, v114, v115, v133, v134, v145, v151, v162, v163, v180, v181, v197, v198, v211, v212, v225, v227, v229, v235, v246, v247, v261, v262, v270, v272, v274, v297, v298, v273, v312, v226, v228, v323, v324;
    u32 v36, v147;
    if (!(v2 == 0)) goto v8;
    at(u8, v0) = 0;
    at(ptr_1, v0 + 8) = v4;
    memset(v0 + 16, 0, 16u);
    return;
v8:;
    memset(v5, 0, 24u);
    v13 = 0; v16 = v2; v18 = v1;
v12:;
    u32 v20 = at(u32, v18);
    v22 = 0;
v21:;
    u64 v25 = v22 * 12u;
    if (!(at(u32, v18 + (i64)v25) == v20)) { v32 = v25; v33 = v22; goto v15; }
    u64 v23 = v22 + 1;
    if (!(v23 == v16)) { v22 = v23; goto v21; }
    v32 = v16 * 12u; v33 = v16;
v15:;
    u64 v17 = v16 - v33;
    u64 v14 = v13 + 1;
    if (v17 == 0) { v36 = 0; v39 = v2; v41 = v1; } else { v13 = v14; v16 = v17; v18 = v18 + (i64)v32; goto v12; }
v35:;
    u32 v43 = at(u32, v41);
    v45 = 0;
v44:;
    u64 v48 = v45 * 12u;
    if (!(at(u32, v41 + (i64)v48) == v43)) { v55 = v48; v56 = v45; goto v38; }
    u64 v46 = v45 + 1;
    if (!(v46 == v39)) { v45 = v46; goto v44; }
    v55 = v39 * 12u; v56 = v39;
v38:;
    u64 v40 = v39 - v56;
    u32 v37 = v36 + 1;
    if (!(v40 == 0)) { v36 = v37; v39 = v40; v41 = v41 + (i64)v55; goto v35; }
    u64 v62 = ((v2 * 5) + 10u) + (v14 * 15u);
    if (!(v62 == 0)) goto v65;
    at(ptr, v5) = v4;
    memset(v5 + 8, 0, 16u);
    v83 = v5 + 16; v84 = v5 + 8; v85 = 0; goto v68;
v65:;
    if (!((i64)v62 > (i64)0xffffffffffffffffu)) { v321 = 1; v322 = (u8 *)0; v323 = 0; v324 = 0; goto v71; }
    u64_u64 v73 = sys_rattle_alloc(v62, 1);
    if (!(v73._0 & 1)) { v321 = 1; v322 = (u8 *)0; v323 = 0; v324 = 0; goto v71; }
    u8 *v78 = (u8 *)v73._1;
    at(ptr, v5) = v78;
    at(u64, v5 + 8) = 0;
    at(u64, v5 + 16) = v62;
    if (v62 == 1) { v83 = v5 + 16; v84 = v5 + 8; v85 = 1; } else { v92 = v5 + 16; v93 = v5 + 8; v94 = v62; v95 = v78; v96 = v62; v97 = 0; goto v82; }
v68:;
    if (!std_alloc_vec_Vec_grow_amortized_1cf2(v5, 2)) goto v88;
    v92 = v83; v93 = v84; v94 = v85; v95 = at(ptr, v5); v96 = at(u64, v83); v97 = at(u64, v84); goto v82;
v88:;
    if (at(u64, v83) == 0) { v321 = 1; v322 = (u8 *)0; v323 = 0; v324 = 0; goto v71; }
    goto v113;
v82:;
    u64 v98 = v97 + 2;
    at(u16_1, v95 + (i64)v97) = 3584u;
    at(u64, v93) = v98;
    at(u64, v92) = v96;
    u32 v101 = bswap32((u32)v94);
    if (!((v96 - v98) < 4)) { v114 = v96; v115 = v98; goto v105; }
    if (!std_alloc_vec_Vec_grow_amortized_1cf2(v5, 4)) goto v108;
    v114 = at(u64, v92); v115 = at(u64, v93); goto v105;
v108:;
    if (at(u64, v92) == 0) { v321 = 1; v322 = (u8 *)0; v323 = 0; v324 = 0; goto v71; }
    goto v113;
v105:;
    u64 v116 = v115 + 4;
    u8 *v117 = at(ptr, v5);
    at(u32_1, v117 + (i64)v115) = v101;
    at(u64, v93) = v116;
    at(u64, v92) = v114;
    u32 v119 = bswap32(v37);
    if (!((v114 - v116) < 4)) { v132 = v117; v133 = v114; v134 = v116; goto v123; }
    if (!std_alloc_vec_Vec_grow_amortized_1cf2(v5, 4)) goto v126;
    v132 = at(ptr, v5); v133 = at(u64, v92); v134 = at(u64, v93); goto v123;
v126:;
    if (at(u64, v92) == 0) { v321 = 1; v322 = (u8 *)0; v323 = 0; v324 = 0; goto v71; }
    goto v113;
v123:;
    at(u32_1, v132 + (i64)v134) = v119;
    at(u64, v93) = v134 + 4;
    at(u64, v92) = v133;
    v142 = v1; v145 = v2; v147 = (v37 * 11u) + 10u;
v141:;
    u32 v149 = at(u32, v142);
    v151 = 0;
v150:;
    u64 v154 = v151 * 12u;
    if (!(at(u32, v142 + (i64)v154) == v149)) { v162 = v154; v163 = v151; goto v158; }
    u64 v152 = v151 + 1;
    if (!(v152 == v145)) { v151 = v152; goto v150; }
    v162 = v145 * 12u; v163 = v145;
v158:;
    u64 v146 = v145 - v163;
    u8 v165 = (u8)(v149 >> 16u);
    u8 v167 = (u8)(v149 >> 8);
    u8 v168 = (u8)v149;
    u64 v169 = at(u64, v5 + 16);
    u64 v170 = at(u64, v5 + 8);
    if (!((v169 - v170) < 3)) { v180 = v169; v181 = v170; goto v174; }
    if (!std_alloc_vec_Vec_grow_amortized_1cf2(v5, 3)) goto v177;
    v180 = at(u64, v5 + 16); v181 = at(u64, v5 + 8);
v174:;
    u64 v182 = v181 + 3;
    u8 *v183 = at(ptr, v5);
    at(u8, v183 + (i64)v181) = v165;
    at(u8, v183 + (i64)v181 + 1) = v167;
    at(u8, v183 + (i64)v181 + 2) = v168;
    at(ptr, v5) = v183;
    at(u64, v5 + 8) = v182;
    at(u64, v5 + 16) = v180;
    if (!((v180 - v182) < 4)) { v196 = v183; v197 = v180; v198 = v182; goto v190; }
    if (!std_alloc_vec_Vec_grow_amortized_1cf2(v5, 4)) goto v177;
    v196 = at(ptr, v5); v197 = at(u64, v5 + 16); v198 = at(u64, v5 + 8);
v190:;
    u64 v199 = v198 + 4;
    at(u32_1, v196 + (i64)v198) = 0;
    at(ptr, v5) = v196;
    at(u64, v5 + 8) = v199;
    at(u64, v5 + 16) = v197;
    u32 v201 = bswap32(v147);
    if (!((v197 - v199) < 4)) { v210 = v196; v211 = v197; v212 = v199; goto v144; }
    if (!std_alloc_vec_Vec_grow_amortized_1cf2(v5, 4)) goto v177;
    v210 = at(ptr, v5); v211 = at(u64, v5 + 16); v212 = at(u64, v5 + 8); goto v144;
v177:;
    if (at(u64, v92) == 0) { v321 = 1; v322 = (u8 *)0; v323 = 0; v324 = 0; goto v71; }
    goto v113;
v144:;
    u64 v213 = v212 + 4;
    at(u32_1, v210 + (i64)v212) = v201;
    at(ptr, v5) = v210;
    at(u64, v5 + 8) = v213;
    at(u64, v5 + 16) = v211;
    if (v146 == 0) { v222 = v210; v225 = v213; v227 = v211; v229 = v2; v231 = v1; } else { v142 = v142 + (i64)v162; v145 = v146; v147 = (v147 + 4) + (((u32)v163) * 5); goto v141; }
v219:;
    u32 v233 = at(u32, v231);
    v235 = 0;
v234:;
    u64 v238 = v235 * 12u;
    if (!(at(u32, v231 + (i64)v238) == v233)) { v246 = v238; v247 = v235; goto v242; }
    u64 v236 = v235 + 1;
    if (!(v236 == v229)) { v235 = v236; goto v234; }
    v246 = v229 * 12u; v247 = v229;
v242:;
    u64 v230 = v229 - v247;
    u32 v249 = bswap32((u32)v247);
    if (!((v227 - v225) < 4)) { v260 = v222; v261 = v227; v262 = v225; goto v253; }
    if (!std_alloc_vec_Vec_grow_amortized_1cf2(v5, 4)) goto v256;
    v260 = at(ptr, v5); v261 = at(u64, v5 + 16); v262 = at(u64, v5 + 8);
v253:;
    u64 v263 = v262 + 4;
    at(u32_1, v260 + (i64)v262) = v249;
    at(ptr, v5) = v260;
    at(u64, v5 + 8) = v263;
    at(u64, v5 + 16) = v261;
    if (v247 == 0) { v223 = v260; v226 = v263; v228 = v261; goto v224; }
    v267 = v260; v270 = v263; v272 = v261; v274 = 0;
v266:;
    u64 v276 = v274 * 12u;
    u32 v279 = at(u32_1, v231 + (i64)v276 + 4);
    u16 v281 = at(u16_1, v231 + (i64)v276 + 8);
    u8 v283 = (u8)(v279 >> 16u);
    u8 v285 = (u8)(v279 >> 8);
    u8 v286 = (u8)v279;
    if (!((v272 - v270) < 3)) { v296 = v267; v297 = v272; v298 = v270; goto v290; }
    if (!std_alloc_vec_Vec_grow_amortized_1cf2(v5, 3)) goto v256;
    v296 = at(ptr, v5); v297 = at(u64, v5 + 16); v298 = at(u64, v5 + 8);
v290:;
    u64 v299 = v298 + 3;
    at(u8, v296 + (i64)v298) = v283;
    at(u8, v296 + (i64)v298 + 1) = v285;
    at(u8, v296 + (i64)v298 + 2) = v286;
    at(ptr, v5) = v296;
    at(u64, v5 + 8) = v299;
    at(u64, v5 + 16) = v297;
    u16 v303 = bswap16(v281);
    if (!((v297 - v299) < 2)) { v268 = v296; v273 = v297; v312 = v299; goto v269; }
    if (!std_alloc_vec_Vec_grow_amortized_1cf2(v5, 2)) goto v256;
    v268 = at(ptr, v5); v273 = at(u64, v5 + 16); v312 = at(u64, v5 + 8); goto v269;
v256:;
    if (at(u64, v92) == 0) { v321 = 1; v322 = (u8 *)0; v323 = 0; v324 = 0; goto v71; }
v113:;
    sys_rattle_dealloc(at(ptr, v5));
    v321 = 1; v322 = (u8 *)0; v323 = 0; v324 = 0; goto v71;
v269:;
    u64 v271 = v312 + 2;
    at(u16_1, v268 + (i64)v312) = v303;
    at(ptr, v5) = v268;
    at(u64, v5 + 8) = v271;
    at(u64, v5 + 16) = v273;
    u64 v275 = v274 + 1;
    if (v275 == v247) { v223 = v268; v226 = v271; v228 = v273; } else { v267 = v268; v270 = v271; v272 = v273; v274 = v275; goto v266; }
v224:;
    if (v230 == 0) { v321 = 0; v322 = v223; v323 = v226; v324 = v228; } else { v222 = v223; v225 = v226; v227 = v228; v229 = v230; v231 = v231 + (i64)v246; goto v219; }
v71:;
    at(u8, v0) = v321;
    at(ptr_1, v0 + 8) = v322;
    at(u64_1, v0 + 16) = v323;
    at(u64_1, v0 + 24) = v324;
    return;
}

void divided_tables_sequence_union_UnionPairsIterator_next_73ab(u8 *v0, u8 *v1) {
    _Alignas(4) u8 v3[12], v4[12];
    u64 v20, v36, v54, v109, v115, v121;
    flag v107, v108;
    u8 *v110, *v116, *v122;
    memset(v3, 0, 12u);
    memset(v4, 0, 12u);
    u8 *v6 = at(ptr_1, v1 + 8);
    u64 v8 = at(u64_1, v1 + 16);
    u8 *v9 = at(ptr, v1);
    if (v8 == 0) { v36 = 0; goto v11; }
    u8 *v13 = at(ptr, v9);
    u16 v17 = at(u16, at(ptr, v13 + 8) + 64);
    v20 = 0;
v19:;
    u16 v26 = at(u16_1, v6 + (i64)(v20 * 12u) + 8);
    if (!(v26 < v17)) goto v22;
    if (at(u8, at(ptr, v13 + 712) + (i64)(((u64)v26) * 24u)) & 1) { v36 = v20; goto v11; }
v22:;
    u64 v21 = v20 + 1;
    if (v21 == v8) v36 = v8; else { v20 = v21; goto v19; }
v11:;
    u64 v37 = v36 * 12u;
    u64 v39 = v8 - v36;
    u8 *v41 = at(ptr_1, v1 + 24);
    u64 v43 = at(u64_1, v1 + 32);
    if (v43 == 0) goto v45;
    u8 *v47 = at(ptr, v9);
    u16 v51 = at(u16, at(ptr, v47 + 8) + 64);
    v54 = 0;
v53:;
    u16 v60 = at(u16_1, v41 + (i64)(v54 * 12u) + 8);
    if (!(v60 < v51)) goto v63;
    if (!(at(u8, at(ptr, v47 + 712) + (i64)(((u64)v60) * 24u)) & 1)) goto v63;
    u64 v55 = v54 + 1;
    if (!(v55 == v43)) { v54 = v55; goto v53; }
v45:;
    v107 = 1; v108 = v8 == v36; v109 = 0; v110 = v41 + (i64)(v43 * 12u); goto v74;
v63:;
    u64 v75 = v54 * 12u;
    u64 v77 = v43 - v54;
    flag v78 = v8 == v36;
    flag v79 = v43 == v54;
    if (v78 | v79) { v107 = v79; v108 = v78; v109 = v77; v110 = v41 + (i64)v75; } else goto v81;
v74:;
    if (!(v107 | (!v108))) { v121 = v109; v122 = v110; goto v106; }
    if (!v108) { v115 = v109; v116 = v110; goto v105; }
    memset(v0, 0, 16u);
    return;
v81:;
    u64 v95 = (((u64)at(u32_1, v6 + (i64)v37)) * 1114112u) + ((u64)at(u32_1, v6 + (i64)v37 + 4));
    u64 v99 = (((u64)at(u32_1, v41 + (i64)v75)) * 1114112u) + ((u64)at(u32_1, v41 + (i64)v75 + 4));
    if ((v95 < v99) ? 1 : ((v95 == v99) ? (at(u16_1, v6 + (i64)v37 + 8) <= at(u16_1, v41 + (i64)v75 + 8)) : 0)) { v115 = v77; v116 = v41 + (i64)v75; } else { v121 = v77; v122 = v41 + (i64)v75; goto v106; }
v105:;
    at(ptr_1, v1 + 8) = v6 + (i64)v37 + 12;
    at(u64_1, v1 + 16) = v39 - 1;
    at(ptr_1, v1 + 24) = v116;
    at(u64_1, v1 + 32) = v115;
    memcpy(v3, v6 + (i64)v37, 12u);
    at(u32_1, v0) = 1;
    memcpy(v0 + 4, v3, 12u);
    return;
v106:;
    at(ptr_1, v1 + 8) = v6 + (i64)v37;
    at(u64_1, v1 + 16) = v39;
    at(ptr_1, v1 + 24) = v122 + 12;
    at(u64_1, v1 + 32) = v121 - 1;
    memmove(v4, v122, 12u);
    at(u32_1, v0) = 1;
    memcpy(v0 + 4, v4, 12u);
    return;
}

static void divided_tables_sequence_union_UnionPairsIterator_next_ec12(u8 *v0, u8 *v1) {
    _Alignas(4) u8 v3[12], v4[12];
    u64 v20, v35, v53, v107, v113, v119;
    flag v105, v106;
    u8 *v108, *v114, *v120;
    memset(v3, 0, 12u);
    memset(v4, 0, 12u);
    u8 *v6 = at(ptr_1, v1 + 8);
    u64 v8 = at(u64_1, v1 + 16);
    u8 *v9 = at(ptr, v1);
    if (v8 == 0) { v35 = 0; goto v11; }
    u8 *v13 = at(ptr, v9);
    u16 v17 = at(u16, at(ptr, v13 + 8) + 64);
    v20 = 0;
v19:;
    u16 v26 = at(u16_1, v6 + (i64)(v20 * 12u) + 8);
    if (!(v26 < v17)) goto v22;
    if (at(u8, at(ptr, v13 + 168) + (i64)((u64)v26)) & 1) { v35 = v20; goto v11; }
v22:;
    u64 v21 = v20 + 1;
    if (v21 == v8) v35 = v8; else { v20 = v21; goto v19; }
v11:;
    u64 v36 = v35 * 12u;
    u64 v38 = v8 - v35;
    u8 *v40 = at(ptr_1, v1 + 24);
    u64 v42 = at(u64_1, v1 + 32);
    if (v42 == 0) goto v44;
    u8 *v46 = at(ptr, v9);
    u16 v50 = at(u16, at(ptr, v46 + 8) + 64);
    v53 = 0;
v52:;
    u16 v59 = at(u16_1, v40 + (i64)(v53 * 12u) + 8);
    if (!(v59 < v50)) goto v62;
    if (!(at(u8, at(ptr, v46 + 168) + (i64)((u64)v59)) & 1)) goto v62;
    u64 v54 = v53 + 1;
    if (!(v54 == v42)) { v53 = v54; goto v52; }
v44:;
    v105 = 1; v106 = v8 == v35; v107 = 0; v108 = v40 + (i64)(v42 * 12u); goto v72;
v62:;
    u64 v73 = v53 * 12u;
    u64 v75 = v42 - v53;
    flag v76 = v8 == v35;
    flag v77 = v42 == v53;
    if (v76 | v77) { v105 = v77; v106 = v76; v107 = v75; v108 = v40 + (i64)v73; } else goto v79;
v72:;
    if (!(v105 | (!v106))) { v119 = v107; v120 = v108; goto v104; }
    if (!v106) { v113 = v107; v114 = v108; goto v103; }
    memset(v0, 0, 16u);
    return;
v79:;
    u64 v93 = (((u64)at(u32_1, v6 + (i64)v36)) * 1114112u) + ((u64)at(u32_1, v6 + (i64)v36 + 4));
    u64 v97 = (((u64)at(u32_1, v40 + (i64)v73)) * 1114112u) + ((u64)at(u32_1, v40 + (i64)v73 + 4));
    if ((v93 < v97) ? 1 : ((v93 == v97) ? (at(u16_1, v6 + (i64)v36 + 8) <= at(u16_1, v40 + (i64)v73 + 8)) : 0)) { v113 = v75; v114 = v40 + (i64)v73; } else { v119 = v75; v120 = v40 + (i64)v73; goto v104; }
v103:;
    at(ptr_1, v1 + 8) = v6 + (i64)v36 + 12;
    at(u64_1, v1 + 16) = v38 - 1;
    at(ptr_1, v1 + 24) = v114;
    at(u64_1, v1 + 32) = v113;
    memcpy(v3, v6 + (i64)v36, 12u);
    at(u32_1, v0) = 1;
    memcpy(v0 + 4, v3, 12u);
    return;
v104:;
    at(ptr_1, v1 + 8) = v6 + (i64)v36;
    at(u64_1, v1 + 16) = v38;
    at(ptr_1, v1 + 24) = v120 + 12;
    at(u64_1, v1 + 32) = v119 - 1;
    memmove(v4, v120, 12u);
    at(u32_1, v0) = 1;
    memcpy(v0 + 4, v4, 12u);
    return;
}

static void font_layout_entry_read_entry(u8 *v0, u8 *v1, u64 v2, u8 *v3, u16 v4, u64 v5) {
    u64 v82, v84;
    u32 v83;
    u16 v85, v86;
    u64 v9 = at(u64_1, v3 + 8);
    u64 v11 = at(u64_1, v3 + 16);
    switch (at(u8, v3)) {
    case 0: goto v13;
    case 1: goto v14;
    case 2: goto v15;
    case 3: goto v16;
    default: __builtin_trap();
    }
v13:;
    v82 = 0; v83 = 0; v84 = 1; v85 = (u16)(at(u16_1, v3 + 2) + v4); v86 = 0; goto v20;
v14:;
    if (!(v5 < v11)) { v82 = 0; v83 = 0; v84 = 0; v85 = 0; v86 = 3; goto v20; }
    v82 = 0; v83 = 0; v84 = 1; v85 = bswap16(at(u16_1, (v1 + (i64)v9) + (i64)(v5 << 1))); v86 = 0; goto v20;
v15:;
    if (!(v5 < v11)) { v82 = 0; v83 = 0; v84 = 0; v85 = 0; v86 = 3; goto v20; }
    u16 v34 = at(u16_1, (v1 + (i64)v9 + 6) + (i64)(v5 << 1));
    if (v34 == 0) { v82 = 0; v83 = 1; v84 = 0; v85 = 0; v86 = 3; goto v20; }
    u64 v39 = v9 + ((u64)bswap16(v34));
    if (v2 < 2) { v82 = 0; v83 = 1; v84 = 1; v85 = 0; v86 = 3; goto v20; }
    u64 v42 = v2 - 2;
    if (v42 < v39) { v82 = 0; v83 = 1; v84 = 1; v85 = 0; v86 = 3; goto v20; }
    u64 v48 = (u64)bswap16(at(u16_1, v1 + (i64)v39));
    if ((v42 - v39) < (v48 << 1)) { v82 = 0; v83 = 1; v84 = 1; v85 = 0; v86 = 3; goto v20; }
    v82 = v39 + 2; v83 = 1; v84 = v48; v85 = 0; v86 = 1; goto v20;
v16:;
    if (!(v5 < v11)) { v82 = 0; v83 = 0; v84 = 0; v85 = 0; v86 = 3; goto v20; }
    u16 v61 = at(u16_1, (v1 + (i64)v9 + 6) + (i64)(v5 << 1));
    if (v61 == 0) { v82 = 0; v83 = 1; v84 = 0; v85 = 0; v86 = 3; goto v20; }
    u64 v66 = v9 + ((u64)bswap16(v61));
    if (v2 < 2) { v82 = 0; v83 = 1; v84 = 1; v85 = 0; v86 = 3; goto v20; }
    u64 v69 = v2 - 2;
    if (v69 < v66) { v82 = 0; v83 = 1; v84 = 1; v85 = 0; v86 = 3; goto v20; }
    u16 v74 = bswap16(at(u16_1, v1 + (i64)v66));
    u64 v75 = (u64)v74;
    if ((v69 - v66) < (v75 << 1)) { v82 = 0; v83 = 1; v84 = 1; v85 = 0; v86 = 3; goto v20; }
    v82 = v66; v83 = ((u32)v74) + 1; v84 = v75; v85 = 0; v86 = 2;
v20:;
    at(u16_1, v0) = v86;
    at(u16_1, v0 + 2) = v85;
    at(u32_1, v0 + 4) = 0;
    at(u64_1, v0 + 8) = v82;
    at(u64_1, v0 + 16) = v84;
    at(u32_1, v0 + 24) = v83;
    at(u32_1, v0 + 28) = 0;
    return;
}

static void font_layout_layout_Layout_open(u8 *v0, u8 *v1, u64 v2) {
    _Alignas(8) u8 v4[32], v5[24], v7[304];
    _Alignas(4) u8 v6[12];
    u64 v32;
    u32 v78, v81, v83, v86, v173, v182;
    u8 v137, v171, v181;
    u16 v138, v139, v172, v183;
    if (v2 < 10u) goto v9;
    if (!(at(u16_1, v1) == 256u)) goto v9;
    u16 v15 = at(u16_1, v1 + 8);
    if (v15 == 0) { v32 = 0; goto v17; }
    u64 v20 = (u64)bswap16(v15);
    u64 v21 = v2 - 2;
    if (v21 < v20) goto v9;
    u64 v27 = (u64)bswap16(at(u16_1, v1 + (i64)v20));
    flag v30 = (v21 - v20) < (v27 << 1);
    if (v30) goto v9;
    v32 = v30 ? 0 : v27;
v17:;
    u64 v36 = (u64)bswap16(at(u16_1, v1 + 8));
    at(ptr, v7) = v1;
    at(u64, v7 + 8) = v2;
    at(u64, v7 + 16) = v36;
    at(u64, v7 + 24) = 0;
    at(u64, v7 + 32) = v32;
    at(ptr, v7 + 40) = v1;
    at(u64, v7 + 48) = v2;
    memset(v7 + 56, 0, 40u);
    at(ptr, v7 + 96) = v1;
    at(u64, v7 + 104) = v2;
    memset(v7 + 112, 0, 72u);
    at(ptr, v7 + 184) = v1;
    at(u64, v7 + 192) = v2;
    memset(v7 + 200, 0, 48u);
    at(ptr, v7 + 248) = v1;
    at(u64, v7 + 256) = v2;
    at(u64, v7 + 264) = 0;
    at(u16, v7 + 272) = 3;
    memset(v7 + 274, 0, 30u);
    v78 = 1048576u; v81 = 0; v83 = 0;
v77:;
    v86 = v78;
v85:;
    memset(v6, 0, 12u);
    memset(v4, 0, 32u);
    at(u64, v5) = 0;
    u64 v89 = at(u64, v7 + 296);
    if (!(v89 == 0)) goto v92;
    u64 v144 = at(u64, v7 + 240);
    if (!(v144 == 0)) goto v147;
    font_layout_walk_Steps_next_part(v6, v7);
    if (at(u8, v6) == 1) { v181 = at(u8, v6 + 4); v182 = at(u32, v6 + 8); v183 = at(u16, v6 + 6); goto v174; }
    at(u64_1, v0) = 1;
    at(ptr_1, v0 + 8) = v1;
    at(u64_1, v0 + 16) = v2;
    at(u64_1, v0 + 24) = v32;
    at(u32_1, v0 + 32) = v81;
    at(u32_1, v0 + 36) = v83;
    return;
v147:;
    u64 v149 = at(u64, v7 + 232);
    u16 v151 = (u16)(at(u16, v7 + 224) + ((u16)v149));
    u8 *v155 = at(ptr, v7 + 184);
    u64 v156 = at(u64, v7 + 192);
    u64 v154 = v149 + ((u64)at(u16, v7 + 228));
    at(u16, v5) = (u16)at(u8, v7 + 200);
    at(u16, v5 + 2) = at(u16, v7 + 202);
    at(u64, v5 + 8) = at(u64, v7 + 208);
    at(u64, v5 + 16) = at(u64, v7 + 216);
    font_layout_entry_read_entry(v4, v155, v156, v5, v151, v154);
    u16 v163 = at(u16, v4 + 2);
    u64 v164 = at(u64, v4 + 8);
    u64 v165 = at(u64, v4 + 16);
    u16 v166 = (u16)at(u8, v4);
    at(ptr, v7 + 248) = v155;
    at(u64, v7 + 256) = v156;
    at(u16, v7 + 264) = v151;
    memset(v7 + 266, 0, 6);
    at(u16, v7 + 272) = v166;
    at(u16, v7 + 274) = v163;
    at(u32, v7 + 276) = 0;
    at(u64, v7 + 280) = v164;
    at(u64, v7 + 288) = 0;
    at(u64, v7 + 296) = v165;
    at(u64, v7 + 232) = v149 + 1;
    at(u64, v7 + 240) = v144 - 1;
    v171 = 0; v172 = 0; v173 = at(u32, v4 + 24) + 1; goto v143;
v92:;
    u8 *v93 = at(ptr, v7 + 248);
    u64 v94 = at(u64, v7 + 256);
    u16 v95 = at(u16, v7 + 264);
    u64 v98 = at(u64, v7 + 280);
    u64 v99 = at(u64, v7 + 288);
    switch (at(u8, v7 + 272)) {
    case 0: v137 = 1; v138 = at(u16, v7 + 274); v139 = v95; goto v101;
    case 1: goto v102;
    case 2: goto v103;
    case 3: goto v104;
    default: __builtin_trap();
    }
v102:;
    v137 = 1; v138 = bswap16(at(u16_1, (v93 + (i64)v98) + (i64)(v99 << 1))); v139 = v95; goto v101;
v103:;
    u16 v114 = at(u16_1, (v93 + (i64)v98 + 2) + (i64)(v99 << 1));
    if (v114 == 0) { v137 = 0; v138 = 0; v139 = 0; goto v101; }
    u64 v119 = v98 + ((u64)bswap16(v114));
    if (v94 < 4) { v137 = 2; v138 = 0; v139 = 0; goto v101; }
    u64 v122 = v94 - 4;
    if (v122 < v119) { v137 = 2; v138 = 0; v139 = 0; goto v101; }
    if ((v122 - v119) < (usub_sat64((u64)bswap16(at(u16_1, v93 + (i64)v119 + 2)), 1) << 1)) { v137 = 2; v138 = 0; v139 = 0; goto v101; }
    v137 = 1; v138 = bswap16(at(u16_1, v93 + (i64)v119)); v139 = v95; goto v101;
v104:;
    v137 = 2; v138 = 0; v139 = 0;
v101:;
    at(u64, v7 + 288) = v99 + 1;
    at(u64, v7 + 296) = v89 - 1;
    v171 = v137; v172 = v139; v173 = (u32)v138;
v143:;
    v181 = v171; v182 = v173; v183 = v172;
v174:;
    switch (v181) {
    case 0: goto v185;
    case 1: goto v186;
    case 2: goto v187;
    default: __builtin_trap();
    }
v185:;
    if (v86 < v182) goto v187;
    v86 = v86 - v182; goto v85;
v186:;
    if (v86 == 0) goto v187;
    v78 = v86 - 1; v81 = v81 + 1; v83 = umax32(umax32(v83, ((u32)v183) + 1), (v182 & 65535u) + 1); goto v77;
v187:;
    memset(v0, 0, 40u);
    return;
v9:;
    memset(v0, 0, 40u);
    return;
}

static void font_layout_lookup_subtable_read_plain(u8 *v0, u8 *v1, u64 v2, u16 v3, u64 v4, u32 v5) {
    _Alignas(8) u8 v7[32];
    u8 v8[7], v63, v80, v112;
    u16 v64, v79;
    u64 v65, v66, v77, v78, v113, v114;
    if (!(((u16)(v3 + 65531u)) < 2)) goto v12;
    at(u64_1, v0) = 1;
    memset(v0 + 8, 0, 48u);
    at(u32_1, v0 + 56) = v5;
    at(u32_1, v0 + 60) = 0;
    return;
v12:;
    memset(v7 + 8, 0, 24u);
    if ((v2 < 6) | ((v2 - 6) < v4)) goto v22;
    u16 v25 = at(u16_1, v1 + (i64)v4);
    flag v26 = v3 == 1;
    if (!(v26 & (v25 == 512u))) goto v30;
    u64 v34 = (u64)bswap16(at(u16_1, v1 + (i64)v4 + 4));
    if (((v2 - v4) - 6) < (v34 << 1)) goto v22;
    v63 = 1; v64 = 0; v65 = v4 + 6; v66 = v34; goto v41;
v30:;
    if (!(v25 == 256u)) goto v22;
    if (!v26) goto v45;
    v63 = 0; v64 = bswap16(at(u16_1, v1 + (i64)v4 + 4)); v65 = 0; v66 = 0; goto v41;
v45:;
    switch (v3) {
    case 8: goto v49;
    case 2: case 3: case 4: goto v50;
    default: goto v22;
    }
v49:;
    font_layout_rule_read_reverse_rule(v7, v1, v2, v4);
    if (at(u8, v7) == 1) { v77 = at(u64, v7 + 24); v78 = at(u64, v7 + 16); v79 = at(u16, v7 + 10); v80 = at(u8, v7 + 8); goto v67; }
    goto v62;
v50:;
    u64 v54 = (u64)bswap16(at(u16_1, v1 + (i64)v4 + 4));
    if (((v2 - v4) - 6) < (v54 << 1)) goto v22;
    v63 = (v3 == 4) ? 3 : 2; v64 = 0; v65 = v4; v66 = v54;
v41:;
    v77 = v66; v78 = v65; v79 = v64; v80 = v63;
v67:;
    u16 v82 = at(u16_1, v1 + (i64)v4 + 2);
    if (v82 == 0) { v112 = 0; v113 = 0; v114 = 0; goto v84; }
    u64 v88 = v4 + ((u64)bswap16(v82));
    if ((v2 - 4) < v88) goto v91;
    u16 v94 = at(u16_1, v1 + (i64)v88);
    if (!(((u16)(bswap16(v94) + 65535u)) < 2)) goto v91;
    flag v99 = v94 == 512u;
    u64 v104 = (u64)bswap16(at(u16_1, v1 + (i64)v88 + 2));
    if (((v2 - v88) - 4) < ((v99 ? 6 : 2) * v104)) goto v91;
    v112 = (u8)v99; v113 = v88 + 4; v114 = v104;
v84:;
    memset(v8, 0, 7);
    at(u64_1, v0) = 1;
    at(u16_1, v0 + 8) = (u16)v80;
    at(u16_1, v0 + 10) = v79;
    at(u32_1, v0 + 12) = 0;
    at(u64_1, v0 + 16) = v78;
    at(u64_1, v0 + 24) = v77;
    at(u8, v0 + 32) = v112;
    memcpy(v0 + 33, v8, 7);
    at(u64_1, v0 + 40) = v113;
    at(u64_1, v0 + 48) = v114;
    at(u32_1, v0 + 56) = v5 + 1;
    at(u32_1, v0 + 60) = 0;
    return;
v91:;
    memset(v0, 0, 64u);
    return;
v22:;
v62:;
    memset(v0, 0, 64u);
    return;
}

static void font_layout_rule_read_reverse_rule(u8 *v0, u8 *v1, u64 v2, u64 v3) {
    u64 v5 = v3 + 4;
    u64 v6 = v2 - 2;
    if (v6 < v5) goto v8;
    u64 v15 = ((u64)bswap16(at(u16_1, v1 + (i64)v5))) << 1;
    if (!((v6 - v5) < v15)) goto v17;
v8:;
    at(u64_1, v0) = 0;
    at(u16_1, v0 + 8) = 0;
    at(u16_1, v0 + 10) = 0;
    memset(v0 + 16, 0, 16u);
    return;
v17:;
    u64 v19 = (v3 + 6) + v15;
    if (v6 < v19) goto v21;
    u64 v28 = ((u64)bswap16(at(u16_1, v1 + (i64)v19))) << 1;
    if (!((v6 - v19) < v28)) goto v30;
v21:;
    at(u64_1, v0) = 0;
    at(u16_1, v0 + 8) = 0;
    at(u16_1, v0 + 10) = 0;
    memset(v0 + 16, 0, 16u);
    return;
v30:;
    u64 v37 = ((v3 + 8) + v15) + v28;
    if (v6 < v37) goto v39;
    u64 v44 = (u64)bswap16(at(u16_1, v1 + (i64)v37));
    if (!((v6 - v37) < (v44 << 1))) goto v48;
v39:;
    at(u64_1, v0) = 0;
    at(u16_1, v0 + 8) = 0;
    at(u16_1, v0 + 10) = 0;
    memset(v0 + 16, 0, 16u);
    return;
v48:;
    at(u64_1, v0) = 1;
    at(u16_1, v0 + 8) = 1;
    at(u16_1, v0 + 10) = 0;
    at(u64_1, v0 + 16) = v37 + 2;
    at(u64_1, v0 + 24) = v44;
    return;
}

static NOINLINE void font_layout_walk_Steps_next_part(u8 *v0, u8 *v1) {
    _Alignas(8) u8 v3[64], v4[64], v5[32], v6[24], v7[40];
    _Alignas(2) u8 v8[6];
    u16 v343, v168, v169, v170, v68, v69, v70, v126, v127, v294, v295;
    u64 v344, v345, v291;
    u8 v265, v268;
    u32 v128, v296;
    memset(v8, 0, 6);
    memset(v5, 0, 32u);
    at(u64, v6) = 0;
    u64 v14 = at(u64, v1 + 296);
    if (!(v14 == 0)) goto v17;
    u64 v76 = at(u64, v1 + 240);
    if (!(v76 == 0)) goto v79;
    u64 v131 = at(u64, v1 + 176);
    if (!(v131 == 0)) goto v134;
    u64 v201 = at(u64, v1 + 88);
    if (!(v201 == 0)) goto v204;
    u64 v301 = at(u64, v1 + 32);
    if (!(v301 == 0)) goto v304;
    memset(v0, 0, 12u);
    return;
v304:;
    u8 *v305 = at(ptr_1, v1);
    u64 v308 = at(u64, v1 + 16);
    u64 v310 = at(u64, v1 + 24);
    u16 v315 = at(u16_1, (v305 + (i64)v308 + 2) + (i64)(v310 << 1));
    u64 v316 = at(u64, v1 + 8);
    if (v315 == 0) { v343 = 0; v344 = 0; v345 = 0; goto v318; }
    u64 v322 = v308 + ((u64)bswap16(v315));
    u64 v323 = v322 + 4;
    if (v316 < 2) goto v325;
    u64 v327 = v316 - 2;
    if (v327 < v323) goto v325;
    u64 v333 = (u64)bswap16(at(u16_1, v305 + (i64)v323));
    if ((v327 - v323) < (v333 << 1)) goto v325;
    u16 v340 = bswap16(at(u16_1, v305 + (i64)v322));
    if (!(((u16)(v340 + 65527u)) < 65528u)) { v343 = v340; v344 = v322; v345 = v333; goto v318; }
v325:;
    at(u64, v1 + 24) = v310 + 1;
    at(u64, v1 + 32) = v301 - 1;
    at(u32_1, v0) = 1;
    at(u16_1, v0 + 4) = 2;
    at(u16_1, v0 + 6) = 0;
    at(u32_1, v0 + 8) = 0;
    return;
v318:;
    memset(v8, 0, 6);
    at(u64, v1 + 24) = v310 + 1;
    at(u64, v1 + 32) = v301 - 1;
    at(ptr, v1 + 40) = v305;
    at(u64, v1 + 48) = v316;
    at(u16, v1 + 56) = v343;
    memcpy(v1 + 58, v8, 6);
    at(u64, v1 + 64) = v344;
    at(u64, v1 + 72) = v345;
    at(u64, v1 + 80) = 0;
    at(u64, v1 + 88) = v345;
    at(ptr, v1 + 96) = v305;
    at(u64, v1 + 104) = v316;
    memset(v1 + 112, 0, 72u);
    at(ptr, v1 + 184) = v305;
    at(u64, v1 + 192) = v316;
    memset(v1 + 200, 0, 48u);
    at(ptr, v1 + 248) = v305;
    at(u64, v1 + 256) = v316;
    at(u64, v1 + 264) = 0;
    at(u16, v1 + 272) = 3;
    memset(v1 + 274, 0, 30u);
    at(u32_1, v0) = 1;
    at(u16_1, v0 + 4) = 0;
    at(u16_1, v0 + 6) = 0;
    at(u32_1, v0 + 8) = 1;
    return;
v204:;
    u8 *v205 = at(ptr_1, v1 + 40);
    u64 v209 = at(u64, v1 + 64);
    u64 v211 = at(u64, v1 + 80);
    u16 v216 = at(u16_1, (v205 + (i64)v209 + 6) + (i64)(v211 << 1));
    u64 v217 = at(u64, v1 + 48);
    u16 v218 = at(u16, v1 + 56);
    memset(v4, 0, 64u);
    if (!(v216 == 0)) goto v221;
    at(u64, v1 + 80) = v211 + 1;
    at(u64, v1 + 88) = v201 - 1;
    v291 = 1; goto v224;
v221:;
    u64 v227 = v209 + ((u64)bswap16(v216));
    if (!(v218 == 7)) goto v230;
    memset(v3, 0, 64u);
    if ((v217 < 8) | ((v217 - 8) < v227)) goto v235;
    if (!(at(u16_1, v205 + (i64)v227) == 256u)) goto v235;
    u16 v243 = at(u16_1, v205 + (i64)v227 + 2);
    u16 v244 = bswap16(v243);
    if (!((v243 == 1792u) | (((u16)(v244 + 65527u)) < 65528u))) goto v250;
    memset(v4, 0, 64u);
    v265 = 0; goto v241;
v250:;
    u32 v252 = at(u32_1, v205 + (i64)v227 + 4);
    if (!(v252 == 0)) goto v255;
    memset(v3 + 8, 0, 48u);
    at(u32, v3 + 56) = 2;
    memcpy(v4 + 8, v3 + 8, 56u);
    v265 = 1; goto v241;
v255:;
    font_layout_lookup_subtable_read_plain(v3, v205, v217, v244, v227 + ((u64)bswap32(v252)), 2);
    u8 v262 = at(u8, v3);
    memcpy(v4 + 8, v3 + 8, 56u);
    v265 = v262; goto v241;
v235:;
    memset(v4, 0, 64u);
    v265 = 0;
v241:;
    v268 = v265; goto v266;
v230:;
    font_layout_lookup_subtable_read_plain(v4, v205, v217, v218, v227, 1);
    v268 = at(u8, v4);
v266:;
    u64 v271 = at(u64, v4 + 56);
    memcpy(v7, v4 + 8, 40u);
    u64 v273 = at(u64, v4 + 48);
    at(u64, v1 + 80) = v211 + 1;
    at(u64, v1 + 88) = v201 - 1;
    if (!(v268 == 1)) { v294 = 2; v295 = 0; v296 = 0; goto v129; }
    if (v273 == 0) { v291 = v271; goto v224; }
    at(ptr_1, v1 + 96) = v205;
    at(u64_1, v1 + 104) = v217;
    memcpy(v1 + 112, v7, 40u);
    at(u64_1, v1 + 152) = v273;
    at(u64_1, v1 + 160) = v271;
    at(u64_1, v1 + 168) = 0;
    at(u64_1, v1 + 176) = v273;
    at(ptr_1, v1 + 184) = v205;
    at(u64_1, v1 + 192) = v217;
    memset(v1 + 200, 0, 48u);
    at(ptr_1, v1 + 248) = v205;
    at(u64_1, v1 + 256) = v217;
    at(u64_1, v1 + 264) = 0;
    at(u16_1, v1 + 272) = 3;
    memset(v1 + 274, 0, 30u);
    v291 = v271;
v224:;
    v294 = 0; v295 = 0; v296 = (u32)v291; goto v129;
v134:;
    u8 *v135 = at(ptr_1, v1 + 96);
    u64 v142 = at(u64, v1 + 168);
    u64 v140 = at(u64_1, v1 + 144);
    if (!(at(u8, v1 + 136) & 1)) goto v146;
    u64 v155 = v142 * 6;
    u16 v158 = bswap16(at(u16_1, (v135 + (i64)v140) + (i64)v155));
    u16 v161 = bswap16(at(u16_1, (v135 + (i64)v140) + (i64)v155 + 2));
    u16 v164 = bswap16(at(u16_1, (v135 + (i64)v140) + (i64)v155 + 4));
    at(u64, v1 + 168) = v142 + 1;
    at(u64, v1 + 176) = v131 - 1;
    if (v158 > v161) { v294 = 0; v295 = 0; v296 = 1; goto v129; }
    v168 = v164; v169 = v161; v170 = v158; goto v154;
v146:;
    u16 v150 = bswap16(at(u16_1, (v135 + (i64)v140) + (i64)(v142 << 1)));
    at(u64, v1 + 168) = v142 + 1;
    at(u64, v1 + 176) = v131 - 1;
    v168 = (u16)v142; v169 = v150; v170 = v150;
v154:;
    u64 v172 = at(u64_1, v1 + 104);
    u16 v174 = (u16)at(u8, v1 + 112);
    u16 v176 = at(u16_1, v1 + 114);
    u64 v178 = at(u64_1, v1 + 120);
    u64 v180 = at(u64_1, v1 + 128);
    at(ptr_1, v1 + 184) = v135;
    at(u64_1, v1 + 192) = v172;
    at(u16_1, v1 + 200) = v174;
    at(u16_1, v1 + 202) = v176;
    at(u32_1, v1 + 204) = 0;
    at(u64_1, v1 + 208) = v178;
    at(u64_1, v1 + 216) = v180;
    at(u16_1, v1 + 224) = v170;
    at(u16_1, v1 + 226) = v169;
    at(u16_1, v1 + 228) = v168;
    at(u16_1, v1 + 230) = 0;
    at(u64_1, v1 + 232) = 0;
    at(u64_1, v1 + 240) = usub_sat64(((u64)v169) + 1, (u64)v170);
    at(ptr_1, v1 + 248) = v135;
    at(u64_1, v1 + 256) = v172;
    at(u64_1, v1 + 264) = 0;
    at(u16_1, v1 + 272) = 3;
    memset(v1 + 274, 0, 30u);
    v294 = 0; v295 = 0; v296 = 1; goto v129;
v79:;
    u64 v83 = at(u64, v1 + 232);
    u16 v85 = (u16)(at(u16, v1 + 224) + ((u16)v83));
    u8 *v90 = at(ptr, v1 + 184);
    u64 v92 = at(u64, v1 + 192);
    u64 v89 = v83 + ((u64)at(u16, v1 + 228));
    at(u16, v6) = (u16)at(u8, v1 + 200);
    at(u16, v6 + 2) = at(u16, v1 + 202);
    at(u64, v6 + 8) = at(u64, v1 + 208);
    at(u64, v6 + 16) = at(u64, v1 + 216);
    font_layout_entry_read_entry(v5, v90, v92, v6, v85, v89);
    u16 v107 = at(u16, v5 + 2);
    u64 v109 = at(u64, v5 + 8);
    u64 v111 = at(u64, v5 + 16);
    u16 v112 = (u16)at(u8, v5);
    at(ptr, v1 + 248) = v90;
    at(u64, v1 + 256) = v92;
    at(u16, v1 + 264) = v85;
    memset(v1 + 266, 0, 6);
    at(u16, v1 + 272) = v112;
    at(u16, v1 + 274) = v107;
    at(u32, v1 + 276) = 0;
    at(u64, v1 + 280) = v109;
    at(u64, v1 + 288) = 0;
    at(u64, v1 + 296) = v111;
    at(u64, v1 + 232) = v83 + 1;
    at(u64, v1 + 240) = v76 - 1;
    v126 = 0; v127 = 0; v128 = at(u32, v5 + 24) + 1; goto v74;
v17:;
    u8 *v18 = at(ptr_1, v1 + 248);
    u64 v20 = at(u64_1, v1 + 256);
    u16 v22 = at(u16, v1 + 264);
    u64 v28 = at(u64_2, v1 + 280);
    u64 v30 = at(u64, v1 + 288);
    switch (at(u8, v1 + 272)) {
    case 0: v68 = 1; v69 = at(u16, v1 + 274); v70 = v22; goto v32;
    case 1: goto v33;
    case 2: goto v34;
    case 3: goto v35;
    default: __builtin_trap();
    }
v33:;
    v68 = 1; v69 = bswap16(at(u16_1, (v18 + (i64)v28) + (i64)(v30 << 1))); v70 = v22; goto v32;
v34:;
    u16 v45 = at(u16_1, (v18 + (i64)v28 + 2) + (i64)(v30 << 1));
    if (v45 == 0) { v68 = 0; v69 = 0; v70 = 0; goto v32; }
    u64 v50 = v28 + ((u64)bswap16(v45));
    if (v20 < 4) { v68 = 2; v69 = 0; v70 = 0; goto v32; }
    u64 v53 = v20 - 4;
    if (v53 < v50) { v68 = 2; v69 = 0; v70 = 0; goto v32; }
    if ((v53 - v50) < (usub_sat64((u64)bswap16(at(u16_1, v18 + (i64)v50 + 2)), 1) << 1)) { v68 = 2; v69 = 0; v70 = 0; goto v32; }
    v68 = 1; v69 = bswap16(at(u16_1, v18 + (i64)v50)); v70 = v22; goto v32;
v35:;
    v68 = 2; v69 = 0; v70 = 0;
v32:;
    at(u64, v1 + 288) = v30 + 1;
    at(u64, v1 + 296) = v14 - 1;
    v126 = v68; v127 = v70; v128 = (u32)v69;
v74:;
    v294 = v126; v295 = v127; v296 = v128;
v129:;
    at(u32_1, v0) = 1;
    at(u16_1, v0 + 4) = v294;
    at(u16_1, v0 + 6) = v295;
    at(u32_1, v0 + 8) = v296;
    return;
}

void font_subset_accepted_copied(u8 *v0, u8 *v1, u64 v2) {
    _Alignas(4) u8 v4[64];
    u64 v44, v76, v78;
    u8 *v77;
    switch (v2) {
    case 1: case 5: case 6: case 9: goto v6;
    default: goto v5;
    }
v5:;
    if (v2 > 15u) goto v6;
    u8 *v10 = at(ptr_1, v1);
    at(u32, v4) = 841962319u;
    at(u32, v4 + 4) = 1885433187u;
    at(u32, v4 + 8) = 544503395u;
    at(u32, v4 + 12) = 1835495526u;
    at(u32, v4 + 16) = 1886609767u;
    at(u32, v4 + 20) = 1719233639u;
    at(u32, v4 + 24) = 1684104552u;
    at(u32, v4 + 28) = 1634035816u;
    at(u32, v4 + 32) = 2020896104u;
    at(u32, v4 + 36) = 1633906540u;
    at(u32, v4 + 40) = 1886937453u;
    at(u32, v4 + 44) = 1701667182u;
    at(u32, v4 + 48) = 1953722224u;
    at(u32, v4 + 52) = 1885696624u;
    at(u32, v4 + 56) = 1634035830u;
    at(u32, v4 + 60) = 2020896118u;
    u32 v28 = at(u32, v4 + (v2 << 2));
    u16 v30 = at(u16_1, v10 + 4);
    u64 v32 = (u64)bswap16(v30);
    if (v30 == 0) { v76 = 0; v77 = (u8 *)0; v78 = 0; goto v34; }
    u8 v36 = (u8)v28;
    u8 v38 = (u8)(v28 >> 16u);
    u8 v40 = (u8)(v28 >> 8);
    v44 = 0;
v41:;
    u64 v46 = v44 << 4;
    if (!((((at(u8, v10 + (i64)v46 + 12) == v36) ? (at(u8, v10 + (i64)v46 + 13) == v40) : 0) ? (at(u8, v10 + (i64)v46 + 14) == v38) : 0) ? (((((u32)at(u8, v10 + (i64)v46 + 15)) << 24u) ^ v28) < 16777216u) : 0)) goto v42;
    v76 = 1; v77 = v10 + (i64)((u64)bswap32(at(u32_1, v10 + (i64)v46 + 20))); v78 = (u64)bswap32(at(u32_1, v10 + (i64)v46 + 24)); goto v34;
v42:;
    u64 v43 = v44 + 1;
    if (v43 == v32) { v76 = 0; v77 = (u8 *)0; v78 = 0; } else { v44 = v43; goto v41; }
v34:;
    at(u64_1, v0) = v76;
    at(ptr_1, v0 + 8) = v77;
    at(u64_1, v0 + 16) = v78;
    return;
v6:;
    memset(v0, 0, 24u);
    return;
}

void font_subset_cut_font_cut_of_kind(u8 *v0, u8 *v1, u8 *v2) {
    u8 v4[1], v6[1024], v8[1024], v29[359], *v135, *v167, *v211, *v249, *v261, *v279, *v212, *v339, *v377, v409, v410, v411, v412, v413, v414, v416, v417, v418, v419, v420, v421, *v436, *v495, *v602, *v667, *v715, *v716, *v720, *v727, *v603, *v791, *v808, *v855, *v868, *v897, *v914, *v964, *v992, *v1104, *v1112, *v1113;
    _Alignas(8) u8 v5[160], v9[56], v10[24], v14[32], v15[24], v16[24], v17[384], v18[384], v19[360], v20[200], v21[144], v22[24], v23[16], v24[144], v25[352], v26[152], v27[40], v28[24];
    _Alignas(4) u8 v7[16], v11[64], v12[20], v13[32];
    u16 v154, v155, v156, v609, v1121, v1123;
    u64 v168, v169, v214, v216, v220, v262, v263, v280, v281, v215, v217, v342, v344, v346, v1170, v1171, v1194, v1205, v1208, v1216, v1218, v378, v425, v437, v438, v449, v466, v478, v479, v496, v497, v519, v530, v533, v541, v543, v567, v574, v587, v590, v597, v605, v607, v611, v653, v654, v668, v669, v691, v702, v705, v713, v721, v717, v718, v719, v728, v729, v730, v608, v744, v760, v767, v780, v783, v612, v792, v793, v809, v810, v825, v856, v869, v870, v880, v898, v899, v915, v916, v934, v940, v931, v947, v965, v966, v974, v993, v994, v1017, v1028, v1031, v1039, v1041, v1059, v1066, v1079, v1082, v1089, v1105, v1106, v1115, v1117, v1118, v1140, v1148, v1149, v1225, v1226, v345, v1242, v1248, v1249, v1250, v1251, v1288, v1289, v1290, v1291;
    u32 v218, v415, v422, v423, v424, v442, v446, v443, v1119;
    u8x16 v576, v769, v1068;
    u8 v30 = at(u8, v2);
    memcpy(v23, v2 + 8, 16u);
    memset(v25, 0, 352u);
    memset(v26, 0, 152u);
    memset(v27, 0, 40u);
    memset(v29, 0, 359u);
    font_subset_selection_Seeds_of(v26, at(ptr, v1 + 8), 0, (u8 *)0);
    u64 v36 = at(u64, v26 + 120);
    if (!(at(u8, v26) == 0)) { v1288 = 1; v1289 = 0; v1290 = 0; v1291 = 0; goto v39; }
    u64 v45 = (u64)at(u8, v26 + 112);
    memcpy(v24, v26 + 8, 104u);
    at(u64, v24 + 104) = v45;
    at(u64, v24 + 112) = v36;
    memcpy(v24 + 120, v26 + 128, 24u);
    at(u64, v28) = (u64)v30;
    memcpy(v28 + 8, v23, 16u);
    font_subset_font_to_cut_FontToCut_numbers_beside_19bd(v27, v1, v24, v28);
    if (!(at(u8, v27) == 0)) goto v53;
    u8 v55 = at(u8, v27 + 8);
    u8 *v57 = at(ptr, v27 + 16);
    u64 v61 = at(u64, v27 + 32);
    flag v63 = v55 != 1;
    u64 v65 = v63 ? 0 : at(u64, v27 + 24);
    memset(v19, 0, 360u);
    memset(v20, 0, 200u);
    memcpy(v21, v26 + 8, 104u);
    at(u64, v21 + 104) = v45;
    at(u64, v21 + 112) = v36;
    memcpy(v21 + 120, v26 + 128, 24u);
    at(u64, v22) = (u64)v55;
    at(ptr, v22 + 8) = v63 ? ((u8 *)0) : v57;
    at(u64, v22 + 16) = v65;
    font_subset_selection_Selection_of_seeds_4cdf(v20, v1, v21, v22);
    if (!(at(u8, v20) == 0)) goto v74;
    font_subset_kind_source_CutOfKind_of_1490(v19, v20 + 8);
    u8 v77 = at(u8, v19);
    memcpy(v29 + 7, v19 + 8, 352u);
    if (!(v77 == 0)) goto v75;
    memcpy(v25, v29 + 7, 352u);
    memset(v17, 0, 384u);
    memset(v15, 0, 24u);
    font_write_size_file_size_22d8(v15, v25);
    u64 v110 = at(u64, v15 + 16);
    if (!(v110 > 134217728u)) goto v113;
    v1248 = 1; v1249 = 1; v1250 = v110; v1251 = 0; goto v1246;
v113:;
    u64 v114 = at(u64, v15);
    memcpy(v16 + 8, v15 + 8, 16u);
    at(u64, v16) = v114;
    font_write_plan_plan_of(v17, v25, 1, v16);
    u64 v118 = at(u64, v16 + 16);
    u64 v119 = at(u64, v17);
    memcpy(v18 + 8, v17 + 8, 376u);
    at(u64, v18) = v119;
    if (v118 == 0) { v135 = v4; goto v123; }
    if (!((i64)v118 > (i64)0xffffffffffffffffu)) goto v127;
    u64_u64 v129 = sys_rattle_alloc(v118, 1);
    if (!(v129._0 & 1)) goto v127;
    v135 = (u8 *)v129._1;
v123:;
    at(ptr, v14) = v135;
    at(u64, v14 + 8) = 0;
    at(u64, v14 + 16) = v118;
    at(u64, v14 + 24) = (u64)134217728u - v118;
    u16 v141 = at(u16, v18 + 352);
    if (!(((u16)(v141 + 65535u)) < 4095u)) { v154 = 0; v155 = 0; v156 = 0; goto v145; }
    u16 v147 = (u16)(ctlz16(v141) ^ 15u);
    u16 v148 = (u16)((u32)16u << (v147 & 31));
    v154 = bswap16((u16)(((u16)((u32)v141 << 4)) - v148)); v155 = (u16)((u32)v147 << 8); v156 = bswap16(v148);
v145:;
    u16 v157 = bswap16(v141);
    if (!(v118 < 12u)) { v167 = v135; v168 = v118; v169 = 0; goto v160; }
    if (!std_alloc_vec_Vec_grow_amortized_1cf2(v14, 12u)) goto v163;
    v167 = at(ptr, v14); v168 = at(u64, v14 + 16); v169 = at(u64, v14 + 8); goto v160;
v163:;
    __builtin_trap();
    __builtin_trap();
v160:;
    at(u8, v167 + (i64)v169) = 0;
    at(u8, v167 + (i64)v169 + 1) = 1;
    at(u8, v167 + (i64)v169 + 2) = 0;
    at(u8, v167 + (i64)v169 + 3) = 0;
    at(u16_1, v167 + (i64)v169 + 4) = v157;
    at(u16_1, v167 + (i64)v169 + 6) = v156;
    at(u16_1, v167 + (i64)v169 + 8) = v155;
    at(u16_1, v167 + (i64)v169 + 10) = v154;
    u64 v178 = v169 + 12u;
    at(ptr, v14) = v167;
    at(u64, v14 + 8) = v178;
    at(u64, v14 + 16) = v168;
    v211 = v167; v214 = v178; v216 = v168; v218 = (((u32)at(u16, v18 + 352)) << 4) | 12u; v220 = 0;
v210:;
    u64 v222 = v220 * 12u;
    u32 v226 = at(u32, (v18 + 4) + v222 + 4);
    u32 v228 = at(u32, (v18 + 4) + v222 + 8);
    if (!(at(u8, (v18 + 4) + v222) & 1)) { v212 = v211; v215 = v214; v217 = v216; goto v213; }
    u64 v233 = at(u64, (u8 *)table_faed1f12 + (v220 << 3));
    if (!(v233 < 16u)) goto v236;
    at(u32, v11) = 841962319u;
    at(u32, v11 + 4) = 1885433187u;
    at(u32, v11 + 8) = 544503395u;
    at(u32, v11 + 12) = 1835495526u;
    at(u32, v11 + 16) = 1886609767u;
    at(u32, v11 + 20) = 1719233639u;
    at(u32, v11 + 24) = 1684104552u;
    at(u32, v11 + 28) = 1634035816u;
    at(u32, v11 + 32) = 2020896104u;
    at(u32, v11 + 36) = 1633906540u;
    at(u32, v11 + 40) = 1886937453u;
    at(u32, v11 + 44) = 1701667182u;
    at(u32, v11 + 48) = 1953722224u;
    at(u32, v11 + 52) = 1885696624u;
    at(u32, v11 + 56) = 1634035830u;
    at(u32, v11 + 60) = 2020896118u;
    v249 = v11 + (v233 << 2); goto v239;
v236:;
    if (!(v233 < 21u)) goto v242;
    at(u32, v12) = 1163084098u;
    at(u32, v12 + 4) = 1178944583u;
    at(u32, v12 + 8) = 1397706823u;
    at(u32, v12 + 12) = 1112888135u;
    at(u32, v12 + 16) = 1852990827u;
    v249 = v12 + (i64)(v233 << 2) - 64; goto v239;
v242:;
    at(u32, v13) = 1380013640u;
    at(u32, v13 + 4) = 1380013645u;
    at(u32, v13 + 8) = 1413567571u;
    at(u32, v13 + 12) = 1380013654u;
    at(u32, v13 + 16) = 1918989921u;
    at(u32, v13 + 20) = 1918989923u;
    at(u32, v13 + 24) = 1918989926u;
    at(u32, v13 + 28) = 1918989927u;
    v249 = v13 + (i64)(v233 << 2) - 84;
v239:;
    u32 v250 = at(u32_1, v249);
    if (!((v216 - v214) < 4)) { v261 = v211; v262 = v216; v263 = v214; goto v254; }
    if (!std_alloc_vec_Vec_grow_amortized_1cf2(v14, 4)) goto v257;
    v261 = at(ptr, v14); v262 = at(u64, v14 + 16); v263 = at(u64, v14 + 8); goto v254;
v257:;
    __builtin_trap();
    __builtin_trap();
v254:;
    at(u32_1, v261 + (i64)v263) = v250;
    u64 v265 = v263 + 4;
    at(ptr, v14) = v261;
    at(u64, v14 + 8) = v265;
    at(u64, v14 + 16) = v262;
    u32 v266 = bswap32(v228);
    u32 v267 = bswap32(v218);
    u32 v268 = bswap32(v226);
    if (!((v262 - v265) < 12u)) { v279 = v261; v280 = v262; v281 = v265; goto v272; }
    if (!std_alloc_vec_Vec_grow_amortized_1cf2(v14, 12u)) goto v275;
    v279 = at(ptr, v14); v280 = at(u64, v14 + 16); v281 = at(u64, v14 + 8); goto v272;
v275:;
    __builtin_trap();
    __builtin_trap();
v272:;
    at(u32_1, v279 + (i64)v281) = v266;
    at(u32_1, v279 + (i64)v281 + 4) = v267;
    at(u32_1, v279 + (i64)v281 + 8) = v268;
    u64 v285 = v281 + 12u;
    at(ptr, v14) = v279;
    at(u64, v14 + 8) = v285;
    at(u64, v14 + 16) = v280;
    v212 = v279; v215 = v285; v217 = v280;
v213:;
    u64 v221 = v220 + 1;
    if (!(v221 == 29u)) { v211 = v212; v214 = v215; v216 = v217; v218 = (v226 + v218) + (((u32)0 - v226) & 3); v220 = v221; goto v210; }
    u64 v294 = (u64)v6;
    v339 = v212; v342 = v215; v344 = v217; v346 = 0;
v338:;
    u64 v350 = at(u64, (u8 *)table_faed1f12 + (v346 << 3));
    memset(v10, 0, 24u);
    switch (v350) {
    case 1: goto v352;
    case 5: goto v353;
    case 6: goto v354;
    case 9: goto v355;
    default: goto v351;
    }
v351:;
    font_subset_kind_source_CutOfKindSource_copied(v10, v25, v350);
    if (!(at(u8, v10) == 1)) goto v1153;
    u8 *v1156 = at(ptr, v10 + 8);
    u64 v1157 = (u64)v1156;
    u64 v1158 = at(u64, v10 + 16);
    u64 v1159 = at(u64, v14 + 16);
    u64 v1160 = at(u64, v14 + 8);
    if (!(v1158 > (v1159 - v1160))) { v1170 = v1159; v1171 = v1160; goto v1164; }
    if (!std_alloc_vec_Vec_grow_amortized_1cf2(v14, v1158)) goto v1167;
    v1170 = at(u64, v14 + 16); v1171 = at(u64, v14 + 8); goto v1164;
v1167:;
    __builtin_trap();
    __builtin_trap();
v1164:;
    u8 *v1172 = at(ptr, v14);
    u64 v1173 = (u64)v1172;
    memset(v14 + 8, 0, 16u);
    if (!((((u64)(v1172 + (i64)v1171)) - ((u64)v1156)) < v1158)) goto v1180;
    if (v1158 < 4) { v1216 = 0; goto v1182; }
    if (((v1171 + v1173) - v1157) < 32u) { v1216 = 0; goto v1182; }
    if (v1158 < 16u) { v1205 = 0; goto v1189; }
    u64 v1191 = v1158 & 12u;
    u64 v1192 = v1158 & 0xfffffffffffffff0u;
    v1194 = 0;
v1193:;
    at(u8x16_1, (v1172 + (i64)v1171) + v1194) = at(u8x16_1, v1156 + v1194);
    u64 v1195 = v1194 + 16u;
    if (!(v1195 == v1192)) { v1194 = v1195; goto v1193; }
    if (v1158 == v1192) goto v1202;
    if (v1191 == 0) { v1216 = v1192; goto v1182; }
    v1205 = v1192;
v1189:;
    u64 v1206 = v1158 & 0xfffffffffffffffcu;
    v1208 = v1205;
v1207:;
    at(u8x4_1, (v1172 + (i64)v1171) + v1208) = at(u8x4_1, v1156 + v1208);
    u64 v1209 = v1208 + 4;
    if (!(v1209 == v1206)) { v1208 = v1209; goto v1207; }
    if (v1158 == v1206) goto v1202;
    v1216 = v1206;
v1182:;
    v1218 = v1216;
v1217:;
    at(u8, (v1172 + (i64)v1171) + v1218) = at(u8, v1156 + v1218);
    u64 v1219 = v1218 + 1;
    if (v1219 == v1158) goto v1202;
    v1218 = v1219; goto v1217;
v1180:;
    memmove_any(v1172 + (i64)v1171, v1156, v1158);
v1202:;
    u64 v1224 = v1171 + v1158;
    at(ptr, v14) = v1172;
    at(u64, v14 + 8) = v1224;
    at(u64, v14 + 16) = v1170;
    v1225 = v1224; v1226 = v1170; goto v550;
v1153:;
    v1225 = at(u64, v14 + 8); v1226 = at(u64, v14 + 16); goto v550;
v352:;
    u8 v356 = at(u8, v18);
    u32 v357 = at(u32, v18 + 360);
    if (!(at(u8, v25 + 320) == 1)) goto v361;
    v377 = at(ptr, v25 + 328); v378 = at(u64, v25 + 336); goto v364;
v361:;
    if (!(at(u8, v25 + 112) == 1)) { v377 = (u8 *)table_55ba7287; v378 = 0; goto v364; }
    u8 *v368 = at(ptr, v25 + 120);
    if (!(at(u8, v368 + 312) == 1)) { v377 = (u8 *)table_55ba7287; v378 = 0; goto v364; }
    v377 = at(ptr, v368 + 320); v378 = at(u64, v368 + 328);
v364:;
    u64 v379 = (u64)v377;
    u32 v381 = v357 * 12u;
    u32 v383 = bswap32(v381 + 16u);
    u32 v384 = bswap32(v357);
    if (!(v378 == 0)) goto v386;
    flag v387 = v356 == 0;
    u32 v395 = v387 ? v384 : v383;
    v409 = v387 ? 1 : 2; v410 = v387 ? 3 : 0; v411 = v387 ? 10u : 4; v412 = v387 ? 12u : 20u; v413 = v387 ? 12u : 3; v414 = v387 ? 0 : 10u; v415 = v387 ? v383 : 335544320u; v416 = v387 ? 0 : 12u; v417 = 0; v418 = (u8)v395; v419 = (u8)(v395 >> 8); v420 = (u8)(v395 >> 16u); v421 = (u8)(v395 >> 24u); v422 = 0; v423 = v387 ? 0 : v384; v424 = 0; v425 = v387 ? 28u : 36u; goto v406;
v386:;
    v409 = 3; v410 = 0; v411 = 4; v412 = 28u; v413 = 0; v414 = 5; v415 = bswap32(v381 + 44u); v416 = 3; v417 = 10u; v418 = 0; v419 = 0; v420 = 0; v421 = 28u; v422 = 3072u; v423 = v383; v424 = v384; v425 = 44u;
v406:;
    at(u8, v9) = 0;
    at(u8, v9 + 1) = 0;
    at(u8, v9 + 2) = 0;
    at(u8, v9 + 3) = v409;
    at(u8, v9 + 4) = 0;
    at(u8, v9 + 5) = v410;
    at(u8, v9 + 6) = 0;
    at(u8, v9 + 7) = v411;
    at(u8, v9 + 8) = 0;
    at(u8, v9 + 9) = 0;
    at(u8, v9 + 10) = 0;
    at(u8, v9 + 11) = v412;
    at(u8, v9 + 12) = 0;
    at(u8, v9 + 13) = v413;
    at(u8, v9 + 14) = 0;
    at(u8, v9 + 15) = v414;
    at(u32, v9 + 16) = v415;
    at(u8, v9 + 20) = 0;
    at(u8, v9 + 21) = v416;
    at(u8, v9 + 22) = 0;
    at(u8, v9 + 23) = v417;
    at(u8, v9 + 24) = v418;
    at(u8, v9 + 25) = v419;
    at(u8, v9 + 26) = v420;
    at(u8, v9 + 27) = v421;
    at(u32, v9 + 28) = v422;
    at(u32, v9 + 32) = v423;
    at(u32, v9 + 36) = 0;
    at(u32, v9 + 40) = v424;
    at(u32, v9 + 44) = 0;
    at(u64, v9 + 48) = v425;
    if (!(v425 > (v344 - v342))) { v436 = v339; v437 = v344; v438 = v342; goto v429; }
    if (!std_alloc_vec_Vec_grow_amortized_1cf2(v14, v425)) goto v432;
    v436 = at(ptr, v14); v437 = at(u64, v14 + 16); v438 = at(u64, v14 + 8); goto v429;
v432:;
    __builtin_trap();
    __builtin_trap();
v429:;
    memcpy_any(v436 + (i64)v438, v9, v425);
    at(ptr, v14) = v436;
    at(u64, v14 + 8) = v438 + v425;
    at(u64, v14 + 16) = v437;
    memset(v8, 0, 1024u);
    v442 = 0;
v441:;
    memset(v7, 0, 16u);
    v446 = v442; v449 = 0;
v445:;
    font_subset_kind_source_CutOfKindSource_next_run(v7, v25, v446);
    if (!(at(u8, v7) == 1)) { v443 = v446; v466 = v449; goto v453; }
    u32 v455 = at(u32, v7 + 8);
    u64 v457 = v449 * 12u;
    u16 v456 = at(u16, v7 + 12);
    at(u32_1, v8 + v457) = bswap32(at(u32, v7 + 4));
    at(u32_1, v8 + v457 + 4) = bswap32(v455);
    at(u32_1, v8 + v457 + 8) = bswap32((u32)v456);
    u32 v447 = v455 + 1;
    u64 v450 = v449 + 1;
    if (v450 == 85u) { v443 = v447; v466 = 85u; } else { v446 = v447; v449 = v450; goto v445; }
v453:;
    u64 v467 = v466 * 12u;
    u64 v468 = at(u64, v14 + 16);
    u64 v469 = at(u64, v14 + 8);
    if (!(v467 > (v468 - v469))) { v478 = v468; v479 = v469; goto v444; }
    if (!std_alloc_vec_Vec_grow_amortized_1cf2(v14, v467)) goto v475;
    v478 = at(u64, v14 + 16); v479 = at(u64, v14 + 8); goto v444;
v475:;
    __builtin_trap();
    __builtin_trap();
v444:;
    u8 *v480 = at(ptr, v14);
    memcpy_any(v480 + (i64)v479, v8, v467);
    u64 v482 = v479 + v467;
    at(ptr, v14) = v480;
    at(u64, v14 + 8) = v482;
    at(u64, v14 + 16) = v478;
    if (v466 == 85u) { v442 = v443; goto v441; }
    if (!(v378 > (v478 - v482))) { v495 = v480; v496 = v478; v497 = v482; goto v488; }
    if (!std_alloc_vec_Vec_grow_amortized_1cf2(v14, v378)) goto v491;
    v495 = at(ptr, v14); v496 = at(u64, v14 + 16); v497 = at(u64, v14 + 8); goto v488;
v491:;
    __builtin_trap();
    __builtin_trap();
v488:;
    u64 v498 = (u64)v495;
    memset(v14 + 8, 0, 16u);
    if (!((((u64)(v495 + (i64)v497)) - ((u64)v377)) < v378)) goto v505;
    if (v378 < 4) { v541 = 0; goto v507; }
    if (((v497 + v498) - v379) < 32u) { v541 = 0; goto v507; }
    if (v378 < 16u) { v530 = 0; goto v514; }
    u64 v516 = v378 & 12u;
    u64 v517 = v378 & 0xfffffffffffffff0u;
    v519 = 0;
v518:;
    at(u8x16_1, (v495 + (i64)v497) + v519) = at(u8x16_1, v377 + v519);
    u64 v520 = v519 + 16u;
    if (!(v520 == v517)) { v519 = v520; goto v518; }
    if (v378 == v517) goto v527;
    if (v516 == 0) { v541 = v517; goto v507; }
    v530 = v517;
v514:;
    u64 v531 = v378 & 0xfffffffffffffffcu;
    v533 = v530;
v532:;
    at(u8x4_1, (v495 + (i64)v497) + v533) = at(u8x4_1, v377 + v533);
    u64 v534 = v533 + 4;
    if (!(v534 == v531)) { v533 = v534; goto v532; }
    if (v378 == v531) goto v527;
    v541 = v531;
v507:;
    v543 = v541;
v542:;
    at(u8, (v495 + (i64)v497) + v543) = at(u8, v377 + v543);
    u64 v544 = v543 + 1;
    if (v544 == v378) goto v527;
    v543 = v544; goto v542;
v505:;
    memmove_any(v495 + (i64)v497, v377, v378);
v527:;
    u64 v549 = v497 + v378;
    at(ptr, v14) = v495;
    at(u64, v14 + 8) = v549;
    at(u64, v14 + 16) = v496;
    v1225 = v549; v1226 = v496; goto v550;
v353:;
    u8 v551 = at(u8, v18);
    u64 v552 = at(u64, v18 + 368);
    u16 v555 = at(u16, at(ptr, v25 + 8) + 64);
    u8 *v556 = at(ptr, v25 + 168);
    u64 v557 = at(u64, v25 + 176);
    if (v557 == 0) { v587 = 0; goto v559; }
    if (at(u8, v556) & 1) { v597 = 0; goto v563; }
    if (v557 < 64u) { v587 = 0; goto v559; }
    v567 = 0;
v566:;
    if (v567 == 0xffffffffffffffc0u) goto v569;
    v574 = 0; v576 = (u8x16){0};
v573:;
    u8x16 v577 = v576 | ((-(at(u8x16_1, (v556 + (i64)v567) + (i64)v574) & 1)));
    u64 v575 = v574 + 16u;
    if (!(v575 == 64u)) { v574 = v575; v576 = v577; goto v573; }
    if (!(bits_u8x16(v577) == 0)) { v587 = v567; goto v559; }
v569:;
    u64 v568 = v567 + 64u;
    if ((v557 - v568) < 64u) v587 = v568; else { v567 = v568; goto v566; }
v559:;
    if (v587 < v557) v590 = v587; else { v597 = v557; goto v563; }
v589:;
    if (at(u8, v556 + v590) & 1) { v597 = v590; goto v563; }
    u64 v591 = v590 + 1;
    if (v591 == v557) v597 = v557; else { v590 = v591; goto v589; }
v563:;
    u16 v598 = (u16)v597;
    if (v555 > v598) { v602 = v339; v605 = v342; v607 = v344; v609 = v598; v611 = v597; } else { v791 = v339; v792 = v342; v793 = v344; goto v601; }
v600:;
    u8 *v613 = at(ptr, v25 + 8);
    if (!(at(u16, v613 + 64) > v609)) goto v618;
    u8 *v624 = at(ptr_1, v613 + 32);
    u8 *v626 = at(ptr_1, v613 + 48);
    u64 v627 = (u64)v626;
    u64 v628 = v611 & 65535u;
    if (!(at(u8, v613 + 70) == 0)) goto v631;
    u64 v632 = v628 << 1;
    v653 = ((u64)bswap16(at(u16_1, v624 + (i64)v632))) << 1; v654 = ((u64)bswap16(at(u16_1, v624 + (i64)v632 + 2))) << 1; goto v643;
v631:;
    u64 v644 = v628 << 2;
    v653 = (u64)bswap32(at(u32_1, v624 + (i64)v644)); v654 = (u64)bswap32(at(u32_1, v624 + (i64)v644 + 4));
v643:;
    u64 v656 = v654 - v653;
    if (!(v656 > (v607 - v605))) { v667 = v602; v668 = v607; v669 = v605; goto v660; }
    if (!std_alloc_vec_Vec_grow_amortized_1cf2(v14, v656)) goto v663;
    v667 = at(ptr, v14); v668 = at(u64, v14 + 16); v669 = at(u64, v14 + 8); goto v660;
v663:;
    __builtin_trap();
    __builtin_trap();
v660:;
    u64 v670 = (u64)v667;
    memset(v14 + 8, 0, 16u);
    if (!((((u64)(v667 + (i64)v669)) - ((u64)(v626 + (i64)v653))) < v656)) { v715 = v667 + (i64)v669; v716 = v667; v717 = v669; v718 = v668; v719 = v656; v720 = v626 + (i64)v653; goto v620; }
    if (v656 < 4) { v713 = 0; goto v678; }
    if (((v669 + v670) - (v653 + v627)) < 32u) { v713 = 0; goto v678; }
    if (v656 < 16u) { v702 = 0; goto v686; }
    u64 v688 = v656 & 12u;
    u64 v689 = v656 & 0xfffffffffffffff0u;
    v691 = 0;
v690:;
    at(u8x16_1, (v667 + (i64)v669) + v691) = at(u8x16_1, (v626 + (i64)v653) + v691);
    u64 v692 = v691 + 16u;
    if (!(v692 == v689)) { v691 = v692; goto v690; }
    if (v656 == v689) { v727 = v667; v728 = v669; v729 = v668; v730 = v656; goto v699; }
    if (v688 == 0) { v713 = v689; goto v678; }
    v702 = v689;
v686:;
    u64 v703 = v656 & 0xfffffffffffffffcu;
    v705 = v702;
v704:;
    at(u8x4_1, (v667 + (i64)v669) + v705) = at(u8x4_1, (v626 + (i64)v653) + v705);
    u64 v706 = v705 + 4;
    if (!(v706 == v703)) { v705 = v706; goto v704; }
    if (v656 == v703) { v727 = v667; v728 = v669; v729 = v668; v730 = v656; goto v699; }
    v713 = v703;
v678:;
    v721 = v713;
v714:;
    at(u8, (v667 + (i64)v669) + v721) = at(u8, (v626 + (i64)v653) + v721);
    u64 v722 = v721 + 1;
    if (v722 == v656) { v727 = v667; v728 = v669; v729 = v668; v730 = v656; goto v699; }
    v721 = v722; goto v714;
v618:;
    memset(v14 + 8, 0, 16u);
    v715 = v602 + (i64)v605; v716 = v602; v717 = v605; v718 = v607; v719 = 0; v720 = (u8 *)table_55ba7287;
v620:;
    memmove_any(v715, v720, v719);
    v727 = v716; v728 = v717; v729 = v718; v730 = v719;
v699:;
    u64 v731 = v730 + v728;
    at(ptr, v14) = v727;
    at(u64, v14 + 8) = v731;
    at(u64, v14 + 16) = v729;
    u64 v733 = ((u64)0 - v730) & 3;
    if (!(v733 > (v729 - v731))) { v603 = v727; v608 = v729; v744 = v731; goto v737; }
    if (!std_alloc_vec_Vec_grow_amortized_1cf2(v14, v733)) goto v740;
    v603 = at(ptr, v14); v608 = at(u64, v14 + 16); v744 = at(u64, v14 + 8); goto v737;
v740:;
    __builtin_trap();
    __builtin_trap();
v737:;
    memset_any(v603 + (i64)v744, 0, v733);
    u64 v606 = v744 + v733;
    at(ptr, v14) = v603;
    at(u64, v14 + 8) = v606;
    at(u64, v14 + 16) = v608;
    u64 v747 = (v611 + 1) & 65535u;
    u8 *v748 = at(ptr, v25 + 168);
    u64 v749 = at(u64, v25 + 176);
    if (!(v749 > v747)) goto v752;
    if (at(u8, v748 + v747) & 1) { v612 = v747; goto v604; }
v752:;
    if ((v749 - v747) < 64u) { v780 = v747; goto v758; }
    v760 = v747;
v759:;
    if (!(v760 < 0xffffffffffffffc0u)) goto v762;
    v767 = 0; v769 = (u8x16){0};
v766:;
    u8x16 v770 = v769 | ((-(at(u8x16_1, (v748 + (i64)v760) + (i64)v767) & 1)));
    u64 v768 = v767 + 16u;
    if (!(v768 == 64u)) { v767 = v768; v769 = v770; goto v766; }
    if (!(bits_u8x16(v770) == 0)) { v780 = v760; goto v758; }
v762:;
    u64 v761 = v760 + 64u;
    if ((v749 - v761) < 64u) v780 = v761; else { v760 = v761; goto v759; }
v758:;
    if (v780 < v749) v783 = v780; else { v612 = v749; goto v604; }
v782:;
    if (at(u8, v748 + v783) & 1) { v612 = v783; goto v604; }
    u64 v784 = v783 + 1;
    if (v784 == v749) v612 = v749; else { v783 = v784; goto v782; }
v604:;
    u16 v610 = (u16)v612;
    if (v555 > v610) { v602 = v603; v605 = v606; v607 = v608; v609 = v610; v611 = v612; goto v600; }
    v791 = v603; v792 = v606; v793 = v608;
v601:;
    u64 v797 = (v551 == 0) ? 0 : ((v552 == 0) ? 4 : 0);
    if (!(v797 > (v793 - v792))) { v808 = v791; v809 = v793; v810 = v792; goto v801; }
    if (!std_alloc_vec_Vec_grow_amortized_1cf2(v14, v797)) goto v804;
    v808 = at(ptr, v14); v809 = at(u64, v14 + 16); v810 = at(u64, v14 + 8); goto v801;
v804:;
    __builtin_trap();
    __builtin_trap();
v801:;
    memset_any(v808 + (i64)v810, 0, v797);
    u64 v812 = v810 + v797;
    at(ptr, v14) = v808;
    at(u64, v14 + 8) = v812;
    at(u64, v14 + 16) = v809;
    v1225 = v812; v1226 = v809; goto v550;
v354:;
    u32 v813 = at(u32, v18 + 376);
    u8 *v815 = at(ptr_1, at(ptr, v25 + 8));
    u16 v817 = at(u16_1, v815 + 4);
    u64 v819 = (u64)bswap16(v817);
    if (v817 == 0) { v855 = (u8 *)table_55ba7287; v856 = 0xffffffffffffffccu; goto v821; }
    v825 = 0;
v822:;
    u64 v827 = v825 << 4;
    if (!((((at(u8, v815 + (i64)v827 + 12) == 104u) & (at(u8, v815 + (i64)v827 + 13) == 101u)) & (at(u8, v815 + (i64)v827 + 14) == 97u)) & (at(u8, v815 + (i64)v827 + 15) == 100u))) goto v823;
    v855 = v815 + (i64)((u64)bswap32(at(u32_1, v815 + (i64)v827 + 20))); v856 = ((u64)bswap32(at(u32_1, v815 + (i64)v827 + 24))) - 52u; goto v821;
v823:;
    u64 v824 = v825 + 1;
    if (v824 == v819) { v855 = (u8 *)table_55ba7287; v856 = 0xffffffffffffffccu; } else { v825 = v824; goto v822; }
v821:;
    u64 v857 = (u64)v855;
    if (!((v344 - v342) < 8)) { v868 = v339; v869 = v344; v870 = v342; goto v861; }
    if (!std_alloc_vec_Vec_grow_amortized_1cf2(v14, 8)) goto v864;
    v868 = at(ptr, v14); v869 = at(u64, v14 + 16); v870 = at(u64, v14 + 8); goto v861;
v864:;
    __builtin_trap();
    __builtin_trap();
v861:;
    memset(v14 + 8, 0, 16u);
    if ((((u64)(v868 + (i64)v870)) - ((u64)v855)) < 8) v880 = 0; else goto v877;
v876:;
    at(u8, (v868 + (i64)v870) + v880) = at(u8, v855 + v880);
    u64 v881 = v880 + 1;
    if (v881 == 8) goto v879;
    v880 = v881; goto v876;
v877:;
    at(u64_1, v868 + (i64)v870) = at(u64_1, v855);
v879:;
    u64 v886 = v870 + 8;
    at(ptr, v14) = v868;
    at(u64, v14 + 8) = v886;
    at(u64, v14 + 16) = v869;
    if (!((v869 - v886) < 4)) { v897 = v868; v898 = v869; v899 = v886; goto v890; }
    if (!std_alloc_vec_Vec_grow_amortized_1cf2(v14, 4)) goto v893;
    v897 = at(ptr, v14); v898 = at(u64, v14 + 16); v899 = at(u64, v14 + 8); goto v890;
v893:;
    __builtin_trap();
    __builtin_trap();
v890:;
    at(u32_1, v897 + (i64)v899) = bswap32(v813);
    u64 v902 = v899 + 4;
    at(ptr, v14) = v897;
    at(u64, v14 + 8) = v902;
    at(u64, v14 + 16) = v898;
    if (!((v898 - v902) < 38u)) { v914 = v897; v915 = v898; v916 = v902; goto v907; }
    if (!std_alloc_vec_Vec_grow_amortized_1cf2(v14, 38u)) goto v910;
    v914 = at(ptr, v14); v915 = at(u64, v14 + 16); v916 = at(u64, v14 + 8); goto v907;
v910:;
    __builtin_trap();
    __builtin_trap();
v907:;
    memset(v14 + 8, 0, 16u);
    if (!((((u64)(v914 + (i64)v916)) - ((u64)(v855 + 12))) < 38u)) goto v923;
    if ((((v916 - 12u) + ((u64)v914)) - v857) < 32u) { v931 = 0; goto v929; }
    v934 = 0;
v930:;
    at(u8x16_1, (v914 + (i64)v916) + v934) = at(u8x16_1, (v855 + 12) + v934);
    u64 v935 = v934 + 16u;
    if (v935 == 32u) v940 = 32u; else { v934 = v935; goto v930; }
v932:;
    at(u8x4_1, (v914 + (i64)v916) + v940) = at(u8x4_1, (v855 + 12) + v940);
    u64 v941 = v940 + 4;
    if (v941 == 36u) v931 = 36u; else { v940 = v941; goto v932; }
v929:;
    v947 = v931;
v933:;
    at(u8, (v914 + (i64)v916) + v947) = at(u8, (v855 + 12) + v947);
    u64 v948 = v947 + 1;
    if (v948 == 38u) goto v946;
    v947 = v948; goto v933;
v923:;
    memmove(v914 + (i64)v916, v855 + 12, 38u);
v946:;
    u64 v953 = v916 + 38u;
    at(ptr, v14) = v914;
    at(u64, v14 + 8) = v953;
    at(u64, v14 + 16) = v915;
    if (!((v915 - v953) < 2)) { v964 = v914; v965 = v915; v966 = v953; goto v957; }
    if (!std_alloc_vec_Vec_grow_amortized_1cf2(v14, 2)) goto v960;
    v964 = at(ptr, v14); v965 = at(u64, v14 + 16); v966 = at(u64, v14 + 8); goto v957;
v960:;
    __builtin_trap();
    __builtin_trap();
v957:;
    if ((((u64)(v964 + (i64)v966)) - ((u64)(u8 *)table_87e6e93c)) < 2) v974 = 0; else goto v972;
v971:;
    at(u8, (v964 + (i64)v966) + v974) = at(u8, (u8 *)table_87e6e93c + v974);
    u64 v975 = v974 + 1;
    if (v975 == 2) goto v973;
    v974 = v975; goto v971;
v972:;
    at(u16_1, v964 + (i64)v966) = 256u;
v973:;
    u64 v980 = v966 + 2;
    at(ptr, v14) = v964;
    at(u64, v14 + 8) = v980;
    at(u64, v14 + 16) = v965;
    if (!(v856 > (v965 - v980))) { v992 = v964; v993 = v965; v994 = v980; goto v985; }
    if (!std_alloc_vec_Vec_grow_amortized_1cf2(v14, v856)) goto v988;
    v992 = at(ptr, v14); v993 = at(u64, v14 + 16); v994 = at(u64, v14 + 8); goto v985;
v988:;
    __builtin_trap();
    __builtin_trap();
v985:;
    u64 v995 = (u64)v992;
    memset(v14 + 8, 0, 16u);
    if (!((((u64)(v992 + (i64)v994)) - ((u64)(v855 + 52))) < v856)) goto v1002;
    if (v856 < 4) { v1039 = 0; goto v1004; }
    if ((((v994 - 52u) + v995) - v857) < 32u) { v1039 = 0; goto v1004; }
    if (v856 < 16u) { v1028 = 0; goto v1012; }
    u64 v1014 = v856 & 12u;
    u64 v1015 = v856 & 0xfffffffffffffff0u;
    v1017 = 0;
v1016:;
    at(u8x16_1, (v992 + (i64)v994) + v1017) = at(u8x16_1, (v855 + 52) + v1017);
    u64 v1018 = v1017 + 16u;
    if (!(v1018 == v1015)) { v1017 = v1018; goto v1016; }
    if (v856 == v1015) goto v1025;
    if (v1014 == 0) { v1039 = v1015; goto v1004; }
    v1028 = v1015;
v1012:;
    u64 v1029 = v856 & 0xfffffffffffffffcu;
    v1031 = v1028;
v1030:;
    at(u8x4_1, (v992 + (i64)v994) + v1031) = at(u8x4_1, (v855 + 52) + v1031);
    u64 v1032 = v1031 + 4;
    if (!(v1032 == v1029)) { v1031 = v1032; goto v1030; }
    if (v856 == v1029) goto v1025;
    v1039 = v1029;
v1004:;
    v1041 = v1039;
v1040:;
    at(u8, (v992 + (i64)v994) + v1041) = at(u8, (v855 + 52) + v1041);
    u64 v1042 = v1041 + 1;
    if (v1042 == v856) goto v1025;
    v1041 = v1042; goto v1040;
v1002:;
    memmove_any(v992 + (i64)v994, v855 + 52, v856);
v1025:;
    u64 v1047 = v994 + v856;
    at(ptr, v14) = v992;
    at(u64, v14 + 8) = v1047;
    at(u64, v14 + 16) = v993;
    v1225 = v1047; v1226 = v993; goto v550;
v355:;
    memset(v6, 0, 1024u);
    u8 *v1048 = at(ptr, v25 + 168);
    u64 v1049 = at(u64, v25 + 176);
    if (v1049 == 0) { v1079 = 0; goto v1051; }
    if (at(u8, v1048) & 1) { v1089 = 0; goto v1055; }
    if (v1049 < 64u) { v1079 = 0; goto v1051; }
    v1059 = 0;
v1058:;
    if (v1059 == 0xffffffffffffffc0u) goto v1061;
    v1066 = 0; v1068 = (u8x16){0};
v1065:;
    u8x16 v1069 = v1068 | ((-(at(u8x16_1, (v1048 + (i64)v1059) + (i64)v1066) & 1)));
    u64 v1067 = v1066 + 16u;
    if (!(v1067 == 64u)) { v1066 = v1067; v1068 = v1069; goto v1065; }
    if (!(bits_u8x16(v1069) == 0)) { v1079 = v1059; goto v1051; }
v1061:;
    u64 v1060 = v1059 + 64u;
    if ((v1049 - v1060) < 64u) v1079 = v1060; else { v1059 = v1060; goto v1058; }
v1051:;
    if (v1079 < v1049) v1082 = v1079; else { v1089 = v1049; goto v1055; }
v1081:;
    if (at(u8, v1048 + v1082) & 1) { v1089 = v1082; goto v1055; }
    u64 v1083 = v1082 + 1;
    if (v1083 == v1049) v1089 = v1049; else { v1082 = v1083; goto v1081; }
v1055:;
    u16 v1090 = (u16)v1089;
    u16 v1093 = at(u16, at(ptr, v25 + 8) + 64);
    if (!((v344 - v342) < 4)) { v1104 = v339; v1105 = v344; v1106 = v342; goto v1097; }
    if (!std_alloc_vec_Vec_grow_amortized_1cf2(v14, 4)) goto v1100;
    v1104 = at(ptr, v14); v1105 = at(u64, v14 + 16); v1106 = at(u64, v14 + 8); goto v1097;
v1100:;
    __builtin_trap();
    __builtin_trap();
v1097:;
    at(u32_1, v1104 + (i64)v1106) = 0;
    u64 v1108 = v1106 + 4;
    at(ptr, v14) = v1104;
    at(u64, v14 + 8) = v1108;
    at(u64, v14 + 16) = v1105;
    if (v1093 == 0) { v1148 = v1108; v1149 = v1105; goto v1110; }
    v1112 = v1104; v1115 = v1108; v1117 = v1105; v1119 = 0; v1121 = v1090; v1123 = 0;
v1111:;
    u16 v1126 = umin16((u16)(v1093 - v1123), 256u);
    u16 v1124 = (u16)(v1126 + v1123);
    u32_u16 v1127 = font_write_made_loca_gather_offsets(v25, v1123, v1124, v1119, v1121, v6);
    u64 v1129 = (u64)((u16)((u32)v1126 << 2));
    if (!((v1117 - v1115) < v1129)) { v1113 = v1112; v1118 = v1117; v1140 = v1115; goto v1133; }
    if (!std_alloc_vec_Vec_grow_amortized_1cf2(v14, v1129)) goto v1136;
    v1113 = at(ptr, v14); v1118 = at(u64, v14 + 16); v1140 = at(u64, v14 + 8); goto v1133;
v1136:;
    __builtin_trap();
    __builtin_trap();
v1133:;
    if (!((((u64)(v1113 + (i64)v1140)) - v294) < v1129)) goto v1146;
    memcpy_any(v1113 + (i64)v1140, v6, v1129);
    goto v1114;
v1146:;
    memmove_any(v1113 + (i64)v1140, v6, v1129);
v1114:;
    u64 v1116 = v1140 + v1129;
    at(ptr, v14) = v1113;
    at(u64, v14 + 8) = v1116;
    at(u64, v14 + 16) = v1118;
    if (v1124 < v1093) { v1112 = v1113; v1115 = v1116; v1117 = v1118; v1119 = v1127._0; v1121 = v1127._1; v1123 = v1124; goto v1111; }
    v1148 = v1116; v1149 = v1118;
v1110:;
    v1225 = v1148; v1226 = v1149;
v550:;
    u64 v1233 = (u64)(((u32)0 - at(u32, v18 + (i64)(v346 * 12u) + 8)) & 3);
    if (!((v1226 - v1225) < v1233)) { v345 = v1226; v1242 = v1225; goto v341; }
    if (!std_alloc_vec_Vec_grow_amortized_1cf2(v14, v1233)) goto v1239;
    v345 = at(u64, v14 + 16); v1242 = at(u64, v14 + 8); goto v341;
v1239:;
    __builtin_trap();
    __builtin_trap();
v341:;
    u8 *v340 = at(ptr, v14);
    memset_any(v340 + (i64)v1242, 0, v1233);
    u64 v343 = v1242 + v1233;
    at(ptr, v14) = v340;
    at(u64, v14 + 8) = v343;
    at(u64, v14 + 16) = v345;
    u64 v347 = v346 + 1;
    if (!(v347 == 29u)) { v339 = v340; v342 = v343; v344 = v345; v346 = v347; goto v338; }
    v1248 = 0; v1249 = (u64)v340; v1250 = v343; v1251 = v345; goto v1246;
v127:;
    v1248 = 1; v1249 = 0; v1250 = 0; v1251 = 0;
v1246:;
    u8 v1253 = at(u8, v25 + 24);
    u8 *v1255 = at(ptr, v25 + 32);
    u64 v1257 = at(u64, v25 + 48);
    u8 v1259 = at(u8, v25 + 64);
    u8 *v1261 = at(ptr, v25 + 72);
    u64 v1263 = at(u64, v25 + 88);
    u8 *v1265 = at(ptr, v25 + 168);
    u64 v1267 = at(u64, v25 + 184);
    memcpy(v5, v25 + 192, 160u);
    divided_tables_all_tables_MadeTables_drop_2de7(v5);
    if (v1267 == 0) goto v1270;
    sys_rattle_dealloc(v1265);
v1270:;
    if ((v1253 != 1) ? 1 : (v1257 == 0)) goto v1275;
    sys_rattle_dealloc(v1255);
v1275:;
    if ((v1259 != 1) ? 1 : (v1263 == 0)) goto v1280;
    sys_rattle_dealloc(v1261);
v1280:;
    if (v63 ? 1 : (v61 == 0)) { v1288 = v1248; v1289 = v1249; v1290 = v1250; v1291 = v1251; goto v39; }
    sys_rattle_dealloc(v57);
    v1288 = v1248; v1289 = v1249; v1290 = v1250; v1291 = v1251; goto v39;
v74:;
v75:;
    if (v63 ? 1 : (v61 == 0)) { v1288 = 1; v1289 = 0; v1290 = 0; v1291 = 0; goto v39; }
    sys_rattle_dealloc(v57);
    v1288 = 1; v1289 = 0; v1290 = 0; v1291 = 0; goto v39;
v53:;
    u8 v83 = at(u8, v24 + 16);
    u8 *v85 = at(ptr, v24 + 24);
    u64 v87 = at(u64, v24 + 40);
    u8 v89 = at(u8, v24 + 56);
    u8 *v91 = at(ptr, v24 + 64);
    u64 v93 = at(u64, v24 + 80);
    if (at(u64, v24 + 136) == 0) goto v97;
    sys_rattle_dealloc(at(ptr, v24 + 120));
v97:;
    if ((v83 != 1) ? 1 : (v87 == 0)) goto v103;
    sys_rattle_dealloc(v85);
v103:;
    if ((v89 != 1) ? 1 : (v93 == 0)) { v1288 = 1; v1289 = 0; v1290 = 0; v1291 = 0; goto v39; }
    sys_rattle_dealloc(v91);
    v1288 = 1; v1289 = 0; v1290 = 0; v1291 = 0;
v39:;
    at(u64_1, v0) = v1288;
    at(u64_1, v0 + 8) = v1289;
    at(u64_1, v0 + 16) = v1290;
    at(u64_1, v0 + 24) = v1291;
    return;
}

void font_subset_cut_font_cut_of_kind_into(u8 *v0, u8 *v1, u8 *v2, u8 *v3, u8 *v4) {
    _Alignas(8) u8 v6[160], v7[96], v8[96], v9[96], v10[96], v14[96], v15[96], v16[96], v17[96], v21[96], v22[56], v24[24], v29[96], v32[24], v33[24], v34[384], v35[384], v36[360], v37[200], v38[144], v39[24], v40[56], v41[152], v42[104], v43[16], v46[144], v47[352], v49[24], v50[40], v51[24];
    _Alignas(4) u8 v11[4], v18[16], v25[64], v26[20], v27[32], v28[4];
    u8 v12[1024], v19[1024], v30[12], v48[111], v52[359], *v321, *v421, v453, v454, v455, v456, v457, v458, v460, v461, v462, v463, v464, v465, *v832, *v958, v1222, v1307;
    u16 v180, v181, v182, v785, v1136, v1138;
    u64 v198, v229, v238, v240, v252, v291, v389, v1231, v1266, v1277, v1280, v1288, v1290, v1301, v422, v469, v471, v506, v517, v520, v528, v530, v541, v555, v577, v578, v580, v615, v626, v629, v637, v639, v650, v659, v694, v705, v708, v716, v718, v729, v750, v757, v770, v773, v780, v788, v827, v828, v831, v850, v857, v870, v873, v789, v886, v912, v929, v959, v966, v1002, v1013, v1016, v1024, v1026, v1038, v1056, v1063, v1076, v1079, v1086, v1092, v1113, v1125, v1146, v1181, v1192, v1195, v1203, v1205, v1216, v1318, v1344, v1353, v1354, v1355;
    u32 v288, v459, v466, v467, v468, v548, v552, v549, v1133;
    u8x16 v759, v859, v1065;
    u64 v13 = (u64)v12;
    u64 v20 = (u64)v19;
    u64 v23 = (u64)v22;
    u64 v31 = (u64)v30;
    u8 v44 = at(u8, v3);
    memcpy(v43, v3 + 8, 16u);
    memset(v46, 0, 144u);
    memset(v47, 0, 352u);
    memset(v48, 0, 111u);
    memset(v49, 0, 24u);
    memset(v50, 0, 40u);
    memset(v51, 0, 24u);
    memset(v52, 0, 359u);
    u8 *v54 = at(ptr, v1 + 8);
    memset(v41, 0, 152u);
    memset(v40, 0, 56u);
    font_map_chart_Chart_of_3518(v40, v54 + 72);
    if (!(at(u8, v40) == 0)) goto v59;
    u64 v62 = at(u64, v40 + 48);
    u64 v66 = at(u64, v40 + 8);
    u64 v68 = (u64)at(u8, v40 + 16);
    memcpy(v42 + 24, v40 + 24, 24u);
    at(ptr, v42) = v54;
    at(u64, v42 + 8) = v66;
    at(u64, v42 + 16) = v68;
    at(u64, v42 + 48) = v62;
    memset(v42 + 56, 0, 48u);
    font_subset_selection_Seeds_in_chart(v41, v42, 1, v2);
    u8 v74 = at(u8, v41);
    memcpy(v48 + 7, v41 + 8, 104u);
    u8 v78 = at(u8, v41 + 112);
    u64 v80 = at(u64, v41 + 120);
    memcpy(v49, v41 + 128, 24u);
    if (!(v74 == 0)) goto v60;
    u64 v85 = (u64)v78;
    memcpy(v46, v48 + 7, 104u);
    at(u64, v46 + 104) = v85;
    at(u64, v46 + 112) = v80;
    memcpy(v46 + 120, v49, 24u);
    at(u64, v51) = (u64)v44;
    memcpy(v51 + 8, v43, 16u);
    font_subset_font_to_cut_FontToCut_numbers_beside_19bd(v50, v1, v46, v51);
    if (!(at(u8, v50) == 0)) goto v93;
    u8 v97 = at(u8, v50 + 8);
    u8 *v99 = at(ptr, v50 + 16);
    u64 v103 = at(u64, v50 + 32);
    flag v105 = v97 != 1;
    u64 v107 = v105 ? 0 : at(u64, v50 + 24);
    memset(v36, 0, 360u);
    memset(v37, 0, 200u);
    memcpy(v38, v48 + 7, 104u);
    at(u64, v38 + 104) = v85;
    at(u64, v38 + 112) = v80;
    memcpy(v38 + 120, v49, 24u);
    at(u64, v39) = (u64)v97;
    at(ptr, v39 + 8) = v105 ? ((u8 *)0) : v99;
    at(u64, v39 + 16) = v107;
    font_subset_selection_Selection_of_seeds_4cdf(v37, v1, v38, v39);
    if (!(at(u8, v37) == 0)) goto v116;
    font_subset_kind_source_CutOfKind_of_87a4(v36, v37 + 8);
    u8 v119 = at(u8, v36);
    memcpy(v52 + 7, v36 + 8, 352u);
    if (!(v119 == 0)) goto v117;
    memcpy(v47, v52 + 7, 352u);
    memset(v34, 0, 384u);
    memset(v32, 0, 24u);
    font_write_size_file_size_22d8(v32, v47);
    u64 v154 = at(u64, v32 + 16);
    if (!(v154 > 134217728u)) goto v157;
    v1353 = 1; v1354 = 1; v1355 = v154; goto v1351;
v157:;
    u64 v158 = at(u64, v32);
    memcpy(v33 + 8, v32 + 8, 16u);
    at(u64, v33) = v158;
    font_write_plan_plan_of(v34, v47, 1, v33);
    u64 v162 = at(u64, v33 + 16);
    u64 v163 = at(u64, v34);
    memcpy(v35 + 8, v34 + 8, 376u);
    at(u64, v35) = v163;
    u16 v167 = at(u16, v35 + 352);
    if (!(((u16)(v167 + 65535u)) < 4095u)) { v180 = 0; v181 = 0; v182 = 0; goto v171; }
    u16 v173 = (u16)(ctlz16(v167) ^ 15u);
    u16 v174 = (u16)((u32)16u << (v173 & 31));
    v180 = bswap16((u16)(((u16)((u32)v167 << 4)) - v174)); v181 = (u16)((u32)v173 << 8); v182 = bswap16(v174);
v171:;
    at(u8, v30) = 0;
    at(u8, v30 + 1) = 1;
    at(u8, v30 + 2) = 0;
    at(u8, v30 + 3) = 0;
    at(u16_1, v30 + 4) = bswap16(v167);
    at(u16_1, v30 + 6) = v182;
    at(u16_1, v30 + 8) = v181;
    at(u16_1, v30 + 10) = v180;
    at(u8, v4 + 145) = 0;
    v198 = 0;
v197:;
    u64 v202 = (u64)12u - v198;
    memset(v29, 0, 96u);
    u64 v203 = at(u64, v4 + 128);
    u64 v204 = at(u64, v4 + 120);
    if (!(v202 < (v203 - v204))) goto v208;
    u64 v209 = v204 + v202;
    u8 *v210 = at(ptr, v4 + 112);
    u64 v211 = (u64)v210;
    if (!((((u64)(v210 + (i64)v204)) - ((u64)(v30 + (i64)v198))) < v202)) goto v218;
    if (v198 > 8) { v238 = 0; goto v220; }
    if (((v204 + v211) - (v198 + v31)) < 32u) { v238 = 0; goto v220; }
    u64 v227 = v202 & 12u;
    v229 = 0;
v228:;
    at(u8x4_1, (v210 + (i64)v204) + v229) = at(u8x4_1, (v30 + (i64)v198) + v229);
    u64 v230 = v229 + 4;
    if (!(v230 == v227)) { v229 = v230; goto v228; }
    if (v202 == v227) goto v237;
    v238 = v227;
v220:;
    v240 = v238;
v239:;
    at(u8, (v210 + (i64)v204) + v240) = at(u8, (v30 + (i64)v198) + v240);
    u64 v241 = v240 + 1;
    if (v241 == v202) goto v237;
    v240 = v241; goto v239;
v218:;
    memmove_any(v210 + (i64)v204, v30 + (i64)v198, v202);
v237:;
    at(ptr, v4 + 112) = v210;
    at(u64, v4 + 120) = v209;
    at(u64, v4 + 128) = v203;
    v252 = v202; goto v200;
v208:;
    std_io_buffered_BufWriter_write_cold(v29, v4, v30 + (i64)v198, v202);
    u64 v247 = at(u64, v29 + 8);
    if (!((at(u8, v29) != 0) ? 1 : (v247 == 0))) { v252 = v247; goto v200; }
    at(u8, v4 + 144) = 1;
    goto v325;
v200:;
    u64 v199 = v252 + v198;
    at(u64, v4 + 136) = at(u64, v4 + 136) + v252;
    if (v199 < 12u) { v198 = v199; goto v197; }
    v288 = (((u32)v167) << 4) | 12u; v291 = 0;
v287:;
    u64 v293 = v291 * 12u;
    u32 v297 = at(u32, (v35 + 4) + v293 + 4);
    u32 v299 = at(u32, (v35 + 4) + v293 + 8);
    if (!(at(u8, (v35 + 4) + v293) & 1)) goto v302;
    u64 v305 = at(u64, (u8 *)table_faed1f12 + (v291 << 3));
    if (!(v305 < 16u)) goto v308;
    at(u32, v25) = 841962319u;
    at(u32, v25 + 4) = 1885433187u;
    at(u32, v25 + 8) = 544503395u;
    at(u32, v25 + 12) = 1835495526u;
    at(u32, v25 + 16) = 1886609767u;
    at(u32, v25 + 20) = 1719233639u;
    at(u32, v25 + 24) = 1684104552u;
    at(u32, v25 + 28) = 1634035816u;
    at(u32, v25 + 32) = 2020896104u;
    at(u32, v25 + 36) = 1633906540u;
    at(u32, v25 + 40) = 1886937453u;
    at(u32, v25 + 44) = 1701667182u;
    at(u32, v25 + 48) = 1953722224u;
    at(u32, v25 + 52) = 1885696624u;
    at(u32, v25 + 56) = 1634035830u;
    at(u32, v25 + 60) = 2020896118u;
    v321 = v25 + (v305 << 2); goto v311;
v308:;
    if (!(v305 < 21u)) goto v314;
    at(u32, v26) = 1163084098u;
    at(u32, v26 + 4) = 1178944583u;
    at(u32, v26 + 8) = 1397706823u;
    at(u32, v26 + 12) = 1112888135u;
    at(u32, v26 + 16) = 1852990827u;
    v321 = v26 + (i64)(v305 << 2) - 64; goto v311;
v314:;
    at(u32, v27) = 1380013640u;
    at(u32, v27 + 4) = 1380013645u;
    at(u32, v27 + 8) = 1413567571u;
    at(u32, v27 + 12) = 1380013654u;
    at(u32, v27 + 16) = 1918989921u;
    at(u32, v27 + 20) = 1918989923u;
    at(u32, v27 + 24) = 1918989926u;
    at(u32, v27 + 28) = 1918989927u;
    v321 = v27 + (i64)(v305 << 2) - 84;
v311:;
    at(u32, v28) = at(u32_1, v321);
    if (font_write_writer_send_entry_f0d8(v28, v299, v288, v297, v4) & 1) goto v325;
    goto v290;
v302:;
v290:;
    u64 v292 = v291 + 1;
    if (!(v292 == 29u)) { v288 = (v297 + v288) + (((u32)0 - v297) & 3); v291 = v292; goto v287; }
    v389 = 0;
v388:;
    u64 v394 = at(u64, (u8 *)table_faed1f12 + (v389 << 3));
    memset(v24, 0, 24u);
    switch (v394) {
    case 1: goto v396;
    case 5: goto v397;
    case 6: goto v398;
    case 9: goto v399;
    default: goto v395;
    }
v395:;
    font_subset_kind_source_CutOfKindSource_copied(v24, v47, v394);
    if (!(at(u8, v24) == 1)) goto v657;
    u8 *v1226 = at(ptr, v24 + 8);
    u64 v1227 = (u64)v1226;
    u64 v1228 = at(u64, v24 + 16);
    at(u8, v4 + 145) = 0;
    if (v1228 == 0) goto v657;
    v1231 = 0;
v1230:;
    u64 v1235 = v1228 - v1231;
    memset(v8, 0, 96u);
    u64 v1236 = at(u64, v4 + 128);
    u64 v1237 = at(u64, v4 + 120);
    if (!(v1235 < (v1236 - v1237))) goto v1241;
    u64 v1242 = v1237 + v1235;
    u8 *v1243 = at(ptr, v4 + 112);
    u64 v1244 = (u64)v1243;
    memset(v4 + 120, 0, 16u);
    if (!((((u64)(v1243 + (i64)v1237)) - ((u64)(v1226 + (i64)v1231))) < v1235)) goto v1251;
    if (v1235 < 4) { v1288 = 0; goto v1253; }
    if (((v1237 + v1244) - (v1231 + v1227)) < 32u) { v1288 = 0; goto v1253; }
    if (v1235 < 16u) { v1277 = 0; goto v1261; }
    u64 v1263 = v1235 & 12u;
    u64 v1264 = v1235 & 0xfffffffffffffff0u;
    v1266 = 0;
v1265:;
    at(u8x16_1, (v1243 + (i64)v1237) + v1266) = at(u8x16_1, (v1226 + (i64)v1231) + v1266);
    u64 v1267 = v1266 + 16u;
    if (!(v1267 == v1264)) { v1266 = v1267; goto v1265; }
    if (v1235 == v1264) goto v1274;
    if (v1263 == 0) { v1288 = v1264; goto v1253; }
    v1277 = v1264;
v1261:;
    u64 v1278 = v1235 & 0xfffffffffffffffcu;
    v1280 = v1277;
v1279:;
    at(u8x4_1, (v1243 + (i64)v1237) + v1280) = at(u8x4_1, (v1226 + (i64)v1231) + v1280);
    u64 v1281 = v1280 + 4;
    if (!(v1281 == v1278)) { v1280 = v1281; goto v1279; }
    if (v1235 == v1278) goto v1274;
    v1288 = v1278;
v1253:;
    v1290 = v1288;
v1289:;
    at(u8, (v1243 + (i64)v1237) + v1290) = at(u8, (v1226 + (i64)v1231) + v1290);
    u64 v1291 = v1290 + 1;
    if (v1291 == v1235) goto v1274;
    v1290 = v1291; goto v1289;
v1251:;
    memmove_any(v1243 + (i64)v1237, v1226 + (i64)v1231, v1235);
v1274:;
    at(ptr, v4 + 112) = v1243;
    at(u64, v4 + 120) = v1242;
    at(u64, v4 + 128) = v1236;
    v1301 = v1235; goto v1296;
v1241:;
    std_io_buffered_BufWriter_write_cold(v8, v4, v1226 + (i64)v1231, v1235);
    if (at(u8, v8) == 0) v1301 = at(u64, v8 + 8); else goto v1300;
v1296:;
    if (v1301 == 0) goto v1300;
    u64 v1232 = v1301 + v1231;
    at(u64, v4 + 136) = at(u64, v4 + 136) + v1301;
    if (v1232 < v1228) { v1231 = v1232; goto v1230; }
    goto v657;
v1300:;
    at(u8, v4 + 144) = 1;
    goto v656;
v396:;
    u8 v400 = at(u8, v35);
    u32 v401 = at(u32, v35 + 360);
    if (!(at(u8, v47 + 320) == 1)) goto v405;
    v421 = at(ptr, v47 + 328); v422 = at(u64, v47 + 336); goto v408;
v405:;
    if (!(at(u8, v47 + 112) == 1)) { v421 = (u8 *)table_55ba7287; v422 = 0; goto v408; }
    u8 *v412 = at(ptr, v47 + 120);
    if (!(at(u8, v412 + 312) == 1)) { v421 = (u8 *)table_55ba7287; v422 = 0; goto v408; }
    v421 = at(ptr, v412 + 320); v422 = at(u64, v412 + 328);
v408:;
    u64 v423 = (u64)v421;
    flag v424 = v422 == 0;
    u32 v425 = v401 * 12u;
    u32 v427 = bswap32(v425 + 16u);
    u32 v428 = bswap32(v401);
    if (!v424) goto v430;
    flag v431 = v400 == 0;
    u32 v439 = v431 ? v428 : v427;
    v453 = v431 ? 1 : 2; v454 = v431 ? 3 : 0; v455 = v431 ? 10u : 4; v456 = v431 ? 12u : 20u; v457 = v431 ? 12u : 3; v458 = v431 ? 0 : 10u; v459 = v431 ? v427 : 335544320u; v460 = v431 ? 0 : 12u; v461 = 0; v462 = (u8)v439; v463 = (u8)(v439 >> 8); v464 = (u8)(v439 >> 16u); v465 = (u8)(v439 >> 24u); v466 = 0; v467 = v431 ? 0 : v428; v468 = 0; v469 = v431 ? 28u : 36u; goto v450;
v430:;
    v453 = 3; v454 = 0; v455 = 4; v456 = 28u; v457 = 0; v458 = 5; v459 = bswap32(v425 + 44u); v460 = 3; v461 = 10u; v462 = 0; v463 = 0; v464 = 0; v465 = 28u; v466 = 3072u; v467 = v427; v468 = v428; v469 = 44u;
v450:;
    at(u8, v22) = 0;
    at(u8, v22 + 1) = 0;
    at(u8, v22 + 2) = 0;
    at(u8, v22 + 3) = v453;
    at(u8, v22 + 4) = 0;
    at(u8, v22 + 5) = v454;
    at(u8, v22 + 6) = 0;
    at(u8, v22 + 7) = v455;
    at(u8, v22 + 8) = 0;
    at(u8, v22 + 9) = 0;
    at(u8, v22 + 10) = 0;
    at(u8, v22 + 11) = v456;
    at(u8, v22 + 12) = 0;
    at(u8, v22 + 13) = v457;
    at(u8, v22 + 14) = 0;
    at(u8, v22 + 15) = v458;
    at(u32, v22 + 16) = v459;
    at(u8, v22 + 20) = 0;
    at(u8, v22 + 21) = v460;
    at(u8, v22 + 22) = 0;
    at(u8, v22 + 23) = v461;
    at(u8, v22 + 24) = v462;
    at(u8, v22 + 25) = v463;
    at(u8, v22 + 26) = v464;
    at(u8, v22 + 27) = v465;
    at(u32, v22 + 28) = v466;
    at(u32, v22 + 32) = v467;
    at(u32, v22 + 36) = 0;
    at(u32, v22 + 40) = v468;
    at(u32, v22 + 44) = 0;
    at(u64, v22 + 48) = v469;
    at(u8, v4 + 145) = 0;
    v471 = 0;
v470:;
    u64 v475 = v469 - v471;
    memset(v21, 0, 96u);
    u64 v476 = at(u64, v4 + 128);
    u64 v477 = at(u64, v4 + 120);
    if (!(v475 < (v476 - v477))) goto v481;
    u64 v482 = v477 + v475;
    u8 *v483 = at(ptr, v4 + 112);
    u64 v484 = (u64)v483;
    if (!((((u64)(v483 + (i64)v477)) - ((u64)(v22 + (i64)v471))) < v475)) goto v491;
    if (v475 < 4) { v528 = 0; goto v493; }
    if (((v477 + v484) - (v471 + v23)) < 32u) { v528 = 0; goto v493; }
    if (v475 < 16u) { v517 = 0; goto v501; }
    u64 v503 = v475 & 12u;
    u64 v504 = v475 & 48u;
    v506 = 0;
v505:;
    at(u8x16_1, (v483 + (i64)v477) + v506) = at(u8x16_1, (v22 + (i64)v471) + v506);
    u64 v507 = v506 + 16u;
    if (!(v507 == v504)) { v506 = v507; goto v505; }
    if (v475 == v504) goto v514;
    if (v503 == 0) { v528 = v504; goto v493; }
    v517 = v504;
v501:;
    u64 v518 = v475 & 60u;
    v520 = v517;
v519:;
    at(u8x4_1, (v483 + (i64)v477) + v520) = at(u8x4_1, (v22 + (i64)v471) + v520);
    u64 v521 = v520 + 4;
    if (!(v521 == v518)) { v520 = v521; goto v519; }
    if (v475 == v518) goto v514;
    v528 = v518;
v493:;
    v530 = v528;
v529:;
    at(u8, (v483 + (i64)v477) + v530) = at(u8, (v22 + (i64)v471) + v530);
    u64 v531 = v530 + 1;
    if (v531 == v475) goto v514;
    v530 = v531; goto v529;
v491:;
    memmove_any(v483 + (i64)v477, v22 + (i64)v471, v475);
v514:;
    at(ptr, v4 + 112) = v483;
    at(u64, v4 + 120) = v482;
    at(u64, v4 + 128) = v476;
    v541 = v475; goto v536;
v481:;
    std_io_buffered_BufWriter_write_cold(v21, v4, v22 + (i64)v471, v475);
    if (at(u8, v21) == 0) v541 = at(u64, v21 + 8); else goto v540;
v536:;
    if (v541 == 0) goto v540;
    u64 v472 = v541 + v471;
    at(u64, v4 + 136) = at(u64, v4 + 136) + v541;
    if (v472 < v469) { v471 = v472; goto v470; }
    memset(v19, 0, 1024u);
    v548 = 0;
v547:;
    memset(v18, 0, 16u);
    v552 = v548; v555 = 0;
v551:;
    font_subset_kind_source_CutOfKindSource_next_run(v18, v47, v552);
    if (!(at(u8, v18) == 1)) goto v559;
    u32 v561 = at(u32, v18 + 8);
    u64 v563 = v555 * 12u;
    u16 v562 = at(u16, v18 + 12);
    at(u32_1, v19 + v563) = bswap32(at(u32, v18 + 4));
    at(u32_1, v19 + v563 + 4) = bswap32(v561);
    at(u32_1, v19 + v563 + 8) = bswap32((u32)v562);
    u32 v553 = v561 + 1;
    u64 v556 = v555 + 1;
    if (!(v556 == 85u)) { v552 = v553; v555 = v556; goto v551; }
    at(u8, v4 + 145) = 0;
    v577 = 1020u; v578 = 85u; v549 = v553; goto v573;
v559:;
    at(u8, v4 + 145) = 0;
    if (v555 == 0) goto v576;
    v577 = v555 * 12u; v578 = v555; v549 = v552;
v573:;
    v580 = 0;
v579:;
    u64 v584 = v577 - v580;
    memset(v17, 0, 96u);
    u64 v585 = at(u64, v4 + 128);
    u64 v586 = at(u64, v4 + 120);
    if (!(v584 < (v585 - v586))) goto v590;
    u64 v591 = v586 + v584;
    u8 *v592 = at(ptr, v4 + 112);
    u64 v593 = (u64)v592;
    if (!((((u64)(v592 + (i64)v586)) - ((u64)(v19 + (i64)v580))) < v584)) goto v600;
    if (v584 < 4) { v637 = 0; goto v602; }
    if (((v586 + v593) - (v580 + v20)) < 32u) { v637 = 0; goto v602; }
    if (v584 < 16u) { v626 = 0; goto v610; }
    u64 v612 = v584 & 12u;
    u64 v613 = v584 & 0x7ffffffffffffff0u;
    v615 = 0;
v614:;
    at(u8x16_1, (v592 + (i64)v586) + v615) = at(u8x16_1, (v19 + (i64)v580) + v615);
    u64 v616 = v615 + 16u;
    if (!(v616 == v613)) { v615 = v616; goto v614; }
    if (v584 == v613) goto v623;
    if (v612 == 0) { v637 = v613; goto v602; }
    v626 = v613;
v610:;
    u64 v627 = v584 & 0x7ffffffffffffffcu;
    v629 = v626;
v628:;
    at(u8x4_1, (v592 + (i64)v586) + v629) = at(u8x4_1, (v19 + (i64)v580) + v629);
    u64 v630 = v629 + 4;
    if (!(v630 == v627)) { v629 = v630; goto v628; }
    if (v584 == v627) goto v623;
    v637 = v627;
v602:;
    v639 = v637;
v638:;
    at(u8, (v592 + (i64)v586) + v639) = at(u8, (v19 + (i64)v580) + v639);
    u64 v640 = v639 + 1;
    if (v640 == v584) goto v623;
    v639 = v640; goto v638;
v600:;
    memmove_any(v592 + (i64)v586, v19 + (i64)v580, v584);
v623:;
    at(ptr, v4 + 112) = v592;
    at(u64, v4 + 120) = v591;
    at(u64, v4 + 128) = v585;
    v650 = v584; goto v645;
v590:;
    std_io_buffered_BufWriter_write_cold(v17, v4, v19 + (i64)v580, v584);
    if (at(u8, v17) == 0) v650 = at(u64, v17 + 8); else goto v649;
v645:;
    if (v650 == 0) goto v649;
    u64 v581 = v650 + v580;
    at(u64, v4 + 136) = at(u64, v4 + 136) + v650;
    if (v581 < v577) { v580 = v581; goto v579; }
    if (v578 == 85u) { v548 = v549; goto v547; }
v576:;
    at(u8, v4 + 145) = 0;
    if (v424) goto v657;
    v659 = 0;
v658:;
    u64 v663 = v422 - v659;
    memset(v16, 0, 96u);
    u64 v664 = at(u64, v4 + 128);
    u64 v665 = at(u64, v4 + 120);
    if (!(v663 < (v664 - v665))) goto v669;
    u64 v670 = v665 + v663;
    u8 *v671 = at(ptr, v4 + 112);
    u64 v672 = (u64)v671;
    memset(v4 + 120, 0, 16u);
    if (!((((u64)(v671 + (i64)v665)) - ((u64)(v421 + (i64)v659))) < v663)) goto v679;
    if (v663 < 4) { v716 = 0; goto v681; }
    if (((v665 + v672) - (v659 + v423)) < 32u) { v716 = 0; goto v681; }
    if (v663 < 16u) { v705 = 0; goto v689; }
    u64 v691 = v663 & 12u;
    u64 v692 = v663 & 0xfffffffffffffff0u;
    v694 = 0;
v693:;
    at(u8x16_1, (v671 + (i64)v665) + v694) = at(u8x16_1, (v421 + (i64)v659) + v694);
    u64 v695 = v694 + 16u;
    if (!(v695 == v692)) { v694 = v695; goto v693; }
    if (v663 == v692) goto v702;
    if (v691 == 0) { v716 = v692; goto v681; }
    v705 = v692;
v689:;
    u64 v706 = v663 & 0xfffffffffffffffcu;
    v708 = v705;
v707:;
    at(u8x4_1, (v671 + (i64)v665) + v708) = at(u8x4_1, (v421 + (i64)v659) + v708);
    u64 v709 = v708 + 4;
    if (!(v709 == v706)) { v708 = v709; goto v707; }
    if (v663 == v706) goto v702;
    v716 = v706;
v681:;
    v718 = v716;
v717:;
    at(u8, (v671 + (i64)v665) + v718) = at(u8, (v421 + (i64)v659) + v718);
    u64 v719 = v718 + 1;
    if (v719 == v663) goto v702;
    v718 = v719; goto v717;
v679:;
    memmove_any(v671 + (i64)v665, v421 + (i64)v659, v663);
v702:;
    at(ptr, v4 + 112) = v671;
    at(u64, v4 + 120) = v670;
    at(u64, v4 + 128) = v664;
    v729 = v663; goto v724;
v669:;
    std_io_buffered_BufWriter_write_cold(v16, v4, v421 + (i64)v659, v663);
    if (at(u8, v16) == 0) v729 = at(u64, v16 + 8); else goto v728;
v724:;
    if (v729 == 0) goto v728;
    u64 v660 = v729 + v659;
    at(u64, v4 + 136) = at(u64, v4 + 136) + v729;
    if (v660 < v422) { v659 = v660; goto v658; }
    goto v657;
v728:;
    at(u8, v4 + 144) = 1;
    goto v656;
v649:;
    at(u8, v4 + 144) = 1;
    goto v656;
v540:;
    at(u8, v4 + 144) = 1;
    goto v656;
v397:;
    u8 v734 = at(u8, v35);
    u64 v735 = at(u64, v35 + 368);
    u16 v738 = at(u16, at(ptr, v47 + 8) + 64);
    u8 *v739 = at(ptr, v47 + 168);
    u64 v740 = at(u64, v47 + 176);
    if (v740 == 0) { v770 = 0; goto v742; }
    if (at(u8, v739) & 1) { v780 = 0; goto v746; }
    if (v740 < 64u) { v770 = 0; goto v742; }
    v750 = 0;
v749:;
    if (v750 == 0xffffffffffffffc0u) goto v752;
    v757 = 0; v759 = (u8x16){0};
v756:;
    u8x16 v760 = v759 | ((-(at(u8x16_1, (v739 + (i64)v750) + (i64)v757) & 1)));
    u64 v758 = v757 + 16u;
    if (!(v758 == 64u)) { v757 = v758; v759 = v760; goto v756; }
    if (!(bits_u8x16(v760) == 0)) { v770 = v750; goto v742; }
v752:;
    u64 v751 = v750 + 64u;
    if ((v740 - v751) < 64u) v770 = v751; else { v750 = v751; goto v749; }
v742:;
    if (v770 < v740) v773 = v770; else { v780 = v740; goto v746; }
v772:;
    if (at(u8, v739 + v773) & 1) { v780 = v773; goto v746; }
    u64 v774 = v773 + 1;
    if (v774 == v740) v780 = v740; else { v773 = v774; goto v772; }
v746:;
    u16 v781 = (u16)v780;
    if (v738 > v781) { v785 = v781; v788 = v780; } else goto v784;
v783:;
    u8 *v790 = at(ptr, v47 + 8);
    if (!(at(u16, v790 + 64) > v785)) { v831 = 0; v832 = (u8 *)table_55ba7287; goto v795; }
    u8 *v799 = at(ptr_1, v790 + 32);
    u8 *v801 = at(ptr_1, v790 + 48);
    u64 v802 = v788 & 65535u;
    if (!(at(u8, v790 + 70) == 0)) goto v805;
    u64 v806 = v802 << 1;
    v827 = ((u64)bswap16(at(u16_1, v799 + (i64)v806))) << 1; v828 = ((u64)bswap16(at(u16_1, v799 + (i64)v806 + 2))) << 1; goto v817;
v805:;
    u64 v818 = v802 << 2;
    v827 = (u64)bswap32(at(u32_1, v799 + (i64)v818)); v828 = (u64)bswap32(at(u32_1, v799 + (i64)v818 + 4));
v817:;
    v831 = v828 - v827; v832 = v801 + (i64)v827;
v795:;
    if (font_write_bytes_send_padded_823e(v832, v831, v4) & 1) goto v656;
    u64 v837 = (v788 + 1) & 65535u;
    u8 *v838 = at(ptr, v47 + 168);
    u64 v839 = at(u64, v47 + 176);
    if (!(v839 > v837)) goto v842;
    if (at(u8, v838 + v837) & 1) { v789 = v837; goto v787; }
v842:;
    if ((v839 - v837) < 64u) { v870 = v837; goto v848; }
    v850 = v837;
v849:;
    if (!(v850 < 0xffffffffffffffc0u)) goto v852;
    v857 = 0; v859 = (u8x16){0};
v856:;
    u8x16 v860 = v859 | ((-(at(u8x16_1, (v838 + (i64)v850) + (i64)v857) & 1)));
    u64 v858 = v857 + 16u;
    if (!(v858 == 64u)) { v857 = v858; v859 = v860; goto v856; }
    if (!(bits_u8x16(v860) == 0)) { v870 = v850; goto v848; }
v852:;
    u64 v851 = v850 + 64u;
    if ((v839 - v851) < 64u) v870 = v851; else { v850 = v851; goto v849; }
v848:;
    if (v870 < v839) v873 = v870; else { v789 = v839; goto v787; }
v872:;
    if (at(u8, v838 + v873) & 1) { v789 = v873; goto v787; }
    u64 v874 = v873 + 1;
    if (v874 == v839) v789 = v839; else { v873 = v874; goto v872; }
v787:;
    u16 v786 = (u16)v789;
    if (v738 > v786) { v785 = v786; v788 = v789; goto v783; }
v784:;
    flag v882 = v735 != 0;
    u64 v883 = v882 ? 0 : 4;
    at(u8, v4 + 145) = 0;
    if ((v734 == 0) | v882) goto v657;
    v886 = 0;
v885:;
    u64 v890 = v883 - v886;
    memset(v15, 0, 96u);
    u64 v891 = at(u64, v4 + 128);
    u64 v892 = at(u64, v4 + 120);
    if (!(v890 < (v891 - v892))) goto v896;
    u64 v897 = v892 + v890;
    u8 *v898 = at(ptr, v4 + 112);
    if (!((((u64)(v898 + (i64)v892)) - ((u64)((u8 *)table_18327a07 + (i64)v886))) < v890)) goto v905;
    memset_any(v898 + (i64)v892, 0, v890);
    goto v906;
v905:;
    memcpy_any(v898 + (i64)v892, (u8 *)table_18327a07 + (i64)v886, v890);
v906:;
    at(ptr, v4 + 112) = v898;
    at(u64, v4 + 120) = v897;
    at(u64, v4 + 128) = v891;
    v912 = v890; goto v907;
v896:;
    std_io_buffered_BufWriter_write_cold(v15, v4, (u8 *)table_18327a07 + (i64)v886, v890);
    if (at(u8, v15) == 0) v912 = at(u64, v15 + 8); else goto v911;
v907:;
    if (v912 == 0) goto v911;
    u64 v887 = v912 + v886;
    at(u64, v4 + 136) = at(u64, v4 + 136) + v912;
    if (v887 < v883) { v886 = v887; goto v885; }
v657:;
    goto v1306;
v911:;
    at(u8, v4 + 144) = 1;
    goto v656;
v398:;
    u32 v917 = at(u32, v35 + 376);
    u8 *v919 = at(ptr_1, at(ptr, v47 + 8));
    u16 v921 = at(u16_1, v919 + 4);
    u64 v923 = (u64)bswap16(v921);
    if (v921 == 0) { v958 = (u8 *)table_55ba7287; v959 = 0; goto v925; }
    v929 = 0;
v926:;
    u64 v931 = v929 << 4;
    if (!((((at(u8, v919 + (i64)v931 + 12) == 104u) & (at(u8, v919 + (i64)v931 + 13) == 101u)) & (at(u8, v919 + (i64)v931 + 14) == 97u)) & (at(u8, v919 + (i64)v931 + 15) == 100u))) goto v927;
    v958 = v919 + (i64)((u64)bswap32(at(u32_1, v919 + (i64)v931 + 20))); v959 = (u64)bswap32(at(u32_1, v919 + (i64)v931 + 24)); goto v925;
v927:;
    u64 v928 = v929 + 1;
    if (v928 == v923) { v958 = (u8 *)table_55ba7287; v959 = 0; } else { v929 = v928; goto v926; }
v925:;
    if (font_write_made_head_send_head_front_a2d5(v958, v917, v4) & 1) goto v656;
    u64 v963 = (u64)v958;
    at(u8, v4 + 145) = 0;
    v966 = 0;
v965:;
    u64 v970 = (u64)38u - v966;
    memset(v14, 0, 96u);
    u64 v971 = at(u64, v4 + 128);
    u64 v972 = at(u64, v4 + 120);
    if (!(v970 < (v971 - v972))) goto v976;
    u64 v977 = v972 + v970;
    u8 *v978 = at(ptr, v4 + 112);
    u64 v979 = (u64)v978;
    memset(v4 + 120, 0, 16u);
    if (!((((u64)(v978 + (i64)v972)) - ((u64)((v958 + 12) + (i64)v966))) < v970)) goto v986;
    if (v966 > 34u) { v1024 = 0; goto v988; }
    if (((((v972 - v963) - 12u) + v979) - v966) < 32u) { v1024 = 0; goto v988; }
    if (v966 > 22u) { v1013 = 0; goto v997; }
    u64 v999 = v970 & 12u;
    u64 v1000 = v970 & 48u;
    v1002 = 0;
v1001:;
    at(u8x16_1, (v978 + (i64)v972) + v1002) = at(u8x16_1, ((v958 + 12) + (i64)v966) + v1002);
    u64 v1003 = v1002 + 16u;
    if (!(v1003 == v1000)) { v1002 = v1003; goto v1001; }
    if (v970 == v1000) goto v1010;
    if (v999 == 0) { v1024 = v1000; goto v988; }
    v1013 = v1000;
v997:;
    u64 v1014 = v970 & 60u;
    v1016 = v1013;
v1015:;
    at(u8x4_1, (v978 + (i64)v972) + v1016) = at(u8x4_1, ((v958 + 12) + (i64)v966) + v1016);
    u64 v1017 = v1016 + 4;
    if (!(v1017 == v1014)) { v1016 = v1017; goto v1015; }
    if (v970 == v1014) goto v1010;
    v1024 = v1014;
v988:;
    v1026 = v1024;
v1025:;
    at(u8, (v978 + (i64)v972) + v1026) = at(u8, ((v958 + 12) + (i64)v966) + v1026);
    u64 v1027 = v1026 + 1;
    if (v1027 == v970) goto v1010;
    v1026 = v1027; goto v1025;
v986:;
    memmove_any(v978 + (i64)v972, (v958 + 12) + (i64)v966, v970);
v1010:;
    at(ptr, v4 + 112) = v978;
    at(u64, v4 + 120) = v977;
    at(u64, v4 + 128) = v971;
    v1038 = v970; goto v968;
v976:;
    std_io_buffered_BufWriter_write_cold(v14, v4, (v958 + 12) + (i64)v966, v970);
    u64 v1033 = at(u64, v14 + 8);
    if (!((at(u8, v14) != 0) ? 1 : (v1033 == 0))) { v1038 = v1033; goto v968; }
    at(u8, v4 + 144) = 1;
v656:;
    goto v325;
v968:;
    u64 v967 = v1038 + v966;
    at(u64, v4 + 136) = at(u64, v4 + 136) + v1038;
    if (v967 < 38u) { v966 = v967; goto v965; }
    u8 v1043 = font_write_made_head_send_head_end_7cc9(v958, v959, v4);
    v1307 = v1043; goto v1044;
v399:;
    memset(v12, 0, 1024u);
    u8 *v1045 = at(ptr, v47 + 168);
    u64 v1046 = at(u64, v47 + 176);
    if (v1046 == 0) { v1076 = 0; goto v1048; }
    if (at(u8, v1045) & 1) { v1086 = 0; goto v1052; }
    if (v1046 < 64u) { v1076 = 0; goto v1048; }
    v1056 = 0;
v1055:;
    if (v1056 == 0xffffffffffffffc0u) goto v1058;
    v1063 = 0; v1065 = (u8x16){0};
v1062:;
    u8x16 v1066 = v1065 | ((-(at(u8x16_1, (v1045 + (i64)v1056) + (i64)v1063) & 1)));
    u64 v1064 = v1063 + 16u;
    if (!(v1064 == 64u)) { v1063 = v1064; v1065 = v1066; goto v1062; }
    if (!(bits_u8x16(v1066) == 0)) { v1076 = v1056; goto v1048; }
v1058:;
    u64 v1057 = v1056 + 64u;
    if ((v1046 - v1057) < 64u) v1076 = v1057; else { v1056 = v1057; goto v1055; }
v1048:;
    if (v1076 < v1046) v1079 = v1076; else { v1086 = v1046; goto v1052; }
v1078:;
    if (at(u8, v1045 + v1079) & 1) { v1086 = v1079; goto v1052; }
    u64 v1080 = v1079 + 1;
    if (v1080 == v1046) v1086 = v1046; else { v1079 = v1080; goto v1078; }
v1052:;
    u16 v1087 = (u16)v1086;
    u16 v1090 = at(u16, at(ptr, v47 + 8) + 64);
    at(u32, v11) = 0;
    at(u8, v4 + 145) = 0;
    v1092 = 0;
v1091:;
    u64 v1096 = (u64)4 - v1092;
    memset(v10, 0, 96u);
    u64 v1097 = at(u64, v4 + 128);
    u64 v1098 = at(u64, v4 + 120);
    if (!(v1096 < (v1097 - v1098))) goto v1102;
    u64 v1103 = v1098 + v1096;
    u8 *v1104 = at(ptr, v4 + 112);
    if ((((u64)(v1104 + (i64)v1098)) - ((u64)(v11 + (i64)v1092))) < v1096) v1113 = 0; else goto v1111;
v1110:;
    at(u8, (v1104 + (i64)v1098) + v1113) = at(u8, (v11 + (i64)v1092) + v1113);
    u64 v1114 = v1113 + 1;
    if (v1114 == v1096) goto v1112;
    v1113 = v1114; goto v1110;
v1111:;
    memmove_any(v1104 + (i64)v1098, v11 + (i64)v1092, v1096);
v1112:;
    at(ptr, v4 + 112) = v1104;
    at(u64, v4 + 120) = v1103;
    at(u64, v4 + 128) = v1097;
    v1125 = v1096; goto v1094;
v1102:;
    std_io_buffered_BufWriter_write_cold(v10, v4, v11 + (i64)v1092, v1096);
    u64 v1120 = at(u64, v10 + 8);
    if (!((at(u8, v10) != 0) ? 1 : (v1120 == 0))) { v1125 = v1120; goto v1094; }
    at(u8, v4 + 144) = 1;
    v1222 = 1; goto v1131;
v1094:;
    u64 v1093 = v1125 + v1092;
    at(u64, v4 + 136) = at(u64, v4 + 136) + v1125;
    if (v1093 < 4) { v1092 = v1093; goto v1091; }
    if (v1090 == 0) { v1222 = 0; goto v1131; }
    v1133 = 0; v1136 = v1087; v1138 = 0;
v1132:;
    u16 v1141 = umin16((u16)(v1090 - v1138), 256u);
    u16 v1139 = (u16)(v1141 + v1138);
    u32_u16 v1142 = font_write_made_loca_gather_offsets(v47, v1138, v1139, v1133, v1136, v12);
    u64 v1144 = (u64)((u16)((u32)v1141 << 2));
    at(u8, v4 + 145) = 0;
    v1146 = 0;
v1145:;
    u64 v1150 = v1144 - v1146;
    memset(v9, 0, 96u);
    u64 v1151 = at(u64, v4 + 128);
    u64 v1152 = at(u64, v4 + 120);
    if (!(v1150 < (v1151 - v1152))) goto v1156;
    u64 v1157 = v1152 + v1150;
    u8 *v1158 = at(ptr, v4 + 112);
    u64 v1159 = (u64)v1158;
    if (!((((u64)(v1158 + (i64)v1152)) - ((u64)(v12 + (i64)v1146))) < v1150)) goto v1166;
    if (v1150 < 4) { v1203 = 0; goto v1168; }
    if (((v1152 + v1159) - (v1146 + v13)) < 32u) { v1203 = 0; goto v1168; }
    if (v1150 < 16u) { v1192 = 0; goto v1176; }
    u64 v1178 = v1150 & 12u;
    u64 v1179 = v1150 & 2032u;
    v1181 = 0;
v1180:;
    at(u8x16_1, (v1158 + (i64)v1152) + v1181) = at(u8x16_1, (v12 + (i64)v1146) + v1181);
    u64 v1182 = v1181 + 16u;
    if (!(v1182 == v1179)) { v1181 = v1182; goto v1180; }
    if (v1150 == v1179) goto v1189;
    if (v1178 == 0) { v1203 = v1179; goto v1168; }
    v1192 = v1179;
v1176:;
    u64 v1193 = v1150 & 2044u;
    v1195 = v1192;
v1194:;
    at(u8x4_1, (v1158 + (i64)v1152) + v1195) = at(u8x4_1, (v12 + (i64)v1146) + v1195);
    u64 v1196 = v1195 + 4;
    if (!(v1196 == v1193)) { v1195 = v1196; goto v1194; }
    if (v1150 == v1193) goto v1189;
    v1203 = v1193;
v1168:;
    v1205 = v1203;
v1204:;
    at(u8, (v1158 + (i64)v1152) + v1205) = at(u8, (v12 + (i64)v1146) + v1205);
    u64 v1206 = v1205 + 1;
    if (v1206 == v1150) goto v1189;
    v1205 = v1206; goto v1204;
v1166:;
    memmove_any(v1158 + (i64)v1152, v12 + (i64)v1146, v1150);
v1189:;
    at(ptr, v4 + 112) = v1158;
    at(u64, v4 + 120) = v1157;
    at(u64, v4 + 128) = v1151;
    v1216 = v1150; goto v1211;
v1156:;
    std_io_buffered_BufWriter_write_cold(v9, v4, v12 + (i64)v1146, v1150);
    if (at(u8, v9) == 0) v1216 = at(u64, v9 + 8); else goto v1215;
v1211:;
    if (v1216 == 0) goto v1215;
    u64 v1147 = v1216 + v1146;
    at(u64, v4 + 136) = at(u64, v4 + 136) + v1216;
    if (v1147 < v1144) { v1146 = v1147; goto v1145; }
    if (v1139 < v1090) { v1133 = v1142._0; v1136 = v1142._1; v1138 = v1139; goto v1132; }
    v1222 = 0; goto v1131;
v1215:;
    at(u8, v4 + 144) = 1;
    v1222 = 1;
v1131:;
    v1307 = v1222;
v1044:;
    if (v1307 & 1) goto v325;
v1306:;
    u32 v1314 = ((u32)0 - at(u32, v35 + (i64)(v389 * 12u) + 8)) & 3;
    u64 v1315 = (u64)v1314;
    at(u8, v4 + 145) = 0;
    if (v1314 == 0) goto v391;
    v1318 = 0;
v1317:;
    u64 v1322 = v1315 - v1318;
    memset(v7, 0, 96u);
    u64 v1323 = at(u64, v4 + 128);
    u64 v1324 = at(u64, v4 + 120);
    if (!(v1322 < (v1323 - v1324))) goto v1328;
    u64 v1329 = v1324 + v1322;
    u8 *v1330 = at(ptr, v4 + 112);
    if (!((((u64)(v1330 + (i64)v1324)) - ((u64)((u8 *)table_18327a07 + (i64)v1318))) < v1322)) goto v1337;
    memset_any(v1330 + (i64)v1324, 0, v1322);
    goto v1338;
v1337:;
    memcpy_any(v1330 + (i64)v1324, (u8 *)table_18327a07 + (i64)v1318, v1322);
v1338:;
    at(ptr, v4 + 112) = v1330;
    at(u64, v4 + 120) = v1329;
    at(u64, v4 + 128) = v1323;
    v1344 = v1322; goto v1339;
v1328:;
    std_io_buffered_BufWriter_write_cold(v7, v4, (u8 *)table_18327a07 + (i64)v1318, v1322);
    if (at(u8, v7) == 0) v1344 = at(u64, v7 + 8); else goto v1343;
v1339:;
    if (v1344 == 0) goto v1343;
    u64 v1319 = v1344 + v1318;
    at(u64, v4 + 136) = at(u64, v4 + 136) + v1344;
    if (v1319 < v1315) { v1318 = v1319; goto v1317; }
v391:;
    u64 v390 = v389 + 1;
    if (!(v390 == 29u)) { v389 = v390; goto v388; }
    v1353 = 0; v1354 = v162; v1355 = 0; goto v1351;
v1343:;
    at(u8, v4 + 144) = 1;
v325:;
    v1353 = 1; v1354 = 2; v1355 = at(u64, v4 + 136);
v1351:;
    u8 v1357 = at(u8, v47 + 24);
    u8 *v1359 = at(ptr, v47 + 32);
    u64 v1361 = at(u64, v47 + 48);
    u8 v1363 = at(u8, v47 + 64);
    u8 *v1365 = at(ptr, v47 + 72);
    u64 v1367 = at(u64, v47 + 88);
    u8 *v1369 = at(ptr, v47 + 168);
    u64 v1371 = at(u64, v47 + 184);
    memcpy(v6, v47 + 192, 160u);
    divided_tables_all_tables_MadeTables_drop_2de7(v6);
    if (v1371 == 0) goto v1374;
    sys_rattle_dealloc(v1369);
v1374:;
    if ((v1357 != 1) ? 1 : (v1361 == 0)) goto v1379;
    sys_rattle_dealloc(v1359);
v1379:;
    if ((v1363 != 1) ? 1 : (v1367 == 0)) goto v1384;
    sys_rattle_dealloc(v1365);
v1384:;
    if (v105 ? 1 : (v103 == 0)) goto v1388;
    sys_rattle_dealloc(v99);
v1388:;
    at(u64_1, v0) = v1353;
    at(u64_1, v0 + 8) = v1354;
    at(u64_1, v0 + 16) = v1355;
    return;
v116:;
v117:;
    if (v105 ? 1 : (v103 == 0)) goto v1392;
    sys_rattle_dealloc(v99);
v1392:;
    at(u64_1, v0) = 1;
    memset(v0 + 8, 0, 16u);
    return;
v93:;
    u8 v125 = at(u8, v46 + 16);
    u8 *v127 = at(ptr, v46 + 24);
    u64 v129 = at(u64, v46 + 40);
    u8 v131 = at(u8, v46 + 56);
    u8 *v133 = at(ptr, v46 + 64);
    u64 v135 = at(u64, v46 + 80);
    if (at(u64, v46 + 136) == 0) goto v139;
    sys_rattle_dealloc(at(ptr, v46 + 120));
v139:;
    if ((v125 != 1) ? 1 : (v129 == 0)) goto v145;
    sys_rattle_dealloc(v127);
v145:;
    if ((v131 != 1) ? 1 : (v135 == 0)) goto v150;
    sys_rattle_dealloc(v133);
v150:;
    at(u64_1, v0) = 1;
    memset(v0 + 8, 0, 16u);
    return;
v59:;
v60:;
    at(u64_1, v0) = 1;
    memset(v0 + 8, 0, 16u);
    return;
}

u8_u8 font_subset_cut_forms_belongs(u8 *v0, u8 *v1) {
    _Alignas(4) u8 v3[1], v14[16];
    _Alignas(8) u8 v4[160], v5[352], v6[360], v7[24], v8[24], v9[16], v10[16], v11[48], v12[32], v13[56], v15[32];
    u8 v16[39], *v213, *v228, *v214, *v244, *v247, *v249, *v250, v297, v310, v311;
    u64 v77, v81, v99, v104, v114, v115, v149, v152, v158, v159, v210, v229, v211, v246, v251;
    u32 v84, v86, v97, v98, v102, v103;
    u16 v215;
    flag v245, v252;
    memset(v15, 0, 32u);
    memset(v16, 0, 39u);
    u8 *v18 = at(ptr, v0 + 8);
    memset(v13, 0, 56u);
    memset(v14, 0, 16u);
    font_map_chart_Chart_of_3518(v13, v18 + 72);
    if (!(at(u8, v13) == 0)) goto v23;
    u64 v25 = at(u64, v13 + 48);
    u64 v31 = (u64)at(u8, v13 + 16);
    at(u64, v11) = at(u64, v13 + 8);
    at(u64, v11 + 8) = v31;
    memcpy(v11 + 16, v13 + 24, 24u);
    at(u64, v11 + 40) = v25;
    at(ptr, v12) = v3;
    memset(v12 + 8, 0, 24u);
    font_map_chart_Chart_next_run_33e3(v14, v11, 0);
    if (!(at(u8, v14) == 1)) goto v39;
v44:;
    u32 v45 = at(u32, v14 + 4);
    u32 v46 = at(u32, v14 + 8);
    if (!((v46 < v45) | (v46 > 1114111u))) goto v51;
    __builtin_trap();
    __builtin_trap();
v51:;
    u8 *v52 = at(ptr, v12);
    u64 v53 = at(u64, v12 + 8);
    u64 v54 = usub_sat64(v53, 1);
    u32 v55 = usub_sat32(v45, 1);
    at(ptr, v10) = v52;
    at(u64, v10 + 8) = v53;
    if (!(v53 > v54)) goto v58;
    if (!(v55 > at(u32, v52 + (v54 << 3) + 4))) goto v58;
    u64 v65 = v54 + 1;
    if (!(v65 == v53)) goto v68;
    v102 = v46; v103 = v45; v104 = v53; goto v69;
v68:;
    if (!(v55 > at(u32, v52 + (v65 << 3) + 4))) { v77 = v65; goto v75; }
v58:;
    u64 v76 = codes_search_searched_bc95(v10, v54, v55);
    v77 = v76;
v75:;
    if (v77 < v53) { v81 = v77; v84 = v46; v86 = v45; } else { v97 = v45; v98 = v46; v99 = v53; goto v80; }
v79:;
    u64 v90 = at(u64_1, v52 + (v81 << 3));
    u32 v91 = (u32)v90;
    if (v84 < usub_sat32(v91, 1)) { v97 = v86; v98 = v84; v99 = v81; goto v80; }
    u32 v87 = umin32(v91, v86);
    u32 v85 = umax32((u32)(v90 >> 32u), v84);
    u64 v82 = v81 + 1;
    if (v82 == v53) { v97 = v87; v98 = v85; v99 = v53; } else { v81 = v82; v84 = v85; v86 = v87; goto v79; }
v80:;
    if (v77 == v99) { v102 = v98; v103 = v97; v104 = v77; } else goto v101;
v69:;
    u64 v105 = at(u64, v12 + 16);
    if (!(v105 == v53)) { v114 = v105; v115 = v53; goto v108; }
    if (!std_alloc_vec_Vec_grow_amortized_295f(v12)) goto v111;
    v114 = at(u64, v12 + 16); v115 = at(u64, v12 + 8); goto v108;
v111:;
    if (at(u64, v12 + 16) == 0) goto v174;
    sys_rattle_dealloc(at(ptr, v12));
v174:;
    if ((at(u8, v11 + 8) != 1) ? 1 : (at(u64, v11 + 32) == 0)) goto v23;
    sys_rattle_dealloc(at(ptr, v11 + 16));
    goto v23;
v108:;
    if (!(v115 < v114)) goto v118;
    std_alloc_vec_Vec_put_at_aaa0(v12, v104, v103, v102);
    goto v119;
v118:;
    if (!(v114 == v115)) goto v122;
    if (std_alloc_vec_Vec_grow_amortized_295f(v12)) goto v122;
    __builtin_trap();
    __builtin_trap();
v122:;
    std_alloc_vec_Vec_put_at_aaa0(v12, v104, v103, v102);
    goto v119;
v101:;
    u64 v125 = v77 << 3;
    at(u32_1, v52 + (i64)v125) = v97;
    at(u32_1, v52 + (i64)v125 + 4) = v98;
    u64 v128 = v77 + 1;
    u64 v129 = v99 - v128;
    u64 v130 = v53 - v129;
    core_slice_edits_slice_T_rotate_left(v52 + (i64)(v128 << 3), v53 - v128, v129);
    u64 v134 = v130 << 3;
    if (!(v129 > 15u)) goto v138;
    u64 v145 = v129 >> 1;
    core_slice_edits_mirror_fc6a(v52 + (i64)v134, 0, (v52 + (i64)v134) + (i64)((v129 - v145) << 3), v145);
    goto v141;
v138:;
    if (!(v129 > 1)) goto v141;
    u64 v143 = (v129 - 2) >> 1;
    v149 = 0; v152 = v129;
v144:;
    u64 v153 = v152 - 1;
    if (v149 < v153) { v158 = v149; v159 = v153; goto v155; }
    if (v153 < v149) { v158 = v153; v159 = v149; } else goto v151;
v155:;
    u64 v160 = v158 << 3;
    u64 v162 = v159 << 3;
    u64 v164 = at(u64_1, (v52 + (i64)v134) + v160);
    at(u64_1, (v52 + (i64)v134) + v160) = at(u64_1, (v52 + (i64)v134) + v162);
    at(u64_1, (v52 + (i64)v134) + v162) = v164;
v151:;
    if (!(v149 == v143)) { v149 = v149 + 1; v152 = v153; goto v144; }
v141:;
    if (!(v130 < v53)) goto v119;
    at(u64, v12 + 8) = v130;
v119:;
    font_map_chart_Chart_next_run_33e3(v14, v11, v46 + 1);
    if (at(u8, v14) == 1) goto v44;
v39:;
    if ((at(u8, v11 + 8) != 1) ? 1 : (at(u64, v11 + 32) == 0)) goto v191;
    sys_rattle_dealloc(at(ptr, v11 + 16));
v191:;
    memcpy(v16 + 7, v12, 32u);
    memcpy(v15, v16 + 7, 32u);
    u8 *v197 = at(ptr, v0 + 8);
    if (at(u8, v0) == 0) { v249 = v197; v250 = v3; v251 = 0; v252 = 1; goto v198; }
    at(ptr, v9) = v0;
    at(ptr, v9 + 8) = v0 + 344;
    at(ptr, v8) = v3;
    memset(v8 + 8, 0, 16u);
    u16 v204 = at(u16, v197 + 64);
    if (v204 == 0) { v244 = v197; v245 = 1; v246 = 0; v247 = v3; goto v206; }
    v210 = 0; v213 = v3; v215 = 0;
v209:;
    if (!font_subset_presence_Presence_has(v9, v215)) { v211 = v210; v214 = v213; goto v212; }
    if (!(at(u64, v8 + 16) == v210)) { v228 = v213; v229 = v210; goto v222; }
    if (!std_alloc_vec_Vec_grow_amortized_1aee(v8, 1)) goto v225;
    v228 = at(ptr, v8); v229 = at(u64, v8 + 8); goto v222;
v225:;
    if (at(u64, v8 + 16) == 0) goto v237;
    sys_rattle_dealloc(at(ptr, v8));
v237:;
    if (at(u64, v15 + 16) == 0) { v310 = 0; v311 = 1; goto v248; }
    sys_rattle_dealloc(at(ptr, v15));
    v310 = 0; v311 = 1; goto v248;
v222:;
    at(u16, v228 + (v229 << 1)) = v215;
    u64 v232 = v229 + 1;
    at(u64, v8 + 8) = v232;
    v211 = v232; v214 = v228;
v212:;
    u16 v216 = (u16)(v215 + 1);
    if (!(v216 == v204)) { v210 = v211; v213 = v214; v215 = v216; goto v209; }
    v244 = at(ptr, v0 + 8); v245 = at(u64, v8 + 16) == 0; v246 = v211; v247 = at(ptr, v8);
v206:;
    v249 = v244; v250 = v247; v251 = v246; v252 = v245;
v198:;
    u8 *v253 = at(ptr_1, v249);
    u64 v255 = at(u64_1, v249 + 8);
    memset(v6, 0, 360u);
    at(u64, v7) = 1;
    at(ptr, v7 + 8) = v250;
    at(u64, v7 + 16) = v251;
    font_subset_kind_source_CutOfKind_new_991b(v6, v1, 1, v15, v7);
    u8 v258 = at(u8, v6);
    if (!(v258 == 0)) { v297 = 0; goto v261; }
    memcpy(v5, v6 + 8, 352u);
    u8 v266 = (u8)(font_subset_forms_form_of_file(at(u8, v1), v5, v253, v255) != 0);
    u8 v268 = at(u8, v5 + 24);
    u8 *v270 = at(ptr, v5 + 32);
    u64 v272 = at(u64, v5 + 48);
    u8 v274 = at(u8, v5 + 64);
    u8 *v276 = at(ptr, v5 + 72);
    u64 v278 = at(u64, v5 + 88);
    u8 *v280 = at(ptr, v5 + 168);
    u64 v282 = at(u64, v5 + 184);
    memcpy(v4, v5 + 192, 160u);
    divided_tables_all_tables_MadeTables_drop_2de7(v4);
    if (v282 == 0) goto v285;
    sys_rattle_dealloc(v280);
v285:;
    if ((v268 != 1) ? 1 : (v272 == 0)) goto v290;
    sys_rattle_dealloc(v270);
v290:;
    if ((v274 != 1) ? 1 : (v278 == 0)) goto v295;
    sys_rattle_dealloc(v276);
v295:;
    v297 = v266;
v261:;
    if (v252) goto v298;
    sys_rattle_dealloc(v250);
v298:;
    if (at(u64, v15 + 16) == 0) { v310 = v297; v311 = v258; goto v248; }
    sys_rattle_dealloc(at(ptr, v15));
    v310 = v297; v311 = v258; goto v248;
v23:;
    v310 = 0; v311 = 1;
v248:;
    return (u8_u8){v311, v310};
}

void font_subset_font_of_kind_FontOfKind_drop_b0ec(u8 *v0) {
    u8 v3 = at(u8, v0 + 16);
    u8 v5 = at(u8, v0 + 56);
    u8 *v7 = at(ptr_1, v0 + 64);
    u64 v9 = at(u64_1, v0 + 80);
    u8 v11 = at(u8, v0 + 112);
    u8 *v13 = at(ptr_1, v0 + 120);
    u64 v15 = at(u64_1, v0 + 136);
    u8 v17 = at(u8, v0 + 168);
    u8 *v19 = at(ptr_1, v0 + 176);
    u64 v21 = at(u64_1, v0 + 192);
    u8 v23 = at(u8, v0 + 224);
    u8 *v25 = at(ptr_1, v0 + 232);
    u64 v27 = at(u64_1, v0 + 248);
    u8 v29 = at(u8, v0 + 280);
    u8 *v31 = at(ptr_1, v0 + 288);
    u64 v33 = at(u64_1, v0 + 304);
    u8 v35 = at(u8, v0 + 312);
    u8 *v37 = at(ptr_1, v0 + 320);
    u64 v39 = at(u64_1, v0 + 336);
    u8 *v43 = at(ptr_1, v0 + 440);
    u8 *v45 = at(ptr_1, v0 + 464);
    u64 v47 = at(u64_1, v0 + 480);
    if (!(at(u8, v0 + 424) == 1)) goto v50;
    if (at(u64_1, v0 + 456) == 0) goto v54;
    sys_rattle_dealloc(v43);
v54:;
    if (v47 == 0) goto v50;
    sys_rattle_dealloc(v45);
v50:;
    if ((v35 != 1) ? 1 : (v39 == 0)) goto v61;
    sys_rattle_dealloc(v37);
v61:;
    if (!(v3 == 1)) return;
    if ((v29 != 1) ? 1 : (v33 == 0)) goto v69;
    sys_rattle_dealloc(v31);
v69:;
    if ((v23 != 1) ? 1 : (v27 == 0)) goto v74;
    sys_rattle_dealloc(v25);
v74:;
    if ((v17 != 1) ? 1 : (v21 == 0)) goto v79;
    sys_rattle_dealloc(v19);
v79:;
    if ((v11 != 1) ? 1 : (v15 == 0)) goto v84;
    sys_rattle_dealloc(v13);
v84:;
    if ((v5 != 1) ? 1 : (v9 == 0)) return;
    sys_rattle_dealloc(v7);
    return;
}

void font_subset_font_of_kind_FontOfKind_further_6e0a(u8 *v0, u8 *v1, u64 v2) {
    _Alignas(4) u8 v4[20], v5[32];
    u64 v22, v52, v53, v54, v57, v58, v83, v102, v136;
    u8 v59, *v82, v134, *v135;
    if (!(v2 == 29u)) goto v8;
    u8 v10 = at(u8, v1 + 312);
    if (!(v10 == 1)) { v134 = v10; v135 = (u8 *)0; v136 = 0; goto v13; }
    v134 = 1; v135 = at(ptr, v1 + 320); v136 = at(u64, v1 + 328); goto v13;
v8:;
    switch (at(u8, v1)) {
    case 0: case 1: v134 = 0; v135 = (u8 *)0; v136 = 0; goto v13;
    case 2: v22 = 21u; goto v20;
    case 3: goto v21;
    default: __builtin_trap();
    }
v21:;
    v22 = 29u;
v20:;
    if (!(v22 > v2)) { v134 = 0; v135 = (u8 *)0; v136 = 0; goto v13; }
    if (!(at(u8, v1 + 16) == 1)) goto v29;
    switch (v2) {
    case 16u: goto v31;
    case 17u: goto v32;
    case 18u: goto v33;
    case 19u: goto v34;
    default: goto v30;
    }
v30:;
    if (at(u8, v1 + 280) == 1) { v57 = 288u; v58 = 296u; v59 = 1; goto v38; }
    v52 = 256u; v53 = 264u; v54 = 272u; goto v39;
v31:;
    if (at(u8, v1 + 56) == 1) { v57 = 64u; v58 = 72u; v59 = 1; goto v38; }
    v52 = 32u; v53 = 40u; v54 = 48u; goto v39;
v32:;
    if (at(u8, v1 + 112) == 1) { v57 = 120u; v58 = 128u; v59 = 1; goto v38; }
    v52 = 88u; v53 = 96u; v54 = 104u; goto v39;
v33:;
    if (at(u8, v1 + 168) == 1) { v57 = 176u; v58 = 184u; v59 = 1; goto v38; }
    v52 = 144u; v53 = 152u; v54 = 160u; goto v39;
v34:;
    if (at(u8, v1 + 224) == 1) { v57 = 232u; v58 = 240u; v59 = 1; goto v38; }
    v52 = 200u; v53 = 208u; v54 = 216u;
v39:;
    v57 = v53; v58 = v54; v59 = at(u8, v1 + (i64)v52);
v38:;
    v134 = v59; v135 = at(ptr_1, v1 + (i64)v57); v136 = at(u64_1, v1 + (i64)v58); goto v13;
v29:;
    u8 *v66 = at(ptr_1, at(ptr, v1 + 8));
    if (!(v2 < 21u)) goto v69;
    at(u32, v4) = 1163084098u;
    at(u32, v4 + 4) = 1178944583u;
    at(u32, v4 + 8) = 1397706823u;
    at(u32, v4 + 12) = 1112888135u;
    at(u32, v4 + 16) = 1852990827u;
    v82 = v4; v83 = 0xffffffffffffffc0u; goto v74;
v69:;
    at(u32, v5) = 1380013640u;
    at(u32, v5 + 4) = 1380013645u;
    at(u32, v5 + 8) = 1413567571u;
    at(u32, v5 + 12) = 1380013654u;
    at(u32, v5 + 16) = 1918989921u;
    at(u32, v5 + 20) = 1918989923u;
    at(u32, v5 + 24) = 1918989926u;
    at(u32, v5 + 28) = 1918989927u;
    v82 = v5; v83 = 0xffffffffffffffacu;
v74:;
    u32 v87 = at(u32, (v82 + (i64)(v2 << 2)) + (i64)v83);
    u16 v89 = at(u16_1, v66 + 4);
    u64 v91 = (u64)bswap16(v89);
    if (v89 == 0) { v134 = 0; v135 = (u8 *)0; v136 = 0; goto v13; }
    u8 v94 = (u8)v87;
    u8 v96 = (u8)(v87 >> 16u);
    u8 v98 = (u8)(v87 >> 8);
    v102 = 0;
v99:;
    u64 v104 = v102 << 4;
    if (!((((at(u8, v66 + (i64)v104 + 12) == v94) ? (at(u8, v66 + (i64)v104 + 13) == v98) : 0) ? (at(u8, v66 + (i64)v104 + 14) == v96) : 0) ? (((((u32)at(u8, v66 + (i64)v104 + 15)) << 24u) ^ v87) < 16777216u) : 0)) goto v100;
    v134 = 1; v135 = v66 + (i64)((u64)bswap32(at(u32_1, v66 + (i64)v104 + 20))); v136 = (u64)bswap32(at(u32_1, v66 + (i64)v104 + 24)); goto v13;
v100:;
    u64 v101 = v102 + 1;
    if (v101 == v91) { v134 = 0; v135 = (u8 *)0; v136 = 0; } else { v102 = v101; goto v99; }
v13:;
    at(u64_1, v0) = (u64)v134;
    at(ptr_1, v0 + 8) = v135;
    at(u64_1, v0 + 16) = v136;
    return;
}

void font_subset_font_of_kind_FontOfKind_open_25ca(u8 *v0, u8 v1, u8 *v2) {
    _Alignas(8) u8 v4[1], v5[24], v6[24], v8[24], v9[88], v14[24], v15[240], v16[72], v24[24], v25[88], v27[24], v28[32], v30[56], v31[16], v32[16], v33[16], v34[16], v35[16], v36[24], v43[64], v44[64], v45[64], v46[64], v47[64], v48[16], v49[16], v50[16], v51[16], v52[16], v53[24], v60[16], v61[16], v62[16], v63[16], v64[16], v65[24], v68[16], v69[16], v70[16], v71[16], v72[16], v73[24], v74[16], v75[16], v76[16], v77[16], v78[16], v79[24], v80[16], v81[16], v82[16], v83[16], v84[16], v85[24], v87[288], v88[344], v96[16], v97[16], v98[16], v99[16], v100[16], v101[24], v102[24], v103[232], v107[576];
    u8 v7[31], v11[31], v29[31], v37[16], v38[16], v39[16], v40[16], v41[16], v42[24], v54[16], v55[16], v56[16], v57[16], v58[16], v59[24], v66[6], v67[6], v86[31], v134, v135, *v277, *v280, *v285, *v290, *v295, *v302, *v305, *v310, *v315, *v320, *v328, *v331, *v336, *v341, *v346, v351, v353, *v354, *v357, *v362, *v367, *v372, *v379, *v382, *v387, *v392, *v397, v402, *v444, *v494, *v530, *v495, v603, v604, *v608, *v611, *v616, *v621, *v626, *v639, *v642, *v647, *v652, *v657, *v761, *v785, *v762, *v825, *v826, *v806, *v809, *v865, *v873, v922, v923, v928, v929;
    _Alignas(4) u8 v10[16], v17[16], v18[16], v19[16], v20[16], v21[16], v22[24], v23[24], v26[16], v89[16], v90[16], v91[16], v92[16], v93[16], v94[24], v95[24], v104[564], v105[564], v106[564];
    _Alignas(2) u8 v12[6], v13[6];
    u32 v136, v602, v637, v663, v920, v921, v925, v926, v927, v931;
    flag v276, v352, v558, v601;
    u64 v278, v279, v281, v282, v283, v284, v286, v287, v288, v289, v291, v292, v293, v294, v296, v297, v298, v299, v303, v304, v306, v307, v308, v309, v311, v312, v313, v314, v316, v317, v318, v319, v321, v322, v323, v324, v329, v330, v332, v333, v334, v335, v337, v338, v339, v340, v342, v343, v344, v345, v347, v348, v349, v350, v355, v356, v358, v359, v360, v361, v363, v364, v365, v366, v368, v369, v370, v371, v373, v374, v375, v376, v380, v381, v383, v384, v385, v386, v388, v389, v390, v391, v393, v394, v395, v396, v398, v399, v400, v401, v415, v445, v497, v531, v498, v605, v606, v607, v609, v610, v612, v613, v614, v615, v617, v618, v619, v620, v622, v623, v624, v625, v627, v628, v629, v630, v631, v638, v640, v641, v643, v644, v645, v646, v648, v649, v650, v651, v653, v654, v655, v656, v658, v659, v660, v661, v662, v764, v786, v765, v828, v830, v854, v805, v808, v863, v864, v874, v875, v876, v924, v930;
    u16 v513, v518, v871, v872;
    memset(v106, 0, 564u);
    memset(v107, 0, 576u);
    if (!(v1 < 2)) goto v110;
    font_subset_font_of_kind_FontOfKind_plain(v107, v1, v2);
    u8 v111 = at(u8, v107);
    u8 v113 = at(u8, v107 + 1);
    u64 v115 = load48(v107 + 2);
    u32 v117 = at(u32, v107 + 8);
    memcpy(v106, v107 + 12, 564u);
    v926 = 0; v927 = 0; v928 = v111; v929 = v113; v930 = v115; v931 = v117; goto v119;
v110:;
    memset(v88, 0, 344u);
    memset(v89, 0, 16u);
    memset(v90, 0, 16u);
    memset(v91, 0, 16u);
    memset(v92, 0, 16u);
    memset(v93, 0, 16u);
    memset(v94, 0, 24u);
    memset(v95, 0, 24u);
    memset(v96, 0, 16u);
    memset(v97, 0, 16u);
    memset(v98, 0, 16u);
    memset(v99, 0, 16u);
    memset(v100, 0, 16u);
    memset(v101, 0, 24u);
    memset(v102, 0, 24u);
    memset(v103, 0, 232u);
    memset(v104, 0, 564u);
    memset(v105, 0, 564u);
    memset(v68, 0, 16u);
    memset(v69, 0, 16u);
    memset(v70, 0, 16u);
    memset(v71, 0, 16u);
    memset(v72, 0, 16u);
    memset(v73, 0, 24u);
    memset(v74, 0, 16u);
    memset(v75, 0, 16u);
    memset(v76, 0, 16u);
    memset(v77, 0, 16u);
    memset(v78, 0, 16u);
    memset(v79, 0, 24u);
    memset(v80, 0, 16u);
    memset(v81, 0, 16u);
    memset(v82, 0, 16u);
    memset(v83, 0, 16u);
    memset(v84, 0, 16u);
    memset(v85, 0, 24u);
    memset(v86, 0, 31u);
    memset(v87, 0, 288u);
    if (!(v1 == 3)) goto v122;
    memset(v66, 0, 6);
    sfnt_bytes_directory_Directory_check_tags(v66, v2, (u8 *)text_BASEGDEFGPOSGSUBHVARMVAR, 13u);
    v134 = at(u8, v66); v135 = at(u8, v66 + 1); v136 = at(u32_1, v66 + 2); goto v128;
v122:;
    memset(v67, 0, 6);
    sfnt_bytes_directory_Directory_check_tags(v67, v2, (u8 *)text_BASEGDEFGPOSGSUBkern, 5);
    v134 = at(u8, v67); v135 = at(u8, v67 + 1); v136 = at(u32_1, v67 + 2);
v128:;
    if (!(v134 == 1)) goto v139;
    memset(v96, 0, 16u);
    memset(v97, 0, 16u);
    memset(v98, 0, 16u);
    memset(v99, 0, 16u);
    memset(v100, 0, 16u);
    memset(v101, 0, 24u);
    memset(v102, 0, 24u);
    v601 = 0; v602 = 1; v603 = 0; v604 = v135; v605 = (u64)v136; v606 = 0; v607 = 0; v608 = (u8 *)0; v609 = 0; v610 = 0; v611 = (u8 *)0; v612 = 0; v613 = 0; v614 = 0; v615 = 0; v616 = (u8 *)0; v617 = 0; v618 = 0; v619 = 0; v620 = 0; v621 = (u8 *)0; v622 = 0; v623 = 0; v624 = 0; v625 = 0; v626 = (u8 *)0; v627 = 0; v628 = 0; v629 = 0; v630 = 0; v631 = 0; goto v141;
v139:;
    memset(v48, 0, 16u);
    memset(v49, 0, 16u);
    memset(v50, 0, 16u);
    memset(v51, 0, 16u);
    memset(v52, 0, 16u);
    memset(v53, 0, 24u);
    memset(v54, 0, 16u);
    memset(v55, 0, 16u);
    memset(v56, 0, 16u);
    memset(v57, 0, 16u);
    memset(v58, 0, 16u);
    memset(v59, 0, 24u);
    if (!(v1 == 2)) { v328 = (u8 *)0; v329 = 0; v330 = 0; v331 = (u8 *)0; v332 = 0; v333 = 0; v334 = 0; v335 = 0; v336 = (u8 *)0; v337 = 0; v338 = 0; v339 = 0; v340 = 0; v341 = (u8 *)0; v342 = 0; v343 = 0; v344 = 0; v345 = 0; v346 = (u8 *)0; v347 = 0; v348 = 0; v349 = 0; v350 = 0; v351 = 0; goto v144; }
    memset(v43, 0, 64u);
    memset(v44, 0, 64u);
    memset(v45, 0, 64u);
    memset(v46, 0, 64u);
    memset(v47, 0, 64u);
    font_subset_further_tables_FixedTable_of_1948(v43, v2, 16u);
    u8 v147 = at(u8, v43 + 32);
    if (!(at(u8, v43) == 0)) goto v150;
    u8 *v155 = at(ptr, v43 + 40);
    u64 v157 = at(u64, v43 + 48);
    u64 v159 = at(u64, v43 + 56);
    u64 v160 = (u64)at(u8, v43 + 8);
    u64 v161 = (u64)v147;
    font_subset_further_tables_FixedTable_of_1948(v44, v2, 17u);
    u8 v164 = at(u8, v44 + 32);
    if (!(at(u8, v44) == 0)) goto v167;
    u8 *v173 = at(ptr, v44 + 40);
    u64 v175 = at(u64, v44 + 48);
    u64 v177 = at(u64, v44 + 56);
    u64 v178 = (u64)at(u8, v44 + 8);
    u64 v179 = (u64)v164;
    font_subset_further_tables_FixedTable_of_1948(v45, v2, 18u);
    u8 v182 = at(u8, v45 + 32);
    if (!(at(u8, v45) == 0)) goto v185;
    u8 *v195 = at(ptr, v45 + 40);
    u64 v197 = at(u64, v45 + 48);
    u64 v199 = at(u64, v45 + 56);
    u64 v200 = (u64)at(u8, v45 + 8);
    u64 v201 = (u64)v182;
    font_subset_further_tables_FixedTable_of_1948(v46, v2, 19u);
    u8 v204 = at(u8, v46 + 8);
    u8 v206 = at(u8, v46 + 32);
    if (!(at(u8, v46) == 0)) goto v209;
    u8 *v221 = at(ptr, v46 + 40);
    u64 v223 = at(u64, v46 + 48);
    u64 v225 = at(u64, v46 + 56);
    font_subset_further_tables_FixedTable_of_1948(v47, v2, 20u);
    if (!(at(u8, v47) == 0)) goto v229;
    u64 v254 = (u64)at(u8, v47 + 8);
    u64 v255 = (u64)at(u8, v47 + 32);
    memcpy(v60, v43 + 16, 16u);
    memcpy(v61, v44 + 16, 16u);
    memcpy(v62, v45 + 16, 16u);
    memcpy(v63, v46 + 16, 16u);
    memcpy(v64, v47 + 16, 16u);
    memcpy(v65, v47 + 40, 24u);
    v276 = 1; v277 = v2; v278 = v160; v279 = v161; v280 = v155; v281 = v157; v282 = v159; v283 = v178; v284 = v179; v285 = v173; v286 = v175; v287 = v177; v288 = v200; v289 = v201; v290 = v195; v291 = v197; v292 = v199; v293 = (u64)v204; v294 = (u64)v206; v295 = v221; v296 = v223; v297 = v225; v298 = v254; v299 = v255; goto v168;
v229:;
    if ((v206 != 1) ? 1 : (v225 == 0)) goto v259;
    sys_rattle_dealloc(v221);
v259:;
    if ((v182 != 1) ? 1 : (v199 == 0)) goto v264;
    sys_rattle_dealloc(v195);
v264:;
    if ((v164 != 1) ? 1 : (v177 == 0)) goto v269;
    sys_rattle_dealloc(v173);
v269:;
    if ((v147 != 1) ? 1 : (v159 == 0)) goto v274;
    sys_rattle_dealloc(v155);
v274:;
    memset(v60, 0, 16u);
    memset(v61, 0, 16u);
    memset(v62, 0, 16u);
    memset(v63, 0, 16u);
    memset(v64, 0, 16u);
    memset(v65, 0, 24u);
    v276 = 0; v277 = (u8 *)0; v278 = 0; v279 = 0; v280 = (u8 *)0; v281 = 0; v282 = 0; v283 = 0; v284 = 0; v285 = (u8 *)0; v286 = 0; v287 = 0; v288 = 0; v289 = 0; v290 = (u8 *)0; v291 = 0; v292 = 0; v293 = 0; v294 = 0; v295 = (u8 *)0; v296 = 0; v297 = 0; v298 = 0; v299 = 0; goto v168;
v209:;
    if ((v182 != 1) ? 1 : (v199 == 0)) goto v233;
    sys_rattle_dealloc(v195);
v233:;
    if ((v164 != 1) ? 1 : (v177 == 0)) goto v238;
    sys_rattle_dealloc(v173);
v238:;
    if ((v147 != 1) ? 1 : (v159 == 0)) goto v243;
    sys_rattle_dealloc(v155);
v243:;
    memset(v60, 0, 16u);
    memset(v61, 0, 16u);
    memset(v62, 0, 16u);
    memset(v63, 0, 16u);
    memset(v64, 0, 16u);
    memset(v65, 0, 24u);
    v276 = 0; v277 = (u8 *)0; v278 = 0; v279 = 0; v280 = (u8 *)0; v281 = 0; v282 = 0; v283 = 0; v284 = 0; v285 = (u8 *)0; v286 = 0; v287 = 0; v288 = 0; v289 = 0; v290 = (u8 *)0; v291 = 0; v292 = 0; v293 = 0; v294 = 0; v295 = (u8 *)0; v296 = 0; v297 = 0; v298 = 0; v299 = 0; goto v168;
v185:;
    if ((v164 != 1) ? 1 : (v177 == 0)) goto v213;
    sys_rattle_dealloc(v173);
v213:;
    if ((v147 != 1) ? 1 : (v159 == 0)) goto v218;
    sys_rattle_dealloc(v155);
v218:;
    memset(v60, 0, 16u);
    memset(v61, 0, 16u);
    memset(v62, 0, 16u);
    memset(v63, 0, 16u);
    memset(v64, 0, 16u);
    memset(v65, 0, 24u);
    v276 = 0; v277 = (u8 *)0; v278 = 0; v279 = 0; v280 = (u8 *)0; v281 = 0; v282 = 0; v283 = 0; v284 = 0; v285 = (u8 *)0; v286 = 0; v287 = 0; v288 = 0; v289 = 0; v290 = (u8 *)0; v291 = 0; v292 = 0; v293 = 0; v294 = 0; v295 = (u8 *)0; v296 = 0; v297 = 0; v298 = 0; v299 = 0; goto v168;
v167:;
    if ((v147 != 1) ? 1 : (v159 == 0)) goto v189;
    sys_rattle_dealloc(v155);
v189:;
    memset(v60, 0, 16u);
    memset(v61, 0, 16u);
    memset(v62, 0, 16u);
    memset(v63, 0, 16u);
    memset(v64, 0, 16u);
    memset(v65, 0, 24u);
    v276 = 0; v277 = (u8 *)0; v278 = 0; v279 = 0; v280 = (u8 *)0; v281 = 0; v282 = 0; v283 = 0; v284 = 0; v285 = (u8 *)0; v286 = 0; v287 = 0; v288 = 0; v289 = 0; v290 = (u8 *)0; v291 = 0; v292 = 0; v293 = 0; v294 = 0; v295 = (u8 *)0; v296 = 0; v297 = 0; v298 = 0; v299 = 0; goto v168;
v150:;
    memset(v60, 0, 16u);
    memset(v61, 0, 16u);
    memset(v62, 0, 16u);
    memset(v63, 0, 16u);
    memset(v64, 0, 16u);
    memset(v65, 0, 24u);
    v276 = 0; v277 = (u8 *)0; v278 = 0; v279 = 0; v280 = (u8 *)0; v281 = 0; v282 = 0; v283 = 0; v284 = 0; v285 = (u8 *)0; v286 = 0; v287 = 0; v288 = 0; v289 = 0; v290 = (u8 *)0; v291 = 0; v292 = 0; v293 = 0; v294 = 0; v295 = (u8 *)0; v296 = 0; v297 = 0; v298 = 0; v299 = 0;
v168:;
    memset(v37, 0, 16u);
    memset(v38, 0, 16u);
    memset(v39, 0, 16u);
    memset(v40, 0, 16u);
    memset(v41, 0, 16u);
    memset(v42, 0, 24u);
    if (!v276) { v302 = (u8 *)0; v303 = 0; v304 = 0; v305 = (u8 *)0; v306 = 0; v307 = 0; v308 = 0; v309 = 0; v310 = (u8 *)0; v311 = 0; v312 = 0; v313 = 0; v314 = 0; v315 = (u8 *)0; v316 = 0; v317 = 0; v318 = 0; v319 = 0; v320 = (u8 *)0; v321 = 0; v322 = 0; v323 = 0; v324 = 0; goto v301; }
    memcpy(v37, v60, 16u);
    memcpy(v38, v61, 16u);
    memcpy(v39, v62, 16u);
    memcpy(v40, v63, 16u);
    memcpy(v41, v64, 16u);
    memcpy(v42, v65, 24u);
    v302 = v277; v303 = v278; v304 = v279; v305 = v280; v306 = v281; v307 = v282; v308 = v283; v309 = v284; v310 = v285; v311 = v286; v312 = v287; v313 = v288; v314 = v289; v315 = v290; v316 = v291; v317 = v292; v318 = v293; v319 = v294; v320 = v295; v321 = v296; v322 = v297; v323 = v298; v324 = v299;
v301:;
    memcpy(v54, v37, 16u);
    memcpy(v55, v38, 16u);
    memcpy(v56, v39, 16u);
    memcpy(v57, v40, 16u);
    memcpy(v58, v41, 16u);
    memcpy(v59, v42, 24u);
    if (!v276) goto v326;
    memcpy(v48, v54, 16u);
    memcpy(v49, v55, 16u);
    memcpy(v50, v56, 16u);
    memcpy(v51, v57, 16u);
    memcpy(v52, v58, 16u);
    memcpy(v53, v59, 24u);
    v328 = v302; v329 = v303; v330 = v304; v331 = v305; v332 = v306; v333 = v307; v334 = v308; v335 = v309; v336 = v310; v337 = v311; v338 = v312; v339 = v313; v340 = v314; v341 = v315; v342 = v316; v343 = v317; v344 = v318; v345 = v319; v346 = v320; v347 = v321; v348 = v322; v349 = v323; v350 = v324; v351 = 1; goto v144;
v326:;
    memset(v80, 0, 16u);
    memset(v81, 0, 16u);
    memset(v82, 0, 16u);
    memset(v83, 0, 16u);
    memset(v84, 0, 16u);
    memset(v85, 0, 24u);
    v352 = 0; v353 = 0; v354 = (u8 *)0; v355 = 0; v356 = 0; v357 = (u8 *)0; v358 = 0; v359 = 0; v360 = 0; v361 = 0; v362 = (u8 *)0; v363 = 0; v364 = 0; v365 = 0; v366 = 0; v367 = (u8 *)0; v368 = 0; v369 = 0; v370 = 0; v371 = 0; v372 = (u8 *)0; v373 = 0; v374 = 0; v375 = 0; v376 = 0; goto v327;
v144:;
    memcpy(v80, v48, 16u);
    memcpy(v81, v49, 16u);
    memcpy(v82, v50, 16u);
    memcpy(v83, v51, 16u);
    memcpy(v84, v52, 16u);
    memcpy(v85, v53, 24u);
    v352 = 1; v353 = v351; v354 = v328; v355 = v329; v356 = v330; v357 = v331; v358 = v332; v359 = v333; v360 = v334; v361 = v335; v362 = v336; v363 = v337; v364 = v338; v365 = v339; v366 = v340; v367 = v341; v368 = v342; v369 = v343; v370 = v344; v371 = v345; v372 = v346; v373 = v347; v374 = v348; v375 = v349; v376 = v350;
v327:;
    memset(v31, 0, 16u);
    memset(v32, 0, 16u);
    memset(v33, 0, 16u);
    memset(v34, 0, 16u);
    memset(v35, 0, 16u);
    memset(v36, 0, 24u);
    if (!v352) { v379 = (u8 *)0; v380 = 0; v381 = 0; v382 = (u8 *)0; v383 = 0; v384 = 0; v385 = 0; v386 = 0; v387 = (u8 *)0; v388 = 0; v389 = 0; v390 = 0; v391 = 0; v392 = (u8 *)0; v393 = 0; v394 = 0; v395 = 0; v396 = 0; v397 = (u8 *)0; v398 = 0; v399 = 0; v400 = 0; v401 = 0; v402 = 0; goto v378; }
    memcpy(v31, v80, 16u);
    memcpy(v32, v81, 16u);
    memcpy(v33, v82, 16u);
    memcpy(v34, v83, 16u);
    memcpy(v35, v84, 16u);
    memcpy(v36, v85, 24u);
    v379 = v354; v380 = v355; v381 = v356; v382 = v357; v383 = v358; v384 = v359; v385 = v360; v386 = v361; v387 = v362; v388 = v363; v389 = v364; v390 = v365; v391 = v366; v392 = v367; v393 = v368; v394 = v369; v395 = v370; v396 = v371; v397 = v372; v398 = v373; v399 = v374; v400 = v375; v401 = v376; v402 = v353;
v378:;
    memcpy(v74, v31, 16u);
    memcpy(v75, v32, 16u);
    memcpy(v76, v33, 16u);
    memcpy(v77, v34, 16u);
    memcpy(v78, v35, 16u);
    memcpy(v79, v36, 24u);
    if (!v352) goto v404;
    memcpy(v68, v74, 16u);
    memcpy(v69, v75, 16u);
    memcpy(v70, v76, 16u);
    memcpy(v71, v77, 16u);
    memcpy(v72, v78, 16u);
    memcpy(v73, v79, 24u);
    memset(v29, 0, 31u);
    memset(v30, 0, 56u);
    u8 *v405 = at(ptr_1, v2);
    u16 v407 = at(u16_1, v405 + 4);
    u64 v409 = (u64)bswap16(v407);
    if (v407 == 0) { v444 = (u8 *)table_55ba7287; v445 = 0; goto v411; }
    v415 = 0;
v412:;
    u64 v417 = v415 << 4;
    if (!((((at(u8, v405 + (i64)v417 + 12) == 99u) & (at(u8, v405 + (i64)v417 + 13) == 109u)) & (at(u8, v405 + (i64)v417 + 14) == 97u)) & (at(u8, v405 + (i64)v417 + 15) == 112u))) goto v413;
    v444 = v405 + (i64)((u64)bswap32(at(u32_1, v405 + (i64)v417 + 20))); v445 = (u64)bswap32(at(u32_1, v405 + (i64)v417 + 24)); goto v411;
v413:;
    u64 v414 = v415 + 1;
    if (v414 == v409) { v444 = (u8 *)table_55ba7287; v445 = 0; } else { v415 = v414; goto v412; }
v411:;
    font_map_chart_Chart_of_3518(v30, v2 + 72);
    u64 v449 = at(u64, v30 + 8);
    u8 v451 = at(u8, v30 + 16);
    if (!(at(u8, v30) == 0)) goto v454;
    u8 *v456 = at(ptr, v30 + 24);
    u64 v458 = at(u64, v30 + 40);
    u16 v460 = at(u16, v2 + 64);
    memset(v28, 0, 32u);
    memset(v27, 0, 24u);
    variation_sequences_format14_Sequences_open(v27, v444, v445);
    if (!(at(u8, v27) == 0)) goto v464;
    at(u8, v28) = 0;
    at(ptr, v28 + 8) = v4;
    memset(v28 + 16, 0, 16u);
    goto v467;
v464:;
    u8 *v469 = at(ptr, v27 + 8);
    u64 v471 = at(u64, v27 + 16);
    memset(v26, 0, 16u);
    at(ptr, v24) = v4;
    memset(v24 + 8, 0, 16u);
    at(ptr, v25) = v469;
    at(u64, v25 + 8) = v471;
    at(u32, v25 + 16) = 0;
    at(u32, v25 + 20) = 0;
    at(ptr, v25 + 24) = (u8 *)table_18327a07;
    at(u64, v25 + 32) = 4;
    at(ptr, v25 + 40) = (u8 *)table_18327a07;
    at(u64, v25 + 48) = 4;
    at(u32, v25 + 56) = 1114112u;
    memset(v25 + 60, 0, 28u);
    variation_sequences_entries_EntriesIterator_next(v26, v25);
    if (!(at(u8, v26) == 1)) goto v486;
    flag v491 = v451 == 1;
    u8 *v492 = (u8 *)v449;
    v494 = v4; v497 = 0;
v493:;
    u32 v499 = at(u32, v26 + 4);
    u32 v500 = at(u32, v26 + 8);
    u8 v501 = at(u8, v26 + 12);
    u16 v502 = at(u16, v26 + 14);
    if (!v491) goto v504;
    if (!(v500 < 1114112u)) { v513 = 0; goto v507; }
    v513 = at(u16, v456 + (i64)((u64)(v500 << 1))); goto v507;
v504:;
    u16 v512 = font_map_mapping_Mapping_glyph(v492, v500);
    v513 = v512;
v507:;
    if (v501 == 0) { v518 = v513; goto v515; }
    if (v502 < v460) v518 = v502; else { v495 = v494; v498 = v497; goto v496; }
v515:;
    if (v518 == 0) { v495 = v494; v498 = v497; goto v496; }
    if (!(at(u64, v24 + 16) == v497)) { v530 = v494; v531 = v497; goto v524; }
    if (!std_alloc_vec_Vec_grow_amortized_5986(v24)) goto v527;
    v530 = at(ptr, v24); v531 = at(u64, v24 + 8); goto v524;
v527:;
    if (at(u64, v24 + 16) == 0) goto v543;
    sys_rattle_dealloc(at(ptr, v24));
v543:;
    memset(v29 + 7, 0, 24u);
    v558 = 0; goto v556;
v524:;
    u64 v532 = v531 * 12u;
    at(u32_1, v530 + v532) = v499;
    at(u32_1, v530 + v532 + 4) = v500;
    at(u16_1, v530 + v532 + 8) = v518;
    at(u16_1, v530 + v532 + 10) = 0;
    u64 v537 = v531 + 1;
    at(u64, v24 + 8) = v537;
    v495 = v530; v498 = v537;
v496:;
    variation_sequences_entries_EntriesIterator_next(v26, v25);
    if (at(u8, v26) == 1) { v494 = v495; v497 = v498; goto v493; }
    u8 *v546 = at(ptr, v24);
    flag v548 = at(u64, v24 + 16) == 0;
    divided_tables_sequence_tables_table_of_a10e(v28, v546, v498);
    if (v548) goto v467;
    sys_rattle_dealloc(v546);
    goto v467;
v486:;
    at(u8, v28) = 0;
    at(ptr, v28 + 8) = v4;
    memset(v28 + 16, 0, 16u);
v467:;
    u8 v552 = at(u8, v28);
    memcpy(v29 + 7, v28 + 8, 24u);
    v558 = v552 == 0;
v556:;
    if ((v451 != 1) ? 1 : (v458 == 0)) goto v562;
    sys_rattle_dealloc(v456);
v562:;
    memcpy(v86 + 7, v29 + 7, 24u);
    if (!v558) goto v564;
    memcpy(v96, v68, 16u);
    memcpy(v97, v69, 16u);
    memcpy(v98, v70, 16u);
    memcpy(v99, v71, 16u);
    memcpy(v100, v72, 16u);
    memcpy(v101, v73, 24u);
    memcpy(v102, v86 + 7, 24u);
    v601 = 1; v602 = 0; v603 = v1; v604 = 0; v605 = 0; v606 = (u64)v2; v607 = (u64)v402; v608 = v379; v609 = v380; v610 = v381; v611 = v382; v612 = v383; v613 = v384; v614 = v385; v615 = v386; v616 = v387; v617 = v388; v618 = v389; v619 = v390; v620 = v391; v621 = v392; v622 = v393; v623 = v394; v624 = v395; v625 = v396; v626 = v397; v627 = v398; v628 = v399; v629 = v400; v630 = v401; v631 = 1; goto v141;
v454:;
v564:;
    if (!(v402 == 1)) goto v572;
    at(ptr, v87) = v379;
    at(u64, v87 + 8) = v380;
    memcpy(v87 + 16, v68, 16u);
    at(u64, v87 + 32) = v381;
    at(ptr, v87 + 40) = v382;
    at(u64, v87 + 48) = v383;
    at(u64, v87 + 56) = v384;
    at(u64, v87 + 64) = v385;
    memcpy(v87 + 72, v69, 16u);
    at(u64, v87 + 88) = v386;
    at(ptr, v87 + 96) = v387;
    at(u64, v87 + 104) = v388;
    at(u64, v87 + 112) = v389;
    at(u64, v87 + 120) = v390;
    memcpy(v87 + 128, v70, 16u);
    at(u64, v87 + 144) = v391;
    at(ptr, v87 + 152) = v392;
    at(u64, v87 + 160) = v393;
    at(u64, v87 + 168) = v394;
    at(u64, v87 + 176) = v395;
    memcpy(v87 + 184, v71, 16u);
    at(u64, v87 + 200) = v396;
    at(ptr, v87 + 208) = v397;
    at(u64, v87 + 216) = v398;
    at(u64, v87 + 224) = v399;
    at(u64, v87 + 232) = v400;
    memcpy(v87 + 240, v72, 16u);
    at(u64, v87 + 256) = v401;
    memcpy(v87 + 264, v73, 24u);
    font_subset_further_tables_FixedTables_drop(v87);
v572:;
    memset(v96, 0, 16u);
    memset(v97, 0, 16u);
    memset(v98, 0, 16u);
    memset(v99, 0, 16u);
    memset(v100, 0, 16u);
    memset(v101, 0, 24u);
    memset(v102, 0, 24u);
    v601 = 0; v602 = 0; v603 = 0; v604 = 0; v605 = 0; v606 = 0; v607 = 0; v608 = (u8 *)0; v609 = 0; v610 = 0; v611 = (u8 *)0; v612 = 0; v613 = 0; v614 = 0; v615 = 0; v616 = (u8 *)0; v617 = 0; v618 = 0; v619 = 0; v620 = 0; v621 = (u8 *)0; v622 = 0; v623 = 0; v624 = 0; v625 = 0; v626 = (u8 *)0; v627 = 0; v628 = 0; v629 = 0; v630 = 0; v631 = 0; goto v141;
v404:;
    memset(v96, 0, 16u);
    memset(v97, 0, 16u);
    memset(v98, 0, 16u);
    memset(v99, 0, 16u);
    memset(v100, 0, 16u);
    memset(v101, 0, 24u);
    memset(v102, 0, 24u);
    v601 = 0; v602 = 0; v603 = 0; v604 = 0; v605 = 0; v606 = 0; v607 = 0; v608 = (u8 *)0; v609 = 0; v610 = 0; v611 = (u8 *)0; v612 = 0; v613 = 0; v614 = 0; v615 = 0; v616 = (u8 *)0; v617 = 0; v618 = 0; v619 = 0; v620 = 0; v621 = (u8 *)0; v622 = 0; v623 = 0; v624 = 0; v625 = 0; v626 = (u8 *)0; v627 = 0; v628 = 0; v629 = 0; v630 = 0; v631 = 0;
v141:;
    memset(v17, 0, 16u);
    memset(v18, 0, 16u);
    memset(v19, 0, 16u);
    memset(v20, 0, 16u);
    memset(v21, 0, 16u);
    memset(v22, 0, 24u);
    memset(v23, 0, 24u);
    u32 v632 = (u32)v606;
    if (!v601) { v637 = 0; v638 = 0; v639 = (u8 *)0; v640 = 0; v641 = 0; v642 = (u8 *)0; v643 = 0; v644 = 0; v645 = 0; v646 = 0; v647 = (u8 *)0; v648 = 0; v649 = 0; v650 = 0; v651 = 0; v652 = (u8 *)0; v653 = 0; v654 = 0; v655 = 0; v656 = 0; v657 = (u8 *)0; v658 = 0; v659 = 0; v660 = 0; v661 = 0; v662 = 0; v663 = v602; goto v634; }
    memcpy(v17, v96, 16u);
    memcpy(v18, v97, 16u);
    memcpy(v19, v98, 16u);
    memcpy(v20, v99, 16u);
    memcpy(v21, v100, 16u);
    memcpy(v22, v101, 24u);
    memcpy(v23, v102, 24u);
    v637 = (u32)(v606 >> 32u); v638 = v607; v639 = v608; v640 = v609; v641 = v610; v642 = v611; v643 = v612; v644 = v613; v645 = v614; v646 = v615; v647 = v616; v648 = v617; v649 = v618; v650 = v619; v651 = v620; v652 = v621; v653 = v622; v654 = v623; v655 = v624; v656 = v625; v657 = v626; v658 = v627; v659 = v628; v660 = v629; v661 = v630; v662 = v631; v663 = 0;
v634:;
    memcpy(v89, v17, 16u);
    memcpy(v90, v18, 16u);
    memcpy(v91, v19, 16u);
    memcpy(v92, v20, 16u);
    memcpy(v93, v21, 16u);
    memcpy(v94, v22, 24u);
    memcpy(v95, v23, 24u);
    if (!v601) goto v665;
    at(u8, v88) = v603;
    at(u8, v88 + 1) = v604;
    store48(v88 + 2, v605);
    at(u32, v88 + 8) = v632;
    at(u32, v88 + 12) = v637;
    at(u64, v88 + 16) = v638;
    at(ptr, v88 + 24) = v639;
    at(u64, v88 + 32) = v640;
    memcpy(v88 + 40, v89, 16u);
    at(u64, v88 + 56) = v641;
    at(ptr, v88 + 64) = v642;
    at(u64, v88 + 72) = v643;
    at(u64, v88 + 80) = v644;
    at(u64, v88 + 88) = v645;
    memcpy(v88 + 96, v90, 16u);
    at(u64, v88 + 112) = v646;
    at(ptr, v88 + 120) = v647;
    at(u64, v88 + 128) = v648;
    at(u64, v88 + 136) = v649;
    at(u64, v88 + 144) = v650;
    memcpy(v88 + 152, v91, 16u);
    at(u64, v88 + 168) = v651;
    at(ptr, v88 + 176) = v652;
    at(u64, v88 + 184) = v653;
    at(u64, v88 + 192) = v654;
    at(u64, v88 + 200) = v655;
    memcpy(v88 + 208, v92, 16u);
    at(u64, v88 + 224) = v656;
    at(ptr, v88 + 232) = v657;
    at(u64, v88 + 240) = v658;
    at(u64, v88 + 248) = v659;
    at(u64, v88 + 256) = v660;
    memcpy(v88 + 264, v93, 16u);
    at(u64, v88 + 280) = v661;
    memcpy(v88 + 288, v94, 24u);
    at(u64, v88 + 312) = v662;
    memcpy(v88 + 320, v95, 24u);
    memset(v15, 0, 240u);
    at(u64, v16) = 0;
    if (!(v662 == 1)) goto v704;
    u8 *v709 = at(ptr, v88 + 320);
    u64 v711 = at(u64, v88 + 328);
    u16 v714 = at(u16, at(ptr, v88 + 8) + 64);
    memset(v13, 0, 6);
    memset(v11, 0, 31u);
    memset(v12, 0, 6);
    if (!(v711 > 9)) { v805 = 0; v806 = v4; goto v717; }
    if (!(at(u16_1, v709) == 3584u)) { v805 = 0; v806 = v4; goto v717; }
    if (!(v711 == ((u64)bswap32(at(u32_1, v709 + 2))))) { v805 = 0; v806 = v4; goto v717; }
    if (!variation_sequences_strict_is_strict(v709, v711)) { v805 = 0; v806 = v4; goto v717; }
    u64 v731 = (u64)(((u32)v711) / 5);
    memset(v10, 0, 16u);
    u64_u64 v734 = sys_rattle_alloc(v731 * 12u, 4);
    if (!(v734._0 & 1)) goto v738;
    u8 *v740 = (u8 *)v734._1;
    at(ptr, v8) = v740;
    at(u64, v8 + 8) = 0;
    at(u64, v8 + 16) = v731;
    at(ptr, v9) = v709;
    at(u64, v9 + 8) = v711;
    at(u32, v9 + 16) = 0;
    at(u32, v9 + 20) = 0;
    at(ptr, v9 + 24) = (u8 *)table_18327a07;
    at(u64, v9 + 32) = 4;
    at(ptr, v9 + 40) = (u8 *)table_18327a07;
    at(u64, v9 + 48) = 4;
    at(u32, v9 + 56) = 1114112u;
    memset(v9 + 60, 0, 28u);
    variation_sequences_entries_EntriesIterator_next(v10, v9);
    if (!(at(u8, v10) == 1)) goto v755;
    v761 = v740; v764 = 0;
v760:;
    u32 v766 = at(u32, v10 + 4);
    u32 v767 = at(u32, v10 + 8);
    u16 v769 = at(u16, v10 + 14);
    if ((at(u8, v10 + 12) == 0) ? 1 : ((v769 >= v714) | (v769 == 0))) { v762 = v761; v765 = v764; goto v763; }
    if (!(at(u64, v8 + 16) == v764)) { v785 = v761; v786 = v764; goto v779; }
    if (!std_alloc_vec_Vec_grow_amortized_5986(v8)) goto v782;
    v785 = at(ptr, v8); v786 = at(u64, v8 + 8); goto v779;
v782:;
    if (at(u64, v8 + 16) == 0) goto v738;
    sys_rattle_dealloc(at(ptr, v8));
    goto v738;
v779:;
    u64 v787 = v786 * 12u;
    at(u32_1, v785 + v787) = v766;
    at(u32_1, v785 + v787 + 4) = v767;
    at(u16_1, v785 + v787 + 8) = v769;
    at(u16_1, v785 + v787 + 10) = 0;
    u64 v792 = v786 + 1;
    at(u64, v8 + 8) = v792;
    v762 = v785; v765 = v792;
v763:;
    variation_sequences_entries_EntriesIterator_next(v10, v9);
    if (at(u8, v10) == 1) { v761 = v762; v764 = v765; goto v760; }
    u8 *v800 = at(ptr, v8);
    u64 v801 = at(u64, v8 + 16);
    memset(v5, 0, 24u);
    if (v765 == 0) { v808 = v801; v809 = v800; goto v803; }
    if (!(v765 < 0x1000000000000000u)) goto v813;
    u64_u64 v816 = sys_rattle_alloc(v765 << 3, 8);
    if (!(v816._0 & 1)) goto v813;
    u8 *v821 = (u8 *)v816._1;
    at(ptr, v5) = v821;
    at(u64, v5 + 8) = 0;
    at(u64, v5 + 16) = v765;
    v825 = v821; v828 = 0; v830 = 0;
v824:;
    u64 v832 = v830 * 12u;
    u64 v845 = ((((u64)at(u32_1, v800 + (i64)v832)) * 1114112u) + ((u64)at(u32_1, v800 + (i64)v832 + 4))) + (((u64)at(u16_1, v800 + (i64)v832 + 8)) * 0x12100000000u);
    if (!(at(u64, v5 + 16) == v828)) { v826 = v825; v854 = v828; goto v827; }
    if (!std_alloc_vec_Vec_grow_amortized_483f(v5)) goto v851;
    v826 = at(ptr, v5); v854 = at(u64, v5 + 8); goto v827;
v851:;
    if (at(u64, v5 + 16) == 0) goto v813;
    sys_rattle_dealloc(at(ptr, v5));
    goto v813;
v827:;
    at(u64, v826 + (v854 << 3)) = v845;
    u64 v829 = v854 + 1;
    at(u64, v5 + 8) = v829;
    u64 v831 = v830 + 1;
    if (v831 == v765) { v863 = v801; v864 = v765; v865 = v800; goto v810; }
    v825 = v826; v828 = v829; v830 = v831; goto v824;
v813:;
    if (v801 == 0) goto v862;
    sys_rattle_dealloc(v800);
    goto v862;
v755:;
    v805 = v731; v806 = v740; goto v717;
v738:;
v862:;
    u8 v889 = at(u8, v88 + 16);
    if ((at(u8, v88 + 312) != 1) ? 1 : (at(u64, v88 + 336) == 0)) goto v896;
    sys_rattle_dealloc(at(ptr, v88 + 320));
v896:;
    if (!(v889 == 1)) goto v901;
    font_subset_further_tables_FixedTables_drop(v88 + 24);
v901:;
    memset(v106, 0, 564u);
    v920 = 1; v921 = 0; v922 = 0; v923 = 0; v924 = 0; v925 = 0; goto v870;
v717:;
    memset(v5 + 8, 0, 16u);
    v808 = v805; v809 = v806;
v803:;
    at(ptr, v5) = v4;
    v863 = v808; v864 = 0; v865 = v809;
v810:;
    memcpy(v7 + 7, v5, 24u);
    memcpy(v6, v7 + 7, 24u);
    std_alloc_vec_Vec_sort_unstable(v6);
    memcpy(v11 + 7, v7 + 7, 24u);
    memcpy(v13, v12, 6);
    memcpy(v14, v11 + 7, 24u);
    v871 = v714; v872 = v714; v873 = v865; v874 = v864; v875 = v863; v876 = 1; goto v708;
v704:;
    u16 v707 = at(u16, at(ptr, v88 + 8) + 64);
    memset(v13, 0, 6);
    memset(v14, 0, 24u);
    v871 = v707; v872 = 0; v873 = (u8 *)0; v874 = 0; v875 = 0; v876 = 0;
v708:;
    memcpy(v16 + 18, v13, 6);
    at(u16, v16) = v871;
    at(u64, v16 + 8) = v876;
    at(u16, v16 + 16) = v872;
    at(ptr, v16 + 24) = v873;
    at(u64, v16 + 32) = v874;
    at(u64, v16 + 40) = v875;
    memcpy(v16 + 48, v14, 24u);
    divided_tables_all_tables_OpenTables_with(v15, v88, v16);
    u8 v884 = at(u8, v15);
    memcpy(v103, v15 + 8, 232u);
    if (!(v884 == 1)) goto v888;
    u8 v902 = at(u8, v88);
    u8 v903 = at(u8, v88 + 1);
    u64 v904 = load48(v88 + 2);
    u32 v905 = at(u32, v88 + 8);
    memcpy(v105, v88 + 12, 332u);
    memcpy(v105 + 332, v103, 232u);
    memcpy(v106, v105, 564u);
    v920 = 0; v921 = 0; v922 = v902; v923 = v903; v924 = v904; v925 = v905; goto v870;
v888:;
    u8 v907 = at(u8, v88 + 16);
    if ((at(u8, v88 + 312) != 1) ? 1 : (at(u64, v88 + 336) == 0)) goto v914;
    sys_rattle_dealloc(at(ptr, v88 + 320));
v914:;
    if (!(v907 == 1)) goto v919;
    font_subset_further_tables_FixedTables_drop(v88 + 24);
v919:;
    memcpy(v106, v104, 564u);
    v920 = 1; v921 = 1; v922 = 5; v923 = 0; v924 = 0; v925 = 0; goto v870;
v665:;
    memset(v106, 0, 564u);
    v920 = 1; v921 = v663; v922 = v603; v923 = v604; v924 = v605; v925 = v632;
v870:;
    v926 = v920; v927 = v921; v928 = v922; v929 = v923; v930 = v924; v931 = v925;
v119:;
    at(u32_1, v0) = v926;
    at(u32_1, v0 + 4) = v927;
    at(u8, v0 + 8) = v928;
    at(u8, v0 + 9) = v929;
    store48(v0 + 10, v930);
    at(u32_1, v0 + 16) = v931;
    memcpy(v0 + 20, v106, 564u);
    return;
}

void font_subset_font_of_kind_FontOfKind_open_f514(u8 *v0, u8 v1, u8 *v2) {
    _Alignas(4) u8 v4[1], v9[16], v10[16], v11[16], v12[16], v13[16], v14[24], v15[24], v18[16], v81[16], v82[16], v83[16], v84[16], v85[16], v86[24], v87[24], v96[564], v97[564], v98[564];
    _Alignas(8) u8 v5[80], v6[24], v7[240], v8[72], v16[24], v17[88], v19[24], v20[32], v22[56], v23[16], v24[16], v25[16], v26[16], v27[16], v28[24], v35[64], v36[64], v37[64], v38[64], v39[64], v40[16], v41[16], v42[16], v43[16], v44[16], v45[24], v52[16], v53[16], v54[16], v55[16], v56[16], v57[24], v60[16], v61[16], v62[16], v63[16], v64[16], v65[24], v66[16], v67[16], v68[16], v69[16], v70[16], v71[24], v72[16], v73[16], v74[16], v75[16], v76[16], v77[24], v79[288], v80[344], v88[16], v89[16], v90[16], v91[16], v92[16], v93[24], v94[24], v95[232], v99[576];
    u8 v21[31], v29[16], v30[16], v31[16], v32[16], v33[16], v34[24], v46[16], v47[16], v48[16], v49[16], v50[16], v51[24], v58[6], v59[6], v78[31], v126, v127, *v269, *v272, *v277, *v282, *v287, *v294, *v297, *v302, *v307, *v312, *v320, *v323, *v328, *v333, *v338, v343, v345, *v346, *v349, *v354, *v359, *v364, *v371, *v374, *v379, *v384, *v389, v394, *v436, *v486, *v522, *v487, v595, v596, *v600, *v603, *v608, *v613, *v618, *v631, *v634, *v639, *v644, *v649, v748, v749, v754, v755;
    u32 v128, v594, v629, v655, v746, v747, v751, v752, v753, v757;
    flag v268, v344, v550, v593;
    u64 v270, v271, v273, v274, v275, v276, v278, v279, v280, v281, v283, v284, v285, v286, v288, v289, v290, v291, v295, v296, v298, v299, v300, v301, v303, v304, v305, v306, v308, v309, v310, v311, v313, v314, v315, v316, v321, v322, v324, v325, v326, v327, v329, v330, v331, v332, v334, v335, v336, v337, v339, v340, v341, v342, v347, v348, v350, v351, v352, v353, v355, v356, v357, v358, v360, v361, v362, v363, v365, v366, v367, v368, v372, v373, v375, v376, v377, v378, v380, v381, v382, v383, v385, v386, v387, v388, v390, v391, v392, v393, v407, v437, v489, v523, v490, v597, v598, v599, v601, v602, v604, v605, v606, v607, v609, v610, v611, v612, v614, v615, v616, v617, v619, v620, v621, v622, v623, v630, v632, v633, v635, v636, v637, v638, v640, v641, v642, v643, v645, v646, v647, v648, v650, v651, v652, v653, v654, v750, v756;
    u16 v505, v510;
    memset(v98, 0, 564u);
    memset(v99, 0, 576u);
    if (!(v1 < 2)) goto v102;
    font_subset_font_of_kind_FontOfKind_plain(v99, v1, v2);
    u8 v103 = at(u8, v99);
    u8 v105 = at(u8, v99 + 1);
    u64 v107 = load48(v99 + 2);
    u32 v109 = at(u32, v99 + 8);
    memcpy(v98, v99 + 12, 564u);
    v752 = 0; v753 = 0; v754 = v103; v755 = v105; v756 = v107; v757 = v109; goto v111;
v102:;
    memset(v80, 0, 344u);
    memset(v81, 0, 16u);
    memset(v82, 0, 16u);
    memset(v83, 0, 16u);
    memset(v84, 0, 16u);
    memset(v85, 0, 16u);
    memset(v86, 0, 24u);
    memset(v87, 0, 24u);
    memset(v88, 0, 16u);
    memset(v89, 0, 16u);
    memset(v90, 0, 16u);
    memset(v91, 0, 16u);
    memset(v92, 0, 16u);
    memset(v93, 0, 24u);
    memset(v94, 0, 24u);
    memset(v95, 0, 232u);
    memset(v96, 0, 564u);
    memset(v97, 0, 564u);
    memset(v60, 0, 16u);
    memset(v61, 0, 16u);
    memset(v62, 0, 16u);
    memset(v63, 0, 16u);
    memset(v64, 0, 16u);
    memset(v65, 0, 24u);
    memset(v66, 0, 16u);
    memset(v67, 0, 16u);
    memset(v68, 0, 16u);
    memset(v69, 0, 16u);
    memset(v70, 0, 16u);
    memset(v71, 0, 24u);
    memset(v72, 0, 16u);
    memset(v73, 0, 16u);
    memset(v74, 0, 16u);
    memset(v75, 0, 16u);
    memset(v76, 0, 16u);
    memset(v77, 0, 24u);
    memset(v78, 0, 31u);
    memset(v79, 0, 288u);
    if (!(v1 == 3)) goto v114;
    memset(v58, 0, 6);
    sfnt_bytes_directory_Directory_check_tags(v58, v2, (u8 *)text_BASEGDEFGPOSGSUBHVARMVAR, 13u);
    v126 = at(u8, v58); v127 = at(u8, v58 + 1); v128 = at(u32_1, v58 + 2); goto v120;
v114:;
    memset(v59, 0, 6);
    sfnt_bytes_directory_Directory_check_tags(v59, v2, (u8 *)text_BASEGDEFGPOSGSUBkern, 5);
    v126 = at(u8, v59); v127 = at(u8, v59 + 1); v128 = at(u32_1, v59 + 2);
v120:;
    if (!(v126 == 1)) goto v131;
    memset(v88, 0, 16u);
    memset(v89, 0, 16u);
    memset(v90, 0, 16u);
    memset(v91, 0, 16u);
    memset(v92, 0, 16u);
    memset(v93, 0, 24u);
    memset(v94, 0, 24u);
    v593 = 0; v594 = 1; v595 = 0; v596 = v127; v597 = (u64)v128; v598 = 0; v599 = 0; v600 = (u8 *)0; v601 = 0; v602 = 0; v603 = (u8 *)0; v604 = 0; v605 = 0; v606 = 0; v607 = 0; v608 = (u8 *)0; v609 = 0; v610 = 0; v611 = 0; v612 = 0; v613 = (u8 *)0; v614 = 0; v615 = 0; v616 = 0; v617 = 0; v618 = (u8 *)0; v619 = 0; v620 = 0; v621 = 0; v622 = 0; v623 = 0; goto v133;
v131:;
    memset(v40, 0, 16u);
    memset(v41, 0, 16u);
    memset(v42, 0, 16u);
    memset(v43, 0, 16u);
    memset(v44, 0, 16u);
    memset(v45, 0, 24u);
    memset(v46, 0, 16u);
    memset(v47, 0, 16u);
    memset(v48, 0, 16u);
    memset(v49, 0, 16u);
    memset(v50, 0, 16u);
    memset(v51, 0, 24u);
    if (!(v1 == 2)) { v320 = (u8 *)0; v321 = 0; v322 = 0; v323 = (u8 *)0; v324 = 0; v325 = 0; v326 = 0; v327 = 0; v328 = (u8 *)0; v329 = 0; v330 = 0; v331 = 0; v332 = 0; v333 = (u8 *)0; v334 = 0; v335 = 0; v336 = 0; v337 = 0; v338 = (u8 *)0; v339 = 0; v340 = 0; v341 = 0; v342 = 0; v343 = 0; goto v136; }
    memset(v35, 0, 64u);
    memset(v36, 0, 64u);
    memset(v37, 0, 64u);
    memset(v38, 0, 64u);
    memset(v39, 0, 64u);
    font_subset_further_tables_FixedTable_of_1948(v35, v2, 16u);
    u8 v139 = at(u8, v35 + 32);
    if (!(at(u8, v35) == 0)) goto v142;
    u8 *v147 = at(ptr, v35 + 40);
    u64 v149 = at(u64, v35 + 48);
    u64 v151 = at(u64, v35 + 56);
    u64 v152 = (u64)at(u8, v35 + 8);
    u64 v153 = (u64)v139;
    font_subset_further_tables_FixedTable_of_1948(v36, v2, 17u);
    u8 v156 = at(u8, v36 + 32);
    if (!(at(u8, v36) == 0)) goto v159;
    u8 *v165 = at(ptr, v36 + 40);
    u64 v167 = at(u64, v36 + 48);
    u64 v169 = at(u64, v36 + 56);
    u64 v170 = (u64)at(u8, v36 + 8);
    u64 v171 = (u64)v156;
    font_subset_further_tables_FixedTable_of_1948(v37, v2, 18u);
    u8 v174 = at(u8, v37 + 32);
    if (!(at(u8, v37) == 0)) goto v177;
    u8 *v187 = at(ptr, v37 + 40);
    u64 v189 = at(u64, v37 + 48);
    u64 v191 = at(u64, v37 + 56);
    u64 v192 = (u64)at(u8, v37 + 8);
    u64 v193 = (u64)v174;
    font_subset_further_tables_FixedTable_of_1948(v38, v2, 19u);
    u8 v196 = at(u8, v38 + 8);
    u8 v198 = at(u8, v38 + 32);
    if (!(at(u8, v38) == 0)) goto v201;
    u8 *v213 = at(ptr, v38 + 40);
    u64 v215 = at(u64, v38 + 48);
    u64 v217 = at(u64, v38 + 56);
    font_subset_further_tables_FixedTable_of_1948(v39, v2, 20u);
    if (!(at(u8, v39) == 0)) goto v221;
    u64 v246 = (u64)at(u8, v39 + 8);
    u64 v247 = (u64)at(u8, v39 + 32);
    memcpy(v52, v35 + 16, 16u);
    memcpy(v53, v36 + 16, 16u);
    memcpy(v54, v37 + 16, 16u);
    memcpy(v55, v38 + 16, 16u);
    memcpy(v56, v39 + 16, 16u);
    memcpy(v57, v39 + 40, 24u);
    v268 = 1; v269 = v2; v270 = v152; v271 = v153; v272 = v147; v273 = v149; v274 = v151; v275 = v170; v276 = v171; v277 = v165; v278 = v167; v279 = v169; v280 = v192; v281 = v193; v282 = v187; v283 = v189; v284 = v191; v285 = (u64)v196; v286 = (u64)v198; v287 = v213; v288 = v215; v289 = v217; v290 = v246; v291 = v247; goto v160;
v221:;
    if ((v198 != 1) ? 1 : (v217 == 0)) goto v251;
    sys_rattle_dealloc(v213);
v251:;
    if ((v174 != 1) ? 1 : (v191 == 0)) goto v256;
    sys_rattle_dealloc(v187);
v256:;
    if ((v156 != 1) ? 1 : (v169 == 0)) goto v261;
    sys_rattle_dealloc(v165);
v261:;
    if ((v139 != 1) ? 1 : (v151 == 0)) goto v266;
    sys_rattle_dealloc(v147);
v266:;
    memset(v52, 0, 16u);
    memset(v53, 0, 16u);
    memset(v54, 0, 16u);
    memset(v55, 0, 16u);
    memset(v56, 0, 16u);
    memset(v57, 0, 24u);
    v268 = 0; v269 = (u8 *)0; v270 = 0; v271 = 0; v272 = (u8 *)0; v273 = 0; v274 = 0; v275 = 0; v276 = 0; v277 = (u8 *)0; v278 = 0; v279 = 0; v280 = 0; v281 = 0; v282 = (u8 *)0; v283 = 0; v284 = 0; v285 = 0; v286 = 0; v287 = (u8 *)0; v288 = 0; v289 = 0; v290 = 0; v291 = 0; goto v160;
v201:;
    if ((v174 != 1) ? 1 : (v191 == 0)) goto v225;
    sys_rattle_dealloc(v187);
v225:;
    if ((v156 != 1) ? 1 : (v169 == 0)) goto v230;
    sys_rattle_dealloc(v165);
v230:;
    if ((v139 != 1) ? 1 : (v151 == 0)) goto v235;
    sys_rattle_dealloc(v147);
v235:;
    memset(v52, 0, 16u);
    memset(v53, 0, 16u);
    memset(v54, 0, 16u);
    memset(v55, 0, 16u);
    memset(v56, 0, 16u);
    memset(v57, 0, 24u);
    v268 = 0; v269 = (u8 *)0; v270 = 0; v271 = 0; v272 = (u8 *)0; v273 = 0; v274 = 0; v275 = 0; v276 = 0; v277 = (u8 *)0; v278 = 0; v279 = 0; v280 = 0; v281 = 0; v282 = (u8 *)0; v283 = 0; v284 = 0; v285 = 0; v286 = 0; v287 = (u8 *)0; v288 = 0; v289 = 0; v290 = 0; v291 = 0; goto v160;
v177:;
    if ((v156 != 1) ? 1 : (v169 == 0)) goto v205;
    sys_rattle_dealloc(v165);
v205:;
    if ((v139 != 1) ? 1 : (v151 == 0)) goto v210;
    sys_rattle_dealloc(v147);
v210:;
    memset(v52, 0, 16u);
    memset(v53, 0, 16u);
    memset(v54, 0, 16u);
    memset(v55, 0, 16u);
    memset(v56, 0, 16u);
    memset(v57, 0, 24u);
    v268 = 0; v269 = (u8 *)0; v270 = 0; v271 = 0; v272 = (u8 *)0; v273 = 0; v274 = 0; v275 = 0; v276 = 0; v277 = (u8 *)0; v278 = 0; v279 = 0; v280 = 0; v281 = 0; v282 = (u8 *)0; v283 = 0; v284 = 0; v285 = 0; v286 = 0; v287 = (u8 *)0; v288 = 0; v289 = 0; v290 = 0; v291 = 0; goto v160;
v159:;
    if ((v139 != 1) ? 1 : (v151 == 0)) goto v181;
    sys_rattle_dealloc(v147);
v181:;
    memset(v52, 0, 16u);
    memset(v53, 0, 16u);
    memset(v54, 0, 16u);
    memset(v55, 0, 16u);
    memset(v56, 0, 16u);
    memset(v57, 0, 24u);
    v268 = 0; v269 = (u8 *)0; v270 = 0; v271 = 0; v272 = (u8 *)0; v273 = 0; v274 = 0; v275 = 0; v276 = 0; v277 = (u8 *)0; v278 = 0; v279 = 0; v280 = 0; v281 = 0; v282 = (u8 *)0; v283 = 0; v284 = 0; v285 = 0; v286 = 0; v287 = (u8 *)0; v288 = 0; v289 = 0; v290 = 0; v291 = 0; goto v160;
v142:;
    memset(v52, 0, 16u);
    memset(v53, 0, 16u);
    memset(v54, 0, 16u);
    memset(v55, 0, 16u);
    memset(v56, 0, 16u);
    memset(v57, 0, 24u);
    v268 = 0; v269 = (u8 *)0; v270 = 0; v271 = 0; v272 = (u8 *)0; v273 = 0; v274 = 0; v275 = 0; v276 = 0; v277 = (u8 *)0; v278 = 0; v279 = 0; v280 = 0; v281 = 0; v282 = (u8 *)0; v283 = 0; v284 = 0; v285 = 0; v286 = 0; v287 = (u8 *)0; v288 = 0; v289 = 0; v290 = 0; v291 = 0;
v160:;
    memset(v29, 0, 16u);
    memset(v30, 0, 16u);
    memset(v31, 0, 16u);
    memset(v32, 0, 16u);
    memset(v33, 0, 16u);
    memset(v34, 0, 24u);
    if (!v268) { v294 = (u8 *)0; v295 = 0; v296 = 0; v297 = (u8 *)0; v298 = 0; v299 = 0; v300 = 0; v301 = 0; v302 = (u8 *)0; v303 = 0; v304 = 0; v305 = 0; v306 = 0; v307 = (u8 *)0; v308 = 0; v309 = 0; v310 = 0; v311 = 0; v312 = (u8 *)0; v313 = 0; v314 = 0; v315 = 0; v316 = 0; goto v293; }
    memcpy(v29, v52, 16u);
    memcpy(v30, v53, 16u);
    memcpy(v31, v54, 16u);
    memcpy(v32, v55, 16u);
    memcpy(v33, v56, 16u);
    memcpy(v34, v57, 24u);
    v294 = v269; v295 = v270; v296 = v271; v297 = v272; v298 = v273; v299 = v274; v300 = v275; v301 = v276; v302 = v277; v303 = v278; v304 = v279; v305 = v280; v306 = v281; v307 = v282; v308 = v283; v309 = v284; v310 = v285; v311 = v286; v312 = v287; v313 = v288; v314 = v289; v315 = v290; v316 = v291;
v293:;
    memcpy(v46, v29, 16u);
    memcpy(v47, v30, 16u);
    memcpy(v48, v31, 16u);
    memcpy(v49, v32, 16u);
    memcpy(v50, v33, 16u);
    memcpy(v51, v34, 24u);
    if (!v268) goto v318;
    memcpy(v40, v46, 16u);
    memcpy(v41, v47, 16u);
    memcpy(v42, v48, 16u);
    memcpy(v43, v49, 16u);
    memcpy(v44, v50, 16u);
    memcpy(v45, v51, 24u);
    v320 = v294; v321 = v295; v322 = v296; v323 = v297; v324 = v298; v325 = v299; v326 = v300; v327 = v301; v328 = v302; v329 = v303; v330 = v304; v331 = v305; v332 = v306; v333 = v307; v334 = v308; v335 = v309; v336 = v310; v337 = v311; v338 = v312; v339 = v313; v340 = v314; v341 = v315; v342 = v316; v343 = 1; goto v136;
v318:;
    memset(v72, 0, 16u);
    memset(v73, 0, 16u);
    memset(v74, 0, 16u);
    memset(v75, 0, 16u);
    memset(v76, 0, 16u);
    memset(v77, 0, 24u);
    v344 = 0; v345 = 0; v346 = (u8 *)0; v347 = 0; v348 = 0; v349 = (u8 *)0; v350 = 0; v351 = 0; v352 = 0; v353 = 0; v354 = (u8 *)0; v355 = 0; v356 = 0; v357 = 0; v358 = 0; v359 = (u8 *)0; v360 = 0; v361 = 0; v362 = 0; v363 = 0; v364 = (u8 *)0; v365 = 0; v366 = 0; v367 = 0; v368 = 0; goto v319;
v136:;
    memcpy(v72, v40, 16u);
    memcpy(v73, v41, 16u);
    memcpy(v74, v42, 16u);
    memcpy(v75, v43, 16u);
    memcpy(v76, v44, 16u);
    memcpy(v77, v45, 24u);
    v344 = 1; v345 = v343; v346 = v320; v347 = v321; v348 = v322; v349 = v323; v350 = v324; v351 = v325; v352 = v326; v353 = v327; v354 = v328; v355 = v329; v356 = v330; v357 = v331; v358 = v332; v359 = v333; v360 = v334; v361 = v335; v362 = v336; v363 = v337; v364 = v338; v365 = v339; v366 = v340; v367 = v341; v368 = v342;
v319:;
    memset(v23, 0, 16u);
    memset(v24, 0, 16u);
    memset(v25, 0, 16u);
    memset(v26, 0, 16u);
    memset(v27, 0, 16u);
    memset(v28, 0, 24u);
    if (!v344) { v371 = (u8 *)0; v372 = 0; v373 = 0; v374 = (u8 *)0; v375 = 0; v376 = 0; v377 = 0; v378 = 0; v379 = (u8 *)0; v380 = 0; v381 = 0; v382 = 0; v383 = 0; v384 = (u8 *)0; v385 = 0; v386 = 0; v387 = 0; v388 = 0; v389 = (u8 *)0; v390 = 0; v391 = 0; v392 = 0; v393 = 0; v394 = 0; goto v370; }
    memcpy(v23, v72, 16u);
    memcpy(v24, v73, 16u);
    memcpy(v25, v74, 16u);
    memcpy(v26, v75, 16u);
    memcpy(v27, v76, 16u);
    memcpy(v28, v77, 24u);
    v371 = v346; v372 = v347; v373 = v348; v374 = v349; v375 = v350; v376 = v351; v377 = v352; v378 = v353; v379 = v354; v380 = v355; v381 = v356; v382 = v357; v383 = v358; v384 = v359; v385 = v360; v386 = v361; v387 = v362; v388 = v363; v389 = v364; v390 = v365; v391 = v366; v392 = v367; v393 = v368; v394 = v345;
v370:;
    memcpy(v66, v23, 16u);
    memcpy(v67, v24, 16u);
    memcpy(v68, v25, 16u);
    memcpy(v69, v26, 16u);
    memcpy(v70, v27, 16u);
    memcpy(v71, v28, 24u);
    if (!v344) goto v396;
    memcpy(v60, v66, 16u);
    memcpy(v61, v67, 16u);
    memcpy(v62, v68, 16u);
    memcpy(v63, v69, 16u);
    memcpy(v64, v70, 16u);
    memcpy(v65, v71, 24u);
    memset(v21, 0, 31u);
    memset(v22, 0, 56u);
    u8 *v397 = at(ptr_1, v2);
    u16 v399 = at(u16_1, v397 + 4);
    u64 v401 = (u64)bswap16(v399);
    if (v399 == 0) { v436 = (u8 *)table_55ba7287; v437 = 0; goto v403; }
    v407 = 0;
v404:;
    u64 v409 = v407 << 4;
    if (!((((at(u8, v397 + (i64)v409 + 12) == 99u) & (at(u8, v397 + (i64)v409 + 13) == 109u)) & (at(u8, v397 + (i64)v409 + 14) == 97u)) & (at(u8, v397 + (i64)v409 + 15) == 112u))) goto v405;
    v436 = v397 + (i64)((u64)bswap32(at(u32_1, v397 + (i64)v409 + 20))); v437 = (u64)bswap32(at(u32_1, v397 + (i64)v409 + 24)); goto v403;
v405:;
    u64 v406 = v407 + 1;
    if (v406 == v401) { v436 = (u8 *)table_55ba7287; v437 = 0; } else { v407 = v406; goto v404; }
v403:;
    font_map_chart_Chart_of_3518(v22, v2 + 72);
    u64 v441 = at(u64, v22 + 8);
    u8 v443 = at(u8, v22 + 16);
    if (!(at(u8, v22) == 0)) goto v446;
    u8 *v448 = at(ptr, v22 + 24);
    u64 v450 = at(u64, v22 + 40);
    u16 v452 = at(u16, v2 + 64);
    memset(v20, 0, 32u);
    memset(v19, 0, 24u);
    variation_sequences_format14_Sequences_open(v19, v436, v437);
    if (!(at(u8, v19) == 0)) goto v456;
    at(u8, v20) = 0;
    at(ptr, v20 + 8) = v4;
    memset(v20 + 16, 0, 16u);
    goto v459;
v456:;
    u8 *v461 = at(ptr, v19 + 8);
    u64 v463 = at(u64, v19 + 16);
    memset(v18, 0, 16u);
    at(ptr, v16) = v4;
    memset(v16 + 8, 0, 16u);
    at(ptr, v17) = v461;
    at(u64, v17 + 8) = v463;
    at(u32, v17 + 16) = 0;
    at(u32, v17 + 20) = 0;
    at(ptr, v17 + 24) = (u8 *)table_18327a07;
    at(u64, v17 + 32) = 4;
    at(ptr, v17 + 40) = (u8 *)table_18327a07;
    at(u64, v17 + 48) = 4;
    at(u32, v17 + 56) = 1114112u;
    memset(v17 + 60, 0, 28u);
    variation_sequences_entries_EntriesIterator_next(v18, v17);
    if (!(at(u8, v18) == 1)) goto v478;
    flag v483 = v443 == 1;
    u8 *v484 = (u8 *)v441;
    v486 = v4; v489 = 0;
v485:;
    u32 v491 = at(u32, v18 + 4);
    u32 v492 = at(u32, v18 + 8);
    u8 v493 = at(u8, v18 + 12);
    u16 v494 = at(u16, v18 + 14);
    if (!v483) goto v496;
    if (!(v492 < 1114112u)) { v505 = 0; goto v499; }
    v505 = at(u16, v448 + (i64)((u64)(v492 << 1))); goto v499;
v496:;
    u16 v504 = font_map_mapping_Mapping_glyph(v484, v492);
    v505 = v504;
v499:;
    if (v493 == 0) { v510 = v505; goto v507; }
    if (v494 < v452) v510 = v494; else { v487 = v486; v490 = v489; goto v488; }
v507:;
    if (v510 == 0) { v487 = v486; v490 = v489; goto v488; }
    if (!(at(u64, v16 + 16) == v489)) { v522 = v486; v523 = v489; goto v516; }
    if (!std_alloc_vec_Vec_grow_amortized_5986(v16)) goto v519;
    v522 = at(ptr, v16); v523 = at(u64, v16 + 8); goto v516;
v519:;
    if (at(u64, v16 + 16) == 0) goto v535;
    sys_rattle_dealloc(at(ptr, v16));
v535:;
    memset(v21 + 7, 0, 24u);
    v550 = 0; goto v548;
v516:;
    u64 v524 = v523 * 12u;
    at(u32_1, v522 + v524) = v491;
    at(u32_1, v522 + v524 + 4) = v492;
    at(u16_1, v522 + v524 + 8) = v510;
    at(u16_1, v522 + v524 + 10) = 0;
    u64 v529 = v523 + 1;
    at(u64, v16 + 8) = v529;
    v487 = v522; v490 = v529;
v488:;
    variation_sequences_entries_EntriesIterator_next(v18, v17);
    if (at(u8, v18) == 1) { v486 = v487; v489 = v490; goto v485; }
    u8 *v538 = at(ptr, v16);
    flag v540 = at(u64, v16 + 16) == 0;
    divided_tables_sequence_tables_table_of_a10e(v20, v538, v490);
    if (v540) goto v459;
    sys_rattle_dealloc(v538);
    goto v459;
v478:;
    at(u8, v20) = 0;
    at(ptr, v20 + 8) = v4;
    memset(v20 + 16, 0, 16u);
v459:;
    u8 v544 = at(u8, v20);
    memcpy(v21 + 7, v20 + 8, 24u);
    v550 = v544 == 0;
v548:;
    if ((v443 != 1) ? 1 : (v450 == 0)) goto v554;
    sys_rattle_dealloc(v448);
v554:;
    memcpy(v78 + 7, v21 + 7, 24u);
    if (!v550) goto v556;
    memcpy(v88, v60, 16u);
    memcpy(v89, v61, 16u);
    memcpy(v90, v62, 16u);
    memcpy(v91, v63, 16u);
    memcpy(v92, v64, 16u);
    memcpy(v93, v65, 24u);
    memcpy(v94, v78 + 7, 24u);
    v593 = 1; v594 = 0; v595 = v1; v596 = 0; v597 = 0; v598 = (u64)v2; v599 = (u64)v394; v600 = v371; v601 = v372; v602 = v373; v603 = v374; v604 = v375; v605 = v376; v606 = v377; v607 = v378; v608 = v379; v609 = v380; v610 = v381; v611 = v382; v612 = v383; v613 = v384; v614 = v385; v615 = v386; v616 = v387; v617 = v388; v618 = v389; v619 = v390; v620 = v391; v621 = v392; v622 = v393; v623 = 1; goto v133;
v446:;
v556:;
    if (!(v394 == 1)) goto v564;
    at(ptr, v79) = v371;
    at(u64, v79 + 8) = v372;
    memcpy(v79 + 16, v60, 16u);
    at(u64, v79 + 32) = v373;
    at(ptr, v79 + 40) = v374;
    at(u64, v79 + 48) = v375;
    at(u64, v79 + 56) = v376;
    at(u64, v79 + 64) = v377;
    memcpy(v79 + 72, v61, 16u);
    at(u64, v79 + 88) = v378;
    at(ptr, v79 + 96) = v379;
    at(u64, v79 + 104) = v380;
    at(u64, v79 + 112) = v381;
    at(u64, v79 + 120) = v382;
    memcpy(v79 + 128, v62, 16u);
    at(u64, v79 + 144) = v383;
    at(ptr, v79 + 152) = v384;
    at(u64, v79 + 160) = v385;
    at(u64, v79 + 168) = v386;
    at(u64, v79 + 176) = v387;
    memcpy(v79 + 184, v63, 16u);
    at(u64, v79 + 200) = v388;
    at(ptr, v79 + 208) = v389;
    at(u64, v79 + 216) = v390;
    at(u64, v79 + 224) = v391;
    at(u64, v79 + 232) = v392;
    memcpy(v79 + 240, v64, 16u);
    at(u64, v79 + 256) = v393;
    memcpy(v79 + 264, v65, 24u);
    font_subset_further_tables_FixedTables_drop(v79);
v564:;
    memset(v88, 0, 16u);
    memset(v89, 0, 16u);
    memset(v90, 0, 16u);
    memset(v91, 0, 16u);
    memset(v92, 0, 16u);
    memset(v93, 0, 24u);
    memset(v94, 0, 24u);
    v593 = 0; v594 = 0; v595 = 0; v596 = 0; v597 = 0; v598 = 0; v599 = 0; v600 = (u8 *)0; v601 = 0; v602 = 0; v603 = (u8 *)0; v604 = 0; v605 = 0; v606 = 0; v607 = 0; v608 = (u8 *)0; v609 = 0; v610 = 0; v611 = 0; v612 = 0; v613 = (u8 *)0; v614 = 0; v615 = 0; v616 = 0; v617 = 0; v618 = (u8 *)0; v619 = 0; v620 = 0; v621 = 0; v622 = 0; v623 = 0; goto v133;
v396:;
    memset(v88, 0, 16u);
    memset(v89, 0, 16u);
    memset(v90, 0, 16u);
    memset(v91, 0, 16u);
    memset(v92, 0, 16u);
    memset(v93, 0, 24u);
    memset(v94, 0, 24u);
    v593 = 0; v594 = 0; v595 = 0; v596 = 0; v597 = 0; v598 = 0; v599 = 0; v600 = (u8 *)0; v601 = 0; v602 = 0; v603 = (u8 *)0; v604 = 0; v605 = 0; v606 = 0; v607 = 0; v608 = (u8 *)0; v609 = 0; v610 = 0; v611 = 0; v612 = 0; v613 = (u8 *)0; v614 = 0; v615 = 0; v616 = 0; v617 = 0; v618 = (u8 *)0; v619 = 0; v620 = 0; v621 = 0; v622 = 0; v623 = 0;
v133:;
    memset(v9, 0, 16u);
    memset(v10, 0, 16u);
    memset(v11, 0, 16u);
    memset(v12, 0, 16u);
    memset(v13, 0, 16u);
    memset(v14, 0, 24u);
    memset(v15, 0, 24u);
    u32 v624 = (u32)v598;
    if (!v593) { v629 = 0; v630 = 0; v631 = (u8 *)0; v632 = 0; v633 = 0; v634 = (u8 *)0; v635 = 0; v636 = 0; v637 = 0; v638 = 0; v639 = (u8 *)0; v640 = 0; v641 = 0; v642 = 0; v643 = 0; v644 = (u8 *)0; v645 = 0; v646 = 0; v647 = 0; v648 = 0; v649 = (u8 *)0; v650 = 0; v651 = 0; v652 = 0; v653 = 0; v654 = 0; v655 = v594; goto v626; }
    memcpy(v9, v88, 16u);
    memcpy(v10, v89, 16u);
    memcpy(v11, v90, 16u);
    memcpy(v12, v91, 16u);
    memcpy(v13, v92, 16u);
    memcpy(v14, v93, 24u);
    memcpy(v15, v94, 24u);
    v629 = (u32)(v598 >> 32u); v630 = v599; v631 = v600; v632 = v601; v633 = v602; v634 = v603; v635 = v604; v636 = v605; v637 = v606; v638 = v607; v639 = v608; v640 = v609; v641 = v610; v642 = v611; v643 = v612; v644 = v613; v645 = v614; v646 = v615; v647 = v616; v648 = v617; v649 = v618; v650 = v619; v651 = v620; v652 = v621; v653 = v622; v654 = v623; v655 = 0;
v626:;
    memcpy(v81, v9, 16u);
    memcpy(v82, v10, 16u);
    memcpy(v83, v11, 16u);
    memcpy(v84, v12, 16u);
    memcpy(v85, v13, 16u);
    memcpy(v86, v14, 24u);
    memcpy(v87, v15, 24u);
    if (!v593) goto v657;
    at(u8, v80) = v595;
    at(u8, v80 + 1) = v596;
    store48(v80 + 2, v597);
    at(u32, v80 + 8) = v624;
    at(u32, v80 + 12) = v629;
    at(u64, v80 + 16) = v630;
    at(ptr, v80 + 24) = v631;
    at(u64, v80 + 32) = v632;
    memcpy(v80 + 40, v81, 16u);
    at(u64, v80 + 56) = v633;
    at(ptr, v80 + 64) = v634;
    at(u64, v80 + 72) = v635;
    at(u64, v80 + 80) = v636;
    at(u64, v80 + 88) = v637;
    memcpy(v80 + 96, v82, 16u);
    at(u64, v80 + 112) = v638;
    at(ptr, v80 + 120) = v639;
    at(u64, v80 + 128) = v640;
    at(u64, v80 + 136) = v641;
    at(u64, v80 + 144) = v642;
    memcpy(v80 + 152, v83, 16u);
    at(u64, v80 + 168) = v643;
    at(ptr, v80 + 176) = v644;
    at(u64, v80 + 184) = v645;
    at(u64, v80 + 192) = v646;
    at(u64, v80 + 200) = v647;
    memcpy(v80 + 208, v84, 16u);
    at(u64, v80 + 224) = v648;
    at(ptr, v80 + 232) = v649;
    at(u64, v80 + 240) = v650;
    at(u64, v80 + 248) = v651;
    at(u64, v80 + 256) = v652;
    memcpy(v80 + 264, v85, 16u);
    at(u64, v80 + 280) = v653;
    memcpy(v80 + 288, v86, 24u);
    at(u64, v80 + 312) = v654;
    memcpy(v80 + 320, v87, 24u);
    memset(v5, 0, 80u);
    at(u64, v8) = 0;
    flag v694 = v654 == 1;
    u8 *v695 = at(ptr, v80 + 320);
    u64 v699 = v694 ? at(u64, v80 + 328) : 0;
    at(u64, v6) = v654;
    at(ptr, v6 + 8) = v694 ? v695 : ((u8 *)0);
    at(u64, v6 + 16) = v699;
    u8 *v702 = at(ptr, v80 + 8);
    divided_tables_held_sequences_HeldSequences_open(v5, v6, at(u16, v702 + 64));
    u32 v708 = (u32)((u64)v702);
    if (!(at(u8, v5) == 0)) goto v710;
    u64 v717 = (u64)at(u8, v5 + 16);
    at(u16, v8) = at(u16, v5 + 8);
    at(u64, v8 + 8) = v717;
    memcpy(v8 + 16, v5 + 24, 56u);
    divided_tables_all_tables_OpenTables_with(v7, v80, v8);
    u8 v720 = at(u8, v7);
    memcpy(v95, v7 + 8, 232u);
    if (!(v720 == 1)) goto v724;
    memcpy(v97, v80 + 12, 332u);
    memcpy(v97 + 332, v95, 232u);
    memcpy(v98, v97, 564u);
    v746 = 0; v747 = 0; v748 = v595; v749 = v596; v750 = v597; v751 = v708; goto v711;
v724:;
    if ((v654 != 1) ? 1 : (at(u64, v80 + 336) == 0)) goto v741;
    sys_rattle_dealloc(v695);
v741:;
    if (!(v630 == 1)) goto v745;
    font_subset_further_tables_FixedTables_drop(v80 + 24);
v745:;
    memcpy(v98, v96, 564u);
    v746 = 1; v747 = 1; v748 = 5; v749 = 0; v750 = 0; v751 = 0; goto v711;
v710:;
    if ((v654 != 1) ? 1 : (at(u64, v80 + 336) == 0)) goto v730;
    sys_rattle_dealloc(v695);
v730:;
    if (!(v630 == 1)) goto v734;
    font_subset_further_tables_FixedTables_drop(v80 + 24);
v734:;
    memset(v98, 0, 564u);
    v746 = 1; v747 = 0; v748 = 0; v749 = 0; v750 = 0; v751 = 0; goto v711;
v657:;
    memset(v98, 0, 564u);
    v746 = 1; v747 = v655; v748 = v595; v749 = v596; v750 = v597; v751 = v624;
v711:;
    v752 = v746; v753 = v747; v754 = v748; v755 = v749; v756 = v750; v757 = v751;
v111:;
    at(u32_1, v0) = v752;
    at(u32_1, v0 + 4) = v753;
    at(u8, v0 + 8) = v754;
    at(u8, v0 + 9) = v755;
    store48(v0 + 10, v756);
    at(u32_1, v0 + 16) = v757;
    memcpy(v0 + 20, v98, 564u);
    return;
}

void font_subset_font_of_kind_FontOfKind_plain(u8 *v0, u8 v1, u8 *v2) {
    _Alignas(8) u8 v4[24], v5[80], v6[24], v7[40], v8[40], v9[72], v10[64], v12[344], v14[408];
    _Alignas(2) u8 v11[6], v13[6];
    u64 v41;
    memset(v13, 0, 6);
    memset(v14, 0, 408u);
    at(u8, v12) = v1;
    memset(v12 + 1, 0, 7);
    at(ptr, v12 + 8) = v2;
    memset(v12 + 16, 0, 328u);
    u16 v19 = at(u16, v2 + 64);
    memset(v7, 0, 40u);
    memset(v8, 0, 40u);
    divided_tables_metrics_MetricsOpenFrom_open_543f(v7, v12);
    if (!(at(u8, v7) == 1)) goto v23;
    divided_tables_metrics_MetricsOpenFrom_open_5adc(v8, v12);
    if (!(at(u8, v8) == 1)) goto v23;
    memset(v4, 0, 24u);
    memset(v5, 0, 80u);
    memset(v6, 0, 24u);
    font_subset_further_tables_FurtherTablesTablesBySlot_table_1234(v4, v12, 28u);
    if (!(at(u8, v4) == 1)) goto v30;
    u8 *v32 = at(ptr, v4 + 8);
    u64 v34 = at(u64, v4 + 16);
    font_subset_further_tables_FurtherTablesTablesBySlot_table_1234(v6, v12, 27u);
    font_variations_gvar_Variations_open(v5, v32, v34, v6, v19);
    if (!(at(u8, v5) == 1)) goto v38;
    memcpy(v9, v5 + 8, 72u);
    v41 = 1; goto v39;
v38:;
    goto v23;
v30:;
    memset(v9, 0, 72u);
    v41 = 0;
v39:;
    memcpy(v10, v7 + 8, 32u);
    memcpy(v10 + 32, v8 + 8, 32u);
    memset(v11, 0, 6);
    memcpy(v13, v11, 6);
    memcpy(v14, v12, 344u);
    memcpy(v14 + 344, v10, 64u);
    memcpy(v0, v14, 408u);
    at(u16_1, v0 + 408) = v19;
    at(u64_1, v0 + 410) = ((u64)v19) << 48u;
    memcpy(v0 + 418, v13, 6);
    memset(v0 + 424, 0, 64u);
    at(u64_1, v0 + 488) = v41;
    memcpy(v0 + 496, v9, 72u);
    at(u16_1, v0 + 568) = v19;
    memset(v0 + 570, 0, 6);
    return;
v23:;
    memset(v10, 0, 64u);
    memset(v11, 0, 6);
    memset(v9, 0, 72u);
    memcpy(v13, v11, 6);
    __builtin_trap();
    __builtin_trap();
}

void font_subset_font_to_cut_FontToCut_numbers_beside_19bd(u8 *v0, u8 *v1, u8 *v2, u8 *v3) {
    _Alignas(2) u8 v5[1];
    _Alignas(8) u8 v6[24], v7[32], v8[24], v9[24];
    u8 *v104, *v197, *v219, *v198, *v240, *v243, *v275, *v280, *v302, *v276, *v281, *v241, *v244, *v418, *v428, *v473, *v474, *v546, *v63, v72, v73, *v74;
    u64 v124, v135, v138, v146, v148, v157, v194, v199, v220, v195, v245, v265, v266, v278, v282, v303, v279, v246, v343, v356, v359, v370, v372, v406, v416, v420, v419, v439, v446, v459, v463, v470, v476, v478, v490, v504, v511, v524, v527, v479, v535, v547, v548, v52, v61, v65, v64, v75;
    u8x16 v448, v513;
    u8 v10 = at(u8, v3);
    u8 *v12 = at(ptr_1, v3 + 8);
    u64 v13 = (u64)v12;
    u64 v15 = at(u64_1, v3 + 16);
    flag v19 = v10 == 1;
    if (!(at(u8, v1 + 576) == 1)) goto v21;
    if (!v19) { v546 = (u8 *)0; v547 = 0; v548 = 0; goto v23; }
    memset(v9, 0, 24u);
    u16 v85 = at(u16, at(ptr, v1 + 8) + 64);
    u8 *v87 = at(ptr, v2 + 120);
    u64 v88 = (u64)v87;
    u64 v90 = at(u64, v2 + 128);
    flag v91 = v90 == 0;
    if (v91) { v104 = v5; goto v92; }
    if (!((i64)v90 > (i64)0xffffffffffffffffu)) goto v96;
    u64_u64 v98 = sys_rattle_alloc(v90, 1);
    if (!(v98._0 & 1)) goto v96;
    v104 = (u8 *)v98._1;
v92:;
    if (!((((u64)v104) - ((u64)v87)) < v90)) goto v110;
    if ((v90 < 4) | ((((u64)v104) - v88) < 32u)) { v146 = 0; goto v116; }
    if (v90 < 16u) { v135 = 0; goto v119; }
    u64 v121 = v90 & 12u;
    u64 v122 = v90 & 0xfffffffffffffff0u;
    v124 = 0;
v123:;
    at(u8x16_1, v104 + v124) = at(u8x16_1, v87 + v124);
    u64 v125 = v124 + 16u;
    if (!(v125 == v122)) { v124 = v125; goto v123; }
    if (v90 == v122) goto v132;
    if (v121 == 0) { v146 = v122; goto v116; }
    v135 = v122;
v119:;
    u64 v136 = v90 & 0xfffffffffffffffcu;
    v138 = v135;
v137:;
    at(u8x4_1, v104 + v138) = at(u8x4_1, v87 + v138);
    u64 v139 = v138 + 4;
    if (!(v139 == v136)) { v138 = v139; goto v137; }
    if (v90 == v136) goto v132;
    v146 = v136;
v116:;
    v148 = v146;
v147:;
    at(u8, v104 + v148) = at(u8, v87 + v148);
    u64 v149 = v148 + 1;
    if (v149 == v90) goto v132;
    v148 = v149; goto v147;
v110:;
    memmove_any(v104, v87, v90);
v132:;
    flag v154 = v15 == 0;
    if (v154) goto v155;
    v157 = 0;
v156:;
    u16 v162 = at(u16, v12 + (i64)(v157 << 1));
    if (!(v162 < v85)) goto v159;
    at(u8, v104 + (i64)((u64)v162)) = 1;
v159:;
    u64 v158 = v157 + 1;
    if (!(v158 == v15)) { v157 = v158; goto v156; }
v155:;
    at(ptr, v8) = v104;
    at(u64, v8 + 8) = v90;
    at(u64, v8 + 16) = v90;
    memset(v7, 0, 32u);
    font_glyph_closure_marked_6b3c(v7, v8, v85);
    if (!(at(u8, v7) == 0)) goto v173;
    u8 *v175 = at(ptr, v7 + 8);
    u64 v177 = at(u64, v7 + 16);
    u64 v179 = at(u64, v7 + 24);
    u64_u64 v181 = sys_rattle_alloc(65536u, 1);
    if (!(v181._0 & 1)) goto v185;
    u8 *v187 = (u8 *)v181._1;
    memset(v187, 0, 65536u);
    at(ptr, v6) = v5;
    memset(v6 + 8, 0, 16u);
    if (v177 == 0) goto v190;
    v194 = 0; v197 = v5; v199 = 0;
v193:;
    u64 v201 = v199 << 1;
    u64 v204 = (u64)at(u16, v175 + (i64)v201);
    if (at(u8, v187 + (i64)v204) & 1) { v195 = v194; v198 = v197; goto v196; }
    at(u8, v187 + (i64)v204) = 1;
    u16 v209 = at(u16, v175 + (i64)v201);
    if (!(at(u64, v6 + 16) == v194)) { v219 = v197; v220 = v194; goto v213; }
    if (!std_alloc_vec_Vec_grow_amortized_1aee(v6, 1)) goto v216;
    v219 = at(ptr, v6); v220 = at(u64, v6 + 8); goto v213;
v216:;
    if (at(u64, v6 + 16) == 0) goto v236;
    sys_rattle_dealloc(at(ptr, v6));
v236:;
    sys_rattle_dealloc(v187);
    if (v179 == 0) goto v173;
    goto v233;
v213:;
    at(u16, v219 + (v220 << 1)) = v209;
    u64 v223 = v220 + 1;
    at(u64, v6 + 8) = v223;
    v195 = v223; v198 = v219;
v196:;
    u64 v200 = v199 + 1;
    if (!(v200 == v177)) { v194 = v195; v197 = v198; v199 = v200; goto v193; }
    if (v195 == 0) goto v190;
    u8 *v230 = at(ptr, v6);
    v240 = v230; v243 = v230; v245 = v195;
v231:;
    u64 v247 = v245 - 1;
    at(u64, v6 + 8) = v247;
    u16 v250 = at(u16, v243 + (v247 << 1));
    u64 v251 = (u64)v250;
    if (!(at(u64, v1 + 592) > v251)) { v246 = v247; v241 = v240; v244 = v243; goto v242; }
    u8 *v255 = at(ptr, v1 + 584);
    u8 *v256 = at(ptr, v1 + 608);
    if (v250 == 0) { v265 = 0; v266 = 0; goto v258; }
    u64 v260 = v251 << 2;
    v265 = v260; v266 = (u64)at(u32, v255 + (i64)v260 - 4);
v258:;
    u64 v269 = (u64)at(u32, v255 + v265);
    u64 v270 = v266 << 1;
    u64 v272 = v269 - v266;
    if (v266 == v269) { v246 = v247; v241 = v240; v244 = v243; goto v242; }
    v275 = v240; v278 = v247; v280 = v243; v282 = 0;
v274:;
    u64 v284 = v282 << 1;
    u64 v287 = (u64)at(u16, (v256 + (i64)v270) + (i64)v284);
    if (at(u8, v187 + (i64)v287) & 1) { v276 = v275; v279 = v278; v281 = v280; goto v277; }
    at(u8, v187 + (i64)v287) = 1;
    u16 v292 = at(u16, (v256 + (i64)v270) + (i64)v284);
    if (!(at(u64, v6 + 16) == v278)) { v302 = v275; v303 = v278; goto v296; }
    if (!std_alloc_vec_Vec_grow_amortized_1aee(v6, 1)) goto v299;
    v302 = at(ptr, v6); v303 = at(u64, v6 + 8); goto v296;
v299:;
    if (at(u64, v6 + 16) == 0) goto v311;
    sys_rattle_dealloc(at(ptr, v6));
v311:;
    sys_rattle_dealloc(v187);
    if (v179 == 0) goto v173;
    goto v233;
v296:;
    at(u16, v302 + (v303 << 1)) = v292;
    u64 v306 = v303 + 1;
    at(u64, v6 + 8) = v306;
    v276 = v302; v279 = v306; v281 = v302;
v277:;
    u64 v283 = v282 + 1;
    if (v283 == v272) { v246 = v279; v241 = v276; v244 = v281; } else { v275 = v276; v278 = v279; v280 = v281; v282 = v283; goto v274; }
v242:;
    if (!(v246 == 0)) { v240 = v241; v243 = v244; v245 = v246; goto v231; }
v190:;
    u64 v315 = (u64)v85;
    if (at(u64, v6 + 16) == 0) goto v319;
    sys_rattle_dealloc(at(ptr, v6));
v319:;
    if (v179 == 0) goto v323;
    sys_rattle_dealloc(v175);
v323:;
    flag v325 = v85 == 0;
    if (v325) goto v326;
    if (v85 < 4) { v370 = 0; goto v329; }
    if (((u64)(v104 + (i64)v315) > (u64)v187) & ((u64)v104 < (u64)(v187 + (i64)v315))) { v370 = 0; goto v329; }
    if (v85 < 16u) { v356 = 0; goto v338; }
    u64 v340 = v315 & 12u;
    u64 v341 = v315 & 65520u;
    v343 = 0;
v342:;
    at(u8x16_1, v187 + v343) = at(u8x16_1, v187 + v343) & (at(u8x16_1, v104 + v343) ^ (u8x16){1, 1, 1, 1, 1, 1, 1, 1, 1, 1, 1, 1, 1, 1, 1, 1});
    u64 v344 = v343 + 16u;
    if (!(v344 == v341)) { v343 = v344; goto v342; }
    if (v341 == v315) goto v326;
    if (v340 == 0) { v370 = v341; goto v329; }
    v356 = v341;
v338:;
    u64 v357 = v315 & 65532u;
    v359 = v356;
v358:;
    at(u8x4_1, v187 + v359) = at(u8x4_1, v187 + v359) & (at(u8x4_1, v104 + v359) ^ (u8x4){1, 1, 1, 1});
    u64 v360 = v359 + 4;
    if (!(v360 == v357)) { v359 = v360; goto v358; }
    if (v357 == v315) goto v326;
    v370 = v357;
v329:;
    v372 = v370;
v371:;
    at(u8, v187 + v372) = (u8)(at(u8, v187 + v372) & ((u8)(at(u8, v104 + v372) ^ 1)));
    u64 v373 = v372 + 1;
    if (!(v373 == v315)) { v372 = v373; goto v371; }
v326:;
    if (v154) { v418 = v5; v419 = 0; goto v381; }
    if (!(v15 < 0x4000000000000000u)) goto v385;
    u64 v386 = v15 << 1;
    u64_u64 v388 = sys_rattle_alloc(v386, 2);
    if (!(v388._0 & 1)) goto v385;
    u64 v392 = v388._1;
    u8 *v393 = (u8 *)v392;
    if (!((v392 - ((u64)v12)) < v386)) { v418 = v393; v419 = v386; goto v381; }
    if ((v15 < 8) ? 1 : ((v392 - v13) < 32u)) { v416 = 0; goto v402; }
    u64 v404 = v15 & 0x3ffffffffffffff8u;
    v406 = 0;
v405:;
    u64 v408 = v406 << 1;
    at(u16x8_2, v393 + v408) = at(u16x8_2, v12 + v408);
    u64 v407 = v406 + 8;
    if (!(v407 == v404)) { v406 = v407; goto v405; }
    if (v15 == v404) { v428 = v393; goto v415; }
    v416 = v404;
v402:;
    v420 = v416;
v417:;
    u64 v422 = v420 << 1;
    at(u16, v393 + v422) = at(u16, v12 + v422);
    u64 v421 = v420 + 1;
    if (v421 == v15) { v428 = v393; goto v415; }
    v420 = v421; goto v417;
v381:;
    memmove_any(v418, v12, v419);
    v428 = v418;
v415:;
    at(ptr, v9) = v428;
    at(u64, v9 + 8) = v15;
    at(u64, v9 + 16) = v15;
    if (v325) { v459 = 0; goto v431; }
    if (at(u8, v187) & 1) { v470 = 0; goto v435; }
    if (v85 < 64u) { v459 = 0; goto v431; }
    v439 = 0;
v438:;
    if (v439 == 0xffffffffffffffc0u) goto v441;
    v446 = 0; v448 = (u8x16){0};
v445:;
    u8x16 v449 = v448 | ((-(at(u8x16_1, (v187 + (i64)v439) + (i64)v446) & 1)));
    u64 v447 = v446 + 16u;
    if (!(v447 == 64u)) { v446 = v447; v448 = v449; goto v445; }
    if (!(bits_u8x16(v449) == 0)) { v459 = v439; goto v431; }
v441:;
    u64 v440 = v439 + 64u;
    if ((v315 - v440) < 64u) v459 = v440; else { v439 = v440; goto v438; }
v431:;
    if (v459 < v315) v463 = v459; else { v535 = v15; goto v462; }
v461:;
    if (at(u8, v187 + v463) & 1) v470 = v463; else goto v465;
v435:;
    if (v470 < v315) { v473 = v428; v476 = v15; v478 = v470; } else { v535 = v15; goto v462; }
v472:;
    u16 v480 = (u16)v478;
    if (!(at(u64, v9 + 16) == v476)) { v474 = v473; v490 = v476; goto v484; }
    if (!std_alloc_vec_Vec_grow_amortized_1aee(v9, 1)) goto v487;
    v474 = at(ptr, v9); v490 = at(u64, v9 + 8); goto v484;
v487:;
    if (at(u64, v9 + 16) == 0) goto v540;
    sys_rattle_dealloc(at(ptr, v9));
v540:;
    sys_rattle_dealloc(v187);
    if (v91) goto v96;
    goto v427;
v484:;
    at(u16, v474 + (v490 << 1)) = v480;
    u64 v477 = v490 + 1;
    at(u64, v9 + 8) = v477;
    u64 v493 = v478 + 1;
    if (!(v493 < v315)) goto v496;
    if (at(u8, v187 + v493) & 1) { v479 = v493; goto v475; }
v496:;
    if ((v315 - v493) < 64u) { v524 = v493; goto v502; }
    v504 = v493;
v503:;
    if (!(v504 < 0xffffffffffffffc0u)) goto v506;
    v511 = 0; v513 = (u8x16){0};
v510:;
    u8x16 v514 = v513 | ((-(at(u8x16_1, (v187 + (i64)v504) + (i64)v511) & 1)));
    u64 v512 = v511 + 16u;
    if (!(v512 == 64u)) { v511 = v512; v513 = v514; goto v510; }
    if (!(bits_u8x16(v514) == 0)) { v524 = v504; goto v502; }
v506:;
    u64 v505 = v504 + 64u;
    if ((v315 - v505) < 64u) v524 = v505; else { v504 = v505; goto v503; }
v502:;
    if (v524 < v315) v527 = v524; else { v535 = v477; goto v462; }
v526:;
    if (at(u8, v187 + v527) & 1) v479 = v527; else goto v529;
v475:;
    if (v479 < v315) { v473 = v474; v476 = v477; v478 = v479; goto v472; }
    v535 = v477; goto v462;
v529:;
    u64 v528 = v527 + 1;
    if (v528 == v315) { v535 = v477; goto v462; }
    v527 = v528; goto v526;
v465:;
    u64 v464 = v463 + 1;
    if (v464 == v315) v535 = v15; else { v463 = v464; goto v461; }
v462:;
    sys_rattle_dealloc(v187);
    if (v91) goto v536;
    sys_rattle_dealloc(v104);
v536:;
    v546 = at(ptr, v9); v547 = v535; v548 = at(u64, v9 + 16); goto v23;
v385:;
    sys_rattle_dealloc(v187);
    if (v91) goto v96;
    goto v427;
v185:;
    if (v179 == 0) goto v173;
v233:;
    sys_rattle_dealloc(v175);
v173:;
    if (v91) goto v96;
v427:;
    sys_rattle_dealloc(v104);
v96:;
    at(u8, v0) = 1;
    memset(v0 + 8, 0, 32u);
    return;
v23:;
    at(u8, v0) = 0;
    at(u64_1, v0 + 8) = (u64)v10;
    at(ptr_1, v0 + 16) = v546;
    at(u64_1, v0 + 24) = v547;
    at(u64_1, v0 + 32) = v548;
    return;
v21:;
    if (!v19) { v72 = 0; v73 = v10; v74 = (u8 *)0; v75 = 0; goto v26; }
    if (v15 == 0) { v63 = v5; v64 = 0; goto v28; }
    if (!(v15 < 0x4000000000000000u)) { v72 = 1; v73 = 0; v74 = (u8 *)0; v75 = 0; goto v26; }
    u64 v32 = v15 << 1;
    u64_u64 v34 = sys_rattle_alloc(v32, 2);
    if (!(v34._0 & 1)) { v72 = 1; v73 = 0; v74 = (u8 *)0; v75 = 0; goto v26; }
    u64 v38 = v34._1;
    u8 *v39 = (u8 *)v38;
    if (!((v38 - ((u64)v12)) < v32)) { v63 = v39; v64 = v32; goto v28; }
    if ((v15 < 8) ? 1 : ((v38 - v13) < 32u)) { v61 = 0; goto v48; }
    u64 v50 = v15 & 0x3ffffffffffffff8u;
    v52 = 0;
v51:;
    u64 v54 = v52 << 1;
    at(u16x8_2, v39 + v54) = at(u16x8_2, v12 + v54);
    u64 v53 = v52 + 8;
    if (!(v53 == v50)) { v52 = v53; goto v51; }
    if (v15 == v50) { v72 = 0; v73 = 1; v74 = v39; v75 = v15; goto v26; }
    v61 = v50;
v48:;
    v65 = v61;
v62:;
    u64 v67 = v65 << 1;
    at(u16, v39 + v67) = at(u16, v12 + v67);
    u64 v66 = v65 + 1;
    if (v66 == v15) { v72 = 0; v73 = 1; v74 = v39; v75 = v15; goto v26; }
    v65 = v66; goto v62;
v28:;
    memmove_any(v63, v12, v64);
    v72 = 0; v73 = 1; v74 = v63; v75 = v15;
v26:;
    at(u8, v0) = v72;
    at(u64_1, v0 + 8) = (u64)v73;
    at(ptr_1, v0 + 16) = v74;
    at(u64_1, v0 + 24) = v75;
    at(u64_1, v0 + 32) = v75;
    return;
}

void font_subset_font_to_cut_FontToCut_open_4492(u8 *v0, u8 v1, flag v2, u8 *v3) {
    _Alignas(4) u8 v5[1], v8[12], v14[16], v18[564], v19[16];
    _Alignas(8) u8 v6[32], v7[24], v9[24], v10[304], v11[40], v12[24], v13[576], v15[584], v16[584];
    _Alignas(2) u8 v17[10];
    u8 *v108, *v156, *v289, *v327, *v390, *v392, v255, *v157, v415, v416, v417, *v419, *v421, v442, v443, v444, *v446, *v448;
    u64 v159, v293, v308, v328, v331, v389, v391, v267, v418, v420, v422, v445, v447, v449;
    u32 v306, v246, v256, v414, v441;
    u16 v210, v211, v212, v244, v245;
    memset(v14, 0, 16u);
    memset(v15, 0, 584u);
    memset(v16, 0, 584u);
    memset(v17, 0, 10u);
    memset(v18, 0, 564u);
    memset(v19, 0, 16u);
    if (!v2) goto v21;
    font_subset_font_of_kind_FontOfKind_open_f514(v16, v1, v3);
    if (!(at(u8, v16) == 0)) goto v50;
    memcpy(v13, v16 + 8, 576u);
    memset(v12, 0, 24u);
    font_subset_font_of_kind_FontOfKind_further_6e0a(v12, v16 + 8, 19u);
    u8 *v54 = at(ptr, v12 + 8);
    u64 v56 = at(u64, v12 + 16);
    flag v57 = at(u8, v12) != 1;
    memset(v11, 0, 40u);
    if (v57 ? 1 : (v56 == 0)) { v389 = 0; v390 = v5; v391 = 0; v392 = v5; goto v60; }
    font_layout_layout_Layout_open(v11, v54, v56);
    if (!(at(u8, v11) == 1)) goto v65;
    u8 *v86 = at(ptr, v11 + 8);
    u64 v88 = at(u64, v11 + 16);
    u64 v90 = at(u64, v11 + 24);
    u32 v92 = at(u32, v11 + 32);
    u32 v94 = at(u32, v11 + 36);
    u64 v95 = (u64)v92;
    if (v92 == 0) { v108 = v5; goto v97; }
    u64_u64 v101 = sys_rattle_alloc(v95 << 2, 2);
    if (!(v101._0 & 1)) goto v105;
    v108 = (u8 *)v101._1;
v97:;
    at(ptr, v9) = v108;
    at(u64, v9 + 8) = 0;
    at(u64, v9 + 16) = v95;
    u64 v114 = (u64)bswap16(at(u16_1, v86 + 8));
    at(ptr, v10) = v86;
    at(u64, v10 + 8) = v88;
    at(u64, v10 + 16) = v114;
    at(u64, v10 + 24) = 0;
    at(u64, v10 + 32) = v90;
    at(ptr, v10 + 40) = v86;
    at(u64, v10 + 48) = v88;
    memset(v10 + 56, 0, 40u);
    at(ptr, v10 + 96) = v86;
    at(u64, v10 + 104) = v88;
    memset(v10 + 112, 0, 72u);
    at(ptr, v10 + 184) = v86;
    at(u64, v10 + 192) = v88;
    memset(v10 + 200, 0, 48u);
    at(ptr, v10 + 248) = v86;
    at(u64, v10 + 256) = v88;
    at(u64, v10 + 264) = 0;
    at(u16, v10 + 272) = 3;
    memset(v10 + 274, 0, 30u);
    v156 = v108; v159 = 0;
v155:;
v161:;
    memset(v8, 0, 12u);
    memset(v6, 0, 32u);
    at(u64, v7) = 0;
    u64 v162 = at(u64, v10 + 296);
    if (!(v162 == 0)) goto v165;
    u64 v217 = at(u64, v10 + 240);
    if (!(v217 == 0)) goto v220;
    font_layout_walk_Steps_next_part(v8, v10);
    if (at(u8, v8) == 1) { v255 = at(u8, v8 + 4); v256 = at(u32_2, v8 + 6); goto v249; }
    u8 *v274 = at(ptr, v9);
    u64 v275 = at(u64, v9 + 16);
    u64 v276 = (u64)v94;
    flag v277 = v94 == 0;
    if (v277) { v289 = v5; goto v278; }
    u64 v280 = v276 << 2;
    u64_u64 v282 = sys_rattle_alloc(v280, 4);
    if (!(v282._0 & 1)) goto v286;
    u8 *v288 = (u8 *)v282._1;
    memset_any(v288, 0, v280);
    v289 = v288;
v278:;
    flag v290 = v159 == 0;
    if (v290) goto v291;
    v293 = 0;
v292:;
    u64 v299 = ((u64)at(u16, v274 + (i64)(v293 << 2))) << 2;
    at(u32, v289 + v299) = at(u32, v289 + v299) + 1;
    u64 v294 = v293 + 1;
    if (!(v294 == v159)) { v293 = v294; goto v292; }
v291:;
    if (v277) { v327 = v5; v328 = 0; goto v304; }
    v306 = 0; v308 = 0;
v305:;
    u64 v310 = v308 << 2;
    u32 v312 = at(u32, v289 + (i64)v310);
    at(u32, v289 + (i64)v310) = v306;
    u32 v307 = v312 + v306;
    u64 v309 = v308 + 1;
    if (!(v309 == v276)) { v306 = v307; v308 = v309; goto v305; }
    u64 v315 = (u64)v307;
    if (v307 == 0) { v327 = v5; v328 = 0; goto v304; }
    u64 v318 = v315 << 1;
    u64_u64 v320 = sys_rattle_alloc(v318, 2);
    if (!(v320._0 & 1)) goto v324;
    u8 *v326 = (u8 *)v320._1;
    memset_any(v326, 0, v318);
    v327 = v326; v328 = v315;
v304:;
    if (v290) goto v329;
    v331 = 0;
v330:;
    u64 v333 = v331 << 2;
    u64 v339 = ((u64)at(u16_1, v274 + (i64)v333)) << 2;
    at(u16, v327 + (((u64)at(u32, v289 + v339)) << 1)) = at(u16_1, v274 + (i64)v333 + 2);
    at(u32, v289 + v339) = at(u32, v289 + v339) + 1;
    u64 v332 = v331 + 1;
    if (!(v332 == v159)) { v331 = v332; goto v330; }
v329:;
    if (v275 == 0) { v389 = v328; v390 = v327; v391 = v276; v392 = v289; goto v60; }
    sys_rattle_dealloc(v274);
    v389 = v328; v390 = v327; v391 = v276; v392 = v289;
v60:;
    u8 v393 = at(u8, v13);
    u8 v395 = at(u8, v13 + 1);
    memcpy(v17, v13 + 2, 10u);
    memcpy(v18, v13 + 12, 564u);
    v414 = 0; v415 = 0; v416 = v393; v417 = v395; v418 = 1; v419 = v392; v420 = v391; v421 = v390; v422 = v389; goto v388;
v324:;
    sys_rattle_dealloc(v289);
v286:;
    if (v275 == 0) goto v348;
    sys_rattle_dealloc(v274);
    goto v348;
v220:;
    u64 v222 = at(u64, v10 + 232);
    u16 v224 = (u16)(at(u16, v10 + 224) + ((u16)v222));
    u8 *v228 = at(ptr, v10 + 184);
    u64 v229 = at(u64, v10 + 192);
    u64 v227 = v222 + ((u64)at(u16, v10 + 228));
    at(u16, v7) = (u16)at(u8, v10 + 200);
    at(u16, v7 + 2) = at(u16, v10 + 202);
    at(u64, v7 + 8) = at(u64, v10 + 208);
    at(u64, v7 + 16) = at(u64, v10 + 216);
    font_layout_entry_read_entry(v6, v228, v229, v7, v224, v227);
    u16 v236 = at(u16, v6 + 2);
    u64 v237 = at(u64, v6 + 8);
    u64 v238 = at(u64, v6 + 16);
    u16 v239 = (u16)at(u8, v6);
    at(ptr, v10 + 248) = v228;
    at(u64, v10 + 256) = v229;
    at(u16, v10 + 264) = v224;
    memset(v10 + 266, 0, 6);
    at(u16, v10 + 272) = v239;
    at(u16, v10 + 274) = v236;
    at(u32, v10 + 276) = 0;
    at(u64, v10 + 280) = v237;
    at(u64, v10 + 288) = 0;
    at(u64, v10 + 296) = v238;
    at(u64, v10 + 232) = v222 + 1;
    at(u64, v10 + 240) = v217 - 1;
    v244 = 0; v245 = 0; v246 = at(u32, v6 + 24) + 1; goto v216;
v165:;
    u8 *v166 = at(ptr, v10 + 248);
    u64 v167 = at(u64, v10 + 256);
    u16 v168 = at(u16, v10 + 264);
    u64 v171 = at(u64, v10 + 280);
    u64 v172 = at(u64, v10 + 288);
    switch (at(u8, v10 + 272)) {
    case 0: v210 = 1; v211 = at(u16, v10 + 274); v212 = v168; goto v174;
    case 1: goto v175;
    case 2: goto v176;
    case 3: goto v177;
    default: __builtin_trap();
    }
v175:;
    v210 = 1; v211 = bswap16(at(u16_1, (v166 + (i64)v171) + (i64)(v172 << 1))); v212 = v168; goto v174;
v176:;
    u16 v187 = at(u16_1, (v166 + (i64)v171 + 2) + (i64)(v172 << 1));
    if (v187 == 0) { v210 = 0; v211 = 0; v212 = 0; goto v174; }
    u64 v192 = v171 + ((u64)bswap16(v187));
    if (v167 < 4) { v210 = 2; v211 = 0; v212 = 0; goto v174; }
    u64 v195 = v167 - 4;
    if (v195 < v192) { v210 = 2; v211 = 0; v212 = 0; goto v174; }
    if ((v195 - v192) < (usub_sat64((u64)bswap16(at(u16_1, v166 + (i64)v192 + 2)), 1) << 1)) { v210 = 2; v211 = 0; v212 = 0; goto v174; }
    v210 = 1; v211 = bswap16(at(u16_1, v166 + (i64)v192)); v212 = v168; goto v174;
v177:;
    v210 = 2; v211 = 0; v212 = 0;
v174:;
    at(u64, v10 + 288) = v172 + 1;
    at(u64, v10 + 296) = v162 - 1;
    v244 = v212; v245 = v210; v246 = (u32)v211;
v216:;
    at(u32, v8) = 1;
    at(u16, v8 + 4) = v245;
    at(u16, v8 + 6) = v244;
    at(u32, v8 + 8) = v246;
    v255 = (u8)v245; v256 = at(u32_2, v8 + 6);
v249:;
    if (!(v255 == 1)) goto v161;
    if (!(at(u64, v9 + 16) == v159)) { v157 = v156; v267 = v159; goto v158; }
    if (!std_alloc_vec_Vec_grow_amortized_23b5(v9)) goto v264;
    v157 = at(ptr, v9); v267 = at(u64, v9 + 8); goto v158;
v264:;
    if (at(u64, v9 + 16) == 0) goto v105;
    sys_rattle_dealloc(at(ptr, v9));
    goto v105;
v158:;
    at(u32_1, v157 + (v267 << 2)) = v256;
    u64 v160 = v267 + 1;
    at(u64, v9 + 8) = v160;
    v156 = v157; v159 = v160; goto v155;
v105:;
v348:;
    u8 v354 = at(u8, v13 + 16);
    u8 v356 = at(u8, v13 + 312);
    u8 *v358 = at(ptr, v13 + 320);
    u64 v360 = at(u64, v13 + 336);
    u8 *v364 = at(ptr, v13 + 440);
    u8 *v366 = at(ptr, v13 + 464);
    u64 v368 = at(u64, v13 + 480);
    if (!(at(u8, v13 + 424) == 1)) goto v371;
    if (at(u64, v13 + 456) == 0) goto v375;
    sys_rattle_dealloc(v364);
v375:;
    if (v368 == 0) goto v371;
    sys_rattle_dealloc(v366);
v371:;
    if ((v356 != 1) ? 1 : (v360 == 0)) goto v383;
    sys_rattle_dealloc(v358);
v383:;
    if (!(v354 == 1)) goto v387;
    font_subset_further_tables_FixedTables_drop(v13 + 24);
v387:;
    memset(v17, 0, 10u);
    memset(v18, 0, 564u);
    v414 = 1; v415 = 0; v416 = 0; v417 = 0; v418 = 0; v419 = (u8 *)0; v420 = 0; v421 = (u8 *)0; v422 = 0; goto v388;
v65:;
    u8 v67 = at(u8, v13 + 16);
    u8 v69 = at(u8, v13 + 312);
    u8 *v71 = at(ptr, v13 + 320);
    u64 v73 = at(u64, v13 + 336);
    u8 *v77 = at(ptr, v13 + 440);
    u8 *v79 = at(ptr, v13 + 464);
    u64 v81 = at(u64, v13 + 480);
    if (!(at(u8, v13 + 424) == 1)) goto v84;
    if (at(u64, v13 + 456) == 0) goto v401;
    sys_rattle_dealloc(v77);
v401:;
    if (v81 == 0) goto v84;
    sys_rattle_dealloc(v79);
v84:;
    if ((v69 != 1) ? 1 : (v73 == 0)) goto v409;
    sys_rattle_dealloc(v71);
v409:;
    if (!(v67 == 1)) goto v413;
    font_subset_further_tables_FixedTables_drop(v13 + 24);
v413:;
    memset(v17, 0, 10u);
    memset(v18, 0, 564u);
    v414 = 1; v415 = 1; v416 = 4; v417 = 0; v418 = 0; v419 = (u8 *)0; v420 = 0; v421 = (u8 *)0; v422 = 0;
v388:;
    v441 = v414; v442 = v415; v443 = v416; v444 = v417; v445 = v418; v446 = v419; v447 = v420; v448 = v421; v449 = v422; goto v423;
v50:;
    at(u32, v14) = (u32)at(u8, v16 + 4);
    at(u8, v14 + 4) = at(u8, v16 + 8);
    at(u8, v14 + 5) = at(u8, v16 + 9);
    memcpy(v14 + 6, v16 + 10, 10u);
    font_subset_font_to_cut_closing_refusal(v19, v3, v14);
    u8 v435 = at(u8, v19);
    u8 v437 = at(u8, v19 + 4);
    u8 v439 = at(u8, v19 + 5);
    memcpy(v17, v19 + 6, 10u);
    v441 = 1; v442 = v435; v443 = v437; v444 = v439; v445 = 0; v446 = (u8 *)0; v447 = 0; v448 = (u8 *)0; v449 = 0;
v423:;
    at(u32_1, v0) = v441;
    at(u32_1, v0 + 4) = (u32)v442;
    at(u8, v0 + 8) = v443;
    at(u8, v0 + 9) = v444;
    memcpy(v0 + 10, v17, 10u);
    memcpy(v0 + 20, v18, 564u);
    at(u64_1, v0 + 584) = v445;
    at(ptr_1, v0 + 592) = v446;
    at(u64_1, v0 + 600) = v447;
    at(u64_1, v0 + 608) = v447;
    at(ptr_1, v0 + 616) = v448;
    at(u64_1, v0 + 624) = v449;
    at(u64_1, v0 + 632) = v449;
    return;
v21:;
    font_subset_font_of_kind_FontOfKind_open_f514(v15, v1, v3);
    u8 v24 = at(u8, v15 + 8);
    u8 v26 = at(u8, v15 + 9);
    if (!(at(u8, v15) == 0)) goto v30;
    at(u32_1, v0) = 0;
    at(u32_1, v0 + 4) = 0;
    at(u8, v0 + 8) = v24;
    at(u8, v0 + 9) = v26;
    memcpy(v0 + 10, v15 + 10, 10u);
    memcpy(v0 + 20, v15 + 20, 564u);
    memset(v0 + 584, 0, 56u);
    return;
v30:;
    u32 v41 = (u32)at(u8, v15 + 4);
    at(u32_1, v0) = 1;
    at(u32_1, v0 + 4) = v41;
    at(u8, v0 + 8) = v24;
    at(u8, v0 + 9) = v26;
    memcpy(v0 + 10, v15 + 10, 10u);
    memset(v0 + 20, 0, 620u);
    return;
}

void font_subset_font_to_cut_FontToCut_open_fdfe(u8 *v0, u8 v1, flag v2, u8 *v3) {
    _Alignas(4) u8 v5[1], v8[12], v14[16], v18[564], v19[16];
    _Alignas(8) u8 v6[32], v7[24], v9[24], v10[304], v11[40], v12[24], v13[576], v15[584], v16[584];
    _Alignas(2) u8 v17[10];
    u8 *v108, *v156, *v289, *v327, *v390, *v392, v255, *v157, v415, v416, v417, *v419, *v421, v442, v443, v444, *v446, *v448;
    u64 v159, v293, v308, v328, v331, v389, v391, v267, v418, v420, v422, v445, v447, v449;
    u32 v306, v246, v256, v414, v441;
    u16 v210, v211, v212, v244, v245;
    memset(v14, 0, 16u);
    memset(v15, 0, 584u);
    memset(v16, 0, 584u);
    memset(v17, 0, 10u);
    memset(v18, 0, 564u);
    memset(v19, 0, 16u);
    if (!v2) goto v21;
    font_subset_font_of_kind_FontOfKind_open_25ca(v16, v1, v3);
    if (!(at(u8, v16) == 0)) goto v50;
    memcpy(v13, v16 + 8, 576u);
    memset(v12, 0, 24u);
    font_subset_font_of_kind_FontOfKind_further_6e0a(v12, v16 + 8, 19u);
    u8 *v54 = at(ptr, v12 + 8);
    u64 v56 = at(u64, v12 + 16);
    flag v57 = at(u8, v12) != 1;
    memset(v11, 0, 40u);
    if (v57 ? 1 : (v56 == 0)) { v389 = 0; v390 = v5; v391 = 0; v392 = v5; goto v60; }
    font_layout_layout_Layout_open(v11, v54, v56);
    if (!(at(u8, v11) == 1)) goto v65;
    u8 *v86 = at(ptr, v11 + 8);
    u64 v88 = at(u64, v11 + 16);
    u64 v90 = at(u64, v11 + 24);
    u32 v92 = at(u32, v11 + 32);
    u32 v94 = at(u32, v11 + 36);
    u64 v95 = (u64)v92;
    if (v92 == 0) { v108 = v5; goto v97; }
    u64_u64 v101 = sys_rattle_alloc(v95 << 2, 2);
    if (!(v101._0 & 1)) goto v105;
    v108 = (u8 *)v101._1;
v97:;
    at(ptr, v9) = v108;
    at(u64, v9 + 8) = 0;
    at(u64, v9 + 16) = v95;
    u64 v114 = (u64)bswap16(at(u16_1, v86 + 8));
    at(ptr, v10) = v86;
    at(u64, v10 + 8) = v88;
    at(u64, v10 + 16) = v114;
    at(u64, v10 + 24) = 0;
    at(u64, v10 + 32) = v90;
    at(ptr, v10 + 40) = v86;
    at(u64, v10 + 48) = v88;
    memset(v10 + 56, 0, 40u);
    at(ptr, v10 + 96) = v86;
    at(u64, v10 + 104) = v88;
    memset(v10 + 112, 0, 72u);
    at(ptr, v10 + 184) = v86;
    at(u64, v10 + 192) = v88;
    memset(v10 + 200, 0, 48u);
    at(ptr, v10 + 248) = v86;
    at(u64, v10 + 256) = v88;
    at(u64, v10 + 264) = 0;
    at(u16, v10 + 272) = 3;
    memset(v10 + 274, 0, 30u);
    v156 = v108; v159 = 0;
v155:;
v161:;
    memset(v8, 0, 12u);
    memset(v6, 0, 32u);
    at(u64, v7) = 0;
    u64 v162 = at(u64, v10 + 296);
    if (!(v162 == 0)) goto v165;
    u64 v217 = at(u64, v10 + 240);
    if (!(v217 == 0)) goto v220;
    font_layout_walk_Steps_next_part(v8, v10);
    if (at(u8, v8) == 1) { v255 = at(u8, v8 + 4); v256 = at(u32_2, v8 + 6); goto v249; }
    u8 *v274 = at(ptr, v9);
    u64 v275 = at(u64, v9 + 16);
    u64 v276 = (u64)v94;
    flag v277 = v94 == 0;
    if (v277) { v289 = v5; goto v278; }
    u64 v280 = v276 << 2;
    u64_u64 v282 = sys_rattle_alloc(v280, 4);
    if (!(v282._0 & 1)) goto v286;
    u8 *v288 = (u8 *)v282._1;
    memset_any(v288, 0, v280);
    v289 = v288;
v278:;
    flag v290 = v159 == 0;
    if (v290) goto v291;
    v293 = 0;
v292:;
    u64 v299 = ((u64)at(u16, v274 + (i64)(v293 << 2))) << 2;
    at(u32, v289 + v299) = at(u32, v289 + v299) + 1;
    u64 v294 = v293 + 1;
    if (!(v294 == v159)) { v293 = v294; goto v292; }
v291:;
    if (v277) { v327 = v5; v328 = 0; goto v304; }
    v306 = 0; v308 = 0;
v305:;
    u64 v310 = v308 << 2;
    u32 v312 = at(u32, v289 + (i64)v310);
    at(u32, v289 + (i64)v310) = v306;
    u32 v307 = v312 + v306;
    u64 v309 = v308 + 1;
    if (!(v309 == v276)) { v306 = v307; v308 = v309; goto v305; }
    u64 v315 = (u64)v307;
    if (v307 == 0) { v327 = v5; v328 = 0; goto v304; }
    u64 v318 = v315 << 1;
    u64_u64 v320 = sys_rattle_alloc(v318, 2);
    if (!(v320._0 & 1)) goto v324;
    u8 *v326 = (u8 *)v320._1;
    memset_any(v326, 0, v318);
    v327 = v326; v328 = v315;
v304:;
    if (v290) goto v329;
    v331 = 0;
v330:;
    u64 v333 = v331 << 2;
    u64 v339 = ((u64)at(u16_1, v274 + (i64)v333)) << 2;
    at(u16, v327 + (((u64)at(u32, v289 + v339)) << 1)) = at(u16_1, v274 + (i64)v333 + 2);
    at(u32, v289 + v339) = at(u32, v289 + v339) + 1;
    u64 v332 = v331 + 1;
    if (!(v332 == v159)) { v331 = v332; goto v330; }
v329:;
    if (v275 == 0) { v389 = v328; v390 = v327; v391 = v276; v392 = v289; goto v60; }
    sys_rattle_dealloc(v274);
    v389 = v328; v390 = v327; v391 = v276; v392 = v289;
v60:;
    u8 v393 = at(u8, v13);
    u8 v395 = at(u8, v13 + 1);
    memcpy(v17, v13 + 2, 10u);
    memcpy(v18, v13 + 12, 564u);
    v414 = 0; v415 = 0; v416 = v393; v417 = v395; v418 = 1; v419 = v392; v420 = v391; v421 = v390; v422 = v389; goto v388;
v324:;
    sys_rattle_dealloc(v289);
v286:;
    if (v275 == 0) goto v348;
    sys_rattle_dealloc(v274);
    goto v348;
v220:;
    u64 v222 = at(u64, v10 + 232);
    u16 v224 = (u16)(at(u16, v10 + 224) + ((u16)v222));
    u8 *v228 = at(ptr, v10 + 184);
    u64 v229 = at(u64, v10 + 192);
    u64 v227 = v222 + ((u64)at(u16, v10 + 228));
    at(u16, v7) = (u16)at(u8, v10 + 200);
    at(u16, v7 + 2) = at(u16, v10 + 202);
    at(u64, v7 + 8) = at(u64, v10 + 208);
    at(u64, v7 + 16) = at(u64, v10 + 216);
    font_layout_entry_read_entry(v6, v228, v229, v7, v224, v227);
    u16 v236 = at(u16, v6 + 2);
    u64 v237 = at(u64, v6 + 8);
    u64 v238 = at(u64, v6 + 16);
    u16 v239 = (u16)at(u8, v6);
    at(ptr, v10 + 248) = v228;
    at(u64, v10 + 256) = v229;
    at(u16, v10 + 264) = v224;
    memset(v10 + 266, 0, 6);
    at(u16, v10 + 272) = v239;
    at(u16, v10 + 274) = v236;
    at(u32, v10 + 276) = 0;
    at(u64, v10 + 280) = v237;
    at(u64, v10 + 288) = 0;
    at(u64, v10 + 296) = v238;
    at(u64, v10 + 232) = v222 + 1;
    at(u64, v10 + 240) = v217 - 1;
    v244 = 0; v245 = 0; v246 = at(u32, v6 + 24) + 1; goto v216;
v165:;
    u8 *v166 = at(ptr, v10 + 248);
    u64 v167 = at(u64, v10 + 256);
    u16 v168 = at(u16, v10 + 264);
    u64 v171 = at(u64, v10 + 280);
    u64 v172 = at(u64, v10 + 288);
    switch (at(u8, v10 + 272)) {
    case 0: v210 = 1; v211 = at(u16, v10 + 274); v212 = v168; goto v174;
    case 1: goto v175;
    case 2: goto v176;
    case 3: goto v177;
    default: __builtin_trap();
    }
v175:;
    v210 = 1; v211 = bswap16(at(u16_1, (v166 + (i64)v171) + (i64)(v172 << 1))); v212 = v168; goto v174;
v176:;
    u16 v187 = at(u16_1, (v166 + (i64)v171 + 2) + (i64)(v172 << 1));
    if (v187 == 0) { v210 = 0; v211 = 0; v212 = 0; goto v174; }
    u64 v192 = v171 + ((u64)bswap16(v187));
    if (v167 < 4) { v210 = 2; v211 = 0; v212 = 0; goto v174; }
    u64 v195 = v167 - 4;
    if (v195 < v192) { v210 = 2; v211 = 0; v212 = 0; goto v174; }
    if ((v195 - v192) < (usub_sat64((u64)bswap16(at(u16_1, v166 + (i64)v192 + 2)), 1) << 1)) { v210 = 2; v211 = 0; v212 = 0; goto v174; }
    v210 = 1; v211 = bswap16(at(u16_1, v166 + (i64)v192)); v212 = v168; goto v174;
v177:;
    v210 = 2; v211 = 0; v212 = 0;
v174:;
    at(u64, v10 + 288) = v172 + 1;
    at(u64, v10 + 296) = v162 - 1;
    v244 = v212; v245 = v210; v246 = (u32)v211;
v216:;
    at(u32, v8) = 1;
    at(u16, v8 + 4) = v245;
    at(u16, v8 + 6) = v244;
    at(u32, v8 + 8) = v246;
    v255 = (u8)v245; v256 = at(u32_2, v8 + 6);
v249:;
    if (!(v255 == 1)) goto v161;
    if (!(at(u64, v9 + 16) == v159)) { v157 = v156; v267 = v159; goto v158; }
    if (!std_alloc_vec_Vec_grow_amortized_23b5(v9)) goto v264;
    v157 = at(ptr, v9); v267 = at(u64, v9 + 8); goto v158;
v264:;
    if (at(u64, v9 + 16) == 0) goto v105;
    sys_rattle_dealloc(at(ptr, v9));
    goto v105;
v158:;
    at(u32_1, v157 + (v267 << 2)) = v256;
    u64 v160 = v267 + 1;
    at(u64, v9 + 8) = v160;
    v156 = v157; v159 = v160; goto v155;
v105:;
v348:;
    u8 v354 = at(u8, v13 + 16);
    u8 v356 = at(u8, v13 + 312);
    u8 *v358 = at(ptr, v13 + 320);
    u64 v360 = at(u64, v13 + 336);
    u8 *v364 = at(ptr, v13 + 440);
    u8 *v366 = at(ptr, v13 + 464);
    u64 v368 = at(u64, v13 + 480);
    if (!(at(u8, v13 + 424) == 1)) goto v371;
    if (at(u64, v13 + 456) == 0) goto v375;
    sys_rattle_dealloc(v364);
v375:;
    if (v368 == 0) goto v371;
    sys_rattle_dealloc(v366);
v371:;
    if ((v356 != 1) ? 1 : (v360 == 0)) goto v383;
    sys_rattle_dealloc(v358);
v383:;
    if (!(v354 == 1)) goto v387;
    font_subset_further_tables_FixedTables_drop(v13 + 24);
v387:;
    memset(v17, 0, 10u);
    memset(v18, 0, 564u);
    v414 = 1; v415 = 0; v416 = 0; v417 = 0; v418 = 0; v419 = (u8 *)0; v420 = 0; v421 = (u8 *)0; v422 = 0; goto v388;
v65:;
    u8 v67 = at(u8, v13 + 16);
    u8 v69 = at(u8, v13 + 312);
    u8 *v71 = at(ptr, v13 + 320);
    u64 v73 = at(u64, v13 + 336);
    u8 *v77 = at(ptr, v13 + 440);
    u8 *v79 = at(ptr, v13 + 464);
    u64 v81 = at(u64, v13 + 480);
    if (!(at(u8, v13 + 424) == 1)) goto v84;
    if (at(u64, v13 + 456) == 0) goto v401;
    sys_rattle_dealloc(v77);
v401:;
    if (v81 == 0) goto v84;
    sys_rattle_dealloc(v79);
v84:;
    if ((v69 != 1) ? 1 : (v73 == 0)) goto v409;
    sys_rattle_dealloc(v71);
v409:;
    if (!(v67 == 1)) goto v413;
    font_subset_further_tables_FixedTables_drop(v13 + 24);
v413:;
    memset(v17, 0, 10u);
    memset(v18, 0, 564u);
    v414 = 1; v415 = 1; v416 = 4; v417 = 0; v418 = 0; v419 = (u8 *)0; v420 = 0; v421 = (u8 *)0; v422 = 0;
v388:;
    v441 = v414; v442 = v415; v443 = v416; v444 = v417; v445 = v418; v446 = v419; v447 = v420; v448 = v421; v449 = v422; goto v423;
v50:;
    at(u32, v14) = (u32)at(u8, v16 + 4);
    at(u8, v14 + 4) = at(u8, v16 + 8);
    at(u8, v14 + 5) = at(u8, v16 + 9);
    memcpy(v14 + 6, v16 + 10, 10u);
    font_subset_font_to_cut_closing_refusal(v19, v3, v14);
    u8 v435 = at(u8, v19);
    u8 v437 = at(u8, v19 + 4);
    u8 v439 = at(u8, v19 + 5);
    memcpy(v17, v19 + 6, 10u);
    v441 = 1; v442 = v435; v443 = v437; v444 = v439; v445 = 0; v446 = (u8 *)0; v447 = 0; v448 = (u8 *)0; v449 = 0;
v423:;
    at(u32_1, v0) = v441;
    at(u32_1, v0 + 4) = (u32)v442;
    at(u8, v0 + 8) = v443;
    at(u8, v0 + 9) = v444;
    memcpy(v0 + 10, v17, 10u);
    memcpy(v0 + 20, v18, 564u);
    at(u64_1, v0 + 584) = v445;
    at(ptr_1, v0 + 592) = v446;
    at(u64_1, v0 + 600) = v447;
    at(u64_1, v0 + 608) = v447;
    at(ptr_1, v0 + 616) = v448;
    at(u64_1, v0 + 624) = v449;
    at(u64_1, v0 + 632) = v449;
    return;
v21:;
    font_subset_font_of_kind_FontOfKind_open_25ca(v15, v1, v3);
    u8 v24 = at(u8, v15 + 8);
    u8 v26 = at(u8, v15 + 9);
    if (!(at(u8, v15) == 0)) goto v30;
    at(u32_1, v0) = 0;
    at(u32_1, v0 + 4) = 0;
    at(u8, v0 + 8) = v24;
    at(u8, v0 + 9) = v26;
    memcpy(v0 + 10, v15 + 10, 10u);
    memcpy(v0 + 20, v15 + 20, 564u);
    memset(v0 + 584, 0, 56u);
    return;
v30:;
    u32 v41 = (u32)at(u8, v15 + 4);
    at(u32_1, v0) = 1;
    at(u32_1, v0 + 4) = v41;
    at(u8, v0 + 8) = v24;
    at(u8, v0 + 9) = v26;
    memcpy(v0 + 10, v15 + 10, 10u);
    memset(v0 + 20, 0, 620u);
    return;
}

static void font_subset_font_to_cut_closing_refusal(u8 *v0, u8 *v1, u8 *v2) {
    _Alignas(8) u8 v4[40];
    _Alignas(2) u8 v5[10], v12[10], v13[10];
    u64 v30;
    u8 v66, v68, v69, v70, v71;
    u8 v6 = at(u8, v2);
    u8 v8 = at(u8, v2 + 4);
    u8 v10 = at(u8, v2 + 5);
    memset(v12, 0, 10u);
    if (v6 == 0) { v70 = 0; v71 = 0; goto v15; }
    if (!(v8 == 5)) goto v19;
    u8 *v20 = at(ptr_1, v1);
    u16 v22 = at(u16_1, v20 + 4);
    u64 v24 = (u64)bswap16(v22);
    if (v22 == 0) { v66 = 5; goto v26; }
    v30 = 0;
v27:;
    u64 v32 = v30 << 4;
    if (!((((at(u8, v20 + (i64)v32 + 12) == 71u) & (at(u8, v20 + (i64)v32 + 13) == 83u)) & (at(u8, v20 + (i64)v32 + 14) == 85u)) & (at(u8, v20 + (i64)v32 + 15) == 66u))) goto v28;
    u32 v51 = at(u32_1, v20 + (i64)v32 + 20);
    u32 v53 = at(u32_1, v20 + (i64)v32 + 24);
    memset(v4, 0, 40u);
    if (!(v53 == 0)) goto v56;
    v66 = 5; goto v26;
v56:;
    font_layout_layout_Layout_open(v4, v20 + (i64)((u64)bswap32(v51)), (u64)bswap32(v53));
    v66 = (at(u8, v4) == 1) ? 5 : 4; goto v26;
v28:;
    u64 v29 = v30 + 1;
    if (v29 == v24) v66 = 5; else { v30 = v29; goto v27; }
v26:;
    memset(v5, 0, 10u);
    v68 = v66; v69 = 0; goto v67;
v19:;
    memcpy(v5, v2 + 6, 10u);
    v68 = v8; v69 = v10;
v67:;
    memcpy(v13, v5, 10u);
    memcpy(v12, v13, 10u);
    v70 = v68; v71 = v69;
v15:;
    at(u32_1, v0) = (u32)v6;
    at(u8, v0 + 4) = v70;
    at(u8, v0 + 5) = v71;
    memcpy(v0 + 6, v12, 10u);
    return;
}

u8 font_subset_forms_form_of_file(u8 v0, u8 *v1, u8 *v2, u64 v3) {
    _Alignas(8) u8 v5[24], v6[24];
    u64 v13, v15;
    memset(v5, 0, 24u);
    font_write_size_file_size_22d8(v5, v1);
    if (font_write_whole_file_is_whole_file(v1, 1, v5, v2, v3)) return 2;
    if (v0 == 0) { v13 = 12u; v15 = 0; } else goto v12;
v11:;
    u8_u64 v20 = font_write_size_table_length_a65d(v1, 0, v5, at(u64, (u8 *)table_faed1f12 + (v15 << 3)));
    u64 v23 = v20._1;
    u64 v14 = ((v20._0 == 1) ? ((v23 + 16u) + (((u64)0 - v23) & 3)) : 0) + v13;
    u64 v16 = v15 + 1;
    if (!(v16 == 29u)) { v13 = v14; v15 = v16; goto v11; }
    memcpy(v6, v5, 16u);
    at(u64, v6 + 16) = v14;
    if (font_write_whole_file_is_whole_file(v1, 0, v6, v2, v3)) return 1;
v12:;
    return 0;
}

static void font_subset_further_tables_FixedTable_of_1948(u8 *v0, u8 *v1, u64 v2) {
    _Alignas(4) u8 v4[20];
    u64 v30, v112, v123, v126, v134, v136, v145, v147;
    u8 *v146;
    u8 *v5 = at(ptr_1, v1);
    u64 v6 = (u64)v5;
    at(u32, v4) = 1163084098u;
    at(u32, v4 + 4) = 1178944583u;
    at(u32, v4 + 8) = 1397706823u;
    at(u32, v4 + 12) = 1112888135u;
    at(u32, v4 + 16) = 1852990827u;
    u32 v14 = at(u32, v4 + (i64)(v2 << 2) - 64);
    u16 v16 = at(u16_1, v5 + 4);
    u64 v18 = (u64)bswap16(v16);
    if (v16 == 0) goto v20;
    u8 v22 = (u8)v14;
    u8 v24 = (u8)(v14 >> 16u);
    u8 v26 = (u8)(v14 >> 8);
    v30 = 0;
v27:;
    u64 v32 = v30 << 4;
    if (!((((at(u8, v5 + (i64)v32 + 12) == v22) ? (at(u8, v5 + (i64)v32 + 13) == v26) : 0) ? (at(u8, v5 + (i64)v32 + 14) == v24) : 0) ? (((((u32)at(u8, v5 + (i64)v32 + 15)) << 24u) ^ v14) < 16777216u) : 0)) goto v28;
    u32 v58 = bswap32(at(u32_1, v5 + (i64)v32 + 24));
    u64 v59 = (u64)bswap32(at(u32_1, v5 + (i64)v32 + 20));
    u64 v60 = (u64)v58;
    flag v62 = v2 == 17u;
    flag v63 = v2 == 16u;
    if (!((v2 < 20u) & ((v63 ? 12u : (v62 ? 18u : 14u)) <= v60))) { v145 = 0; v146 = (u8 *)0; v147 = 0; goto v70; }
    if (!(at(u16_1, v5 + (i64)v59) == 256u)) { v145 = 0; v146 = (u8 *)0; v147 = 0; goto v70; }
    if ((v62 ? 3 : 1) > bswap16(at(u16_1, v5 + (i64)v59 + 2))) { v145 = 0; v146 = (u8 *)0; v147 = 0; goto v70; }
    u64 v81 = v63 ? 8 : (v62 ? 14u : 10u);
    if (at(u32_1, (v5 + (i64)v59) + (i64)v81) == 0) { v145 = 0; v146 = (u8 *)0; v147 = 0; goto v70; }
    u64_u64 v87 = sys_rattle_alloc(v60, 1);
    if (!(v87._0 & 1)) goto v91;
    u64 v92 = v87._1;
    u8 *v93 = (u8 *)v92;
    if (!((v92 - ((u64)(v5 + (i64)v59))) < v60)) goto v98;
    if (v58 < 4) { v134 = 0; goto v100; }
    if ((v92 - (v6 + v59)) < 32u) { v134 = 0; goto v100; }
    if (v58 < 16u) { v123 = 0; goto v107; }
    u64 v109 = v60 & 12u;
    u64 v110 = v60 & 0xfffffff0u;
    v112 = 0;
v111:;
    at(u8x16_1, v93 + v112) = at(u8x16_1, (v5 + (i64)v59) + v112);
    u64 v113 = v112 + 16u;
    if (!(v113 == v110)) { v112 = v113; goto v111; }
    if (v110 == v60) goto v120;
    if (v109 == 0) { v134 = v110; goto v100; }
    v123 = v110;
v107:;
    u64 v124 = v60 & 0xfffffffcu;
    v126 = v123;
v125:;
    at(u8x4_1, v93 + v126) = at(u8x4_1, (v5 + (i64)v59) + v126);
    u64 v127 = v126 + 4;
    if (!(v127 == v124)) { v126 = v127; goto v125; }
    if (v124 == v60) goto v120;
    v134 = v124;
v100:;
    v136 = v134;
v135:;
    at(u8, v93 + v136) = at(u8, (v5 + (i64)v59) + v136);
    u64 v137 = v136 + 1;
    if (v137 == v60) goto v120;
    v136 = v137; goto v135;
v98:;
    memmove_any(v93, v5 + (i64)v59, v60);
v120:;
    at(u32_1, v93 + (i64)v81) = 0;
    v145 = 1; v146 = v93; v147 = v60; goto v70;
v91:;
    at(u8, v0) = 1;
    memset(v0 + 8, 0, 56u);
    return;
v70:;
    at(u8, v0) = 0;
    at(u64_1, v0 + 8) = 1;
    at(ptr_1, v0 + 16) = v5 + (i64)v59;
    at(u64_1, v0 + 24) = v60;
    at(u64_1, v0 + 32) = v145;
    at(ptr_1, v0 + 40) = v146;
    at(u64_1, v0 + 48) = v147;
    at(u64_1, v0 + 56) = v147;
    return;
v28:;
    u64 v29 = v30 + 1;
    if (!(v29 == v18)) { v30 = v29; goto v27; }
v20:;
    at(u8, v0) = 0;
    memset(v0 + 8, 0, 56u);
    return;
}

void font_subset_further_tables_FixedTables_drop(u8 *v0) {
    u8 v3 = at(u8, v0 + 32);
    u8 *v5 = at(ptr_1, v0 + 40);
    u64 v7 = at(u64_1, v0 + 56);
    u8 v9 = at(u8, v0 + 88);
    u8 *v11 = at(ptr_1, v0 + 96);
    u64 v13 = at(u64_1, v0 + 112);
    u8 v15 = at(u8, v0 + 144);
    u8 *v17 = at(ptr_1, v0 + 152);
    u64 v19 = at(u64_1, v0 + 168);
    u8 v21 = at(u8, v0 + 200);
    u8 *v23 = at(ptr_1, v0 + 208);
    u64 v25 = at(u64_1, v0 + 224);
    if ((at(u8, v0 + 256) != 1) ? 1 : (at(u64_1, v0 + 280) == 0)) goto v33;
    sys_rattle_dealloc(at(ptr_1, v0 + 264));
v33:;
    if ((v21 != 1) ? 1 : (v25 == 0)) goto v40;
    sys_rattle_dealloc(v23);
v40:;
    if ((v15 != 1) ? 1 : (v19 == 0)) goto v45;
    sys_rattle_dealloc(v17);
v45:;
    if ((v9 != 1) ? 1 : (v13 == 0)) goto v50;
    sys_rattle_dealloc(v11);
v50:;
    if ((v3 != 1) ? 1 : (v7 == 0)) return;
    sys_rattle_dealloc(v5);
    return;
}

void font_subset_further_tables_FurtherTablesTablesBySlot_table_1234(u8 *v0, u8 *v1, u64 v2) {
    _Alignas(4) u8 v4[20], v5[32];
    _Alignas(8) u8 v6[24];
    u8 *v33, *v46, *v47, *v101;
    u64 v48, v68, v100, v102;
    memset(v6, 0, 24u);
    if (!(v2 < 16u)) goto v9;
    font_subset_accepted_copied(v6, at(ptr, v1 + 8), v2);
    at(u64_1, v0) = (u64)at(u8, v6);
    memcpy(v0 + 8, v6 + 8, 16u);
    return;
v9:;
    switch (at(u8, v1)) {
    case 0: case 1: goto v19;
    case 2: goto v20;
    case 3: goto v21;
    default: __builtin_trap();
    }
v20:;
    if (!(v2 < 21u)) goto v19;
    v33 = at(ptr_1, at(ptr, v1 + 8)); goto v27;
v19:;
    memset(v0, 0, 24u);
    return;
v21:;
    u8 *v30 = at(ptr_1, at(ptr, v1 + 8));
    if (v2 < 21u) v33 = v30; else goto v32;
v27:;
    at(u32, v4) = 1163084098u;
    at(u32, v4 + 4) = 1178944583u;
    at(u32, v4 + 8) = 1397706823u;
    at(u32, v4 + 12) = 1112888135u;
    at(u32, v4 + 16) = 1852990827u;
    v46 = v33; v47 = v4; v48 = 0xffffffffffffffc0u; goto v38;
v32:;
    at(u32, v5) = 1380013640u;
    at(u32, v5 + 4) = 1380013645u;
    at(u32, v5 + 8) = 1413567571u;
    at(u32, v5 + 12) = 1380013654u;
    at(u32, v5 + 16) = 1918989921u;
    at(u32, v5 + 20) = 1918989923u;
    at(u32, v5 + 24) = 1918989926u;
    at(u32, v5 + 28) = 1918989927u;
    v46 = v30; v47 = v5; v48 = 0xffffffffffffffacu;
v38:;
    u32 v52 = at(u32, (v47 + (i64)(v2 << 2)) + (i64)v48);
    u16 v54 = at(u16_1, v46 + 4);
    u64 v56 = (u64)bswap16(v54);
    if (v54 == 0) { v100 = 0; v101 = (u8 *)0; v102 = 0; goto v58; }
    u8 v60 = (u8)v52;
    u8 v62 = (u8)(v52 >> 16u);
    u8 v64 = (u8)(v52 >> 8);
    v68 = 0;
v65:;
    u64 v70 = v68 << 4;
    if (!((((at(u8, v46 + (i64)v70 + 12) == v60) ? (at(u8, v46 + (i64)v70 + 13) == v64) : 0) ? (at(u8, v46 + (i64)v70 + 14) == v62) : 0) ? (((((u32)at(u8, v46 + (i64)v70 + 15)) << 24u) ^ v52) < 16777216u) : 0)) goto v66;
    v100 = 1; v101 = v46 + (i64)((u64)bswap32(at(u32_1, v46 + (i64)v70 + 20))); v102 = (u64)bswap32(at(u32_1, v46 + (i64)v70 + 24)); goto v58;
v66:;
    u64 v67 = v68 + 1;
    if (v67 == v56) { v100 = 0; v101 = (u8 *)0; v102 = 0; } else { v68 = v67; goto v65; }
v58:;
    at(ptr, v6 + 8) = v101;
    at(u64, v6 + 16) = v102;
    at(u64_1, v0) = v100;
    memcpy(v0 + 8, v6 + 8, 16u);
    return;
}

void font_subset_kind_source_CutOfKindSource_copied(u8 *v0, u8 *v1, u64 v2) {
    _Alignas(8) u8 v4[24], v5[24];
    u8 v72, *v76, v77, *v81;
    u64 v82, v83;
    switch (v2) {
    case 28u: goto v7;
    case 8: goto v8;
    case 12u: goto v9;
    case 15u: goto v10;
    case 29u: goto v11;
    default: goto v6;
    }
v6:;
    memset(v5, 0, 24u);
    if (v2 < 16u) goto v55;
    goto v56;
v7:;
    if (!(at(u8, v1 + 192) == 1)) goto v16;
    v81 = at(ptr, v1 + 200); v82 = at(u64, v1 + 208); v83 = 1; goto v21;
v8:;
    if (!(at(u8, v1 + 224) == 1)) goto v26;
    v81 = at(ptr, v1 + 232); v82 = at(u64, v1 + 240); v83 = 1; goto v21;
v9:;
    if (!(at(u8, v1 + 256) == 1)) goto v26;
    v81 = at(ptr, v1 + 264); v82 = at(u64, v1 + 272); v83 = 1; goto v21;
v10:;
    if (!(at(u8, v1 + 288) == 1)) goto v26;
    v81 = at(ptr, v1 + 296); v82 = at(u64, v1 + 304); v83 = 1; goto v21;
v26:;
    memset(v5, 0, 24u);
v55:;
    font_subset_accepted_copied(v5, at(ptr, v1 + 8), v2);
    v76 = at(ptr, v5 + 8); v77 = at(u8, v5); goto v63;
v11:;
    if (!(at(u8, v1 + 320) == 1)) goto v16;
    v81 = at(ptr, v1 + 328); v82 = at(u64, v1 + 336); v83 = 1; goto v21;
v16:;
v56:;
    memset(v4, 0, 24u);
    if (!(at(u8, v1 + 112) == 1)) { v72 = 0; goto v68; }
    font_subset_font_of_kind_FontOfKind_further_6e0a(v4, at(ptr, v1 + 120), v2);
    v72 = at(u8, v4);
v68:;
    memcpy(v5 + 8, v4 + 8, 16u);
    v76 = at(ptr, v5 + 8); v77 = v72;
v63:;
    v81 = v76; v82 = at(u64, v5 + 16); v83 = (u64)v77;
v21:;
    at(u64_1, v0) = v83;
    at(ptr_1, v0 + 8) = v81;
    at(u64_1, v0 + 16) = v82;
    return;
}

void font_subset_kind_source_CutOfKindSource_next_run(u8 *v0, u8 *v1, u32 v2) {
    _Alignas(4) u8 v4[16], v5[16], v7[16], v8[16];
    _Alignas(8) u8 v6[16];
    u32 v36, v51, v52, v120, v121;
    u8 v50, *v104, v105, v110, v119;
    u16 v53, v54, v122, v123;
    if (!(at(u8, v1 + 128) == 1)) goto v13;
    u8 *v15 = at(ptr_1, v1 + 136);
    at(ptr, v6) = v1 + 16;
    at(ptr, v6 + 8) = v15;
    memset(v5, 0, 16u);
    font_map_within_WithinPieces_piece_2760(v5, v6, v2);
    if (!(at(u8, v5) == 1)) { v50 = 0; v51 = 0; v52 = 0; v53 = 0; v54 = 0; goto v21; }
    u32 v23 = at(u32, v5 + 4);
    u16 v27 = at(u16, v5 + 12);
    u16 v29 = at(u16, v5 + 14);
    u32 v25 = at(u32, v5 + 8);
    memset(v4, 0, 16u);
    u32 v34 = ((u32)v27) - v23;
    v36 = v25;
v35:;
    u32 v39 = v36 + 1;
    font_map_within_WithinPieces_piece_2760(v4, v6, v39);
    if (!(at(u8, v4) == 1)) goto v42;
    if ((at(u32, v4 + 4) == v39) ? ((v34 + v39) == ((u32)at(u16, v4 + 12))) : 0) { v36 = at(u32, v4 + 8); goto v35; }
v42:;
    v50 = 1; v51 = v23; v52 = v36; v53 = v27; v54 = v29;
v21:;
    v119 = v50; v120 = v51; v121 = v52; v122 = v53; v123 = v54; goto v55;
v13:;
    memset(v8, 0, 16u);
    if (!(at(u8, v1 + 64) == 1)) goto v60;
    u8 *v62 = at(ptr, v1 + 72);
    u64 v64 = at(u64, v1 + 80);
    memset(v7, 0, 16u);
    u64 v69 = uadd_sat64(at(u64, v1 + 104), at(u64, v1 + 96));
    if (!((v69 != 0) & (v64 > v69))) goto v74;
    u64 v75 = v69 * 12u;
    if (!(v2 > at(u32, v62 + (i64)v75 - 8))) goto v74;
    if (at(u32, v62 + (i64)v75 + 4) < v2) goto v74;
    at(u64_1, v1 + 96) = v69;
    u32 v85 = at(u32_1, v62 + (i64)v75);
    u32 v86 = at(u32_1, v62 + (i64)v75 + 4);
    u16 v90 = at(u16_1, v62 + (i64)v75 + 10);
    u16 v96 = (u16)(((v2 > v85) ? ((u16)(v2 - v85)) : 0) + at(u16_1, v62 + (i64)v75 + 8));
    at(u32, v7 + 4) = umax32(v2, v85);
    at(u32, v7 + 8) = v86;
    at(u16, v7 + 12) = v96;
    at(u16, v7 + 14) = v90;
    v104 = v7 + 4; v105 = 1; goto v101;
v74:;
    map_union_run_list_run_searched(v7, v62, v64, v1 + 96, v2);
    v104 = v7 + 4; v105 = at(u8, v7);
v101:;
    memcpy(v8 + 4, v104, 12u);
    v110 = v105; goto v107;
v60:;
    font_map_chart_Chart_next_run_33e3(v8, v1 + 16, v2);
    v110 = at(u8, v8);
v107:;
    v119 = v110; v120 = at(u32, v8 + 4); v121 = at(u32, v8 + 8); v122 = at(u16, v8 + 12); v123 = at(u16, v8 + 14);
v55:;
    at(u32_1, v0) = (u32)v119;
    at(u32_1, v0 + 4) = v120;
    at(u32_1, v0 + 8) = v121;
    at(u16_1, v0 + 12) = v122;
    at(u16_1, v0 + 14) = v123;
    return;
}

void font_subset_kind_source_CutOfKind_drop(u8 *v0) {
    u8 v3 = at(u8, v0 + 24);
    u8 *v5 = at(ptr_1, v0 + 32);
    u64 v7 = at(u64_1, v0 + 48);
    u8 v9 = at(u8, v0 + 64);
    u8 *v11 = at(ptr_1, v0 + 72);
    u64 v13 = at(u64_1, v0 + 88);
    u8 *v15 = at(ptr_1, v0 + 168);
    u64 v17 = at(u64_1, v0 + 184);
    u8 v19 = at(u8, v0 + 192);
    u8 *v21 = at(ptr_1, v0 + 200);
    u64 v23 = at(u64_1, v0 + 216);
    u8 v25 = at(u8, v0 + 224);
    u8 *v27 = at(ptr_1, v0 + 232);
    u64 v29 = at(u64_1, v0 + 248);
    u8 v31 = at(u8, v0 + 256);
    u8 *v33 = at(ptr_1, v0 + 264);
    u64 v35 = at(u64_1, v0 + 280);
    u8 v37 = at(u8, v0 + 288);
    u8 *v39 = at(ptr_1, v0 + 296);
    u64 v41 = at(u64_1, v0 + 312);
    if ((at(u8, v0 + 320) != 1) ? 1 : (at(u64_1, v0 + 344) == 0)) goto v49;
    sys_rattle_dealloc(at(ptr_1, v0 + 328));
v49:;
    if ((v37 != 1) ? 1 : (v41 == 0)) goto v56;
    sys_rattle_dealloc(v39);
v56:;
    if ((v31 != 1) ? 1 : (v35 == 0)) goto v61;
    sys_rattle_dealloc(v33);
v61:;
    if ((v25 != 1) ? 1 : (v29 == 0)) goto v66;
    sys_rattle_dealloc(v27);
v66:;
    if ((v19 != 1) ? 1 : (v23 == 0)) goto v71;
    sys_rattle_dealloc(v21);
v71:;
    if (v17 == 0) goto v74;
    sys_rattle_dealloc(v15);
v74:;
    if ((v3 != 1) ? 1 : (v7 == 0)) goto v79;
    sys_rattle_dealloc(v5);
v79:;
    if ((v9 != 1) ? 1 : (v13 == 0)) return;
    sys_rattle_dealloc(v11);
    return;
}

void font_subset_kind_source_CutOfKind_new_991b(u8 *v0, u8 *v1, u8 v2, u8 *v3, u8 *v4) {
    _Alignas(8) u8 v6[56], v7[152], v8[104], v9[200], v10[16], v12[24], v13[144], v14[24], v15[360], v20[192];
    u8 v11[111], v19[199];
    u64 v17 = (u64)at(u8, v4);
    memset(v15, 0, 360u);
    memset(v19, 0, 199u);
    memset(v20, 0, 192u);
    memcpy(v10, v4 + 8, 16u);
    memset(v9, 0, 200u);
    memset(v13, 0, 144u);
    memset(v14, 0, 24u);
    u8 *v22 = at(ptr, v1 + 8);
    memset(v7, 0, 152u);
    memset(v6, 0, 56u);
    font_map_chart_Chart_of_3518(v6, v22 + 72);
    if (!(at(u8, v6) == 0)) goto v27;
    u64 v30 = at(u64, v6 + 48);
    u64 v34 = at(u64, v6 + 8);
    u64 v36 = (u64)at(u8, v6 + 16);
    memcpy(v8 + 24, v6 + 24, 24u);
    at(ptr, v8) = v22;
    at(u64, v8 + 8) = v34;
    at(u64, v8 + 16) = v36;
    at(u64, v8 + 48) = v30;
    memset(v8 + 56, 0, 48u);
    font_subset_selection_Seeds_in_chart(v7, v8, v2, v3);
    u8 v42 = at(u8, v7);
    memcpy(v11 + 7, v7 + 8, 104u);
    u8 v46 = at(u8, v7 + 112);
    u64 v48 = at(u64, v7 + 120);
    memcpy(v12, v7 + 128, 24u);
    if (!(v42 == 0)) goto v28;
    memcpy(v13, v11 + 7, 104u);
    at(u64, v13 + 104) = (u64)v46;
    at(u64, v13 + 112) = v48;
    memcpy(v13 + 120, v12, 24u);
    at(u64, v14) = v17;
    memcpy(v14 + 8, v10, 16u);
    font_subset_selection_Selection_of_seeds_4cdf(v9, v1, v13, v14);
    u8 v58 = at(u8, v9);
    memcpy(v19 + 7, v9 + 8, 192u);
    if (!(v58 == 0)) goto v52;
    memcpy(v20, v19 + 7, 192u);
    font_subset_kind_source_CutOfKind_of_87a4(v15, v20);
    at(u8, v0) = at(u8, v15);
    memcpy(v0 + 8, v15 + 8, 352u);
    return;
v27:;
v28:;
v52:;
    at(u8, v0) = 1;
    memset(v0 + 8, 0, 352u);
    return;
}

void font_subset_kind_source_CutOfKind_new_d913(u8 *v0, u8 *v1, u8 v2, u8 *v3, u8 *v4) {
    _Alignas(8) u8 v6[200], v7[16], v8[152], v9[144], v10[24], v11[360], v15[192];
    u8 v14[192];
    u8 v12 = at(u8, v4);
    memset(v11, 0, 360u);
    memset(v15, 0, 192u);
    memcpy(v7, v4 + 8, 16u);
    memset(v6, 0, 200u);
    memset(v8, 0, 152u);
    font_subset_selection_Seeds_of(v8, at(ptr, v1 + 8), v2, v3);
    if (!(at(u8, v8) == 0)) goto v21;
    u64 v25 = at(u64, v8 + 120);
    u64 v30 = (u64)at(u8, v8 + 112);
    memcpy(v9, v8 + 8, 104u);
    at(u64, v9 + 104) = v30;
    at(u64, v9 + 112) = v25;
    memcpy(v9 + 120, v8 + 128, 24u);
    at(u64, v10) = (u64)v12;
    memcpy(v10 + 8, v7, 16u);
    font_subset_selection_Selection_of_seeds_4cdf(v6, v1, v9, v10);
    u8 v35 = at(u8, v6);
    memcpy(v14, v6 + 8, 192u);
    if (!(v35 == 0)) goto v22;
    memcpy(v15, v14, 192u);
    font_subset_kind_source_CutOfKind_of_1490(v11, v15);
    at(u8, v0) = at(u8, v11);
    memcpy(v0 + 8, v11 + 8, 352u);
    return;
v21:;
v22:;
    at(u8, v0) = 1;
    memset(v0 + 8, 0, 352u);
    return;
}

static void font_subset_kind_source_CutOfKind_of_1490(u8 *v0, u8 *v1) {
    _Alignas(8) u8 v3[1], v4[24], v5[40], v7[24], v8[24], v9[32], v10[24], v11[8], v12[24], v13[24], v14[40], v15[40], v16[24], v17[192], v18[24], v22[24];
    _Alignas(4) u8 v6[16];
    u8 v21[191], *v134, *v181, *v387, *v388, *v395, *v398, *v399, *v428, *v443, *v457, *v518, *v692, *v728, *v742, *v743, *v774, *v784, *v785, *v787, v849, v850, *v852, *v856, *v860, *v863, v867, v868, *v870, *v874, *v878, *v881;
    u64 v61, v116, v109, v126, v133, v135, v175, v195, v202, v215, v218, v225, v234, v265, v266, v286, v293, v306, v309, v235, v335, v347, v348, v350, v352, v359, v400, v401, v412, v429, v430, v444, v445, v458, v459, v471, v472, v478, v481, v485, v482, v496, v507, v508, v522, v523, v536, v537, v561, v572, v575, v583, v585, v604, v607, v609, v608, v626, v649, v659, v662, v670, v672, v693, v694, v745, v755, v773, v775, v786, v788, v816, v851, v853, v854, v855, v857, v858, v859, v861, v862, v864, v865, v866, v869, v871, v872, v873, v875, v876, v877, v879, v880, v882, v883, v884;
    flag v132;
    u8x16 v204, v295;
    u64x2 v337;
    u32 v385, v386, v396, v397, v483, v509;
    u8 v19 = at(u8, v1);
    memset(v21, 0, 191u);
    memset(v22, 0, 24u);
    if (!(v19 == 0)) goto v25;
    memcpy(v21, v1 + 1, 191u);
    v867 = 0; v868 = 0; v869 = 0; v870 = (u8 *)0; v871 = 0; v872 = 0; v873 = 0; v874 = (u8 *)0; v875 = 0; v876 = 0; v877 = 0; v878 = (u8 *)0; v879 = 0; v880 = 0; v881 = (u8 *)0; v882 = 0; v883 = 0; v884 = 0; goto v26;
v25:;
    memset(v18, 0, 24u);
    at(u8, v17) = v19;
    memcpy(v17 + 1, v1 + 1, 191u);
    if (!(at(u8, v17 + 112) == 1)) goto v32;
    u8 *v34 = at(ptr, v17 + 120);
    memset(v16, 0, 24u);
    memset(v15, 0, 40u);
    divided_tables_metrics_kept_metrics_6f24(v15, v17, 7, 8);
    u8 v37 = at(u8, v15 + 8);
    u8 *v39 = at(ptr, v15 + 16);
    u64 v41 = at(u64, v15 + 24);
    u64 v43 = at(u64, v15 + 32);
    if (!(at(u8, v15) == 0)) goto v46;
    u64 v47 = (u64)v37;
    u8 *v50 = at(ptr_1, at(ptr, v17 + 8));
    u64 v51 = (u64)v50;
    u16 v53 = at(u16_1, v50 + 4);
    u64 v55 = (u64)bswap16(v53);
    if (v53 == 0) { v132 = 1; v133 = 0; v134 = (u8 *)0; v135 = 0; goto v57; }
    v61 = 0;
v58:;
    u64 v63 = v61 << 4;
    if (!((((at(u8, v50 + (i64)v63 + 12) == 112u) & (at(u8, v50 + (i64)v63 + 13) == 111u)) & (at(u8, v50 + (i64)v63 + 14) == 115u)) & (at(u8, v50 + (i64)v63 + 15) == 116u))) goto v59;
    u64 v87 = (u64)bswap32(at(u32_1, v50 + (i64)v63 + 20));
    if (bswap32(at(u32_1, v50 + (i64)v63 + 24)) < 32u) { v132 = 1; v133 = 0; v134 = (u8 *)0; v135 = 0; goto v57; }
    u64_u64 v92 = sys_rattle_alloc(32u, 1);
    if (!(v92._0 & 1)) goto v96;
    u64 v97 = v92._1;
    u8 *v98 = (u8 *)v97;
    if (!((v97 - ((u64)(v50 + (i64)v87))) < 32u)) goto v103;
    if ((v97 - (v51 + v87)) < 32u) v116 = 0; else { v109 = 0; goto v108; }
v107:;
    at(u8, v98 + v116) = at(u8, (v50 + (i64)v87) + v116);
    u64 v117 = v116 + 1;
    if (v117 == 32u) goto v115;
    v116 = v117; goto v107;
v108:;
    at(u8x16_1, v98 + v109) = at(u8x16_1, (v50 + (i64)v87) + v109);
    u64 v110 = v109 + 16u;
    if (v110 == 32u) goto v115;
    v109 = v110; goto v108;
v103:;
    memmove(v98, v50 + (i64)v87, 32u);
v115:;
    if ((v97 - ((u64)(u8 *)table_62a9c92b)) < 4) v126 = 0; else goto v125;
v124:;
    at(u8, v98 + v126) = at(u8, (u8 *)table_62a9c92b + v126);
    u64 v127 = v126 + 1;
    if (v127 == 4) { v132 = 0; v133 = 1; v134 = v98; v135 = 32u; goto v57; }
    v126 = v127; goto v124;
v125:;
    at(u32_1, v98) = 768u;
    v132 = 0; v133 = 1; v134 = v98; v135 = 32u; goto v57;
v96:;
    if ((v37 != 1) ? 1 : (v43 == 0)) goto v46;
    sys_rattle_dealloc(v39);
    goto v46;
v59:;
    u64 v60 = v61 + 1;
    if (v60 == v55) { v132 = 1; v133 = 0; v134 = (u8 *)0; v135 = 0; } else { v61 = v60; goto v58; }
v57:;
    memset(v14, 0, 40u);
    divided_tables_metrics_kept_metrics_6f24(v14, v17, 14u, 15u);
    u8 v138 = at(u8, v14 + 8);
    u8 *v140 = at(ptr, v14 + 16);
    u64 v142 = at(u64, v14 + 24);
    u64 v144 = at(u64, v14 + 32);
    if (!(at(u8, v14) == 0)) goto v147;
    u64 v152 = (u64)v138;
    u8 v154 = at(u8, v34 + 488);
    if (v154 == 0) { v692 = (u8 *)0; v693 = 0; v694 = 0; goto v156; }
    u16 v160 = at(u16, v34 + 562);
    u64 v161 = (u64)v160;
    flag v162 = v160 == 0;
    if (v162) { v181 = v3; goto v163; }
    u64_u64 v167 = sys_rattle_alloc(v161 << 4, 8);
    if (!(v167._0 & 1)) goto v171;
    u8 *v173 = (u8 *)v167._1;
    v175 = 0;
v174:;
    u64 v177 = v175 << 4;
    at(ptr_1, v173 + v177) = (u8 *)table_55ba7287;
    at(u64_1, v173 + v177 + 8) = 0;
    u64 v176 = v175 + 1;
    if (v176 == v161) v181 = v173; else { v175 = v176; goto v174; }
v163:;
    u8 *v183 = at(ptr, v17 + 168);
    u64 v185 = at(u64, v17 + 176);
    if (v185 == 0) { v215 = 0; goto v187; }
    if (at(u8, v183) & 1) { v225 = 0; goto v191; }
    if (v185 < 64u) { v215 = 0; goto v187; }
    v195 = 0;
v194:;
    if (v195 == 0xffffffffffffffc0u) goto v197;
    v202 = 0; v204 = (u8x16){0};
v201:;
    u8x16 v205 = v204 | ((-(at(u8x16_1, (v183 + (i64)v195) + (i64)v202) & 1)));
    u64 v203 = v202 + 16u;
    if (!(v203 == 64u)) { v202 = v203; v204 = v205; goto v201; }
    if (!(bits_u8x16(v205) == 0)) { v215 = v195; goto v187; }
v197:;
    u64 v196 = v195 + 64u;
    if ((v185 - v196) < 64u) v215 = v196; else { v195 = v196; goto v194; }
v187:;
    if (v215 < v185) v218 = v215; else { v225 = v185; goto v191; }
v217:;
    if (at(u8, v183 + v218) & 1) { v225 = v218; goto v191; }
    u64 v219 = v218 + 1;
    if (v219 == v185) v225 = v185; else { v218 = v219; goto v217; }
v191:;
    if (!(v160 > ((u16)v225))) goto v229;
    v234 = v225;
v233:;
    u8 *v238 = at(ptr_1, v34 + 512);
    u8 *v239 = at(ptr_1, v34 + 528);
    u64 v240 = v234 & 65535u;
    if (!(at(u8, v34 + 560) == 0)) goto v243;
    u64 v244 = v240 << 1;
    v265 = ((u64)bswap16(at(u16_1, v238 + (i64)v244))) << 1; v266 = ((u64)bswap16(at(u16_1, v238 + (i64)v244 + 2))) << 1; goto v255;
v243:;
    u64 v256 = v240 << 2;
    v265 = (u64)bswap32(at(u32_1, v238 + (i64)v256)); v266 = (u64)bswap32(at(u32_1, v238 + (i64)v256 + 4));
v255:;
    u64 v269 = v240 << 4;
    at(ptr_1, v181 + (i64)v269) = v239 + (i64)v265;
    at(u64_1, v181 + (i64)v269 + 8) = v266 - v265;
    u64 v273 = (v234 + 1) & 65535u;
    u8 *v274 = at(ptr, v17 + 168);
    u64 v275 = at(u64, v17 + 176);
    if (!(v275 > v273)) goto v278;
    if (at(u8, v274 + v273) & 1) { v235 = v273; goto v236; }
v278:;
    if ((v275 - v273) < 64u) { v306 = v273; goto v284; }
    v286 = v273;
v285:;
    if (!(v286 < 0xffffffffffffffc0u)) goto v288;
    v293 = 0; v295 = (u8x16){0};
v292:;
    u8x16 v296 = v295 | ((-(at(u8x16_1, (v274 + (i64)v286) + (i64)v293) & 1)));
    u64 v294 = v293 + 16u;
    if (!(v294 == 64u)) { v293 = v294; v295 = v296; goto v292; }
    if (!(bits_u8x16(v296) == 0)) { v306 = v286; goto v284; }
v288:;
    u64 v287 = v286 + 64u;
    if ((v275 - v287) < 64u) v306 = v287; else { v286 = v287; goto v285; }
v284:;
    if (v306 < v275) v309 = v306; else { v235 = v275; goto v236; }
v308:;
    if (at(u8, v274 + v309) & 1) { v235 = v309; goto v236; }
    u64 v310 = v309 + 1;
    if (v310 == v275) v235 = v275; else { v309 = v310; goto v308; }
v236:;
    if (v160 > ((u16)v235)) { v234 = v235; goto v233; }
v229:;
    u8 *v318 = at(ptr_1, v34 + 496);
    u8 *v320 = at(ptr_1, v34 + 544);
    u64 v321 = (u64)v320;
    u64 v323 = at(u64_1, v34 + 552);
    memset(v13, 0, 24u);
    u64 v325 = (v161 << 2) + 24u;
    u64 v326 = v323 + v325;
    if (v162) { v359 = 0; goto v327; }
    if (v160 < 3) { v347 = 0; v348 = 0; goto v330; }
    u64 v333 = (v161 | 0xfffffffffffffffeu) + v161;
    v335 = 0; v337 = (u64x2){0};
v334:;
    u64x4 v342 = at(u64x4_8, v181 + (i64)(v335 << 4) + 8);
    u64x2 v338 = (u64x2){v342[0], v342[2]} + v337;
    u64 v336 = v335 + 2;
    if (!(v336 == v333)) { v335 = v336; v337 = v338; goto v334; }
    v347 = sum_u64x2(v338); v348 = v333;
v330:;
    v350 = v347; v352 = v348;
v349:;
    u64 v351 = at(u64, v181 + (i64)(v352 << 4) + 8) + v350;
    u64 v353 = v352 + 1;
    if (v353 == v161) v359 = v351; else { v350 = v351; v352 = v353; goto v349; }
v327:;
    u64 v360 = v359 + v326;
    if (!(v360 == 0)) goto v363;
    at(ptr, v13) = v3;
    memset(v13 + 8, 0, 16u);
    v385 = (u32)v326; v386 = (u32)v325; v387 = v13 + 16; v388 = v13 + 8; goto v368;
v363:;
    if (!((i64)v360 > (i64)0xffffffffffffffffu)) goto v371;
    u64_u64 v373 = sys_rattle_alloc(v360, 1);
    if (!(v373._0 & 1)) goto v371;
    u8 *v378 = (u8 *)v373._1;
    at(ptr, v13) = v378;
    at(u64, v13 + 8) = 0;
    at(u64, v13 + 16) = v360;
    u32 v381 = (u32)v325;
    u32 v382 = (u32)v326;
    if (v360 < 8) { v385 = v382; v386 = v381; v387 = v13 + 16; v388 = v13 + 8; } else { v395 = v378; v396 = v382; v397 = v381; v398 = v13 + 16; v399 = v13 + 8; v400 = v360; v401 = 0; goto v384; }
v368:;
    if (!std_alloc_vec_Vec_grow_amortized_1cf2(v13, 8)) { v518 = v387; goto v391; }
    v395 = at(ptr, v13); v396 = v385; v397 = v386; v398 = v387; v399 = v388; v400 = at(u64, v387); v401 = at(u64, v388);
v384:;
    u64 v402 = v401 + 8;
    memset(v399, 0, 16u);
    if ((((u64)(v395 + (i64)v401)) - ((u64)v318)) < 8) v412 = 0; else goto v409;
v408:;
    at(u8, (v395 + (i64)v401) + v412) = at(u8, v318 + v412);
    u64 v413 = v412 + 1;
    if (v413 == 8) goto v411;
    v412 = v413; goto v408;
v409:;
    at(u64_1, v395 + (i64)v401) = at(u64_1, v318);
v411:;
    at(ptr, v13) = v395;
    at(u64, v399) = v402;
    at(u64, v398) = v400;
    u32 v418 = bswap32(v397);
    if (!((v400 - v402) < 4)) { v428 = v395; v429 = v400; v430 = v402; goto v422; }
    if (!std_alloc_vec_Vec_grow_amortized_1cf2(v13, 4)) { v518 = v398; goto v391; }
    v428 = at(ptr, v13); v429 = at(u64, v398); v430 = at(u64, v399);
v422:;
    u64 v431 = v430 + 4;
    at(u32_1, v428 + (i64)v430) = v418;
    at(ptr, v13) = v428;
    at(u64, v399) = v431;
    at(u64, v398) = v429;
    u16 v433 = bswap16(v160);
    if (!((v429 - v431) < 2)) { v443 = v428; v444 = v429; v445 = v431; goto v437; }
    if (!std_alloc_vec_Vec_grow_amortized_1cf2(v13, 2)) { v518 = v398; goto v391; }
    v443 = at(ptr, v13); v444 = at(u64, v398); v445 = at(u64, v399);
v437:;
    u64 v446 = v445 + 2;
    at(u16_1, v443 + (i64)v445) = v433;
    at(ptr, v13) = v443;
    at(u64, v399) = v446;
    at(u64, v398) = v444;
    if (!((v444 - v446) < 2)) { v457 = v443; v458 = v444; v459 = v446; goto v451; }
    if (!std_alloc_vec_Vec_grow_amortized_1cf2(v13, 2)) { v518 = v398; goto v391; }
    v457 = at(ptr, v13); v458 = at(u64, v398); v459 = at(u64, v399);
v451:;
    u64 v460 = v459 + 2;
    at(u16_1, v457 + (i64)v459) = 256u;
    at(ptr, v13) = v457;
    at(u64, v399) = v460;
    at(u64, v398) = v458;
    u32 v462 = bswap32(v396);
    if (!((v458 - v460) < 4)) { v471 = v458; v472 = v460; goto v466; }
    if (!std_alloc_vec_Vec_grow_amortized_1cf2(v13, 4)) { v518 = v398; goto v391; }
    v471 = at(u64, v398); v472 = at(u64, v399); goto v466;
v391:;
    if (at(u64, v518) == 0) goto v371;
    goto v521;
v466:;
    u64 v473 = v472 + 4;
    at(u32_1, at(ptr, v13) + (i64)v472) = v462;
    at(u64, v399) = v473;
    at(u64, v398) = v471;
    if (v162) { v507 = v473; v508 = v471; v509 = 0; goto v476; }
    v478 = v473; v481 = v471; v483 = 0; v485 = 0;
v477:;
    u32 v487 = bswap32(v483);
    if (!((v481 - v478) < 4)) { v482 = v481; v496 = v478; goto v480; }
    if (!std_alloc_vec_Vec_grow_amortized_1cf2(v13, 4)) goto v493;
    v482 = at(u64, v398); v496 = at(u64, v399);
v480:;
    u64 v479 = v496 + 4;
    at(u32_1, at(ptr, v13) + (i64)v496) = v487;
    at(u64, v399) = v479;
    at(u64, v398) = v482;
    u32 v484 = v483 + ((u32)at(u64, v181 + (i64)(v485 << 4) + 8));
    u64 v486 = v485 + 1;
    if (!(v486 == v161)) { v478 = v479; v481 = v482; v483 = v484; v485 = v486; goto v477; }
    v507 = v479; v508 = v482; v509 = bswap32(v484);
v476:;
    if (!((v508 - v507) < 4)) { v522 = v508; v523 = v507; goto v513; }
    if (!std_alloc_vec_Vec_grow_amortized_1cf2(v13, 4)) goto v493;
    v522 = at(u64, v398); v523 = at(u64, v399); goto v513;
v493:;
    if (at(u64, v398) == 0) goto v371;
    goto v521;
v513:;
    u64 v524 = v523 + 4;
    at(u32_1, at(ptr, v13) + (i64)v523) = v509;
    at(u64, v399) = v524;
    at(u64, v398) = v522;
    if (!(v323 > (v522 - v524))) { v536 = v522; v537 = v524; goto v530; }
    if (!std_alloc_vec_Vec_grow_amortized_1cf2(v13, v323)) goto v533;
    v536 = at(u64, v398); v537 = at(u64, v399); goto v530;
v533:;
    if (at(u64, v398) == 0) goto v371;
    goto v521;
v530:;
    u64 v538 = v537 + v323;
    u8 *v539 = at(ptr, v13);
    u64 v540 = (u64)v539;
    memset(v399, 0, 16u);
    if (!((((u64)(v539 + (i64)v537)) - ((u64)v320)) < v323)) goto v547;
    if (v323 < 4) { v583 = 0; goto v549; }
    if (((v537 + v540) - v321) < 32u) { v583 = 0; goto v549; }
    if (v323 < 16u) { v572 = 0; goto v556; }
    u64 v558 = v323 & 12u;
    u64 v559 = v323 & 0xfffffffffffffff0u;
    v561 = 0;
v560:;
    at(u8x16_1, (v539 + (i64)v537) + v561) = at(u8x16_1, v320 + v561);
    u64 v562 = v561 + 16u;
    if (!(v562 == v559)) { v561 = v562; goto v560; }
    if (v323 == v559) goto v569;
    if (v558 == 0) { v583 = v559; goto v549; }
    v572 = v559;
v556:;
    u64 v573 = v323 & 0xfffffffffffffffcu;
    v575 = v572;
v574:;
    at(u8x4_1, (v539 + (i64)v537) + v575) = at(u8x4_1, v320 + v575);
    u64 v576 = v575 + 4;
    if (!(v576 == v573)) { v575 = v576; goto v574; }
    if (v323 == v573) goto v569;
    v583 = v573;
v549:;
    v585 = v583;
v584:;
    at(u8, (v539 + (i64)v537) + v585) = at(u8, v320 + v585);
    u64 v586 = v585 + 1;
    if (v586 == v323) goto v569;
    v585 = v586; goto v584;
v547:;
    memmove_any(v539 + (i64)v537, v320, v323);
v569:;
    at(u64, v399) = v538;
    at(u64, v398) = v536;
    if (!v162) goto v595;
    v692 = at(ptr, v13); v693 = at(u64, v13 + 8); v694 = at(u64, v13 + 16); goto v156;
v595:;
    v604 = at(u64, v13 + 8); v607 = at(u64, v13 + 16); v609 = 0;
v603:;
    u64 v611 = v609 << 4;
    u64 v614 = at(u64, v181 + (i64)v611 + 8);
    u8 *v615 = at(ptr, v181 + (i64)v611);
    u64 v616 = (u64)v615;
    if (!(v614 > (v607 - v604))) { v608 = v607; v626 = v604; goto v620; }
    if (!std_alloc_vec_Vec_grow_amortized_1cf2(v13, v614)) goto v623;
    v608 = at(u64, v13 + 16); v626 = at(u64, v13 + 8); goto v620;
v623:;
    if (at(u64, v398) == 0) goto v371;
v521:;
    sys_rattle_dealloc(at(ptr, v13));
    goto v371;
v620:;
    u64 v605 = v626 + v614;
    u8 *v627 = at(ptr, v13);
    u64 v628 = (u64)v627;
    if (!((((u64)(v627 + (i64)v626)) - ((u64)v615)) < v614)) goto v635;
    if (v614 < 4) { v670 = 0; goto v637; }
    if (((v626 + v628) - v616) < 32u) { v670 = 0; goto v637; }
    if (v614 < 16u) { v659 = 0; goto v644; }
    u64 v646 = v614 & 12u;
    u64 v647 = v614 & 0xfffffffffffffff0u;
    v649 = 0;
v648:;
    at(u8x16_1, (v627 + (i64)v626) + v649) = at(u8x16_1, v615 + v649);
    u64 v650 = v649 + 16u;
    if (!(v650 == v647)) { v649 = v650; goto v648; }
    if (v614 == v647) goto v606;
    if (v646 == 0) { v670 = v647; goto v637; }
    v659 = v647;
v644:;
    u64 v660 = v614 & 0xfffffffffffffffcu;
    v662 = v659;
v661:;
    at(u8x4_1, (v627 + (i64)v626) + v662) = at(u8x4_1, v615 + v662);
    u64 v663 = v662 + 4;
    if (!(v663 == v660)) { v662 = v663; goto v661; }
    if (v614 == v660) goto v606;
    v670 = v660;
v637:;
    v672 = v670;
v671:;
    at(u8, (v627 + (i64)v626) + v672) = at(u8, v615 + v672);
    u64 v673 = v672 + 1;
    if (v673 == v614) goto v606;
    v672 = v673; goto v671;
v635:;
    memmove_any(v627 + (i64)v626, v615, v614);
v606:;
    at(u64, v13 + 8) = v605;
    at(u64, v13 + 16) = v608;
    u64 v610 = v609 + 1;
    if (!(v610 == v161)) { v604 = v605; v607 = v608; v609 = v610; goto v603; }
    sys_rattle_dealloc(v181);
    v692 = v627; v693 = v605; v694 = v608;
v156:;
    memset(v12, 0, 24u);
    if (!(at(u8, v34 + 424) == 1)) goto v699;
    memset(v10, 0, 24u);
    if (!(at(u8, v17 + 112) == 1)) goto v704;
    if (at(u8, at(ptr, v17 + 120) + 312) == 0) goto v704;
    at(ptr, v11) = v17;
    u8 *v711 = at(ptr, v34 + 440);
    u64 v713 = at(u64, v34 + 448);
    memset(v7, 0, 24u);
    memset(v8, 0, 24u);
    memset(v9, 0, 32u);
    memset(v6, 0, 16u);
    if (v713 == 0) { v728 = v3; goto v715; }
    if (!(v713 < 0xaaaaaaaaaaaaaabu)) goto v719;
    u64_u64 v722 = sys_rattle_alloc(v713 * 12u, 4);
    if (!(v722._0 & 1)) goto v719;
    v728 = (u8 *)v722._1;
v715:;
    at(ptr, v4) = v728;
    at(u64, v4 + 8) = 0;
    at(u64, v4 + 16) = v713;
    at(ptr, v5) = v11;
    at(ptr, v5 + 8) = v711;
    at(u64, v5 + 16) = v713;
    at(ptr, v5 + 24) = (u8 *)table_55ba7287;
    at(u64, v5 + 32) = 0;
    divided_tables_sequence_union_UnionPairsIterator_next_ec12(v6, v5);
    if (!(at(u8, v6) == 1)) goto v738;
    v742 = v728; v745 = 0;
v741:;
    if (!(at(u64, v4 + 16) == v745)) { v743 = v742; v755 = v745; goto v744; }
    if (!std_alloc_vec_Vec_grow_amortized_5986(v4)) goto v752;
    v743 = at(ptr, v4); v755 = at(u64, v4 + 8); goto v744;
v752:;
    if (at(u64, v4 + 16) == 0) goto v719;
    sys_rattle_dealloc(at(ptr, v4));
    goto v719;
v744:;
    memmove(v743 + (v755 * 12u), v6 + 4, 12u);
    u64 v746 = v755 + 1;
    at(u64, v4 + 8) = v746;
    divided_tables_sequence_union_UnionPairsIterator_next_ec12(v6, v5);
    if (at(u8, v6) == 1) { v742 = v743; v745 = v746; goto v741; }
    u8 *v765 = at(ptr, v4);
    u64 v766 = at(u64, v4 + 16);
    if (!(v746 > 1048576u)) { v773 = v746; v774 = v765; v775 = v766; goto v739; }
    if (v766 == 0) { v787 = v8; v788 = 0; goto v771; }
    v784 = v765; v785 = v8; v786 = 0; goto v772;
v738:;
    v773 = 0; v774 = v728; v775 = v713;
v739:;
    divided_tables_sequence_tables_table_of_a10e(v9, v774, v773);
    if (!(at(u8, v9) == 0)) goto v779;
    memcpy(v7, v9 + 8, 24u);
    if (v775 == 0) { v787 = v7; v788 = 1; goto v771; }
    v784 = v774; v785 = v7; v786 = 1;
v772:;
    sys_rattle_dealloc(v784);
    v787 = v785; v788 = v786;
v771:;
    memcpy(v10, v787, 24u);
    memcpy(v12, v10, 24u);
    memcpy(v16, v12, 24u);
    v816 = v788; goto v700;
v779:;
    memset(v7, 0, 24u);
    if (v775 == 0) goto v769;
    sys_rattle_dealloc(v774);
    goto v769;
v719:;
v769:;
    if ((v154 != 1) ? 1 : (v694 == 0)) goto v803;
    sys_rattle_dealloc(v692);
v803:;
    if ((v138 != 1) ? 1 : (v144 == 0)) goto v808;
    sys_rattle_dealloc(v140);
v808:;
    if (v132) goto v810;
    sys_rattle_dealloc(v134);
v810:;
    if ((v37 != 1) ? 1 : (v43 == 0)) goto v46;
    sys_rattle_dealloc(v39);
    goto v46;
v704:;
    memset(v16, 0, 24u);
    v816 = 0; goto v700;
v699:;
    memset(v16, 0, 24u);
    v816 = 0;
v700:;
    memcpy(v18, v16, 24u);
    u8 v818 = at(u8, v17);
    memcpy(v21, v17 + 1, 191u);
    memcpy(v22, v18, 24u);
    v849 = v818; v850 = 0; v851 = (u64)v154; v852 = v692; v853 = v693; v854 = v694; v855 = v47; v856 = v39; v857 = v41; v858 = v43; v859 = v133; v860 = v134; v861 = v135; v862 = v152; v863 = v140; v864 = v142; v865 = v144; v866 = v816; goto v819;
v371:;
    if (v162) goto v171;
    sys_rattle_dealloc(v181);
v171:;
    if ((v138 != 1) ? 1 : (v144 == 0)) goto v792;
    sys_rattle_dealloc(v140);
v792:;
    if (v132) goto v794;
    sys_rattle_dealloc(v134);
v794:;
    if ((v37 != 1) ? 1 : (v43 == 0)) goto v46;
    sys_rattle_dealloc(v39);
    goto v46;
v147:;
    if (v132) goto v686;
    sys_rattle_dealloc(v134);
v686:;
    if ((v37 != 1) ? 1 : (v43 == 0)) goto v46;
    sys_rattle_dealloc(v39);
v46:;
    u8 v821 = at(u8, v17 + 24);
    u8 *v823 = at(ptr, v17 + 32);
    u64 v825 = at(u64, v17 + 48);
    u8 v827 = at(u8, v17 + 64);
    u8 *v829 = at(ptr, v17 + 72);
    u64 v831 = at(u64, v17 + 88);
    if (at(u64, v17 + 184) == 0) goto v835;
    sys_rattle_dealloc(at(ptr, v17 + 168));
v835:;
    if ((v821 != 1) ? 1 : (v825 == 0)) goto v842;
    sys_rattle_dealloc(v823);
v842:;
    if ((v827 != 1) ? 1 : (v831 == 0)) goto v847;
    sys_rattle_dealloc(v829);
v847:;
    memset(v21, 0, 191u);
    memset(v22, 0, 24u);
    v849 = 0; v850 = 1; v851 = 0; v852 = (u8 *)0; v853 = 0; v854 = 0; v855 = 0; v856 = (u8 *)0; v857 = 0; v858 = 0; v859 = 0; v860 = (u8 *)0; v861 = 0; v862 = 0; v863 = (u8 *)0; v864 = 0; v865 = 0; v866 = 0;
v819:;
    v867 = v849; v868 = v850; v869 = v851; v870 = v852; v871 = v853; v872 = v854; v873 = v855; v874 = v856; v875 = v857; v876 = v858; v877 = v859; v878 = v860; v879 = v861; v880 = v862; v881 = v863; v882 = v864; v883 = v865; v884 = v866;
v26:;
    at(u8, v0) = v868;
    at(u8, v0 + 8) = v867;
    memcpy(v0 + 9, v21, 191u);
    at(u64_1, v0 + 200) = v869;
    at(ptr_1, v0 + 208) = v870;
    at(u64_1, v0 + 216) = v871;
    at(u64_1, v0 + 224) = v872;
    at(u64_1, v0 + 232) = v873;
    at(ptr_1, v0 + 240) = v874;
    at(u64_1, v0 + 248) = v875;
    at(u64_1, v0 + 256) = v876;
    at(u64_1, v0 + 264) = v877;
    at(ptr_1, v0 + 272) = v878;
    at(u64_1, v0 + 280) = v879;
    at(u64_1, v0 + 288) = v879;
    at(u64_1, v0 + 296) = v880;
    at(ptr_1, v0 + 304) = v881;
    at(u64_1, v0 + 312) = v882;
    at(u64_1, v0 + 320) = v883;
    at(u64_1, v0 + 328) = v884;
    memcpy(v0 + 336, v22, 24u);
    return;
v32:;
    __builtin_trap();
    __builtin_trap();
}

void font_subset_kind_source_CutOfKind_of_87a4(u8 *v0, u8 *v1) {
    _Alignas(8) u8 v3[1], v4[24], v5[40], v7[24], v8[24], v9[32], v10[24], v11[8], v12[24], v13[32], v14[40], v15[40], v16[24], v17[192], v18[24], v22[24];
    _Alignas(4) u8 v6[16];
    u8 v21[191], *v134, *v181, *v335, *v371, *v385, *v386, *v417, *v427, *v428, *v430, v492, v493, *v495, *v499, *v503, *v506, v510, v511, *v513, *v517, *v521, *v524;
    u64 v61, v116, v109, v126, v133, v135, v175, v195, v202, v215, v218, v225, v234, v265, v266, v286, v293, v306, v309, v235, v336, v337, v388, v398, v416, v418, v429, v431, v459, v494, v496, v497, v498, v500, v501, v502, v504, v505, v507, v508, v509, v512, v514, v515, v516, v518, v519, v520, v522, v523, v525, v526, v527;
    flag v132;
    u8x16 v204, v295;
    u8 v19 = at(u8, v1);
    memset(v21, 0, 191u);
    memset(v22, 0, 24u);
    if (!(v19 == 0)) goto v25;
    memcpy(v21, v1 + 1, 191u);
    v510 = 0; v511 = 0; v512 = 0; v513 = (u8 *)0; v514 = 0; v515 = 0; v516 = 0; v517 = (u8 *)0; v518 = 0; v519 = 0; v520 = 0; v521 = (u8 *)0; v522 = 0; v523 = 0; v524 = (u8 *)0; v525 = 0; v526 = 0; v527 = 0; goto v26;
v25:;
    memset(v18, 0, 24u);
    at(u8, v17) = v19;
    memcpy(v17 + 1, v1 + 1, 191u);
    if (!(at(u8, v17 + 112) == 1)) goto v32;
    u8 *v34 = at(ptr, v17 + 120);
    memset(v16, 0, 24u);
    memset(v15, 0, 40u);
    divided_tables_metrics_kept_metrics_6f24(v15, v17, 7, 8);
    u8 v37 = at(u8, v15 + 8);
    u8 *v39 = at(ptr, v15 + 16);
    u64 v41 = at(u64, v15 + 24);
    u64 v43 = at(u64, v15 + 32);
    if (!(at(u8, v15) == 0)) goto v46;
    u64 v47 = (u64)v37;
    u8 *v50 = at(ptr_1, at(ptr, v17 + 8));
    u64 v51 = (u64)v50;
    u16 v53 = at(u16_1, v50 + 4);
    u64 v55 = (u64)bswap16(v53);
    if (v53 == 0) { v132 = 1; v133 = 0; v134 = (u8 *)0; v135 = 0; goto v57; }
    v61 = 0;
v58:;
    u64 v63 = v61 << 4;
    if (!((((at(u8, v50 + (i64)v63 + 12) == 112u) & (at(u8, v50 + (i64)v63 + 13) == 111u)) & (at(u8, v50 + (i64)v63 + 14) == 115u)) & (at(u8, v50 + (i64)v63 + 15) == 116u))) goto v59;
    u64 v87 = (u64)bswap32(at(u32_1, v50 + (i64)v63 + 20));
    if (bswap32(at(u32_1, v50 + (i64)v63 + 24)) < 32u) { v132 = 1; v133 = 0; v134 = (u8 *)0; v135 = 0; goto v57; }
    u64_u64 v92 = sys_rattle_alloc(32u, 1);
    if (!(v92._0 & 1)) goto v96;
    u64 v97 = v92._1;
    u8 *v98 = (u8 *)v97;
    if (!((v97 - ((u64)(v50 + (i64)v87))) < 32u)) goto v103;
    if ((v97 - (v51 + v87)) < 32u) v116 = 0; else { v109 = 0; goto v108; }
v107:;
    at(u8, v98 + v116) = at(u8, (v50 + (i64)v87) + v116);
    u64 v117 = v116 + 1;
    if (v117 == 32u) goto v115;
    v116 = v117; goto v107;
v108:;
    at(u8x16_1, v98 + v109) = at(u8x16_1, (v50 + (i64)v87) + v109);
    u64 v110 = v109 + 16u;
    if (v110 == 32u) goto v115;
    v109 = v110; goto v108;
v103:;
    memmove(v98, v50 + (i64)v87, 32u);
v115:;
    if ((v97 - ((u64)(u8 *)table_62a9c92b)) < 4) v126 = 0; else goto v125;
v124:;
    at(u8, v98 + v126) = at(u8, (u8 *)table_62a9c92b + v126);
    u64 v127 = v126 + 1;
    if (v127 == 4) { v132 = 0; v133 = 1; v134 = v98; v135 = 32u; goto v57; }
    v126 = v127; goto v124;
v125:;
    at(u32_1, v98) = 768u;
    v132 = 0; v133 = 1; v134 = v98; v135 = 32u; goto v57;
v96:;
    if ((v37 != 1) ? 1 : (v43 == 0)) goto v46;
    sys_rattle_dealloc(v39);
    goto v46;
v59:;
    u64 v60 = v61 + 1;
    if (v60 == v55) { v132 = 1; v133 = 0; v134 = (u8 *)0; v135 = 0; } else { v61 = v60; goto v58; }
v57:;
    memset(v14, 0, 40u);
    divided_tables_metrics_kept_metrics_6f24(v14, v17, 14u, 15u);
    u8 v138 = at(u8, v14 + 8);
    u8 *v140 = at(ptr, v14 + 16);
    u64 v142 = at(u64, v14 + 24);
    u64 v144 = at(u64, v14 + 32);
    if (!(at(u8, v14) == 0)) goto v147;
    u64 v152 = (u64)v138;
    u8 v154 = at(u8, v34 + 488);
    if (v154 == 0) { v335 = (u8 *)0; v336 = 0; v337 = 0; goto v156; }
    memset(v13, 0, 32u);
    u16 v160 = at(u16, v34 + 562);
    u64 v161 = (u64)v160;
    flag v162 = v160 == 0;
    if (v162) { v181 = v3; goto v163; }
    u64_u64 v167 = sys_rattle_alloc(v161 << 4, 8);
    if (!(v167._0 & 1)) goto v171;
    u8 *v173 = (u8 *)v167._1;
    v175 = 0;
v174:;
    u64 v177 = v175 << 4;
    at(ptr_1, v173 + v177) = (u8 *)table_55ba7287;
    at(u64_1, v173 + v177 + 8) = 0;
    u64 v176 = v175 + 1;
    if (v176 == v161) v181 = v173; else { v175 = v176; goto v174; }
v163:;
    u8 *v183 = at(ptr, v17 + 168);
    u64 v185 = at(u64, v17 + 176);
    if (v185 == 0) { v215 = 0; goto v187; }
    if (at(u8, v183) & 1) { v225 = 0; goto v191; }
    if (v185 < 64u) { v215 = 0; goto v187; }
    v195 = 0;
v194:;
    if (v195 == 0xffffffffffffffc0u) goto v197;
    v202 = 0; v204 = (u8x16){0};
v201:;
    u8x16 v205 = v204 | ((-(at(u8x16_1, (v183 + (i64)v195) + (i64)v202) & 1)));
    u64 v203 = v202 + 16u;
    if (!(v203 == 64u)) { v202 = v203; v204 = v205; goto v201; }
    if (!(bits_u8x16(v205) == 0)) { v215 = v195; goto v187; }
v197:;
    u64 v196 = v195 + 64u;
    if ((v185 - v196) < 64u) v215 = v196; else { v195 = v196; goto v194; }
v187:;
    if (v215 < v185) v218 = v215; else { v225 = v185; goto v191; }
v217:;
    if (at(u8, v183 + v218) & 1) { v225 = v218; goto v191; }
    u64 v219 = v218 + 1;
    if (v219 == v185) v225 = v185; else { v218 = v219; goto v217; }
v191:;
    if (!(v160 > ((u16)v225))) goto v229;
    v234 = v225;
v233:;
    u8 *v238 = at(ptr_1, v34 + 512);
    u8 *v239 = at(ptr_1, v34 + 528);
    u64 v240 = v234 & 65535u;
    if (!(at(u8, v34 + 560) == 0)) goto v243;
    u64 v244 = v240 << 1;
    v265 = ((u64)bswap16(at(u16_1, v238 + (i64)v244))) << 1; v266 = ((u64)bswap16(at(u16_1, v238 + (i64)v244 + 2))) << 1; goto v255;
v243:;
    u64 v256 = v240 << 2;
    v265 = (u64)bswap32(at(u32_1, v238 + (i64)v256)); v266 = (u64)bswap32(at(u32_1, v238 + (i64)v256 + 4));
v255:;
    u64 v269 = v240 << 4;
    at(ptr_1, v181 + (i64)v269) = v239 + (i64)v265;
    at(u64_1, v181 + (i64)v269 + 8) = v266 - v265;
    u64 v273 = (v234 + 1) & 65535u;
    u8 *v274 = at(ptr, v17 + 168);
    u64 v275 = at(u64, v17 + 176);
    if (!(v275 > v273)) goto v278;
    if (at(u8, v274 + v273) & 1) { v235 = v273; goto v236; }
v278:;
    if ((v275 - v273) < 64u) { v306 = v273; goto v284; }
    v286 = v273;
v285:;
    if (!(v286 < 0xffffffffffffffc0u)) goto v288;
    v293 = 0; v295 = (u8x16){0};
v292:;
    u8x16 v296 = v295 | ((-(at(u8x16_1, (v274 + (i64)v286) + (i64)v293) & 1)));
    u64 v294 = v293 + 16u;
    if (!(v294 == 64u)) { v293 = v294; v295 = v296; goto v292; }
    if (!(bits_u8x16(v296) == 0)) { v306 = v286; goto v284; }
v288:;
    u64 v287 = v286 + 64u;
    if ((v275 - v287) < 64u) v306 = v287; else { v286 = v287; goto v285; }
v284:;
    if (v306 < v275) v309 = v306; else { v235 = v275; goto v236; }
v308:;
    if (at(u8, v274 + v309) & 1) { v235 = v309; goto v236; }
    u64 v310 = v309 + 1;
    if (v310 == v275) v235 = v275; else { v309 = v310; goto v308; }
v236:;
    if (v160 > ((u16)v235)) { v234 = v235; goto v233; }
v229:;
    divided_tables_glyph_variations_with_data(v13, v34 + 496, v181, v161);
    if (v162) goto v318;
    sys_rattle_dealloc(v181);
v318:;
    if (at(u8, v13) == 0) { v335 = at(ptr, v13 + 8); v336 = at(u64, v13 + 16); v337 = at(u64, v13 + 24); } else goto v320;
v156:;
    memset(v12, 0, 24u);
    if (!(at(u8, v34 + 424) == 1)) goto v342;
    memset(v10, 0, 24u);
    if (!(at(u8, v17 + 112) == 1)) goto v347;
    if (at(u8, at(ptr, v17 + 120) + 312) == 0) goto v347;
    at(ptr, v11) = v17;
    u8 *v354 = at(ptr, v34 + 440);
    u64 v356 = at(u64, v34 + 448);
    memset(v7, 0, 24u);
    memset(v8, 0, 24u);
    memset(v9, 0, 32u);
    memset(v6, 0, 16u);
    if (v356 == 0) { v371 = v3; goto v358; }
    if (!(v356 < 0xaaaaaaaaaaaaaabu)) goto v362;
    u64_u64 v365 = sys_rattle_alloc(v356 * 12u, 4);
    if (!(v365._0 & 1)) goto v362;
    v371 = (u8 *)v365._1;
v358:;
    at(ptr, v4) = v371;
    at(u64, v4 + 8) = 0;
    at(u64, v4 + 16) = v356;
    at(ptr, v5) = v11;
    at(ptr, v5 + 8) = v354;
    at(u64, v5 + 16) = v356;
    at(ptr, v5 + 24) = (u8 *)table_55ba7287;
    at(u64, v5 + 32) = 0;
    divided_tables_sequence_union_UnionPairsIterator_next_ec12(v6, v5);
    if (!(at(u8, v6) == 1)) goto v381;
    v385 = v371; v388 = 0;
v384:;
    if (!(at(u64, v4 + 16) == v388)) { v386 = v385; v398 = v388; goto v387; }
    if (!std_alloc_vec_Vec_grow_amortized_5986(v4)) goto v395;
    v386 = at(ptr, v4); v398 = at(u64, v4 + 8); goto v387;
v395:;
    if (at(u64, v4 + 16) == 0) goto v362;
    sys_rattle_dealloc(at(ptr, v4));
    goto v362;
v387:;
    memmove(v386 + (v398 * 12u), v6 + 4, 12u);
    u64 v389 = v398 + 1;
    at(u64, v4 + 8) = v389;
    divided_tables_sequence_union_UnionPairsIterator_next_ec12(v6, v5);
    if (at(u8, v6) == 1) { v385 = v386; v388 = v389; goto v384; }
    u8 *v408 = at(ptr, v4);
    u64 v409 = at(u64, v4 + 16);
    if (!(v389 > 1048576u)) { v416 = v389; v417 = v408; v418 = v409; goto v382; }
    if (v409 == 0) { v430 = v8; v431 = 0; goto v414; }
    v427 = v408; v428 = v8; v429 = 0; goto v415;
v381:;
    v416 = 0; v417 = v371; v418 = v356;
v382:;
    divided_tables_sequence_tables_table_of_a10e(v9, v417, v416);
    if (!(at(u8, v9) == 0)) goto v422;
    memcpy(v7, v9 + 8, 24u);
    if (v418 == 0) { v430 = v7; v431 = 1; goto v414; }
    v427 = v417; v428 = v7; v429 = 1;
v415:;
    sys_rattle_dealloc(v427);
    v430 = v428; v431 = v429;
v414:;
    memcpy(v10, v430, 24u);
    memcpy(v12, v10, 24u);
    memcpy(v16, v12, 24u);
    v459 = v431; goto v343;
v422:;
    memset(v7, 0, 24u);
    if (v418 == 0) goto v412;
    sys_rattle_dealloc(v417);
    goto v412;
v362:;
v412:;
    if ((v154 != 1) ? 1 : (v337 == 0)) goto v446;
    sys_rattle_dealloc(v335);
v446:;
    if ((v138 != 1) ? 1 : (v144 == 0)) goto v451;
    sys_rattle_dealloc(v140);
v451:;
    if (v132) goto v453;
    sys_rattle_dealloc(v134);
v453:;
    if ((v37 != 1) ? 1 : (v43 == 0)) goto v46;
    sys_rattle_dealloc(v39);
    goto v46;
v347:;
    memset(v16, 0, 24u);
    v459 = 0; goto v343;
v342:;
    memset(v16, 0, 24u);
    v459 = 0;
v343:;
    memcpy(v18, v16, 24u);
    u8 v461 = at(u8, v17);
    memcpy(v21, v17 + 1, 191u);
    memcpy(v22, v18, 24u);
    v492 = v461; v493 = 0; v494 = (u64)v154; v495 = v335; v496 = v336; v497 = v337; v498 = v47; v499 = v39; v500 = v41; v501 = v43; v502 = v133; v503 = v134; v504 = v135; v505 = v152; v506 = v140; v507 = v142; v508 = v144; v509 = v459; goto v462;
v171:;
v320:;
    if ((v138 != 1) ? 1 : (v144 == 0)) goto v435;
    sys_rattle_dealloc(v140);
v435:;
    if (v132) goto v437;
    sys_rattle_dealloc(v134);
v437:;
    if ((v37 != 1) ? 1 : (v43 == 0)) goto v46;
    sys_rattle_dealloc(v39);
    goto v46;
v147:;
    if (v132) goto v329;
    sys_rattle_dealloc(v134);
v329:;
    if ((v37 != 1) ? 1 : (v43 == 0)) goto v46;
    sys_rattle_dealloc(v39);
v46:;
    u8 v464 = at(u8, v17 + 24);
    u8 *v466 = at(ptr, v17 + 32);
    u64 v468 = at(u64, v17 + 48);
    u8 v470 = at(u8, v17 + 64);
    u8 *v472 = at(ptr, v17 + 72);
    u64 v474 = at(u64, v17 + 88);
    if (at(u64, v17 + 184) == 0) goto v478;
    sys_rattle_dealloc(at(ptr, v17 + 168));
v478:;
    if ((v464 != 1) ? 1 : (v468 == 0)) goto v485;
    sys_rattle_dealloc(v466);
v485:;
    if ((v470 != 1) ? 1 : (v474 == 0)) goto v490;
    sys_rattle_dealloc(v472);
v490:;
    memset(v21, 0, 191u);
    memset(v22, 0, 24u);
    v492 = 0; v493 = 1; v494 = 0; v495 = (u8 *)0; v496 = 0; v497 = 0; v498 = 0; v499 = (u8 *)0; v500 = 0; v501 = 0; v502 = 0; v503 = (u8 *)0; v504 = 0; v505 = 0; v506 = (u8 *)0; v507 = 0; v508 = 0; v509 = 0;
v462:;
    v510 = v492; v511 = v493; v512 = v494; v513 = v495; v514 = v496; v515 = v497; v516 = v498; v517 = v499; v518 = v500; v519 = v501; v520 = v502; v521 = v503; v522 = v504; v523 = v505; v524 = v506; v525 = v507; v526 = v508; v527 = v509;
v26:;
    at(u8, v0) = v511;
    at(u8, v0 + 8) = v510;
    memcpy(v0 + 9, v21, 191u);
    at(u64_1, v0 + 200) = v512;
    at(ptr_1, v0 + 208) = v513;
    at(u64_1, v0 + 216) = v514;
    at(u64_1, v0 + 224) = v515;
    at(u64_1, v0 + 232) = v516;
    at(ptr_1, v0 + 240) = v517;
    at(u64_1, v0 + 248) = v518;
    at(u64_1, v0 + 256) = v519;
    at(u64_1, v0 + 264) = v520;
    at(ptr_1, v0 + 272) = v521;
    at(u64_1, v0 + 280) = v522;
    at(u64_1, v0 + 288) = v522;
    at(u64_1, v0 + 296) = v523;
    at(ptr_1, v0 + 304) = v524;
    at(u64_1, v0 + 312) = v525;
    at(u64_1, v0 + 320) = v526;
    at(u64_1, v0 + 328) = v527;
    memcpy(v0 + 336, v22, 24u);
    return;
v32:;
    __builtin_trap();
    __builtin_trap();
}

flag font_subset_presence_Presence_has(u8 *v0, u16 v1) {
    u64 v35, v36, v134, v135, v154, v156, v172, v174, v187, v188, v189;
    u8 *v68, *v95;
    flag v69, v96;
    u8 *v5 = at(ptr, at(ptr, v0) + 8);
    u8 *v9 = at(ptr_1, v5 + 32);
    u64 v10 = (u64)v1;
    if (!(at(u8, v5 + 70) == 0)) goto v13;
    u64 v14 = v10 << 1;
    v35 = ((u64)bswap16(at(u16_1, v9 + (i64)v14))) << 1; v36 = ((u64)bswap16(at(u16_1, v9 + (i64)v14 + 2))) << 1; goto v25;
v13:;
    u64 v26 = v10 << 2;
    v35 = (u64)bswap32(at(u32_1, v9 + (i64)v26)); v36 = (u64)bswap32(at(u32_1, v9 + (i64)v26 + 4));
v25:;
    if (!(v36 == v35)) return 1;
    u8 *v49 = at(ptr, v0 + 8);
    u64 v51 = at(u64, v49 + 16);
    if (v51 == 0) goto v53;
    u8 *v55 = at(ptr_1, v49);
    if (!((v10 + 1) < v51)) goto v59;
    u64 v60 = v10 << 2;
    v68 = v55 + v60; v69 = at(u16_1, v55 + v60 + 2) != 0; goto v46;
v59:;
    v68 = v55 + ((v51 + v10) << 1); v69 = 0;
v46:;
    if (v69 | (((u8)(at(u8, v68) | at(u8, v68 + 1))) != 0)) return 1;
v53:;
    u64 v77 = at(u64, v49 + 48);
    if (v77 == 0) goto v79;
    u8 *v82 = at(ptr_1, v49 + 32);
    if (!((v10 + 1) < v77)) goto v86;
    u64 v87 = v10 << 2;
    v95 = v82 + v87; v96 = at(u16_1, v82 + v87 + 2) != 0; goto v47;
v86:;
    v95 = v82 + ((v77 + v10) << 1); v96 = 0;
v47:;
    if (v96 | (((u8)(at(u8, v95) | at(u8, v95 + 1))) != 0)) return 1;
v79:;
    if (!(at(u8, v49 + 144) == 1)) goto v44;
    u8 *v110 = at(ptr_1, v49 + 168);
    if (!(at(u8, v49 + 216) == 0)) goto v113;
    u64 v114 = v10 << 1;
    v134 = ((u64)bswap16(at(u16_1, v110 + (i64)v114))) << 1; v135 = ((u64)bswap16(at(u16_1, v110 + (i64)v114 + 2))) << 1; goto v41;
v113:;
    u64 v125 = v10 << 2;
    v134 = (u64)bswap32(at(u32_1, v110 + (i64)v125)); v135 = (u64)bswap32(at(u32_1, v110 + (i64)v125 + 4));
v41:;
    if (!(v135 == v134)) return 1;
v44:;
    if (!(at(u8, v49 + 80) == 1)) return 0;
    u8 *v141 = at(ptr, v49 + 120);
    u64 v143 = at(u64, v49 + 128);
    u32 v145 = ((u32)v1) + 1;
    u64 v146 = v10 * 0x12100000000u;
    switch (v143) {
    case 0: return 0;
    case 1: goto v148;
    default: v154 = v143; v156 = 0; goto v147;
    }
v147:;
    u64 v158 = v154 >> 1;
    u64 v159 = v158 + v156;
    u64 v157 = (at(u64, v141 + (i64)(v159 << 3)) < v146) ? v159 : v156;
    u64 v155 = v154 - v158;
    if (v155 > 1) { v154 = v155; v156 = v157; goto v147; }
    u64 v168 = at(u64, v141 + (i64)(v157 << 3));
    u64 v170 = ((u64)v145) * 0x12100000000u;
    v172 = v143; v174 = 0;
v171:;
    u64 v176 = v172 >> 1;
    u64 v177 = v176 + v174;
    u64 v175 = (at(u64, v141 + (i64)(v177 << 3)) < v170) ? v177 : v174;
    u64 v173 = v172 - v176;
    if (v173 > 1) { v172 = v173; v174 = v175; goto v171; }
    v187 = v170; v188 = v157 + ((u64)(v168 < v146)); v189 = v175; goto v43;
v148:;
    v187 = ((u64)v145) * 0x12100000000u; v188 = (u64)(at(u64, v141) < v146); v189 = 0;
v43:;
    return (v189 + ((u64)(at(u64, v141 + (i64)(v189 << 3)) < v187))) != v188;
}

static void font_subset_presence_mark_between(u8 *v0, u8 *v1, u16 v2, u16 v3) {
    u64 v20, v75, v76, v104, v106, v122, v124, v137, v138, v139, v168, v202, v185, v189, v226, v242, v247, v260, v264, v293, v327, v310, v314, v360, v375, v380, v393, v397, v337, v407;
    u8 *v45;
    u8x16 v170, v228, v295, v362;
    flag v200, v186, v271, v243, v259, v262, v270, v325, v311, v333, v376, v392, v395, v403;
    u32x4 v191, v249, v316, v382;
    u8 *v7 = at(ptr, at(ptr, v1) + 8);
    u8 v9 = at(u8, v7 + 70);
    u8 *v10 = at(ptr_1, v7);
    u16 v12 = at(u16_1, v10 + 4);
    u64 v14 = (u64)bswap16(v12);
    if (v12 == 0) { v45 = (u8 *)table_55ba7287; goto v16; }
    v20 = 0;
v17:;
    u64 v22 = v20 << 4;
    if (!((((at(u8, v10 + (i64)v22 + 12) == 108u) & (at(u8, v10 + (i64)v22 + 13) == 111u)) & (at(u8, v10 + (i64)v22 + 14) == 99u)) & (at(u8, v10 + (i64)v22 + 15) == 97u))) goto v18;
    v45 = v10 + (i64)((u64)bswap32(at(u32_1, v10 + (i64)v22 + 20))); goto v16;
v18:;
    u64 v19 = v20 + 1;
    if (v19 == v14) v45 = (u8 *)table_55ba7287; else { v20 = v19; goto v17; }
v16:;
    u64 v46 = (u64)v2;
    if (!(v9 == 0)) goto v49;
    v75 = ((u64)bswap16(at(u16_1, v45 + (i64)(v46 << 1)))) << 1; v76 = ((u64)bswap16(at(u16_1, v45 + (i64)(((u64)v3) << 1)))) << 1; goto v63;
v49:;
    v75 = (u64)bswap32(at(u32_1, v45 + (i64)(v46 << 2))); v76 = (u64)bswap32(at(u32_1, v45 + (i64)(((u64)v3) << 2)));
v63:;
    if (!(v75 == v76)) goto v79;
    u8 *v81 = at(ptr, v1 + 8);
    if (at(u8, v81 + 144) == 1) goto v79;
    if (!(at(u8, v81 + 80) == 1)) goto v90;
    u8 *v92 = at(ptr, v81 + 120);
    u64 v94 = at(u64, v81 + 128);
    u64 v95 = v46 * 0x12100000000u;
    switch (v94) {
    case 0: goto v90;
    case 1: goto v97;
    default: v104 = v94; v106 = 0; goto v96;
    }
v96:;
    u64 v108 = v104 >> 1;
    u64 v109 = v108 + v106;
    u64 v107 = (at(u64, v92 + (i64)(v109 << 3)) < v95) ? v109 : v106;
    u64 v105 = v104 - v108;
    if (v105 > 1) { v104 = v105; v106 = v107; goto v96; }
    u64 v118 = at(u64, v92 + (i64)(v107 << 3));
    u64 v120 = ((u64)v3) * 0x12100000000u;
    v122 = v94; v124 = 0;
v121:;
    u64 v126 = v122 >> 1;
    u64 v127 = v126 + v124;
    u64 v125 = (at(u64, v92 + (i64)(v127 << 3)) < v120) ? v127 : v124;
    u64 v123 = v122 - v126;
    if (v123 > 1) { v122 = v123; v124 = v125; goto v121; }
    v137 = v120; v138 = v107 + ((u64)(v118 < v95)); v139 = v125; goto v103;
v97:;
    v137 = ((u64)v3) * 0x12100000000u; v138 = (u64)(at(u64, v92) < v95); v139 = 0;
v103:;
    if (!((v139 + ((u64)(at(u64, v92 + (i64)(v139 << 3)) < v137))) == v138)) goto v79;
v90:;
    u8 *v147 = at(ptr_1, v81);
    u64 v149 = at(u64, v81 + 16);
    u64 v150 = (u64)v3;
    if (v149 == 0) goto v152;
    if (!(v149 > v150)) goto v156;
    u64 v157 = v46 << 2;
    u64 v159 = v150 - v46;
    u64 v160 = v159 << 2;
    if (v3 == v2) goto v152;
    if (v160 < 16u) { v185 = 0; v186 = 0; goto v164; }
    u64 v166 = v160 & 0xfffffffffffffff0u;
    v168 = 0; v170 = (u8x16){0};
v167:;
    u8x16 v171 = v170 | ((u8x16)(at(u8x16_1, (v147 + (i64)v157) + v168) != (u8x16){0}));
    u64 v169 = v168 + 16u;
    if (!(v169 == v166)) { v168 = v169; v170 = v171; goto v167; }
    flag v178 = bits_u8x16(v171) != 0;
    if (v160 == v166) { v271 = v178; goto v180; }
    if ((v159 & 3) == 0) { v200 = v178; v202 = v166; } else { v185 = v166; v186 = v178; goto v164; }
v184:;
    flag v201 = v200 | (at(u8, (v147 + (i64)v157) + v202) != 0);
    u64 v203 = v202 + 1;
    if (v203 == v160) { v271 = v201; goto v180; }
    v200 = v201; v202 = v203; goto v184;
v164:;
    v189 = v185; v191 = (u32x4){-(u32)v186, 0, 0, 0};
v188:;
    u32x4 v192 = v191 | ((u32x4)__builtin_convertvector((i8x4)(u8x4)(at(u8x4_1, (v147 + (i64)v157) + v189) != (u8x4){0}), i32x4));
    u64 v190 = v189 + 4;
    if (!(v190 == v160)) { v189 = v190; v191 = v192; goto v188; }
    v271 = bits_u32x4(v192) != 0;
v180:;
    if (v271) goto v79;
    goto v152;
v156:;
    if (v149 > (v46 + 1)) goto v79;
    u64 v212 = (v149 + v46) << 1;
    u64 v214 = v150 - v46;
    u64 v215 = v214 << 1;
    if (v3 == v2) goto v152;
    if (v215 < 4) { v259 = 0; v260 = 0; goto v219; }
    if (v215 < 16u) { v242 = 0; v243 = 0; goto v222; }
    u64 v224 = v215 & 0xfffffffffffffff0u;
    v226 = 0; v228 = (u8x16){0};
v225:;
    u8x16 v229 = v228 | ((u8x16)(at(u8x16_1, (v147 + (i64)v212) + v226) != (u8x16){0}));
    u64 v227 = v226 + 16u;
    if (!(v227 == v224)) { v226 = v227; v228 = v229; goto v225; }
    flag v236 = bits_u8x16(v229) != 0;
    if (v215 == v224) { v270 = v236; goto v238; }
    if ((v214 & 6) == 0) { v259 = v236; v260 = v224; goto v219; }
    v242 = v224; v243 = v236;
v222:;
    u64 v244 = v215 & 0xfffffffffffffffcu;
    v247 = v242; v249 = (u32x4){-(u32)v243, 0, 0, 0};
v246:;
    u32x4 v250 = v249 | ((u32x4)__builtin_convertvector((i8x4)(u8x4)(at(u8x4_1, (v147 + (i64)v212) + v247) != (u8x4){0}), i32x4));
    u64 v248 = v247 + 4;
    if (!(v248 == v244)) { v247 = v248; v249 = v250; goto v246; }
    flag v257 = bits_u32x4(v250) != 0;
    if (v215 == v244) { v270 = v257; goto v238; }
    v259 = v257; v260 = v244;
v219:;
    v262 = v259; v264 = v260;
v261:;
    flag v263 = v262 | (at(u8, (v147 + (i64)v212) + v264) != 0);
    u64 v265 = v264 + 1;
    if (v265 == v215) v270 = v263; else { v262 = v263; v264 = v265; goto v261; }
v238:;
    if (v270) goto v79;
v152:;
    u8 *v273 = at(ptr_1, v81 + 32);
    u64 v275 = at(u64, v81 + 48);
    if (v275 == 0) return;
    if (!(v275 > v150)) goto v281;
    u64 v282 = v46 << 2;
    u64 v284 = v150 - v46;
    u64 v285 = v284 << 2;
    if (v3 == v2) return;
    if (v285 < 16u) { v310 = 0; v311 = 0; goto v289; }
    u64 v291 = v285 & 0xfffffffffffffff0u;
    v293 = 0; v295 = (u8x16){0};
v292:;
    u8x16 v296 = v295 | ((u8x16)(at(u8x16_1, (v273 + (i64)v282) + v293) != (u8x16){0}));
    u64 v294 = v293 + 16u;
    if (!(v294 == v291)) { v293 = v294; v295 = v296; goto v292; }
    flag v303 = bits_u8x16(v296) != 0;
    if (v285 == v291) { v333 = v303; goto v305; }
    if ((v284 & 3) == 0) { v325 = v303; v327 = v291; } else { v310 = v291; v311 = v303; goto v289; }
v309:;
    flag v326 = v325 | (at(u8, (v273 + (i64)v282) + v327) != 0);
    u64 v328 = v327 + 1;
    if (v328 == v285) { v333 = v326; goto v305; }
    v325 = v326; v327 = v328; goto v309;
v289:;
    v314 = v310; v316 = (u32x4){-(u32)v311, 0, 0, 0};
v313:;
    u32x4 v317 = v316 | ((u32x4)__builtin_convertvector((i8x4)(u8x4)(at(u8x4_1, (v273 + (i64)v282) + v314) != (u8x4){0}), i32x4));
    u64 v315 = v314 + 4;
    if (!(v315 == v285)) { v314 = v315; v316 = v317; goto v313; }
    v333 = bits_u32x4(v317) != 0;
v305:;
    if (v333 & (v2 < v3)) { v337 = v150; goto v336; }
    return;
v281:;
    if (v275 > (v46 + 1)) goto v79;
    u64 v346 = (v275 + v46) << 1;
    u64 v348 = v150 - v46;
    u64 v349 = v348 << 1;
    if (v3 == v2) return;
    if (v349 < 4) { v392 = 0; v393 = 0; goto v353; }
    if (v349 < 16u) { v375 = 0; v376 = 0; goto v356; }
    u64 v358 = v349 & 0xfffffffffffffff0u;
    v360 = 0; v362 = (u8x16){0};
v359:;
    u8x16 v363 = v362 | ((u8x16)(at(u8x16_1, (v273 + (i64)v346) + v360) != (u8x16){0}));
    u64 v361 = v360 + 16u;
    if (!(v361 == v358)) { v360 = v361; v362 = v363; goto v359; }
    flag v370 = bits_u8x16(v363) != 0;
    if (v349 == v358) { v403 = v370; goto v340; }
    if ((v348 & 6) == 0) { v392 = v370; v393 = v358; goto v353; }
    v375 = v358; v376 = v370;
v356:;
    u64 v377 = v349 & 0xfffffffffffffffcu;
    v380 = v375; v382 = (u32x4){-(u32)v376, 0, 0, 0};
v379:;
    u32x4 v383 = v382 | ((u32x4)__builtin_convertvector((i8x4)(u8x4)(at(u8x4_1, (v273 + (i64)v346) + v380) != (u8x4){0}), i32x4));
    u64 v381 = v380 + 4;
    if (!(v381 == v377)) { v380 = v381; v382 = v383; goto v379; }
    flag v390 = bits_u32x4(v383) != 0;
    if (v349 == v377) { v403 = v390; goto v340; }
    v392 = v390; v393 = v377;
v353:;
    v395 = v392; v397 = v393;
v394:;
    flag v396 = v395 | (at(u8, (v273 + (i64)v346) + v397) != 0);
    u64 v398 = v397 + 1;
    if (v398 == v349) v403 = v396; else { v395 = v396; v397 = v398; goto v394; }
v340:;
    if (v403 & (v2 < v3)) { v337 = v150; goto v336; }
    return;
v79:;
    if (!(v2 < v3)) return;
    v337 = (u64)v3;
v336:;
    v407 = v46;
v341:;
    if (!(v407 < ((u64)at(u16, at(ptr, at(ptr, v1) + 8) + 64)))) goto v409;
    u8 *v418 = at(ptr, v0);
    if (at(u8, v418 + (i64)v407) & 1) goto v409;
    if (!font_subset_presence_Presence_has(v1, (u16)v407)) goto v409;
    at(u8, v418 + (i64)v407) = 1;
v409:;
    u64 v408 = v407 + 1;
    if (v408 < v337) { v407 = v408; goto v341; }
    return;
}

void font_subset_selection_Charted_runs(u8 *v0, u8 *v1) {
    _Alignas(4) u8 v3[1];
    _Alignas(8) u8 v4[24], v5[24], v6[24];
    u64 v17, v87, v126;
    u16 v46, v47, v62, v64, v109, v110, v65, v63;
    u32 v48, v49, v66, v68, v73, v74, v111, v69, v67;
    u8 *v59, *v60;
    flag v116;
    at(ptr, v6) = v3;
    memset(v6 + 8, 0, 16u);
    memset(v5, 0, 24u);
    if (!(at(u8, v1 + 16) == 1)) goto v13;
    u8 *v15 = at(ptr, v1 + 24);
    v17 = 0;
v16:;
    u16 v22 = at(u16, v15 + (v17 << 1));
    if (!(v22 == 0)) goto v24;
    u64 v18 = v17 + 1;
    if (!((v18 & 0xffffffffu) == 1114112u)) { v17 = v18; goto v16; }
    goto v30;
v24:;
    u32 v25 = (u32)v17;
    v46 = 0; v47 = v22; v48 = v25; v49 = v25; goto v26;
v13:;
    font_map_mapping_Mapping_piece_by_hint(v5, at(ptr, v1 + 8), at(u64, v1 + 48), 0);
    u8 v34 = at(u8, v5);
    u32 v36 = at(u32, v5 + 4);
    u32 v38 = at(u32, v5 + 8);
    u16 v40 = at(u16, v5 + 12);
    u16 v42 = at(u16, v5 + 14);
    at(u64, v1 + 48) = at(u64, v5 + 16);
    if (v34 == 1) { v46 = v42; v47 = v40; v48 = v38; v49 = v36; } else goto v30;
v26:;
    v59 = v3; v62 = v46; v64 = v47; v66 = v48; v68 = v49;
v58:;
    u32 v71 = ((u32)v64) - v68;
    v73 = v66;
v72:;
    u32 v76 = v73 + 1;
    memset(v4, 0, 24u);
    if (!(at(u8, v1 + 16) == 1)) goto v80;
    u8 *v81 = at(ptr, v1 + 24);
    if (!(v76 < 1114112u)) goto v84;
    v87 = (u64)v76;
v86:;
    u16 v92 = at(u16, v81 + (v87 << 1));
    if (!(v92 == 0)) goto v94;
    u64 v88 = v87 + 1;
    if ((v88 & 0xffffffffu) == 1114112u) goto v84;
    v87 = v88; goto v86;
v94:;
    u32 v95 = (u32)v87;
    v109 = 0; v110 = v92; v74 = v95; v111 = v95; goto v96;
v84:;
    v116 = 0; v69 = 0; v67 = 0; v65 = 0; v63 = 0; goto v99;
v80:;
    font_map_mapping_Mapping_piece_by_hint(v4, at(ptr, v1 + 8), at(u64, v1 + 48), v76);
    u8 v102 = at(u8, v4);
    u32 v103 = at(u32, v4 + 4);
    u32 v104 = at(u32, v4 + 8);
    u16 v105 = at(u16, v4 + 12);
    u16 v106 = at(u16, v4 + 14);
    at(u64, v1 + 48) = at(u64, v4 + 16);
    if (v102 == 1) { v109 = v106; v110 = v105; v74 = v104; v111 = v103; } else { v116 = 0; v69 = 0; v67 = 0; v65 = 0; v63 = 0; goto v99; }
v96:;
    if (!(v111 == v76)) { v116 = 1; v69 = v111; v67 = v74; v65 = v110; v63 = v109; goto v99; }
    if ((v71 + v76) == ((u32)v110)) { v73 = v74; goto v72; }
    v116 = 1; v69 = v76; v67 = v74; v65 = v110; v63 = v109;
v99:;
    u64 v118 = at(u64, v6 + 8);
    if (!(at(u64, v6 + 16) == v118)) { v60 = v59; v126 = v118; goto v61; }
    if (!std_alloc_vec_Vec_grow_amortized_6671(v6, 1)) goto v123;
    v60 = at(ptr, v6); v126 = at(u64, v6 + 8); goto v61;
v123:;
    if (at(u64, v6 + 16) == 0) goto v136;
    sys_rattle_dealloc(at(ptr, v6));
v136:;
    at(u8, v0) = 1;
    memset(v0 + 8, 0, 24u);
    return;
v61:;
    u64 v127 = v126 * 12u;
    at(u32_1, v60 + v127) = v68;
    at(u32_1, v60 + v127 + 4) = v73;
    at(u16_1, v60 + v127 + 8) = v64;
    at(u16_1, v60 + v127 + 10) = v62;
    at(u64, v6 + 8) = v126 + 1;
    if (v116) { v59 = v60; v62 = v63; v64 = v65; v66 = v67; v68 = v69; goto v58; }
v30:;
    at(u8, v0) = 0;
    memcpy(v0 + 8, v6, 24u);
    return;
}

void font_subset_selection_Seeds_in_chart(u8 *v0, u8 *v1, u8 v2, u8 *v3) {
    u8 v5[1], *v27, v122, v125, v79, v129;
    _Alignas(4) u8 v6[16], v7[16], v9[16], v10[16];
    _Alignas(8) u8 v8[16], v11[104];
    u32 v50, v65, v80, v81, v130, v131, v160, v172, v176, v185, v187;
    u16 v82, v132;
    memcpy(v11, v1, 104u);
    u16 v14 = at(u16, at(ptr, v11) + 64);
    u64 v15 = (u64)v14;
    if (v14 == 0) { v27 = v5; goto v17; }
    u64_u64 v20 = sys_rattle_alloc(v15, 1);
    if (!(v20._0 & 1)) goto v24;
    u8 *v26 = (u8 *)v20._1;
    memset_any(v26, 0, v15);
    v27 = v26;
v17:;
    at(u8, v27) = 1;
    flag v28 = v2 == 0;
    v50 = 0;
v49:;
    if (!v28) goto v54;
    memset(v10, 0, 16u);
    if (!(at(u8, v11 + 56) == 1)) goto v87;
    u8 *v88 = at(ptr, v11 + 64);
    u64 v89 = at(u64, v11 + 72);
    memset(v9, 0, 16u);
    u64 v92 = uadd_sat64(at(u64, v11 + 96), at(u64, v11 + 88));
    if (!((v92 != 0) & (v89 > v92))) goto v97;
    u64 v98 = v92 * 12u;
    if (!(v50 > at(u32, v88 + (i64)v98 - 8))) goto v97;
    if (at(u32, v88 + (i64)v98 + 4) < v50) goto v97;
    at(u64, v11 + 88) = v92;
    u32 v108 = at(u32_1, v88 + (i64)v98);
    u32 v109 = at(u32_1, v88 + (i64)v98 + 4);
    u16 v113 = at(u16_1, v88 + (i64)v98 + 10);
    u16 v119 = (u16)(((v50 > v108) ? ((u16)(v50 - v108)) : 0) + at(u16_1, v88 + (i64)v98 + 8));
    at(u32, v9) = 1;
    at(u32, v9 + 4) = umax32(v50, v108);
    at(u32, v9 + 8) = v109;
    at(u16, v9 + 12) = v119;
    at(u16, v9 + 14) = v113;
    v122 = 1; goto v120;
v97:;
    map_union_run_list_run_searched(v9, v88, v89, v11 + 88, v50);
    v122 = at(u8, v9);
v120:;
    memcpy(v10 + 4, v9 + 4, 12u);
    v125 = v122; goto v123;
v87:;
    font_map_chart_Chart_next_run_33e3(v10, v11 + 8, v50);
    v125 = at(u8, v10);
v123:;
    v129 = v125; v130 = at(u32, v10 + 4); v131 = at(u32, v10 + 8); v132 = at(u16, v10 + 12); goto v83;
v54:;
    at(ptr, v8) = v11 + 8;
    at(ptr, v8 + 8) = v3;
    memset(v7, 0, 16u);
    font_map_within_WithinPieces_piece_2760(v7, v8, v50);
    if (!(at(u8, v7) == 1)) { v79 = 0; v80 = 0; v81 = 0; v82 = 0; goto v58; }
    u32 v59 = at(u32, v7 + 4);
    u16 v61 = at(u16, v7 + 12);
    u32 v60 = at(u32, v7 + 8);
    memset(v6, 0, 16u);
    u32 v63 = ((u32)v61) - v59;
    v65 = v60;
v64:;
    u32 v68 = v65 + 1;
    font_map_within_WithinPieces_piece_2760(v6, v8, v68);
    if (!(at(u8, v6) == 1)) goto v71;
    if ((at(u32, v6 + 4) == v68) ? ((v63 + v68) == ((u32)at(u16, v6 + 12))) : 0) { v65 = at(u32, v6 + 8); goto v64; }
v71:;
    v79 = 1; v80 = v59; v81 = v65; v82 = v61;
v58:;
    v129 = v79; v130 = v80; v131 = v81; v132 = v82;
v83:;
    if (!(v129 == 1)) goto v135;
    u32 v136 = (u32)v132;
    u32 v139 = ((v131 - v130) + 1) + v136;
    if (!(v139 > v136)) goto v52;
    u32 v143 = (v131 + 1) - v130;
    if (v143 < 4) { v185 = v136; goto v145; }
    u32 v147 = v131 - v130;
    if ((((u16)(v132 ^ 65535u)) < ((u16)v147)) | (v147 > 65535u)) { v185 = v136; goto v145; }
    if (v143 < 16u) { v172 = 0; goto v155; }
    u32 v157 = v143 & 12u;
    u32 v158 = v143 & 0xfffffff0u;
    v160 = 0;
v159:;
    at(u8x16_1, v27 + (i64)((u64)((v160 + v136) & 65535u))) = (u8x16){1, 1, 1, 1, 1, 1, 1, 1, 1, 1, 1, 1, 1, 1, 1, 1};
    u32 v161 = v160 + 16u;
    if (!(v161 == v158)) { v160 = v161; goto v159; }
    if (v143 == v158) goto v52;
    if (v157 == 0) { v185 = v158 + v136; goto v145; }
    v172 = v158;
v155:;
    u32 v173 = v143 & 0xfffffffcu;
    u32 v174 = v173 + v136;
    v176 = v172;
v175:;
    at(u8x4_1, v27 + (i64)((u64)((v176 + v136) & 65535u))) = (u8x4){1, 1, 1, 1};
    u32 v177 = v176 + 4;
    if (!(v177 == v173)) { v176 = v177; goto v175; }
    if (v143 == v173) goto v52;
    v185 = v174;
v145:;
    v187 = v185;
v186:;
    at(u8, v27 + (i64)((u64)(v187 & 65535u))) = 1;
    u32 v188 = v187 + 1;
    if (!(v188 == v139)) { v187 = v188; goto v186; }
v52:;
    v50 = v131 + 1; goto v49;
v135:;
    at(u8, v0) = 0;
    memcpy(v0 + 8, v11, 104u);
    at(u64_1, v0 + 112) = (u64)v2;
    at(u64_1, v0 + 120) = (u64)v3;
    at(ptr_1, v0 + 128) = v27;
    at(u64_1, v0 + 136) = v15;
    at(u64_1, v0 + 144) = v15;
    return;
v24:;
    if ((at(u8, v11 + 16) != 1) ? 1 : (at(u64, v11 + 40) == 0)) goto v209;
    sys_rattle_dealloc(at(ptr, v11 + 24));
v209:;
    if ((at(u8, v11 + 56) != 1) ? 1 : (at(u64, v11 + 80) == 0)) goto v220;
    sys_rattle_dealloc(at(ptr, v11 + 64));
v220:;
    at(u8, v0) = 1;
    memset(v0 + 8, 0, 144u);
    return;
}

void font_subset_selection_Seeds_of(u8 *v0, u8 *v1, u8 v2, u8 *v3) {
    u8 v5[1], v13[111], *v48, v140, v143, v97, v147, v224, *v227;
    _Alignas(4) u8 v6[16], v7[16], v9[16], v10[16];
    _Alignas(8) u8 v8[16], v11[104], v12[56], v14[24];
    u32 v68, v83, v98, v99, v148, v149, v178, v190, v194, v203, v205;
    u16 v100, v150;
    u64 v225, v226, v228;
    memset(v13, 0, 111u);
    memset(v12, 0, 56u);
    font_map_chart_Chart_of_3518(v12, v1 + 72);
    if (!(at(u8, v12) == 0)) goto v19;
    u8 v23 = at(u8, v12 + 16);
    u64 v21 = at(u64, v12 + 48);
    u64 v25 = at(u64, v12 + 8);
    memcpy(v14, v12 + 24, 24u);
    at(ptr, v11) = v1;
    at(u64, v11 + 8) = v25;
    at(u64, v11 + 16) = (u64)v23;
    memcpy(v11 + 24, v14, 24u);
    at(u64, v11 + 48) = v21;
    memset(v11 + 56, 0, 48u);
    u16 v35 = at(u16, v1 + 64);
    u64 v36 = (u64)v35;
    if (v35 == 0) { v48 = v5; goto v38; }
    u64_u64 v41 = sys_rattle_alloc(v36, 1);
    if (!(v41._0 & 1)) goto v45;
    u8 *v47 = (u8 *)v41._1;
    memset_any(v47, 0, v36);
    v48 = v47;
v38:;
    at(u8, v48) = 1;
    flag v49 = v2 == 0;
    v68 = 0;
v67:;
    if (!v49) goto v72;
    memset(v10, 0, 16u);
    if (!(at(u8, v11 + 56) == 1)) goto v105;
    u8 *v106 = at(ptr, v11 + 64);
    u64 v107 = at(u64, v11 + 72);
    memset(v9, 0, 16u);
    u64 v110 = uadd_sat64(at(u64, v11 + 96), at(u64, v11 + 88));
    if (!((v110 != 0) & (v107 > v110))) goto v115;
    u64 v116 = v110 * 12u;
    if (!(v68 > at(u32, v106 + (i64)v116 - 8))) goto v115;
    if (at(u32, v106 + (i64)v116 + 4) < v68) goto v115;
    at(u64, v11 + 88) = v110;
    u32 v126 = at(u32_1, v106 + (i64)v116);
    u32 v127 = at(u32_1, v106 + (i64)v116 + 4);
    u16 v131 = at(u16_1, v106 + (i64)v116 + 10);
    u16 v137 = (u16)(((v68 > v126) ? ((u16)(v68 - v126)) : 0) + at(u16_1, v106 + (i64)v116 + 8));
    at(u32, v9) = 1;
    at(u32, v9 + 4) = umax32(v68, v126);
    at(u32, v9 + 8) = v127;
    at(u16, v9 + 12) = v137;
    at(u16, v9 + 14) = v131;
    v140 = 1; goto v138;
v115:;
    map_union_run_list_run_searched(v9, v106, v107, v11 + 88, v68);
    v140 = at(u8, v9);
v138:;
    memcpy(v10 + 4, v9 + 4, 12u);
    v143 = v140; goto v141;
v105:;
    font_map_chart_Chart_next_run_33e3(v10, v11 + 8, v68);
    v143 = at(u8, v10);
v141:;
    v147 = v143; v148 = at(u32, v10 + 4); v149 = at(u32, v10 + 8); v150 = at(u16, v10 + 12); goto v101;
v72:;
    at(ptr, v8) = v11 + 8;
    at(ptr, v8 + 8) = v3;
    memset(v7, 0, 16u);
    font_map_within_WithinPieces_piece_2760(v7, v8, v68);
    if (!(at(u8, v7) == 1)) { v97 = 0; v98 = 0; v99 = 0; v100 = 0; goto v76; }
    u32 v77 = at(u32, v7 + 4);
    u16 v79 = at(u16, v7 + 12);
    u32 v78 = at(u32, v7 + 8);
    memset(v6, 0, 16u);
    u32 v81 = ((u32)v79) - v77;
    v83 = v78;
v82:;
    u32 v86 = v83 + 1;
    font_map_within_WithinPieces_piece_2760(v6, v8, v86);
    if (!(at(u8, v6) == 1)) goto v89;
    if ((at(u32, v6 + 4) == v86) ? ((v81 + v86) == ((u32)at(u16, v6 + 12))) : 0) { v83 = at(u32, v6 + 8); goto v82; }
v89:;
    v97 = 1; v98 = v77; v99 = v83; v100 = v79;
v76:;
    v147 = v97; v148 = v98; v149 = v99; v150 = v100;
v101:;
    if (!(v147 == 1)) goto v153;
    u32 v154 = (u32)v150;
    u32 v157 = ((v149 - v148) + 1) + v154;
    if (!(v157 > v154)) goto v70;
    u32 v161 = (v149 + 1) - v148;
    if (v161 < 4) { v203 = v154; goto v163; }
    u32 v165 = v149 - v148;
    if ((((u16)(v150 ^ 65535u)) < ((u16)v165)) | (v165 > 65535u)) { v203 = v154; goto v163; }
    if (v161 < 16u) { v190 = 0; goto v173; }
    u32 v175 = v161 & 12u;
    u32 v176 = v161 & 0xfffffff0u;
    v178 = 0;
v177:;
    at(u8x16_1, v48 + (i64)((u64)((v178 + v154) & 65535u))) = (u8x16){1, 1, 1, 1, 1, 1, 1, 1, 1, 1, 1, 1, 1, 1, 1, 1};
    u32 v179 = v178 + 16u;
    if (!(v179 == v176)) { v178 = v179; goto v177; }
    if (v161 == v176) goto v70;
    if (v175 == 0) { v203 = v176 + v154; goto v163; }
    v190 = v176;
v173:;
    u32 v191 = v161 & 0xfffffffcu;
    u32 v192 = v191 + v154;
    v194 = v190;
v193:;
    at(u8x4_1, v48 + (i64)((u64)((v194 + v154) & 65535u))) = (u8x4){1, 1, 1, 1};
    u32 v195 = v194 + 4;
    if (!(v195 == v191)) { v194 = v195; goto v193; }
    if (v161 == v191) goto v70;
    v203 = v192;
v163:;
    v205 = v203;
v204:;
    at(u8, v48 + (i64)((u64)(v205 & 65535u))) = 1;
    u32 v206 = v205 + 1;
    if (!(v206 == v157)) { v205 = v206; goto v204; }
v70:;
    v68 = v149 + 1; goto v67;
v153:;
    memcpy(v13 + 7, v11, 104u);
    v224 = 0; v225 = (u64)v2; v226 = (u64)v3; v227 = v48; v228 = v36; goto v214;
v45:;
    if ((v23 != 1) ? 1 : (at(u64, v11 + 40) == 0)) goto v220;
    sys_rattle_dealloc(at(ptr, v11 + 24));
v220:;
    memset(v13 + 7, 0, 104u);
    v224 = 1; v225 = 0; v226 = 0; v227 = (u8 *)0; v228 = 0;
v214:;
    at(u8, v0) = v224;
    memcpy(v0 + 8, v13 + 7, 104u);
    at(u64_1, v0 + 112) = v225;
    at(u64_1, v0 + 120) = v226;
    at(ptr_1, v0 + 128) = v227;
    at(u64_1, v0 + 136) = v228;
    at(u64_1, v0 + 144) = v228;
    return;
v19:;
    at(u8, v0) = 1;
    memset(v0 + 8, 0, 144u);
    return;
}

void font_subset_selection_Selection_of_seeds_4cdf(u8 *v0, u8 *v1, u8 *v2, u8 *v3) {
    u8 v5[1], v12[7], v13[7], v15[7], v16[7], v17[7], v18[16], v19[7], v20[7], v21[7], v22[16], *v76, *v145, *v148, *v198, *v203, *v207, *v245, *v199, *v204, *v146, *v149, *v292, v293, *v297, v298, *v300, v301, v302, *v308;
    _Alignas(8) u8 v6[24], v7[32], v8[24], v9[24], v10[24], v11[16], v14[16], v23[16];
    u64 v96, v107, v110, v118, v120, v150, v184, v185, v201, v205, v223, v246, v202, v151, v290, v291, v294, v295, v296, v299, v303, v304, v305, v306, v307, v309;
    u64 v26 = (u64)at(u8, v2 + 104);
    u64 v28 = at(u64_1, v2 + 112);
    u64 v31 = (u64)at(u8, v3);
    memset(v19, 0, 7);
    memset(v20, 0, 7);
    memset(v21, 0, 7);
    memset(v22, 0, 16u);
    memset(v23, 0, 16u);
    u8 *v33 = at(ptr_1, v2);
    u64 v35 = at(u64_1, v2 + 8);
    u8 v37 = at(u8, v2 + 16);
    memcpy(v12, v2 + 17, 7);
    u8 *v40 = at(ptr_1, v2 + 24);
    u64 v42 = at(u64_1, v2 + 32);
    u64 v44 = at(u64_1, v2 + 40);
    u64 v46 = at(u64_1, v2 + 48);
    u8 v48 = at(u8, v2 + 56);
    memcpy(v13, v2 + 57, 7);
    u8 *v51 = at(ptr_1, v2 + 64);
    u64 v53 = at(u64_1, v2 + 72);
    u64 v55 = at(u64_1, v2 + 80);
    memcpy(v14, v2 + 88, 16u);
    memcpy(v9, v2 + 120, 24u);
    u8 v57 = at(u8, v1);
    memcpy(v10 + 8, v3 + 8, 16u);
    memcpy(v11, v3 + 8, 16u);
    memset(v15, 0, 7);
    memset(v16, 0, 7);
    memset(v17, 0, 7);
    memset(v18, 0, 16u);
    memset(v8, 0, 24u);
    at(u64, v10) = v31;
    font_subset_selection_mark_roots(v8, v9, v1, v10);
    memset(v7, 0, 32u);
    u8 *v59 = at(ptr, v8);
    u64 v60 = (u64)v59;
    u64 v62 = at(u64, v8 + 8);
    flag v63 = v62 == 0;
    if (v63) { v76 = v5; goto v64; }
    if (!((i64)v62 > (i64)0xffffffffffffffffu)) goto v68;
    u64_u64 v70 = sys_rattle_alloc(v62, 1);
    if (!(v70._0 & 1)) goto v68;
    v76 = (u8 *)v70._1;
v64:;
    if (!((((u64)v76) - ((u64)v59)) < v62)) goto v82;
    if ((v62 < 4) | ((((u64)v76) - v60) < 32u)) { v118 = 0; goto v88; }
    if (v62 < 16u) { v107 = 0; goto v91; }
    u64 v93 = v62 & 12u;
    u64 v94 = v62 & 0xfffffffffffffff0u;
    v96 = 0;
v95:;
    at(u8x16_1, v76 + v96) = at(u8x16_1, v59 + v96);
    u64 v97 = v96 + 16u;
    if (!(v97 == v94)) { v96 = v97; goto v95; }
    if (v62 == v94) goto v104;
    if (v93 == 0) { v118 = v94; goto v88; }
    v107 = v94;
v91:;
    u64 v108 = v62 & 0xfffffffffffffffcu;
    v110 = v107;
v109:;
    at(u8x4_1, v76 + v110) = at(u8x4_1, v59 + v110);
    u64 v111 = v110 + 4;
    if (!(v111 == v108)) { v110 = v111; goto v109; }
    if (v62 == v108) goto v104;
    v118 = v108;
v88:;
    v120 = v118;
v119:;
    at(u8, v76 + v120) = at(u8, v59 + v120);
    u64 v121 = v120 + 1;
    if (v121 == v62) goto v104;
    v120 = v121; goto v119;
v82:;
    memmove_any(v76, v59, v62);
v104:;
    font_glyph_closure_marked_6b3c(v7, v8, at(u16, v33 + 64));
    if (!(at(u8, v7) == 0)) goto v131;
    memcpy(v6, v7 + 8, 24u);
    u64 v134 = at(u64, v6 + 8);
    if (v134 == 0) goto v136;
    u8 *v142 = at(ptr, v6);
    v145 = v142; v148 = v142; v150 = v134;
v143:;
    u64 v152 = v150 - 1;
    at(u64, v6 + 8) = v152;
    u8 *v157 = at(ptr_1, v33 + 32);
    u8 *v158 = at(ptr_1, v33 + 48);
    u64 v159 = (u64)at(u16, v148 + (v152 << 1));
    if (!(at(u8, v33 + 70) == 0)) goto v162;
    u64 v163 = v159 << 1;
    v184 = ((u64)bswap16(at(u16_1, v157 + (i64)v163))) << 1; v185 = ((u64)bswap16(at(u16_1, v157 + (i64)v163 + 2))) << 1; goto v174;
v162:;
    u64 v175 = v159 << 2;
    v184 = (u64)bswap32(at(u32_1, v157 + (i64)v175)); v185 = (u64)bswap32(at(u32_1, v157 + (i64)v175 + 4));
v174:;
    u64 v187 = v185 - v184;
    if (v185 == v184) { v151 = v152; v146 = v145; v149 = v148; goto v147; }
    if ((i8)at(u8, v158 + (i64)v184) > (i8)255u) { v151 = v152; v146 = v145; v149 = v148; goto v147; }
    u64 v193 = v187 - 10u;
    if (!(v193 > 3)) { v151 = v152; v146 = v145; v149 = v148; goto v147; }
    v198 = v145; v201 = v152; v203 = v148; v205 = v193; v207 = v158 + (i64)v184 + 10;
v197:;
    u16 v210 = bswap16(at(u16_1, v207));
    u16 v212 = at(u16_1, v207 + 2);
    if (!(((u16)(v210 & 8)) == 0)) { v223 = 2; goto v216; }
    v223 = (u64)((((u16)(v210 & 64u)) == 0) ? ((u16)(((u16)(v210 >> 4)) & 8)) : 4);
v216:;
    u64 v227 = v223 + ((((u16)(v210 & 1)) == 0) ? 6 : 8);
    if (v205 < v227) { v151 = v201; v146 = v198; v149 = v203; goto v147; }
    u64 v206 = v205 - v227;
    u16 v230 = bswap16(v212);
    u64 v231 = (u64)v230;
    if (at(u8, v76 + (i64)v231) & 1) { v199 = v198; v202 = v201; v204 = v203; goto v200; }
    at(u8, v76 + (i64)v231) = 1;
    if (!(at(u64, v6 + 16) == v201)) { v245 = v198; v246 = v201; goto v239; }
    if (!std_alloc_vec_Vec_grow_amortized_1aee(v6, 1)) goto v242;
    v245 = at(ptr, v6); v246 = at(u64, v6 + 8); goto v239;
v242:;
    if (at(u64, v6 + 16) == 0) goto v257;
    sys_rattle_dealloc(at(ptr, v6));
v257:;
    if (v63) goto v68;
    goto v144;
v239:;
    at(u16, v245 + (v246 << 1)) = v230;
    u64 v249 = v246 + 1;
    at(u64, v6 + 8) = v249;
    v199 = v245; v202 = v249; v204 = v245;
v200:;
    if ((((u16)(v210 & 32u)) != 0) ? (v206 > 3) : 0) { v198 = v199; v201 = v202; v203 = v204; v205 = v206; v207 = v207 + (i64)v227; goto v197; }
    v151 = v202; v146 = v199; v149 = v204;
v147:;
    if (!(v151 == 0)) { v145 = v146; v148 = v149; v150 = v151; goto v143; }
v136:;
    if (at(u64, v6 + 16) == 0) goto v263;
    sys_rattle_dealloc(at(ptr, v6));
v263:;
    if (at(u64, v8 + 16) == 0) goto v269;
    sys_rattle_dealloc(at(ptr, v8));
v269:;
    memcpy(v16, v12, 7);
    memcpy(v17, v13, 7);
    memcpy(v18, v14, 16u);
    memcpy(v19, v15, 7);
    memcpy(v20, v16, 7);
    memcpy(v21, v17, 7);
    memcpy(v22, v18, 16u);
    memcpy(v23, v11, 16u);
    v290 = v55; v291 = v53; v292 = v51; v293 = v48; v294 = v46; v295 = v44; v296 = v42; v297 = v40; v298 = v37; v299 = v35; v300 = v33; v301 = 0; v302 = v57; v303 = 1; v304 = (u64)v1; v305 = v26; v306 = v28; v307 = v31; v308 = v76; v309 = v62; goto v279;
v131:;
    if (v63) goto v68;
v144:;
    sys_rattle_dealloc(v76);
v68:;
    if (at(u64, v8 + 16) == 0) goto v275;
    sys_rattle_dealloc(at(ptr, v8));
v275:;
    if ((v37 != 1) ? 1 : (v44 == 0)) goto v283;
    sys_rattle_dealloc(v40);
v283:;
    if ((v48 != 1) ? 1 : (v55 == 0)) goto v288;
    sys_rattle_dealloc(v51);
v288:;
    memset(v19, 0, 7);
    memset(v20, 0, 7);
    memset(v21, 0, 7);
    memset(v22, 0, 16u);
    memset(v23, 0, 16u);
    v290 = 0; v291 = 0; v292 = (u8 *)0; v293 = 0; v294 = 0; v295 = 0; v296 = 0; v297 = (u8 *)0; v298 = 0; v299 = 0; v300 = (u8 *)0; v301 = 1; v302 = 0; v303 = 0; v304 = 0; v305 = 0; v306 = 0; v307 = 0; v308 = (u8 *)0; v309 = 0;
v279:;
    at(u8, v0) = v301;
    at(u8, v0 + 8) = v302;
    memcpy(v0 + 9, v19, 7);
    at(ptr_1, v0 + 16) = v300;
    at(u64_1, v0 + 24) = v299;
    at(u8, v0 + 32) = v298;
    memcpy(v0 + 33, v20, 7);
    at(ptr_1, v0 + 40) = v297;
    at(u64_1, v0 + 48) = v296;
    at(u64_1, v0 + 56) = v295;
    at(u64_1, v0 + 64) = v294;
    at(u8, v0 + 72) = v293;
    memcpy(v0 + 73, v21, 7);
    at(ptr_1, v0 + 80) = v292;
    at(u64_1, v0 + 88) = v291;
    at(u64_1, v0 + 96) = v290;
    memcpy(v0 + 104, v22, 16u);
    at(u64_1, v0 + 120) = v303;
    at(u64_1, v0 + 128) = v304;
    at(u64_1, v0 + 136) = v305;
    at(u64_1, v0 + 144) = v306;
    at(u64_1, v0 + 152) = v307;
    memcpy(v0 + 160, v23, 16u);
    at(ptr_1, v0 + 176) = v308;
    at(u64_1, v0 + 184) = v309;
    at(u64_1, v0 + 192) = v309;
    return;
}

static void font_subset_selection_mark_roots(u8 *v0, u8 *v1, u8 *v2, u8 *v3) {
    _Alignas(8) u8 v5[24], v6[24], v7[16], v8[16], v14[24], v15[24];
    u64 v31;
    u16 v58, v62;
    u8 *v63;
    u8 v9 = at(u8, v3);
    u8 *v11 = at(ptr_1, v3 + 8);
    u64 v13 = at(u64_1, v3 + 16);
    memcpy(v15, v1, 24u);
    memcpy(v5, v1, 24u);
    if (at(u8, v2) == 0) { v63 = v15; goto v18; }
    if (!(v9 == 1)) goto v23;
    at(ptr, v7) = v2;
    at(ptr, v7 + 8) = v2 + 344;
    if (v13 == 0) goto v26;
    u8 *v29 = at(ptr, v5);
    v31 = 0;
v30:;
    u16 v36 = at(u16, v11 + (i64)(v31 << 1));
    if (!(v36 < at(u16, at(ptr, v2 + 8) + 64))) goto v33;
    u64 v42 = (u64)v36;
    if (at(u8, v29 + (i64)v42) & 1) goto v33;
    if (!font_subset_presence_Presence_has(v7, v36)) goto v33;
    at(u8, v29 + (i64)v42) = 1;
v33:;
    u64 v32 = v31 + 1;
    if (v32 == v13) goto v26;
    v31 = v32; goto v30;
v23:;
    at(ptr, v8) = v2;
    at(ptr, v8 + 8) = v2 + 344;
    u16 v54 = at(u16, at(ptr, v2 + 8) + 64);
    if (v54 > 64u) v58 = 0; else { v62 = 0; goto v57; }
v56:;
    u16 v59 = (u16)(v58 + 64u);
    font_subset_presence_mark_between(v5, v8, v58, v59);
    if (((u16)(v54 - v59)) > 64u) { v58 = v59; goto v56; }
    v62 = v59;
v57:;
    font_subset_presence_mark_between(v5, v8, v62, v54);
v26:;
    memcpy(v6, v5, 24u);
    v63 = v6;
v18:;
    memcpy(v14, v63, 24u);
    memcpy(v0, v14, 24u);
    return;
}

void font_variations_gvar_Variations_open(u8 *v0, u8 *v1, u64 v2, u8 *v3, u16 v4) {
    u64 v77, v98, v102, v121, v142, v146, v180;
    u16x8 v79;
    flag v97, v100, v158, v141, v144, v159;
    u32x4 v123;
    u32 v178, v179;
    u8 *v206;
    u8 *v7 = at(ptr_1, v3 + 8);
    if (v2 < 20u) goto v9;
    if (((at(u8, v3) != 1) ? 1 : (at(u64_1, v3 + 16) < 10u)) | (at(u32_1, v1) != 256u)) goto v9;
    u16 v22 = at(u16_1, v1 + 4);
    if (!(v22 == at(u16_1, v7 + 8))) goto v9;
    if (!(bswap16(at(u16_1, v1 + 12)) == v4)) goto v9;
    u16 v33 = at(u16_1, v1 + 14);
    if (bswap16(v33) > 1) goto v9;
    flag v37 = v33 == 0;
    u64 v38 = (u64)v4;
    u64 v42 = ((v38 + 1) << ((v37 ? 1 : 2) & 63)) + 20u;
    if (v2 < v42) goto v9;
    u16 v46 = at(u16_1, v1 + 6);
    u16 v47 = bswap16(v46);
    if (v46 == 0) goto v49;
    u64 v54 = (u64)bswap32(at(u32_1, v1 + 8));
    if (v42 > v54) goto v9;
    if ((v2 < v54) ? 1 : ((v2 - v54) < ((((u64)bswap16(v22)) << 1) * ((u64)v47)))) goto v9;
v49:;
    flag v67 = v4 == 0;
    if (!v37) goto v69;
    if (v67) goto v70;
    if (v4 < 8) { v97 = 0; v98 = 0; goto v73; }
    u64 v75 = v38 & 65528u;
    v77 = 0; v79 = (u16x8){0};
v76:;
    u16x8 v80 = v79 | ((u16x8)(bswap_u16x8(at(u16x8_1, (v1 + 20) + (i64)(v77 << 1) + 2)) < bswap_u16x8(at(u16x8_1, (v1 + 20) + (i64)(v77 << 1)))));
    u64 v78 = v77 + 8;
    if (!(v78 == v75)) { v77 = v78; v79 = v80; goto v76; }
    flag v94 = bits_u16x8(v80) != 0;
    if (v75 == v38) { v158 = v94; goto v96; }
    v97 = v94; v98 = v75;
v73:;
    v100 = v97; v102 = v98;
v99:;
    u64 v103 = v102 + 1;
    flag v101 = v100 | (bswap16(at(u16_1, (v1 + 20) + (i64)(v103 << 1))) < bswap16(at(u16_1, (v1 + 20) + (i64)(v102 << 1))));
    if (v103 == v38) v158 = v101; else { v100 = v101; v102 = v103; goto v99; }
v96:;
    if (v158) goto v9;
v70:;
    u32 v161 = at(u32_1, v1 + 16);
    v178 = v161; v179 = bswap32(v161); v180 = ((u64)bswap16(at(u16_1, (v1 + 20) + (i64)(v38 << 1)))) << 1; goto v169;
v69:;
    if (v67) goto v114;
    if (v4 < 4) { v141 = 0; v142 = 0; goto v117; }
    u64 v119 = v38 & 65532u;
    v121 = 0; v123 = (u32x4){0};
v120:;
    u32x4 v124 = v123 | ((u32x4)(bswap_u32x4(at(u32x4_1, (v1 + 20) + (i64)(v121 << 2) + 4)) < bswap_u32x4(at(u32x4_1, (v1 + 20) + (i64)(v121 << 2)))));
    u64 v122 = v121 + 4;
    if (!(v122 == v119)) { v121 = v122; v123 = v124; goto v120; }
    flag v138 = bits_u32x4(v124) != 0;
    if (v119 == v38) { v159 = v138; goto v140; }
    v141 = v138; v142 = v119;
v117:;
    v144 = v141; v146 = v142;
v143:;
    u64 v147 = v146 + 1;
    flag v145 = v144 | (bswap32(at(u32_1, (v1 + 20) + (i64)(v147 << 2))) < bswap32(at(u32_1, (v1 + 20) + (i64)(v146 << 2))));
    if (v147 == v38) v159 = v145; else { v144 = v145; v146 = v147; goto v143; }
v140:;
    if (v159) goto v9;
v114:;
    u32 v171 = at(u32_1, v1 + 16);
    v178 = v171; v179 = bswap32(v171); v180 = (u64)bswap32(at(u32_1, (v1 + 20) + (i64)(v38 << 2)));
v169:;
    u64 v181 = (u64)v179;
    if ((v2 < v181) ? 1 : ((v2 - v181) < v180)) goto v9;
    u64 v188 = v2 - 20u;
    u64 v190 = (u64)bswap32(v178);
    u64 v192 = v2 - v190;
    u64 v197 = (((u64)bswap16(v22)) << 1) * ((u64)v47);
    if (v197 == 0) { v206 = (u8 *)table_55ba7287; goto v199; }
    v206 = v1 + (i64)((u64)bswap32(at(u32_1, v1 + 8)));
v199:;
    at(u64_1, v0) = 1;
    at(ptr_1, v0 + 8) = v1;
    at(u64_1, v0 + 16) = v2;
    at(ptr_1, v0 + 24) = v1 + 20;
    at(u64_1, v0 + 32) = v188;
    at(ptr_1, v0 + 40) = v1 + (i64)v190;
    at(u64_1, v0 + 48) = v192;
    at(ptr_1, v0 + 56) = v206;
    at(u64_1, v0 + 64) = v197;
    at(u8, v0 + 72) = (u8)(v33 != 0);
    at(u8, v0 + 73) = 0;
    at(u16_1, v0 + 74) = v4;
    at(u32_1, v0 + 76) = 0;
    return;
v9:;
    memset(v0, 0, 80u);
    return;
}

u8 font_write_bytes_send_padded_6755(u8 *v0, u64 v1, u8 *v2) {
    u64 v23, v24, v48, v59, v62, v70, v72, v99, v100;
    u64 v4 = (u64)v0;
    at(u8, v2 + 33) = 0;
    if (v1 == 0) goto v7;
    u64 v12 = at(u64, v2 + 16);
    u64 v13 = at(u64, v2 + 8);
    if (!(v1 > (v12 - v13))) { v23 = v12; v24 = v13; goto v17; }
    if (!std_alloc_vec_Vec_grow_amortized_1cf2(v2, v1)) goto v20;
    v23 = at(u64, v2 + 16); v24 = at(u64, v2 + 8); goto v17;
v20:;
    at(u8, v2 + 32) = 1;
    return 1;
v17:;
    u64 v25 = v24 + v1;
    u8 *v26 = at(ptr, v2);
    u64 v27 = (u64)v26;
    memset(v2 + 8, 0, 16u);
    if (!((((u64)(v26 + (i64)v24)) - ((u64)v0)) < v1)) goto v34;
    if (v1 < 4) { v70 = 0; goto v36; }
    if (((v24 + v27) - v4) < 32u) { v70 = 0; goto v36; }
    if (v1 < 16u) { v59 = 0; goto v43; }
    u64 v45 = v1 & 12u;
    u64 v46 = v1 & 0xfffffffffffffff0u;
    v48 = 0;
v47:;
    at(u8x16_1, (v26 + (i64)v24) + v48) = at(u8x16_1, v0 + v48);
    u64 v49 = v48 + 16u;
    if (!(v49 == v46)) { v48 = v49; goto v47; }
    if (v1 == v46) goto v56;
    if (v45 == 0) { v70 = v46; goto v36; }
    v59 = v46;
v43:;
    u64 v60 = v1 & 0xfffffffffffffffcu;
    v62 = v59;
v61:;
    at(u8x4_1, (v26 + (i64)v24) + v62) = at(u8x4_1, v0 + v62);
    u64 v63 = v62 + 4;
    if (!(v63 == v60)) { v62 = v63; goto v61; }
    if (v1 == v60) goto v56;
    v70 = v60;
v36:;
    v72 = v70;
v71:;
    at(u8, (v26 + (i64)v24) + v72) = at(u8, v0 + v72);
    u64 v73 = v72 + 1;
    if (v73 == v1) goto v56;
    v72 = v73; goto v71;
v34:;
    memmove_any(v26 + (i64)v24, v0, v1);
v56:;
    at(ptr, v2) = v26;
    at(u64, v2 + 8) = v25;
    at(u64, v2 + 16) = v23;
    at(u64, v2 + 24) = at(u64, v2 + 24) + v1;
v7:;
    u64 v81 = ((u64)0 - v1) & 3;
    at(u8, v2 + 33) = 0;
    if (v81 == 0) return 0;
    u64 v88 = at(u64, v2 + 16);
    u64 v89 = at(u64, v2 + 8);
    if (!(v81 > (v88 - v89))) { v99 = v88; v100 = v89; goto v93; }
    if (!std_alloc_vec_Vec_grow_amortized_1cf2(v2, v81)) goto v96;
    v99 = at(u64, v2 + 16); v100 = at(u64, v2 + 8); goto v93;
v96:;
    at(u8, v2 + 32) = 1;
    return 1;
v93:;
    u8 *v102 = at(ptr, v2);
    memset_any(v102 + (i64)v100, 0, v81);
    at(ptr, v2) = v102;
    at(u64, v2 + 8) = v100 + v81;
    at(u64, v2 + 16) = v99;
    at(u64, v2 + 24) = at(u64, v2 + 24) + v81;
    return 0;
}

u8 font_write_bytes_send_padded_823e(u8 *v0, u64 v1, u8 *v2) {
    _Alignas(8) u8 v5[96], v6[96];
    u64 v17, v52, v63, v66, v74, v76, v87, v103, v128;
    u64 v4 = (u64)v0;
    at(u8, v2 + 145) = 0;
    if (v1 == 0) goto v9;
    v17 = 0;
v16:;
    u64 v21 = v1 - v17;
    memset(v6, 0, 96u);
    u64 v22 = at(u64, v2 + 128);
    u64 v23 = at(u64, v2 + 120);
    if (!(v21 < (v22 - v23))) goto v27;
    u64 v28 = v23 + v21;
    u8 *v29 = at(ptr, v2 + 112);
    u64 v30 = (u64)v29;
    memset(v2 + 120, 0, 16u);
    if (!((((u64)(v29 + (i64)v23)) - ((u64)(v0 + (i64)v17))) < v21)) goto v37;
    if (v21 < 4) { v74 = 0; goto v39; }
    if (((v23 + v30) - (v17 + v4)) < 32u) { v74 = 0; goto v39; }
    if (v21 < 16u) { v63 = 0; goto v47; }
    u64 v49 = v21 & 12u;
    u64 v50 = v21 & 0xfffffffffffffff0u;
    v52 = 0;
v51:;
    at(u8x16_1, (v29 + (i64)v23) + v52) = at(u8x16_1, (v0 + (i64)v17) + v52);
    u64 v53 = v52 + 16u;
    if (!(v53 == v50)) { v52 = v53; goto v51; }
    if (v21 == v50) goto v60;
    if (v49 == 0) { v74 = v50; goto v39; }
    v63 = v50;
v47:;
    u64 v64 = v21 & 0xfffffffffffffffcu;
    v66 = v63;
v65:;
    at(u8x4_1, (v29 + (i64)v23) + v66) = at(u8x4_1, (v0 + (i64)v17) + v66);
    u64 v67 = v66 + 4;
    if (!(v67 == v64)) { v66 = v67; goto v65; }
    if (v21 == v64) goto v60;
    v74 = v64;
v39:;
    v76 = v74;
v75:;
    at(u8, (v29 + (i64)v23) + v76) = at(u8, (v0 + (i64)v17) + v76);
    u64 v77 = v76 + 1;
    if (v77 == v21) goto v60;
    v76 = v77; goto v75;
v37:;
    memmove_any(v29 + (i64)v23, v0 + (i64)v17, v21);
v60:;
    at(ptr, v2 + 112) = v29;
    at(u64, v2 + 120) = v28;
    at(u64, v2 + 128) = v22;
    v87 = v21; goto v82;
v27:;
    std_io_buffered_BufWriter_write_cold(v6, v2, v0 + (i64)v17, v21);
    if (at(u8, v6) == 0) v87 = at(u64, v6 + 8); else goto v86;
v82:;
    if (v87 == 0) goto v86;
    u64 v18 = v87 + v17;
    at(u64, v2 + 136) = at(u64, v2 + 136) + v87;
    if (v18 < v1) { v17 = v18; goto v16; }
v9:;
    u64 v93 = ((u64)0 - v1) & 3;
    at(u8, v2 + 145) = 0;
    if (v93 == 0) return 0;
    v103 = 0;
v102:;
    u64 v107 = v93 - v103;
    memset(v5, 0, 96u);
    u64 v108 = at(u64, v2 + 128);
    u64 v109 = at(u64, v2 + 120);
    if (!(v107 < (v108 - v109))) goto v113;
    u64 v114 = v109 + v107;
    u8 *v115 = at(ptr, v2 + 112);
    if (!((((u64)(v115 + (i64)v109)) - ((u64)((u8 *)table_18327a07 + (i64)v103))) < v107)) goto v122;
    memset_any(v115 + (i64)v109, 0, v107);
    goto v123;
v122:;
    memcpy_any(v115 + (i64)v109, (u8 *)table_18327a07 + (i64)v103, v107);
v123:;
    at(ptr, v2 + 112) = v115;
    at(u64, v2 + 120) = v114;
    at(u64, v2 + 128) = v108;
    v128 = v107; goto v124;
v113:;
    std_io_buffered_BufWriter_write_cold(v5, v2, (u8 *)table_18327a07 + (i64)v103, v107);
    if (at(u8, v5) == 0) v128 = at(u64, v5 + 8); else goto v86;
v124:;
    if (v128 == 0) goto v86;
    u64 v104 = v128 + v103;
    at(u64, v2 + 136) = at(u64, v2 + 136) + v128;
    if (v104 < v93) { v103 = v104; goto v102; }
    return 0;
v86:;
    at(u8, v2 + 144) = 1;
    return 1;
}

u8 font_write_made_head_send_head_end_1854(u8 *v0, u64 v1, u8 *v2) {
    u64 v20, v21, v30, v55, v56, v80, v91, v94, v102, v104;
    u8 *v54;
    u64 v4 = (u64)v0;
    at(u8, v2 + 33) = 0;
    u64 v9 = at(u64, v2 + 16);
    u64 v10 = at(u64, v2 + 8);
    if (!((v9 - v10) < 2)) { v20 = v9; v21 = v10; goto v14; }
    if (!std_alloc_vec_Vec_grow_amortized_1cf2(v2, 2)) goto v17;
    v20 = at(u64, v2 + 16); v21 = at(u64, v2 + 8); goto v14;
v17:;
    at(u8, v2 + 32) = 1;
    return 1;
v14:;
    u64 v22 = v21 + 2;
    u8 *v23 = at(ptr, v2);
    if ((((u64)(v23 + (i64)v21)) - ((u64)(u8 *)table_87e6e93c)) < 2) v30 = 0; else goto v29;
v28:;
    at(u8, (v23 + (i64)v21) + v30) = at(u8, (u8 *)table_87e6e93c + v30);
    u64 v31 = v30 + 1;
    if (v31 == 2) goto v36;
    v30 = v31; goto v28;
v29:;
    at(u16_1, v23 + (i64)v21) = 256u;
v36:;
    at(ptr, v2) = v23;
    at(u64, v2 + 8) = v22;
    at(u64, v2 + 16) = v20;
    at(u64, v2 + 24) = at(u64, v2 + 24) + 2;
    u64 v40 = v1 - 52u;
    at(u8, v2 + 33) = 0;
    if (v40 == 0) return 0;
    if (!(v40 > (v20 - v22))) { v54 = v23; v55 = v20; v56 = v22; goto v47; }
    if (!std_alloc_vec_Vec_grow_amortized_1cf2(v2, v40)) goto v50;
    v54 = at(ptr, v2); v55 = at(u64, v2 + 16); v56 = at(u64, v2 + 8); goto v47;
v50:;
    at(u8, v2 + 32) = 1;
    return 1;
v47:;
    u64 v57 = (u64)v54;
    u64 v58 = v56 + v40;
    memset(v2 + 8, 0, 16u);
    if (!((((u64)(v54 + (i64)v56)) - ((u64)(v0 + 52))) < v40)) goto v65;
    if (v40 < 4) { v102 = 0; goto v67; }
    if ((((v56 + v57) - 52u) - v4) < 32u) { v102 = 0; goto v67; }
    if (v40 < 16u) { v91 = 0; goto v75; }
    u64 v77 = v40 & 12u;
    u64 v78 = v40 & 0xfffffffffffffff0u;
    v80 = 0;
v79:;
    at(u8x16_1, (v54 + (i64)v56) + v80) = at(u8x16_1, (v0 + 52) + v80);
    u64 v81 = v80 + 16u;
    if (!(v81 == v78)) { v80 = v81; goto v79; }
    if (v40 == v78) goto v88;
    if (v77 == 0) { v102 = v78; goto v67; }
    v91 = v78;
v75:;
    u64 v92 = v40 & 0xfffffffffffffffcu;
    v94 = v91;
v93:;
    at(u8x4_1, (v54 + (i64)v56) + v94) = at(u8x4_1, (v0 + 52) + v94);
    u64 v95 = v94 + 4;
    if (!(v95 == v92)) { v94 = v95; goto v93; }
    if (v40 == v92) goto v88;
    v102 = v92;
v67:;
    v104 = v102;
v103:;
    at(u8, (v54 + (i64)v56) + v104) = at(u8, (v0 + 52) + v104);
    u64 v105 = v104 + 1;
    if (v105 == v40) goto v88;
    v104 = v105; goto v103;
v65:;
    memmove_any(v54 + (i64)v56, v0 + 52, v40);
v88:;
    at(ptr, v2) = v54;
    at(u64, v2 + 8) = v58;
    at(u64, v2 + 16) = v55;
    at(u64, v2 + 24) = at(u64, v2 + 24) + v40;
    return 0;
}

u8 font_write_made_head_send_head_end_7cc9(u8 *v0, u64 v1, u8 *v2) {
    _Alignas(8) u8 v5[96], v6[96];
    u64 v14, v35, v47, v59, v95, v106, v109, v117, v119, v129;
    u64 v4 = (u64)v0;
    at(u8, v2 + 145) = 0;
    v14 = 0;
v13:;
    u64 v18 = (u64)2 - v14;
    memset(v6, 0, 96u);
    u64 v19 = at(u64, v2 + 128);
    u64 v20 = at(u64, v2 + 120);
    if (!(v18 < (v19 - v20))) goto v24;
    u64 v25 = v20 + v18;
    u8 *v26 = at(ptr, v2 + 112);
    if ((((u64)(v26 + (i64)v20)) - ((u64)((u8 *)table_87e6e93c + (i64)v14))) < v18) v35 = 0; else goto v33;
v32:;
    at(u8, (v26 + (i64)v20) + v35) = at(u8, ((u8 *)table_87e6e93c + (i64)v14) + v35);
    u64 v36 = v35 + 1;
    if (v36 == v18) goto v34;
    v35 = v36; goto v32;
v33:;
    memcpy_any(v26 + (i64)v20, (u8 *)table_87e6e93c + (i64)v14, v18);
v34:;
    at(ptr, v2 + 112) = v26;
    at(u64, v2 + 120) = v25;
    at(u64, v2 + 128) = v19;
    v47 = v18; goto v16;
v24:;
    std_io_buffered_BufWriter_write_cold(v6, v2, (u8 *)table_87e6e93c + (i64)v14, v18);
    u64 v42 = at(u64, v6 + 8);
    if ((at(u8, v6) != 0) ? 1 : (v42 == 0)) goto v46;
    v47 = v42;
v16:;
    u64 v15 = v47 + v14;
    at(u64, v2 + 136) = at(u64, v2 + 136) + v47;
    if (v15 < 2) { v14 = v15; goto v13; }
    u64 v53 = v1 - 52u;
    at(u8, v2 + 145) = 0;
    if (v53 == 0) return 0;
    v59 = 0;
v58:;
    u64 v63 = v53 - v59;
    memset(v5, 0, 96u);
    u64 v64 = at(u64, v2 + 128);
    u64 v65 = at(u64, v2 + 120);
    if (!(v63 < (v64 - v65))) goto v69;
    u64 v70 = v65 + v63;
    u8 *v71 = at(ptr, v2 + 112);
    u64 v72 = (u64)v71;
    memset(v2 + 120, 0, 16u);
    if (!((((u64)(v71 + (i64)v65)) - ((u64)((v0 + 52) + (i64)v59))) < v63)) goto v79;
    if (v63 < 4) { v117 = 0; goto v81; }
    if (((((v65 - v4) - 52u) + v72) - v59) < 32u) { v117 = 0; goto v81; }
    if (v63 < 16u) { v106 = 0; goto v90; }
    u64 v92 = v63 & 12u;
    u64 v93 = v63 & 0xfffffffffffffff0u;
    v95 = 0;
v94:;
    at(u8x16_1, (v71 + (i64)v65) + v95) = at(u8x16_1, ((v0 + 52) + (i64)v59) + v95);
    u64 v96 = v95 + 16u;
    if (!(v96 == v93)) { v95 = v96; goto v94; }
    if (v63 == v93) goto v103;
    if (v92 == 0) { v117 = v93; goto v81; }
    v106 = v93;
v90:;
    u64 v107 = v63 & 0xfffffffffffffffcu;
    v109 = v106;
v108:;
    at(u8x4_1, (v71 + (i64)v65) + v109) = at(u8x4_1, ((v0 + 52) + (i64)v59) + v109);
    u64 v110 = v109 + 4;
    if (!(v110 == v107)) { v109 = v110; goto v108; }
    if (v63 == v107) goto v103;
    v117 = v107;
v81:;
    v119 = v117;
v118:;
    at(u8, (v71 + (i64)v65) + v119) = at(u8, ((v0 + 52) + (i64)v59) + v119);
    u64 v120 = v119 + 1;
    if (v120 == v63) goto v103;
    v119 = v120; goto v118;
v79:;
    memmove_any(v71 + (i64)v65, (v0 + 52) + (i64)v59, v63);
v103:;
    at(ptr, v2 + 112) = v71;
    at(u64, v2 + 120) = v70;
    at(u64, v2 + 128) = v64;
    v129 = v63; goto v125;
v69:;
    std_io_buffered_BufWriter_write_cold(v5, v2, (v0 + 52) + (i64)v59, v63);
    if (at(u8, v5) == 0) v129 = at(u64, v5 + 8); else goto v46;
v125:;
    if (v129 == 0) goto v46;
    u64 v60 = v129 + v59;
    at(u64, v2 + 136) = at(u64, v2 + 136) + v129;
    if (v60 < v53) { v59 = v60; goto v58; }
    return 0;
v46:;
    at(u8, v2 + 144) = 1;
    return 1;
}

u8 font_write_made_head_send_head_front_2b60(u8 *v0, u32 v1, u8 *v2) {
    u64 v19, v20, v30, v52, v53;
    u8 *v51;
    at(u8, v2 + 33) = 0;
    u64 v8 = at(u64, v2 + 16);
    u64 v9 = at(u64, v2 + 8);
    if (!((v8 - v9) < 8)) { v19 = v8; v20 = v9; goto v13; }
    if (!std_alloc_vec_Vec_grow_amortized_1cf2(v2, 8)) goto v16;
    v19 = at(u64, v2 + 16); v20 = at(u64, v2 + 8); goto v13;
v16:;
    at(u8, v2 + 32) = 1;
    return 1;
v13:;
    u64 v21 = v20 + 8;
    u8 *v22 = at(ptr, v2);
    memset(v2 + 8, 0, 16u);
    if ((((u64)(v22 + (i64)v20)) - ((u64)v0)) < 8) v30 = 0; else goto v29;
v28:;
    at(u8, (v22 + (i64)v20) + v30) = at(u8, v0 + v30);
    u64 v31 = v30 + 1;
    if (v31 == 8) goto v36;
    v30 = v31; goto v28;
v29:;
    at(u64_1, v22 + (i64)v20) = at(u64_1, v0);
v36:;
    at(ptr, v2) = v22;
    at(u64, v2 + 8) = v21;
    at(u64, v2 + 16) = v19;
    at(u64, v2 + 24) = at(u64, v2 + 24) + 8;
    u32 v40 = bswap32(v1);
    at(u8, v2 + 33) = 0;
    if (!((v19 - v21) < 4)) { v51 = v22; v52 = v19; v53 = v21; goto v44; }
    if (!std_alloc_vec_Vec_grow_amortized_1cf2(v2, 4)) goto v47;
    v51 = at(ptr, v2); v52 = at(u64, v2 + 16); v53 = at(u64, v2 + 8); goto v44;
v47:;
    at(u8, v2 + 32) = 1;
    return 1;
v44:;
    at(u32_1, v51 + (i64)v53) = v40;
    at(ptr, v2) = v51;
    at(u64, v2 + 8) = v53 + 4;
    at(u64, v2 + 16) = v52;
    at(u64, v2 + 24) = at(u64, v2 + 24) + 4;
    return 0;
}

u8 font_write_made_head_send_head_front_a2d5(u8 *v0, u32 v1, u8 *v2) {
    _Alignas(8) u8 v4[96], v6[96];
    _Alignas(4) u8 v5[4];
    u64 v14, v35, v47, v55, v76, v88;
    u8 v94;
    at(u8, v2 + 145) = 0;
    v14 = 0;
v13:;
    u64 v18 = (u64)8 - v14;
    memset(v6, 0, 96u);
    u64 v19 = at(u64, v2 + 128);
    u64 v20 = at(u64, v2 + 120);
    if (!(v18 < (v19 - v20))) goto v24;
    u64 v25 = v20 + v18;
    u8 *v26 = at(ptr, v2 + 112);
    memset(v2 + 120, 0, 16u);
    if ((((u64)(v26 + (i64)v20)) - ((u64)(v0 + (i64)v14))) < v18) v35 = 0; else goto v33;
v32:;
    at(u8, (v26 + (i64)v20) + v35) = at(u8, (v0 + (i64)v14) + v35);
    u64 v36 = v35 + 1;
    if (v36 == v18) goto v34;
    v35 = v36; goto v32;
v33:;
    memmove_any(v26 + (i64)v20, v0 + (i64)v14, v18);
v34:;
    at(ptr, v2 + 112) = v26;
    at(u64, v2 + 120) = v25;
    at(u64, v2 + 128) = v19;
    v47 = v18; goto v16;
v24:;
    std_io_buffered_BufWriter_write_cold(v6, v2, v0 + (i64)v14, v18);
    u64 v42 = at(u64, v6 + 8);
    if (!((at(u8, v6) != 0) ? 1 : (v42 == 0))) { v47 = v42; goto v16; }
    at(u8, v2 + 144) = 1;
    return 1;
v16:;
    u64 v15 = v47 + v14;
    at(u64, v2 + 136) = at(u64, v2 + 136) + v47;
    if (v15 < 8) { v14 = v15; goto v13; }
    at(u32, v5) = bswap32(v1);
    at(u8, v2 + 145) = 0;
    v55 = 0;
v54:;
    u64 v59 = (u64)4 - v55;
    memset(v4, 0, 96u);
    u64 v60 = at(u64, v2 + 128);
    u64 v61 = at(u64, v2 + 120);
    if (!(v59 < (v60 - v61))) goto v65;
    u64 v66 = v61 + v59;
    u8 *v67 = at(ptr, v2 + 112);
    if ((((u64)(v67 + (i64)v61)) - ((u64)(v5 + (i64)v55))) < v59) v76 = 0; else goto v74;
v73:;
    at(u8, (v67 + (i64)v61) + v76) = at(u8, (v5 + (i64)v55) + v76);
    u64 v77 = v76 + 1;
    if (v77 == v59) goto v75;
    v76 = v77; goto v73;
v74:;
    memmove_any(v67 + (i64)v61, v5 + (i64)v55, v59);
v75:;
    at(ptr, v2 + 112) = v67;
    at(u64, v2 + 120) = v66;
    at(u64, v2 + 128) = v60;
    v88 = v59; goto v57;
v65:;
    std_io_buffered_BufWriter_write_cold(v4, v2, v5 + (i64)v55, v59);
    u64 v83 = at(u64, v4 + 8);
    if (!((at(u8, v4) != 0) ? 1 : (v83 == 0))) { v88 = v83; goto v57; }
    at(u8, v2 + 144) = 1;
    v94 = 1; goto v92;
v57:;
    u64 v56 = v88 + v55;
    at(u64, v2 + 136) = at(u64, v2 + 136) + v88;
    if (v56 < 4) { v55 = v56; goto v54; }
    v94 = 0;
v92:;
    return v94;
}

u32_u16 font_write_made_loca_gather_offsets(u8 *v0, u16 v1, u16 v2, u32 v3, u16 v4, u8 *v5) {
    u64 v16, v83, v90, v103, v106, v113, v17;
    u16 v19, v20, v121;
    u32 v21, v61, v62, v64, v22, v120;
    u8x16 v92;
    if (!(v1 < v2)) { v120 = v3; v121 = v4; goto v9; }
    u64 v13 = (u64)v1;
    u64 v14 = (u64)v2;
    v16 = v13; v19 = v4; v21 = v3;
v15:;
    if (!(v16 < ((u64)v19))) goto v26;
    v17 = v16 + 1; v20 = v19; v22 = v21; goto v18;
v26:;
    u8 *v28 = at(ptr, v0 + 8);
    if (!(v16 < ((u64)at(u16, v28 + 64)))) { v64 = 0; goto v34; }
    u8 *v38 = at(ptr_1, v28 + 32);
    if (!(at(u8, v28 + 70) == 0)) goto v41;
    u64 v42 = v16 << 1;
    v61 = ((u32)bswap16(at(u16_1, v38 + (i64)v42))) << 1; v62 = ((u32)bswap16(at(u16_1, v38 + (i64)v42 + 2))) << 1; goto v53;
v41:;
    u64 v54 = v16 << 2;
    v61 = bswap32(at(u32_1, v38 + (i64)v54)); v62 = bswap32(at(u32_1, v38 + (i64)v54 + 4));
v53:;
    v64 = v62 - v61;
v34:;
    u32 v68 = (v64 + v21) + (((u32)0 - v64) & 3);
    u64 v69 = v16 + 1;
    u8 *v70 = at(ptr, v0 + 168);
    u64 v71 = at(u64, v0 + 176);
    if (!(v71 > v69)) goto v74;
    if (at(u8, v70 + v69) & 1) { v113 = v69; goto v78; }
v74:;
    if ((v71 - v69) < 64u) { v103 = v69; goto v81; }
    v83 = v69;
v82:;
    if (!(v83 < 0xffffffffffffffc0u)) goto v85;
    v90 = 0; v92 = (u8x16){0};
v89:;
    u8x16 v93 = v92 | ((-(at(u8x16_1, (v70 + (i64)v83) + (i64)v90) & 1)));
    u64 v91 = v90 + 16u;
    if (!(v91 == 64u)) { v90 = v91; v92 = v93; goto v89; }
    if (!(bits_u8x16(v93) == 0)) { v103 = v83; goto v81; }
v85:;
    u64 v84 = v83 + 64u;
    if ((v71 - v84) < 64u) v103 = v84; else { v83 = v84; goto v82; }
v81:;
    if (v103 < v71) v106 = v103; else { v113 = v71; goto v78; }
v105:;
    if (at(u8, v70 + v106) & 1) { v113 = v106; goto v78; }
    u64 v107 = v106 + 1;
    if (v107 == v71) v113 = v71; else { v106 = v107; goto v105; }
v78:;
    v17 = v69; v20 = (u16)v113; v22 = v68;
v18:;
    at(u32_1, v5 + ((v16 - v13) << 2)) = bswap32(v22);
    if (v17 == v14) { v120 = v22; v121 = v20; } else { v16 = v17; v19 = v20; v21 = v22; goto v15; }
v9:;
    return (u32_u16){v120, v121};
}

void font_write_plan_plan_of(u8 *v0, u8 *v1, u8 v2, u8 *v3) {
    _Alignas(4) u8 v5[64], v6[20], v7[32], v9[4], v10[4], v11[4], v12[4], v16[348], v20[348], v21[348];
    u8 v8[12], v17[351], *v687, *v692, *v700, *v125, *v168, *v204, *v209, *v217, *v343, *v348, *v356, *v446, *v457, *v495, *v500, *v508, *v800, *v874;
    _Alignas(8) u8 v13[56], v14[24], v15[16], v19[16];
    _Alignas(2) u8 v18[22];
    u64 v89, v674, v688, v694, v699, v126, v154, v170, v191, v205, v211, v216, v239, v246, v259, v262, v269, v284, v310, v311, v330, v344, v350, v355, v373, v380, v393, v396, v285, v416, v447, v459, v482, v496, v502, v507, v532, v539, v552, v555, v562, v619, v626, v639, v642, v649, v716, v766, v802, v843;
    u32x4 v676, v156, v193, v332, v484;
    u32 v686, v690, v701, v166, v203, v207, v218, v281, v342, v346, v357, v455, v494, v498, v509, v572, v575, v601, v602, v705, v706, v707, v798, v838, v841, v881, v882;
    u8x16 v248, v382, v541, v628;
    u16 v577, v764, v786, v787, v788;
    u16x8 v718;
    memset(v17, 0, 351u);
    memset(v18, 0, 22u);
    memset(v20, 0, 348u);
    memset(v21, 0, 348u);
    memcpy(v19, v3, 16u);
    memcpy(v15, v3, 16u);
    flag v30 = v2 == 0;
    u8 v31 = v30 ? 1 : 2;
    u8 v32 = v30 ? 12u : 20u;
    u8 v33 = v30 ? 12u : 3;
    u8 v34 = v30 ? 0 : 10u;
    u8 v35 = v30 ? 0 : 12u;
    u64 v36 = v30 ? 28u : 36u;
    memset(v16, 0, 348u);
    u32 v69 = at(u32, v15);
    u32 v71 = at(u32, v15 + 4);
    u32 v72 = v69 * 12u;
    u32 v74 = bswap32(v72 + 16u);
    u32 v75 = bswap32(v69);
    u32 v77 = bswap32(v72 + 44u);
    u32 v78 = v30 ? v75 : v74;
    u8 v79 = (u8)v78;
    u8 v81 = (u8)(v78 >> 8);
    u8 v83 = (u8)(v78 >> 16u);
    u8 v85 = (u8)(v78 >> 24u);
    u32 v86 = v30 ? v74 : 335544320u;
    u32 v87 = v30 ? 0 : v75;
    v89 = 0;
v88:;
    u64 v94 = at(u64, (u8 *)table_faed1f12 + (v89 << 3));
    u8_u64 v95 = font_write_size_table_length_a65d(v1, v2, v15, v94);
    u8 v96 = v95._0;
    if (!(v96 == 1)) { v706 = 0; v707 = 0; goto v91; }
    u32 v100 = (u32)v95._1;
    memset(v14, 0, 24u);
    switch (v94) {
    case 1: goto v102;
    case 5: goto v103;
    case 6: goto v104;
    case 9: goto v105;
    default: goto v101;
    }
v101:;
    font_subset_kind_source_CutOfKindSource_copied(v14, v1, v94);
    if (!(at(u8, v14) == 1)) { v705 = 0; goto v224; }
    u8 *v657 = at(ptr, v14 + 8);
    u64 v658 = at(u64, v14 + 16);
    if (!(v658 > 3)) { v699 = v658; v700 = v657; v701 = 0; goto v661; }
    u64 v662 = v658 - 4;
    u64 v664 = (v662 >> 2) + 1;
    if (v662 < 12u) { v686 = 0; v687 = v657; v688 = v658; goto v666; }
    u64 v668 = v664 & 0x7ffffffffffffffcu;
    u64 v669 = v668 << 2;
    u64 v672 = v658 - (v668 << 2);
    v674 = 0; v676 = (u32x4){0};
v673:;
    u32x4 v677 = bswap_u32x4(at(u32x4_1, v657 + (i64)(v674 << 2))) + v676;
    u64 v675 = v674 + 4;
    if (!(v675 == v668)) { v674 = v675; v676 = v677; goto v673; }
    u32 v684 = sum_u32x4(v677);
    if (v664 == v668) { v699 = v672; v700 = v657 + (i64)v669; v701 = v684; goto v661; }
    v686 = v684; v687 = v657 + (i64)v669; v688 = v672;
v666:;
    v690 = v686; v692 = v687; v694 = v688;
v689:;
    u32 v691 = bswap32(at(u32_1, v692)) + v690;
    u64 v695 = v694 - 4;
    if (v695 > 3) { v690 = v691; v692 = v692 + 4; v694 = v695; goto v689; }
    v699 = v695; v700 = v692 + 4; v701 = v691;
v661:;
    at(u32, v9) = 0;
    memcpy_any(v9, v700, v699);
    v705 = bswap32(at(u32, v9)) + v701; goto v224;
v102:;
    if (!(at(u8, v1 + 320) == 1)) goto v109;
    v125 = at(ptr, v1 + 328); v126 = at(u64, v1 + 336); goto v112;
v109:;
    if (!(at(u8, v1 + 112) == 1)) { v125 = (u8 *)table_55ba7287; v126 = 0; goto v112; }
    u8 *v116 = at(ptr, v1 + 120);
    if (!(at(u8, v116 + 312) == 1)) { v125 = (u8 *)table_55ba7287; v126 = 0; goto v112; }
    v125 = at(ptr, v116 + 320); v126 = at(u64, v116 + 328);
v112:;
    flag v127 = v126 == 0;
    flag v129 = v127 & v30;
    u64 v145 = v127 ? v36 : 44u;
    at(u8, v13) = 0;
    at(u8, v13 + 1) = 0;
    at(u8, v13 + 2) = 0;
    at(u8, v13 + 3) = v127 ? v31 : 3;
    at(u8, v13 + 4) = 0;
    at(u8, v13 + 5) = v129 ? 3 : 0;
    at(u8, v13 + 6) = 0;
    at(u8, v13 + 7) = v129 ? 10u : 4;
    at(u8, v13 + 8) = 0;
    at(u8, v13 + 9) = 0;
    at(u8, v13 + 10) = 0;
    at(u8, v13 + 11) = v127 ? v32 : 28u;
    at(u8, v13 + 12) = 0;
    at(u8, v13 + 13) = v127 ? v33 : 0;
    at(u8, v13 + 14) = 0;
    at(u8, v13 + 15) = v127 ? v34 : 5;
    at(u32, v13 + 16) = v127 ? v86 : v77;
    at(u8, v13 + 20) = 0;
    at(u8, v13 + 21) = v127 ? v35 : 3;
    at(u8, v13 + 22) = 0;
    at(u8, v13 + 23) = v127 ? 0 : 10u;
    at(u8, v13 + 24) = v127 ? v79 : 0;
    at(u8, v13 + 25) = v127 ? v81 : 0;
    at(u8, v13 + 26) = v127 ? v83 : 0;
    at(u8, v13 + 27) = v127 ? v85 : 28u;
    at(u32, v13 + 28) = v127 ? 0 : 3072u;
    at(u32, v13 + 32) = v127 ? v87 : v74;
    at(u32, v13 + 36) = 0;
    at(u32, v13 + 40) = v127 ? 0 : v75;
    at(u32, v13 + 44) = 0;
    at(u64, v13 + 48) = v145;
    u64 v148 = ((v145 + 60u) >> 2) & 12u;
    u64 v149 = v148 << 2;
    u64 v152 = v145 - (v148 << 2);
    v154 = 0; v156 = (u32x4){0};
v153:;
    u32x4 v157 = bswap_u32x4(at(u32x4_8, v13 + (i64)(v154 << 2))) + v156;
    u64 v155 = v154 + 4;
    if (!(v155 == v148)) { v154 = v155; v156 = v157; goto v153; }
    v166 = sum_u32x4(v157); v168 = v13 + (i64)v149; v170 = v152;
v165:;
    u32 v167 = bswap32(at(u32_1, v168)) + v166;
    u64 v171 = v170 - 4;
    if (!(v171 == 0)) { v166 = v167; v168 = v168 + 4; v170 = v171; goto v165; }
    if (!(v126 > 3)) { v216 = v126; v217 = v125; v218 = 0; goto v178; }
    u64 v179 = v126 - 4;
    u64 v181 = (v179 >> 2) + 1;
    if (v179 < 12u) { v203 = 0; v204 = v125; v205 = v126; goto v183; }
    u64 v185 = v181 & 0x7ffffffffffffffcu;
    u64 v186 = v185 << 2;
    u64 v189 = v126 - (v185 << 2);
    v191 = 0; v193 = (u32x4){0};
v190:;
    u32x4 v194 = bswap_u32x4(at(u32x4_1, v125 + (i64)(v191 << 2))) + v193;
    u64 v192 = v191 + 4;
    if (!(v192 == v185)) { v191 = v192; v193 = v194; goto v190; }
    u32 v201 = sum_u32x4(v194);
    if (v181 == v185) { v216 = v189; v217 = v125 + (i64)v186; v218 = v201; goto v178; }
    v203 = v201; v204 = v125 + (i64)v186; v205 = v189;
v183:;
    v207 = v203; v209 = v204; v211 = v205;
v206:;
    u32 v208 = bswap32(at(u32_1, v209)) + v207;
    u64 v212 = v211 - 4;
    if (v212 > 3) { v207 = v208; v209 = v209 + 4; v211 = v212; goto v206; }
    v216 = v212; v217 = v209 + 4; v218 = v208;
v178:;
    at(u32, v12) = 0;
    memcpy_any(v12, v217, v216);
    v705 = ((v167 + v71) + v218) + bswap32(at(u32, v12)); goto v224;
v103:;
    u8 *v225 = at(ptr, v1 + 8);
    u16 v227 = at(u16, v225 + 64);
    u8 *v228 = at(ptr, v1 + 168);
    u64 v229 = at(u64, v1 + 176);
    if (v229 == 0) { v259 = 0; goto v231; }
    if (at(u8, v228) & 1) { v269 = 0; goto v235; }
    if (v229 < 64u) { v259 = 0; goto v231; }
    v239 = 0;
v238:;
    if (v239 == 0xffffffffffffffc0u) goto v241;
    v246 = 0; v248 = (u8x16){0};
v245:;
    u8x16 v249 = v248 | ((-(at(u8x16_1, (v228 + (i64)v239) + (i64)v246) & 1)));
    u64 v247 = v246 + 16u;
    if (!(v247 == 64u)) { v246 = v247; v248 = v249; goto v245; }
    if (!(bits_u8x16(v249) == 0)) { v259 = v239; goto v231; }
v241:;
    u64 v240 = v239 + 64u;
    if ((v229 - v240) < 64u) v259 = v240; else { v239 = v240; goto v238; }
v231:;
    if (v259 < v229) v262 = v259; else { v269 = v229; goto v235; }
v261:;
    if (at(u8, v228 + v262) & 1) { v269 = v262; goto v235; }
    u64 v263 = v262 + 1;
    if (v263 == v229) v269 = v229; else { v262 = v263; goto v261; }
v235:;
    if (!(v227 > ((u16)v269))) { v705 = 0; goto v224; }
    u8 *v276 = at(ptr_1, v225 + 32);
    u8 *v278 = at(ptr_1, v225 + 48);
    flag v279 = at(u8, v225 + 70) == 0;
    v281 = 0; v284 = v269;
v280:;
    u64 v286 = v284 & 65535u;
    if (!v279) goto v288;
    u64 v289 = v286 << 1;
    v310 = ((u64)bswap16(at(u16_1, v276 + (i64)v289))) << 1; v311 = ((u64)bswap16(at(u16_1, v276 + (i64)v289 + 2))) << 1; goto v300;
v288:;
    u64 v301 = v286 << 2;
    v310 = (u64)bswap32(at(u32_1, v276 + (i64)v301)); v311 = (u64)bswap32(at(u32_1, v276 + (i64)v301 + 4));
v300:;
    u64 v313 = v311 - v310;
    if (!(v313 > 3)) { v355 = v313; v356 = v278 + (i64)v310; v357 = 0; goto v316; }
    u64 v318 = (v311 - 4) - v310;
    u64 v320 = (v318 >> 2) + 1;
    if (v318 < 12u) { v342 = 0; v343 = v278 + (i64)v310; v344 = v313; goto v322; }
    u64 v324 = v320 & 0x7ffffffffffffffcu;
    u64 v325 = v324 << 2;
    u64 v328 = v313 - (v324 << 2);
    v330 = 0; v332 = (u32x4){0};
v329:;
    u32x4 v333 = bswap_u32x4(at(u32x4_1, (v278 + (i64)v310) + (i64)(v330 << 2))) + v332;
    u64 v331 = v330 + 4;
    if (!(v331 == v324)) { v330 = v331; v332 = v333; goto v329; }
    u32 v340 = sum_u32x4(v333);
    if (v320 == v324) { v355 = v328; v356 = (v278 + (i64)v310) + (i64)v325; v357 = v340; goto v316; }
    v342 = v340; v343 = (v278 + (i64)v310) + (i64)v325; v344 = v328;
v322:;
    v346 = v342; v348 = v343; v350 = v344;
v345:;
    u32 v347 = bswap32(at(u32_1, v348)) + v346;
    u64 v351 = v350 - 4;
    if (v351 > 3) { v346 = v347; v348 = v348 + 4; v350 = v351; goto v345; }
    v355 = v351; v356 = v348 + 4; v357 = v347;
v316:;
    at(u32, v11) = 0;
    memcpy_any(v11, v356, v355);
    u32 v282 = (v357 + v281) + bswap32(at(u32, v11));
    u64 v362 = (v284 + 1) & 65535u;
    if (!(v229 > v362)) goto v365;
    if (at(u8, v228 + v362) & 1) { v285 = v362; goto v283; }
v365:;
    if ((v229 - v362) < 64u) { v393 = v362; goto v371; }
    v373 = v362;
v372:;
    if (!(v373 < 0xffffffffffffffc0u)) goto v375;
    v380 = 0; v382 = (u8x16){0};
v379:;
    u8x16 v383 = v382 | ((-(at(u8x16_1, (v228 + (i64)v373) + (i64)v380) & 1)));
    u64 v381 = v380 + 16u;
    if (!(v381 == 64u)) { v380 = v381; v382 = v383; goto v379; }
    if (!(bits_u8x16(v383) == 0)) { v393 = v373; goto v371; }
v375:;
    u64 v374 = v373 + 64u;
    if ((v229 - v374) < 64u) v393 = v374; else { v373 = v374; goto v372; }
v371:;
    if (v393 < v229) v396 = v393; else { v285 = v229; goto v283; }
v395:;
    if (at(u8, v228 + v396) & 1) { v285 = v396; goto v283; }
    u64 v397 = v396 + 1;
    if (v397 == v229) v285 = v229; else { v396 = v397; goto v395; }
v283:;
    if (v227 > ((u16)v285)) { v281 = v282; v284 = v285; goto v280; }
    v705 = v282; goto v224;
v104:;
    u8 *v406 = at(ptr_1, at(ptr, v1 + 8));
    u16 v408 = at(u16_1, v406 + 4);
    u64 v410 = (u64)bswap16(v408);
    if (v408 == 0) { v446 = (u8 *)table_55ba7287; v447 = 0xffffffffffffffccu; goto v412; }
    v416 = 0;
v413:;
    u64 v418 = v416 << 4;
    if (!((((at(u8, v406 + (i64)v418 + 12) == 104u) & (at(u8, v406 + (i64)v418 + 13) == 101u)) & (at(u8, v406 + (i64)v418 + 14) == 97u)) & (at(u8, v406 + (i64)v418 + 15) == 100u))) goto v414;
    v446 = v406 + (i64)((u64)bswap32(at(u32_1, v406 + (i64)v418 + 20))); v447 = ((u64)bswap32(at(u32_1, v406 + (i64)v418 + 24))) - 52u; goto v412;
v414:;
    u64 v415 = v416 + 1;
    if (v415 == v410) { v446 = (u8 *)table_55ba7287; v447 = 0xffffffffffffffccu; } else { v416 = v415; goto v413; }
v412:;
    u16 v449 = at(u16_1, v446 + 48);
    u32 v452 = sum_u32x2(bswap_u32x2(at(u32x2_1, v446)));
    v455 = 0; v457 = v446 + 12; v459 = 36u;
v454:;
    u32 v456 = bswap32(at(u32_1, v457)) + v455;
    u64 v460 = v459 - 4;
    if (!(v460 == 0)) { v455 = v456; v457 = v457 + 4; v459 = v460; goto v454; }
    u32 v465 = (u32)v449;
    if (!(v447 > 3)) { v507 = v447; v508 = v446 + 52; v509 = 0; goto v469; }
    u64 v470 = v447 - 4;
    u64 v472 = (v470 >> 2) + 1;
    if (v470 < 12u) { v494 = 0; v495 = v446 + 52; v496 = v447; goto v474; }
    u64 v476 = v472 & 0x7ffffffffffffffcu;
    u64 v477 = v476 << 2;
    u64 v480 = v447 - (v476 << 2);
    v482 = 0; v484 = (u32x4){0};
v481:;
    u32x4 v485 = bswap_u32x4(at(u32x4_1, (v446 + 52) + (i64)(v482 << 2))) + v484;
    u64 v483 = v482 + 4;
    if (!(v483 == v476)) { v482 = v483; v484 = v485; goto v481; }
    u32 v492 = sum_u32x4(v485);
    if (v472 == v476) { v507 = v480; v508 = (v446 + 52) + (i64)v477; v509 = v492; goto v469; }
    v494 = v492; v495 = (v446 + 52) + (i64)v477; v496 = v480;
v474:;
    v498 = v494; v500 = v495; v502 = v496;
v497:;
    u32 v499 = bswap32(at(u32_1, v500)) + v498;
    u64 v503 = v502 - 4;
    if (v503 > 3) { v498 = v499; v500 = v500 + 4; v502 = v503; goto v497; }
    v507 = v503; v508 = v500 + 4; v509 = v499;
v469:;
    at(u32, v10) = 0;
    memcpy_any(v10, v508, v507);
    v705 = (((v452 + bswap32(v465 | 16777216u)) + v456) + v509) + bswap32(at(u32, v10)); goto v224;
v105:;
    u8 *v518 = at(ptr, v1 + 8);
    u16 v520 = at(u16, v518 + 64);
    u8 *v521 = at(ptr, v1 + 168);
    u64 v522 = at(u64, v1 + 176);
    if (v522 == 0) { v552 = 0; goto v524; }
    if (at(u8, v521) & 1) { v562 = 0; goto v528; }
    if (v522 < 64u) { v552 = 0; goto v524; }
    v532 = 0;
v531:;
    if (v532 == 0xffffffffffffffc0u) goto v534;
    v539 = 0; v541 = (u8x16){0};
v538:;
    u8x16 v542 = v541 | ((-(at(u8x16_1, (v521 + (i64)v532) + (i64)v539) & 1)));
    u64 v540 = v539 + 16u;
    if (!(v540 == 64u)) { v539 = v540; v541 = v542; goto v538; }
    if (!(bits_u8x16(v542) == 0)) { v552 = v532; goto v524; }
v534:;
    u64 v533 = v532 + 64u;
    if ((v522 - v533) < 64u) v552 = v533; else { v532 = v533; goto v531; }
v524:;
    if (v552 < v522) v555 = v552; else { v562 = v522; goto v528; }
v554:;
    if (at(u8, v521 + v555) & 1) { v562 = v555; goto v528; }
    u64 v556 = v555 + 1;
    if (v556 == v522) v562 = v522; else { v555 = v556; goto v554; }
v528:;
    u16 v563 = (u16)v562;
    if (!(v520 > v563)) { v705 = 0; goto v224; }
    u8 *v569 = at(ptr_1, v518 + 32);
    flag v570 = at(u8, v518 + 70) == 0;
    v572 = 0; v575 = 0; v577 = v563;
v571:;
    u64 v579 = (u64)v577;
    if (!v570) goto v581;
    u64 v582 = v579 << 1;
    v601 = ((u32)bswap16(at(u16_1, v569 + (i64)v582))) << 1; v602 = ((u32)bswap16(at(u16_1, v569 + (i64)v582 + 2))) << 1; goto v593;
v581:;
    u64 v594 = v579 << 2;
    v601 = bswap32(at(u32_1, v569 + (i64)v594)); v602 = bswap32(at(u32_1, v569 + (i64)v594 + 4));
v593:;
    u32 v603 = v602 - v601;
    u32 v573 = (v603 + v572) + (((u32)0 - v603) & 3);
    u64 v608 = (u64)((u16)(v577 + 1));
    if (!(v522 > v608)) goto v611;
    if (at(u8, v521 + v608) & 1) { v649 = v608; goto v574; }
v611:;
    if ((v522 - v608) < 64u) { v639 = v608; goto v617; }
    v619 = v608;
v618:;
    if (!(v619 < 0xffffffffffffffc0u)) goto v621;
    v626 = 0; v628 = (u8x16){0};
v625:;
    u8x16 v629 = v628 | ((-(at(u8x16_1, (v521 + (i64)v619) + (i64)v626) & 1)));
    u64 v627 = v626 + 16u;
    if (!(v627 == 64u)) { v626 = v627; v628 = v629; goto v625; }
    if (!(bits_u8x16(v629) == 0)) { v639 = v619; goto v617; }
v621:;
    u64 v620 = v619 + 64u;
    if ((v522 - v620) < 64u) v639 = v620; else { v619 = v620; goto v618; }
v617:;
    if (v639 < v522) v642 = v639; else { v649 = v522; goto v574; }
v641:;
    if (at(u8, v521 + v642) & 1) { v649 = v642; goto v574; }
    u64 v643 = v642 + 1;
    if (v643 == v522) v649 = v522; else { v642 = v643; goto v641; }
v574:;
    u16 v578 = (u16)v649;
    u32 v576 = (v573 * ((u32)((u16)(v578 - v577)))) + v575;
    if (v520 > v578) { v572 = v573; v575 = v576; v577 = v578; goto v571; }
    v705 = v576;
v224:;
    v706 = v100; v707 = v705;
v91:;
    u64 v708 = v89 * 12u;
    at(u8, v16 + v708) = v96;
    memset(v16 + v708 + 1, 0, 3);
    at(u32, v16 + v708 + 4) = v706;
    at(u32, v16 + v708 + 8) = v707;
    u64 v90 = v89 + 1;
    if (!(v90 == 29u)) { v89 = v90; goto v88; }
    memcpy(v21, v16, 348u);
    memcpy(v20, v21, 348u);
    v716 = 0; v718 = (u16x8){0};
v715:;
    u8 v743 = at(u8, v20 + (v716 * 12u));
    u8 v744 = at(u8, v20 + (v716 * 12u) + 12);
    u8 v745 = at(u8, v20 + (v716 * 12u) + 24);
    u8 v746 = at(u8, v20 + (v716 * 12u) + 36);
    u8 v747 = at(u8, v20 + (v716 * 12u) + 48);
    u8 v748 = at(u8, v20 + (v716 * 12u) + 60);
    u8 v749 = at(u8, v20 + (v716 * 12u) + 72);
    u8 v750 = at(u8, v20 + (v716 * 12u) + 84);
    u16x8 v719 = v718 + (__builtin_convertvector((u8x8){v743, v744, v745, v746, v747, v748, v749, v750}, u16x8));
    u64 v717 = v716 + 8;
    if (!(v717 == 24u)) { v716 = v717; v718 = v719; goto v715; }
    v764 = sum_u16x8(v719); v766 = 24u;
v763:;
    u16 v765 = (u16)(v764 + ((u16)at(u8, v20 + (v766 * 12u))));
    u64 v767 = v766 + 1;
    if (!(v767 == 29u)) { v764 = v765; v766 = v767; goto v763; }
    if (!(((u16)(v765 + 65535u)) < 4095u)) { v786 = 0; v787 = 0; v788 = 0; goto v777; }
    u16 v779 = (u16)(ctlz16(v765) ^ 15u);
    u16 v780 = (u16)((u32)16u << (v779 & 31));
    v786 = bswap16((u16)(((u16)((u32)v765 << 4)) - v780)); v787 = (u16)((u32)v779 << 8); v788 = bswap16(v780);
v777:;
    at(u8, v8) = 0;
    at(u8, v8 + 1) = 1;
    at(u8, v8 + 2) = 0;
    at(u8, v8 + 3) = 0;
    at(u16_1, v8 + 4) = bswap16(v765);
    at(u16_1, v8 + 6) = v788;
    at(u16_1, v8 + 8) = v787;
    at(u16_1, v8 + 10) = v786;
    v798 = 0; v800 = v8; v802 = 12u;
v797:;
    u32 v799 = bswap32(at(u32_1, v800)) + v798;
    u64 v803 = v802 - 4;
    if (!(v803 == 0)) { v798 = v799; v800 = v800 + 4; v802 = v803; goto v797; }
    v838 = v799; v841 = (((u32)v765) << 4) | 12u; v843 = 0;
v837:;
    u64 v845 = v843 * 12u;
    u32 v849 = at(u32, v20 + v845 + 4);
    u32 v851 = at(u32, v20 + v845 + 8);
    if (!(at(u8, v20 + v845) & 1)) goto v854;
    u64 v858 = at(u64, (u8 *)table_faed1f12 + (v843 << 3));
    if (!(v858 < 16u)) goto v861;
    at(u32, v5) = 841962319u;
    at(u32, v5 + 4) = 1885433187u;
    at(u32, v5 + 8) = 544503395u;
    at(u32, v5 + 12) = 1835495526u;
    at(u32, v5 + 16) = 1886609767u;
    at(u32, v5 + 20) = 1719233639u;
    at(u32, v5 + 24) = 1684104552u;
    at(u32, v5 + 28) = 1634035816u;
    at(u32, v5 + 32) = 2020896104u;
    at(u32, v5 + 36) = 1633906540u;
    at(u32, v5 + 40) = 1886937453u;
    at(u32, v5 + 44) = 1701667182u;
    at(u32, v5 + 48) = 1953722224u;
    at(u32, v5 + 52) = 1885696624u;
    at(u32, v5 + 56) = 1634035830u;
    at(u32, v5 + 60) = 2020896118u;
    v874 = v5 + (v858 << 2); goto v864;
v861:;
    if (!(v858 < 21u)) goto v867;
    at(u32, v6) = 1163084098u;
    at(u32, v6 + 4) = 1178944583u;
    at(u32, v6 + 8) = 1397706823u;
    at(u32, v6 + 12) = 1112888135u;
    at(u32, v6 + 16) = 1852990827u;
    v874 = v6 + (i64)(v858 << 2) - 64; goto v864;
v867:;
    at(u32, v7) = 1380013640u;
    at(u32, v7 + 4) = 1380013645u;
    at(u32, v7 + 8) = 1413567571u;
    at(u32, v7 + 12) = 1380013654u;
    at(u32, v7 + 16) = 1918989921u;
    at(u32, v7 + 20) = 1918989923u;
    at(u32, v7 + 24) = 1918989926u;
    at(u32, v7 + 28) = 1918989927u;
    v874 = v7 + (i64)(v858 << 2) - 84;
v864:;
    u32 v878 = v849 + v841;
    v881 = v878; v882 = ((v851 << 1) + v878) + bswap32(at(u32_1, v874)); goto v840;
v854:;
    v881 = v849 + v841; v882 = 0;
v840:;
    u32 v839 = v882 + v838;
    u64 v844 = v843 + 1;
    if (!(v844 == 29u)) { v838 = v839; v841 = v881 + (((u32)0 - v849) & 3); v843 = v844; goto v837; }
    memcpy(v17 + 3, v21, 348u);
    memcpy(v18 + 6, v19, 16u);
    at(u8, v0) = v2;
    memcpy(v0 + 1, v17, 351u);
    at(u16_1, v0 + 352) = v765;
    memcpy(v0 + 354, v18, 22u);
    at(u32_1, v0 + 376) = (u32)0xb1b0afbau - v839;
    at(u32_1, v0 + 380) = 0;
    return;
}

void font_write_size_file_size_092d(u8 *v0, u8 *v1) {
    _Alignas(8) u8 v3[16], v5[16];
    _Alignas(4) u8 v4[16];
    u32 v14, v16, v27, v28;
    u64 v40, v57, v80, v90, v94, v96;
    u16 v51, v60;
    font_join_union_UnionSource_next_run(v4, v1, 0);
    if (!(at(u8, v4) == 1)) { v27 = 0; v28 = 0; goto v9; }
    v14 = 0; v16 = 0;
v13:;
    u32 v19 = at(u32, v4 + 8);
    u32 v15 = v14 + 1;
    u32 v17 = ((at(u32, v4 + 4) + v16) + v19) + ((u32)at(u16, v4 + 12));
    font_join_union_UnionSource_next_run(v4, v1, v19 + 1);
    if (at(u8, v4) == 1) { v14 = v15; v16 = v17; goto v13; }
    v27 = v17; v28 = v15;
v9:;
    u16 v32 = at(u16, at(ptr, v1 + 8) + 64);
    if (v32 == 0) { v51 = 0; goto v34; }
    u8 *v37 = at(ptr, v1 + 712);
    u64 v38 = (u64)v32;
    v40 = 0;
v39:;
    if (!(at(u8, v37 + (i64)(v40 * 24u)) & 1)) goto v42;
    v51 = (u16)v40;
v34:;
    if (!(v51 < v32)) { v90 = 0; goto v50; }
    u8 *v55 = at(ptr, v1 + 712);
    v57 = 0; v60 = v51;
v56:;
    u64 v63 = ((u64)v60) * 24u;
    u64 v70 = (at(u8, v55 + (i64)v63) == 1) ? at(u64_1, v55 + (i64)v63 + 16) : 0;
    u64 v58 = (((((u64)0 - v70) & 3) + v70) & 0xffffffffu) + v57;
    u16 v75 = (u16)(v60 + 1);
    if (!(v75 < v32)) { v90 = v58; goto v50; }
    v80 = (u64)v75;
v79:;
    if (!(at(u8, v55 + (i64)(v80 * 24u)) & 1)) goto v82;
    u16 v61 = (u16)v80;
    if (v32 > v61) { v57 = v58; v60 = v61; goto v56; }
    v90 = v58; goto v50;
v82:;
    u64 v81 = v80 + 1;
    if (v32 == ((u16)v81)) { v90 = v58; goto v50; }
    v80 = v81; goto v79;
v42:;
    u64 v41 = v40 + 1;
    if (v41 == v38) v90 = 0; else { v40 = v41; goto v39; }
v50:;
    at(u32, v3) = v28;
    at(u32, v3 + 4) = v27;
    at(u64, v3 + 8) = v90;
    v94 = 12u; v96 = 0;
v93:;
    u8_u64 v101 = font_write_size_table_length_895b(v1, v3, at(u64, (u8 *)table_faed1f12 + (v96 << 3)));
    u64 v104 = v101._1;
    u64 v95 = ((v101._0 == 1) ? ((v104 + 16u) + (((u64)0 - v104) & 3)) : 0) + v94;
    u64 v97 = v96 + 1;
    if (!(v97 == 29u)) { v94 = v95; v96 = v97; goto v93; }
    memcpy(v5, v3, 16u);
    memcpy(v0, v5, 16u);
    at(u64_1, v0 + 16) = v95;
    return;
}

void font_write_size_file_size_22d8(u8 *v0, u8 *v1) {
    _Alignas(8) u8 v3[16], v5[16];
    _Alignas(4) u8 v4[16];
    u32 v14, v16, v27, v28, v114, v115;
    u64 v46, v53, v66, v69, v76, v87, v90, v133, v140, v153, v156, v91, v165, v169, v171;
    u8x16 v55, v142;
    memset(v4, 0, 16u);
    font_subset_kind_source_CutOfKindSource_next_run(v4, v1, 0);
    if (!(at(u8, v4) == 1)) { v27 = 0; v28 = 0; goto v9; }
    v14 = 0; v16 = 0;
v13:;
    u32 v19 = at(u32, v4 + 8);
    u32 v15 = v14 + 1;
    u32 v17 = ((at(u32, v4 + 4) + v16) + v19) + ((u32)at(u16, v4 + 12));
    font_subset_kind_source_CutOfKindSource_next_run(v4, v1, v19 + 1);
    if (at(u8, v4) == 1) { v14 = v15; v16 = v17; goto v13; }
    v27 = v17; v28 = v15;
v9:;
    u8 *v30 = at(ptr, v1 + 8);
    u16 v32 = at(u16, v30 + 64);
    u8 *v34 = at(ptr, v1 + 168);
    u64 v36 = at(u64, v1 + 176);
    if (v36 == 0) { v66 = 0; goto v38; }
    if (at(u8, v34) & 1) { v76 = 0; goto v42; }
    if (v36 < 64u) { v66 = 0; goto v38; }
    v46 = 0;
v45:;
    if (v46 == 0xffffffffffffffc0u) goto v48;
    v53 = 0; v55 = (u8x16){0};
v52:;
    u8x16 v56 = v55 | ((-(at(u8x16_1, (v34 + (i64)v46) + (i64)v53) & 1)));
    u64 v54 = v53 + 16u;
    if (!(v54 == 64u)) { v53 = v54; v55 = v56; goto v52; }
    if (!(bits_u8x16(v56) == 0)) { v66 = v46; goto v38; }
v48:;
    u64 v47 = v46 + 64u;
    if ((v36 - v47) < 64u) v66 = v47; else { v46 = v47; goto v45; }
v38:;
    if (v66 < v36) v69 = v66; else { v76 = v36; goto v42; }
v68:;
    if (at(u8, v34 + v69) & 1) { v76 = v69; goto v42; }
    u64 v70 = v69 + 1;
    if (v70 == v36) v76 = v36; else { v69 = v70; goto v68; }
v42:;
    if (!(v32 > ((u16)v76))) { v165 = 0; goto v80; }
    u8 *v84 = at(ptr_1, v30 + 32);
    flag v85 = at(u8, v30 + 70) == 0;
    v87 = 0; v90 = v76;
v86:;
    u64 v92 = v90 & 65535u;
    if (!v85) goto v94;
    u64 v95 = v92 << 1;
    v114 = ((u32)bswap16(at(u16_1, v84 + (i64)v95))) << 1; v115 = ((u32)bswap16(at(u16_1, v84 + (i64)v95 + 2))) << 1; goto v106;
v94:;
    u64 v107 = v92 << 2;
    v114 = bswap32(at(u32_1, v84 + (i64)v107)); v115 = bswap32(at(u32_1, v84 + (i64)v107 + 4));
v106:;
    u32 v116 = v115 - v114;
    u64 v88 = v87 + ((u64)((((u32)0 - v116) & 3) + v116));
    u64 v122 = (v90 + 1) & 65535u;
    if (!(v36 > v122)) goto v125;
    if (at(u8, v34 + v122) & 1) { v91 = v122; goto v89; }
v125:;
    if ((v36 - v122) < 64u) { v153 = v122; goto v131; }
    v133 = v122;
v132:;
    if (!(v133 < 0xffffffffffffffc0u)) goto v135;
    v140 = 0; v142 = (u8x16){0};
v139:;
    u8x16 v143 = v142 | ((-(at(u8x16_1, (v34 + (i64)v133) + (i64)v140) & 1)));
    u64 v141 = v140 + 16u;
    if (!(v141 == 64u)) { v140 = v141; v142 = v143; goto v139; }
    if (!(bits_u8x16(v143) == 0)) { v153 = v133; goto v131; }
v135:;
    u64 v134 = v133 + 64u;
    if ((v36 - v134) < 64u) v153 = v134; else { v133 = v134; goto v132; }
v131:;
    if (v153 < v36) v156 = v153; else { v91 = v36; goto v89; }
v155:;
    if (at(u8, v34 + v156) & 1) { v91 = v156; goto v89; }
    u64 v157 = v156 + 1;
    if (v157 == v36) v91 = v36; else { v156 = v157; goto v155; }
v89:;
    if (v32 > ((u16)v91)) { v87 = v88; v90 = v91; goto v86; }
    v165 = v88;
v80:;
    at(u32, v3) = v28;
    at(u32, v3 + 4) = v27;
    at(u64, v3 + 8) = v165;
    v169 = 12u; v171 = 0;
v168:;
    u8_u64 v176 = font_write_size_table_length_a65d(v1, 1, v3, at(u64, (u8 *)table_faed1f12 + (v171 << 3)));
    u64 v179 = v176._1;
    u64 v170 = ((v176._0 == 1) ? ((v179 + 16u) + (((u64)0 - v179) & 3)) : 0) + v169;
    u64 v172 = v171 + 1;
    if (!(v172 == 29u)) { v169 = v170; v171 = v172; goto v168; }
    memcpy(v5, v3, 16u);
    memcpy(v0, v5, 16u);
    at(u64_1, v0 + 16) = v170;
    return;
}

static u8_u64 font_write_size_table_length_895b(u8 *v0, u8 *v1, u64 v2) {
    _Alignas(8) u8 v5[24];
    u8 *v29, v93;
    u32 v34, v35;
    u64 v57, v94;
    u32 v4 = at(u32_1, v1);
    switch (v2) {
    case 1: goto v7;
    case 5: goto v8;
    case 6: goto v9;
    case 9: goto v10;
    default: goto v6;
    }
v6:;
    font_join_union_UnionSource_copied(v5, v0, v2);
    u8 v88 = at(u8, v5);
    v93 = v88; v94 = (v88 == 1) ? at(u64, v5 + 16) : 0; goto v40;
v7:;
    if (!(at(u8, v0 + 312) == 1)) goto v15;
    if (at(u8, v0) == 0) { v29 = v0 + 328; goto v19; }
    goto v20;
v15:;
    if (at(u8, v0) == 0) { v34 = 0; v35 = 36u; goto v23; }
v20:;
    if (!(at(u8, v0 + 872) == 1)) { v34 = 0; v35 = 36u; goto v23; }
    v29 = v0 + 888;
v19:;
    u64 v30 = at(u64, v29);
    v34 = (u32)v30; v35 = (v30 == 0) ? 36u : 44u;
v23:;
    v93 = 1; v94 = (u64)((v34 + (v4 * 12u)) + v35); goto v40;
v8:;
    u64 v42 = at(u64_1, v1 + 8);
    v93 = 1; v94 = ((v42 == 0) ? 4 : 0) + v42; goto v40;
v9:;
    u8 *v48 = at(ptr_1, at(ptr, v0 + 8));
    u16 v50 = at(u16_1, v48 + 4);
    u64 v52 = (u64)bswap16(v50);
    if (v50 == 0) { v93 = 1; v94 = 0; goto v40; }
    v57 = 0;
v54:;
    u64 v59 = v57 << 4;
    if (!((((at(u8, v48 + (i64)v59 + 12) == 104u) & (at(u8, v48 + (i64)v59 + 13) == 101u)) & (at(u8, v48 + (i64)v59 + 14) == 97u)) & (at(u8, v48 + (i64)v59 + 15) == 100u))) goto v55;
    v93 = 1; v94 = (u64)bswap32(at(u32_1, v48 + (i64)v59 + 24)); goto v40;
v55:;
    u64 v56 = v57 + 1;
    if (v56 == v52) { v93 = 1; v94 = 0; goto v40; }
    v57 = v56; goto v54;
v10:;
    v93 = 1; v94 = (((u64)at(u16, at(ptr, v0 + 8) + 64)) << 2) + 4;
v40:;
    return (u8_u64){v93, v94};
}

static u8_u64 font_write_size_table_length_a65d(u8 *v0, u8 v1, u8 *v2, u64 v3) {
    _Alignas(8) u8 v6[24];
    u8 *v34, v102;
    u32 v41, v42;
    u64 v66, v103;
    u32 v5 = at(u32_1, v2);
    switch (v3) {
    case 1: goto v8;
    case 5: goto v9;
    case 6: goto v10;
    case 9: goto v11;
    default: goto v7;
    }
v7:;
    font_subset_kind_source_CutOfKindSource_copied(v6, v0, v3);
    u8 v97 = at(u8, v6);
    v102 = v97; v103 = (v97 == 1) ? at(u64, v6 + 16) : 0; goto v47;
v8:;
    if (!(at(u8, v0 + 320) == 1)) goto v16;
    v34 = v0 + 336; goto v18;
v16:;
    if (!(at(u8, v0 + 112) == 1)) goto v23;
    u8 *v25 = at(ptr, v0 + 120);
    if (!(at(u8, v25 + 312) == 1)) goto v23;
    v34 = v25 + 328;
v18:;
    u64 v35 = at(u64, v34);
    v41 = (u32)v35; v42 = (v35 == 0) ? ((v1 == 0) ? 28u : 36u) : 44u; goto v33;
v23:;
    v41 = 0; v42 = (v1 == 0) ? 28u : 36u;
v33:;
    v102 = 1; v103 = (u64)((v41 + (v5 * 12u)) + v42); goto v47;
v9:;
    u64 v49 = at(u64_1, v2 + 8);
    v102 = 1; v103 = ((v1 == 0) ? 0 : ((v49 == 0) ? 4 : 0)) + v49; goto v47;
v10:;
    u8 *v57 = at(ptr_1, at(ptr, v0 + 8));
    u16 v59 = at(u16_1, v57 + 4);
    u64 v61 = (u64)bswap16(v59);
    if (v59 == 0) { v102 = 1; v103 = 0; goto v47; }
    v66 = 0;
v63:;
    u64 v68 = v66 << 4;
    if (!((((at(u8, v57 + (i64)v68 + 12) == 104u) & (at(u8, v57 + (i64)v68 + 13) == 101u)) & (at(u8, v57 + (i64)v68 + 14) == 97u)) & (at(u8, v57 + (i64)v68 + 15) == 100u))) goto v64;
    v102 = 1; v103 = (u64)bswap32(at(u32_1, v57 + (i64)v68 + 24)); goto v47;
v64:;
    u64 v65 = v66 + 1;
    if (v65 == v61) { v102 = 1; v103 = 0; goto v47; }
    v66 = v65; goto v63;
v11:;
    v102 = 1; v103 = (((u64)at(u16, at(ptr, v0 + 8) + 64)) << 2) + 4;
v47:;
    return (u8_u64){v102, v103};
}

static flag font_write_whole_file_is_whole_file(u8 *v0, u8 v1, u8 *v2, u8 *v3, u64 v4) {
    _Alignas(4) u8 v6[4], v7[4], v8[1024], v9[16], v10[1024], v13[4], v14[12], v15[64], v16[20], v17[32], v18[12];
    _Alignas(8) u8 v11[56], v12[24], v19[24], v20[384], v21[384];
    u16 v45, v46, v47, v1111, v1113;
    u64 v62, v81, v90, v126, v129, v133, v173, v192, v201, v203, v216, v234, v243, v127, v130, v337, v338, v335, v1173, v1191, v1200, v367, v396, v415, v424, v432, v442, v434, v469, v487, v431, v508, v526, v535, v553, v560, v573, v576, v583, v596, v599, v625, v626, v638, v656, v665, v677, v687, v694, v709, v716, v729, v732, v600, v741, v751, v768, v775, v789, v820, v829, v848, v857, v870, v889, v898, v900, v911, v930, v939, v948, v961, v970, v984, v1002, v1011, v1025, v1032, v1045, v1048, v1055, v1068, v1087, v1096, v1099, v1106, v1129, v1147, v1156, v1203, v333, v1217, v1227, v332;
    u32 v131, v436, v439, v437, v1109;
    u8 *v162, *v366, *v819;
    u8x16 v562, v718, v1034;
    memcpy(v19, v2, 24u);
    memset(v21, 0, 384u);
    if (!(at(u64, v19 + 16) == v4)) return 0;
    font_write_plan_plan_of(v21, v0, v1, v19);
    memcpy(v20, v21, 384u);
    u16 v32 = at(u16, v20 + 352);
    if (!(((u16)(v32 + 65535u)) < 4095u)) { v45 = 0; v46 = 0; v47 = 0; goto v36; }
    u16 v38 = (u16)(ctlz16(v32) ^ 15u);
    u16 v39 = (u16)((u32)16u << (v38 & 31));
    v45 = bswap16((u16)(((u16)((u32)v32 << 4)) - v39)); v46 = (u16)((u32)v38 << 8); v47 = bswap16(v39);
v36:;
    at(u8, v18) = 0;
    at(u8, v18 + 1) = 1;
    at(u8, v18 + 2) = 0;
    at(u8, v18 + 3) = 0;
    at(u16, v18 + 4) = bswap16(v32);
    at(u16, v18 + 6) = v47;
    at(u16, v18 + 8) = v46;
    at(u16, v18 + 10) = v45;
    u64 v56 = umin64(v4, 12u);
    if (!(v4 < 4)) goto v59;
    if (v4 == 0) goto v28;
    v62 = 0;
v61:;
    if (!(at(u8, v3 + (i64)v62) == at(u8, v18 + (i64)v62))) goto v70;
    u64 v63 = v62 + 1;
    if (v63 == v56) { v90 = v56; goto v72; }
    v62 = v63; goto v61;
v70:;
    if (v62 < v56) goto v74;
    v90 = v56; goto v72;
v59:;
    if (!(at(u32_1, v3) == at(u32, v18))) goto v74;
    if (core_cmp_slices_groups_equal(v3, v56, v18)) { v90 = v56; goto v72; }
v74:;
    v81 = 0;
v80:;
    if (!(at(u8, v3 + v81) == at(u8, v18 + v81))) { v90 = v81; goto v72; }
    u64 v82 = v81 + 1;
    if (v82 == v56) v90 = v56; else { v81 = v82; goto v80; }
v72:;
    if (v90 < 12u) goto v28;
    v126 = v90; v129 = v90; v131 = (((u32)v32) << 4) | 12u; v133 = 0;
v125:;
    u64 v135 = v133 * 12u;
    u32 v139 = at(u32, (v20 + 4) + v135 + 4);
    u32 v141 = at(u32, (v20 + 4) + v135 + 8);
    if (!(at(u8, (v20 + 4) + v135) & 1)) { v127 = v126; v130 = v129; goto v128; }
    u64 v146 = at(u64, (u8 *)table_faed1f12 + (v133 << 3));
    if (!(v146 < 16u)) goto v149;
    at(u32, v15) = 841962319u;
    at(u32, v15 + 4) = 1885433187u;
    at(u32, v15 + 8) = 544503395u;
    at(u32, v15 + 12) = 1835495526u;
    at(u32, v15 + 16) = 1886609767u;
    at(u32, v15 + 20) = 1719233639u;
    at(u32, v15 + 24) = 1684104552u;
    at(u32, v15 + 28) = 1634035816u;
    at(u32, v15 + 32) = 2020896104u;
    at(u32, v15 + 36) = 1633906540u;
    at(u32, v15 + 40) = 1886937453u;
    at(u32, v15 + 44) = 1701667182u;
    at(u32, v15 + 48) = 1953722224u;
    at(u32, v15 + 52) = 1885696624u;
    at(u32, v15 + 56) = 1634035830u;
    at(u32, v15 + 60) = 2020896118u;
    v162 = v15 + (v146 << 2); goto v152;
v149:;
    if (!(v146 < 21u)) goto v155;
    at(u32, v16) = 1163084098u;
    at(u32, v16 + 4) = 1178944583u;
    at(u32, v16 + 8) = 1397706823u;
    at(u32, v16 + 12) = 1112888135u;
    at(u32, v16 + 16) = 1852990827u;
    v162 = v16 + (i64)(v146 << 2) - 64; goto v152;
v155:;
    at(u32, v17) = 1380013640u;
    at(u32, v17 + 4) = 1380013645u;
    at(u32, v17 + 8) = 1413567571u;
    at(u32, v17 + 12) = 1380013654u;
    at(u32, v17 + 16) = 1918989921u;
    at(u32, v17 + 20) = 1918989923u;
    at(u32, v17 + 24) = 1918989926u;
    at(u32, v17 + 28) = 1918989927u;
    v162 = v17 + (i64)(v146 << 2) - 84;
v152:;
    u32 v163 = at(u32_1, v162);
    at(u32, v13) = v163;
    u64 v165 = v4 - v129;
    u64 v166 = umin64(v165, 4);
    if (!(v165 < 4)) goto v169;
    if (v4 == v129) goto v171;
    v173 = 0;
v172:;
    if (!(at(u8, (v3 + (i64)v129) + (i64)v173) == at(u8, v13 + (i64)v173))) goto v181;
    u64 v174 = v173 + 1;
    if (v174 == v166) { v201 = v166; goto v183; }
    v173 = v174; goto v172;
v181:;
    if (v173 < v166) goto v185;
    v201 = v166; goto v183;
v169:;
    if (!(at(u32_1, v3 + (i64)v129) == v163)) goto v185;
    if (core_cmp_slices_groups_equal(v3 + (i64)v129, v166, v13)) { v203 = v166; goto v190; }
v185:;
    v192 = 0;
v191:;
    if (!(at(u8, (v3 + (i64)v129) + v192) == at(u8, v13 + v192))) { v201 = v192; goto v183; }
    u64 v193 = v192 + 1;
    if (v193 == v166) v201 = v166; else { v192 = v193; goto v191; }
v183:;
    if (v201 < 4) goto v171;
    v203 = v201;
v190:;
    u64 v204 = v203 + v129;
    u32 v205 = bswap32(v141);
    at(u32, v14) = v205;
    at(u32, v14 + 4) = bswap32(v131);
    at(u32, v14 + 8) = bswap32(v139);
    u64 v209 = v4 - v204;
    u64 v210 = umin64(v209, 12u);
    if (!(v209 < 4)) goto v213;
    if (v4 == v204) goto v171;
    v216 = 0;
v215:;
    if (!(at(u8, (v3 + (i64)v204) + (i64)v216) == at(u8, v14 + (i64)v216))) goto v224;
    u64 v217 = v216 + 1;
    if (v217 == v210) { v243 = v210; goto v226; }
    v216 = v217; goto v215;
v224:;
    if (v216 < v210) goto v228;
    v243 = v210; goto v226;
v213:;
    if (!(at(u32_1, v3 + (i64)v204) == v205)) goto v228;
    if (core_cmp_slices_groups_equal(v3 + (i64)v204, v210, v14)) { v243 = v210; goto v226; }
v228:;
    v234 = 0;
v233:;
    if (!(at(u8, (v3 + (i64)v204) + v234) == at(u8, v14 + v234))) { v243 = v234; goto v226; }
    u64 v235 = v234 + 1;
    if (v235 == v210) v243 = v210; else { v234 = v235; goto v233; }
v226:;
    if (!(v243 < 12u)) goto v245;
v171:;
    goto v28;
v245:;
    u64 v246 = v243 + v204;
    v127 = v246; v130 = v246;
v128:;
    u64 v134 = v133 + 1;
    if (!(v134 == 29u)) { v126 = v127; v129 = v130; v131 = (v139 + v131) + (((u32)0 - v139) & 3); v133 = v134; goto v125; }
    u32 v299 = bswap32(at(u32, v20 + 376));
    flag v302 = at(u8, v20) == 0;
    u64 v305 = v302 ? 0 : ((at(u64, v20 + 368) == 0) ? 4 : 0);
    u32 v306 = at(u32, v20 + 360);
    u32 v307 = v306 * 12u;
    u32 v309 = bswap32(v307 + 16u);
    u32 v310 = bswap32(v306);
    u32 v312 = bswap32(v307 + 44u);
    u8 v313 = v302 ? 1 : 2;
    u8 v314 = v302 ? 12u : 20u;
    u8 v315 = v302 ? 12u : 3;
    u8 v316 = v302 ? 0 : 10u;
    u8 v317 = v302 ? 0 : 12u;
    u32 v318 = v302 ? v310 : v309;
    u8 v319 = (u8)v318;
    u8 v321 = (u8)(v318 >> 8);
    u8 v323 = (u8)(v318 >> 16u);
    u8 v325 = (u8)(v318 >> 24u);
    u64 v326 = v302 ? 28u : 36u;
    u32 v327 = v302 ? v309 : 335544320u;
    u32 v328 = v302 ? 0 : v310;
    v337 = v127; v338 = v130; v335 = 0;
v329:;
    u64 v341 = at(u64, (u8 *)table_faed1f12 + (v335 << 3));
    memset(v12, 0, 24u);
    switch (v341) {
    case 1: goto v343;
    case 5: goto v344;
    case 6: goto v345;
    case 9: goto v346;
    default: goto v342;
    }
v342:;
    font_subset_kind_source_CutOfKindSource_copied(v12, v0, v341);
    if (!(at(u8, v12) == 1)) { v333 = v337; goto v538; }
    u8 *v1162 = at(ptr, v12 + 8);
    u64 v1163 = at(u64, v12 + 16);
    u64 v1166 = umin64(v1163, v4 - v337);
    if (!(v1166 < 4)) goto v1169;
    if (v1166 == 0) { v1200 = 0; goto v1171; }
    v1173 = 0;
v1172:;
    if (!(at(u8, (v3 + (i64)v337) + (i64)v1173) == at(u8, v1162 + (i64)v1173))) goto v1181;
    u64 v1174 = v1173 + 1;
    if (v1174 == v1166) { v1200 = v1166; goto v1171; }
    v1173 = v1174; goto v1172;
v1181:;
    if (v1173 < v1166) goto v1184;
    v1200 = v1166; goto v1171;
v1169:;
    if (!(at(u32_1, v3 + (i64)v337) == at(u32_1, v1162))) goto v1184;
    if (core_cmp_slices_groups_equal(v3 + (i64)v337, v1166, v1162)) { v1200 = v1166; goto v1171; }
v1184:;
    v1191 = 0;
v1190:;
    if (!(at(u8, (v3 + (i64)v337) + v1191) == at(u8, v1162 + v1191))) { v1200 = v1191; goto v1171; }
    u64 v1192 = v1191 + 1;
    if (v1192 == v1166) v1200 = v1166; else { v1191 = v1192; goto v1190; }
v1171:;
    if (v1200 < v1163) goto v498;
    v333 = v1200 + v337; goto v538;
v343:;
    if (!(at(u8, v0 + 320) == 1)) goto v350;
    v366 = at(ptr, v0 + 328); v367 = at(u64, v0 + 336); goto v353;
v350:;
    if (!(at(u8, v0 + 112) == 1)) { v366 = (u8 *)table_55ba7287; v367 = 0; goto v353; }
    u8 *v357 = at(ptr, v0 + 120);
    if (!(at(u8, v357 + 312) == 1)) { v366 = (u8 *)table_55ba7287; v367 = 0; goto v353; }
    v366 = at(ptr, v357 + 320); v367 = at(u64, v357 + 328);
v353:;
    flag v368 = v367 == 0;
    flag v370 = v368 ? v302 : 0;
    u64 v386 = v368 ? v326 : 44u;
    at(u8, v11) = 0;
    at(u8, v11 + 1) = 0;
    at(u8, v11 + 2) = 0;
    at(u8, v11 + 3) = v368 ? v313 : 3;
    at(u8, v11 + 4) = 0;
    at(u8, v11 + 5) = v370 ? 3 : 0;
    at(u8, v11 + 6) = 0;
    at(u8, v11 + 7) = v370 ? 10u : 4;
    at(u8, v11 + 8) = 0;
    at(u8, v11 + 9) = 0;
    at(u8, v11 + 10) = 0;
    at(u8, v11 + 11) = v368 ? v314 : 28u;
    at(u8, v11 + 12) = 0;
    at(u8, v11 + 13) = v368 ? v315 : 0;
    at(u8, v11 + 14) = 0;
    at(u8, v11 + 15) = v368 ? v316 : 5;
    at(u32, v11 + 16) = v368 ? v327 : v312;
    at(u8, v11 + 20) = 0;
    at(u8, v11 + 21) = v368 ? v317 : 3;
    at(u8, v11 + 22) = 0;
    at(u8, v11 + 23) = v368 ? 0 : 10u;
    at(u8, v11 + 24) = v368 ? v319 : 0;
    at(u8, v11 + 25) = v368 ? v321 : 0;
    at(u8, v11 + 26) = v368 ? v323 : 0;
    at(u8, v11 + 27) = v368 ? v325 : 28u;
    at(u32, v11 + 28) = v368 ? 0 : 3072u;
    at(u32, v11 + 32) = v368 ? v328 : v309;
    at(u32, v11 + 36) = 0;
    at(u32, v11 + 40) = v368 ? 0 : v310;
    at(u32, v11 + 44) = 0;
    at(u64, v11 + 48) = v386;
    u64 v388 = v4 - v338;
    u64 v389 = umin64(v386, v388);
    if (!(v388 < 4)) goto v392;
    if (v4 == v338) goto v394;
    v396 = 0;
v395:;
    if (!(at(u8, (v3 + (i64)v338) + (i64)v396) == at(u8, v11 + (i64)v396))) goto v404;
    u64 v397 = v396 + 1;
    if (v397 == v389) { v424 = v389; goto v406; }
    v396 = v397; goto v395;
v404:;
    if (v396 < v389) goto v408;
    v424 = v389; goto v406;
v392:;
    if (!(at(u32_1, v3 + (i64)v338) == at(u32, v11))) goto v408;
    if (core_cmp_slices_groups_equal(v3 + (i64)v338, v389, v11)) { v424 = v389; goto v406; }
v408:;
    v415 = 0;
v414:;
    if (!(at(u8, (v3 + (i64)v338) + v415) == at(u8, v11 + v415))) { v424 = v415; goto v406; }
    u64 v416 = v415 + 1;
    if (v416 == v389) v424 = v389; else { v415 = v416; goto v414; }
v406:;
    if (!(v424 < v386)) goto v426;
v394:;
    goto v498;
v426:;
    memset(v10, 0, 1024u);
    v432 = v424 + v338; v436 = 0;
v428:;
    memset(v9, 0, 16u);
    v439 = v436; v442 = 0;
v438:;
    font_subset_kind_source_CutOfKindSource_next_run(v9, v0, v439);
    if (!(at(u8, v9) == 1)) { v437 = v439; v434 = v442; goto v446; }
    u32 v448 = at(u32, v9 + 8);
    u64 v450 = v442 * 12u;
    u16 v449 = at(u16, v9 + 12);
    at(u32, v10 + v450) = bswap32(at(u32, v9 + 4));
    at(u32, v10 + v450 + 4) = bswap32(v448);
    at(u32, v10 + v450 + 8) = bswap32((u32)v449);
    u32 v440 = v448 + 1;
    u64 v443 = v442 + 1;
    if (v443 == 85u) { v437 = v440; v434 = 85u; } else { v439 = v440; v442 = v443; goto v438; }
v446:;
    u64 v459 = v434 * 12u;
    u64 v462 = umin64(v459, v4 - v432);
    if (!(v462 < 4)) goto v465;
    if (v462 == 0) { v431 = 0; goto v467; }
    v469 = 0;
v468:;
    if (!(at(u8, (v3 + (i64)v432) + (i64)v469) == at(u8, v10 + (i64)v469))) goto v477;
    u64 v470 = v469 + 1;
    if (v470 == v462) { v431 = v462; goto v467; }
    v469 = v470; goto v468;
v477:;
    if (v469 < v462) goto v480;
    v431 = v462; goto v467;
v465:;
    if (!(at(u32_1, v3 + (i64)v432) == at(u32, v10))) goto v480;
    if (core_cmp_slices_groups_equal(v3 + (i64)v432, v462, v10)) { v431 = v462; goto v467; }
v480:;
    v487 = 0;
v486:;
    if (!(at(u8, (v3 + (i64)v432) + v487) == at(u8, v10 + v487))) { v431 = v487; goto v467; }
    u64 v488 = v487 + 1;
    if (v488 == v462) v431 = v462; else { v487 = v488; goto v486; }
v467:;
    if (!(v431 < v459)) goto v429;
    goto v498;
v429:;
    u64 v430 = v431 + v432;
    if (v434 == 85u) { v432 = v430; v436 = v437; goto v428; }
    u64 v501 = umin64(v367, v4 - v430);
    if (!(v501 < 4)) goto v504;
    if (v501 == 0) { v535 = 0; goto v506; }
    v508 = 0;
v507:;
    if (!(at(u8, (v3 + (i64)v430) + (i64)v508) == at(u8, v366 + (i64)v508))) goto v516;
    u64 v509 = v508 + 1;
    if (v509 == v501) { v535 = v501; goto v506; }
    v508 = v509; goto v507;
v516:;
    if (v508 < v501) goto v519;
    v535 = v501; goto v506;
v504:;
    if (!(at(u32_1, v3 + (i64)v430) == at(u32_1, v366))) goto v519;
    if (core_cmp_slices_groups_equal(v3 + (i64)v430, v501, v366)) { v535 = v501; goto v506; }
v519:;
    v526 = 0;
v525:;
    if (!(at(u8, (v3 + (i64)v430) + v526) == at(u8, v366 + v526))) { v535 = v526; goto v506; }
    u64 v527 = v526 + 1;
    if (v527 == v501) v535 = v501; else { v526 = v527; goto v525; }
v506:;
    if (v535 < v367) goto v498;
    v333 = v535 + v430; goto v538;
v344:;
    u8 *v539 = at(ptr, v0 + 8);
    u16 v541 = at(u16, v539 + 64);
    u8 *v542 = at(ptr, v0 + 168);
    u64 v543 = at(u64, v0 + 176);
    if (v543 == 0) { v573 = 0; goto v545; }
    if (at(u8, v542) & 1) { v583 = 0; goto v549; }
    if (v543 < 64u) { v573 = 0; goto v545; }
    v553 = 0;
v552:;
    if (v553 == 0xffffffffffffffc0u) goto v555;
    v560 = 0; v562 = (u8x16){0};
v559:;
    u8x16 v563 = v562 | ((-(at(u8x16_1, (v542 + (i64)v553) + (i64)v560) & 1)));
    u64 v561 = v560 + 16u;
    if (!(v561 == 64u)) { v560 = v561; v562 = v563; goto v559; }
    if (!(bits_u8x16(v563) == 0)) { v573 = v553; goto v545; }
v555:;
    u64 v554 = v553 + 64u;
    if ((v543 - v554) < 64u) v573 = v554; else { v553 = v554; goto v552; }
v545:;
    if (v573 < v543) v576 = v573; else { v583 = v543; goto v549; }
v575:;
    if (at(u8, v542 + v576) & 1) { v583 = v576; goto v549; }
    u64 v577 = v576 + 1;
    if (v577 == v543) v583 = v543; else { v576 = v577; goto v575; }
v549:;
    if (!(v541 > ((u16)v583))) { v741 = v338; goto v587; }
    u8 *v591 = at(ptr_1, v539 + 32);
    u8 *v593 = at(ptr_1, v539 + 48);
    flag v594 = at(u8, v539 + 70) == 0;
    v596 = v338; v599 = v583;
v595:;
    u64 v601 = v599 & 65535u;
    if (!v594) goto v603;
    u64 v604 = v601 << 1;
    v625 = ((u64)bswap16(at(u16_1, v591 + (i64)v604))) << 1; v626 = ((u64)bswap16(at(u16_1, v591 + (i64)v604 + 2))) << 1; goto v615;
v603:;
    u64 v616 = v601 << 2;
    v625 = (u64)bswap32(at(u32_1, v591 + (i64)v616)); v626 = (u64)bswap32(at(u32_1, v591 + (i64)v616 + 4));
v615:;
    u64 v628 = v626 - v625;
    u64 v631 = umin64(v628, v4 - v596);
    if (!(v631 < 4)) goto v634;
    if (v631 == 0) { v665 = 0; goto v636; }
    v638 = 0;
v637:;
    if (!(at(u8, (v3 + (i64)v596) + (i64)v638) == at(u8, (v593 + (i64)v625) + (i64)v638))) goto v646;
    u64 v639 = v638 + 1;
    if (v639 == v631) { v665 = v631; goto v636; }
    v638 = v639; goto v637;
v646:;
    if (v638 < v631) goto v649;
    v665 = v631; goto v636;
v634:;
    if (!(at(u32_1, v3 + (i64)v596) == at(u32_1, v593 + (i64)v625))) goto v649;
    if (core_cmp_slices_groups_equal(v3 + (i64)v596, v631, v593 + (i64)v625)) { v665 = v631; goto v636; }
v649:;
    v656 = 0;
v655:;
    if (!(at(u8, (v3 + (i64)v596) + v656) == at(u8, (v593 + (i64)v625) + v656))) { v665 = v656; goto v636; }
    u64 v657 = v656 + 1;
    if (v657 == v631) v665 = v631; else { v656 = v657; goto v655; }
v636:;
    u64 v666 = v665 + v596;
    if (v665 < v628) goto v498;
    u64 v670 = ((u64)0 - v628) & 3;
    u64 v673 = umin64(v670, v4 - v666);
    if (v673 == 0) { v694 = 0; goto v675; }
    v677 = 0;
v676:;
    if (!(at(u8, (v3 + (i64)v666) + (i64)v677) == 0)) goto v683;
    u64 v678 = v677 + 1;
    if (v678 == v673) { v694 = v673; goto v675; }
    v677 = v678; goto v676;
v683:;
    if (v677 < v673) v687 = 0; else { v694 = v673; goto v675; }
v686:;
    if (!(at(u8, (v3 + (i64)v666) + v687) == 0)) { v694 = v687; goto v675; }
    u64 v688 = v687 + 1;
    if (v688 == v673) v694 = v673; else { v687 = v688; goto v686; }
v675:;
    u64 v597 = v694 + v666;
    if (v694 < v670) goto v498;
    u64 v698 = (v599 + 1) & 65535u;
    if (!(v543 > v698)) goto v701;
    if (at(u8, v542 + v698) & 1) { v600 = v698; goto v598; }
v701:;
    if ((v543 - v698) < 64u) { v729 = v698; goto v707; }
    v709 = v698;
v708:;
    if (!(v709 < 0xffffffffffffffc0u)) goto v711;
    v716 = 0; v718 = (u8x16){0};
v715:;
    u8x16 v719 = v718 | ((-(at(u8x16_1, (v542 + (i64)v709) + (i64)v716) & 1)));
    u64 v717 = v716 + 16u;
    if (!(v717 == 64u)) { v716 = v717; v718 = v719; goto v715; }
    if (!(bits_u8x16(v719) == 0)) { v729 = v709; goto v707; }
v711:;
    u64 v710 = v709 + 64u;
    if ((v543 - v710) < 64u) v729 = v710; else { v709 = v710; goto v708; }
v707:;
    if (v729 < v543) v732 = v729; else { v600 = v543; goto v598; }
v731:;
    if (at(u8, v542 + v732) & 1) { v600 = v732; goto v598; }
    u64 v733 = v732 + 1;
    if (v733 == v543) v600 = v543; else { v732 = v733; goto v731; }
v598:;
    if (v541 > ((u16)v600)) { v596 = v597; v599 = v600; goto v595; }
    v741 = v597;
v587:;
    u64 v744 = umin64(v305, v4 - v741);
    if (!(v744 < 4)) goto v747;
    if (v744 == 0) { v775 = 0; goto v749; }
    v751 = 0;
v750:;
    if (!(at(u8, (v3 + (i64)v741) + (i64)v751) == 0)) goto v757;
    u64 v752 = v751 + 1;
    if (v752 == v744) { v775 = v744; goto v749; }
    v751 = v752; goto v750;
v757:;
    if (v751 < v744) goto v760;
    v775 = v744; goto v749;
v747:;
    if (!(at(u32_1, v3 + (i64)v741) == 0)) goto v760;
    if (!core_cmp_slices_groups_equal(v3 + (i64)v741, 4, (u8 *)table_18327a07)) goto v760;
    v333 = v741 + 4; goto v538;
v760:;
    v768 = 0;
v761:;
    if (!(at(u8, (v3 + (i64)v741) + v768) == 0)) { v775 = v768; goto v749; }
    u64 v769 = v768 + 1;
    if (v769 == v744) v775 = v744; else { v768 = v769; goto v761; }
v749:;
    if (v775 < v305) goto v498;
    v333 = v775 + v741; goto v538;
v345:;
    u8 *v779 = at(ptr_1, at(ptr, v0 + 8));
    u16 v781 = at(u16_1, v779 + 4);
    u64 v783 = (u64)bswap16(v781);
    if (v781 == 0) { v819 = (u8 *)table_55ba7287; v820 = 0xffffffffffffffccu; goto v785; }
    v789 = 0;
v786:;
    u64 v791 = v789 << 4;
    if (!((((at(u8, v779 + (i64)v791 + 12) == 104u) & (at(u8, v779 + (i64)v791 + 13) == 101u)) & (at(u8, v779 + (i64)v791 + 14) == 97u)) & (at(u8, v779 + (i64)v791 + 15) == 100u))) goto v787;
    v819 = v779 + (i64)((u64)bswap32(at(u32_1, v779 + (i64)v791 + 20))); v820 = ((u64)bswap32(at(u32_1, v779 + (i64)v791 + 24))) - 52u; goto v785;
v787:;
    u64 v788 = v789 + 1;
    if (v788 == v783) { v819 = (u8 *)table_55ba7287; v820 = 0xffffffffffffffccu; } else { v789 = v788; goto v786; }
v785:;
    u64 v822 = v4 - v338;
    u64 v823 = umin64(v822, 8);
    if (!(v822 < 4)) goto v826;
    if (v4 == v338) goto v498;
    v829 = 0;
v828:;
    if (!(at(u8, (v3 + (i64)v338) + (i64)v829) == at(u8, v819 + (i64)v829))) goto v837;
    u64 v830 = v829 + 1;
    if (v830 == v823) { v857 = v823; goto v839; }
    v829 = v830; goto v828;
v837:;
    if (v829 < v823) goto v841;
    v857 = v823; goto v839;
v826:;
    if (!(at(u32_1, v3 + (i64)v338) == at(u32_1, v819))) goto v841;
    if (core_cmp_slices_groups_equal(v3 + (i64)v338, v823, v819)) { v857 = v823; goto v839; }
v841:;
    v848 = 0;
v847:;
    if (!(at(u8, (v3 + (i64)v338) + v848) == at(u8, v819 + v848))) { v857 = v848; goto v839; }
    u64 v849 = v848 + 1;
    if (v849 == v823) v857 = v823; else { v848 = v849; goto v847; }
v839:;
    u64 v858 = v857 + v338;
    if (v857 < 8) goto v498;
    at(u32, v6) = v299;
    u64 v862 = v4 - v858;
    u64 v863 = umin64(v862, 4);
    if (!(v862 < 4)) goto v866;
    if (v4 == v858) goto v868;
    v870 = 0;
v869:;
    if (!(at(u8, (v3 + (i64)v858) + (i64)v870) == at(u8, v6 + (i64)v870))) goto v878;
    u64 v871 = v870 + 1;
    if (v871 == v863) { v898 = v863; goto v880; }
    v870 = v871; goto v869;
v878:;
    if (v870 < v863) goto v882;
    v898 = v863; goto v880;
v866:;
    if (!(at(u32_1, v3 + (i64)v858) == v299)) goto v882;
    if (core_cmp_slices_groups_equal(v3 + (i64)v858, v863, v6)) { v900 = v863; goto v887; }
v882:;
    v889 = 0;
v888:;
    if (!(at(u8, (v3 + (i64)v858) + v889) == at(u8, v6 + v889))) { v898 = v889; goto v880; }
    u64 v890 = v889 + 1;
    if (v890 == v863) v898 = v863; else { v889 = v890; goto v888; }
v880:;
    if (!(v898 < 4)) { v900 = v898; goto v887; }
v868:;
    goto v498;
v887:;
    u64 v901 = v900 + v858;
    u64 v904 = v4 - v901;
    u64 v905 = umin64(v904, 38u);
    if (!(v904 < 4)) goto v908;
    if (v4 == v901) goto v498;
    v911 = 0;
v910:;
    if (!(at(u8, (v3 + (i64)v901) + (i64)v911) == at(u8, (v819 + 12) + (i64)v911))) goto v919;
    u64 v912 = v911 + 1;
    if (v912 == v905) { v939 = v905; goto v921; }
    v911 = v912; goto v910;
v919:;
    if (v911 < v905) goto v923;
    v939 = v905; goto v921;
v908:;
    if (!(at(u32_1, v3 + (i64)v901) == at(u32_1, v819 + 12))) goto v923;
    if (core_cmp_slices_groups_equal(v3 + (i64)v901, v905, v819 + 12)) { v939 = v905; goto v921; }
v923:;
    v930 = 0;
v929:;
    if (!(at(u8, (v3 + (i64)v901) + v930) == at(u8, (v819 + 12) + v930))) { v939 = v930; goto v921; }
    u64 v931 = v930 + 1;
    if (v931 == v905) v939 = v905; else { v930 = v931; goto v929; }
v921:;
    u64 v940 = v939 + v901;
    if (v939 < 38u) goto v498;
    u64 v945 = umin64(v4 - v940, 2);
    if (v4 == v940) goto v498;
    v948 = 0;
v947:;
    if (!(at(u8, (v3 + (i64)v940) + (i64)v948) == at(u8, (u8 *)table_87e6e93c + (i64)v948))) goto v956;
    u64 v949 = v948 + 1;
    if (v949 == v945) { v970 = v945; goto v958; }
    v948 = v949; goto v947;
v956:;
    if (v948 < v945) v961 = 0; else { v970 = v945; goto v958; }
v960:;
    if (!(at(u8, (v3 + (i64)v940) + v961) == at(u8, (u8 *)table_87e6e93c + v961))) { v970 = v961; goto v958; }
    u64 v962 = v961 + 1;
    if (v962 == v945) v970 = v945; else { v961 = v962; goto v960; }
v958:;
    u64 v971 = v970 + v940;
    if (v970 < 2) goto v498;
    u64 v977 = umin64(v820, v4 - v971);
    if (!(v977 < 4)) goto v980;
    if (v977 == 0) { v1011 = 0; goto v982; }
    v984 = 0;
v983:;
    if (!(at(u8, (v3 + (i64)v971) + (i64)v984) == at(u8, (v819 + 52) + (i64)v984))) goto v992;
    u64 v985 = v984 + 1;
    if (v985 == v977) { v1011 = v977; goto v982; }
    v984 = v985; goto v983;
v992:;
    if (v984 < v977) goto v995;
    v1011 = v977; goto v982;
v980:;
    if (!(at(u32_1, v3 + (i64)v971) == at(u32_1, v819 + 52))) goto v995;
    if (core_cmp_slices_groups_equal(v3 + (i64)v971, v977, v819 + 52)) { v1011 = v977; goto v982; }
v995:;
    v1002 = 0;
v1001:;
    if (!(at(u8, (v3 + (i64)v971) + v1002) == at(u8, (v819 + 52) + v1002))) { v1011 = v1002; goto v982; }
    u64 v1003 = v1002 + 1;
    if (v1003 == v977) v1011 = v977; else { v1002 = v1003; goto v1001; }
v982:;
    if (!(v1011 < v820)) { v333 = v1011 + v971; goto v538; }
v498:;
    goto v28;
v346:;
    memset(v8, 0, 1024u);
    u8 *v1014 = at(ptr, v0 + 168);
    u64 v1015 = at(u64, v0 + 176);
    if (v1015 == 0) { v1045 = 0; goto v1017; }
    if (at(u8, v1014) & 1) { v1055 = 0; goto v1021; }
    if (v1015 < 64u) { v1045 = 0; goto v1017; }
    v1025 = 0;
v1024:;
    if (v1025 == 0xffffffffffffffc0u) goto v1027;
    v1032 = 0; v1034 = (u8x16){0};
v1031:;
    u8x16 v1035 = v1034 | ((-(at(u8x16_1, (v1014 + (i64)v1025) + (i64)v1032) & 1)));
    u64 v1033 = v1032 + 16u;
    if (!(v1033 == 64u)) { v1032 = v1033; v1034 = v1035; goto v1031; }
    if (!(bits_u8x16(v1035) == 0)) { v1045 = v1025; goto v1017; }
v1027:;
    u64 v1026 = v1025 + 64u;
    if ((v1015 - v1026) < 64u) v1045 = v1026; else { v1025 = v1026; goto v1024; }
v1017:;
    if (v1045 < v1015) v1048 = v1045; else { v1055 = v1015; goto v1021; }
v1047:;
    if (at(u8, v1014 + v1048) & 1) { v1055 = v1048; goto v1021; }
    u64 v1049 = v1048 + 1;
    if (v1049 == v1015) v1055 = v1015; else { v1048 = v1049; goto v1047; }
v1021:;
    u16 v1058 = at(u16, at(ptr, v0 + 8) + 64);
    at(u32, v7) = 0;
    u64 v1060 = v4 - v337;
    u64 v1061 = umin64(v1060, 4);
    if (!(v1060 < 4)) goto v1064;
    if (v4 == v337) goto v1066;
    v1068 = 0;
v1067:;
    if (!(at(u8, (v3 + (i64)v337) + (i64)v1068) == at(u8, v7 + (i64)v1068))) goto v1076;
    u64 v1069 = v1068 + 1;
    if (v1069 == v1061) { v1096 = v1061; goto v1078; }
    v1068 = v1069; goto v1067;
v1076:;
    if (v1068 < v1061) goto v1080;
    v1096 = v1061; goto v1078;
v1064:;
    if (!(at(u32_1, v3 + (i64)v337) == 0)) goto v1080;
    if (core_cmp_slices_groups_equal(v3 + (i64)v337, v1061, v7)) { v1099 = v1061; goto v1085; }
v1080:;
    v1087 = 0;
v1086:;
    if (!(at(u8, (v3 + (i64)v337) + v1087) == at(u8, v7 + v1087))) { v1096 = v1087; goto v1078; }
    u64 v1088 = v1087 + 1;
    if (v1088 == v1061) v1096 = v1061; else { v1087 = v1088; goto v1086; }
v1078:;
    if (!(v1096 < 4)) { v1099 = v1096; goto v1085; }
v1066:;
    goto v1098;
v1085:;
    u64 v1100 = v1099 + v337;
    if (v1058 == 0) { v1203 = v1100; goto v1102; }
    v1106 = v1100; v1109 = 0; v1111 = (u16)v1055; v1113 = 0;
v1105:;
    u16 v1116 = umin16((u16)(v1058 - v1113), 256u);
    u16 v1114 = (u16)(v1116 + v1113);
    u32_u16 v1117 = font_write_made_loca_gather_offsets(v0, v1113, v1114, v1109, v1111, v8);
    u64 v1119 = (u64)((u16)((u32)v1116 << 2));
    u64 v1122 = umin64(v1119, v4 - v1106);
    if (!(v1122 < 4)) goto v1125;
    if (v1122 == 0) { v1156 = 0; goto v1127; }
    v1129 = 0;
v1128:;
    if (!(at(u8, (v3 + (i64)v1106) + (i64)v1129) == at(u8, v8 + (i64)v1129))) goto v1137;
    u64 v1130 = v1129 + 1;
    if (v1130 == v1122) { v1156 = v1122; goto v1127; }
    v1129 = v1130; goto v1128;
v1137:;
    if (v1129 < v1122) goto v1140;
    v1156 = v1122; goto v1127;
v1125:;
    if (!(at(u32_1, v3 + (i64)v1106) == at(u32, v8))) goto v1140;
    if (core_cmp_slices_groups_equal(v3 + (i64)v1106, v1122, v8)) { v1156 = v1122; goto v1127; }
v1140:;
    v1147 = 0;
v1146:;
    if (!(at(u8, (v3 + (i64)v1106) + v1147) == at(u8, v8 + v1147))) { v1156 = v1147; goto v1127; }
    u64 v1148 = v1147 + 1;
    if (v1148 == v1122) v1156 = v1122; else { v1147 = v1148; goto v1146; }
v1127:;
    if (!(v1156 < v1119)) goto v1108;
v1098:;
    goto v28;
v1108:;
    u64 v1107 = v1156 + v1106;
    if (v1114 < v1058) { v1106 = v1107; v1109 = v1117._0; v1111 = v1117._1; v1113 = v1114; goto v1105; }
    v1203 = v1107;
v1102:;
    v333 = v1203;
v538:;
    u64 v1210 = (u64)(((u32)0 - at(u32, v20 + (i64)(v335 * 12u) + 8)) & 3);
    u64 v1213 = umin64(v1210, v4 - v333);
    if (v1213 == 0) { v332 = 0; goto v1215; }
    v1217 = 0;
v1216:;
    if (!(at(u8, (v3 + (i64)v333) + (i64)v1217) == 0)) goto v1223;
    u64 v1218 = v1217 + 1;
    if (v1218 == v1213) { v332 = v1213; goto v1215; }
    v1217 = v1218; goto v1216;
v1223:;
    if (v1217 < v1213) v1227 = 0; else { v332 = v1213; goto v1215; }
v1226:;
    if (!(at(u8, (v3 + (i64)v333) + v1227) == 0)) { v332 = v1227; goto v1215; }
    u64 v1228 = v1227 + 1;
    if (v1228 == v1213) v332 = v1213; else { v1227 = v1228; goto v1226; }
v1215:;
    if (!(v332 < v1210)) goto v330;
v28:;
    return 0;
v330:;
    u64 v331 = v332 + v333;
    u64 v334 = v335 + 1;
    if (!(v334 == 29u)) { v337 = v331; v338 = v331; v335 = v334; goto v329; }
    return v331 == v4;
}

void font_write_whole_file_measure(u8 *v0, u8 *v1) {
    _Alignas(4) u8 v3[64], v4[20], v5[32], v7[4], v8[4], v9[4], v10[4], v14[348], v16[348], v17[344];
    u8 v6[12], *v535, *v540, *v548, *v113, v124, *v125, *v161, *v200, *v205, *v213, *v289, *v294, *v302, *v363, *v374, *v412, *v417, *v425, *v651, *v725;
    _Alignas(8) u8 v11[56], v12[24], v13[16], v18[24], v19[344], v21[344];
    _Alignas(2) u8 v15[6], v20[6], v22[6];
    u64 v90, v522, v536, v542, v547, v114, v126, v147, v163, v187, v201, v207, v212, v230, v276, v290, v296, v301, v312, v333, v364, v376, v399, v413, v419, v424, v444, v485, v567, v617, v653, v694, v743, v744, v745, v748, v749;
    u32x4 v524, v149, v189, v278, v401;
    u32 v534, v538, v549, v159, v199, v203, v214, v245, v288, v292, v303, v372, v411, v415, v426, v459, v462, v553, v554, v555, v649, v689, v692, v732, v733, v747;
    u16 v240, v248, v454, v464, v615, v637, v638, v639, v746;
    u16x8 v569;
    memset(v19, 0, 344u);
    memset(v20, 0, 6);
    memset(v21, 0, 344u);
    memset(v22, 0, 6);
    memset(v18, 0, 24u);
    font_write_size_file_size_092d(v18, v1);
    u64 v24 = at(u64, v18 + 16);
    if (!(v24 > 134217728u)) goto v27;
    v743 = 1; v744 = 0; v745 = 0; v746 = 0; v747 = 0; v748 = v24; v749 = 0; goto v742;
v27:;
    u64 v28 = at(u64, v18);
    u64 v30 = at(u64, v18 + 8);
    memset(v15, 0, 6);
    memset(v16, 0, 348u);
    memset(v17, 0, 344u);
    at(u64, v13) = v28;
    at(u64, v13 + 8) = v30;
    memset(v14, 0, 348u);
    u32 v72 = (u32)v28;
    u32 v74 = (u32)(v28 >> 32u);
    u32 v75 = v72 * 12u;
    u32 v77 = bswap32(v75 + 16u);
    u32 v78 = bswap32(v72);
    u32 v80 = bswap32(v75 + 44u);
    u8 v81 = (u8)v77;
    u8 v83 = (u8)(v77 >> 8);
    u8 v85 = (u8)(v77 >> 16u);
    u8 v87 = (u8)(v77 >> 24u);
    v90 = 0;
v89:;
    u64 v95 = at(u64, (u8 *)table_faed1f12 + (v90 << 3));
    u8_u64 v96 = font_write_size_table_length_895b(v1, v13, v95);
    u8 v97 = v96._0;
    if (!(v97 == 1)) { v554 = 0; v555 = 0; goto v92; }
    u32 v101 = (u32)v96._1;
    memset(v12, 0, 24u);
    switch (v95) {
    case 1: goto v103;
    case 5: goto v104;
    case 6: goto v105;
    case 9: goto v106;
    default: goto v102;
    }
v102:;
    font_join_union_UnionSource_copied(v12, v1, v95);
    if (!(at(u8, v12) == 1)) { v553 = 0; goto v220; }
    u8 *v505 = at(ptr, v12 + 8);
    u64 v506 = at(u64, v12 + 16);
    if (!(v506 > 3)) { v547 = v506; v548 = v505; v549 = 0; goto v509; }
    u64 v510 = v506 - 4;
    u64 v512 = (v510 >> 2) + 1;
    if (v510 < 12u) { v534 = 0; v535 = v505; v536 = v506; goto v514; }
    u64 v516 = v512 & 0x7ffffffffffffffcu;
    u64 v517 = v516 << 2;
    u64 v520 = v506 - (v516 << 2);
    v522 = 0; v524 = (u32x4){0};
v521:;
    u32x4 v525 = bswap_u32x4(at(u32x4_1, v505 + (i64)(v522 << 2))) + v524;
    u64 v523 = v522 + 4;
    if (!(v523 == v516)) { v522 = v523; v524 = v525; goto v521; }
    u32 v532 = sum_u32x4(v525);
    if (v512 == v516) { v547 = v520; v548 = v505 + (i64)v517; v549 = v532; goto v509; }
    v534 = v532; v535 = v505 + (i64)v517; v536 = v520;
v514:;
    v538 = v534; v540 = v535; v542 = v536;
v537:;
    u32 v539 = bswap32(at(u32_1, v540)) + v538;
    u64 v543 = v542 - 4;
    if (v543 > 3) { v538 = v539; v540 = v540 + 4; v542 = v543; goto v537; }
    v547 = v543; v548 = v540 + 4; v549 = v539;
v509:;
    at(u32, v7) = 0;
    memcpy_any(v7, v548, v547);
    v553 = bswap32(at(u32, v7)) + v549; goto v220;
v103:;
    u8 v107 = at(u8, v1 + 312);
    if (!(v107 == 1)) { v113 = (u8 *)0; v114 = 0; goto v110; }
    v113 = at(ptr, v1 + 320); v114 = at(u64, v1 + 328);
v110:;
    if (at(u8, v1) == 0) { v124 = v107; v125 = v113; v126 = v114; goto v117; }
    u8 v119 = at(u8, v1 + 872);
    if (!(v119 == 1)) { v124 = v119; v125 = (u8 *)0; v126 = 0; goto v117; }
    v124 = 1; v125 = at(ptr, v1 + 880); v126 = at(u64, v1 + 888);
v117:;
    flag v127 = v124 == 1;
    u64 v128 = v127 ? v126 : 0;
    flag v129 = v128 == 0;
    u64 v144 = v129 ? 36u : 44u;
    at(u8, v11) = 0;
    at(u8, v11 + 1) = 0;
    at(u8, v11 + 2) = 0;
    at(u8, v11 + 3) = v129 ? 2 : 3;
    at(u8, v11 + 4) = 0;
    at(u8, v11 + 5) = 0;
    at(u8, v11 + 6) = 0;
    at(u8, v11 + 7) = 4;
    at(u8, v11 + 8) = 0;
    at(u8, v11 + 9) = 0;
    at(u8, v11 + 10) = 0;
    at(u8, v11 + 11) = v129 ? 20u : 28u;
    at(u8, v11 + 12) = 0;
    at(u8, v11 + 13) = v129 ? 3 : 0;
    at(u8, v11 + 14) = 0;
    at(u8, v11 + 15) = v129 ? 10u : 5;
    at(u32, v11 + 16) = v129 ? 335544320u : v80;
    at(u8, v11 + 20) = 0;
    at(u8, v11 + 21) = v129 ? 12u : 3;
    at(u8, v11 + 22) = 0;
    at(u8, v11 + 23) = v129 ? 0 : 10u;
    at(u8, v11 + 24) = v129 ? v81 : 0;
    at(u8, v11 + 25) = v129 ? v83 : 0;
    at(u8, v11 + 26) = v129 ? v85 : 0;
    at(u8, v11 + 27) = v129 ? v87 : 28u;
    at(u32, v11 + 28) = v129 ? 0 : 3072u;
    at(u32, v11 + 32) = v129 ? v78 : v77;
    at(u32, v11 + 36) = 0;
    at(u32, v11 + 40) = v129 ? 0 : v78;
    at(u32, v11 + 44) = 0;
    at(u64, v11 + 48) = v144;
    u64 v145 = v144 - 32u;
    v147 = 0; v149 = (u32x4){0};
v146:;
    u32x4 v150 = bswap_u32x4(at(u32x4_8, v11 + (i64)(v147 << 2))) + v149;
    u64 v148 = v147 + 4;
    if (!(v148 == 8)) { v147 = v148; v149 = v150; goto v146; }
    v159 = sum_u32x4(v150); v161 = v11 + 32; v163 = v145;
v158:;
    u32 v160 = bswap32(at(u32_1, v161)) + v159;
    u64 v164 = v163 - 4;
    if (!(v164 == 0)) { v159 = v160; v161 = v161 + 4; v163 = v164; goto v158; }
    u8 *v169 = v127 ? v125 : (u8 *)table_55ba7287;
    if (!(v128 > 3)) { v212 = v128; v213 = v169; v214 = 0; goto v172; }
    u64 v175 = umax64((u64)3 - v126, 0xfffffffffffffffcu) + v126;
    u64 v177 = (v175 >> 2) + 1;
    if (v175 < 12u) { v199 = 0; v200 = v169; v201 = v126; goto v179; }
    u64 v181 = v177 & 0x7ffffffffffffffcu;
    u64 v182 = v181 << 2;
    u64 v185 = v126 - (v181 << 2);
    v187 = 0; v189 = (u32x4){0};
v186:;
    u32x4 v190 = bswap_u32x4(at(u32x4_1, v169 + (i64)(v187 << 2))) + v189;
    u64 v188 = v187 + 4;
    if (!(v188 == v181)) { v187 = v188; v189 = v190; goto v186; }
    u32 v197 = sum_u32x4(v190);
    if (v177 == v181) { v212 = v185; v213 = v169 + (i64)v182; v214 = v197; goto v172; }
    v199 = v197; v200 = v169 + (i64)v182; v201 = v185;
v179:;
    v203 = v199; v205 = v200; v207 = v201;
v202:;
    u32 v204 = bswap32(at(u32_1, v205)) + v203;
    u64 v208 = v207 - 4;
    if (v208 > 3) { v203 = v204; v205 = v205 + 4; v207 = v208; goto v202; }
    v212 = v208; v213 = v205 + 4; v214 = v204;
v172:;
    at(u32, v10) = 0;
    memcpy_any(v10, v213, v212);
    v553 = ((v160 + v74) + v214) + bswap32(at(u32, v10)); goto v220;
v104:;
    u16 v223 = at(u16, at(ptr, v1 + 8) + 64);
    if (v223 == 0) { v240 = 0; goto v225; }
    u8 *v227 = at(ptr, v1 + 712);
    u64 v228 = (u64)v223;
    v230 = 0;
v229:;
    if (!(at(u8, v227 + (i64)(v230 * 24u)) & 1)) goto v232;
    v240 = (u16)v230;
v225:;
    if (!(v240 < v223)) { v553 = 0; goto v220; }
    u8 *v243 = at(ptr, v1 + 712);
    v245 = 0; v248 = v240;
v244:;
    u64 v251 = ((u64)v248) * 24u;
    if (!(at(u8, v243 + (i64)v251) == 1)) { v301 = 0; v302 = (u8 *)table_55ba7287; v303 = 0; goto v257; }
    u64 v259 = at(u64_1, v243 + (i64)v251 + 16);
    u8 *v261 = at(ptr_1, v243 + (i64)v251 + 8);
    if (!(v259 > 3)) { v301 = v259; v302 = v261; v303 = 0; goto v257; }
    u64 v264 = v259 - 4;
    u64 v266 = (v264 >> 2) + 1;
    if (v264 < 12u) { v288 = 0; v289 = v261; v290 = v259; goto v268; }
    u64 v270 = v266 & 0x7ffffffffffffffcu;
    u64 v271 = v270 << 2;
    u64 v274 = v259 - (v270 << 2);
    v276 = 0; v278 = (u32x4){0};
v275:;
    u32x4 v279 = bswap_u32x4(at(u32x4_1, v261 + (i64)(v276 << 2))) + v278;
    u64 v277 = v276 + 4;
    if (!(v277 == v270)) { v276 = v277; v278 = v279; goto v275; }
    u32 v286 = sum_u32x4(v279);
    if (v266 == v270) { v301 = v274; v302 = v261 + (i64)v271; v303 = v286; goto v257; }
    v288 = v286; v289 = v261 + (i64)v271; v290 = v274;
v268:;
    v292 = v288; v294 = v289; v296 = v290;
v291:;
    u32 v293 = bswap32(at(u32_1, v294)) + v292;
    u64 v297 = v296 - 4;
    if (v297 > 3) { v292 = v293; v294 = v294 + 4; v296 = v297; goto v291; }
    v301 = v297; v302 = v294 + 4; v303 = v293;
v257:;
    at(u32, v9) = 0;
    memcpy_any(v9, v302, v301);
    u32 v246 = (v303 + v245) + bswap32(at(u32, v9));
    u16 v307 = (u16)(v248 + 1);
    if (!(v307 < v223)) { v553 = v246; goto v220; }
    v312 = (u64)v307;
v311:;
    if (!(at(u8, v243 + (i64)(v312 * 24u)) & 1)) goto v314;
    u16 v249 = (u16)v312;
    if (v223 > v249) { v245 = v246; v248 = v249; goto v244; }
    v553 = v246; goto v220;
v314:;
    u64 v313 = v312 + 1;
    if (v223 == ((u16)v313)) { v553 = v246; goto v220; }
    v312 = v313; goto v311;
v232:;
    u64 v231 = v230 + 1;
    if (v231 == v228) { v553 = 0; goto v220; }
    v230 = v231; goto v229;
v105:;
    u8 *v323 = at(ptr_1, at(ptr, v1 + 8));
    u16 v325 = at(u16_1, v323 + 4);
    u64 v327 = (u64)bswap16(v325);
    if (v325 == 0) { v363 = (u8 *)table_55ba7287; v364 = 0xffffffffffffffccu; goto v329; }
    v333 = 0;
v330:;
    u64 v335 = v333 << 4;
    if (!((((at(u8, v323 + (i64)v335 + 12) == 104u) & (at(u8, v323 + (i64)v335 + 13) == 101u)) & (at(u8, v323 + (i64)v335 + 14) == 97u)) & (at(u8, v323 + (i64)v335 + 15) == 100u))) goto v331;
    v363 = v323 + (i64)((u64)bswap32(at(u32_1, v323 + (i64)v335 + 20))); v364 = ((u64)bswap32(at(u32_1, v323 + (i64)v335 + 24))) - 52u; goto v329;
v331:;
    u64 v332 = v333 + 1;
    if (v332 == v327) { v363 = (u8 *)table_55ba7287; v364 = 0xffffffffffffffccu; } else { v333 = v332; goto v330; }
v329:;
    u16 v366 = at(u16_1, v363 + 48);
    u32 v369 = sum_u32x2(bswap_u32x2(at(u32x2_1, v363)));
    v372 = 0; v374 = v363 + 12; v376 = 36u;
v371:;
    u32 v373 = bswap32(at(u32_1, v374)) + v372;
    u64 v377 = v376 - 4;
    if (!(v377 == 0)) { v372 = v373; v374 = v374 + 4; v376 = v377; goto v371; }
    u32 v382 = (u32)v366;
    if (!(v364 > 3)) { v424 = v364; v425 = v363 + 52; v426 = 0; goto v386; }
    u64 v387 = v364 - 4;
    u64 v389 = (v387 >> 2) + 1;
    if (v387 < 12u) { v411 = 0; v412 = v363 + 52; v413 = v364; goto v391; }
    u64 v393 = v389 & 0x7ffffffffffffffcu;
    u64 v394 = v393 << 2;
    u64 v397 = v364 - (v393 << 2);
    v399 = 0; v401 = (u32x4){0};
v398:;
    u32x4 v402 = bswap_u32x4(at(u32x4_1, (v363 + 52) + (i64)(v399 << 2))) + v401;
    u64 v400 = v399 + 4;
    if (!(v400 == v393)) { v399 = v400; v401 = v402; goto v398; }
    u32 v409 = sum_u32x4(v402);
    if (v389 == v393) { v424 = v397; v425 = (v363 + 52) + (i64)v394; v426 = v409; goto v386; }
    v411 = v409; v412 = (v363 + 52) + (i64)v394; v413 = v397;
v391:;
    v415 = v411; v417 = v412; v419 = v413;
v414:;
    u32 v416 = bswap32(at(u32_1, v417)) + v415;
    u64 v420 = v419 - 4;
    if (v420 > 3) { v415 = v416; v417 = v417 + 4; v419 = v420; goto v414; }
    v424 = v420; v425 = v417 + 4; v426 = v416;
v386:;
    at(u32, v8) = 0;
    memcpy_any(v8, v425, v424);
    v553 = (((v369 + bswap32(v382 | 16777216u)) + v373) + v426) + bswap32(at(u32, v8)); goto v220;
v106:;
    u16 v437 = at(u16, at(ptr, v1 + 8) + 64);
    if (v437 == 0) { v454 = 0; goto v439; }
    u8 *v441 = at(ptr, v1 + 712);
    u64 v442 = (u64)v437;
    v444 = 0;
v443:;
    if (!(at(u8, v441 + (i64)(v444 * 24u)) & 1)) goto v446;
    v454 = (u16)v444;
v439:;
    if (!(v454 < v437)) { v553 = 0; goto v220; }
    u8 *v457 = at(ptr, v1 + 712);
    v459 = 0; v462 = 0; v464 = v454;
v458:;
    u64 v467 = ((u64)v464) * 24u;
    u64 v474 = (at(u8, v457 + (i64)v467) == 1) ? at(u64_1, v457 + (i64)v467 + 16) : 0;
    u32 v460 = v459 + ((u32)((((u64)0 - v474) & 3) + v474));
    u16 v479 = (u16)(v464 + 1);
    if (!(v479 < v437)) goto v482;
    v485 = (u64)v479;
v484:;
    if (!(at(u8, v457 + (i64)(v485 * 24u)) & 1)) goto v487;
    u16 v465 = (u16)v485;
    u32 v463 = (v460 * ((u32)((u16)(v465 - v464)))) + v462;
    if (v437 > v465) { v459 = v460; v462 = v463; v464 = v465; goto v458; }
    v553 = v463; goto v220;
v487:;
    u64 v486 = v485 + 1;
    if (!(v437 == ((u16)v486))) { v485 = v486; goto v484; }
v482:;
    v553 = (v460 * ((u32)((u16)(v437 - v464)))) + v462; goto v220;
v446:;
    u64 v445 = v444 + 1;
    if (v445 == v442) v553 = 0; else { v444 = v445; goto v443; }
v220:;
    v554 = v101; v555 = v553;
v92:;
    u64 v556 = v90 * 12u;
    at(u8, v14 + v556) = v97;
    memset(v14 + v556 + 1, 0, 3);
    at(u32, v14 + v556 + 4) = v554;
    at(u32, v14 + v556 + 8) = v555;
    u64 v91 = v90 + 1;
    if (!(v91 == 29u)) { v90 = v91; goto v89; }
    u32 v563 = at(u32, v14);
    memcpy(v17, v14 + 4, 344u);
    at(u32, v16) = v563;
    memcpy(v16 + 4, v17, 344u);
    v567 = 0; v569 = (u16x8){0};
v566:;
    u8 v594 = at(u8, v16 + (v567 * 12u));
    u8 v595 = at(u8, v16 + (v567 * 12u) + 12);
    u8 v596 = at(u8, v16 + (v567 * 12u) + 24);
    u8 v597 = at(u8, v16 + (v567 * 12u) + 36);
    u8 v598 = at(u8, v16 + (v567 * 12u) + 48);
    u8 v599 = at(u8, v16 + (v567 * 12u) + 60);
    u8 v600 = at(u8, v16 + (v567 * 12u) + 72);
    u8 v601 = at(u8, v16 + (v567 * 12u) + 84);
    u16x8 v570 = v569 + (__builtin_convertvector((u8x8){v594, v595, v596, v597, v598, v599, v600, v601}, u16x8));
    u64 v568 = v567 + 8;
    if (!(v568 == 24u)) { v567 = v568; v569 = v570; goto v566; }
    v615 = sum_u16x8(v570); v617 = 24u;
v614:;
    u16 v616 = (u16)(v615 + ((u16)at(u8, v16 + (v617 * 12u))));
    u64 v618 = v617 + 1;
    if (!(v618 == 29u)) { v615 = v616; v617 = v618; goto v614; }
    if (!(((u16)(v616 + 65535u)) < 4095u)) { v637 = 0; v638 = 0; v639 = 0; goto v628; }
    u16 v630 = (u16)(ctlz16(v616) ^ 15u);
    u16 v631 = (u16)((u32)16u << (v630 & 31));
    v637 = bswap16((u16)(((u16)((u32)v616 << 4)) - v631)); v638 = (u16)((u32)v630 << 8); v639 = bswap16(v631);
v628:;
    at(u8, v6) = 0;
    at(u8, v6 + 1) = 1;
    at(u8, v6 + 2) = 0;
    at(u8, v6 + 3) = 0;
    at(u16_1, v6 + 4) = bswap16(v616);
    at(u16_1, v6 + 6) = v639;
    at(u16_1, v6 + 8) = v638;
    at(u16_1, v6 + 10) = v637;
    v649 = 0; v651 = v6; v653 = 12u;
v648:;
    u32 v650 = bswap32(at(u32_1, v651)) + v649;
    u64 v654 = v653 - 4;
    if (!(v654 == 0)) { v649 = v650; v651 = v651 + 4; v653 = v654; goto v648; }
    v689 = v650; v692 = (((u32)v616) << 4) | 12u; v694 = 0;
v688:;
    u64 v696 = v694 * 12u;
    u32 v700 = at(u32, v16 + v696 + 4);
    u32 v702 = at(u32, v16 + v696 + 8);
    if (!(at(u8, v16 + v696) & 1)) goto v705;
    u64 v709 = at(u64, (u8 *)table_faed1f12 + (v694 << 3));
    if (!(v709 < 16u)) goto v712;
    at(u32, v3) = 841962319u;
    at(u32, v3 + 4) = 1885433187u;
    at(u32, v3 + 8) = 544503395u;
    at(u32, v3 + 12) = 1835495526u;
    at(u32, v3 + 16) = 1886609767u;
    at(u32, v3 + 20) = 1719233639u;
    at(u32, v3 + 24) = 1684104552u;
    at(u32, v3 + 28) = 1634035816u;
    at(u32, v3 + 32) = 2020896104u;
    at(u32, v3 + 36) = 1633906540u;
    at(u32, v3 + 40) = 1886937453u;
    at(u32, v3 + 44) = 1701667182u;
    at(u32, v3 + 48) = 1953722224u;
    at(u32, v3 + 52) = 1885696624u;
    at(u32, v3 + 56) = 1634035830u;
    at(u32, v3 + 60) = 2020896118u;
    v725 = v3 + (v709 << 2); goto v715;
v712:;
    if (!(v709 < 21u)) goto v718;
    at(u32, v4) = 1163084098u;
    at(u32, v4 + 4) = 1178944583u;
    at(u32, v4 + 8) = 1397706823u;
    at(u32, v4 + 12) = 1112888135u;
    at(u32, v4 + 16) = 1852990827u;
    v725 = v4 + (i64)(v709 << 2) - 64; goto v715;
v718:;
    at(u32, v5) = 1380013640u;
    at(u32, v5 + 4) = 1380013645u;
    at(u32, v5 + 8) = 1413567571u;
    at(u32, v5 + 12) = 1380013654u;
    at(u32, v5 + 16) = 1918989921u;
    at(u32, v5 + 20) = 1918989923u;
    at(u32, v5 + 24) = 1918989926u;
    at(u32, v5 + 28) = 1918989927u;
    v725 = v5 + (i64)(v709 << 2) - 84;
v715:;
    u32 v729 = v700 + v692;
    v732 = v729; v733 = ((v702 << 1) + v729) + bswap32(at(u32_1, v725)); goto v691;
v705:;
    v732 = v700 + v692; v733 = 0;
v691:;
    u32 v690 = v733 + v689;
    u64 v695 = v694 + 1;
    if (!(v695 == 29u)) { v689 = v690; v692 = v732 + (((u32)0 - v700) & 3); v694 = v695; goto v688; }
    memcpy(v21, v17, 344u);
    memcpy(v22, v15, 6);
    memcpy(v19, v21, 344u);
    memcpy(v20, v22, 6);
    v743 = 0; v744 = v28; v745 = v30; v746 = v616; v747 = (u32)0xb1b0afbau - v690; v748 = (((u64)v563) << 32u) | 1; v749 = v24;
v742:;
    at(u64_1, v0) = v743;
    at(u64_1, v0 + 8) = v748;
    memcpy(v0 + 16, v19, 344u);
    at(u16_1, v0 + 360) = v746;
    memcpy(v0 + 362, v20, 6);
    at(u64_1, v0 + 368) = v744;
    at(u64_1, v0 + 376) = v745;
    at(u32_1, v0 + 384) = v747;
    at(u32_1, v0 + 388) = 0;
    at(u64_1, v0 + 392) = v749;
    return;
}

u8 font_write_writer_send_entry_bb40(u8 *v0, u32 v1, u32 v2, u32 v3, u8 *v4) {
    _Alignas(4) u8 v7[4];
    u64 v23, v24, v50, v51;
    u8 *v49;
    u32 v6 = at(u32_1, v0);
    at(u32, v7) = v6;
    at(u8, v4 + 33) = 0;
    u64 v12 = at(u64, v4 + 16);
    u64 v13 = at(u64, v4 + 8);
    if (!((v12 - v13) < 4)) { v23 = v12; v24 = v13; goto v17; }
    if (!std_alloc_vec_Vec_grow_amortized_1cf2(v4, 4)) goto v20;
    v23 = at(u64, v4 + 16); v24 = at(u64, v4 + 8); goto v17;
v20:;
    at(u8, v4 + 32) = 1;
    return 1;
v17:;
    u64 v25 = v24 + 4;
    u8 *v26 = at(ptr, v4);
    at(u32_1, v26 + (i64)v24) = ((((u64)(v26 + (i64)v24)) - ((u64)v7)) < 4) ? at(u32, v7) : v6;
    at(ptr, v4) = v26;
    at(u64, v4 + 8) = v25;
    at(u64, v4 + 16) = v23;
    at(u64, v4 + 24) = at(u64, v4 + 24) + 4;
    u32 v36 = bswap32(v1);
    u32 v37 = bswap32(v2);
    u32 v38 = bswap32(v3);
    at(u8, v4 + 33) = 0;
    if (!((v23 - v25) < 12u)) { v49 = v26; v50 = v23; v51 = v25; goto v42; }
    if (!std_alloc_vec_Vec_grow_amortized_1cf2(v4, 12u)) goto v45;
    v49 = at(ptr, v4); v50 = at(u64, v4 + 16); v51 = at(u64, v4 + 8); goto v42;
v45:;
    at(u8, v4 + 32) = 1;
    return 1;
v42:;
    at(u32_1, v49 + (i64)v51) = v36;
    at(u32_1, v49 + (i64)v51 + 4) = v37;
    at(u32_1, v49 + (i64)v51 + 8) = v38;
    at(ptr, v4) = v49;
    at(u64, v4 + 8) = v51 + 12u;
    at(u64, v4 + 16) = v50;
    at(u64, v4 + 24) = at(u64, v4 + 24) + 12u;
    return 0;
}

u8 font_write_writer_send_entry_f0d8(u8 *v0, u32 v1, u32 v2, u32 v3, u8 *v4) {
    _Alignas(8) u8 v6[96], v7[96];
    _Alignas(4) u8 v9[4], v10[12];
    u64 v19, v40, v52, v64, v95, v104, v106, v117;
    u64 v11 = (u64)v10;
    u32 v8 = at(u32_1, v0);
    memset(v10, 0, 12u);
    at(u32, v9) = v8;
    at(u8, v4 + 145) = 0;
    v19 = 0;
v18:;
    u64 v23 = (u64)4 - v19;
    memset(v7, 0, 96u);
    u64 v24 = at(u64, v4 + 128);
    u64 v25 = at(u64, v4 + 120);
    if (!(v23 < (v24 - v25))) goto v29;
    u64 v30 = v25 + v23;
    u8 *v31 = at(ptr, v4 + 112);
    if ((((u64)(v31 + (i64)v25)) - ((u64)(v9 + (i64)v19))) < v23) v40 = 0; else goto v38;
v37:;
    at(u8, (v31 + (i64)v25) + v40) = at(u8, (v9 + (i64)v19) + v40);
    u64 v41 = v40 + 1;
    if (v41 == v23) goto v39;
    v40 = v41; goto v37;
v38:;
    memmove_any(v31 + (i64)v25, v9 + (i64)v19, v23);
v39:;
    at(ptr, v4 + 112) = v31;
    at(u64, v4 + 120) = v30;
    at(u64, v4 + 128) = v24;
    v52 = v23; goto v21;
v29:;
    std_io_buffered_BufWriter_write_cold(v7, v4, v9 + (i64)v19, v23);
    u64 v47 = at(u64, v7 + 8);
    if ((at(u8, v7) != 0) ? 1 : (v47 == 0)) goto v51;
    v52 = v47;
v21:;
    u64 v20 = v52 + v19;
    at(u64, v4 + 136) = at(u64, v4 + 136) + v52;
    if (v20 < 4) { v19 = v20; goto v18; }
    at(u32, v10) = bswap32(v1);
    at(u32, v10 + 4) = bswap32(v2);
    at(u32, v10 + 8) = bswap32(v3);
    at(u8, v4 + 145) = 0;
    v64 = 0;
v63:;
    u64 v68 = (u64)12u - v64;
    memset(v6, 0, 96u);
    u64 v69 = at(u64, v4 + 128);
    u64 v70 = at(u64, v4 + 120);
    if (!(v68 < (v69 - v70))) goto v74;
    u64 v75 = v70 + v68;
    u8 *v76 = at(ptr, v4 + 112);
    u64 v77 = (u64)v76;
    if (!((((u64)(v76 + (i64)v70)) - ((u64)(v10 + (i64)v64))) < v68)) goto v84;
    if (v64 > 8) { v104 = 0; goto v86; }
    if (((v70 + v77) - (v64 + v11)) < 32u) { v104 = 0; goto v86; }
    u64 v93 = v68 & 12u;
    v95 = 0;
v94:;
    at(u8x4_1, (v76 + (i64)v70) + v95) = at(u8x4_1, (v10 + (i64)v64) + v95);
    u64 v96 = v95 + 4;
    if (!(v96 == v93)) { v95 = v96; goto v94; }
    if (v68 == v93) goto v103;
    v104 = v93;
v86:;
    v106 = v104;
v105:;
    at(u8, (v76 + (i64)v70) + v106) = at(u8, (v10 + (i64)v64) + v106);
    u64 v107 = v106 + 1;
    if (v107 == v68) goto v103;
    v106 = v107; goto v105;
v84:;
    memmove_any(v76 + (i64)v70, v10 + (i64)v64, v68);
v103:;
    at(ptr, v4 + 112) = v76;
    at(u64, v4 + 120) = v75;
    at(u64, v4 + 128) = v69;
    v117 = v68; goto v66;
v74:;
    std_io_buffered_BufWriter_write_cold(v6, v4, v10 + (i64)v64, v68);
    u64 v113 = at(u64, v6 + 8);
    if (!((at(u8, v6) != 0) ? 1 : (v113 == 0))) { v117 = v113; goto v66; }
v51:;
    at(u8, v4 + 144) = 1;
    return 1;
v66:;
    u64 v65 = v117 + v64;
    at(u64, v4 + 136) = at(u64, v4 + 136) + v117;
    if (v65 < 12u) { v64 = v65; goto v63; }
    return 0;
}

void tables_glyph_variations_GlyphVariationsPartedTable_united(u8 *v0, u8 *v1, u8 *v2, u8 *v3) {
    _Alignas(8) u8 v5[1], v6[24], v7[32], v8[24];
    u8 *v40, *v129, *v41, *v167, v169;
    u64 v43, v45, v91, v92, v125, v126, v130, v139, v170;
    memset(v7, 0, 32u);
    if (!(at(u8, v1) == 1)) goto v12;
    u16 v16 = at(u16, at(ptr, v3 + 8) + 64);
    u64 v17 = (u64)v16;
    if (!(v16 == 0)) goto v20;
    divided_tables_glyph_variations_with_data(v7, v1 + 8, v5, 0);
    if (!(at(u8, v7) == 0)) goto v162;
    v167 = v7 + 8; goto v164;
v20:;
    u64_u64 v23 = sys_rattle_alloc(v17 << 4, 8);
    if (!(v23._0 & 1)) goto v27;
    u8 *v29 = (u8 *)v23._1;
    at(ptr, v6) = v29;
    at(u64, v6 + 8) = 0;
    at(u64, v6 + 16) = v17;
    v40 = v29; v43 = 0; v45 = 0;
v39:;
    if (!(v45 < ((u64)at(u16, at(ptr, v3 + 8) + 64)))) goto v53;
    if (!(at(u8, at(ptr, v3 + 712) + (i64)(v45 * 24u)) & 1)) goto v53;
    if (!(at(u8, v1) == 1)) { v129 = (u8 *)table_55ba7287; v130 = 0; goto v63; }
    u8 *v65 = at(ptr_1, v1 + 24);
    u8 *v66 = at(ptr_1, v1 + 40);
    if (!(at(u8, v1 + 72) == 0)) goto v69;
    u64 v70 = v45 << 1;
    v91 = ((u64)bswap16(at(u16_1, v65 + (i64)v70))) << 1; v92 = ((u64)bswap16(at(u16_1, v65 + (i64)v70 + 2))) << 1; goto v81;
v69:;
    u64 v82 = v45 << 2;
    v91 = (u64)bswap32(at(u32_1, v65 + (i64)v82)); v92 = (u64)bswap32(at(u32_1, v65 + (i64)v82 + 4));
v81:;
    v129 = v66 + (i64)v91; v130 = v92 - v91; goto v63;
v53:;
    if (!(at(u8, v2) == 1)) { v129 = (u8 *)table_55ba7287; v130 = 0; goto v63; }
    u8 *v99 = at(ptr_1, v2 + 24);
    u8 *v100 = at(ptr_1, v2 + 40);
    if (!(at(u8, v2 + 72) == 0)) goto v103;
    u64 v104 = v45 << 1;
    v125 = ((u64)bswap16(at(u16_1, v99 + (i64)v104))) << 1; v126 = ((u64)bswap16(at(u16_1, v99 + (i64)v104 + 2))) << 1; goto v115;
v103:;
    u64 v116 = v45 << 2;
    v125 = (u64)bswap32(at(u32_1, v99 + (i64)v116)); v126 = (u64)bswap32(at(u32_1, v99 + (i64)v116 + 4));
v115:;
    v129 = v100 + (i64)v125; v130 = v126 - v125;
v63:;
    if (!(at(u64, v6 + 16) == v43)) { v41 = v40; v139 = v43; goto v42; }
    if (!std_alloc_vec_Vec_grow_amortized_1c1d(v6, 1)) goto v136;
    v41 = at(ptr, v6); v139 = at(u64, v6 + 8); goto v42;
v136:;
    if (at(u64, v6 + 16) == 0) goto v27;
    sys_rattle_dealloc(at(ptr, v6));
    goto v27;
v42:;
    u64 v140 = v139 << 4;
    at(ptr_1, v41 + v140) = v129;
    at(u64_1, v41 + v140 + 8) = v130;
    u64 v44 = v139 + 1;
    at(u64, v6 + 8) = v44;
    u64 v46 = v45 + 1;
    if (!(v46 == v17)) { v40 = v41; v43 = v44; v45 = v46; goto v39; }
    u8 *v150 = at(ptr, v6);
    flag v152 = at(u64, v6 + 16) == 0;
    divided_tables_glyph_variations_with_data(v7, v1 + 8, v150, v44);
    if (!(at(u8, v7) == 0)) goto v157;
    if (v152) { v167 = v7 + 8; goto v164; }
    sys_rattle_dealloc(v150);
    v167 = v7 + 8;
v164:;
    memcpy(v8, v167, 24u);
    v169 = 0; v170 = 1; goto v149;
v157:;
    if (v152) goto v162;
    sys_rattle_dealloc(v150);
v162:;
    memset(v8, 0, 24u);
    v169 = 1; v170 = 0; goto v149;
v27:;
    memset(v8, 0, 24u);
    v169 = 1; v170 = 0; goto v149;
v12:;
    memset(v8, 0, 24u);
    v169 = 0; v170 = 0;
v149:;
    at(u8, v0) = v169;
    at(u64_1, v0 + 8) = v170;
    memcpy(v0 + 16, v8, 24u);
    return;
}
