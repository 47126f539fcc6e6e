/* The part joins of the program fontcut, in C.
 * It is made of the crates of this repository and of the kit's libraries, which were proved and compiled to LLVM's IR
 * by rattle; tools/translator has translated that. Do not edit it: tools/generate writes it. */

#include "program.h"

static const _Alignas(4) u8 table_55ba7287[1] = {0};
static const _Alignas(8) u8 table_faed1f12[232] = {16,0,0,0,0,0,0,0,17,0,0,0,0,0,0,0,18,0,0,0,0,0,0,0,19,0,0,0,0,0,0,0,21,0,0,0,0,0,0,0,22,0,0,0,0,0,0,0,
0,0,0,0,0,0,0,0,23,0,0,0,0,0,0,0,24,0,0,0,0,0,0,0,25,0,0,0,0,0,0,0,1,0,0,0,0,0,0,0,26,0,0,0,0,0,0,0,2,
0,0,0,0,0,0,0,3,0,0,0,0,0,0,0,27,0,0,0,0,0,0,0,4,0,0,0,0,0,0,0,5,0,0,0,0,0,0,0,28,0,0,0,0,0,0,0,6,0,0,
0,0,0,0,0,7,0,0,0,0,0,0,0,8,0,0,0,0,0,0,0,20,0,0,0,0,0,0,0,9,0,0,0,0,0,0,0,10,0,0,0,0,0,0,0,11,0,0,0,
0,0,0,0,12,0,0,0,0,0,0,0,13,0,0,0,0,0,0,0,14,0,0,0,0,0,0,0,15};

static COLD void commands_text_memory_AnyTextMemory_text_of(u8 *v0, u8 *v1);
static flag font_join_difference_is_same_head(u8 *v0, u64 v1, u8 *v2, u64 v3);
static void font_join_join_list_sized(u8 *v0, u8 *v1);
static void font_join_listed_ListedSource_next_run(u8 *v0, u8 *v1, u32 v2);
static void font_join_listed_Listed_into_runs(u8 *v0, u8 *v1);
static void font_join_listed_Listed_new(u8 *v0, u8 *v1, u8 v2);
static u8_u16 font_join_taken_outlines_Outlines_take(u8 *v0, u8 *v1, u16 v2);
static void map_union_merging_runs_of_both(u8 *v0, u8 *v1, u8 *v2, u64 v3, u8 *v4, u64 v5);
static u64 map_union_run_list_place_by_guess(u8 *v0, u64 v1, u64 v2, u64 v3, u32 v4);
static void map_union_union_map_UnionMapPieces_piece(u8 *v0, u8 *v1, u32 v2);
static NOINLINE void map_union_union_map_UnionMap_run_of_both(u8 *v0, u8 *v1, u32 v2);
static void map_union_union_map_UnionMap_settle(u8 *v0, u8 *v1);
static void map_union_union_map_UnionMap_with(u8 *v0, u8 *v1, u8 *v2);

void commands_belongs_is_cut_in(u8 *v0, u8 v1, u8 *v2, u64 v3, u8 *v4, u64 v5) {
    _Alignas(2) u8 v7[10], v12[10], v15[10], v20[10], v23[10], v24[24], v29[10], v34[10];
    _Alignas(8) u8 v8[584], v9[24], v10[536], v11[144], v13[24], v14[96], v16[584], v17[24], v18[536], v19[144], v21[24], v22[96], v25[136], v26[576], v27[136], v28[576], v30[24], v31[96], v32[24], v33[536], v35[24], v36[96], v37[24], v38[536], v39[576], v40[576], v41[576], v42[576];
    u16 v66, v113, v157, v213;
    u8 v67, v68, v69, v70, v108, v109, v110, v111, v112, v114, v115, v158, v159, v160, v161, v207, v208, v209, v210, v211, v212, v214, v215;
    memset(v23, 0, 10u);
    memset(v24, 0, 24u);
    memset(v25, 0, 136u);
    memset(v26, 0, 576u);
    memset(v27, 0, 136u);
    memset(v28, 0, 576u);
    memset(v29, 0, 10u);
    memset(v30, 0, 24u);
    memset(v31, 0, 96u);
    memset(v32, 0, 24u);
    memset(v33, 0, 536u);
    memset(v34, 0, 10u);
    memset(v35, 0, 24u);
    memset(v36, 0, 96u);
    memset(v37, 0, 24u);
    memset(v38, 0, 536u);
    memset(v39, 0, 576u);
    memset(v40, 0, 576u);
    memset(v41, 0, 576u);
    memset(v42, 0, 576u);
    memset(v19, 0, 144u);
    memset(v22, 0, 96u);
    font_file_font_Font_open(v19, v2, v3);
    flag v44 = at(u8, v19) == 0;
    if (!v44) goto v46;
    u8 v48 = at(u8, v19 + 8);
    u8 v50 = at(u8, v19 + 9);
    u16 v52 = at(u16, v19 + 10);
    u8 v54 = at(u8, v19 + 12);
    u8 v56 = at(u8, v19 + 13);
    memcpy(v20, v19 + 14, 10u);
    memcpy(v21, v19 + 24, 24u);
    memcpy(v22, v19 + 48, 96u);
    v66 = v52; v67 = v54; v68 = v48; v69 = v50; v70 = v56; goto v60;
v46:;
    u8 v62 = at(u8, v19 + 4);
    u8 v64 = at(u8, v19 + 5);
    memcpy(v20, v19 + 6, 10u);
    memset(v21, 0, 24u);
    v66 = 0; v67 = v62; v68 = 4; v69 = 0; v70 = v64;
v60:;
    memcpy(v29, v20, 10u);
    memcpy(v30, v21, 24u);
    memcpy(v31, v22, 96u);
    if (!v44) goto v72;
    at(u8, v25) = v68;
    at(u8, v25 + 1) = v69;
    at(u16, v25 + 2) = v66;
    at(u8, v25 + 4) = v67;
    at(u8, v25 + 5) = v70;
    memcpy(v25 + 6, v29, 10u);
    memcpy(v25 + 16, v30, 24u);
    memcpy(v25 + 40, v31, 96u);
    memset(v16, 0, 584u);
    memset(v18, 0, 536u);
    font_subset_font_of_kind_FontOfKind_open_f514(v16, v1, v25);
    flag v81 = at(u8, v16) == 0;
    if (!v81) goto v83;
    u8 v85 = at(u8, v16 + 8);
    u8 v87 = at(u8, v16 + 9);
    u16 v89 = at(u16, v16 + 10);
    u8 v91 = at(u8, v16 + 12);
    u8 v93 = at(u8, v16 + 13);
    memcpy(v15, v16 + 14, 10u);
    memcpy(v17, v16 + 24, 24u);
    memcpy(v18, v16 + 48, 536u);
    v111 = v85; v112 = v87; v113 = v89; v114 = v91; v115 = v93; goto v97;
v83:;
    u8 v101 = at(u8, v16 + 8);
    u8 v103 = at(u8, v16 + 9);
    u8 v99 = at(u8, v16 + 4);
    memset(v15, 0, 10u);
    if (v99 == 0) { v108 = 0; v109 = 1; v110 = 0; goto v105; }
    memcpy(v15, v16 + 10, 10u);
    v108 = v101; v109 = 4; v110 = v103;
v105:;
    memset(v17, 0, 24u);
    v111 = v109; v112 = 0; v113 = 0; v114 = v108; v115 = v110;
v97:;
    memcpy(v32, v17, 24u);
    memcpy(v33, v18, 536u);
    if (!v81) goto v117;
    at(u8, v26) = v111;
    at(u8, v26 + 1) = v112;
    at(u16, v26 + 2) = v113;
    at(u8, v26 + 4) = v114;
    at(u8, v26 + 5) = v115;
    memcpy(v26 + 6, v15, 10u);
    memcpy(v26 + 16, v32, 24u);
    memcpy(v26 + 40, v33, 536u);
    memset(v11, 0, 144u);
    memset(v14, 0, 96u);
    font_file_font_Font_open(v11, v4, v5);
    flag v135 = at(u8, v11) == 0;
    if (!v135) goto v137;
    u8 v139 = at(u8, v11 + 8);
    u8 v141 = at(u8, v11 + 9);
    u16 v143 = at(u16, v11 + 10);
    u8 v145 = at(u8, v11 + 12);
    u8 v147 = at(u8, v11 + 13);
    memcpy(v12, v11 + 14, 10u);
    memcpy(v13, v11 + 24, 24u);
    memcpy(v14, v11 + 48, 96u);
    v157 = v143; v158 = v145; v159 = v139; v160 = v141; v161 = v147; goto v151;
v137:;
    u8 v153 = at(u8, v11 + 4);
    u8 v155 = at(u8, v11 + 5);
    memcpy(v12, v11 + 6, 10u);
    memset(v13, 0, 24u);
    v157 = 0; v158 = v153; v159 = 4; v160 = 1; v161 = v155;
v151:;
    memcpy(v34, v12, 10u);
    memcpy(v35, v13, 24u);
    memcpy(v36, v14, 96u);
    if (!v135) goto v163;
    at(u8, v27) = v159;
    at(u8, v27 + 1) = v160;
    at(u16, v27 + 2) = v157;
    at(u8, v27 + 4) = v158;
    at(u8, v27 + 5) = v161;
    memcpy(v27 + 6, v34, 10u);
    memcpy(v27 + 16, v35, 24u);
    memcpy(v27 + 40, v36, 96u);
    memset(v8, 0, 584u);
    memset(v10, 0, 536u);
    font_subset_font_of_kind_FontOfKind_open_f514(v8, v1, v27);
    flag v180 = at(u8, v8) == 0;
    if (!v180) goto v182;
    u8 v184 = at(u8, v8 + 8);
    u8 v186 = at(u8, v8 + 9);
    u16 v188 = at(u16, v8 + 10);
    u8 v190 = at(u8, v8 + 12);
    u8 v192 = at(u8, v8 + 13);
    memcpy(v7, v8 + 14, 10u);
    memcpy(v9, v8 + 24, 24u);
    memcpy(v10, v8 + 48, 536u);
    v211 = v184; v212 = v186; v213 = v188; v214 = v190; v215 = v192; goto v196;
v182:;
    u8 v200 = at(u8, v8 + 8);
    u8 v202 = at(u8, v8 + 9);
    u8 v198 = at(u8, v8 + 4);
    memset(v7, 0, 10u);
    if (v198 == 0) { v207 = 0; v208 = 1; v209 = 0; v210 = 0; goto v204; }
    memcpy(v7, v8 + 10, 10u);
    v207 = v200; v208 = 4; v209 = 1; v210 = v202;
v204:;
    memset(v9, 0, 24u);
    v211 = v208; v212 = v209; v213 = 0; v214 = v207; v215 = v210;
v196:;
    memcpy(v37, v9, 24u);
    memcpy(v38, v10, 536u);
    if (!v180) goto v217;
    at(u8, v28) = v211;
    at(u8, v28 + 1) = v212;
    at(u16, v28 + 2) = v213;
    at(u8, v28 + 4) = v214;
    at(u8, v28 + 5) = v215;
    memcpy(v28 + 6, v7, 10u);
    memcpy(v28 + 16, v37, 24u);
    memcpy(v28 + 40, v38, 536u);
    u8_u8 v233 = font_subset_cut_forms_belongs(v26, v28);
    if (!(v233._0 == 0)) goto v237;
    memcpy(v41, v28, 576u);
    font_subset_font_of_kind_FontOfKind_drop_b0ec(v41);
    memcpy(v42, v26, 576u);
    font_subset_font_of_kind_FontOfKind_drop_b0ec(v42);
    at(u8, v0) = 0;
    at(u8, v0 + 1) = (u8)(v233._1 & 1);
    memset(v0 + 8, 0, 6);
    memcpy(v0 + 14, v23, 10u);
    memcpy(v0 + 24, v24, 24u);
    return;
v237:;
    memcpy(v39, v28, 576u);
    font_subset_font_of_kind_FontOfKind_drop_b0ec(v39);
    memcpy(v40, v26, 576u);
    font_subset_font_of_kind_FontOfKind_drop_b0ec(v40);
    at(u8, v0) = 1;
    at(u8, v0 + 1) = 0;
    at(u8, v0 + 8) = 1;
    memset(v0 + 9, 0, 39u);
    return;
v217:;
    font_subset_font_of_kind_FontOfKind_drop_b0ec(v26);
    at(u8, v0) = 1;
    at(u8, v0 + 1) = 0;
    at(u8, v0 + 8) = v211;
    at(u8, v0 + 9) = v212;
    at(u16_1, v0 + 10) = v213;
    at(u8, v0 + 12) = v214;
    at(u8, v0 + 13) = v215;
    memcpy(v0 + 14, v7, 10u);
    memcpy(v0 + 24, v37, 24u);
    return;
v163:;
    font_subset_font_of_kind_FontOfKind_drop_b0ec(v26);
    at(u8, v0) = 1;
    at(u8, v0 + 1) = 0;
    at(u8, v0 + 8) = v159;
    at(u8, v0 + 9) = v160;
    at(u16_1, v0 + 10) = v157;
    at(u8, v0 + 12) = v158;
    at(u8, v0 + 13) = v161;
    memcpy(v0 + 14, v34, 10u);
    memcpy(v0 + 24, v35, 24u);
    return;
v117:;
    at(u8, v0) = 1;
    at(u8, v0 + 1) = 0;
    at(u8, v0 + 8) = v111;
    at(u8, v0 + 9) = v112;
    at(u16_1, v0 + 10) = v113;
    at(u8, v0 + 12) = v114;
    at(u8, v0 + 13) = v115;
    memcpy(v0 + 14, v15, 10u);
    memcpy(v0 + 24, v32, 24u);
    return;
v72:;
    at(u8, v0) = 1;
    at(u8, v0 + 1) = 0;
    at(u8, v0 + 8) = v68;
    at(u8, v0 + 9) = v69;
    at(u16_1, v0 + 10) = v66;
    at(u8, v0 + 12) = v67;
    at(u8, v0 + 13) = v70;
    memcpy(v0 + 14, v29, 10u);
    memcpy(v0 + 24, v30, 24u);
    return;
}

NOINLINE void commands_check_Report_of(u8 *v0, u8 *v1, u64 v2) {
    u8 v4[1], v7[6], v10[24], *v27, *v28, v67, v68;
    _Alignas(8) u8 v5[24], v6[8376], v8[24], v9[24], v12[144];
    _Alignas(2) u8 v11[10];
    u64 v30, v42, v55;
    u32 v66;
    memset(v8, 0, 24u);
    memset(v9, 0, 24u);
    memset(v12, 0, 144u);
    sfnt_bytes_directory_Directory_read(v8, v1, v2);
    if (!(at(u8, v8) == 0)) { v55 = 0; goto v16; }
    memset(v6, 0, 8376u);
    memset(v7, 0, 6);
    at(ptr, v5) = v4;
    memset(v5 + 8, 0, 16u);
    sfnt_bytes_directory_Directory_findings(v6, v8 + 8);
    sfnt_bytes_findings_FindingsIterator_next(v7, v6);
    if (!(at(u8, v7) == 1)) goto v22;
    v27 = v4; v30 = 0;
v26:;
    u8 v32 = at(u8, v7 + 1);
    u32 v33 = at(u32_1, v7 + 2);
    if (!(at(u64, v5 + 16) == v30)) { v28 = v27; v42 = v30; goto v29; }
    if (!std_alloc_vec_Vec_grow_amortized_b8e7(v5)) goto v39;
    v28 = at(ptr, v5); v42 = at(u64, v5 + 8); goto v29;
v39:;
    if (at(u64, v5 + 16) == 0) goto v50;
    sys_rattle_dealloc(at(ptr, v5));
v50:;
    at(u8, v0) = 1;
    memset(v0 + 8, 0, 48u);
    return;
v29:;
    u64 v43 = v42 * 5;
    at(u8, v28 + v43) = v32;
    at(u32_1, v28 + v43 + 1) = v33;
    u64 v31 = v42 + 1;
    at(u64, v5 + 8) = v31;
    sfnt_bytes_findings_FindingsIterator_next(v7, v6);
    if (at(u8, v7) == 1) { v27 = v28; v30 = v31; goto v26; }
v22:;
    memcpy(v10, v5, 24u);
    memcpy(v9, v10, 24u);
    v55 = 1;
v16:;
    font_file_font_Font_open(v12, v1, v2);
    if (!(at(u8, v12) == 0)) goto v59;
    memset(v11, 0, 10u);
    v66 = 0; v67 = 0; v68 = 0; goto v60;
v59:;
    u8 v63 = at(u8, v12 + 5);
    u8 v65 = at(u8, v12 + 4);
    memcpy(v11, v12 + 6, 10u);
    v66 = 1; v67 = v65; v68 = v63;
v60:;
    at(u8, v0) = 0;
    at(u64_1, v0 + 8) = v55;
    memcpy(v0 + 16, v9, 24u);
    at(u32_1, v0 + 40) = v66;
    at(u8, v0 + 44) = v67;
    at(u8, v0 + 45) = v68;
    memcpy(v0 + 46, v11, 10u);
    return;
}

void commands_drop_tables_without_tables(u8 *v0, u8 *v1, u8 *v2, u64 v3) {
    u8 v5[1], v7[31], v8[31], *v37, *v38, *v45, *v46, *v47, *v99, *v150, *v162, v259;
    _Alignas(8) u8 v6[24];
    u64 v48, v49, v59, v71, v74, v76, v102, v131, v132, v142, v118, v119, v148, v149, v75, v163, v171, v180, v181, v195, v196, v222, v233, v237, v245, v247;
    memset(v7, 0, 31u);
    memset(v8, 0, 31u);
    u8 *v9 = at(ptr_1, v1);
    u64 v10 = (u64)v9;
    u64 v12 = at(u64_1, v1 + 8);
    memset(v6, 0, 24u);
    u16 v14 = at(u16_1, v9 + 4);
    u64 v16 = (u64)bswap16(v14);
    if (!(v12 == 0)) goto v19;
    at(ptr, v6) = v5;
    memset(v6 + 8, 0, 16u);
    v37 = v6 + 16; v38 = v6 + 8; goto v22;
v19:;
    if (!((i64)v12 > (i64)0xffffffffffffffffu)) goto v25;
    u64_u64 v27 = sys_rattle_alloc(v12, 1);
    if (!(v27._0 & 1)) goto v25;
    u8 *v32 = (u8 *)v27._1;
    at(ptr, v6) = v32;
    at(u64, v6 + 8) = 0;
    at(u64, v6 + 16) = v12;
    if (v12 < 12u) { v37 = v6 + 16; v38 = v6 + 8; } else { v45 = v32; v46 = v6 + 16; v47 = v6 + 8; v48 = v12; v49 = 0; goto v36; }
v22:;
    if (!std_alloc_vec_Vec_grow_amortized_1cf2(v6, 12u)) goto v41;
    v45 = at(ptr, v6); v46 = v37; v47 = v38; v48 = at(u64, v37); v49 = at(u64, v38); goto v36;
v41:;
    if (at(u64, v37) == 0) goto v25;
    goto v70;
v36:;
    u64 v50 = v49 + 12u;
    memset(v47, 0, 16u);
    if ((((u64)(v45 + (i64)v49)) - ((u64)v9)) < 12u) v59 = 0; else goto v57;
v56:;
    at(u8, (v45 + (i64)v49) + v59) = at(u8, v9 + v59);
    u64 v60 = v59 + 1;
    if (v60 == 12u) goto v58;
    v59 = v60; goto v56;
v57:;
    memmove(v45 + (i64)v49, v9, 12u);
v58:;
    at(u64, v47) = v50;
    at(u64, v46) = v48;
    if (v14 == 0) { v180 = v50; v181 = v48; goto v66; }
    v71 = v50; v74 = v48; v76 = 0;
v67:;
    u64 v78 = v76 << 4;
    u32 v97 = (((((u32)at(u8, v9 + (i64)v78 + 15)) << 24u) | (((u32)at(u8, v9 + (i64)v78 + 14)) << 16u)) | (((u32)at(u8, v9 + (i64)v78 + 13)) << 8)) | ((u32)at(u8, v9 + (i64)v78 + 12));
    v99 = v2; v102 = v3;
v98:;
    if (!(v102 == 0)) goto v101;
    if (!((v74 - v71) < 4)) { v131 = v74; v132 = v71; goto v126; }
    if (!std_alloc_vec_Vec_grow_amortized_1cf2(v6, 4)) goto v115;
    v131 = at(u64, v46); v132 = at(u64, v47);
v126:;
    u8 *v133 = at(ptr, v6);
    memset(v47, 0, 16u);
    if ((((u64)(v133 + (i64)v132)) - ((u64)(v9 + (i64)v78 + 12))) < 4) v142 = 0; else goto v140;
v139:;
    at(u8, (v133 + (i64)v132) + v142) = at(u8, (v9 + (i64)v78 + 12) + v142);
    u64 v143 = v142 + 1;
    if (v143 == 4) { v148 = v132; v149 = v131; v150 = v133; goto v122; }
    v142 = v143; goto v139;
v140:;
    at(u32_1, v133 + (i64)v132) = at(u32_1, v9 + (i64)v78 + 12);
    v148 = v132; v149 = v131; v150 = v133; goto v122;
v101:;
    if (!(at(u32_1, v99) == v97)) { v99 = v99 + 4; v102 = v102 - 1; goto v98; }
    if (!((v74 - v71) < 4)) { v118 = v74; v119 = v71; goto v112; }
    if (!std_alloc_vec_Vec_grow_amortized_1cf2(v6, 4)) goto v115;
    v118 = at(u64, v46); v119 = at(u64, v47);
v112:;
    u8 *v120 = at(ptr, v6);
    at(u32_1, v120 + (i64)v119) = 538976288u;
    v148 = v119; v149 = v118; v150 = v120;
v122:;
    u64 v151 = v148 + 4;
    at(u64, v47) = v151;
    at(u64, v46) = v149;
    if (!((v149 - v151) < 12u)) { v162 = v150; v75 = v149; v163 = v151; goto v156; }
    if (!std_alloc_vec_Vec_grow_amortized_1cf2(v6, 12u)) goto v115;
    v162 = at(ptr, v6); v75 = at(u64, v46); v163 = at(u64, v47); goto v156;
v115:;
    if (at(u64, v46) == 0) goto v25;
    goto v70;
v156:;
    u64 v72 = v163 + 12u;
    memset(v47, 0, 16u);
    if ((((u64)(v162 + (i64)v163)) - ((u64)(v9 + (i64)v78 + 16))) < 12u) v171 = 0; else goto v170;
v169:;
    at(u8, (v162 + (i64)v163) + v171) = at(u8, (v9 + (i64)v78 + 16) + v171);
    u64 v172 = v171 + 1;
    if (v172 == 12u) goto v73;
    v171 = v172; goto v169;
v170:;
    memmove(v162 + (i64)v163, v9 + (i64)v78 + 16, 12u);
v73:;
    at(ptr, v6) = v162;
    at(u64, v47) = v72;
    at(u64, v46) = v75;
    u64 v77 = v76 + 1;
    if (v77 == v16) { v180 = v72; v181 = v75; } else { v71 = v72; v74 = v75; v76 = v77; goto v67; }
v66:;
    u64 v182 = v16 << 4;
    u64 v183 = v182 | 12u;
    u64 v185 = v12 - v183;
    if (!(v185 > (v181 - v180))) { v195 = v181; v196 = v180; goto v189; }
    if (!std_alloc_vec_Vec_grow_amortized_1cf2(v6, v185)) goto v192;
    v195 = at(u64, v46); v196 = at(u64, v47); goto v189;
v192:;
    if (at(u64, v46) == 0) goto v25;
v70:;
    sys_rattle_dealloc(at(ptr, v6));
    goto v25;
v189:;
    u64 v197 = v196 + v185;
    u8 *v198 = at(ptr, v6);
    u64 v199 = (u64)v198;
    memset(v47, 0, 16u);
    if (!((((u64)(v198 + (i64)v196)) - ((u64)(v9 + (i64)v183))) < v185)) goto v206;
    if (v185 < 4) { v245 = 0; goto v208; }
    if ((((v196 + v199) - 12u) - (v182 + v10)) < 32u) { v245 = 0; goto v208; }
    if (v185 < 16u) { v233 = 0; goto v217; }
    u64 v219 = v185 & 12u;
    u64 v220 = v185 & 0xfffffffffffffff0u;
    v222 = 0;
v221:;
    at(u8x16_1, (v198 + (i64)v196) + v222) = at(u8x16_1, (v9 + (i64)v183) + v222);
    u64 v223 = v222 + 16u;
    if (!(v223 == v220)) { v222 = v223; goto v221; }
    if (v185 == v220) goto v230;
    if (v219 == 0) { v245 = v220; goto v208; }
    v233 = v220;
v217:;
    u64 v234 = v12 & 3;
    u64 v235 = v185 - v234;
    v237 = v233;
v236:;
    at(u8x4_1, (v198 + (i64)v196) + v237) = at(u8x4_1, (v9 + (i64)v183) + v237);
    u64 v238 = v237 + 4;
    if (!(v238 == v235)) { v237 = v238; goto v236; }
    if (v234 == 0) goto v230;
    v245 = v235;
v208:;
    v247 = v245;
v246:;
    at(u8, (v198 + (i64)v196) + v247) = at(u8, (v9 + (i64)v183) + v247);
    u64 v248 = v247 + 1;
    if (v248 == v185) goto v230;
    v247 = v248; goto v246;
v206:;
    memmove_any(v198 + (i64)v196, v9 + (i64)v183, v185);
v230:;
    at(u64, v47) = v197;
    at(u64, v46) = v195;
    memcpy(v7 + 7, v6, 24u);
    memcpy(v8 + 7, v7 + 7, 24u);
    v259 = 0; goto v256;
v25:;
    v259 = 1;
v256:;
    at(u8, v0) = v259;
    memcpy(v0 + 8, v8 + 7, 24u);
    return;
}

void commands_show_shown_file(u8 *v0, u8 *v1, u64 v2) {
    _Alignas(8) u8 v4[288], v6[160], v7[352], v8[360], v9[24], v10[576], v11[576], v12[24], v13[56], v15[16], v16[136], v17[16], v19[144], v20[32];
    u8 v5[295], v143;
    _Alignas(2) u8 v14[138], v18[138];
    u64 v56, v70, v57;
    u32 v59, v61, v87, v88;
    memset(v15, 0, 16u);
    memset(v17, 0, 16u);
    memset(v19, 0, 144u);
    memset(v20, 0, 32u);
    font_file_font_Font_open(v19, v1, v2);
    u8 v23 = at(u8, v19 + 4);
    u8 v25 = at(u8, v19 + 5);
    u8 v21 = at(u8, v19);
    memset(v14, 0, 138u);
    if (!(v21 == 0)) goto v28;
    memcpy(v14 + 2, v19 + 8, 136u);
    memcpy(v18, v14, 138u);
    memcpy(v16, v18 + 2, 136u);
    memset(v13, 0, 56u);
    font_map_chart_Chart_of_3518(v13, v16 + 72);
    if (!(at(u8, v13) == 0)) goto v36;
    u8 *v47 = at(ptr, v13 + 24);
    u64 v49 = at(u64, v13 + 40);
    flag v53 = at(u8, v13 + 16) == 1;
    u8 *v54 = (u8 *)at(u64, v13 + 8);
    v56 = at(u64, v13 + 48); v59 = 0; v61 = 0;
v55:;
    memset(v12, 0, 24u);
    if (!v53) goto v64;
    if (!(v59 < 1114112u)) goto v67;
    v70 = (u64)v59;
v69:;
    if (!(at(u16, v47 + (v70 << 1)) == 0)) goto v77;
    u64 v71 = v70 + 1;
    if ((v71 & 0xffffffffu) == 1114112u) goto v67;
    v70 = v71; goto v69;
v77:;
    u32 v78 = (u32)v70;
    v57 = v56; v87 = v78; v88 = v78; goto v58;
v67:;
    if (v49 == 0) goto v86;
    sys_rattle_dealloc(v47);
    goto v86;
v64:;
    font_map_mapping_Mapping_piece_by_hint(v12, v54, v56, v59);
    if (at(u8, v12) == 1) { v57 = at(u64, v12 + 16); v87 = at(u32, v12 + 8); v88 = at(u32, v12 + 4); } else goto v86;
v58:;
    v56 = v57; v59 = v87 + 1; v61 = ((v61 + 1) + v87) - v88; goto v55;
v86:;
    memset(v10, 0, 576u);
    font_subset_font_of_kind_FontOfKind_plain(v10, 0, v16);
    memcpy(v11, v10, 576u);
    memset(v8, 0, 360u);
    memset(v9, 0, 24u);
    font_subset_kind_source_CutOfKind_new_991b(v8, v11, 0, (u8 *)0, v9);
    flag v94 = at(u8, v8) == 0;
    if (!v94) { v143 = 0; goto v96; }
    memcpy(v7, v8 + 8, 352u);
    u8 *v108 = at(ptr, v7 + 8);
    u8 v112 = font_subset_forms_form_of_file(at(u8, v7), v7, at(ptr_1, v108), at(u64_1, v108 + 8));
    u8 v114 = at(u8, v7 + 24);
    u8 *v116 = at(ptr, v7 + 32);
    u64 v118 = at(u64, v7 + 48);
    u8 v120 = at(u8, v7 + 64);
    u8 *v122 = at(ptr, v7 + 72);
    u64 v124 = at(u64, v7 + 88);
    u8 *v126 = at(ptr, v7 + 168);
    u64 v128 = at(u64, v7 + 184);
    memcpy(v6, v7 + 192, 160u);
    divided_tables_all_tables_MadeTables_drop_2de7(v6);
    if (v128 == 0) goto v131;
    sys_rattle_dealloc(v126);
v131:;
    if ((v114 != 1) ? 1 : (v118 == 0)) goto v136;
    sys_rattle_dealloc(v116);
v136:;
    if ((v120 != 1) ? 1 : (v124 == 0)) goto v141;
    sys_rattle_dealloc(v122);
v141:;
    v143 = v112;
v96:;
    u8 v145 = at(u8, v11 + 16);
    u8 v148 = at(u8, v11 + 312);
    u8 *v150 = at(ptr, v11 + 320);
    u64 v152 = at(u64, v11 + 336);
    u8 *v156 = at(ptr, v11 + 440);
    u64 v158 = at(u64, v11 + 456);
    u8 *v160 = at(ptr, v11 + 464);
    u64 v162 = at(u64, v11 + 480);
    u8 v154 = at(u8, v11 + 424);
    memcpy(v5, v11 + 17, 295u);
    if (!(v154 == 1)) goto v165;
    if (v158 == 0) goto v167;
    sys_rattle_dealloc(v156);
v167:;
    if (v162 == 0) goto v165;
    sys_rattle_dealloc(v160);
v165:;
    memcpy(v4, v5 + 7, 288u);
    if ((v148 != 1) ? 1 : (v152 == 0)) goto v175;
    sys_rattle_dealloc(v150);
v175:;
    if (!(v145 == 1)) goto v179;
    font_subset_further_tables_FixedTables_drop(v4);
v179:;
    if (!v94) goto v181;
    at(ptr, v17) = v16;
    at(u32, v17 + 8) = v61;
    at(u8, v17 + 12) = v143;
    commands_text_memory_AnyTextMemory_text_of(v20, v17);
    if (!(at(u8, v20) == 0)) goto v187;
    u8 v191 = at(u8, v20 + 8);
    u32 v193 = at(u32_1, v20 + 9);
    u8 v195 = at(u8, v20 + 13);
    u64 v198 = at(u64, v20 + 24);
    at(u64_1, v0) = 0;
    at(u8, v0 + 8) = v191;
    at(u32_1, v0 + 9) = v193;
    at(u8, v0 + 13) = v195;
    memcpy(v0 + 14, v20 + 14, 10u);
    at(u64_1, v0 + 24) = v198;
    memcpy(v0 + 32, v15, 16u);
    return;
v187:;
    at(u64_1, v0) = 1;
    at(u8, v0 + 8) = 1;
    memset(v0 + 9, 0, 39u);
    return;
v181:;
    at(u64_1, v0) = 1;
    at(u8, v0 + 8) = 1;
    memset(v0 + 9, 0, 39u);
    return;
v36:;
    at(u64_1, v0) = 1;
    at(u8, v0 + 8) = 1;
    memset(v0 + 9, 0, 39u);
    return;
v28:;
    memcpy(v14, v19 + 6, 10u);
    memcpy(v18, v14, 138u);
    at(u64_1, v0) = 1;
    at(u8, v0 + 8) = 3;
    at(u32_1, v0 + 9) = ((u32)v23) << 24u;
    at(u8, v0 + 13) = v25;
    memcpy(v0 + 14, v18, 10u);
    memset(v0 + 24, 0, 24u);
    return;
}

static COLD void commands_text_memory_AnyTextMemory_text_of(u8 *v0, u8 *v1) {
    u8 v3[31], v4[24];
    _Alignas(8) u8 v5[32];
    memset(v5, 0, 32u);
    std_alloc_fmt_AnyToString_to_string(v5, v1);
    u8 v6 = at(u8, v5);
    memset(v3, 0, 31u);
    if (!(v6 == 0)) goto v9;
    memcpy(v3 + 7, v5 + 8, 24u);
v9:;
    memcpy(v4, v3 + 7, 24u);
    at(u8, v0) = v6;
    memcpy(v0 + 8, v4, 24u);
    return;
}

static flag font_join_difference_is_same_head(u8 *v0, u64 v1, u8 *v2, u64 v3) {
    u64 v35, v44;
    if (!(at(u32_1, v0) == at(u32_1, v2))) return 0;
    if (!core_cmp_slices_groups_equal(v0, 8, v2)) return 0;
    if (!(at(u32_1, v0 + 12) == at(u32_1, v2 + 12))) return 0;
    if (!core_cmp_slices_groups_equal(v0 + 12, 38u, v2 + 12)) return 0;
    u64 v28 = v1 - 52u;
    if (!(v1 == v3)) return 0;
    if (!(v28 < 4)) goto v25;
    if (v28 == 0) return 1;
    v35 = 0;
v34:;
    if (!(at(u8, (v0 + 52) + (i64)v35) == at(u8, (v2 + 52) + (i64)v35))) { v44 = v35; goto v22; }
    u64 v36 = v35 + 1;
    if (v36 == v28) v44 = v28; else { v35 = v36; goto v34; }
v22:;
    return v44 >= v28;
v25:;
    if (!(at(u32_1, v0 + 52) == at(u32_1, v2 + 52))) return 0;
    flag v23 = core_cmp_slices_groups_equal(v0 + 52, v28, v2 + 52);
    return v23;
}

static void font_join_join_list_sized(u8 *v0, u8 *v1) {
    _Alignas(8) u8 v3[24], v4[24], v5[1064];
    u64 v31, v34, v52, v53, v65, v96, v101, v128;
    u8 *v48, v129;
    memcpy(v5, v1, 1064u);
    memset(v4, 0, 24u);
    u64 v7 = at(u64, v5 + 736);
    u64 v10 = ((v7 == 0) ? 4 : 0) + v7;
    u8 *v17 = at(ptr, v5 + 8);
    flag v20 = at(u8, v5 + 312) == 1;
    u8 v21 = at(u8, v5);
    flag v22 = v21 != 0;
    u8 v23 = at(u8, v5 + 872);
    flag v25 = v22 ? (v23 == 1) : 0;
    u64 v27 = (u64)v17;
    flag v28 = v22 ? (v23 != 1) : 0;
    u8 *v29 = v22 ? (v5 + 888) : (v5 + 328);
    v31 = 12u; v34 = 0;
v30:;
    u64 v38 = at(u64, (u8 *)table_faed1f12 + (v34 << 3));
    switch (v38) {
    case 1: goto v40;
    case 5: v96 = v10; goto v41;
    case 6: goto v42;
    case 9: goto v43;
    default: goto v39;
    }
v39:;
    font_join_union_UnionSource_copied(v3, v5, v38);
    if (at(u8, v3) == 1) { v96 = at(u64, v3 + 16); goto v41; }
    v101 = 0; goto v33;
v40:;
    if (!v20) goto v45;
    if (v28) { v52 = 0; v53 = 36u; goto v46; }
    v48 = v29; goto v47;
v45:;
    if (v25) v48 = v5 + 888; else { v52 = 0; v53 = 36u; goto v46; }
v47:;
    u64 v49 = at(u64, v48);
    v52 = v49; v53 = (v49 == 0) ? 36u : 44u;
v46:;
    v96 = (v53 + v52) & 0xffffffffu; goto v41;
v42:;
    u8 *v56 = at(ptr_1, v17);
    u16 v58 = at(u16_1, v56 + 4);
    u64 v60 = (u64)bswap16(v58);
    if (v58 == 0) { v96 = 0; goto v41; }
    v65 = 0;
v62:;
    u64 v67 = v65 << 4;
    if (!((((at(u8, v56 + (i64)v67 + 12) == 104u) & (at(u8, v56 + (i64)v67 + 13) == 101u)) & (at(u8, v56 + (i64)v67 + 14) == 97u)) & (at(u8, v56 + (i64)v67 + 15) == 100u))) goto v63;
    v96 = (u64)bswap32(at(u32_1, v56 + (i64)v67 + 24)); goto v41;
v63:;
    u64 v64 = v65 + 1;
    if (v64 == v60) { v96 = 0; goto v41; }
    v65 = v64; goto v62;
v43:;
    v96 = (((u64)at(u16, v17 + 64)) << 2) + 4;
v41:;
    v101 = (v96 + 16u) + (((u64)0 - v96) & 3);
v33:;
    u64 v32 = v101 + v31;
    u64 v35 = v34 + 1;
    if (!(v35 == 29u)) { v31 = v32; v34 = v35; goto v30; }
    if (!(uadd_sat64(((at(u64, v5 + 608) + at(u64, v5 + 584)) & 0xffffffffu) * 12u, v32) < 134217729u)) goto v114;
    v128 = v27; v129 = v21; goto v115;
v114:;
    font_write_size_file_size_092d(v4, v5);
    u64 v117 = at(u64, v4 + 16);
    if (!(v117 > 134217728u)) goto v120;
    font_join_union_Union_drop(v5);
    at(u64_1, v0) = 1;
    at(u8, v0 + 8) = 6;
    memset(v0 + 9, 0, 7);
    at(u64_1, v0 + 16) = v117;
    memset(v0 + 24, 0, 1048u);
    return;
v120:;
    v128 = at(u64, v5 + 8); v129 = at(u8, v5);
v115:;
    at(u64_1, v0) = 0;
    at(u8, v0 + 8) = v129;
    memcpy(v0 + 9, v5 + 1, 7);
    at(u64_1, v0 + 16) = v128;
    memcpy(v0 + 24, v5 + 16, 1048u);
    return;
}

void font_join_join_list_union_of_all(u8 *v0, u8 v1, u8 *v2, u8 *v3, u64 v4) {
    _Alignas(8) u8 v6[1], v7[32], v8[576], v9[144], v10[680], v11[24], v12[232], v13[232], v14[240], v15[240], v16[40], v17[40], v18[40], v20[8], v21[240], v22[240], v23[240], v24[240], v25[1048], v26[1064], v27[192], v28[160], v29[576], v30[40], v31[32], v32[160], v33[160], v34[160], v35[24], v36[32], v37[144], v38[136], v39[1048], v40[1064], v41[1064], v42[1064], v48[24], v49[24], v50[24], v53[24], v54[24], v55[24], v56[168], v57[160], v58[584], v59[1048], v60[1064], v61[576], v62[192], v63[200], v64[576], v65[576], v66[576], v67[144], v68[1072], v69[1064], v70[136], v72[1048], v73[1064], v74[680], v75[160], v76[160], v77[1072], v78[1064], v79[680], v80[160], v81[160], v82[680], v83[160], v84[160], v85[680], v86[160], v87[160], v88[168], v89[24], v90[16], v91[24], v92[584], v93[576], v94[192], v95[160], v96[160], v97[560], v98[200], v100[32], v102[576], v103[576], v104[576], v105[576], v106[576], v107[584], v108[160], v109[160], v110[680], v111[160], v112[160];
    _Alignas(4) u8 v19[16], v43[64], v44[20], v45[32], v46[16], v47[16], v51[16], v52[16];
    _Alignas(2) u8 v71[10];
    u8 v99[167], v101[584], *v241, *v291, *v292, *v295, *v349, *v401, *v455, *v510, *v542, *v597, *v669, *v672, *v704, *v711, *v714, *v717, *v720, *v723, *v829, *v1304, v1308, *v1423, *v1465, v1481, v1482, *v1642, *v1684, *v1711, *v1715, *v1721, v1729, *v1731, v1733, v1743, *v1744, *v1753, v1821, v1824, *v1841, *v1992, *v2018, *v2046, *v2072, *v2114, *v2145, v2483, v2485, v2490, v2493, v2501, *v2798, *v2814, *v2858, *v2873, *v2875, *v2913, *v2928, *v2930, *v2968, *v2977, *v2992, *v3008, v2723, v2724, v2725, v3050, v3052, v3053, v3055, v3056, v3059, v1365, v1366, v1367, v1368, v3087, v3088, v3090, v3091, *v3121, v3126, *v3151, v3158, v3141, v3162, *v3165, v169, v170, v171, v3172, v3173, v3175, v3176, v3193, *v3196;
    u64 v196, v262, v272, v275, v283, v285, v293, v296, v308, v370, v380, v383, v391, v393, v399, v402, v414, v476, v486, v489, v497, v499, v508, v511, v521, v562, v572, v575, v583, v585, v598, v646, v656, v659, v667, v673, v670, v671, v705, v706, v710, v712, v713, v715, v716, v718, v719, v721, v722, v724, v1297, v1300, v1302, v1306, v1310, v1312, v1314, v1316, v1375, v1394, v1424, v1436, v1466, v1502, v1521, v1594, v1613, v1643, v1655, v1685, v1697, v1698, v1712, v1714, v1720, v1730, v1748, v1749, v1745, v1754, v1762, v1781, v1911, v1918, v1931, v1934, v1941, v1962, v2110, v2111, v2115, v2141, v2142, v2146, v2155, v2188, v2190, v2206, v2208, v2221, v2222, v2223, v2230, v2231, v2244, v2246, v2262, v2264, v2277, v2278, v2279, v2286, v2287, v2297, v2302, v2316, v2319, v2338, v2340, v2356, v2358, v2371, v2372, v2373, v2395, v2397, v2413, v2415, v2428, v2429, v2430, v2451, v2458, v2471, v2474, v1963, v2537, v2797, v2813, v2815, v2816, v2828, v2859, v2871, v2874, v2876, v2877, v2883, v2914, v2926, v2929, v2931, v2932, v2938, v2969, v2976, v2978, v2979, v2991, v3007, v3009, v3010, v3049, v1364, v3093, v3107, v3113, v3114, v3118, v3119, v3120, v3122, v3123, v3124, v3125, v3149, v3150, v3152, v3153, v3154, v3155, v3156, v3157, v3140, v3142, v3143, v3159, v3160, v3161, v3163, v3164, v3166, v3167, v3168, v167, v3171, v3190, v3191, v3192, v3194, v3195, v3197, v3198, v3199;
    flag v294, v400, v509, v1710, v1716, v1722, v1732, v1819, v1820, v2544, v2612, v2613, v2799, v2857, v2912, v2967, v2993, v3051, v3086;
    u32 v1549, v1794, v1796, v1815, v1822, v1993, v2002, v2019, v2028, v2047, v2056, v2073, v2082, v2540, v2542, v3058;
    u16 v1791, v1959, v2482, v2486, v2491, v2492, v2502, v2872, v2927, v2726, v3048, v3054, v3057, v1363, v3089, v3092, v168, v3170, v3174;
    u8x16 v1920, v2460;
    memset(v107, 0, 584u);
    memset(v108, 0, 160u);
    memset(v109, 0, 160u);
    memset(v110, 0, 680u);
    memset(v111, 0, 160u);
    memset(v112, 0, 160u);
    memset(v93, 0, 576u);
    memset(v94, 0, 192u);
    memset(v95, 0, 160u);
    memset(v96, 0, 160u);
    memset(v99, 0, 167u);
    memset(v100, 0, 32u);
    memset(v101, 0, 584u);
    memset(v102, 0, 576u);
    memset(v103, 0, 576u);
    memset(v104, 0, 576u);
    memset(v105, 0, 576u);
    memset(v106, 0, 576u);
    memset(v92, 0, 584u);
    font_subset_font_of_kind_FontOfKind_open_f514(v92, v1, v2);
    if (!(at(u8, v92) == 0)) goto v116;
    u8 v131 = at(u8, v92 + 8);
    u8 v133 = at(u8, v92 + 9);
    u16 v135 = at(u16, v92 + 10);
    u8 v137 = at(u8, v92 + 12);
    u8 v139 = at(u8, v92 + 13);
    u16 v142 = at(u16, v92 + 14);
    u64 v144 = at(u64, v92 + 16);
    memcpy(v97, v92 + 24, 560u);
    at(u8, v93) = v131;
    at(u8, v93 + 1) = v133;
    at(u16, v93 + 2) = v135;
    at(u8, v93 + 4) = v137;
    at(u8, v93 + 5) = v139;
    at(u16, v93 + 6) = v142;
    at(u64, v93 + 8) = v144;
    memcpy(v93 + 16, v97, 560u);
    font_join_listed_Listed_new(v98, v93, 0);
    u8 v154 = at(u8, v98 + 8);
    u8 v157 = at(u8, v98 + 9);
    u16 v159 = at(u16, v98 + 10);
    u8 v161 = at(u8, v98 + 12);
    u8 v163 = at(u8, v98 + 13);
    if (!(at(u8, v98) == 0)) goto v166;
    at(u8, v94) = v154;
    at(u8, v94 + 1) = v157;
    at(u16, v94 + 2) = v159;
    at(u8, v94 + 4) = v161;
    at(u8, v94 + 5) = v163;
    memcpy(v94 + 6, v98 + 14, 10u);
    memcpy(v94 + 16, v98 + 24, 176u);
    flag v180 = v1 == 0;
    if (v180) { v710 = 0; v711 = (u8 *)0; v712 = 0; v713 = 0; v714 = (u8 *)0; v715 = 0; v716 = 0; v717 = (u8 *)0; v718 = 0; v719 = 0; v720 = (u8 *)0; v721 = 0; v722 = 0; v723 = (u8 *)0; v724 = 0; goto v181; }
    u8 *v184 = at(ptr, v94 + 8);
    u8 *v185 = at(ptr_1, v184);
    u64 v186 = (u64)v185;
    u16 v188 = at(u16_1, v185 + 4);
    u64 v190 = (u64)bswap16(v188);
    if (v188 == 0) goto v192;
    v196 = 0;
v193:;
    u64 v198 = v196 << 4;
    if (!((((at(u8, v185 + (i64)v198 + 12) == 104u) & (at(u8, v185 + (i64)v198 + 13) == 109u)) & (at(u8, v185 + (i64)v198 + 14) == 116u)) & (at(u8, v185 + (i64)v198 + 15) == 120u))) goto v194;
    u32 v223 = at(u32_1, v185 + (i64)v198 + 24);
    u32 v224 = bswap32(v223);
    u64 v225 = (u64)bswap32(at(u32_1, v185 + (i64)v198 + 20));
    u64 v226 = (u64)v224;
    if (v223 == 0) { v241 = v6; goto v231; }
    u64_u64 v234 = sys_rattle_alloc(v226, 1);
    if (!(v234._0 & 1)) goto v238;
    v241 = (u8 *)v234._1;
v231:;
    u64 v242 = (u64)v241;
    if (!((((u64)v241) - ((u64)(v185 + (i64)v225))) < v226)) goto v248;
    if (v224 < 4) { v283 = 0; goto v250; }
    if ((v242 - (v186 + v225)) < 32u) { v283 = 0; goto v250; }
    if (v224 < 16u) { v272 = 0; goto v257; }
    u64 v259 = v226 & 12u;
    u64 v260 = v226 & 0xfffffff0u;
    v262 = 0;
v261:;
    at(u8x16_1, v241 + v262) = at(u8x16_1, (v185 + (i64)v225) + v262);
    u64 v263 = v262 + 16u;
    if (!(v263 == v260)) { v262 = v263; goto v261; }
    if (v260 == v226) { v291 = v91 + 16; v292 = v91 + 8; v293 = 1; v294 = 0; v295 = v241; v296 = v226; goto v218; }
    if (v259 == 0) { v283 = v260; goto v250; }
    v272 = v260;
v257:;
    u64 v273 = v226 & 0xfffffffcu;
    v275 = v272;
v274:;
    at(u8x4_1, v241 + v275) = at(u8x4_1, (v185 + (i64)v225) + v275);
    u64 v276 = v275 + 4;
    if (!(v276 == v273)) { v275 = v276; goto v274; }
    if (v273 == v226) { v291 = v91 + 16; v292 = v91 + 8; v293 = 1; v294 = 0; v295 = v241; v296 = v226; goto v218; }
    v283 = v273;
v250:;
    v285 = v283;
v284:;
    at(u8, v241 + v285) = at(u8, (v185 + (i64)v225) + v285);
    u64 v286 = v285 + 1;
    if (v286 == v226) { v291 = v91 + 16; v292 = v91 + 8; v293 = 1; v294 = 0; v295 = v241; v296 = v226; goto v218; }
    v285 = v286; goto v284;
v248:;
    memmove_any(v241, v185 + (i64)v225, v226);
    v291 = v91 + 16; v292 = v91 + 8; v293 = 1; v294 = 0; v295 = v241; v296 = v226; goto v218;
v194:;
    u64 v195 = v196 + 1;
    if (!(v195 == v190)) { v196 = v195; goto v193; }
v192:;
    memset(v91, 0, 24u);
    v291 = v91 + 16; v292 = v91 + 8; v293 = 0; v294 = 1; v295 = (u8 *)0; v296 = 0;
v218:;
    u8 *v297 = at(ptr_1, v184);
    u64 v298 = (u64)v297;
    u16 v300 = at(u16_1, v297 + 4);
    u64 v302 = (u64)bswap16(v300);
    if (v300 == 0) goto v304;
    v308 = 0;
v305:;
    u64 v310 = v308 << 4;
    if (!((((at(u8, v297 + (i64)v310 + 12) == 112u) & (at(u8, v297 + (i64)v310 + 13) == 111u)) & (at(u8, v297 + (i64)v310 + 14) == 115u)) & (at(u8, v297 + (i64)v310 + 15) == 116u))) goto v306;
    u32 v333 = at(u32_1, v297 + (i64)v310 + 24);
    u32 v334 = bswap32(v333);
    u64 v335 = (u64)bswap32(at(u32_1, v297 + (i64)v310 + 20));
    u64 v336 = (u64)v334;
    at(u64, v91) = 1;
    at(ptr_1, v292) = v297 + (i64)v335;
    at(u64_1, v291) = v336;
    if (v333 == 0) { v349 = v6; goto v339; }
    u64_u64 v342 = sys_rattle_alloc(v336, 1);
    if (!(v342._0 & 1)) goto v346;
    v349 = (u8 *)v342._1;
v339:;
    u64 v350 = (u64)v349;
    if (!((((u64)v349) - ((u64)(v297 + (i64)v335))) < v336)) goto v356;
    if (v334 < 4) { v391 = 0; goto v358; }
    if ((v350 - (v298 + v335)) < 32u) { v391 = 0; goto v358; }
    if (v334 < 16u) { v380 = 0; goto v365; }
    u64 v367 = v336 & 12u;
    u64 v368 = v336 & 0xfffffff0u;
    v370 = 0;
v369:;
    at(u8x16_1, v349 + v370) = at(u8x16_1, (v297 + (i64)v335) + v370);
    u64 v371 = v370 + 16u;
    if (!(v371 == v368)) { v370 = v371; goto v369; }
    if (v368 == v336) { v399 = 1; v400 = 0; v401 = v349; v402 = v336; goto v328; }
    if (v367 == 0) { v391 = v368; goto v358; }
    v380 = v368;
v365:;
    u64 v381 = v336 & 0xfffffffcu;
    v383 = v380;
v382:;
    at(u8x4_1, v349 + v383) = at(u8x4_1, (v297 + (i64)v335) + v383);
    u64 v384 = v383 + 4;
    if (!(v384 == v381)) { v383 = v384; goto v382; }
    if (v381 == v336) { v399 = 1; v400 = 0; v401 = v349; v402 = v336; goto v328; }
    v391 = v381;
v358:;
    v393 = v391;
v392:;
    at(u8, v349 + v393) = at(u8, (v297 + (i64)v335) + v393);
    u64 v394 = v393 + 1;
    if (v394 == v336) { v399 = 1; v400 = 0; v401 = v349; v402 = v336; goto v328; }
    v393 = v394; goto v392;
v356:;
    memmove_any(v349, v297 + (i64)v335, v336);
    v399 = 1; v400 = 0; v401 = v349; v402 = v336; goto v328;
v346:;
    if (v294 | (v296 == 0)) goto v238;
    goto v507;
v306:;
    u64 v307 = v308 + 1;
    if (!(v307 == v302)) { v308 = v307; goto v305; }
v304:;
    at(ptr_1, v292) = (u8 *)0;
    at(u64_1, v291) = 0;
    v399 = 0; v400 = 1; v401 = (u8 *)0; v402 = 0;
v328:;
    u8 *v403 = at(ptr_1, v184);
    u64 v404 = (u64)v403;
    u16 v406 = at(u16_1, v403 + 4);
    u64 v408 = (u64)bswap16(v406);
    if (v406 == 0) goto v410;
    v414 = 0;
v411:;
    u64 v416 = v414 << 4;
    if (!((((at(u8, v403 + (i64)v416 + 12) == 118u) & (at(u8, v403 + (i64)v416 + 13) == 109u)) & (at(u8, v403 + (i64)v416 + 14) == 116u)) & (at(u8, v403 + (i64)v416 + 15) == 120u))) goto v412;
    u32 v439 = at(u32_1, v403 + (i64)v416 + 24);
    u32 v440 = bswap32(v439);
    u64 v441 = (u64)bswap32(at(u32_1, v403 + (i64)v416 + 20));
    u64 v442 = (u64)v440;
    at(u64, v91) = 1;
    at(ptr_1, v292) = v403 + (i64)v441;
    at(u64_1, v291) = v442;
    if (v439 == 0) { v455 = v6; goto v445; }
    u64_u64 v448 = sys_rattle_alloc(v442, 1);
    if (!(v448._0 & 1)) goto v452;
    v455 = (u8 *)v448._1;
v445:;
    u64 v456 = (u64)v455;
    if (!((((u64)v455) - ((u64)(v403 + (i64)v441))) < v442)) goto v462;
    if (v440 < 4) { v497 = 0; goto v464; }
    if ((v456 - (v404 + v441)) < 32u) { v497 = 0; goto v464; }
    if (v440 < 16u) { v486 = 0; goto v471; }
    u64 v473 = v442 & 12u;
    u64 v474 = v442 & 0xfffffff0u;
    v476 = 0;
v475:;
    at(u8x16_1, v455 + v476) = at(u8x16_1, (v403 + (i64)v441) + v476);
    u64 v477 = v476 + 16u;
    if (!(v477 == v474)) { v476 = v477; goto v475; }
    if (v474 == v442) { v508 = 1; v509 = 0; v510 = v455; v511 = v442; goto v434; }
    if (v473 == 0) { v497 = v474; goto v464; }
    v486 = v474;
v471:;
    u64 v487 = v442 & 0xfffffffcu;
    v489 = v486;
v488:;
    at(u8x4_1, v455 + v489) = at(u8x4_1, (v403 + (i64)v441) + v489);
    u64 v490 = v489 + 4;
    if (!(v490 == v487)) { v489 = v490; goto v488; }
    if (v487 == v442) { v508 = 1; v509 = 0; v510 = v455; v511 = v442; goto v434; }
    v497 = v487;
v464:;
    v499 = v497;
v498:;
    at(u8, v455 + v499) = at(u8, (v403 + (i64)v441) + v499);
    u64 v500 = v499 + 1;
    if (v500 == v442) { v508 = 1; v509 = 0; v510 = v455; v511 = v442; goto v434; }
    v499 = v500; goto v498;
v462:;
    memmove_any(v455, v403 + (i64)v441, v442);
    v508 = 1; v509 = 0; v510 = v455; v511 = v442; goto v434;
v452:;
    if (v400 | (v402 == 0)) goto v593;
    sys_rattle_dealloc(v401);
v593:;
    if (v294 | (v296 == 0)) goto v238;
    goto v507;
v412:;
    u64 v413 = v414 + 1;
    if (!(v413 == v408)) { v414 = v413; goto v411; }
v410:;
    at(ptr_1, v292) = (u8 *)0;
    at(u64_1, v291) = 0;
    v508 = 0; v509 = 1; v510 = (u8 *)0; v511 = 0;
v434:;
    memset(v89, 0, 24u);
    flag v514 = at(u8, v94 + 112) == 1;
    if (!v514) { v521 = 0; goto v516; }
    font_subset_font_of_kind_FontOfKind_further_6e0a(v89, at(ptr, v94 + 120), 28u);
    v521 = (u64)at(u8, v89);
v516:;
    memcpy(v90, v89 + 8, 16u);
    at(u64, v91) = v521;
    memcpy(v292, v90, 16u);
    u8 *v523 = at(ptr_1, v292);
    u64 v524 = (u64)v523;
    u64 v525 = at(u64_1, v291);
    if (v521 == 0) { v597 = (u8 *)0; v598 = 0; goto v527; }
    if (v525 == 0) { v542 = v6; goto v530; }
    if (!((i64)v525 > (i64)0xffffffffffffffffu)) goto v534;
    u64_u64 v536 = sys_rattle_alloc(v525, 1);
    if (!(v536._0 & 1)) goto v534;
    v542 = (u8 *)v536._1;
v530:;
    if (!((((u64)v542) - ((u64)v523)) < v525)) goto v548;
    if ((v525 < 4) ? 1 : ((((u64)v542) - v524) < 32u)) { v583 = 0; goto v554; }
    if (v525 < 16u) { v572 = 0; goto v557; }
    u64 v559 = v525 & 12u;
    u64 v560 = v525 & 0xfffffffffffffff0u;
    v562 = 0;
v561:;
    at(u8x16_1, v542 + v562) = at(u8x16_1, v523 + v562);
    u64 v563 = v562 + 16u;
    if (!(v563 == v560)) { v562 = v563; goto v561; }
    if (v525 == v560) { v597 = v542; v598 = v525; goto v527; }
    if (v559 == 0) { v583 = v560; goto v554; }
    v572 = v560;
v557:;
    u64 v573 = v525 & 0xfffffffffffffffcu;
    v575 = v572;
v574:;
    at(u8x4_1, v542 + v575) = at(u8x4_1, v523 + v575);
    u64 v576 = v575 + 4;
    if (!(v576 == v573)) { v575 = v576; goto v574; }
    if (v525 == v573) { v597 = v542; v598 = v525; goto v527; }
    v583 = v573;
v554:;
    v585 = v583;
v584:;
    at(u8, v542 + v585) = at(u8, v523 + v585);
    u64 v586 = v585 + 1;
    if (v586 == v525) { v597 = v542; v598 = v525; goto v527; }
    v585 = v586; goto v584;
v548:;
    memmove_any(v542, v523, v525);
    v597 = v542; v598 = v525;
v527:;
    if (!v514) { v704 = (u8 *)0; v705 = 0; v706 = 0; goto v600; }
    u8 *v602 = at(ptr, v94 + 120);
    u8 v604 = at(u8, v602 + 312);
    if (!(v604 == 1)) goto v607;
    u8 *v612 = at(ptr, v602 + 320);
    u64 v613 = (u64)v612;
    u64 v615 = at(u64, v602 + 328);
    at(u64, v91) = 1;
    at(ptr, v91 + 8) = v612;
    at(u64, v91 + 16) = v615;
    if (v615 == 0) { v669 = v6; v670 = 1; v671 = 0; v672 = v612; goto v610; }
    if (!((i64)v615 > (i64)0xffffffffffffffffu)) goto v622;
    u64_u64 v624 = sys_rattle_alloc(v615, 1);
    if (!(v624._0 & 1)) goto v622;
    u64 v628 = v624._1;
    u8 *v629 = (u8 *)v628;
    if (!((v628 - ((u64)v612)) < v615)) { v669 = v629; v670 = 1; v671 = v615; v672 = v612; goto v610; }
    if ((v615 < 4) | ((v628 - v613) < 32u)) { v667 = 0; goto v638; }
    if (v615 < 16u) { v656 = 0; goto v641; }
    u64 v643 = v615 & 12u;
    u64 v644 = v615 & 0x7ffffffffffffff0u;
    v646 = 0;
v645:;
    at(u8x16_1, v629 + v646) = at(u8x16_1, v612 + v646);
    u64 v647 = v646 + 16u;
    if (!(v647 == v644)) { v646 = v647; goto v645; }
    if (v615 == v644) { v704 = v629; v705 = v615; v706 = 1; goto v600; }
    if (v643 == 0) { v667 = v644; goto v638; }
    v656 = v644;
v641:;
    u64 v657 = v615 & 0x7ffffffffffffffcu;
    v659 = v656;
v658:;
    at(u8x4_1, v629 + v659) = at(u8x4_1, v612 + v659);
    u64 v660 = v659 + 4;
    if (!(v660 == v657)) { v659 = v660; goto v658; }
    if (v615 == v657) { v704 = v629; v705 = v615; v706 = 1; goto v600; }
    v667 = v657;
v638:;
    v673 = v667;
v668:;
    at(u8, v629 + v673) = at(u8, v612 + v673);
    u64 v674 = v673 + 1;
    if (v674 == v615) { v704 = v629; v705 = v615; v706 = 1; goto v600; }
    v673 = v674; goto v668;
v622:;
    if ((v521 != 1) ? 1 : (v598 == 0)) goto v692;
    sys_rattle_dealloc(v597);
v692:;
    if (v509 | (v511 == 0)) goto v696;
    sys_rattle_dealloc(v510);
v696:;
    if (v400 | (v402 == 0)) goto v700;
    sys_rattle_dealloc(v401);
v700:;
    if (v294 | (v296 == 0)) goto v238;
    goto v507;
v607:;
    if (v604 == 0) { v704 = (u8 *)0; v705 = 0; v706 = 0; goto v600; }
    v669 = v6; v670 = (u64)v604; v671 = 0; v672 = (u8 *)0;
v610:;
    memmove_any(v669, v672, v671);
    v704 = v669; v705 = v671; v706 = v670;
v600:;
    v710 = v521; v711 = v597; v712 = v598; v713 = v293; v714 = v295; v715 = v296; v716 = v399; v717 = v401; v718 = v402; v719 = v508; v720 = v510; v721 = v511; v722 = v706; v723 = v704; v724 = v705;
v181:;
    at(u64, v95) = v710;
    at(ptr, v95 + 8) = v711;
    at(u64, v95 + 16) = v712;
    at(u64, v95 + 24) = v712;
    at(u64, v95 + 32) = v713;
    at(ptr, v95 + 40) = v714;
    at(u64, v95 + 48) = v715;
    at(u64, v95 + 56) = v715;
    at(u64, v95 + 64) = v716;
    at(ptr, v95 + 72) = v717;
    at(u64, v95 + 80) = v718;
    at(u64, v95 + 88) = v718;
    at(u64, v95 + 96) = v719;
    at(ptr, v95 + 104) = v720;
    at(u64, v95 + 112) = v721;
    at(u64, v95 + 120) = v721;
    at(u64, v95 + 128) = v722;
    at(ptr, v95 + 136) = v723;
    at(u64, v95 + 144) = v724;
    at(u64, v95 + 152) = v724;
    memset(v88, 0, 168u);
    if (!v180) goto v745;
    memset(v99 + 7, 0, 160u);
    goto v747;
v745:;
    divided_tables_all_tables_MadeTables_frames(v88, v94);
    u8 v748 = at(u8, v88);
    memcpy(v99 + 7, v88 + 8, 160u);
    if (!(v748 == 0)) goto v752;
v747:;
    memcpy(v96, v99 + 7, 160u);
    u16 v786 = at(u16, at(ptr, v94 + 8) + 64);
    u64 v787 = (u64)v786;
    if (v786 == 0) { v829 = v6; goto v789; }
    u64 v791 = v787 * 24u;
    u64_u64 v793 = sys_rattle_alloc(v791, 8);
    if (!(v793._0 & 1)) goto v797;
    u8 *v799 = (u8 *)v793._1;
    memset_any(v799, 0, v791);
    v829 = v799;
v789:;
    at(ptr, v7) = v829;
    at(u64, v7 + 8) = v787;
    at(u64, v7 + 16) = v787;
    at(u64, v7 + 24) = 0;
    font_join_taken_outlines_Outlines_take(v7, v94, v786);
    u8 *v834 = at(ptr, v7);
    u64 v835 = at(u64, v7 + 8);
    u64 v836 = at(u64, v7 + 16);
    u64 v837 = at(u64, v7 + 24);
    font_join_listed_Listed_into_runs(v100, v94);
    if (!(at(u8, v100) == 0)) goto v841;
    u8 v875 = at(u8, v93);
    u8 v876 = at(u8, v93 + 1);
    u16 v877 = at(u16, v93 + 2);
    u8 v878 = at(u8, v93 + 4);
    u8 v879 = at(u8, v93 + 5);
    memcpy(v101, v93 + 16, 560u);
    memcpy(v101 + 560, v100 + 8, 24u);
    u16 v881 = at(u16, v93 + 6);
    u64 v882 = at(u64, v93 + 8);
    memcpy(v107, v101, 584u);
    memcpy(v108, v95, 160u);
    memcpy(v109, v99 + 7, 160u);
    memset(v82, 0, 680u);
    memset(v83, 0, 160u);
    memset(v84, 0, 160u);
    memset(v85, 0, 680u);
    memset(v86, 0, 160u);
    memset(v87, 0, 160u);
    at(u8, v78) = v875;
    at(u8, v78 + 1) = v876;
    at(u16, v78 + 2) = v877;
    at(u8, v78 + 4) = v878;
    at(u8, v78 + 5) = v879;
    at(u16, v78 + 6) = v881;
    at(u64, v78 + 8) = v882;
    memcpy(v78 + 16, v107, 584u);
    at(ptr, v78 + 600) = v6;
    memset(v78 + 608, 0, 16u);
    at(ptr, v78 + 624) = v6;
    memset(v78 + 632, 0, 16u);
    at(ptr, v78 + 648) = v6;
    memset(v78 + 656, 0, 56u);
    at(ptr, v78 + 712) = v834;
    at(u64, v78 + 720) = v835;
    at(u64, v78 + 728) = v836;
    at(u64, v78 + 736) = v837;
    memcpy(v78 + 744, v108, 160u);
    memcpy(v78 + 904, v109, 160u);
    memset(v77, 0, 1072u);
    memset(v79, 0, 680u);
    memset(v80, 0, 160u);
    memset(v81, 0, 160u);
    font_join_join_list_sized(v77, v78);
    if (!(at(u8, v77) == 0)) goto v906;
    u64 v907 = at(u64, v77 + 8);
    u64 v909 = at(u64, v77 + 16);
    u8 v911 = at(u8, v77 + 24);
    u64 v913 = load56(v77 + 25);
    u64 v915 = at(u64, v77 + 32);
    memcpy(v74, v77 + 40, 680u);
    u8 *v918 = at(ptr, v77 + 720);
    u64 v920 = at(u64, v77 + 728);
    u64 v922 = at(u64, v77 + 736);
    u64 v924 = at(u64, v77 + 744);
    memcpy(v75, v77 + 752, 160u);
    memcpy(v76, v77 + 912, 160u);
    if (!(v4 > 1)) { v3118 = v924; v3119 = v922; v3120 = v920; v3121 = v918; v3122 = v913; v3123 = v915; v3124 = v907; v3125 = v909; v3126 = v911; goto v929; }
    v1297 = v924; v1300 = v922; v1302 = v920; v1304 = v918; v1306 = 1; v1308 = v911; v1310 = v909; v1312 = v907; v1314 = v915; v1316 = v913;
v1290:;
    u64 v1318 = v1306 * 24u;
    u8 *v1320 = at(ptr, v3 + (i64)v1318);
    u64 v1322 = at(u64, v3 + (i64)v1318 + 8);
    at(u64, v69) = v1312;
    at(u64, v69 + 8) = v1310;
    at(u8, v69 + 16) = v1308;
    store56(v69 + 17, v1316);
    at(u64, v69 + 24) = v1314;
    memcpy(v69 + 32, v74, 680u);
    at(ptr, v69 + 712) = v1304;
    at(u64, v69 + 720) = v1302;
    at(u64, v69 + 728) = v1300;
    at(u64, v69 + 736) = v1297;
    memcpy(v69 + 744, v75, 160u);
    memcpy(v69 + 904, v76, 160u);
    memset(v68, 0, 1072u);
    memset(v70, 0, 136u);
    memset(v72, 0, 1048u);
    memset(v73, 0, 1064u);
    memset(v67, 0, 144u);
    font_file_font_Font_open(v67, v1320, v1322);
    if (!(at(u8, v67) == 0)) goto v1326;
    u8 v1327 = at(u8, v67 + 8);
    u8 v1328 = at(u8, v67 + 9);
    u16 v1329 = at(u16, v67 + 10);
    u8 v1330 = at(u8, v67 + 12);
    u8 v1331 = at(u8, v67 + 13);
    memcpy(v71, v67 + 14, 10u);
    memcpy(v70 + 16, v67 + 24, 120u);
    at(u8, v70) = v1327;
    at(u8, v70 + 1) = v1328;
    at(u16, v70 + 2) = v1329;
    at(u8, v70 + 4) = v1330;
    at(u8, v70 + 5) = v1331;
    memcpy(v70 + 6, v71, 10u);
    memset(v59, 0, 1048u);
    memset(v61, 0, 576u);
    memset(v62, 0, 192u);
    memset(v64, 0, 576u);
    memset(v65, 0, 576u);
    memset(v66, 0, 576u);
    memcpy(v60, v69, 1064u);
    u8 v1332 = at(u8, v60);
    memset(v58, 0, 584u);
    font_subset_font_of_kind_FontOfKind_open_f514(v58, v1332, v70);
    if (!(at(u8, v58) == 0)) goto v1336;
    u8 v1345 = at(u8, v58 + 8);
    u8 v1346 = at(u8, v58 + 9);
    u16 v1347 = at(u16, v58 + 10);
    u8 v1348 = at(u8, v58 + 12);
    u8 v1349 = at(u8, v58 + 13);
    u16 v1350 = at(u16, v58 + 14);
    u64 v1351 = at(u64, v58 + 16);
    memcpy(v61 + 16, v58 + 24, 560u);
    at(u8, v61) = v1345;
    at(u8, v61 + 1) = v1346;
    at(u16, v61 + 2) = v1347;
    at(u8, v61 + 4) = v1348;
    at(u8, v61 + 5) = v1349;
    at(u16, v61 + 6) = v1350;
    at(u64, v61 + 8) = v1351;
    font_join_listed_Listed_new(v63, v61, 1);
    u8 v1353 = at(u8, v63 + 8);
    u8 v1355 = at(u8, v63 + 9);
    u16 v1356 = at(u16, v63 + 10);
    u8 v1357 = at(u8, v63 + 12);
    u8 v1358 = at(u8, v63 + 13);
    u16 v1359 = at(u16, v63 + 14);
    u64 v1360 = at(u64, v63 + 16);
    if (!(at(u8, v63) == 0)) goto v1362;
    at(u8, v62) = v1353;
    at(u8, v62 + 1) = v1355;
    at(u16, v62 + 2) = v1356;
    at(u8, v62 + 4) = v1357;
    at(u8, v62 + 5) = v1358;
    at(u16, v62 + 6) = v1359;
    at(u64, v62 + 8) = v1360;
    memcpy(v62 + 16, v63 + 24, 176u);
    memset(v56, 0, 168u);
    memset(v57, 0, 160u);
    if (!(v1332 == 0)) goto v1372;
    u8 *v1373 = at(ptr, v60 + 8);
    v1375 = 0;
v1374:;
    u64 v1380 = at(u64, (u8 *)table_faed1f12 + (v1375 << 3));
    if (!(v1380 == 6)) goto v1383;
    u8 *v1384 = at(ptr_1, v1373);
    u16 v1386 = at(u16_1, v1384 + 4);
    u64 v1388 = (u64)bswap16(v1386);
    if (v1386 == 0) { v1423 = (u8 *)table_55ba7287; v1424 = 0; goto v1390; }
    v1394 = 0;
v1391:;
    u64 v1396 = v1394 << 4;
    if (!((((at(u8, v1384 + (i64)v1396 + 12) == 104u) & (at(u8, v1384 + (i64)v1396 + 13) == 101u)) & (at(u8, v1384 + (i64)v1396 + 14) == 97u)) & (at(u8, v1384 + (i64)v1396 + 15) == 100u))) goto v1392;
    v1423 = v1384 + (i64)((u64)bswap32(at(u32_1, v1384 + (i64)v1396 + 20))); v1424 = (u64)bswap32(at(u32_1, v1384 + (i64)v1396 + 24)); goto v1390;
v1392:;
    u64 v1393 = v1394 + 1;
    if (v1393 == v1388) { v1423 = (u8 *)table_55ba7287; v1424 = 0; } else { v1394 = v1393; goto v1391; }
v1390:;
    u8 *v1426 = at(ptr_1, at(ptr, v62 + 8));
    u16 v1428 = at(u16_1, v1426 + 4);
    u64 v1430 = (u64)bswap16(v1428);
    if (v1428 == 0) { v1465 = (u8 *)table_55ba7287; v1466 = 0; goto v1432; }
    v1436 = 0;
v1433:;
    u64 v1438 = v1436 << 4;
    if (!((((at(u8, v1426 + (i64)v1438 + 12) == 104u) & (at(u8, v1426 + (i64)v1438 + 13) == 101u)) & (at(u8, v1426 + (i64)v1438 + 14) == 97u)) & (at(u8, v1426 + (i64)v1438 + 15) == 100u))) goto v1434;
    v1465 = v1426 + (i64)((u64)bswap32(at(u32_1, v1426 + (i64)v1438 + 20))); v1466 = (u64)bswap32(at(u32_1, v1426 + (i64)v1438 + 24)); goto v1432;
v1434:;
    u64 v1435 = v1436 + 1;
    if (v1435 == v1430) { v1465 = (u8 *)table_55ba7287; v1466 = 0; } else { v1436 = v1435; goto v1433; }
v1432:;
    if (font_join_difference_is_same_head(v1423, v1424, v1465, v1466)) goto v1377;
    v1521 = 6; goto v1468;
v1383:;
    font_join_union_UnionSource_copied(v55, v69, v1380);
    memset(v54, 0, 24u);
    if (!(v1380 < 16u)) goto v1471;
    font_subset_accepted_copied(v54, at(ptr, v62 + 8), v1380);
    v1482 = at(u8, v54); goto v1474;
v1471:;
    memset(v53, 0, 24u);
    if (!(at(u8, v62 + 112) == 1)) { v1481 = 0; goto v1478; }
    font_subset_font_of_kind_FontOfKind_further_6e0a(v53, at(ptr, v62 + 120), v1380);
    v1481 = at(u8, v53);
v1478:;
    memcpy(v54 + 8, v53 + 8, 16u);
    v1482 = v1481;
v1474:;
    u8 *v1483 = at(ptr, v54 + 8);
    u64 v1484 = at(u64, v54 + 16);
    if (!(at(u8, v55) == 1)) goto v1488;
    if (!(v1482 == 1)) goto v1491;
    u8 *v1492 = at(ptr, v55 + 8);
    if (!(at(u64, v55 + 16) == v1484)) goto v1491;
    if (!(v1484 < 4)) goto v1498;
    if (v1484 == 0) goto v1500;
    v1502 = 0;
v1501:;
    if (!(at(u8, v1492 + (i64)v1502) == at(u8, v1483 + (i64)v1502))) goto v1510;
    u64 v1503 = v1502 + 1;
    if (v1503 == v1484) goto v1500;
    v1502 = v1503; goto v1501;
v1510:;
    if (v1502 < v1484) { v1521 = v1380; goto v1468; }
    goto v1377;
v1498:;
    if (!(at(u32_1, v1492) == at(u32_1, v1483))) goto v1491;
    if (core_cmp_slices_groups_equal(v1492, v1484, v1483)) goto v1377;
    v1521 = v1380; goto v1468;
v1488:;
    if (!(v1482 == 0)) goto v1491;
v1500:;
v1377:;
    u64 v1376 = v1375 + 1;
    if (!(v1376 == 29u)) { v1375 = v1376; goto v1374; }
    memset(v51, 0, 16u);
    font_join_listed_ListedSource_next_run(v51, v62, 0);
    if (!(at(u8, v51) == 1)) goto v1527;
v1526:;
    u32 v1528 = at(u32, v51 + 4);
    u32 v1529 = at(u32, v51 + 8);
    u16 v1530 = at(u16, v51 + 12);
    map_union_union_map_UnionMapPieces_piece(v52, v60 + 576, v1528);
    if (!(at(u8, v52) == 1)) goto v1527;
    u32 v1534 = at(u32, v52 + 4);
    u32 v1535 = at(u32, v52 + 8);
    if (v1529 < v1534) { v1549 = v1534; goto v1537; }
    if (!(((((u32)v1530) - v1528) + v1534) == ((u32)at(u16, v52 + 12)))) goto v1546;
    v1549 = umin32(v1529, v1535) + 1;
v1537:;
    font_join_listed_ListedSource_next_run(v51, v62, v1549);
    if (at(u8, v51) == 1) goto v1526;
    goto v1527;
v1546:;
    v3056 = 0; v3057 = 0; v3058 = v1534; v3059 = 3; goto v1818;
v1527:;
    goto v1552;
v1491:;
    v1521 = v1380;
v1468:;
    v1824 = (u8)v1521; goto v1523;
v1372:;
    divided_tables_all_tables_MadeTables_frames(v56, v62);
    if (!(at(u8, v56) == 0)) goto v1556;
    u8 v1557 = at(u8, v56 + 8);
    u64 v1558 = at(u64, v56 + 16);
    u64 v1559 = at(u64, v56 + 24);
    u64 v1560 = at(u64, v56 + 32);
    u8 v1561 = at(u8, v56 + 40);
    u64 v1562 = at(u64, v56 + 48);
    u64 v1563 = at(u64, v56 + 56);
    u64 v1564 = at(u64, v56 + 64);
    u8 v1565 = at(u8, v56 + 72);
    u64 v1566 = at(u64, v56 + 80);
    u64 v1567 = at(u64, v56 + 88);
    u64 v1568 = at(u64, v56 + 96);
    u8 v1569 = at(u8, v56 + 104);
    u64 v1570 = at(u64, v56 + 112);
    u64 v1571 = at(u64, v56 + 120);
    u64 v1572 = at(u64, v56 + 128);
    u8 v1573 = at(u8, v56 + 136);
    u64 v1574 = at(u64, v56 + 144);
    u64 v1575 = at(u64, v56 + 152);
    u64 v1576 = at(u64, v56 + 160);
    flag v1577 = v1573 == 1;
    flag v1578 = v1569 == 1;
    flag v1579 = v1565 == 1;
    flag v1580 = v1561 == 1;
    flag v1581 = v1557 == 1;
    flag v1583 = at(u8, v60 + 1032) == 1;
    flag v1585 = at(u8, v60 + 1000) == 1;
    flag v1587 = at(u8, v60 + 968) == 1;
    flag v1589 = at(u8, v60 + 936) == 1;
    flag v1591 = at(u8, v60 + 904) == 1;
    u8 *v1592 = at(ptr, v60 + 8);
    v1594 = 0;
v1593:;
    u64 v1599 = at(u64, (u8 *)table_faed1f12 + (v1594 << 3));
    if (!(v1599 == 6)) goto v1602;
    u8 *v1603 = at(ptr_1, v1592);
    u16 v1605 = at(u16_1, v1603 + 4);
    u64 v1607 = (u64)bswap16(v1605);
    if (v1605 == 0) { v1642 = (u8 *)table_55ba7287; v1643 = 0; goto v1609; }
    v1613 = 0;
v1610:;
    u64 v1615 = v1613 << 4;
    if (!((((at(u8, v1603 + (i64)v1615 + 12) == 104u) & (at(u8, v1603 + (i64)v1615 + 13) == 101u)) & (at(u8, v1603 + (i64)v1615 + 14) == 97u)) & (at(u8, v1603 + (i64)v1615 + 15) == 100u))) goto v1611;
    v1642 = v1603 + (i64)((u64)bswap32(at(u32_1, v1603 + (i64)v1615 + 20))); v1643 = (u64)bswap32(at(u32_1, v1603 + (i64)v1615 + 24)); goto v1609;
v1611:;
    u64 v1612 = v1613 + 1;
    if (v1612 == v1607) { v1642 = (u8 *)table_55ba7287; v1643 = 0; } else { v1613 = v1612; goto v1610; }
v1609:;
    u8 *v1645 = at(ptr_1, at(ptr, v62 + 8));
    u16 v1647 = at(u16_1, v1645 + 4);
    u64 v1649 = (u64)bswap16(v1647);
    if (v1647 == 0) { v1684 = (u8 *)table_55ba7287; v1685 = 0; goto v1651; }
    v1655 = 0;
v1652:;
    u64 v1657 = v1655 << 4;
    if (!((((at(u8, v1645 + (i64)v1657 + 12) == 104u) & (at(u8, v1645 + (i64)v1657 + 13) == 101u)) & (at(u8, v1645 + (i64)v1657 + 14) == 97u)) & (at(u8, v1645 + (i64)v1657 + 15) == 100u))) goto v1653;
    v1684 = v1645 + (i64)((u64)bswap32(at(u32_1, v1645 + (i64)v1657 + 20))); v1685 = (u64)bswap32(at(u32_1, v1645 + (i64)v1657 + 24)); goto v1651;
v1653:;
    u64 v1654 = v1655 + 1;
    if (v1654 == v1649) { v1684 = (u8 *)table_55ba7287; v1685 = 0; } else { v1655 = v1654; goto v1652; }
v1651:;
    if (font_join_difference_is_same_head(v1642, v1643, v1684, v1685)) goto v1596;
    v1781 = 6; goto v1687;
v1602:;
    font_join_union_UnionSource_copied(v50, v69, v1599);
    switch (v1599) {
    case 28u: goto v1689;
    case 8: goto v1690;
    case 12u: goto v1691;
    case 15u: goto v1692;
    case 29u: goto v1693;
    default: goto v1688;
    }
v1688:;
    v1710 = at(u8, v50) == 1; v1711 = at(ptr, v50 + 8); v1712 = at(u64, v50 + 16); goto v1703;
v1689:;
    if (v1591) { v1697 = 8; v1698 = 16u; goto v1694; }
    goto v1695;
v1690:;
    if (v1589) { v1697 = 40u; v1698 = 48u; goto v1694; }
    goto v1696;
v1691:;
    if (v1587) { v1697 = 72u; v1698 = 80u; goto v1694; }
    goto v1696;
v1692:;
    if (v1585) { v1697 = 104u; v1698 = 112u; goto v1694; }
v1696:;
    memset(v49, 0, 24u);
    v1714 = 0; v1715 = (u8 *)0; v1716 = 0; goto v1708;
v1693:;
    if (v1583) { v1697 = 136u; v1698 = 144u; } else goto v1695;
v1694:;
    v1710 = 1; v1711 = at(ptr, (v60 + 904) + (i64)v1697); v1712 = at(u64, (v60 + 904) + (i64)v1698);
v1703:;
    memset(v49, 0, 24u);
    if (v1599 < 16u) { v1714 = v1712; v1715 = v1711; v1716 = v1710; } else { v1720 = v1712; v1721 = v1711; v1722 = v1710; goto v1709; }
v1708:;
    font_subset_accepted_copied(v49, at(ptr, v62 + 8), v1599);
    v1730 = v1714; v1731 = v1715; v1732 = v1716; v1733 = at(u8, v49); goto v1719;
v1695:;
    at(u64, v49) = 0;
    v1720 = 0; v1721 = (u8 *)0; v1722 = 0;
v1709:;
    memset(v48, 0, 24u);
    if (!(at(u8, v62 + 112) == 1)) { v1729 = 0; goto v1726; }
    font_subset_font_of_kind_FontOfKind_further_6e0a(v48, at(ptr, v62 + 120), v1599);
    v1729 = at(u8, v48);
v1726:;
    memcpy(v49 + 8, v48 + 8, 16u);
    v1730 = v1720; v1731 = v1721; v1732 = v1722; v1733 = v1729;
v1719:;
    switch (v1599) {
    case 28u: goto v1737;
    case 8: goto v1738;
    case 12u: goto v1739;
    case 15u: goto v1740;
    case 29u: goto v1741;
    default: v1743 = v1733; v1744 = at(ptr, v49 + 8); v1745 = at(u64, v49 + 16); goto v1736;
    }
v1737:;
    if (v1581) { v1748 = v1558; v1749 = v1559; goto v1742; }
    v1743 = v1557; v1744 = (u8 *)0; v1745 = 0; goto v1736;
v1738:;
    if (v1580) { v1748 = v1562; v1749 = v1563; goto v1742; }
    v1743 = v1561; v1744 = (u8 *)0; v1745 = 0; goto v1736;
v1739:;
    if (v1579) { v1748 = v1566; v1749 = v1567; goto v1742; }
    v1743 = v1565; v1744 = (u8 *)0; v1745 = 0; goto v1736;
v1740:;
    if (v1578) { v1748 = v1570; v1749 = v1571; goto v1742; }
    v1743 = v1569; v1744 = (u8 *)0; v1745 = 0; goto v1736;
v1741:;
    if (v1577) { v1748 = v1574; v1749 = v1575; } else { v1743 = v1573; v1744 = (u8 *)0; v1745 = 0; goto v1736; }
v1742:;
    if (v1732) { v1753 = (u8 *)v1748; v1754 = v1749; goto v1751; }
    v1781 = v1599; goto v1687;
v1736:;
    if (!v1732) goto v1747;
    if (v1743 == 1) { v1753 = v1744; v1754 = v1745; } else { v1781 = v1599; goto v1687; }
v1751:;
    if (!(v1730 == v1754)) { v1781 = v1599; goto v1687; }
    if (!(v1730 < 4)) goto v1759;
    if (v1730 == 0) goto v1596;
    v1762 = 0;
v1761:;
    if (!(at(u8, v1731 + (i64)v1762) == at(u8, v1753 + (i64)v1762))) goto v1770;
    u64 v1763 = v1762 + 1;
    if (v1763 == v1730) goto v1596;
    v1762 = v1763; goto v1761;
v1770:;
    if (v1762 < v1730) { v1781 = v1599; goto v1687; }
    goto v1596;
v1759:;
    if (!(at(u32_1, v1731) == at(u32_1, v1753))) { v1781 = v1599; goto v1687; }
    if (core_cmp_slices_groups_equal(v1731, v1730, v1753)) goto v1596;
    v1781 = v1599; goto v1687;
v1747:;
    if (!(v1743 == 0)) { v1781 = v1599; goto v1687; }
v1596:;
    u64 v1595 = v1594 + 1;
    if (!(v1595 == 29u)) { v1594 = v1595; goto v1593; }
    memset(v46, 0, 16u);
    font_join_listed_ListedSource_next_run(v46, v62, 0);
    if (at(u8, v46) == 1) { v1791 = at(u16, v46 + 12); v1794 = at(u32, v46 + 8); v1796 = at(u32, v46 + 4); } else goto v1790;
v1789:;
    map_union_union_map_UnionMapPieces_piece(v47, v60 + 576, v1796);
    if (!(at(u8, v47) == 1)) goto v1790;
    u32 v1801 = at(u32, v47 + 4);
    u32 v1802 = at(u32, v47 + 8);
    if (v1794 < v1801) { v1815 = v1801; goto v1793; }
    if (!(((((u32)v1791) - v1796) + v1801) == ((u32)at(u16, v47 + 12)))) goto v1812;
    v1815 = umin32(v1794, v1802) + 1;
v1793:;
    memset(v46, 0, 16u);
    font_join_listed_ListedSource_next_run(v46, v62, v1815);
    if (at(u8, v46) == 1) { v1791 = at(u16, v46 + 12); v1794 = at(u32, v46 + 8); v1796 = at(u32, v46 + 4); goto v1789; }
    goto v1790;
v1812:;
    v1819 = 1; v1820 = 0; v1821 = 0; v1822 = v1801; goto v1783;
v1790:;
    v1819 = 0; v1820 = 1; v1821 = 0; v1822 = 0; goto v1783;
v1687:;
    v1819 = 1; v1820 = 1; v1821 = (u8)v1781; v1822 = 0;
v1783:;
    at(u8, v57) = v1557;
    memcpy(v57 + 1, v56 + 9, 7);
    at(u64, v57 + 8) = v1558;
    at(u64, v57 + 16) = v1559;
    at(u64, v57 + 24) = v1560;
    at(u8, v57 + 32) = v1561;
    memcpy(v57 + 33, v56 + 41, 7);
    at(u64, v57 + 40) = v1562;
    at(u64, v57 + 48) = v1563;
    at(u64, v57 + 56) = v1564;
    at(u8, v57 + 64) = v1565;
    memcpy(v57 + 65, v56 + 73, 7);
    at(u64, v57 + 72) = v1566;
    at(u64, v57 + 80) = v1567;
    at(u64, v57 + 88) = v1568;
    at(u8, v57 + 96) = v1569;
    memcpy(v57 + 97, v56 + 105, 7);
    at(u64, v57 + 104) = v1570;
    at(u64, v57 + 112) = v1571;
    at(u64, v57 + 120) = v1572;
    at(u8, v57 + 128) = v1573;
    memcpy(v57 + 129, v56 + 137, 7);
    at(u64, v57 + 136) = v1574;
    at(u64, v57 + 144) = v1575;
    at(u64, v57 + 152) = v1576;
    divided_tables_all_tables_MadeTables_drop_2de7(v57);
    if (!v1819) goto v1552;
    if (v1820) v1824 = v1821; else { v3056 = 0; v3057 = 0; v3058 = v1822; v3059 = 3; goto v1818; }
v1523:;
    u64 v1825 = (u64)v1824;
    if (!(v1824 < 16u)) goto v1828;
    at(u32, v43) = 841962319u;
    at(u32, v43 + 4) = 1885433187u;
    at(u32, v43 + 8) = 544503395u;
    at(u32, v43 + 12) = 1835495526u;
    at(u32, v43 + 16) = 1886609767u;
    at(u32, v43 + 20) = 1719233639u;
    at(u32, v43 + 24) = 1684104552u;
    at(u32, v43 + 28) = 1634035816u;
    at(u32, v43 + 32) = 2020896104u;
    at(u32, v43 + 36) = 1633906540u;
    at(u32, v43 + 40) = 1886937453u;
    at(u32, v43 + 44) = 1701667182u;
    at(u32, v43 + 48) = 1953722224u;
    at(u32, v43 + 52) = 1885696624u;
    at(u32, v43 + 56) = 1634035830u;
    at(u32, v43 + 60) = 2020896118u;
    v1841 = v43 + (v1825 << 2); goto v1831;
v1828:;
    if (!(v1824 < 21u)) goto v1834;
    at(u32, v44) = 1163084098u;
    at(u32, v44 + 4) = 1178944583u;
    at(u32, v44 + 8) = 1397706823u;
    at(u32, v44 + 12) = 1112888135u;
    at(u32, v44 + 16) = 1852990827u;
    v1841 = v44 + (i64)(v1825 << 2) - 64; goto v1831;
v1834:;
    at(u32, v45) = 1380013640u;
    at(u32, v45 + 4) = 1380013645u;
    at(u32, v45 + 8) = 1413567571u;
    at(u32, v45 + 12) = 1380013654u;
    at(u32, v45 + 16) = 1918989921u;
    at(u32, v45 + 20) = 1918989923u;
    at(u32, v45 + 24) = 1918989926u;
    at(u32, v45 + 28) = 1918989927u;
    v1841 = v45 + (i64)(v1825 << 2) - 84;
v1831:;
    u32 v1842 = at(u32_1, v1841);
    v3056 = (u8)v1842; v3057 = (u16)(v1842 >> 8); v3058 = v1842 >> 24u; v3059 = 2; goto v1818;
v1552:;
    memset(v25, 0, 1048u);
    memset(v28, 0, 160u);
    memset(v29, 0, 576u);
    memset(v30, 0, 40u);
    memset(v31, 0, 32u);
    memset(v32, 0, 160u);
    memset(v33, 0, 160u);
    memset(v34, 0, 160u);
    memset(v35, 0, 24u);
    memset(v36, 0, 32u);
    memset(v37, 0, 144u);
    memset(v38, 0, 136u);
    memset(v39, 0, 1048u);
    memset(v40, 0, 1064u);
    memset(v41, 0, 1064u);
    memset(v42, 0, 1064u);
    memcpy(v26, v60, 1064u);
    memcpy(v27, v62, 192u);
    memset(v23, 0, 240u);
    memset(v24, 0, 240u);
    if (at(u8, v26) == 0) { v2501 = 0; v2502 = 0; goto v1849; }
    divided_tables_all_tables_OpenTables_of_3b65(v23, v26);
    if (!(at(u8, v23) == 0)) goto v1854;
    u8 *v1855 = at(ptr, v23 + 8);
    u64 v1856 = at(u64, v23 + 24);
    u8 *v1857 = at(ptr, v23 + 40);
    u64 v1858 = at(u64, v23 + 56);
    u8 *v1860 = at(ptr, v23 + 104);
    u8 *v1862 = at(ptr, v23 + 128);
    u64 v1863 = at(u64, v23 + 136);
    u8 *v1866 = at(ptr, v23 + 176);
    u8 *v1867 = at(ptr, v23 + 192);
    flag v1869 = at(u8, v23 + 88) == 1;
    flag v1870 = at(u64, v23 + 120) == 0;
    flag v1871 = at(u64, v23 + 144) == 0;
    flag v1872 = at(u8, v23 + 152) == 1;
    flag v1873 = at(u8, v23 + 224) == 0;
    divided_tables_all_tables_OpenTables_of_08e2(v24, v27);
    if (!(at(u8, v24) == 0)) goto v1877;
    u8 *v1878 = at(ptr, v24 + 8);
    u64 v1879 = at(u64, v24 + 24);
    u8 *v1880 = at(ptr, v24 + 40);
    u64 v1881 = at(u64, v24 + 56);
    u8 *v1883 = at(ptr, v24 + 104);
    u8 *v1885 = at(ptr, v24 + 128);
    u64 v1886 = at(u64, v24 + 136);
    u8 *v1889 = at(ptr, v24 + 176);
    u8 *v1890 = at(ptr, v24 + 192);
    flag v1892 = at(u8, v24 + 152) == 1;
    flag v1893 = at(u8, v24 + 224) == 0;
    flag v1894 = at(u8, v24 + 88) == 1;
    flag v1895 = at(u64, v24 + 120) == 0;
    flag v1896 = at(u64, v24 + 144) == 0;
    u16 v1899 = at(u16, at(ptr, v27 + 8) + 64);
    u8 *v1900 = at(ptr, v27 + 168);
    u64 v1901 = at(u64, v27 + 176);
    if (v1901 == 0) { v1931 = 0; goto v1903; }
    if (at(u8, v1900) & 1) { v1941 = 0; goto v1907; }
    if (v1901 < 64u) { v1931 = 0; goto v1903; }
    v1911 = 0;
v1910:;
    if (v1911 == 0xffffffffffffffc0u) goto v1913;
    v1918 = 0; v1920 = (u8x16){0};
v1917:;
    u8x16 v1921 = v1920 | ((-(at(u8x16_1, (v1900 + (i64)v1911) + (i64)v1918) & 1)));
    u64 v1919 = v1918 + 16u;
    if (!(v1919 == 64u)) { v1918 = v1919; v1920 = v1921; goto v1917; }
    if (!(bits_u8x16(v1921) == 0)) { v1931 = v1911; goto v1903; }
v1913:;
    u64 v1912 = v1911 + 64u;
    if ((v1901 - v1912) < 64u) v1931 = v1912; else { v1911 = v1912; goto v1910; }
v1903:;
    if (v1931 < v1901) v1934 = v1931; else { v1941 = v1901; goto v1907; }
v1933:;
    if (at(u8, v1900 + v1934) & 1) { v1941 = v1934; goto v1907; }
    u64 v1935 = v1934 + 1;
    if (v1935 == v1901) v1941 = v1901; else { v1934 = v1935; goto v1933; }
v1907:;
    u16 v1942 = (u16)v1941;
    if (!(v1899 > v1942)) { v2482 = 0; v2483 = 0; goto v1945; }
    u16 v1948 = at(u16, at(ptr, v26 + 8) + 64);
    u64 v1949 = v1856 - 1;
    u64 v1950 = v1879 - 1;
    u64 v1951 = v1858 - 1;
    u64 v1952 = v1881 - 1;
    flag v1953 = v1856 == 0;
    flag v1954 = v1879 == 0;
    flag v1955 = v1858 == 0;
    flag v1956 = v1881 == 0;
    u8 *v1957 = at(ptr, v26 + 712);
    v1959 = v1942; v1962 = v1941;
v1958:;
    if (!(v1948 > v1959)) goto v1966;
    u64 v1967 = v1962 & 65535u;
    if (!(at(u8, v1957 + (i64)(v1967 * 24u)) & 1)) goto v1966;
    if (!(at(u8, v1900 + (i64)v1967) & 1)) goto v1966;
    if (v1953) { v2002 = 0; goto v1977; }
    if (!(v1967 < v1949)) goto v1981;
    u64 v1982 = v1967 << 2;
    v1992 = v1855 + v1982; v1993 = ((u32)at(u16_1, v1855 + v1982 + 2)) << 16u; goto v1988;
v1981:;
    v1992 = v1855 + ((v1967 + v1856) << 1); v1993 = 0;
v1988:;
    v2002 = ((((u32)at(u8, v1992 + 1)) << 8) | v1993) | ((u32)at(u8, v1992));
v1977:;
    if (v1954) { v2028 = 0; goto v2003; }
    if (!(v1967 < v1950)) goto v2007;
    u64 v2008 = v1967 << 2;
    v2018 = v1878 + v2008; v2019 = ((u32)at(u16_1, v1878 + v2008 + 2)) << 16u; goto v2014;
v2007:;
    v2018 = v1878 + ((v1967 + v1879) << 1); v2019 = 0;
v2014:;
    v2028 = ((((u32)at(u8, v2018 + 1)) << 8) | v2019) | ((u32)at(u8, v2018));
v2003:;
    if (!(v2002 == v2028)) { v2482 = v1959; v2483 = 1; goto v1945; }
    if (v1955) { v2056 = 0; goto v2031; }
    if (!(v1967 < v1951)) goto v2035;
    u64 v2036 = v1967 << 2;
    v2046 = v1857 + v2036; v2047 = ((u32)at(u16_1, v1857 + v2036 + 2)) << 16u; goto v2042;
v2035:;
    v2046 = v1857 + ((v1967 + v1858) << 1); v2047 = 0;
v2042:;
    v2056 = ((((u32)at(u8, v2046 + 1)) << 8) | v2047) | ((u32)at(u8, v2046));
v2031:;
    if (v1956) { v2082 = 0; goto v2057; }
    if (!(v1967 < v1952)) goto v2061;
    u64 v2062 = v1967 << 2;
    v2072 = v1880 + v2062; v2073 = ((u32)at(u16_1, v1880 + v2062 + 2)) << 16u; goto v2068;
v2061:;
    v2072 = v1880 + ((v1967 + v1881) << 1); v2073 = 0;
v2068:;
    v2082 = ((((u32)at(u8, v2072 + 1)) << 8) | v2073) | ((u32)at(u8, v2072));
v2057:;
    if (!(v2056 == v2082)) { v2482 = v1959; v2483 = 1; goto v1945; }
    if (!v1872) { v2114 = (u8 *)table_55ba7287; v2115 = 0; goto v2086; }
    if (!v1873) goto v2088;
    u64 v2089 = v1967 << 1;
    v2110 = ((u64)bswap16(at(u16_1, v1866 + (i64)v2089))) << 1; v2111 = ((u64)bswap16(at(u16_1, v1866 + (i64)v2089 + 2))) << 1; goto v2100;
v2088:;
    u64 v2101 = v1967 << 2;
    v2110 = (u64)bswap32(at(u32_1, v1866 + (i64)v2101)); v2111 = (u64)bswap32(at(u32_1, v1866 + (i64)v2101 + 4));
v2100:;
    v2114 = v1867 + (i64)v2110; v2115 = v2111 - v2110;
v2086:;
    if (!v1892) { v2145 = (u8 *)table_55ba7287; v2146 = 0; goto v2117; }
    if (!v1893) goto v2119;
    u64 v2120 = v1967 << 1;
    v2141 = ((u64)bswap16(at(u16_1, v1889 + (i64)v2120))) << 1; v2142 = ((u64)bswap16(at(u16_1, v1889 + (i64)v2120 + 2))) << 1; goto v2131;
v2119:;
    u64 v2132 = v1967 << 2;
    v2141 = (u64)bswap32(at(u32_1, v1889 + (i64)v2132)); v2142 = (u64)bswap32(at(u32_1, v1889 + (i64)v2132 + 4));
v2131:;
    v2145 = v1890 + (i64)v2141; v2146 = v2142 - v2141;
v2117:;
    if (!(v2115 == v2146)) { v2482 = v1959; v2483 = 1; goto v1945; }
    if (!(v2115 < 4)) goto v2151;
    if (v2115 == 0) goto v2153;
    v2155 = 0;
v2154:;
    if (!(at(u8, v2114 + (i64)v2155) == at(u8, v2145 + (i64)v2155))) goto v2163;
    u64 v2156 = v2155 + 1;
    if (v2156 == v2115) goto v2153;
    v2155 = v2156; goto v2154;
v2163:;
    if (v2155 < v2115) { v2482 = v1959; v2483 = 1; goto v1945; }
    goto v2153;
v2151:;
    if (!(at(u32_1, v2114) == at(u32_1, v2145))) { v2482 = v1959; v2483 = 1; goto v1945; }
    if (!core_cmp_slices_groups_equal(v2114, v2115, v2145)) { v2482 = v1959; v2483 = 1; goto v1945; }
v2153:;
    if (!v1869) goto v2172;
    u32 v2175 = (((u32)v1962) & 65535u) + 1;
    u64 v2176 = v1967 * 0x12100000000u;
    if (!v1894) goto v2178;
    switch (v1863) {
    case 0: v2230 = v1863; v2231 = v1863; goto v2180;
    case 1: goto v2181;
    default: v2188 = v1863; v2190 = 0; goto v2179;
    }
v2179:;
    u64 v2192 = v2188 >> 1;
    u64 v2193 = v2192 + v2190;
    u64 v2191 = (at(u64, v1862 + (i64)(v2193 << 3)) < v2176) ? v2193 : v2190;
    u64 v2189 = v2188 - v2192;
    if (v2189 > 1) { v2188 = v2189; v2190 = v2191; goto v2179; }
    u64 v2202 = at(u64, v1862 + (i64)(v2191 << 3));
    u64 v2204 = ((u64)v2175) * 0x12100000000u;
    v2206 = v1863; v2208 = 0;
v2205:;
    u64 v2210 = v2206 >> 1;
    u64 v2211 = v2210 + v2208;
    u64 v2209 = (at(u64, v1862 + (i64)(v2211 << 3)) < v2204) ? v2211 : v2208;
    u64 v2207 = v2206 - v2210;
    if (v2207 > 1) { v2206 = v2207; v2208 = v2209; goto v2205; }
    v2221 = v2204; v2222 = v2191 + ((u64)(v2202 < v2176)); v2223 = v2209; goto v2187;
v2181:;
    v2221 = ((u64)v2175) * 0x12100000000u; v2222 = (u64)(at(u64, v1862) < v2176); v2223 = 0;
v2187:;
    v2230 = v2222; v2231 = v2223 + ((u64)(at(u64, v1862 + (i64)(v2223 << 3)) < v2221));
v2180:;
    u64 v2232 = v2230 << 3;
    u64 v2234 = v2231 - v2230;
    switch (v1886) {
    case 0: v2286 = v1886; v2287 = v1886; goto v2236;
    case 1: goto v2237;
    default: v2244 = v1886; v2246 = 0; goto v2235;
    }
v2235:;
    u64 v2248 = v2244 >> 1;
    u64 v2249 = v2248 + v2246;
    u64 v2247 = (at(u64, v1885 + (i64)(v2249 << 3)) < v2176) ? v2249 : v2246;
    u64 v2245 = v2244 - v2248;
    if (v2245 > 1) { v2244 = v2245; v2246 = v2247; goto v2235; }
    u64 v2258 = at(u64, v1885 + (i64)(v2247 << 3));
    u64 v2260 = ((u64)v2175) * 0x12100000000u;
    v2262 = v1886; v2264 = 0;
v2261:;
    u64 v2266 = v2262 >> 1;
    u64 v2267 = v2266 + v2264;
    u64 v2265 = (at(u64, v1885 + (i64)(v2267 << 3)) < v2260) ? v2267 : v2264;
    u64 v2263 = v2262 - v2266;
    if (v2263 > 1) { v2262 = v2263; v2264 = v2265; goto v2261; }
    v2277 = v2260; v2278 = v2247 + ((u64)(v2258 < v2176)); v2279 = v2265; goto v2243;
v2237:;
    v2277 = ((u64)v2175) * 0x12100000000u; v2278 = (u64)(at(u64, v1885) < v2176); v2279 = 0;
v2243:;
    v2286 = v2278; v2287 = v2279 + ((u64)(at(u64, v1885 + (i64)(v2279 << 3)) < v2277));
v2236:;
    u64 v2288 = v2286 << 3;
    if (!(v2234 == (v2287 - v2286))) { v2485 = 1; v2486 = v1959; goto v2293; }
    if (v2234 > 3) v2297 = 0; else { v2316 = 0; goto v2296; }
v2295:;
    u64 v2298 = v2297 + 4;
    if (v2297 == 0xfffffffffffffffcu) goto v2299;
    v2302 = v2297;
v2301:;
    u64 v2305 = v2302 << 3;
    if (!(at(u64, (v1862 + (i64)v2232) + (i64)v2305) == at(u64, (v1885 + (i64)v2288) + (i64)v2305))) goto v2311;
    u64 v2303 = v2302 + 1;
    if (v2303 == v2298) goto v2299;
    v2302 = v2303; goto v2301;
v2311:;
    if (v2302 < v2298) { v2482 = v1959; v2483 = 1; goto v1945; }
v2299:;
    if ((v2234 - v2298) > 3) { v2297 = v2298; goto v2295; }
    v2316 = v2298;
v2296:;
    if (v2316 < v2234) v2319 = v2316; else goto v1966;
v2318:;
    u64 v2322 = v2319 << 3;
    if (!(at(u64, (v1862 + (i64)v2232) + (i64)v2322) == at(u64, (v1885 + (i64)v2288) + (i64)v2322))) goto v2328;
    u64 v2320 = v2319 + 1;
    if (v2320 == v2234) goto v1966;
    v2319 = v2320; goto v2318;
v2328:;
    if (v2319 < v2234) { v2482 = v1959; v2483 = 1; goto v1945; }
    goto v1966;
v2178:;
    switch (v1863) {
    case 0: goto v1966;
    case 1: goto v2331;
    default: v2338 = v1863; v2340 = 0; goto v2330;
    }
v2330:;
    u64 v2342 = v2338 >> 1;
    u64 v2343 = v2342 + v2340;
    u64 v2341 = (at(u64, v1862 + (i64)(v2343 << 3)) < v2176) ? v2343 : v2340;
    u64 v2339 = v2338 - v2342;
    if (v2339 > 1) { v2338 = v2339; v2340 = v2341; goto v2330; }
    u64 v2352 = at(u64, v1862 + (i64)(v2341 << 3));
    u64 v2354 = ((u64)v2175) * 0x12100000000u;
    v2356 = v1863; v2358 = 0;
v2355:;
    u64 v2360 = v2356 >> 1;
    u64 v2361 = v2360 + v2358;
    u64 v2359 = (at(u64, v1862 + (i64)(v2361 << 3)) < v2354) ? v2361 : v2358;
    u64 v2357 = v2356 - v2360;
    if (v2357 > 1) { v2356 = v2357; v2358 = v2359; goto v2355; }
    v2371 = v2354; v2372 = v2341 + ((u64)(v2352 < v2176)); v2373 = v2359; goto v2337;
v2331:;
    v2371 = ((u64)v2175) * 0x12100000000u; v2372 = (u64)(at(u64, v1862) < v2176); v2373 = 0;
v2337:;
    if ((v2373 + ((u64)(at(u64, v1862 + (i64)(v2373 << 3)) < v2371))) == v2372) goto v1966;
    v2492 = v1959; v2493 = 1; goto v2381;
v2172:;
    if (!v1894) goto v1966;
    u32 v2385 = (((u32)v1962) & 65535u) + 1;
    u64 v2386 = v1967 * 0x12100000000u;
    switch (v1886) {
    case 0: goto v1966;
    case 1: goto v2388;
    default: v2395 = v1886; v2397 = 0; goto v2387;
    }
v2387:;
    u64 v2399 = v2395 >> 1;
    u64 v2400 = v2399 + v2397;
    u64 v2398 = (at(u64, v1885 + (i64)(v2400 << 3)) < v2386) ? v2400 : v2397;
    u64 v2396 = v2395 - v2399;
    if (v2396 > 1) { v2395 = v2396; v2397 = v2398; goto v2387; }
    u64 v2409 = at(u64, v1885 + (i64)(v2398 << 3));
    u64 v2411 = ((u64)v2385) * 0x12100000000u;
    v2413 = v1886; v2415 = 0;
v2412:;
    u64 v2417 = v2413 >> 1;
    u64 v2418 = v2417 + v2415;
    u64 v2416 = (at(u64, v1885 + (i64)(v2418 << 3)) < v2411) ? v2418 : v2415;
    u64 v2414 = v2413 - v2417;
    if (v2414 > 1) { v2413 = v2414; v2415 = v2416; goto v2412; }
    v2428 = v2411; v2429 = v2398 + ((u64)(v2409 < v2386)); v2430 = v2416; goto v2394;
v2388:;
    v2428 = ((u64)v2385) * 0x12100000000u; v2429 = (u64)(at(u64, v1885) < v2386); v2430 = 0;
v2394:;
    if (!((v2430 + ((u64)(at(u64, v1885 + (i64)(v2430 << 3)) < v2428))) == v2429)) { v2485 = 1; v2486 = v1959; goto v2293; }
v1966:;
    u64 v2440 = (v1962 + 1) & 65535u;
    if (!(v1901 > v2440)) goto v2443;
    if (at(u8, v1900 + v2440) & 1) { v1963 = v2440; goto v1961; }
v2443:;
    if ((v1901 - v2440) < 64u) { v2471 = v2440; goto v2449; }
    v2451 = v2440;
v2450:;
    if (!(v2451 < 0xffffffffffffffc0u)) goto v2453;
    v2458 = 0; v2460 = (u8x16){0};
v2457:;
    u8x16 v2461 = v2460 | ((-(at(u8x16_1, (v1900 + (i64)v2451) + (i64)v2458) & 1)));
    u64 v2459 = v2458 + 16u;
    if (!(v2459 == 64u)) { v2458 = v2459; v2460 = v2461; goto v2457; }
    if (!(bits_u8x16(v2461) == 0)) { v2471 = v2451; goto v2449; }
v2453:;
    u64 v2452 = v2451 + 64u;
    if ((v1901 - v2452) < 64u) v2471 = v2452; else { v2451 = v2452; goto v2450; }
v2449:;
    if (v2471 < v1901) v2474 = v2471; else { v1963 = v1901; goto v1961; }
v2473:;
    if (at(u8, v1900 + v2474) & 1) { v1963 = v2474; goto v1961; }
    u64 v2475 = v2474 + 1;
    if (v2475 == v1901) v1963 = v1901; else { v2474 = v2475; goto v2473; }
v1961:;
    u16 v1960 = (u16)v1963;
    if (v1899 > v1960) { v1959 = v1960; v1962 = v1963; goto v1958; }
    v2482 = 0; v2483 = 0;
v1945:;
    if (v1894) { v2485 = v2483; v2486 = v2482; } else { v2490 = v2483; v2491 = v2482; goto v2484; }
v2293:;
    if (v1895) goto v2487;
    sys_rattle_dealloc(v1883);
v2487:;
    if (v1896) { v2490 = v2485; v2491 = v2486; goto v2484; }
    sys_rattle_dealloc(v1885);
    v2490 = v2485; v2491 = v2486;
v2484:;
    if (v1869) { v2492 = v2491; v2493 = v2490; } else { v2501 = v2490; v2502 = v2491; goto v1849; }
v2381:;
    if (v1870) goto v2494;
    sys_rattle_dealloc(v1860);
v2494:;
    if (v1871) { v2501 = v2493; v2502 = v2492; goto v1849; }
    sys_rattle_dealloc(v1862);
    v2501 = v2493; v2502 = v2492;
v1849:;
    memset(v21, 0, 240u);
    memset(v22, 0, 240u);
    if (!(at(u8, v26) > 1)) { v2613 = 0; goto v2506; }
    divided_tables_all_tables_OpenTables_of_3b65(v21, v26);
    if (!(at(u8, v21) == 0)) goto v2510;
    u8 v2511 = at(u8, v21 + 88);
    u8 *v2512 = at(ptr, v21 + 104);
    u64 v2513 = at(u64, v21 + 112);
    u64 v2514 = at(u64, v21 + 120);
    u8 *v2515 = at(ptr, v21 + 128);
    u64 v2516 = at(u64, v21 + 144);
    divided_tables_all_tables_OpenTables_of_08e2(v22, v27);
    if (!(at(u8, v22) == 0)) goto v2520;
    u8 *v2522 = at(ptr, v22 + 104);
    u64 v2523 = at(u64, v22 + 120);
    u8 *v2524 = at(ptr, v22 + 128);
    u64 v2525 = at(u64, v22 + 144);
    flag v2526 = v2511 == 1;
    flag v2527 = at(u8, v22 + 88) == 1;
    if (!(v2526 ? v2527 : 0)) goto v2530;
    u64 v2531 = at(u64, v22 + 112);
    at(ptr, v20) = v26;
    at(ptr, v18) = v20;
    at(ptr, v18 + 8) = v2512;
    at(u64, v18 + 16) = v2513;
    at(ptr, v18 + 24) = v2522;
    at(u64, v18 + 32) = v2531;
    memset(v19, 0, 16u);
    divided_tables_sequence_union_UnionPairsIterator_next_73ab(v19, v18);
    if (at(u8, v19) == 1) { v2537 = 0; v2540 = 0; v2542 = 0; v2544 = 0; } else goto v2535;
v2534:;
    u32 v2543 = at(u32, v19 + 4);
    u32 v2541 = at(u32, v19 + 8);
    if (!v2544) goto v2539;
    if (!(((((u64)v2542) * 1114112u) + ((u64)v2540)) == ((((u64)v2543) * 1114112u) + ((u64)v2541)))) goto v2539;
    goto v2556;
v2539:;
    u64 v2538 = v2537 + 1;
    divided_tables_sequence_union_UnionPairsIterator_next_73ab(v19, v18);
    if (at(u8, v19) == 1) { v2537 = v2538; v2540 = v2541; v2542 = v2543; v2544 = 1; goto v2534; }
    if (v2538 < 1048577u) goto v2530;
v2556:;
    if (v2523 == 0) goto v2581;
    sys_rattle_dealloc(v2522);
v2581:;
    if (v2525 == 0) goto v2584;
    sys_rattle_dealloc(v2524);
v2584:;
    if (v2514 == 0) goto v2587;
    sys_rattle_dealloc(v2512);
v2587:;
    if (v2516 == 0) { v2613 = 1; goto v2506; }
    v2612 = 1; goto v2579;
v2535:;
    goto v2536;
v2530:;
    if (!v2527) goto v2568;
v2536:;
    if (v2523 == 0) goto v2570;
    sys_rattle_dealloc(v2522);
v2570:;
    if (v2525 == 0) goto v2568;
    sys_rattle_dealloc(v2524);
v2568:;
    if (!v2526) { v2613 = 0; goto v2506; }
    if (v2514 == 0) goto v2576;
    sys_rattle_dealloc(v2512);
v2576:;
    if (v2516 == 0) { v2613 = 0; goto v2506; }
    v2612 = 0;
v2579:;
    sys_rattle_dealloc(v2515);
    v2613 = v2612; goto v2506;
v2520:;
    if (!(v2511 == 1)) goto v2510;
    if (v2514 == 0) goto v2564;
    sys_rattle_dealloc(v2512);
v2564:;
    if (v2516 == 0) goto v2510;
    sys_rattle_dealloc(v2515);
v2510:;
    u8 v2676 = at(u8, v27 + 24);
    u8 *v2677 = at(ptr, v27 + 32);
    u64 v2678 = at(u64, v27 + 48);
    u8 v2679 = at(u8, v27 + 64);
    u8 *v2680 = at(ptr, v27 + 72);
    u64 v2681 = at(u64, v27 + 88);
    if (at(u64, v27 + 184) == 0) goto v2684;
    sys_rattle_dealloc(at(ptr, v27 + 168));
v2684:;
    if ((v2676 != 1) ? 1 : (v2678 == 0)) goto v2690;
    sys_rattle_dealloc(v2677);
v2690:;
    if ((v2679 != 1) ? 1 : (v2681 == 0)) goto v2695;
    sys_rattle_dealloc(v2680);
v2695:;
    memcpy(v41, v26, 1064u);
    font_join_union_Union_drop(v41);
    memset(v59, 0, 1048u);
    v3048 = 0; v3049 = 0; v3050 = 0; v3051 = 0; v3052 = 7; v3053 = 0; v3054 = 0; v3055 = 0; goto v2611;
v2506:;
    memset(v14, 0, 240u);
    memset(v15, 0, 240u);
    memset(v16, 0, 40u);
    memset(v17, 0, 40u);
    divided_tables_all_tables_OpenTables_of_3b65(v14, v26);
    if (!(at(u8, v14) == 0)) goto v2617;
    memcpy(v12, v14 + 8, 232u);
    divided_tables_all_tables_OpenTables_of_08e2(v15, v27);
    if (!(at(u8, v15) == 0)) goto v2621;
    memcpy(v13, v15 + 8, 232u);
    tables_glyph_variations_GlyphVariationsPartedTable_united(v16, v12 + 144, v13 + 144, v26);
    u8 v2635 = at(u8, v16 + 8);
    if (!(at(u8, v16) == 0)) goto v2638;
    u8 *v2639 = at(ptr, v16 + 16);
    u64 v2640 = at(u64, v16 + 24);
    u64 v2641 = at(u64, v16 + 32);
    divided_tables_held_sequences_HeldSequencesPartedTable_united(v17, v12 + 72, v13 + 72, v26);
    if (!(at(u8, v17) == 0)) goto v2645;
    u8 v2646 = at(u8, v17 + 8);
    divided_tables_all_tables_OpenTables_drop(v15 + 8);
    divided_tables_all_tables_OpenTables_drop(v14 + 8);
    memcpy(v35, v17 + 16, 24u);
    at(u64, v28) = (u64)v2635;
    at(ptr, v28 + 8) = v2639;
    at(u64, v28 + 16) = v2640;
    at(u64, v28 + 24) = v2641;
    memset(v28 + 32, 0, 96u);
    at(u64, v28 + 128) = (u64)v2646;
    memcpy(v28 + 136, v35, 24u);
    u16 v2651 = at(u16, at(ptr, v26 + 8) + 64);
    memcpy(v29, v26, 576u);
    u8 *v2652 = at(ptr, v26 + 576);
    u64 v2653 = at(u64, v26 + 584);
    u64 v2654 = at(u64, v26 + 592);
    u8 *v2655 = at(ptr, v26 + 600);
    u64 v2656 = at(u64, v26 + 608);
    u64 v2657 = at(u64, v26 + 616);
    u8 *v2658 = at(ptr, v26 + 624);
    u64 v2659 = at(u64, v26 + 632);
    u64 v2660 = at(u64, v26 + 640);
    u8 *v2661 = at(ptr, v26 + 648);
    u64 v2662 = at(u64, v26 + 656);
    u64 v2663 = at(u64, v26 + 664);
    memcpy(v30, v26 + 672, 40u);
    memcpy(v31, v26 + 712, 32u);
    memcpy(v32, v26 + 744, 160u);
    memcpy(v33, v26 + 904, 160u);
    u8_u16 v2664 = font_join_taken_outlines_Outlines_take(v31, v27, v2651);
    u16 v2666 = v2664._1;
    flag v2668 = v2664._0 & 1;
    if (!(v2501 == 0)) goto v2670;
    if (v2668) { v2723 = 0; v2724 = 4; v2725 = 0; v2726 = v2666; goto v2699; }
    if (v2613) { v2723 = 112u; v2724 = 5; v2725 = 99u; v2726 = 24941u; goto v2699; }
    u8 v2765 = at(u8, v32);
    u8 *v2766 = at(ptr, v32 + 8);
    u64 v2767 = at(u64, v32 + 16);
    u64 v2768 = at(u64, v32 + 24);
    u8 v2769 = at(u8, v32 + 32);
    u8 *v2770 = at(ptr, v32 + 40);
    u64 v2771 = at(u64, v32 + 48);
    u64 v2772 = at(u64, v32 + 56);
    u8 v2773 = at(u8, v32 + 64);
    u8 *v2774 = at(ptr, v32 + 72);
    u64 v2775 = at(u64, v32 + 80);
    u64 v2776 = at(u64, v32 + 88);
    u8 v2777 = at(u8, v32 + 96);
    u8 *v2778 = at(ptr, v32 + 104);
    u64 v2779 = at(u64, v32 + 112);
    u64 v2780 = at(u64, v32 + 120);
    u8 v2781 = at(u8, v32 + 128);
    u8 *v2782 = at(ptr, v32 + 136);
    u64 v2783 = at(u64, v32 + 144);
    u64 v2784 = at(u64, v32 + 152);
    u8 *v2785 = at(ptr, v28 + 136);
    u64 v2786 = at(u64, v28 + 144);
    u64 v2787 = at(u64, v28 + 152);
    memset(v11, 0, 24u);
    flag v2789 = at(u8, v27 + 112) == 1;
    if (!v2789) { v2797 = 0; v2798 = (u8 *)0; v2799 = 0; goto v2791; }
    font_subset_font_of_kind_FontOfKind_further_6e0a(v11, at(ptr, v27 + 120), 28u);
    v2797 = at(u64, v11 + 16); v2798 = at(ptr, v11 + 8); v2799 = at(u8, v11) == 1;
v2791:;
    if (!(v2635 == 1)) goto v2802;
    if ((v2765 != 1) ? 1 : (v2768 == 0)) { v2813 = 1; v2814 = v2639; v2815 = v2640; v2816 = v2641; goto v2806; }
    sys_rattle_dealloc(v2766);
    v2813 = 1; v2814 = v2639; v2815 = v2640; v2816 = v2641; goto v2806;
v2802:;
    if (v2765 == 0) { v2813 = 0; v2814 = (u8 *)0; v2815 = 0; v2816 = 0; goto v2806; }
    divided_tables_all_tables_lay_over(v2766, v2767, v2799 ? v2798 : (u8 *)table_55ba7287, v2799 ? v2797 : 0);
    v2813 = (u64)v2765; v2814 = v2766; v2815 = v2767; v2816 = v2768;
v2806:;
    u8 *v2817 = at(ptr, v27 + 8);
    u8 *v2818 = at(ptr_1, v2817);
    u16 v2820 = at(u16_1, v2818 + 4);
    u64 v2822 = (u64)bswap16(v2820);
    if (v2820 == 0) { v2857 = 0; v2858 = (u8 *)0; v2859 = 0; goto v2824; }
    v2828 = 0;
v2825:;
    u64 v2830 = v2828 << 4;
    if (!((((at(u8, v2818 + (i64)v2830 + 12) == 104u) & (at(u8, v2818 + (i64)v2830 + 13) == 109u)) & (at(u8, v2818 + (i64)v2830 + 14) == 116u)) & (at(u8, v2818 + (i64)v2830 + 15) == 120u))) goto v2826;
    v2857 = 1; v2858 = v2818 + (i64)((u64)bswap32(at(u32_1, v2818 + (i64)v2830 + 20))); v2859 = (u64)bswap32(at(u32_1, v2818 + (i64)v2830 + 24)); goto v2824;
v2826:;
    u64 v2827 = v2828 + 1;
    if (v2827 == v2822) { v2857 = 0; v2858 = (u8 *)0; v2859 = 0; } else { v2828 = v2827; goto v2825; }
v2824:;
    if (v2769 == 0) { v2871 = v2822; v2872 = v2820; v2873 = v2818; v2874 = 0; v2875 = (u8 *)0; v2876 = 0; v2877 = 0; goto v2861; }
    divided_tables_all_tables_lay_over(v2770, v2771, v2857 ? v2858 : (u8 *)table_55ba7287, v2857 ? v2859 : 0);
    u8 *v2866 = at(ptr_1, v2817);
    u16 v2868 = at(u16_1, v2866 + 4);
    v2871 = (u64)bswap16(v2868); v2872 = v2868; v2873 = v2866; v2874 = (u64)v2769; v2875 = v2770; v2876 = v2771; v2877 = v2772;
v2861:;
    if (v2872 == 0) { v2912 = 0; v2913 = (u8 *)0; v2914 = 0; goto v2879; }
    v2883 = 0;
v2880:;
    u64 v2885 = v2883 << 4;
    if (!((((at(u8, v2873 + (i64)v2885 + 12) == 112u) & (at(u8, v2873 + (i64)v2885 + 13) == 111u)) & (at(u8, v2873 + (i64)v2885 + 14) == 115u)) & (at(u8, v2873 + (i64)v2885 + 15) == 116u))) goto v2881;
    v2912 = 1; v2913 = v2873 + (i64)((u64)bswap32(at(u32_1, v2873 + (i64)v2885 + 20))); v2914 = (u64)bswap32(at(u32_1, v2873 + (i64)v2885 + 24)); goto v2879;
v2881:;
    u64 v2882 = v2883 + 1;
    if (v2882 == v2871) { v2912 = 0; v2913 = (u8 *)0; v2914 = 0; } else { v2883 = v2882; goto v2880; }
v2879:;
    if (v2773 == 0) { v2926 = v2871; v2927 = v2872; v2928 = v2873; v2929 = 0; v2930 = (u8 *)0; v2931 = 0; v2932 = 0; goto v2916; }
    divided_tables_all_tables_lay_over(v2774, v2775, v2912 ? v2913 : (u8 *)table_55ba7287, v2912 ? v2914 : 0);
    u8 *v2921 = at(ptr_1, v2817);
    u16 v2923 = at(u16_1, v2921 + 4);
    v2926 = (u64)bswap16(v2923); v2927 = v2923; v2928 = v2921; v2929 = (u64)v2773; v2930 = v2774; v2931 = v2775; v2932 = v2776;
v2916:;
    if (v2927 == 0) { v2967 = 0; v2968 = (u8 *)0; v2969 = 0; goto v2934; }
    v2938 = 0;
v2935:;
    u64 v2940 = v2938 << 4;
    if (!((((at(u8, v2928 + (i64)v2940 + 12) == 118u) & (at(u8, v2928 + (i64)v2940 + 13) == 109u)) & (at(u8, v2928 + (i64)v2940 + 14) == 116u)) & (at(u8, v2928 + (i64)v2940 + 15) == 120u))) goto v2936;
    v2967 = 1; v2968 = v2928 + (i64)((u64)bswap32(at(u32_1, v2928 + (i64)v2940 + 20))); v2969 = (u64)bswap32(at(u32_1, v2928 + (i64)v2940 + 24)); goto v2934;
v2936:;
    u64 v2937 = v2938 + 1;
    if (v2937 == v2926) { v2967 = 0; v2968 = (u8 *)0; v2969 = 0; } else { v2938 = v2937; goto v2935; }
v2934:;
    if (v2777 == 0) { v2976 = 0; v2977 = (u8 *)0; v2978 = 0; v2979 = 0; goto v2971; }
    divided_tables_all_tables_lay_over(v2778, v2779, v2967 ? v2968 : (u8 *)table_55ba7287, v2967 ? v2969 : 0);
    v2976 = (u64)v2777; v2977 = v2778; v2978 = v2779; v2979 = v2780;
v2971:;
    if (!v2789) { v2991 = 0; v2992 = (u8 *)0; v2993 = 0; goto v2981; }
    u8 *v2982 = at(ptr, v27 + 120);
    if (!(at(u8, v2982 + 312) == 1)) { v2991 = 0; v2992 = (u8 *)0; v2993 = 0; goto v2981; }
    v2991 = at(u64, v2982 + 328); v2992 = at(ptr, v2982 + 320); v2993 = 1;
v2981:;
    if (!(v2646 == 1)) goto v2996;
    if ((v2781 != 1) ? 1 : (v2784 == 0)) { v3007 = 1; v3008 = v2785; v3009 = v2786; v3010 = v2787; goto v3000; }
    sys_rattle_dealloc(v2782);
    v3007 = 1; v3008 = v2785; v3009 = v2786; v3010 = v2787; goto v3000;
v2996:;
    if (v2781 == 0) { v3007 = 0; v3008 = (u8 *)0; v3009 = 0; v3010 = 0; goto v3000; }
    divided_tables_all_tables_lay_over(v2782, v2783, v2993 ? v2992 : (u8 *)table_55ba7287, v2993 ? v2991 : 0);
    v3007 = (u64)v2781; v3008 = v2782; v3009 = v2783; v3010 = v2784;
v3000:;
    at(u64, v34) = v2813;
    at(ptr, v34 + 8) = v2814;
    at(u64, v34 + 16) = v2815;
    at(u64, v34 + 24) = v2816;
    at(u64, v34 + 32) = v2874;
    at(ptr, v34 + 40) = v2875;
    at(u64, v34 + 48) = v2876;
    at(u64, v34 + 56) = v2877;
    at(u64, v34 + 64) = v2929;
    at(ptr, v34 + 72) = v2930;
    at(u64, v34 + 80) = v2931;
    at(u64, v34 + 88) = v2932;
    at(u64, v34 + 96) = v2976;
    at(ptr, v34 + 104) = v2977;
    at(u64, v34 + 112) = v2978;
    at(u64, v34 + 120) = v2979;
    at(u64, v34 + 128) = v3007;
    at(ptr, v34 + 136) = v3008;
    at(u64, v34 + 144) = v3009;
    at(u64, v34 + 152) = v3010;
    font_join_listed_Listed_into_runs(v36, v27);
    if (!(at(u8, v36) == 0)) goto v3014;
    at(ptr, v38) = v2652;
    at(u64, v38 + 8) = v2653;
    at(u64, v38 + 16) = v2654;
    at(ptr, v38 + 24) = v2655;
    at(u64, v38 + 32) = v2656;
    at(u64, v38 + 40) = v2657;
    at(ptr, v38 + 48) = v2658;
    at(u64, v38 + 56) = v2659;
    at(u64, v38 + 64) = v2660;
    at(ptr, v38 + 72) = v2661;
    at(u64, v38 + 80) = v2662;
    at(u64, v38 + 88) = v2663;
    memcpy(v38 + 96, v30, 40u);
    map_union_union_map_UnionMap_with(v37, v38, v36 + 8);
    if (!(at(u8, v37) == 0)) goto v3018;
    u8 v3036 = at(u8, v29);
    u8 v3037 = at(u8, v29 + 1);
    u16 v3038 = at(u16, v29 + 2);
    u8 v3039 = at(u8, v29 + 4);
    memcpy(v39, v29 + 16, 560u);
    memcpy(v39 + 560, v37 + 8, 136u);
    memcpy(v39 + 696, v31, 32u);
    memcpy(v39 + 728, v34, 160u);
    memcpy(v39 + 888, v33, 160u);
    u8 v3040 = at(u8, v29 + 5);
    u16 v3041 = at(u16, v29 + 6);
    u64 v3042 = at(u64, v29 + 8);
    memcpy(v59, v39, 1048u);
    v3048 = v3041; v3049 = v3042; v3050 = v3040; v3051 = 1; v3052 = v3036; v3053 = v3037; v3054 = v3038; v3055 = v3039; goto v2611;
v3018:;
    divided_tables_all_tables_MadeTables_drop_2de7(v34);
    divided_tables_all_tables_MadeTables_drop_2de7(v33);
    if (at(u64, v31 + 16) == 0) goto v3045;
    sys_rattle_dealloc(at(ptr, v31));
v3045:;
    font_subset_font_of_kind_FontOfKind_drop_b0ec(v29);
    memset(v59, 0, 1048u);
    v3048 = 0; v3049 = 0; v3050 = 0; v3051 = 0; v3052 = 7; v3053 = 0; v3054 = 0; v3055 = 0; goto v2611;
v3014:;
    divided_tables_all_tables_MadeTables_drop_2de7(v34);
    divided_tables_all_tables_MadeTables_drop_2de7(v33);
    if (at(u64, v31 + 16) == 0) goto v3021;
    sys_rattle_dealloc(at(ptr, v31));
v3021:;
    if (v2654 == 0) goto v3025;
    sys_rattle_dealloc(v2652);
v3025:;
    if (v2657 == 0) goto v3028;
    sys_rattle_dealloc(v2655);
v3028:;
    if (v2660 == 0) goto v3031;
    sys_rattle_dealloc(v2658);
v3031:;
    if (v2663 == 0) goto v3034;
    sys_rattle_dealloc(v2661);
v3034:;
    font_subset_font_of_kind_FontOfKind_drop_b0ec(v29);
    memset(v59, 0, 1048u);
    v3048 = 0; v3049 = 0; v3050 = 0; v3051 = 0; v3052 = 7; v3053 = 0; v3054 = 0; v3055 = 0; goto v2611;
v2670:;
    v2723 = 0; v2724 = 4; v2725 = 0; v2726 = v2668 ? umin16(v2666, v2502) : v2502;
v2699:;
    divided_tables_all_tables_MadeTables_drop_2de7(v33);
    divided_tables_all_tables_MadeTables_drop_2de7(v32);
    if (at(u64, v31 + 16) == 0) goto v2729;
    sys_rattle_dealloc(at(ptr, v31));
v2729:;
    if (v2654 == 0) goto v2733;
    sys_rattle_dealloc(v2652);
v2733:;
    if (v2657 == 0) goto v2736;
    sys_rattle_dealloc(v2655);
v2736:;
    if (v2660 == 0) goto v2739;
    sys_rattle_dealloc(v2658);
v2739:;
    if (v2663 == 0) goto v2742;
    sys_rattle_dealloc(v2661);
v2742:;
    font_subset_font_of_kind_FontOfKind_drop_b0ec(v29);
    divided_tables_all_tables_MadeTables_drop_2de7(v28);
    u8 v2744 = at(u8, v27 + 24);
    u8 *v2745 = at(ptr, v27 + 32);
    u64 v2746 = at(u64, v27 + 48);
    u8 v2747 = at(u8, v27 + 64);
    u8 *v2748 = at(ptr, v27 + 72);
    u64 v2749 = at(u64, v27 + 88);
    if (at(u64, v27 + 184) == 0) goto v2752;
    sys_rattle_dealloc(at(ptr, v27 + 168));
v2752:;
    if ((v2744 != 1) ? 1 : (v2746 == 0)) goto v2758;
    sys_rattle_dealloc(v2745);
v2758:;
    if ((v2747 != 1) ? 1 : (v2749 == 0)) goto v2763;
    sys_rattle_dealloc(v2748);
v2763:;
    memcpy(v59, v25, 1048u);
    v3048 = 0; v3049 = 0; v3050 = 0; v3051 = 0; v3052 = v2724; v3053 = v2725; v3054 = v2726; v3055 = v2723; goto v2611;
v2645:;
    if ((v2635 != 1) ? 1 : (v2641 == 0)) goto v2674;
    sys_rattle_dealloc(v2639);
v2674:;
    divided_tables_all_tables_OpenTables_drop(v15 + 8);
    divided_tables_all_tables_OpenTables_drop(v14 + 8);
    goto v2617;
v2638:;
    divided_tables_all_tables_OpenTables_drop(v15 + 8);
    divided_tables_all_tables_OpenTables_drop(v14 + 8);
    goto v2617;
v2621:;
    u8 *v2623 = at(ptr, v12 + 96);
    u8 *v2624 = at(ptr, v12 + 120);
    u64 v2625 = at(u64, v12 + 136);
    if (!(at(u8, v12 + 80) == 1)) goto v2617;
    if (at(u64, v12 + 112) == 0) goto v2630;
    sys_rattle_dealloc(v2623);
v2630:;
    if (v2625 == 0) goto v2617;
    sys_rattle_dealloc(v2624);
v2617:;
    u8 v2702 = at(u8, v27 + 24);
    u8 *v2703 = at(ptr, v27 + 32);
    u64 v2704 = at(u64, v27 + 48);
    u8 v2705 = at(u8, v27 + 64);
    u8 *v2706 = at(ptr, v27 + 72);
    u64 v2707 = at(u64, v27 + 88);
    if (at(u64, v27 + 184) == 0) goto v2710;
    sys_rattle_dealloc(at(ptr, v27 + 168));
v2710:;
    if ((v2702 != 1) ? 1 : (v2704 == 0)) goto v2716;
    sys_rattle_dealloc(v2703);
v2716:;
    if ((v2705 != 1) ? 1 : (v2707 == 0)) goto v2721;
    sys_rattle_dealloc(v2706);
v2721:;
    memcpy(v42, v26, 1064u);
    font_join_union_Union_drop(v42);
    memset(v59, 0, 1048u);
    v3048 = 0; v3049 = 0; v3050 = 0; v3051 = 0; v3052 = 7; v3053 = 0; v3054 = 0; v3055 = 0; goto v2611;
v1877:;
    if (!v1869) goto v1854;
    if (v1870) goto v2498;
    sys_rattle_dealloc(v1860);
v2498:;
    if (v1871) goto v1854;
    sys_rattle_dealloc(v1862);
v1854:;
    u8 v2590 = at(u8, v27 + 24);
    u8 *v2591 = at(ptr, v27 + 32);
    u64 v2592 = at(u64, v27 + 48);
    u8 v2593 = at(u8, v27 + 64);
    u8 *v2594 = at(ptr, v27 + 72);
    u64 v2595 = at(u64, v27 + 88);
    if (at(u64, v27 + 184) == 0) goto v2598;
    sys_rattle_dealloc(at(ptr, v27 + 168));
v2598:;
    if ((v2590 != 1) ? 1 : (v2592 == 0)) goto v2604;
    sys_rattle_dealloc(v2591);
v2604:;
    if ((v2593 != 1) ? 1 : (v2595 == 0)) goto v2609;
    sys_rattle_dealloc(v2594);
v2609:;
    memcpy(v40, v26, 1064u);
    font_join_union_Union_drop(v40);
    memset(v59, 0, 1048u);
    v3048 = 0; v3049 = 0; v3050 = 0; v3051 = 0; v3052 = 7; v3053 = 0; v3054 = 0; v3055 = 0;
v2611:;
    memcpy(v66, v61, 576u);
    font_subset_font_of_kind_FontOfKind_drop_b0ec(v66);
    memcpy(v72, v59, 1048u);
    v3086 = v3051; v3087 = v3052; v3088 = v3053; v3089 = v3054; v3090 = v3055; v3091 = v3050; v3092 = v3048; v3093 = v3049; goto v1369;
v1556:;
    v3056 = 0; v3057 = 0; v3058 = 0; v3059 = 7;
v1818:;
    u8 v3060 = at(u8, v62 + 24);
    u8 *v3061 = at(ptr, v62 + 32);
    u64 v3062 = at(u64, v62 + 48);
    u8 v3063 = at(u8, v62 + 64);
    u8 *v3064 = at(ptr, v62 + 72);
    u64 v3065 = at(u64, v62 + 88);
    if (at(u64, v62 + 184) == 0) goto v3068;
    sys_rattle_dealloc(at(ptr, v62 + 168));
v3068:;
    if ((v3060 != 1) ? 1 : (v3062 == 0)) goto v3074;
    sys_rattle_dealloc(v3061);
v3074:;
    if ((v3063 != 1) ? 1 : (v3065 == 0)) goto v3079;
    sys_rattle_dealloc(v3064);
v3079:;
    memcpy(v65, v61, 576u);
    font_subset_font_of_kind_FontOfKind_drop_b0ec(v65);
    font_join_union_Union_drop(v60);
    memset(v72, 0, 1048u);
    v3086 = 0; v3087 = v3059; v3088 = v3056; v3089 = v3057; v3090 = (u8)v3058; v3091 = (u8)(v3058 >> 8); v3092 = (u16)(v3058 >> 16u); v3093 = 0; goto v1369;
v1362:;
    memcpy(v64, v61, 576u);
    font_subset_font_of_kind_FontOfKind_drop_b0ec(v64);
    font_join_union_Union_drop(v69);
    memset(v72, 0, 1048u);
    v3086 = 0; v3087 = v1353; v3088 = v1355; v3089 = v1356; v3090 = v1357; v3091 = v1358; v3092 = v1359; v3093 = v1360; goto v1369;
v1336:;
    if (at(u8, v58 + 4) == 0) { v1363 = 0; v1364 = 0; v1365 = 7; v1366 = 0; v1367 = 0; v1368 = 0; goto v1339; }
    v1363 = at(u16, v58 + 10); v1364 = at(u64_4, v58 + 12); v1365 = 0; v1366 = 1; v1367 = at(u8, v58 + 8); v1368 = at(u8, v58 + 9);
v1339:;
    font_join_union_Union_drop(v69);
    memset(v72, 0, 1048u);
    v3086 = 0; v3087 = v1365; v3088 = v1366; v3089 = 0; v3090 = v1367; v3091 = v1368; v3092 = v1363; v3093 = v1364;
v1369:;
    u32 v3100 = ((((u32)v3092) << 16u) | (((u32)v3091) << 8)) | ((u32)v3090);
    if (!v3086) goto v3102;
    at(u8, v73) = v3087;
    at(u8, v73 + 1) = v3088;
    at(u16, v73 + 2) = v3089;
    at(u32, v73 + 4) = v3100;
    at(u64, v73 + 8) = v3093;
    memcpy(v73 + 16, v72, 1048u);
    font_join_join_list_sized(v68, v73);
    u8 v1309 = at(u8, v68 + 24);
    u64 v1317 = load56(v68 + 25);
    u64 v1315 = at(u64, v68 + 32);
    u64 v1313 = at(u64, v68 + 8);
    u64 v1311 = at(u64, v68 + 16);
    flag v3111 = at(u8, v68) == 0;
    memcpy(v79, v68 + 40, 680u);
    u8 *v1305 = at(ptr, v68 + 720);
    u64 v1303 = at(u64, v68 + 728);
    u64 v1301 = at(u64, v68 + 736);
    u64 v1298 = at(u64, v68 + 744);
    memcpy(v80, v68 + 752, 160u);
    memcpy(v81, v68 + 912, 160u);
    if (!v3111) { v3113 = v1311; v3114 = v1313; goto v3109; }
    memcpy(v74, v79, 680u);
    memcpy(v75, v80, 160u);
    memcpy(v76, v81, 160u);
    u64 v1307 = v1306 + 1;
    if (v1307 == v4) { v3118 = v1298; v3119 = v1301; v3120 = v1303; v3121 = v1305; v3122 = v1317; v3123 = v1315; v3124 = v1313; v3125 = v1311; v3126 = v1309; goto v929; }
    v1297 = v1298; v1300 = v1301; v1302 = v1303; v1304 = v1305; v1306 = v1307; v1308 = v1309; v1310 = v1311; v1312 = v1313; v1314 = v1315; v1316 = v1317; goto v1290;
v3102:;
    at(u8, v68 + 8) = v3087;
    at(u8, v68 + 9) = v3088;
    at(u16, v68 + 10) = v3089;
    at(u32, v68 + 12) = v3100;
    v3107 = v3093; goto v3106;
v1326:;
    u8 v3103 = at(u8, v67 + 4);
    u8 v3104 = at(u8, v67 + 5);
    memcpy(v71, v67 + 6, 10u);
    memcpy(v68 + 14, v71, 10u);
    at(u8, v68 + 8) = 0;
    at(u8, v68 + 9) = 1;
    at(u16, v68 + 10) = 0;
    at(u8, v68 + 12) = v3103;
    at(u8, v68 + 13) = v3104;
    font_join_union_Union_drop(v69);
    v3107 = at(u64, v68 + 16);
v3106:;
    v3113 = v3107; v3114 = at(u64, v68 + 8);
v3109:;
    v3140 = v1306; v3141 = (u8)v3114; v3142 = ((u64)(v3114 >> 8)) & 0xffffffffffffffu; v3143 = v3113; goto v1296;
v929:;
    memcpy(v82, v74, 680u);
    memcpy(v83, v75, 160u);
    memcpy(v84, v76, 160u);
    memset(v9, 0, 144u);
    at(u64, v8) = v3124;
    at(u64, v8 + 8) = v3125;
    at(u8, v8 + 16) = v3126;
    store56(v8 + 17, v3122);
    at(u64, v8 + 24) = v3123;
    memcpy(v8 + 32, v82, 544u);
    map_union_union_map_UnionMap_settle(v9, v82 + 544);
    if (!(at(u8, v9) == 0)) goto v3136;
    memcpy(v10, v82, 544u);
    memcpy(v10 + 544, v9 + 8, 136u);
    memcpy(v85, v10, 680u);
    memcpy(v86, v83, 160u);
    memcpy(v87, v84, 160u);
    v3149 = v3123; v3150 = v3122; v3151 = v3121; v3152 = v3120; v3153 = v3119; v3154 = v3118; v3155 = 0; v3156 = v3124; v3157 = v3125; v3158 = v3126; goto v3147;
v3136:;
    font_subset_font_of_kind_FontOfKind_drop_b0ec(v8);
    divided_tables_all_tables_MadeTables_drop_2de7(v84);
    divided_tables_all_tables_MadeTables_drop_2de7(v83);
    if (v3119 == 0) goto v3138;
    sys_rattle_dealloc(v3121);
v3138:;
    v3149 = 0; v3150 = 0; v3151 = (u8 *)0; v3152 = 0; v3153 = 0; v3154 = 0; v3155 = 1; v3156 = 1; v3157 = v4 - 1; v3158 = 7;
v3147:;
    memcpy(v110, v85, 680u);
    memcpy(v111, v86, 160u);
    memcpy(v112, v87, 160u);
    v3159 = v3155; v3160 = v3156; v3161 = v3157; v3162 = v3158; v3163 = v3150; v3164 = v3149; v3165 = v3151; v3166 = v3152; v3167 = v3153; v3168 = v3154; goto v3144;
v906:;
    v3140 = 0; v3141 = at(u8, v77 + 8); v3142 = load56(v77 + 9); v3143 = at(u64, v77 + 16);
v1296:;
    memset(v110, 0, 680u);
    memset(v111, 0, 160u);
    memset(v112, 0, 160u);
    v3159 = 1; v3160 = 1; v3161 = v3140; v3162 = v3141; v3163 = v3142; v3164 = v3143; v3165 = (u8 *)0; v3166 = 0; v3167 = 0; v3168 = 0;
v3144:;
    v3190 = v3159; v3191 = v3160; v3192 = v3161; v3193 = v3162; v3194 = v3163; v3195 = v3164; v3196 = v3165; v3197 = v3166; v3198 = v3167; v3199 = v3168; goto v3169;
v841:;
    if (v836 == 0) goto v872;
    sys_rattle_dealloc(v834);
v872:;
    divided_tables_all_tables_MadeTables_drop_2de7(v96);
    divided_tables_all_tables_MadeTables_drop_2de7(v95);
    memcpy(v106, v93, 576u);
    font_subset_font_of_kind_FontOfKind_drop_b0ec(v106);
    v3170 = 0; v3171 = 0; v3172 = 7; v3173 = 0; v3174 = 0; v3175 = 0; v3176 = 0; goto v172;
v797:;
    divided_tables_all_tables_MadeTables_drop_2de7(v96);
    divided_tables_all_tables_MadeTables_drop_2de7(v95);
    u8 v843 = at(u8, v94 + 24);
    u8 *v845 = at(ptr, v94 + 32);
    u64 v847 = at(u64, v94 + 48);
    u8 v849 = at(u8, v94 + 64);
    u8 *v851 = at(ptr, v94 + 72);
    u64 v853 = at(u64, v94 + 88);
    if (at(u64, v94 + 184) == 0) goto v857;
    sys_rattle_dealloc(at(ptr, v94 + 168));
v857:;
    if ((v843 != 1) ? 1 : (v847 == 0)) goto v864;
    sys_rattle_dealloc(v845);
v864:;
    if ((v849 != 1) ? 1 : (v853 == 0)) goto v869;
    sys_rattle_dealloc(v851);
v869:;
    memcpy(v105, v93, 576u);
    font_subset_font_of_kind_FontOfKind_drop_b0ec(v105);
    v3170 = 0; v3171 = 0; v3172 = 7; v3173 = 0; v3174 = 0; v3175 = 0; v3176 = 0; goto v172;
v752:;
    divided_tables_all_tables_MadeTables_drop_2de7(v95);
    u8 v801 = at(u8, v94 + 24);
    u8 *v803 = at(ptr, v94 + 32);
    u64 v805 = at(u64, v94 + 48);
    u8 v807 = at(u8, v94 + 64);
    u8 *v809 = at(ptr, v94 + 72);
    u64 v811 = at(u64, v94 + 88);
    if (at(u64, v94 + 184) == 0) goto v815;
    sys_rattle_dealloc(at(ptr, v94 + 168));
v815:;
    if ((v801 != 1) ? 1 : (v805 == 0)) goto v822;
    sys_rattle_dealloc(v803);
v822:;
    if ((v807 != 1) ? 1 : (v811 == 0)) goto v827;
    sys_rattle_dealloc(v809);
v827:;
    memcpy(v104, v93, 576u);
    font_subset_font_of_kind_FontOfKind_drop_b0ec(v104);
    v3170 = 0; v3171 = 0; v3172 = 7; v3173 = 0; v3174 = 0; v3175 = 0; v3176 = 0; goto v172;
v534:;
    if (v509 | (v511 == 0)) goto v681;
    sys_rattle_dealloc(v510);
v681:;
    if (v400 | (v402 == 0)) goto v685;
    sys_rattle_dealloc(v401);
v685:;
    if (v294 | (v296 == 0)) goto v238;
v507:;
    sys_rattle_dealloc(v295);
v238:;
    u8 v754 = at(u8, v94 + 24);
    u8 *v756 = at(ptr, v94 + 32);
    u64 v758 = at(u64, v94 + 48);
    u8 v760 = at(u8, v94 + 64);
    u8 *v762 = at(ptr, v94 + 72);
    u64 v764 = at(u64, v94 + 88);
    if (at(u64, v94 + 184) == 0) goto v768;
    sys_rattle_dealloc(at(ptr, v94 + 168));
v768:;
    if ((v754 != 1) ? 1 : (v758 == 0)) goto v775;
    sys_rattle_dealloc(v756);
v775:;
    if ((v760 != 1) ? 1 : (v764 == 0)) goto v780;
    sys_rattle_dealloc(v762);
v780:;
    memcpy(v103, v93, 576u);
    font_subset_font_of_kind_FontOfKind_drop_b0ec(v103);
    v3170 = 0; v3171 = 0; v3172 = 7; v3173 = 0; v3174 = 0; v3175 = 0; v3176 = 0; goto v172;
v166:;
    memcpy(v102, v93, 576u);
    font_subset_font_of_kind_FontOfKind_drop_b0ec(v102);
    v3170 = at(u16, v98 + 14); v3171 = at(u64, v98 + 16); v3172 = v154; v3173 = v157; v3174 = v159; v3175 = v161; v3176 = v163; goto v172;
v116:;
    if (at(u8, v92 + 4) == 0) { v167 = 0; v168 = 0; v169 = 7; v170 = 0; v171 = 0; goto v120; }
    v167 = at(u64_4, v92 + 12); v168 = at(u16, v92 + 10); v169 = 0; v170 = at(u8, v92 + 8); v171 = at(u8, v92 + 9);
v120:;
    v3170 = v168; v3171 = v167; v3172 = v169; v3173 = 0; v3174 = 0; v3175 = v170; v3176 = v171;
v172:;
    v3190 = 1; v3191 = 1; v3192 = 0; v3193 = v3172; v3194 = ((u64)(((u64)(((u64)(((u64)(((u64)((u64)v3176) << 32u) & 0xffffffffffffffu) | (((u64)((u64)v3170) << 40u) & 0xffffffffffffffu)) & 0xffffffffffffffu) | (((u64)((u64)v3175) << 24u) & 0xffffffffffffffu)) & 0xffffffffffffffu) | (((u64)((u64)v3174) << 8) & 0xffffffffffffffu)) & 0xffffffffffffffu) | ((u64)v3173)) & 0xffffffffffffffu; v3195 = v3171; v3196 = (u8 *)0; v3197 = 0; v3198 = 0; v3199 = 0;
v3169:;
    at(u64_1, v0) = v3190;
    at(u64_1, v0 + 8) = v3191;
    at(u64_1, v0 + 16) = v3192;
    at(u8, v0 + 24) = v3193;
    store56(v0 + 25, v3194);
    at(u64_1, v0 + 32) = v3195;
    memcpy(v0 + 40, v110, 680u);
    at(ptr_1, v0 + 720) = v3196;
    at(u64_1, v0 + 728) = v3197;
    at(u64_1, v0 + 736) = v3198;
    at(u64_1, v0 + 744) = v3199;
    memcpy(v0 + 752, v111, 160u);
    memcpy(v0 + 912, v112, 160u);
    return;
}

static void font_join_listed_ListedSource_next_run(u8 *v0, u8 *v1, u32 v2) {
    _Alignas(8) u8 v4[24], v5[24], v8[16];
    _Alignas(4) u8 v6[16], v7[16], v9[16];
    u32 v37, v52, v53, v109, v110, v153, v154, v166, v167, v201, v207, v208;
    u8 v51, v108, v206;
    u16 v54, v55, v111, v112, v155, v156, v200, v209, v210;
    u64 v127, v180;
    if (!(at(u8, v1 + 128) == 1)) goto v14;
    u8 *v16 = at(ptr_1, v1 + 136);
    at(ptr, v8) = v1 + 16;
    at(ptr, v8 + 8) = v16;
    memset(v7, 0, 16u);
    font_map_within_WithinPieces_piece_2760(v7, v8, v2);
    if (!(at(u8, v7) == 1)) { v51 = 0; v52 = 0; v53 = 0; v54 = 0; v55 = 0; goto v22; }
    u32 v24 = at(u32, v7 + 4);
    u16 v28 = at(u16, v7 + 12);
    u16 v30 = at(u16, v7 + 14);
    u32 v26 = at(u32, v7 + 8);
    memset(v6, 0, 16u);
    u32 v35 = ((u32)v28) - v24;
    v37 = v26;
v36:;
    u32 v40 = v37 + 1;
    font_map_within_WithinPieces_piece_2760(v6, v8, v40);
    if (!(at(u8, v6) == 1)) goto v43;
    if ((at(u32, v6 + 4) == v40) ? ((v35 + v40) == ((u32)at(u16, v6 + 12))) : 0) { v37 = at(u32, v6 + 8); goto v36; }
v43:;
    v51 = 1; v52 = v24; v53 = v37; v54 = v28; v55 = v30;
v22:;
    v206 = v51; v207 = v52; v208 = v53; v209 = v54; v210 = v55; goto v56;
v14:;
    if (!(at(u8, v1 + 64) == 1)) goto v61;
    u8 *v63 = at(ptr, v1 + 72);
    u64 v65 = at(u64, v1 + 80);
    memset(v9, 0, 16u);
    u64 v70 = uadd_sat64(at(u64, v1 + 104), at(u64, v1 + 96));
    if (!((v70 != 0) & (v65 > v70))) goto v75;
    u64 v76 = v70 * 12u;
    if (!(v2 > at(u32, v63 + (i64)v76 - 8))) goto v75;
    if (at(u32, v63 + (i64)v76 + 4) < v2) goto v75;
    at(u64_1, v1 + 96) = v70;
    u32 v86 = at(u32_1, v63 + (i64)v76);
    v108 = 1; v109 = umax32(v2, v86); v110 = at(u32_1, v63 + (i64)v76 + 4); v111 = (u16)(((v2 > v86) ? ((u16)(v2 - v86)) : 0) + at(u16_1, v63 + (i64)v76 + 8)); v112 = at(u16_1, v63 + (i64)v76 + 10); goto v98;
v75:;
    map_union_run_list_run_searched(v9, v63, v65, v1 + 96, v2);
    v108 = at(u8, v9); v109 = at(u32, v9 + 4); v110 = at(u32, v9 + 8); v111 = at(u16, v9 + 12); v112 = at(u16, v9 + 14);
v98:;
    v206 = v108; v207 = v109; v208 = v110; v209 = v111; v210 = v112; goto v56;
v61:;
    u8 *v114 = at(ptr, v1 + 16);
    memset(v5, 0, 24u);
    if (!(at(u8, v1 + 24) == 1)) goto v119;
    u8 *v121 = at(ptr, v1 + 32);
    if (!(v2 < 1114112u)) goto v124;
    v127 = (u64)v2;
v126:;
    u16 v132 = at(u16, v121 + (v127 << 1));
    if (!(v132 == 0)) goto v134;
    u64 v128 = v127 + 1;
    if ((v128 & 0xffffffffu) == 1114112u) goto v124;
    v127 = v128; goto v126;
v134:;
    u32 v135 = (u32)v127;
    v153 = v135; v154 = v135; v155 = v132; v156 = 0; goto v136;
v124:;
    v206 = 0; v207 = 0; v208 = 0; v209 = 0; v210 = 0; goto v56;
v119:;
    font_map_mapping_Mapping_piece_by_hint(v5, v114, at(u64, v1 + 56), v2);
    u8 v141 = at(u8, v5);
    u32 v143 = at(u32, v5 + 4);
    u32 v145 = at(u32, v5 + 8);
    u16 v147 = at(u16, v5 + 12);
    u16 v149 = at(u16, v5 + 14);
    at(u64, v1 + 56) = at(u64, v5 + 16);
    if (v141 == 1) { v153 = v143; v154 = v145; v155 = v147; v156 = v149; } else { v206 = 0; v207 = 0; v208 = 0; v209 = 0; v210 = 0; goto v56; }
v136:;
    u32 v164 = ((u32)v155) - v153;
    v166 = v154;
v165:;
    u32 v169 = v166 + 1;
    memset(v4, 0, 24u);
    if (!(at(u8, v1 + 24) == 1)) goto v173;
    u8 *v174 = at(ptr, v1 + 32);
    if (!(v169 < 1114112u)) goto v177;
    v180 = (u64)v169;
v179:;
    u16 v185 = at(u16, v174 + (v180 << 1));
    if (!(v185 == 0)) goto v187;
    u64 v181 = v180 + 1;
    if ((v181 & 0xffffffffu) == 1114112u) goto v177;
    v180 = v181; goto v179;
v187:;
    u32 v188 = (u32)v180;
    v200 = v185; v167 = v188; v201 = v188; goto v189;
v177:;
    v206 = 1; v207 = v153; v208 = v166; v209 = v155; v210 = v156; goto v56;
v173:;
    font_map_mapping_Mapping_piece_by_hint(v4, at(ptr, v1 + 16), at(u64, v1 + 56), v169);
    u8 v194 = at(u8, v4);
    u32 v195 = at(u32, v4 + 4);
    u32 v196 = at(u32, v4 + 8);
    u16 v197 = at(u16, v4 + 12);
    at(u64, v1 + 56) = at(u64, v4 + 16);
    if (v194 == 1) { v200 = v197; v167 = v196; v201 = v195; } else { v206 = 1; v207 = v153; v208 = v166; v209 = v155; v210 = v156; goto v56; }
v189:;
    if (!(v201 == v169)) { v206 = 1; v207 = v153; v208 = v166; v209 = v155; v210 = v156; goto v56; }
    if ((v164 + v169) == ((u32)v200)) { v166 = v167; goto v165; }
    v206 = 1; v207 = v153; v208 = v166; v209 = v155; v210 = v156;
v56:;
    at(u32_1, v0) = (u32)v206;
    at(u32_1, v0 + 4) = v207;
    at(u32_1, v0 + 8) = v208;
    at(u16_1, v0 + 12) = v209;
    at(u16_1, v0 + 14) = v210;
    return;
}

static void font_join_listed_Listed_into_runs(u8 *v0, u8 *v1) {
    _Alignas(8) u8 v3[32], v4[104];
    u8 v5[31], v6[24], *v62;
    u8 *v8 = at(ptr_1, v1 + 8);
    u64 v10 = at(u64_1, v1 + 16);
    u8 v12 = at(u8, v1 + 24);
    u8 *v14 = at(ptr_1, v1 + 32);
    u64 v16 = at(u64_1, v1 + 40);
    u64 v18 = at(u64_1, v1 + 48);
    u64 v20 = at(u64_1, v1 + 56);
    u8 *v24 = at(ptr_1, v1 + 168);
    u64 v26 = at(u64_1, v1 + 184);
    u8 v22 = at(u8, v1 + 64);
    memset(v3, 0, 32u);
    if (!(v22 == 1)) goto v29;
    memcpy(v3 + 8, v1 + 72, 24u);
    if ((v12 != 1) ? 1 : (v18 == 0)) goto v35;
    v62 = v14; goto v36;
v29:;
    at(ptr, v4) = v8;
    at(u64, v4 + 8) = v10;
    at(u64, v4 + 16) = (u64)v12;
    at(ptr, v4 + 24) = v14;
    at(u64, v4 + 32) = v16;
    at(u64, v4 + 40) = v18;
    at(u64, v4 + 48) = v20;
    memset(v4 + 56, 0, 48u);
    font_subset_selection_Charted_runs(v3, v4);
    if ((at(u8, v4 + 16) != 1) ? 1 : (at(u64, v4 + 40) == 0)) goto v51;
    sys_rattle_dealloc(at(ptr, v4 + 24));
v51:;
    if ((at(u8, v4 + 56) != 1) ? 1 : (at(u64, v4 + 80) == 0)) goto v35;
    v62 = at(ptr, v4 + 64);
v36:;
    sys_rattle_dealloc(v62);
v35:;
    u8 v63 = at(u8, v3);
    memcpy(v5 + 7, v3 + 8, 24u);
    if (v26 == 0) goto v67;
    sys_rattle_dealloc(v24);
v67:;
    memcpy(v6, v5 + 7, 24u);
    at(u8, v0) = v63;
    memcpy(v0 + 8, v6, 24u);
    return;
}

static void font_join_listed_Listed_new(u8 *v0, u8 *v1, u8 v2) {
    _Alignas(8) u8 v4[160], v5[56], v6[104], v7[32], v8[40], v9[200], v10[24], v11[40], v12[152], v13[104], v14[144], v15[24], v16[352], v18[360], v19[192], v23[72], v30[72];
    u8 v17[199], v21[7], v22[7], v24[14], v25[7], v26[7], v27[72], v28[7], v29[7], v31[14];
    _Alignas(2) u8 v20[14];
    memset(v24, 0, 14u);
    memset(v25, 0, 7);
    memset(v26, 0, 7);
    memset(v27, 0, 72u);
    memset(v28, 0, 7);
    memset(v29, 0, 7);
    memset(v30, 0, 72u);
    memset(v31, 0, 14u);
    memset(v16, 0, 352u);
    memset(v17, 0, 199u);
    memset(v18, 0, 360u);
    memset(v19, 0, 192u);
    memset(v20, 0, 14u);
    memset(v21, 0, 7);
    memset(v22, 0, 7);
    memset(v23, 0, 72u);
    memset(v9, 0, 200u);
    memset(v10, 0, 24u);
    memset(v11, 0, 40u);
    memset(v12, 0, 152u);
    memset(v13, 0, 104u);
    memset(v14, 0, 144u);
    memset(v15, 0, 24u);
    u8 *v33 = at(ptr, v1 + 8);
    memset(v7, 0, 32u);
    memset(v5, 0, 56u);
    font_map_chart_Chart_of_3518(v5, v33 + 72);
    if (!(at(u8, v5) == 0)) goto v38;
    u64 v40 = at(u64, v5 + 48);
    u64 v44 = at(u64, v5 + 8);
    u64 v46 = (u64)at(u8, v5 + 16);
    memcpy(v6 + 24, v5 + 24, 24u);
    at(ptr, v6) = v33;
    at(u64, v6 + 8) = v44;
    at(u64, v6 + 16) = v46;
    at(u64, v6 + 48) = v40;
    memset(v6 + 56, 0, 48u);
    font_subset_selection_Charted_runs(v7, v6);
    if (!(at(u8, v7) == 0)) goto v56;
    u8 *v59 = at(ptr, v6);
    u64 v60 = at(u64, v6 + 8);
    u64 v62 = (u64)at(u8, v6 + 16);
    u64 v63 = at(u64, v6 + 48);
    memcpy(v8, v7 + 8, 24u);
    memset(v8 + 24, 0, 16u);
    if ((at(u8, v6 + 56) != 1) ? 1 : (at(u64, v6 + 80) == 0)) goto v71;
    sys_rattle_dealloc(at(ptr, v6 + 64));
v71:;
    memcpy(v10, v6 + 24, 24u);
    memcpy(v11, v8, 40u);
    at(ptr, v13) = v59;
    at(u64, v13 + 8) = v60;
    at(u64, v13 + 16) = v62;
    memcpy(v13 + 24, v10, 24u);
    at(u64, v13 + 48) = v63;
    at(u64, v13 + 56) = 1;
    memcpy(v13 + 64, v11, 40u);
    font_subset_selection_Seeds_in_chart(v12, v13, 0, (u8 *)0);
    if (!(at(u8, v12) == 0)) goto v100;
    u64 v103 = at(u64, v12 + 120);
    u64 v108 = (u64)at(u8, v12 + 112);
    memcpy(v14, v12 + 8, 104u);
    at(u64, v14 + 104) = v108;
    at(u64, v14 + 112) = v103;
    memcpy(v14 + 120, v12 + 128, 24u);
    at(u64, v15) = 0;
    font_subset_selection_Selection_of_seeds_4cdf(v9, v1, v14, v15);
    u8 v112 = at(u8, v9);
    memcpy(v17 + 7, v9 + 8, 192u);
    if (!(v112 == 0)) goto v101;
    memcpy(v19, v17 + 7, 192u);
    font_subset_kind_source_CutOfKind_of_87a4(v18, v19);
    if (!(at(u8, v18) == 0)) goto v101;
    memcpy(v16, v18 + 8, 352u);
    u8 *v123 = at(ptr, v16 + 8);
    u8 v127 = font_subset_forms_form_of_file(at(u8, v16), v16, at(ptr_1, v123), at(u64_1, v123 + 8));
    u8 v128 = at(u8, v16);
    u8 v130 = at(u8, v16 + 1);
    memcpy(v20, v16 + 2, 14u);
    u64 v133 = at(u64, v16 + 16);
    u8 v135 = at(u8, v16 + 24);
    memcpy(v21, v16 + 25, 7);
    u8 *v138 = at(ptr, v16 + 32);
    u64 v140 = at(u64, v16 + 40);
    u64 v142 = at(u64, v16 + 48);
    u64 v144 = at(u64, v16 + 56);
    u8 v146 = at(u8, v16 + 64);
    memcpy(v22, v16 + 65, 7);
    u8 *v149 = at(ptr, v16 + 72);
    u64 v151 = at(u64, v16 + 80);
    u64 v153 = at(u64, v16 + 88);
    memcpy(v23, v16 + 96, 72u);
    u8 *v156 = at(ptr, v16 + 168);
    u64 v158 = at(u64, v16 + 176);
    u64 v160 = at(u64, v16 + 184);
    memcpy(v4, v16 + 192, 160u);
    divided_tables_all_tables_MadeTables_drop_2de7(v4);
    memcpy(v24, v20, 14u);
    memcpy(v25, v21, 7);
    memcpy(v26, v22, 7);
    memcpy(v27, v23, 72u);
    if (!(v127 == 0)) goto v164;
    if (v160 == 0) goto v169;
    sys_rattle_dealloc(v156);
v169:;
    if ((v135 != 1) ? 1 : (v142 == 0)) goto v174;
    sys_rattle_dealloc(v138);
v174:;
    if ((v146 != 1) ? 1 : (v153 == 0)) goto v179;
    sys_rattle_dealloc(v149);
v179:;
    at(u64_1, v0) = 1;
    at(u8, v0 + 8) = 1;
    at(u8, v0 + 9) = v2;
    memcpy(v0 + 10, v31, 14u);
    at(u64_1, v0 + 24) = 0;
    at(u8, v0 + 32) = 0;
    memcpy(v0 + 33, v28, 7);
    memset(v0 + 40, 0, 33u);
    memcpy(v0 + 73, v29, 7);
    memset(v0 + 80, 0, 24u);
    memcpy(v0 + 104, v30, 72u);
    memset(v0 + 176, 0, 24u);
    return;
v164:;
    at(u64_1, v0) = 0;
    at(u8, v0 + 8) = v128;
    at(u8, v0 + 9) = v130;
    memcpy(v0 + 10, v24, 14u);
    at(u64_1, v0 + 24) = v133;
    at(u8, v0 + 32) = v135;
    memcpy(v0 + 33, v25, 7);
    at(ptr_1, v0 + 40) = v138;
    at(u64_1, v0 + 48) = v140;
    at(u64_1, v0 + 56) = v142;
    at(u64_1, v0 + 64) = v144;
    at(u8, v0 + 72) = v146;
    memcpy(v0 + 73, v26, 7);
    at(ptr_1, v0 + 80) = v149;
    at(u64_1, v0 + 88) = v151;
    at(u64_1, v0 + 96) = v153;
    memcpy(v0 + 104, v27, 72u);
    at(ptr_1, v0 + 176) = v156;
    at(u64_1, v0 + 184) = v158;
    at(u64_1, v0 + 192) = v160;
    return;
v56:;
    if ((at(u8, v6 + 16) != 1) ? 1 : (at(u64, v6 + 40) == 0)) goto v79;
    sys_rattle_dealloc(at(ptr, v6 + 24));
v79:;
    if ((at(u8, v6 + 56) != 1) ? 1 : (at(u64, v6 + 80) == 0)) goto v57;
    sys_rattle_dealloc(at(ptr, v6 + 64));
    goto v57;
v38:;
v57:;
v100:;
v101:;
    memset(v24, 0, 14u);
    memset(v25, 0, 7);
    memset(v26, 0, 7);
    memset(v27, 0, 72u);
    at(u64_1, v0) = 1;
    at(u8, v0 + 8) = 7;
    memset(v0 + 9, 0, 191u);
    return;
}

static u8_u16 font_join_taken_outlines_Outlines_take(u8 *v0, u8 *v1, u16 v2) {
    u64 v22, v29, v42, v45, v52, v59, v66, v109, v110, v131, v60, v163, v170, v183, v186, v67;
    u8x16 v31, v172;
    u8 *v62, *v63, v195;
    u16 v64, v194;
    u16 v8 = umin16(at(u16, at(ptr, v1 + 8) + 64), v2);
    u8 *v10 = at(ptr, v1 + 168);
    u64 v12 = at(u64, v1 + 176);
    if (v12 == 0) { v42 = 0; goto v14; }
    if (at(u8, v10) & 1) { v52 = 0; goto v18; }
    if (v12 < 64u) { v42 = 0; goto v14; }
    v22 = 0;
v21:;
    if (v22 == 0xffffffffffffffc0u) goto v24;
    v29 = 0; v31 = (u8x16){0};
v28:;
    u8x16 v32 = v31 | ((-(at(u8x16_1, (v10 + (i64)v22) + (i64)v29) & 1)));
    u64 v30 = v29 + 16u;
    if (!(v30 == 64u)) { v29 = v30; v31 = v32; goto v28; }
    if (!(bits_u8x16(v32) == 0)) { v42 = v22; goto v14; }
v24:;
    u64 v23 = v22 + 64u;
    if ((v12 - v23) < 64u) v42 = v23; else { v22 = v23; goto v21; }
v14:;
    if (v42 < v12) v45 = v42; else { v52 = v12; goto v18; }
v44:;
    if (at(u8, v10 + v45) & 1) { v52 = v45; goto v18; }
    u64 v46 = v45 + 1;
    if (v46 == v12) v52 = v12; else { v45 = v46; goto v44; }
v18:;
    u16 v53 = (u16)v52;
    if (!(v8 > v53)) { v194 = 0; v195 = 0; goto v56; }
    v59 = v12; v62 = v10; v64 = v53; v66 = v52;
v58:;
    u8 *v68 = at(ptr, v1 + 8);
    if (!(at(u16, v68 + 64) > v64)) { v60 = v59; v63 = v62; goto v73; }
    u64 v74 = v66 & 65535u;
    if (!(at(u8, v62 + (i64)v74) & 1)) { v60 = v59; v63 = v62; goto v73; }
    u8 *v82 = at(ptr_1, v68 + 32);
    u8 *v84 = at(ptr_1, v68 + 48);
    if (!(at(u8, v68 + 70) == 0)) goto v87;
    u64 v88 = v74 << 1;
    v109 = ((u64)bswap16(at(u16_1, v82 + (i64)v88))) << 1; v110 = ((u64)bswap16(at(u16_1, v82 + (i64)v88 + 2))) << 1; goto v99;
v87:;
    u64 v100 = v74 << 2;
    v109 = (u64)bswap32(at(u32_1, v82 + (i64)v100)); v110 = (u64)bswap32(at(u32_1, v82 + (i64)v100 + 4));
v99:;
    u64 v112 = v110 - v109;
    u8 *v113 = at(ptr, v0);
    u64 v114 = v74 * 24u;
    u8 *v118 = at(ptr_1, v113 + (i64)v114 + 8);
    if (!(at(u8, v113 + (i64)v114) == 1)) goto v122;
    if (!(at(u64_1, v113 + (i64)v114 + 16) == v112)) { v194 = v64; v195 = 1; goto v56; }
    if (!(v112 < 4)) goto v128;
    if (v110 == v109) { v60 = v59; v63 = v62; goto v73; }
    v131 = 0;
v130:;
    if (!(at(u8, v118 + (i64)v131) == at(u8, (v84 + (i64)v109) + (i64)v131))) goto v139;
    u64 v132 = v131 + 1;
    if (v132 == v112) { v60 = v59; v63 = v62; goto v73; }
    v131 = v132; goto v130;
v139:;
    if (v131 < v112) { v194 = v64; v195 = 1; goto v56; }
    v60 = v59; v63 = v62; goto v73;
v128:;
    if (!(at(u32_1, v118) == at(u32_1, v84 + (i64)v109))) { v194 = v64; v195 = 1; goto v56; }
    if (core_cmp_slices_groups_equal(v118, v112, v84 + (i64)v109)) { v60 = v59; v63 = v62; goto v73; }
    v194 = v64; v195 = 1; goto v56;
v122:;
    at(u64_1, v113 + (i64)v114) = 1;
    at(ptr_1, v113 + (i64)v114 + 8) = v84 + (i64)v109;
    at(u64_1, v113 + (i64)v114 + 16) = v112;
    at(u64, v0 + 24) = at(u64, v0 + 24) + v112;
    v60 = at(u64, v1 + 176); v63 = at(ptr, v1 + 168);
v73:;
    u64 v152 = (v66 + 1) & 65535u;
    if (!(v60 > v152)) goto v155;
    if (at(u8, v63 + v152) & 1) { v67 = v152; goto v61; }
v155:;
    if ((v60 - v152) < 64u) { v183 = v152; goto v161; }
    v163 = v152;
v162:;
    if (!(v163 < 0xffffffffffffffc0u)) goto v165;
    v170 = 0; v172 = (u8x16){0};
v169:;
    u8x16 v173 = v172 | ((-(at(u8x16_1, (v63 + (i64)v163) + (i64)v170) & 1)));
    u64 v171 = v170 + 16u;
    if (!(v171 == 64u)) { v170 = v171; v172 = v173; goto v169; }
    if (!(bits_u8x16(v173) == 0)) { v183 = v163; goto v161; }
v165:;
    u64 v164 = v163 + 64u;
    if ((v60 - v164) < 64u) v183 = v164; else { v163 = v164; goto v162; }
v161:;
    if (v183 < v60) v186 = v183; else { v67 = v60; goto v61; }
v185:;
    if (at(u8, v63 + v186) & 1) { v67 = v186; goto v61; }
    u64 v187 = v186 + 1;
    if (v187 == v60) v67 = v60; else { v186 = v187; goto v185; }
v61:;
    u16 v65 = (u16)v67;
    if (v8 > v65) { v59 = v60; v62 = v63; v64 = v65; v66 = v67; goto v58; }
    v194 = 0; v195 = 0;
v56:;
    return (u8_u16){v195, v194};
}

void font_join_union_UnionSource_copied(u8 *v0, u8 *v1, u64 v2) {
    _Alignas(8) u8 v4[24];
    u64 v49, v50, v34;
    u8 v20, *v32;
    memset(v4, 0, 24u);
    if (!(v2 < 16u)) goto v7;
    font_subset_accepted_copied(v4, at(ptr, v1 + 8), v2);
    goto v10;
v7:;
    font_subset_font_of_kind_FontOfKind_further_6e0a(v4, v1, v2);
v10:;
    u8 v11 = at(u8, v4);
    u8 *v13 = at(ptr, v4 + 8);
    u64 v15 = at(u64, v4 + 16);
    if (at(u8, v1) == 0) { v20 = v11; v32 = v13; v34 = v15; goto v18; }
    switch (v2) {
    case 28u: goto v27;
    case 8: goto v29;
    case 12u: goto v25;
    case 15u: goto v23;
    case 29u: goto v31;
    default: v20 = v11; v32 = v13; v34 = v15; goto v18;
    }
v27:;
    u8 v26 = at(u8, v1 + 744);
    if (v26 == 1) { v49 = 8; v50 = 16u; goto v21; }
    v20 = v26; v32 = (u8 *)0; v34 = 0; goto v18;
v29:;
    u8 v28 = at(u8, v1 + 776);
    if (v28 == 1) { v49 = 40u; v50 = 48u; goto v21; }
    v20 = v28; v32 = (u8 *)0; v34 = 0; goto v18;
v25:;
    u8 v24 = at(u8, v1 + 808);
    if (v24 == 1) { v49 = 72u; v50 = 80u; goto v21; }
    v20 = v24; v32 = (u8 *)0; v34 = 0; goto v18;
v23:;
    u8 v22 = at(u8, v1 + 840);
    if (v22 == 1) { v49 = 104u; v50 = 112u; goto v21; }
    v20 = v22; v32 = (u8 *)0; v34 = 0; goto v18;
v31:;
    u8 v30 = at(u8, v1 + 872);
    if (v30 == 1) { v49 = 136u; v50 = 144u; } else { v20 = v30; v32 = (u8 *)0; v34 = 0; goto v18; }
v21:;
    v20 = 1; v32 = at(ptr, (v1 + 744) + (i64)v49); v34 = at(u64, (v1 + 744) + (i64)v50);
v18:;
    at(u64_1, v0) = (u64)v20;
    at(ptr_1, v0 + 8) = v32;
    at(u64_1, v0 + 16) = v34;
    return;
}

void font_join_union_UnionSource_next_run(u8 *v0, u8 *v1, u32 v2) {
    _Alignas(4) u8 v4[16], v5[16], v6[12];
    u8 v57, v60;
    memset(v5, 0, 16u);
    if (!(at(u64, v1 + 608) == 0)) goto v12;
    u8 *v13 = at(ptr, v1 + 576);
    u64 v15 = at(u64, v1 + 584);
    memset(v4, 0, 16u);
    u64 v20 = uadd_sat64(at(u64, v1 + 688), at(u64, v1 + 680));
    if (!((v20 != 0) & (v15 > v20))) goto v25;
    u64 v26 = v20 * 12u;
    if (!(v2 > at(u32, v13 + (i64)v26 - 8))) goto v25;
    if (at(u32, v13 + (i64)v26 + 4) < v2) goto v25;
    at(u64_1, v1 + 680) = v20;
    u32 v36 = at(u32_1, v13 + (i64)v26);
    u32 v37 = at(u32_1, v13 + (i64)v26 + 4);
    u16 v41 = at(u16_1, v13 + (i64)v26 + 10);
    u16 v47 = (u16)(((v2 > v36) ? ((u16)(v2 - v36)) : 0) + at(u16_1, v13 + (i64)v26 + 8));
    at(u32, v4 + 4) = umax32(v2, v36);
    at(u32, v4 + 8) = v37;
    at(u16, v4 + 12) = v47;
    at(u16, v4 + 14) = v41;
    memcpy(v5 + 4, v4 + 4, 12u);
    v57 = 1; goto v53;
v25:;
    map_union_run_list_run_searched(v4, v13, v15, v1 + 680, v2);
    u8 v54 = at(u8, v4);
    memcpy(v5 + 4, v4 + 4, 12u);
    v57 = v54;
v53:;
    v60 = v57; goto v58;
v12:;
    map_union_union_map_UnionMap_run_of_both(v5, v1 + 576, v2);
    v60 = at(u8, v5);
v58:;
    memcpy(v6, v5 + 4, 12u);
    at(u32_1, v0) = (u32)v60;
    memcpy(v0 + 4, v6, 12u);
    return;
}

void font_join_union_Union_drop(u8 *v0) {
    _Alignas(8) u8 v24[576], v25[160], v26[160];
    u8 *v3 = at(ptr_1, v0 + 576);
    u64 v5 = at(u64_1, v0 + 592);
    u8 *v7 = at(ptr_1, v0 + 600);
    u64 v9 = at(u64_1, v0 + 616);
    u8 *v11 = at(ptr_1, v0 + 624);
    u64 v13 = at(u64_1, v0 + 640);
    u8 *v15 = at(ptr_1, v0 + 648);
    u64 v17 = at(u64_1, v0 + 664);
    u8 *v19 = at(ptr_1, v0 + 712);
    u64 v21 = at(u64_1, v0 + 728);
    memcpy(v24, v0, 576u);
    memcpy(v25, v0 + 744, 160u);
    memcpy(v26, v0 + 904, 160u);
    divided_tables_all_tables_MadeTables_drop_2de7(v26);
    divided_tables_all_tables_MadeTables_drop_2de7(v25);
    if (v21 == 0) goto v28;
    sys_rattle_dealloc(v19);
v28:;
    if (v5 == 0) goto v31;
    sys_rattle_dealloc(v3);
v31:;
    if (v9 == 0) goto v34;
    sys_rattle_dealloc(v7);
v34:;
    if (v13 == 0) goto v37;
    sys_rattle_dealloc(v11);
v37:;
    if (v17 == 0) goto v40;
    sys_rattle_dealloc(v15);
v40:;
    font_subset_font_of_kind_FontOfKind_drop_b0ec(v24);
    return;
}

static void map_union_merging_runs_of_both(u8 *v0, u8 *v1, u8 *v2, u64 v3, u8 *v4, u64 v5) {
    _Alignas(4) u8 v7[1], v8[12];
    _Alignas(8) u8 v9[24], v10[24];
    u8 v11[24], *v298, *v436, *v437, *v466, *v299;
    u64 v72, v79, v82, v84, v94, v103, v107, v116, v136, v142, v171, v192, v193, v195, v201, v196, v213, v194, v241, v246, v186, v278, v279, v289, v301, v303, v305, v309, v310, v370, v432, v311, v304, v306, v450, v467, v468, v482, v302, v497, v83, v509, v80, v537, v540, v85;
    u32 v73, v86, v135, v143, v172, v240, v247, v275, v277, v307, v536, v546, v87;
    flag v495, v506;
    memcpy(v9, v1, 24u);
    u64 v12 = uadd_sat64(v5, v3);
    at(u64, v9 + 8) = 0;
    u64 v15 = at(u64, v9 + 16);
    if (!(v15 < v12)) goto v18;
    if (v15 == 0) goto v20;
    sys_rattle_dealloc(at(ptr, v9));
v20:;
    at(ptr, v9) = v7;
    memset(v9 + 8, 0, 16u);
    if (std_alloc_vec_Vec_grow_amortized_6671(v9, umax64(v12, umin64(uadd_sat64(v12, v12), 1114112u)))) goto v18;
    if (at(u64, v9 + 16) == 0) goto v30;
    sys_rattle_dealloc(at(ptr, v9));
v30:;
    at(u8, v0) = 1;
    memset(v0 + 8, 0, 24u);
    return;
v18:;
    memcpy(v11, v9, 24u);
    memcpy(v10, v11, 24u);
    if (!(v3 == 0)) goto v35;
    if (v5 == 0) goto v37;
    v72 = ((((u64)at(u16_1, v4 + 10)) << 48u) | ((u64)at(u32_1, v4 + 4))) | (((u64)at(u16_1, v4 + 8)) << 32u); v73 = at(u32_1, v4); goto v43;
v35:;
    u32 v39 = at(u32_1, v2);
    u64 v41 = at(u64_1, v2 + 4);
    if (v5 == 0) { v72 = v41; v73 = v39; goto v43; }
    u32 v45 = at(u32_1, v4);
    if (!(v39 > v45)) { v72 = v41; v73 = v39; goto v43; }
    v72 = (((u64)at(u16_1, v4 + 8)) << 32u) | ((u64)umin32(v39 - 1, at(u32_1, v4 + 4))); v73 = v45;
v43:;
    v79 = 0; v82 = 0; v84 = v72; v86 = v73;
v76:;
    u32 v88 = (u32)v84;
    u64 v89 = v84 >> 32u;
    u32 v90 = v88 + 1;
    if (v82 < v3) v94 = v82; else { v103 = v82; goto v93; }
v92:;
    if (!(at(u32, v2 + (v94 * 12u) + 4) < v90)) { v103 = v94; goto v93; }
    u64 v95 = v94 + 1;
    if (v95 == v3) v103 = v3; else { v94 = v95; goto v92; }
v93:;
    if (v79 < v5) v107 = v79; else { v116 = v79; goto v106; }
v105:;
    if (!(at(u32, v4 + (v107 * 12u) + 4) < v90)) { v116 = v107; goto v106; }
    u64 v108 = v107 + 1;
    if (v108 == v5) v116 = v5; else { v107 = v108; goto v105; }
v106:;
    flag v117 = v103 == v3;
    if (!v117) goto v119;
    if (v116 == v5) { v277 = v88; v278 = v3; v279 = v5; goto v141; }
    v142 = 0; v143 = 0; goto v139;
v119:;
    u64 v120 = v103 * 12u;
    u32 v122 = at(u32_1, v2 + v120);
    u64 v124 = at(u64_1, v2 + v120 + 4);
    if (!(v90 > v122)) { v135 = v122; v136 = v124; goto v127; }
    v135 = v90; v136 = (((((u64)(v90 - v122)) << 32u) + v124) & 0xffff00000000u) | (v124 & 0xffff0000ffffffffu);
v127:;
    if (v116 == v5) { v171 = v136; v172 = v135; goto v138; }
    v142 = v136; v143 = v135;
v139:;
    u64 v144 = v116 * 12u;
    u32 v146 = at(u32_1, v4 + v144);
    u32 v148 = at(u32_1, v4 + v144 + 4);
    u32 v154 = umax32(v90, v146);
    u16 v156 = (u16)(((v90 > v146) ? ((u16)(v90 - v146)) : 0) + at(u16_1, v4 + v144 + 8));
    if (!v117) goto v158;
    v171 = (((u64)v156) << 32u) | ((u64)v148); v172 = v154; goto v138;
v158:;
    if (!(v143 > v154)) { v171 = v142; v172 = v143; goto v138; }
    v171 = (((u64)v156) << 32u) | ((u64)umin32(v143 - 1, v148)); v172 = v154;
v138:;
    u32 v175 = (((u32)v89) & 65535u) - v86;
    if (!(v172 == v90)) { v277 = v88; v278 = v103; v279 = v116; goto v141; }
    if ((((u32)(v171 >> 32u)) & 65535u) == (v175 + v90)) { v192 = v171; v193 = v116; v195 = v103; } else { v277 = v88; v278 = v103; v279 = v116; goto v141; }
v183:;
    u32 v197 = (u32)v192;
    u32 v190 = v197 + 1;
    if (v195 < v3) v201 = v195; else { v196 = v195; goto v200; }
v199:;
    if (!(at(u32, v2 + (v201 * 12u) + 4) < v190)) { v196 = v201; goto v200; }
    u64 v202 = v201 + 1;
    if (v202 == v3) v196 = v3; else { v201 = v202; goto v199; }
v200:;
    if (v193 < v5) v213 = v193; else { v194 = v193; goto v212; }
v211:;
    if (!(at(u32, v4 + (v213 * 12u) + 4) < v190)) { v194 = v213; goto v212; }
    u64 v214 = v213 + 1;
    if (v214 == v5) v194 = v5; else { v213 = v214; goto v211; }
v212:;
    flag v222 = v196 == v3;
    if (!v222) goto v224;
    if (v194 == v5) { v277 = v197; v278 = v3; v279 = v5; goto v141; }
    v246 = 0; v247 = 0; goto v244;
v224:;
    u64 v225 = v196 * 12u;
    u32 v227 = at(u32_1, v2 + v225);
    u64 v229 = at(u64_1, v2 + v225 + 4);
    if (!(v190 > v227)) { v240 = v227; v241 = v229; goto v232; }
    v240 = v190; v241 = (((((u64)(v190 - v227)) << 32u) + v229) & 0xffff00000000u) | (v229 & 0xffff0000ffffffffu);
v232:;
    if (v194 == v5) { v186 = v241; v275 = v240; goto v243; }
    v246 = v241; v247 = v240;
v244:;
    u64 v248 = v194 * 12u;
    u32 v250 = at(u32_1, v4 + v248);
    u32 v252 = at(u32_1, v4 + v248 + 4);
    u32 v258 = umax32(v190, v250);
    u16 v260 = (u16)(((v190 > v250) ? ((u16)(v190 - v250)) : 0) + at(u16_1, v4 + v248 + 8));
    if (!v222) goto v262;
    v186 = (((u64)v260) << 32u) | ((u64)v252); v275 = v258; goto v243;
v262:;
    if (!(v247 > v258)) { v186 = v246; v275 = v247; goto v243; }
    v186 = (((u64)v260) << 32u) | ((u64)umin32(v247 - 1, v252)); v275 = v258;
v243:;
    if (!(v275 == v190)) { v277 = v197; v278 = v196; v279 = v194; goto v141; }
    if ((((u32)(v186 >> 32u)) & 65535u) == (v175 + v190)) { v192 = v186; v193 = v194; v195 = v196; goto v183; }
    v277 = v197; v278 = v196; v279 = v194;
v141:;
    u64 v281 = at(u64, v10 + 8);
    if (!(at(u64, v10 + 16) == v281)) { v289 = v281; goto v284; }
    if (!std_alloc_vec_Vec_grow_amortized_6671(v10, 1)) goto v287;
    v289 = at(u64, v10 + 8); goto v284;
v287:;
    if (at(u64, v10 + 16) == 0) goto v490;
    sys_rattle_dealloc(at(ptr, v10));
v490:;
    at(u8, v0) = 1;
    memset(v0 + 8, 0, 24u);
    return;
v284:;
    u8 *v290 = at(ptr, v10);
    u64 v291 = v289 * 12u;
    at(u32_1, v290 + v291) = v86;
    at(u32_1, v290 + v291 + 4) = v277;
    at(u32_1, v290 + v291 + 8) = (u32)v89;
    u64 v296 = v289 + 1;
    at(u64, v10 + 8) = v296;
    v298 = v290; v301 = v296; v303 = v278; v305 = v279; v307 = v277; v309 = 1; v310 = 1;
v297:;
    u32 v312 = v307 + 1;
    flag v313 = v303 < v3;
    if (!v313) goto v315;
    u64 v316 = v303 * 12u;
    u32 v318 = at(u32, v2 + v316);
    if (v312 > v318) goto v315;
    u32 v322 = at(u32_1, v2 + v316 + 4);
    u16 v324 = at(u16_1, v2 + v316 + 8);
    if (!(v5 > v305)) { v370 = v3; goto v327; }
    u64 v328 = v305 * 12u;
    u32 v330 = at(u32_1, v4 + v328);
    u16 v332 = at(u16_1, v4 + v328 + 8);
    if (!(v330 > v322)) goto v315;
    if (!(v330 == (v322 + 1))) goto v338;
    if ((((v322 - v318) + 1) + ((u32)v324)) == ((u32)v332)) goto v315;
v338:;
    u64 v345 = v303 + 1;
    u64 v347 = map_union_run_list_place_by_guess(v2, v3, v345, uadd_sat64(v309, v303), v330);
    if (v347 == v345) { v370 = v345; goto v327; }
    u64 v350 = v347 - 1;
    u64 v351 = v350 * 12u;
    u32 v353 = at(u32_1, v2 + v351);
    u32 v355 = at(u32_1, v2 + v351 + 4);
    u16 v357 = at(u16_1, v2 + v351 + 8);
    if (!(v330 > v355)) goto v360;
    if (!(v330 == (v355 + 1))) { v370 = v347; goto v327; }
    if (!((((v355 - v353) + 1) + ((u32)v357)) == ((u32)v332))) { v370 = v347; goto v327; }
v360:;
    v370 = v350;
v327:;
    v436 = v2 + v316; v311 = v370 - v303; v304 = v370; v306 = v305; v437 = v2 + (i64)(v370 * 12u); goto v374;
v315:;
    flag v375 = v305 < v5;
    if (!v375) goto v377;
    u64 v378 = v305 * 12u;
    u32 v380 = at(u32, v4 + v378);
    if (v312 > v380) goto v377;
    u32 v384 = at(u32_1, v4 + v378 + 4);
    u16 v386 = at(u16_1, v4 + v378 + 8);
    if (!v313) { v432 = v5; goto v388; }
    u64 v389 = v303 * 12u;
    u32 v391 = at(u32_1, v2 + v389);
    u16 v393 = at(u16_1, v2 + v389 + 8);
    if (!(v391 > v384)) { v495 = 1; goto v396; }
    if (!(v391 == (v384 + 1))) goto v400;
    if ((((v384 - v380) + 1) + ((u32)v386)) == ((u32)v393)) { v495 = 1; goto v396; }
v400:;
    u64 v407 = v305 + 1;
    u64 v409 = map_union_run_list_place_by_guess(v4, v5, v407, uadd_sat64(v309, v305), v391);
    if (v409 == v407) { v432 = v407; goto v388; }
    u64 v412 = v409 - 1;
    u64 v413 = v412 * 12u;
    u32 v415 = at(u32_1, v4 + v413);
    u32 v417 = at(u32_1, v4 + v413 + 4);
    u16 v419 = at(u16_1, v4 + v413 + 8);
    if (!(v391 > v417)) goto v422;
    if (!(v391 == (v417 + 1))) { v432 = v409; goto v388; }
    if (!((((v417 - v415) + 1) + ((u32)v419)) == ((u32)v393))) { v432 = v409; goto v388; }
v422:;
    v432 = v412;
v388:;
    v436 = v4 + v378; v311 = v432 - v305; v304 = v303; v306 = v432; v437 = v4 + (i64)(v432 * 12u);
v374:;
    u32 v308 = at(u32, v437 - 8);
    if (!(v311 == 1)) goto v441;
    memcpy(v8, v436, 12u);
    if (!(at(u64, v10 + 16) == v301)) { v450 = v301; goto v445; }
    if (!std_alloc_vec_Vec_grow_amortized_6671(v10, 1)) goto v448;
    v450 = at(u64, v10 + 8); goto v445;
v448:;
    goto v462;
v445:;
    u8 *v451 = at(ptr, v10);
    memcpy(v451 + (v450 * 12u), v8, 12u);
    u64 v454 = v450 + 1;
    at(u64, v10 + 8) = v454;
    v299 = v451; v302 = v454; goto v300;
v441:;
    u64 v455 = at(u64, v10 + 16);
    if (!(v311 > (v455 - v301))) { v466 = v298; v467 = v455; v468 = v301; goto v459; }
    if (!std_alloc_vec_Vec_grow_amortized_6671(v10, v311)) goto v462;
    v466 = at(ptr, v10); v467 = at(u64, v10 + 16); v468 = at(u64, v10 + 8); goto v459;
v462:;
    if (at(u64, v10 + 16) == 0) goto v577;
    sys_rattle_dealloc(at(ptr, v10));
v577:;
    at(u8, v0) = 1;
    memset(v0 + 8, 0, 24u);
    return;
v459:;
    u64 v469 = v468 + v311;
    u64 v470 = v468 * 12u;
    u64 v472 = v311 * 12u;
    if (!((((u64)(v466 + (i64)v470)) - ((u64)v436)) < v472)) goto v478;
    if (v311 == 0) goto v480;
    v482 = 0;
v481:;
    u64 v484 = v482 * 12u;
    memmove((v466 + (i64)v470) + v484, v436 + v484, 12u);
    u64 v483 = v482 + 1;
    if (v483 == v311) goto v480;
    v482 = v483; goto v481;
v478:;
    memmove_any(v466 + (i64)v470, v436, v472);
v480:;
    at(u64, v10 + 8) = v469;
    at(u64, v10 + 16) = v467;
    v299 = v466; v302 = v469;
v300:;
    v298 = v299; v301 = v302; v303 = v304; v305 = v306; v307 = v308; v309 = v310; v310 = v311; goto v297;
v377:;
    if (v313) v495 = v375; else { v506 = v375; v83 = v303; goto v494; }
v396:;
    v497 = v303;
v496:;
    if (!(at(u32, v2 + (v497 * 12u) + 4) < v312)) { v506 = v495; v83 = v497; goto v494; }
    u64 v498 = v497 + 1;
    if (v498 == v3) { v506 = v495; v83 = v3; } else { v497 = v498; goto v496; }
v494:;
    if (v506) v509 = v305; else { v80 = v305; goto v508; }
v507:;
    if (!(at(u32, v4 + (v509 * 12u) + 4) < v312)) { v80 = v509; goto v508; }
    u64 v510 = v509 + 1;
    if (v510 == v5) v80 = v5; else { v509 = v510; goto v507; }
v508:;
    flag v518 = v83 == v3;
    if (!v518) goto v520;
    if (!(v80 == v5)) { v540 = 0; v546 = 0; goto v539; }
v37:;
    at(u8, v0) = 0;
    memcpy(v0 + 8, v10, 24u);
    return;
v520:;
    u64 v521 = v83 * 12u;
    u32 v523 = at(u32_1, v2 + v521);
    u64 v525 = at(u64_1, v2 + v521 + 4);
    if (!(v312 > v523)) { v536 = v523; v537 = v525; goto v528; }
    v536 = v312; v537 = (((((u64)(v312 - v523)) << 32u) + v525) & 0xffff00000000u) | (v525 & 0xffff0000ffffffffu);
v528:;
    if (v80 == v5) { v85 = v537; v87 = v536; goto v81; }
    v540 = v537; v546 = v536;
v539:;
    u64 v549 = v80 * 12u;
    u32 v551 = at(u32_1, v4 + v549);
    u32 v553 = at(u32_1, v4 + v549 + 4);
    u32 v547 = umax32(v312, v551);
    u16 v560 = (u16)(at(u16_1, v4 + v549 + 8) + ((v312 > v551) ? ((u16)(v312 - v551)) : 0));
    if (!v518) goto v541;
    v85 = ((((u64)v560) << 32u) | ((u64)v553)) | (((u64)at(u16_1, v4 + v549 + 10)) << 48u); v87 = v547; goto v81;
v541:;
    if (!(v546 > v547)) { v85 = v540; v87 = v546; goto v81; }
    v85 = (((u64)v560) << 32u) | ((u64)umin32(v546 - 1, v553)); v87 = v547;
v81:;
    v79 = v80; v82 = v83; v84 = v85; v86 = v87; goto v76;
}

static u64 map_union_run_list_place_by_guess(u8 *v0, u64 v1, u64 v2, u64 v3, u32 v4) {
    u64 v39, v35, v20, v46, v48, v49, v75, v71, v22, v82, v84, v85, v98, v99;
    if (v2 == v1) return v2;
    if (!(v4 > at(u32, v0 + (v2 * 12u) + 4))) return v2;
    if ((v3 <= v2) | (v1 < v3)) { v39 = v2; v35 = 1; } else goto v32;
v31:;
    u64 v37 = v35 + v39;
    u64 v40 = v37 - 1;
    if (!(v4 > at(u32, v0 + (v40 * 12u) + 4))) { v20 = v39; v46 = v40; goto v21; }
    u64 v34 = v35 << 1;
    if (v34 > (v1 - v37)) { v20 = v37; v46 = v1; } else { v39 = v37; v35 = v34; goto v31; }
v21:;
    if (v20 < v46) { v48 = v20; v49 = v46; } else return v20;
v19:;
    u64 v53 = ((v49 - v48) >> 1) + v48;
    flag v58 = at(u32, v0 + (v53 * 12u) + 4) < v4;
    u64 v50 = v58 ? v49 : v53;
    u64 v18 = v58 ? (v53 + 1) : v48;
    if (v18 < v50) { v48 = v18; v49 = v50; goto v19; }
    return v18;
v32:;
    u64 v61 = v3 - 1;
    if (!(at(u32, v0 + (v61 * 12u) + 4) < v4)) goto v25;
    if (v1 == v3) return v1;
    v75 = v3; v71 = 1;
v68:;
    u64 v73 = v71 + v75;
    u64 v76 = v73 - 1;
    if (!(v4 > at(u32, v0 + (v76 * 12u) + 4))) { v22 = v75; v82 = v76; goto v23; }
    u64 v70 = v71 << 1;
    if (v70 > (v1 - v73)) { v22 = v73; v82 = v1; } else { v75 = v73; v71 = v70; goto v68; }
v23:;
    if (v22 < v82) { v84 = v22; v85 = v82; } else return v22;
v17:;
    u64 v89 = ((v85 - v84) >> 1) + v84;
    flag v94 = at(u32, v0 + (v89 * 12u) + 4) < v4;
    u64 v86 = v94 ? v85 : v89;
    u64 v16 = v94 ? (v89 + 1) : v84;
    if (v16 < v86) { v84 = v16; v85 = v86; goto v17; }
    return v16;
v25:;
    if (v2 < v61) { v98 = v2; v99 = v61; } else return v2;
v27:;
    u64 v103 = ((v99 - v98) >> 1) + v98;
    flag v108 = at(u32, v0 + (v103 * 12u) + 4) < v4;
    u64 v100 = v108 ? v99 : v103;
    u64 v26 = v108 ? (v103 + 1) : v98;
    if (v26 < v100) { v98 = v26; v99 = v100; goto v27; }
    return v26;
}

COLD NOINLINE void map_union_run_list_run_searched(u8 *v0, u8 *v1, u64 v2, u8 *v3, u32 v4) {
    u64 v41, v36, v48, v49, v52, v54, v66;
    u32 v87, v88, v89;
    u16 v90, v91;
    u64 v6 = at(u64_1, v3);
    u64 v8 = at(u64_1, v3 + 8);
    if (!(v6 < v2)) goto v11;
    if (!(at(u32, v1 + (v6 * 12u) + 4) < v4)) goto v11;
    u64 v20 = map_union_run_list_place_by_guess(v1, v2, v6 + 1, uadd_sat64(v8, v6), v4);
    v66 = v20; goto v21;
v11:;
    if (!((v6 - 1) < v2)) goto v25;
    if (at(u32, v1 + (i64)(v6 * 12u) - 8) < v4) { v66 = v6; goto v21; }
    goto v31;
v25:;
    if (v2 == 0) { v66 = 0; goto v21; }
v31:;
    v41 = 0; v36 = 1;
v33:;
    u64 v38 = v36 + v41;
    u64 v42 = v38 - 1;
    if (!(v4 > at(u32, v1 + (v42 * 12u) + 4))) { v48 = v41; v49 = v42; goto v40; }
    u64 v35 = v36 << 1;
    if (v35 > (v2 - v38)) { v48 = v38; v49 = v2; } else { v41 = v38; v36 = v35; goto v33; }
v40:;
    if (v48 < v49) { v52 = v48; v54 = v49; } else { v66 = v48; goto v21; }
v51:;
    u64 v58 = ((v54 - v52) >> 1) + v52;
    flag v63 = at(u32, v1 + (v58 * 12u) + 4) < v4;
    u64 v55 = v63 ? v54 : v58;
    u64 v53 = v63 ? (v58 + 1) : v52;
    if (v53 < v55) { v52 = v53; v54 = v55; goto v51; }
    v66 = v53;
v21:;
    at(u64_1, v3) = v66;
    at(u64_1, v3 + 8) = (v66 == v6) ? v8 : usub_sat64(v66, v6);
    if (v66 == v2) { v87 = 0; v88 = 0; v89 = 0; v90 = 0; v91 = 0; goto v71; }
    u64 v73 = v66 * 12u;
    u32 v75 = at(u32_1, v1 + v73);
    u32 v77 = at(u32_1, v1 + v73 + 4);
    u16 v79 = at(u16_1, v1 + v73 + 8);
    u16 v81 = at(u16_1, v1 + v73 + 10);
    if (!(v4 > v75)) { v87 = 1; v88 = v75; v89 = v77; v90 = v79; v91 = v81; goto v71; }
    v87 = 1; v88 = v4; v89 = v77; v90 = (u16)(v79 + ((u16)(v4 - v75))); v91 = v81;
v71:;
    at(u32_1, v0) = v87;
    at(u32_1, v0 + 4) = v88;
    at(u32_1, v0 + 8) = v89;
    at(u16_1, v0 + 12) = v90;
    at(u16_1, v0 + 14) = v91;
    return;
}

static void map_union_union_map_UnionMapPieces_piece(u8 *v0, u8 *v1, u32 v2) {
    _Alignas(4) u8 v4[16], v5[16];
    flag v52;
    u32 v53, v102, v103, v127, v128;
    u64 v54, v129;
    u8 v101;
    u16 v104, v105;
    u8 *v6 = at(ptr, v1);
    u64 v8 = at(u64, v1 + 8);
    memset(v4, 0, 16u);
    u64 v13 = uadd_sat64(at(u64, v1 + 112), at(u64, v1 + 104));
    if (!((v13 != 0) & (v8 > v13))) goto v18;
    u64 v19 = v13 * 12u;
    if (!(v2 > at(u32, v6 + (i64)v19 - 8))) goto v18;
    if (at(u32, v6 + (i64)v19 + 4) < v2) goto v18;
    at(u64_1, v1 + 104) = v13;
    u32 v29 = at(u32_1, v6 + (i64)v19);
    u16 v34 = at(u16_1, v6 + (i64)v19 + 10);
    u16 v40 = (u16)(at(u16_1, v6 + (i64)v19 + 8) + ((v2 > v29) ? ((u16)(v2 - v29)) : 0));
    at(u32, v4 + 8) = at(u32_1, v6 + (i64)v19 + 4);
    at(u16, v4 + 12) = v40;
    at(u16, v4 + 14) = v34;
    v52 = 1; v53 = umax32(v2, v29); v54 = at(u64_4, v4 + 8); goto v45;
v18:;
    map_union_run_list_run_searched(v4, v6, v8, v1 + 104, v2);
    v52 = at(u8, v4) == 1; v53 = at(u32, v4 + 4); v54 = at(u64_4, v4 + 8);
v45:;
    u8 *v56 = at(ptr, v1 + 24);
    u64 v58 = at(u64, v1 + 32);
    memset(v5, 0, 16u);
    u64 v63 = uadd_sat64(at(u64, v1 + 128), at(u64, v1 + 120));
    if (!((v63 != 0) & (v58 > v63))) goto v68;
    u64 v69 = v63 * 12u;
    if (!(v2 > at(u32, v56 + (i64)v69 - 8))) goto v68;
    if (at(u32, v56 + (i64)v69 + 4) < v2) goto v68;
    at(u64_1, v1 + 120) = v63;
    u32 v79 = at(u32_1, v56 + (i64)v69);
    v101 = 1; v102 = umax32(v2, v79); v103 = at(u32_1, v56 + (i64)v69 + 4); v104 = (u16)(at(u16_1, v56 + (i64)v69 + 8) + ((v2 > v79) ? ((u16)(v2 - v79)) : 0)); v105 = at(u16_1, v56 + (i64)v69 + 10); goto v91;
v68:;
    map_union_run_list_run_searched(v5, v56, v58, v1 + 120, v2);
    v101 = at(u8, v5); v102 = at(u32, v5 + 4); v103 = at(u32, v5 + 8); v104 = at(u16, v5 + 12); v105 = at(u16, v5 + 14);
v91:;
    if (!v52) goto v107;
    if (!((v101 == 1) ? (v53 > v102) : 0)) { v127 = 1; v128 = v53; v129 = v54; goto v112; }
    v127 = 1; v128 = v102; v129 = (((u64)v104) << 32u) | ((u64)umin32(v53 - 1, v103)); goto v112;
v107:;
    v127 = (u32)v101; v128 = v102; v129 = ((((u64)v104) << 32u) | ((u64)v103)) | (((u64)v105) << 48u);
v112:;
    at(u32_1, v0) = v127;
    at(u32_1, v0 + 4) = v128;
    at(u64_1, v0 + 8) = v129;
    return;
}

static NOINLINE void map_union_union_map_UnionMap_run_of_both(u8 *v0, u8 *v1, u32 v2) {
    _Alignas(4) u8 v4[16], v5[16];
    u32 v24, v38, v39, v40;
    u16 v41, v42;
    map_union_union_map_UnionMapPieces_piece(v5, v1, v2);
    if (!(at(u8, v5) == 1)) { v38 = 0; v39 = 0; v40 = 0; v41 = 0; v42 = 0; goto v9; }
    u32 v11 = at(u32, v5 + 4);
    u16 v15 = at(u16, v5 + 12);
    u16 v17 = at(u16, v5 + 14);
    u32 v22 = ((u32)v15) - v11;
    v24 = at(u32, v5 + 8);
v23:;
    u32 v27 = v24 + 1;
    map_union_union_map_UnionMapPieces_piece(v4, v1, v27);
    if (!(at(u8, v4) == 1)) goto v30;
    if ((at(u32, v4 + 4) == v27) ? ((v22 + v27) == ((u32)at(u16, v4 + 12))) : 0) { v24 = at(u32, v4 + 8); goto v23; }
v30:;
    v38 = 1; v39 = v11; v40 = v24; v41 = v15; v42 = v17;
v9:;
    at(u32_1, v0) = v38;
    at(u32_1, v0 + 4) = v39;
    at(u32_1, v0 + 8) = v40;
    at(u16_1, v0 + 12) = v41;
    at(u16_1, v0 + 14) = v42;
    return;
}

static void map_union_union_map_UnionMap_settle(u8 *v0, u8 *v1) {
    _Alignas(4) u8 v3[1];
    _Alignas(8) u8 v37[32], v38[24];
    u8 *v4 = at(ptr_1, v1);
    u64 v6 = at(u64_1, v1 + 8);
    u64 v8 = at(u64_1, v1 + 16);
    u8 *v10 = at(ptr_1, v1 + 24);
    u64 v12 = at(u64_1, v1 + 32);
    u64 v14 = at(u64_1, v1 + 40);
    u8 *v16 = at(ptr_1, v1 + 48);
    u64 v18 = at(u64_1, v1 + 56);
    u64 v20 = at(u64_1, v1 + 64);
    u8 *v22 = at(ptr_1, v1 + 72);
    u64 v24 = at(u64_1, v1 + 80);
    u64 v26 = at(u64_1, v1 + 88);
    u64 v28 = at(u64_1, v1 + 96);
    u64 v30 = at(u64_1, v1 + 104);
    u64 v32 = at(u64_1, v1 + 112);
    u64 v34 = at(u64_1, v1 + 120);
    u64 v36 = at(u64_1, v1 + 128);
    memset(v37, 0, 32u);
    if (!(v12 == 0)) goto v41;
    at(u8, v0) = 0;
    at(ptr_1, v0 + 8) = v4;
    at(u64_1, v0 + 16) = v6;
    at(u64_1, v0 + 24) = v8;
    at(ptr_1, v0 + 32) = v10;
    at(u64_1, v0 + 40) = 0;
    at(u64_1, v0 + 48) = v14;
    at(ptr_1, v0 + 56) = v16;
    at(u64_1, v0 + 64) = v18;
    at(u64_1, v0 + 72) = v20;
    at(ptr_1, v0 + 80) = v22;
    at(u64_1, v0 + 88) = v24;
    at(u64_1, v0 + 96) = v26;
    at(u64_1, v0 + 104) = v28;
    at(u64_1, v0 + 112) = v30;
    at(u64_1, v0 + 120) = v32;
    at(u64_1, v0 + 128) = v34;
    at(u64_1, v0 + 136) = v36;
    return;
v41:;
    if (v26 == 0) goto v61;
    sys_rattle_dealloc(v22);
v61:;
    at(ptr, v38) = v16;
    at(u64, v38 + 8) = v18;
    at(u64, v38 + 16) = v20;
    map_union_merging_runs_of_both(v37, v38, v4, v6, v10, v12);
    if (!(at(u8, v37) == 0)) goto v68;
    u8 *v70 = at(ptr, v37 + 8);
    u64 v72 = at(u64, v37 + 16);
    u64 v74 = at(u64, v37 + 24);
    at(u8, v0) = 0;
    at(ptr_1, v0 + 8) = v70;
    at(u64_1, v0 + 16) = v72;
    at(u64_1, v0 + 24) = v74;
    at(ptr_1, v0 + 32) = v3;
    memset(v0 + 40, 0, 16u);
    at(ptr_1, v0 + 56) = v4;
    at(u64_1, v0 + 64) = v6;
    at(u64_1, v0 + 72) = v8;
    at(ptr_1, v0 + 80) = v10;
    at(u64_1, v0 + 88) = v12;
    at(u64_1, v0 + 96) = v14;
    memset(v0 + 104, 0, 40u);
    return;
v68:;
    if (v8 == 0) goto v88;
    sys_rattle_dealloc(v4);
v88:;
    if (v14 == 0) goto v91;
    sys_rattle_dealloc(v10);
v91:;
    at(u8, v0) = 1;
    memset(v0 + 8, 0, 136u);
    return;
}

static void map_union_union_map_UnionMap_with(u8 *v0, u8 *v1, u8 *v2) {
    _Alignas(8) u8 v4[32], v5[24], v6[32], v32[144], v33[136];
    u8 *v60, v63, *v64, *v67, *v70;
    u64 v61, v62, v65, v66, v68, v69, v71, v72, v73;
    u8 *v7 = at(ptr_1, v1);
    u64 v9 = at(u64_1, v1 + 8);
    u64 v11 = at(u64_1, v1 + 16);
    u8 *v13 = at(ptr_1, v1 + 24);
    u64 v15 = at(u64_1, v1 + 32);
    u64 v17 = at(u64_1, v1 + 40);
    u8 *v19 = at(ptr_1, v1 + 48);
    u64 v21 = at(u64_1, v1 + 56);
    u64 v23 = at(u64_1, v1 + 64);
    u64 v26 = at(u64_1, v1 + 96);
    u8 *v27 = at(ptr_1, v2);
    u64 v29 = at(u64_1, v2 + 8);
    u64 v31 = at(u64_1, v2 + 16);
    memset(v32, 0, 144u);
    u64 v34 = uadd_sat64(v15, v26);
    if (!((v15 == 0) | (v34 >= v9))) goto v39;
    at(ptr, v33) = v7;
    at(u64, v33 + 8) = v9;
    at(u64, v33 + 16) = v11;
    at(ptr, v33 + 24) = v13;
    at(u64, v33 + 32) = v15;
    at(u64, v33 + 40) = v17;
    at(ptr, v33 + 48) = v19;
    at(u64, v33 + 56) = v21;
    at(u64, v33 + 64) = v23;
    memcpy(v33 + 72, v1 + 72, 24u);
    at(u64, v33 + 96) = v26;
    memcpy(v33 + 104, v1 + 104, 32u);
    map_union_union_map_UnionMap_settle(v32, v33);
    if (!(at(u8, v32) == 0)) goto v106;
    u8 *v108 = at(ptr, v32 + 8);
    u64 v110 = at(u64, v32 + 16);
    u64 v112 = at(u64, v32 + 24);
    u8 *v116 = at(ptr, v32 + 56);
    u64 v118 = at(u64, v32 + 64);
    u64 v120 = at(u64, v32 + 72);
    u8 *v122 = at(ptr, v32 + 80);
    u64 v124 = at(u64, v32 + 88);
    u64 v126 = at(u64, v32 + 96);
    if (at(u64, v32 + 48) == 0) goto v128;
    sys_rattle_dealloc(at(ptr, v32 + 32));
v128:;
    at(u8, v0) = 0;
    at(ptr_1, v0 + 8) = v108;
    at(u64_1, v0 + 16) = v110;
    at(u64_1, v0 + 24) = v112;
    at(ptr_1, v0 + 32) = v27;
    at(u64_1, v0 + 40) = v29;
    at(u64_1, v0 + 48) = v31;
    at(ptr_1, v0 + 56) = v116;
    at(u64_1, v0 + 64) = v118;
    at(u64_1, v0 + 72) = v120;
    at(ptr_1, v0 + 80) = v122;
    at(u64_1, v0 + 88) = v124;
    at(u64_1, v0 + 96) = v126;
    memset(v0 + 104, 0, 40u);
    return;
v106:;
    if (v31 == 0) goto v146;
    sys_rattle_dealloc(v27);
v146:;
    at(u8, v0) = 1;
    memset(v0 + 8, 0, 136u);
    return;
v39:;
    memset(v4, 0, 32u);
    memcpy(v5, v1 + 72, 24u);
    map_union_merging_runs_of_both(v4, v5, v13, v15, v27, v29);
    if (!(at(u8, v4) == 0)) goto v44;
    v60 = at(ptr, v4 + 8); v61 = at(u64, v4 + 16); v62 = at(u64, v4 + 24); v63 = 0; v64 = v7; v65 = v9; v66 = v11; v67 = v19; v68 = v21; v69 = v23; v70 = v13; v71 = v15; v72 = v17; v73 = v34; goto v51;
v44:;
    if (v11 == 0) goto v53;
    sys_rattle_dealloc(v7);
v53:;
    if (v17 == 0) goto v56;
    sys_rattle_dealloc(v13);
v56:;
    if (v23 == 0) { v60 = (u8 *)0; v61 = 0; v62 = 0; v63 = 1; v64 = (u8 *)0; v65 = 0; v66 = 0; v67 = (u8 *)0; v68 = 0; v69 = 0; v70 = (u8 *)0; v71 = 0; v72 = 0; v73 = 0; goto v51; }
    sys_rattle_dealloc(v19);
    v60 = (u8 *)0; v61 = 0; v62 = 0; v63 = 1; v64 = (u8 *)0; v65 = 0; v66 = 0; v67 = (u8 *)0; v68 = 0; v69 = 0; v70 = (u8 *)0; v71 = 0; v72 = 0; v73 = 0;
v51:;
    memset(v6, 0, 32u);
    if (v31 == 0) goto v75;
    sys_rattle_dealloc(v27);
v75:;
    at(u8, v0) = v63;
    at(ptr_1, v0 + 8) = v64;
    at(u64_1, v0 + 16) = v65;
    at(u64_1, v0 + 24) = v66;
    at(ptr_1, v0 + 32) = v60;
    at(u64_1, v0 + 40) = v61;
    at(u64_1, v0 + 48) = v62;
    at(ptr_1, v0 + 56) = v67;
    at(u64_1, v0 + 64) = v68;
    at(u64_1, v0 + 72) = v69;
    at(ptr_1, v0 + 80) = v70;
    at(u64_1, v0 + 88) = v71;
    at(u64_1, v0 + 96) = v72;
    at(u64_1, v0 + 104) = v73;
    memcpy(v0 + 112, v6, 32u);
    return;
}
