"""Cuts that version 0.11.0 wrote, before there were cuts for glyph numbers: of each kind, for two texts, of the font
`letters(VARIED)` (layout_making.py and worked_variations.py). Each file is compressed by zlib and written in base
85."""
import base64
import zlib

_WRITTEN = {
    "full": {
        "A": """
            c-
            n=IJq|%Z6ot>s;PFBfL=*}Ug+if1M1jf@bTaYx3NI825(}^gTM(<T2oa^i0_Y^1@lPa9^5x!h=VtDK0AQg4iCoLoLxi#BWJ+?q{-
            i6VQtTHb?sRlpTeS`Q70Ejscw=JD{zTG_I~qr3C;%c!pXm=;nsrBCXU)2LJVXc{`Vqa^k%S&mDA?B;gi!)FnRL}V0v{4jU0=wylv
            *~!<s+c>_#tr+2NplCipTFNc`h<W<M#f21GbqFNfhxAFYytJ_(_1+_kEK-{ugt_e#LsbCr!2sE8;4r
            """,
        "BE": """
            c-n1`I}SlX7=_QwbzN>e3XdpB6bgk3g+e5HrH+Yb;f6wj!~zs{U?Ub_6=DGvKqujhJMjo7`7-
            }GXOfv80)T@$BuYI`%@7w0CTmg~O;*ELES2KCC;9O}^_9~&az2srn1P)ZJ3u6#y*FPbHmJ~7=?jx-Px+nb(ic6ooFR$;{gysUB%w
            zV7To6<fmQ*&bl))OxoNQRCHWGom!Nkehup2ziPx@xb;ciwi@5Lz@de=ryqUdo2if*}lfUKaj7VaU0I^AsI3z^E#5MOLhRg@~AM`
            8k`&*w2>c2ezi(o3J
            """,
    },
    "lean": {
        "A": """
            c-muNWME)mXK-L(VlYU~O)OyGXSe|rsR3ex^qk5xCMITPAbSlEOJt-brX;dE-
            2$?Y0I^vHP=Hm8aW;_s2Z&WNa!V>$?=S$>Gb#Z28aesNi9q@ZknaJcb#fCc3K)19Sb+QzARnZL35bDw1`(hxE-
            =l*00J@$5CC$WBNQ_-
            pa4cV0LuXJ_esiP@%%Pl85o#fFkk_UUl_jtDGs2mj4;!g75-ZQoe=?%N4JB43nT`_ObmDc*i;Arxn6=G2HC=e(2isj6Uc1<nad-t
            """,
        "BE": """
            c-muNWME)mXK-
            L(VlYU~O)OyGXDkPb)Bv$fdQN2;AD^fwki7$lRWec&Qxe&oZUNbMfY>YpD8MSlIGcfiQ3NcXTT;P(fq@Iiw*c}ra`KZCA##ifK)z
            0HVnqQ1F9QpZ-vi_;05KB~1NjUh49p;XK$?dE1T+{R03`1O#UQpT6tgm*046v9O2GjG$ZtS=d*Yu}@%%Pl85o#fFkk_UUl_jtDGs
            0wj1U2!N`?PGKQKi=<e}mSzy%Wn(#!~R7}!wFg)@1eSON*FU|^7mTnO#R9t61!02!SntN
            """,
    },
    "layout": {
        "A": """
            c-n=Ku}Z^G6o&tM)6g2K1u0U&p+kob4uT*K4mMabDg>dMTxvC7qd`RKCiock0ek|V!Urhg=-
            }X3!9mdf+{A!U^uW)}cW%x(|G7{As<?uKO}`U%F$0g8d&ve{-EAn|0269H*xd=qQt?8~1>v5LRV?!Rom%e4CP7X9Rc-Rh(eUz6Yl
            ro!M{Yy|b70E;134kDMNGI0>V|wvZbk9=$bFP~O6IqZ2WKZD@|0W}p7ssTC-
            R%ji_Iv(EJ}cGk(<_Ag&RnuzQ0H6{U>`F!PaZOhr=#qxVDR^!aFS<s5;rRXVum%<=uczCRG@mM>YlHyX%Yn+Quv3JmZ&8Q@gXcQD
            5Di=Epj1^wRs{40w{GH2w(bn!c$G*`V>SRQ^UN?54%vCv>SZpa
            """,
        "BE": """
            c-n1{F-yZx6ot=A8e2n5MOx9VLx&7*f;eQ*V9clx1P4JvTP@gV5y853?0@ioIQs(}9L3qe!Aa^S=y@+M(O54W-uv$5-
            FNPV0N`K@6I;P{9AX|eGY>Kw?S#7!tN>5cQnbGpljVyy%8lZK0P9%g{gYbjq{$F<aSaHM?4J&9PF%OyBzMW}elO`J)!>;tA#e1Vu
            $ILw`Cir2t5Nk){x4q0-
            dXSRTnaE8a%FJQNmy%;7v+CxG8$q56|zrmDQ`7SAS3f#j?DWk+nS)>8{CJ<E>&2ni&Tv@LwcYZWLuq%dgtkGvL0y3d#GiVO&CS6R
            D}K=<GZ8x<GTL=n6LOJ#8gaqNS7jaZMMEP+4nH3|Cy1~<vE__Pan*c`vTdnRXAEJzto<QD0Y|cuNYGL`v!)>GoS
            """,
    },
    "variable": {
        "A": """
            c-n=M!Al!a5XQf^n~=?tR*@h@gX9n)2M_V09(u@zwNWrpk~HR4)+8D<X(bd%q4dw_rBLjxC(+hJj~;vUDAGTmM-TB<NWXczO;TFS
            !0haA=FPr&-&-gEaXv!G=A806q9_7ti`iJ-
            U4I6X6{s3{Ccm>?h5;^CZSv!M`FRejm?OU>FKtwv(q_#qkw23o1#;2nbK!EusZ^?Nh5Svp%KENfzY_LNyzXAF(ItNuu6Mj+OyP!n
            P0rL=Z|J%Ksqd4W!)4BESme|}`^|nlzOX=E(#-
            nVyT$k99dfbN^cr3ycS}Acue6v5&#DjP8(H7#yzYg6;1T&3IepaZz7z+{6gkv>RreV0$Z0um$Lk$)HT5xhCM2nhf<*-
            Zmv1IUru4{CA7w^tGlqhU#g#GkMiD_+e?{C9ZIxl75Jb^ZVl`mVP9l79LUOC@vvrK=T@qtEJAteEpFYV>>)Va<&2nm)%wRCqF*bU
            T92yWET5t-PA*;_NTKFcp$ON~uxWehD^NTNEFX!eHL!EGO>wbJO_4J-
            v|HOYx^;KWy_Ww`6$4m~^xNXg^|8oFaa&!X^80)tG4`>r5pG@$S-pT&!rZLoj^Zf>$+hBe
            """,
        "BE": """
            c-
            n=Mzb`{k6vw~!y;iGvN(2#u7z`Z@EEqcUHLa5P6|L$Zk*7sNi!?$d{u2WdgGFLAb~KvBVDtwt*Z16awG|R4Iq$sBJ@=k_?)P3O00
            aC4kVv}OG`g`2s6~!CnN)fXHZxEKa(`xZB?}9jtSaPaCcB=*3`WQo<caybyS7kBt&#7@p(XON&kw@coSVz#Q#taZaGv=MKi?4cPQ
            BW8y;LJV2^Xv0F?!V*`I#IqGGEep%aQyp+1;OFzt#YGe6Mo88;uSQl4mtD|90QFByW=E$~#`k3ngF3x8&(E2ZBRN@~<+#Ts^6Wo)
            G~LO^Y4u)DFeTF>;`CRP@*j_p&GCyj8D$j2_X)7JbI3j6#?S0xACKBE}STgU+`{+8kjFn2|7NI$Yb05Q4gjcv!SmmW?G7MN5f!!=
            jx;n(P#iTjjclj*i|XW_Ff*(zyJmjR%Y0HKdb1ebb_A*ey&>Hk%!NcO1i%Y#Gb6%$!K}Na!<)F6|!v^#mHYzG-
            QN^{dgBt={-2^?t`6rash%^y|M-e~mrX<Xf-`e*RbEk?%1^yIlueKkEYiJJ9ABAMWt+U#|4McHVYNEa~qHP}*F9
            """,
    },
}

EARLIER = {kind: {text: zlib.decompress(base64.b85decode("".join(written.split()))) for text, written in cuts.items()}
           for kind, cuts in _WRITTEN.items()}
