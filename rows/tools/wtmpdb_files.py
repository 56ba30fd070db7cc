"""Databases of wtmpdb for rows. Python's sqlite3 made them, with pages of 512 bytes and wtmpdb's own text of the table.

Their rows, with times in seconds since 1970:

DAY   1 boot 1000 to 8000, 2 ann tty1 1100.9 to 1700.1, 3 bob ssh from 1200, 4 ann ssh 1300 to 2200, 5 a run level 1400, 6 boot from 9000,
      7 cat ssh 9100 to 9100, 8 cat tty2 from 9200
BASE  1 boot 1000 to 8000, 2 ann tty1 1100.9 to 1700.1; LOG is its log, in which the session of ID 2 ends at 4700
LONG  1 boot, 2 ann as in BASE, 3 a user of 33 bytes
LATE  1 boot, 2 ann as in BASE, 3 bob at the second 2 ^ 31
NONE  a run level alone
VACUUMED and WIDE  2 ann of BASE as 1, with auto-vacuum and in UTF-16
INDEXED  the rows of BASE, two indexes, and what ANALYZE says of them
BESIDE  the rows of BASE; a table of hosts before it, a view and a trigger after it
LONGER  1 boot, 2 ann as in BASE, 3 bob tty2 1800 to 2400, and a column more, which 3 alone has
DESCENDING  the rows of BASE, and an index that descends
OTHER  a table of people
FEWER  the table without its last column
EMPTY  no table at all
"""
import base64
import zlib


def unpacked(text):
    return zlib.decompress(base64.b85decode(text))


DAY = unpacked(
    'c-jjN^vNtqRY=P(%1ta$FlJz4U}R))P*7lC05TyM1{i^u1&vP#Ffr&QGxCBIGx{+A(J%*%`i$)2qN0pVjwOjnIjQ9(xdkB1<Q(Mc7~-lB;^^e#ssIwv@N`k|^b2uycMVbq'
    '2=erG42o3nc8%0g2&pVcg~{kBgche3DTKI2geds=197O2kB)**etKpeLJ5$YUs{6ThlE6eb?7JrrRL_Bq<Z8Rmp}!AQ;W(nlT*PwO@-i)AW!EIP~31ZJYitG&bXa%3S%~7'
    '5Th<56Hs6n0T~WX21a3422oyd=H$c@1}2r5I}9Zyl}0(Bpwwgs%d!f~i$Y}O(ta~Q$l~G*LrWt)13e=>b09lKnT?ZyQ<9Z|U!9>SH7P$Is92&<ilNR-&(KKE#6mYQH^t0E'
    'oE2!EEDHlaF9TCiX<klhS!zyjksm{yIt$1m7O+K$d3nAyxj?ryD~2IkV+pcGkr}Lz0i-Y~KgqqV2g4<DOkgD}ATI&Ua-5g8AT_jn0nk&1U{9$tf?UeN3U{gXtW&^Dc;{LG'
    'nri_G2!cB')

BASE = unpacked(
    'c-jjN^vNtqRY=P(%1ta$FlJz4U}9o$P*7lC05TyM1{i^u1&vP#Ffr&QGxCBIGx{+A(J%*%`i$)2qN0pVjwOjnIjQ9(xdkB1<Q(Mc7~-lB;^^e#ssIwv@N`k|^b2uycMVbq'
    '2=erG42o3nc8%0g2&pVcg~{kBgche3DTKI2geds=197O2kB)**etKpeLJ5$YUs{6ThlE6eb?7JrrRL_Bq<Z8Rmp}!AQ;W(nlT*PwO@-i)AW!EIP~0#vZf9V;4kSjwPyupG'
    'oD7V@EG(kD;>?M8d5-ha7NmxjFDNOgG|T~|4|PUP22M#9R(^GcqSU1P{1WR~r+}I8&b0uBIx{^(BRvxf-Nf7!GZO&9+)>v')

LOG = unpacked(
    'c-k|sXKP~6eI&uaz{CIqjFJ<5uUFd%>{}}_MMs5cl@9|%f(a(RAiU_R$_IN5UXUQ;RtCoFKw=aO4WPip$-pSg!Yaxu&YYN+=QuBI0Ry9iia$e1Nu^;<etKq}IwL0orz8t2'
    'zdA!vYEpiFiS?{gz*KSPS^z_xnVzAMo{5ESVs46=2>@0dBnS')

LONG = unpacked(
    'c-jjN^vNtqRY=P(%1ta$FlJz4U}R))P*7lC05TyM1{i^u1&vP#Ffr&QGxCBIGx{+A(J%*%`i$)2qN0pVjwOjnIjQ9(xdkB1<Q(Mc7~-lB;^^e#ssIwv@N`k|^b2uycMVbq'
    '2=erG42o3nc8%0g2&pVcg~{kBgche3DTKI2geds=197O2kB)**etKpeLJ5$YUs{6ThlE6eb?7JrrRL_Bq<Z8Rmp}!AQ;W(nlT*PwO@-i)AW!EIP~0#x)-o_&XWR~?Mgcv6'
    '1v4iDqdyCSD6cqkA|c@3*27RzQfZh2ihnsKpiW^H7O>8|JjZ!y3sOVN7r^D!895m^C0SVc)ftLXlk)RRtY@79X2Lty0vPJd^bC#kOe}O0b5qPr06}nMa{')

LATE = unpacked(
    'c-jjN^vNtqRY=P(%1ta$FlJz4U}R))P*7lC05TyM1{i^u1&vP#Ffr&QGxCBIGx{+A(J%*%`i$)2qN0pVjwOjnIjQ9(xdkB1<Q(Mc7~-lB;^^e#ssIwv@N`k|^b2uycMVbq'
    '2=erG42o3nc8%0g2&pVcg~{kBgche3DTKI2geds=197O2kB)**etKpeLJ5$YUs{6ThlE6eb?7JrrRL_Bq<Z8Rmp}!AQ;W(nlT*PwO@-i)AW!EIP~0#xPG?}e&bS>&je@}e'
    '<d``b7=_swM0v%Tlk$@o*cXCwBtuC_rC|;z{^giJ@+>SM`NX_D$9ZWBQbWrZz~$8$IT<)5Sy=hi8H!Sq^7BiqXPp9O!aLUj80yUQ42|?mEOZldQ_M^NsV7);')

OTHER = unpacked(
    'c-jjN^vNtqRY=P(%1ta$FlJz4U}R))P*7lC05TyM1{i^u1&vP#Ffr&QGxCBIGoD}oqESF2V8+NME-A_AS(2EPlUk6PUjQSSoP%5)LtGU?9G!ez6(C|7eu=rM3L&l$A)1i5'
    '`N;r8qhKTfRz@b_#JoHJaJw8w')

NONE = unpacked(
    'c-rle&q@P9491hCAUzaMr6(cB3X2|m0oOX%#c|cy6x?GiQ5JSPWjd{R5%gt!4QKm@f|uS)f8>LF$(K{|XI*-sH|y%Lrz?m65w3{<Lc7)$3~K%J`-tFTf}JLe8H74;zAy2l'
    '*X`m@;>WL*eE53SC>j`*up&-ww4!FxPj4yBSluZ@PbPgxOhNamh>1UEvfacqnu{Y=FHG5E&`9f;w0$q9yGXEh;dh?7SY5<qq_$p$cJ4QWT->sp$jY5l&L$o3`ZvE2>d4{J'
    '!#3bq3r;%_xy7`SrBu1g;Oh@yx<fS')

VACUUMED = unpacked(
    'c-rlh&q~8U5XNWRfOzOhLT@rhg-{V+z_l(KTw~pAz#L=QN}$P>bhY%T4<dauAH_{g>Ct=bkNIG}`E#5}pJeF_O>9#YjxON<5aEgl09dCD=oNH1>-=9Z7>u#k4r2m7cASrMJnV-de'
    'sWj5OwGbovsP@V1lNKzzm|g9%4vK<aiYboP&88U16MiSi##H|oS980qHJy&(&AZD^5~UG8IiQFWxXBo*1ox|*E(NsM5Ih*ow>7f*A-IJyq9CMc4w4o6%RGSp8w46ZGMA~Jv+z=9s'
    'wQ)LD=iFqOSSZWM#6&%DLsmw0$H$qRK|@')

WIDE = unpacked(
    'c-rk#%}T>S5dJ0x#6uszLtuMT5kY(bV=Wqte`zA-7)vSz(@49u^eR4w^yUlsKz^AT30N;4#mUah&VKXlOvt2n9S&`72IaWOtT})K5gZx=aJ$r6gz7fpCias!*y~G6$#1CEFXj10*'
    '4v&ZFH?&QcX&XK87vAsetD;Z2wnJyX$`H9BZRuIQ??M`m~ns$%{rk*jIU?|oRbkDWqii-6uWxMoV@%Sr@|6Uh>SI>i(6X5oXbz2uy&|<Axhk1h|$VhmS~A7dt8Obe9}gZ>MUa2f*'
    'ebKN<UF<Goz=SJ+W$EyRWfr#bSNm4!wRGc?Z|O{1Mra4albJdad?a#;F^@e;q9HWVW!JlR5VJ`_vQp0oklb8v')

INDEXED = unpacked(
    'c-rk&PiqrV5TDt7*}7_}kS<FpmARBQu%>KVilB&VyJ+Z|*3AYQdMKObRTh$LO<rwtDX8DVgY;YY9XxqaFWv<&9=v$;y-i|TFP;tg!3=Ny?mXu0FqLOPA~+qTomMPp4KzT6heQBiNXo$oY(PUG{2K'
    '-o4{<sRd;?g<TkugHu40=R_TnP$i@4t8-4{(+&p}tj!o7UXZHB%V`4oAN0-r8hmPNhkB#kpiNreZxVb5E*pR^nNtlm2~>GIC0XdSabe5t(U@6o_OJ7rSF<*F1MilSQKzGm197FLJx&GdQFRzCXQ2'
    '{Ox{41tmguU2r%wk&+@WtUMFMcS3(Gyl?-%oO>L{g8IU(o-+2(Y9ZcHS~`8(BhD)iz0t7qVkTUY7jV-eQD$(#q>msWO<1!!l972Qo*03T`^Epc;{tu$TO)xl_)H2MyfX&z6bmw*#!R!ZfhoBo-u3'
    'M*5h{Ddv|oftEU%2^xW)SE};qL9LvotL5J7VRNQ;}LH@B{Kkvf%M$ug@uHU^Aw;CJk*R%fr0Q@D{1mlitIz#nXv?-mL>P__f{|)e`WD|@lZm_u-vp)&WZ?e3Fa%iYwq4nqgC&2HLO)wtFYs^~6t3'
    '6}5r>v4Yi_Dt02THa5NFBMq0qvf%pa')

BESIDE = unpacked(
    'c-rk$O>fgc5Z!g$ra1%-$g(P=Y9tPAr4ZB)DyoWtn`~1H*D32w+niwAZi0m!NA|X%7o_qtIH3Luj@*&BwikW`KY{fo5W$5D2T=3m8O=Pu9Y1+w2hY7w3g{$h%q6TK17VDw0w9EnDoiwn`CE_CpHW'
    '2BV?32t#?KiO{6i?`i^SiMx+b^*xP=S%N*$h7#Ty>?Ba!dlz#kF5R%wF&1#?CT;X9^jmF)uW^_&l#OVJu!N_oB%CEc($k4vaDYfjysN2xeU61nmIv-;4#UhSc`Yt^OY>guEWJU&@lE$g51ON2k+G'
    'Ww#5zl_&r@vd#nTs)L%*zJlm;!>mo8TV_HIE(<JZlggcXdawxrfSy@2xZXpAs50HX}CVriAR)vn>Kfc^uZ3H>il_Mz++h70OHp-3)7Zu&+xNQ3{EqVW;%_YwC|Dw&;&RE1ZrH3K}+@HnHLX?qHS6'
    'Dog?{CByuW`!Vj;`mPfR3!L2KojO5PusJrXXHasKk%Fxc}PGvZqkwXT4Q$@@3D&Xbo8B0`~oXT;}SX-Z{02Of}#ZHpR5fO;=EIbyvTZBNpxf*+dr)}HDFSOrRN}K6q{Nh+s3q2l-(WEHhCmAS-xA'
    '+}L;G%{')

LONGER = unpacked(
    'c-jjN^vNtqRY=P(%1ta$FlJz4U}R))P*7lCU|<DeCI$omv00G#j0}VUD}!D#BQHoXqcZ~#4M)&u#mFu$D$3XtUXqxUlUiPqTL8jL&Oxq@A+8D`j!r(V3Lp^;PZtGGzYte<*C2&}AWvV%phyL8*GL'
    '_OkjjEon2e4>XmM(hLWpZbh=QL#5QqBs=qUK)r)TCNlmNN;r6mY{NJu1DhmJx}YHof>sz-it2~;3BwWusJITg-Jgh*&A1cwB9I){MbhMBRSf$=)yb|5th1{SC>b1^Uqv#^Ttii<NR<tJr(UIL2t^'
    'GYz3lvEn!fKov*FbWOim^eY|Sb*x76Z7&M=cO%34J}^)RAdNNq|V66z$wYX%CF8)l$w;EUt&G$6fhIsxfZ}sXQpRpq-SEGo0ywoW&!}uk6$M')

DESCENDING = unpacked(
    'c-jjN^vNtqRY=P(%1ta$FlJz4U}R))P*7lCU|<1aW(EXcf{MWaBLiW;!l0MT$P3cU$j!j$2P6hBaAaZ=mlb7<&&*3ntw^ej&&f~E%quU+Ens#Ia&-)GRq*t4ag9)b$td{yDS%`(e84;x*I;MOMtw'
    '$haZypmCdZP*q?}ZcGzc?64G3{`@^OV|@^k?j7vk#f8l(^q<mu}e6sh3t8mXfYQdy7+lhIKKElw>`2yu-FQSkEz;!qzS9R-MWa3w%)erXAU9}*G?)}f;il$x7glIoFPTmlscPAw|SOil&!G!=qFf'
    ';^o=AaS#uf$=(!7zING$T4v;FbcD<i1LavC+6ij&P!X68d|=fq@>aioH*4PIT<)5Sy=hi8H!Sq^7BiqXPpA(*gMw(80yUQ42|?mEOZldQ_M`b!14c{f$=+#7zM)}ursr8f|3FUGYcaq(J%o3=I?D'
    'w')

FEWER = unpacked(
    'c-rley9&ZU5JhK$U}Y(`V<9L68-Kv4iw4)%W&#FmqO2kqSIml7>X(}pBxvIY#KT;eJCEuH3$Zr}xB8sK20P#YW6(te0G7#t9P3M8{ud0|8&<ImTR~QZ;$COvTD8g^4HK^q>S~gcmD88pBaY<t1V='
    'k*`UCW*#D`qsT>2AFMmXk?i*!4w_r}FARc9o=B%IDNg+jO}^lpF5Pco}7Cig_q>%&E<5^dB-r{*<iVL;OFlg;KM<v)eu3BMvYbp')

EMPTY = unpacked(
    'c-jjN^vNtqRY=P(%1ta$FlJz4U}R))P*7lCU|@t|e1NdLUNR#uh{eP(3I-tn07K#iSO')
