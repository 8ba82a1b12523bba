/* Three hundred functions, each of which makes an array of 470 words 0 but for its first. */
#include <stdio.h>

int f0(int n) { int a[470] = {0}; a[n] = a[n] + 1; return a[0] + a[n] + a[469]; }
int f1(int n) { int a[470] = {1}; a[n] = a[n] + 1; return a[0] + a[n] + a[469]; }
int f2(int n) { int a[470] = {2}; a[n] = a[n] + 1; return a[0] + a[n] + a[469]; }
int f3(int n) { int a[470] = {3}; a[n] = a[n] + 1; return a[0] + a[n] + a[469]; }
int f4(int n) { int a[470] = {4}; a[n] = a[n] + 1; return a[0] + a[n] + a[469]; }
int f5(int n) { int a[470] = {5}; a[n] = a[n] + 1; return a[0] + a[n] + a[469]; }
int f6(int n) { int a[470] = {6}; a[n] = a[n] + 1; return a[0] + a[n] + a[469]; }
int f7(int n) { int a[470] = {7}; a[n] = a[n] + 1; return a[0] + a[n] + a[469]; }
int f8(int n) { int a[470] = {8}; a[n] = a[n] + 1; return a[0] + a[n] + a[469]; }
int f9(int n) { int a[470] = {9}; a[n] = a[n] + 1; return a[0] + a[n] + a[469]; }
int f10(int n) { int a[470] = {10}; a[n] = a[n] + 1; return a[0] + a[n] + a[469]; }
int f11(int n) { int a[470] = {11}; a[n] = a[n] + 1; return a[0] + a[n] + a[469]; }
int f12(int n) { int a[470] = {12}; a[n] = a[n] + 1; return a[0] + a[n] + a[469]; }
int f13(int n) { int a[470] = {13}; a[n] = a[n] + 1; return a[0] + a[n] + a[469]; }
int f14(int n) { int a[470] = {14}; a[n] = a[n] + 1; return a[0] + a[n] + a[469]; }
int f15(int n) { int a[470] = {15}; a[n] = a[n] + 1; return a[0] + a[n] + a[469]; }
int f16(int n) { int a[470] = {16}; a[n] = a[n] + 1; return a[0] + a[n] + a[469]; }
int f17(int n) { int a[470] = {17}; a[n] = a[n] + 1; return a[0] + a[n] + a[469]; }
int f18(int n) { int a[470] = {18}; a[n] = a[n] + 1; return a[0] + a[n] + a[469]; }
int f19(int n) { int a[470] = {19}; a[n] = a[n] + 1; return a[0] + a[n] + a[469]; }
int f20(int n) { int a[470] = {20}; a[n] = a[n] + 1; return a[0] + a[n] + a[469]; }
int f21(int n) { int a[470] = {21}; a[n] = a[n] + 1; return a[0] + a[n] + a[469]; }
int f22(int n) { int a[470] = {22}; a[n] = a[n] + 1; return a[0] + a[n] + a[469]; }
int f23(int n) { int a[470] = {23}; a[n] = a[n] + 1; return a[0] + a[n] + a[469]; }
int f24(int n) { int a[470] = {24}; a[n] = a[n] + 1; return a[0] + a[n] + a[469]; }
int f25(int n) { int a[470] = {25}; a[n] = a[n] + 1; return a[0] + a[n] + a[469]; }
int f26(int n) { int a[470] = {26}; a[n] = a[n] + 1; return a[0] + a[n] + a[469]; }
int f27(int n) { int a[470] = {27}; a[n] = a[n] + 1; return a[0] + a[n] + a[469]; }
int f28(int n) { int a[470] = {28}; a[n] = a[n] + 1; return a[0] + a[n] + a[469]; }
int f29(int n) { int a[470] = {29}; a[n] = a[n] + 1; return a[0] + a[n] + a[469]; }
int f30(int n) { int a[470] = {30}; a[n] = a[n] + 1; return a[0] + a[n] + a[469]; }
int f31(int n) { int a[470] = {31}; a[n] = a[n] + 1; return a[0] + a[n] + a[469]; }
int f32(int n) { int a[470] = {32}; a[n] = a[n] + 1; return a[0] + a[n] + a[469]; }
int f33(int n) { int a[470] = {33}; a[n] = a[n] + 1; return a[0] + a[n] + a[469]; }
int f34(int n) { int a[470] = {34}; a[n] = a[n] + 1; return a[0] + a[n] + a[469]; }
int f35(int n) { int a[470] = {35}; a[n] = a[n] + 1; return a[0] + a[n] + a[469]; }
int f36(int n) { int a[470] = {36}; a[n] = a[n] + 1; return a[0] + a[n] + a[469]; }
int f37(int n) { int a[470] = {37}; a[n] = a[n] + 1; return a[0] + a[n] + a[469]; }
int f38(int n) { int a[470] = {38}; a[n] = a[n] + 1; return a[0] + a[n] + a[469]; }
int f39(int n) { int a[470] = {39}; a[n] = a[n] + 1; return a[0] + a[n] + a[469]; }
int f40(int n) { int a[470] = {40}; a[n] = a[n] + 1; return a[0] + a[n] + a[469]; }
int f41(int n) { int a[470] = {41}; a[n] = a[n] + 1; return a[0] + a[n] + a[469]; }
int f42(int n) { int a[470] = {42}; a[n] = a[n] + 1; return a[0] + a[n] + a[469]; }
int f43(int n) { int a[470] = {43}; a[n] = a[n] + 1; return a[0] + a[n] + a[469]; }
int f44(int n) { int a[470] = {44}; a[n] = a[n] + 1; return a[0] + a[n] + a[469]; }
int f45(int n) { int a[470] = {45}; a[n] = a[n] + 1; return a[0] + a[n] + a[469]; }
int f46(int n) { int a[470] = {46}; a[n] = a[n] + 1; return a[0] + a[n] + a[469]; }
int f47(int n) { int a[470] = {47}; a[n] = a[n] + 1; return a[0] + a[n] + a[469]; }
int f48(int n) { int a[470] = {48}; a[n] = a[n] + 1; return a[0] + a[n] + a[469]; }
int f49(int n) { int a[470] = {49}; a[n] = a[n] + 1; return a[0] + a[n] + a[469]; }
int f50(int n) { int a[470] = {50}; a[n] = a[n] + 1; return a[0] + a[n] + a[469]; }
int f51(int n) { int a[470] = {51}; a[n] = a[n] + 1; return a[0] + a[n] + a[469]; }
int f52(int n) { int a[470] = {52}; a[n] = a[n] + 1; return a[0] + a[n] + a[469]; }
int f53(int n) { int a[470] = {53}; a[n] = a[n] + 1; return a[0] + a[n] + a[469]; }
int f54(int n) { int a[470] = {54}; a[n] = a[n] + 1; return a[0] + a[n] + a[469]; }
int f55(int n) { int a[470] = {55}; a[n] = a[n] + 1; return a[0] + a[n] + a[469]; }
int f56(int n) { int a[470] = {56}; a[n] = a[n] + 1; return a[0] + a[n] + a[469]; }
int f57(int n) { int a[470] = {57}; a[n] = a[n] + 1; return a[0] + a[n] + a[469]; }
int f58(int n) { int a[470] = {58}; a[n] = a[n] + 1; return a[0] + a[n] + a[469]; }
int f59(int n) { int a[470] = {59}; a[n] = a[n] + 1; return a[0] + a[n] + a[469]; }
int f60(int n) { int a[470] = {60}; a[n] = a[n] + 1; return a[0] + a[n] + a[469]; }
int f61(int n) { int a[470] = {61}; a[n] = a[n] + 1; return a[0] + a[n] + a[469]; }
int f62(int n) { int a[470] = {62}; a[n] = a[n] + 1; return a[0] + a[n] + a[469]; }
int f63(int n) { int a[470] = {63}; a[n] = a[n] + 1; return a[0] + a[n] + a[469]; }
int f64(int n) { int a[470] = {64}; a[n] = a[n] + 1; return a[0] + a[n] + a[469]; }
int f65(int n) { int a[470] = {65}; a[n] = a[n] + 1; return a[0] + a[n] + a[469]; }
int f66(int n) { int a[470] = {66}; a[n] = a[n] + 1; return a[0] + a[n] + a[469]; }
int f67(int n) { int a[470] = {67}; a[n] = a[n] + 1; return a[0] + a[n] + a[469]; }
int f68(int n) { int a[470] = {68}; a[n] = a[n] + 1; return a[0] + a[n] + a[469]; }
int f69(int n) { int a[470] = {69}; a[n] = a[n] + 1; return a[0] + a[n] + a[469]; }
int f70(int n) { int a[470] = {70}; a[n] = a[n] + 1; return a[0] + a[n] + a[469]; }
int f71(int n) { int a[470] = {71}; a[n] = a[n] + 1; return a[0] + a[n] + a[469]; }
int f72(int n) { int a[470] = {72}; a[n] = a[n] + 1; return a[0] + a[n] + a[469]; }
int f73(int n) { int a[470] = {73}; a[n] = a[n] + 1; return a[0] + a[n] + a[469]; }
int f74(int n) { int a[470] = {74}; a[n] = a[n] + 1; return a[0] + a[n] + a[469]; }
int f75(int n) { int a[470] = {75}; a[n] = a[n] + 1; return a[0] + a[n] + a[469]; }
int f76(int n) { int a[470] = {76}; a[n] = a[n] + 1; return a[0] + a[n] + a[469]; }
int f77(int n) { int a[470] = {77}; a[n] = a[n] + 1; return a[0] + a[n] + a[469]; }
int f78(int n) { int a[470] = {78}; a[n] = a[n] + 1; return a[0] + a[n] + a[469]; }
int f79(int n) { int a[470] = {79}; a[n] = a[n] + 1; return a[0] + a[n] + a[469]; }
int f80(int n) { int a[470] = {80}; a[n] = a[n] + 1; return a[0] + a[n] + a[469]; }
int f81(int n) { int a[470] = {81}; a[n] = a[n] + 1; return a[0] + a[n] + a[469]; }
int f82(int n) { int a[470] = {82}; a[n] = a[n] + 1; return a[0] + a[n] + a[469]; }
int f83(int n) { int a[470] = {83}; a[n] = a[n] + 1; return a[0] + a[n] + a[469]; }
int f84(int n) { int a[470] = {84}; a[n] = a[n] + 1; return a[0] + a[n] + a[469]; }
int f85(int n) { int a[470] = {85}; a[n] = a[n] + 1; return a[0] + a[n] + a[469]; }
int f86(int n) { int a[470] = {86}; a[n] = a[n] + 1; return a[0] + a[n] + a[469]; }
int f87(int n) { int a[470] = {87}; a[n] = a[n] + 1; return a[0] + a[n] + a[469]; }
int f88(int n) { int a[470] = {88}; a[n] = a[n] + 1; return a[0] + a[n] + a[469]; }
int f89(int n) { int a[470] = {89}; a[n] = a[n] + 1; return a[0] + a[n] + a[469]; }
int f90(int n) { int a[470] = {90}; a[n] = a[n] + 1; return a[0] + a[n] + a[469]; }
int f91(int n) { int a[470] = {91}; a[n] = a[n] + 1; return a[0] + a[n] + a[469]; }
int f92(int n) { int a[470] = {92}; a[n] = a[n] + 1; return a[0] + a[n] + a[469]; }
int f93(int n) { int a[470] = {93}; a[n] = a[n] + 1; return a[0] + a[n] + a[469]; }
int f94(int n) { int a[470] = {94}; a[n] = a[n] + 1; return a[0] + a[n] + a[469]; }
int f95(int n) { int a[470] = {95}; a[n] = a[n] + 1; return a[0] + a[n] + a[469]; }
int f96(int n) { int a[470] = {96}; a[n] = a[n] + 1; return a[0] + a[n] + a[469]; }
int f97(int n) { int a[470] = {97}; a[n] = a[n] + 1; return a[0] + a[n] + a[469]; }
int f98(int n) { int a[470] = {98}; a[n] = a[n] + 1; return a[0] + a[n] + a[469]; }
int f99(int n) { int a[470] = {99}; a[n] = a[n] + 1; return a[0] + a[n] + a[469]; }
int f100(int n) { int a[470] = {100}; a[n] = a[n] + 1; return a[0] + a[n] + a[469]; }
int f101(int n) { int a[470] = {101}; a[n] = a[n] + 1; return a[0] + a[n] + a[469]; }
int f102(int n) { int a[470] = {102}; a[n] = a[n] + 1; return a[0] + a[n] + a[469]; }
int f103(int n) { int a[470] = {103}; a[n] = a[n] + 1; return a[0] + a[n] + a[469]; }
int f104(int n) { int a[470] = {104}; a[n] = a[n] + 1; return a[0] + a[n] + a[469]; }
int f105(int n) { int a[470] = {105}; a[n] = a[n] + 1; return a[0] + a[n] + a[469]; }
int f106(int n) { int a[470] = {106}; a[n] = a[n] + 1; return a[0] + a[n] + a[469]; }
int f107(int n) { int a[470] = {107}; a[n] = a[n] + 1; return a[0] + a[n] + a[469]; }
int f108(int n) { int a[470] = {108}; a[n] = a[n] + 1; return a[0] + a[n] + a[469]; }
int f109(int n) { int a[470] = {109}; a[n] = a[n] + 1; return a[0] + a[n] + a[469]; }
int f110(int n) { int a[470] = {110}; a[n] = a[n] + 1; return a[0] + a[n] + a[469]; }
int f111(int n) { int a[470] = {111}; a[n] = a[n] + 1; return a[0] + a[n] + a[469]; }
int f112(int n) { int a[470] = {112}; a[n] = a[n] + 1; return a[0] + a[n] + a[469]; }
int f113(int n) { int a[470] = {113}; a[n] = a[n] + 1; return a[0] + a[n] + a[469]; }
int f114(int n) { int a[470] = {114}; a[n] = a[n] + 1; return a[0] + a[n] + a[469]; }
int f115(int n) { int a[470] = {115}; a[n] = a[n] + 1; return a[0] + a[n] + a[469]; }
int f116(int n) { int a[470] = {116}; a[n] = a[n] + 1; return a[0] + a[n] + a[469]; }
int f117(int n) { int a[470] = {117}; a[n] = a[n] + 1; return a[0] + a[n] + a[469]; }
int f118(int n) { int a[470] = {118}; a[n] = a[n] + 1; return a[0] + a[n] + a[469]; }
int f119(int n) { int a[470] = {119}; a[n] = a[n] + 1; return a[0] + a[n] + a[469]; }
int f120(int n) { int a[470] = {120}; a[n] = a[n] + 1; return a[0] + a[n] + a[469]; }
int f121(int n) { int a[470] = {121}; a[n] = a[n] + 1; return a[0] + a[n] + a[469]; }
int f122(int n) { int a[470] = {122}; a[n] = a[n] + 1; return a[0] + a[n] + a[469]; }
int f123(int n) { int a[470] = {123}; a[n] = a[n] + 1; return a[0] + a[n] + a[469]; }
int f124(int n) { int a[470] = {124}; a[n] = a[n] + 1; return a[0] + a[n] + a[469]; }
int f125(int n) { int a[470] = {125}; a[n] = a[n] + 1; return a[0] + a[n] + a[469]; }
int f126(int n) { int a[470] = {126}; a[n] = a[n] + 1; return a[0] + a[n] + a[469]; }
int f127(int n) { int a[470] = {127}; a[n] = a[n] + 1; return a[0] + a[n] + a[469]; }
int f128(int n) { int a[470] = {128}; a[n] = a[n] + 1; return a[0] + a[n] + a[469]; }
int f129(int n) { int a[470] = {129}; a[n] = a[n] + 1; return a[0] + a[n] + a[469]; }
int f130(int n) { int a[470] = {130}; a[n] = a[n] + 1; return a[0] + a[n] + a[469]; }
int f131(int n) { int a[470] = {131}; a[n] = a[n] + 1; return a[0] + a[n] + a[469]; }
int f132(int n) { int a[470] = {132}; a[n] = a[n] + 1; return a[0] + a[n] + a[469]; }
int f133(int n) { int a[470] = {133}; a[n] = a[n] + 1; return a[0] + a[n] + a[469]; }
int f134(int n) { int a[470] = {134}; a[n] = a[n] + 1; return a[0] + a[n] + a[469]; }
int f135(int n) { int a[470] = {135}; a[n] = a[n] + 1; return a[0] + a[n] + a[469]; }
int f136(int n) { int a[470] = {136}; a[n] = a[n] + 1; return a[0] + a[n] + a[469]; }
int f137(int n) { int a[470] = {137}; a[n] = a[n] + 1; return a[0] + a[n] + a[469]; }
int f138(int n) { int a[470] = {138}; a[n] = a[n] + 1; return a[0] + a[n] + a[469]; }
int f139(int n) { int a[470] = {139}; a[n] = a[n] + 1; return a[0] + a[n] + a[469]; }
int f140(int n) { int a[470] = {140}; a[n] = a[n] + 1; return a[0] + a[n] + a[469]; }
int f141(int n) { int a[470] = {141}; a[n] = a[n] + 1; return a[0] + a[n] + a[469]; }
int f142(int n) { int a[470] = {142}; a[n] = a[n] + 1; return a[0] + a[n] + a[469]; }
int f143(int n) { int a[470] = {143}; a[n] = a[n] + 1; return a[0] + a[n] + a[469]; }
int f144(int n) { int a[470] = {144}; a[n] = a[n] + 1; return a[0] + a[n] + a[469]; }
int f145(int n) { int a[470] = {145}; a[n] = a[n] + 1; return a[0] + a[n] + a[469]; }
int f146(int n) { int a[470] = {146}; a[n] = a[n] + 1; return a[0] + a[n] + a[469]; }
int f147(int n) { int a[470] = {147}; a[n] = a[n] + 1; return a[0] + a[n] + a[469]; }
int f148(int n) { int a[470] = {148}; a[n] = a[n] + 1; return a[0] + a[n] + a[469]; }
int f149(int n) { int a[470] = {149}; a[n] = a[n] + 1; return a[0] + a[n] + a[469]; }
int f150(int n) { int a[470] = {150}; a[n] = a[n] + 1; return a[0] + a[n] + a[469]; }
int f151(int n) { int a[470] = {151}; a[n] = a[n] + 1; return a[0] + a[n] + a[469]; }
int f152(int n) { int a[470] = {152}; a[n] = a[n] + 1; return a[0] + a[n] + a[469]; }
int f153(int n) { int a[470] = {153}; a[n] = a[n] + 1; return a[0] + a[n] + a[469]; }
int f154(int n) { int a[470] = {154}; a[n] = a[n] + 1; return a[0] + a[n] + a[469]; }
int f155(int n) { int a[470] = {155}; a[n] = a[n] + 1; return a[0] + a[n] + a[469]; }
int f156(int n) { int a[470] = {156}; a[n] = a[n] + 1; return a[0] + a[n] + a[469]; }
int f157(int n) { int a[470] = {157}; a[n] = a[n] + 1; return a[0] + a[n] + a[469]; }
int f158(int n) { int a[470] = {158}; a[n] = a[n] + 1; return a[0] + a[n] + a[469]; }
int f159(int n) { int a[470] = {159}; a[n] = a[n] + 1; return a[0] + a[n] + a[469]; }
int f160(int n) { int a[470] = {160}; a[n] = a[n] + 1; return a[0] + a[n] + a[469]; }
int f161(int n) { int a[470] = {161}; a[n] = a[n] + 1; return a[0] + a[n] + a[469]; }
int f162(int n) { int a[470] = {162}; a[n] = a[n] + 1; return a[0] + a[n] + a[469]; }
int f163(int n) { int a[470] = {163}; a[n] = a[n] + 1; return a[0] + a[n] + a[469]; }
int f164(int n) { int a[470] = {164}; a[n] = a[n] + 1; return a[0] + a[n] + a[469]; }
int f165(int n) { int a[470] = {165}; a[n] = a[n] + 1; return a[0] + a[n] + a[469]; }
int f166(int n) { int a[470] = {166}; a[n] = a[n] + 1; return a[0] + a[n] + a[469]; }
int f167(int n) { int a[470] = {167}; a[n] = a[n] + 1; return a[0] + a[n] + a[469]; }
int f168(int n) { int a[470] = {168}; a[n] = a[n] + 1; return a[0] + a[n] + a[469]; }
int f169(int n) { int a[470] = {169}; a[n] = a[n] + 1; return a[0] + a[n] + a[469]; }
int f170(int n) { int a[470] = {170}; a[n] = a[n] + 1; return a[0] + a[n] + a[469]; }
int f171(int n) { int a[470] = {171}; a[n] = a[n] + 1; return a[0] + a[n] + a[469]; }
int f172(int n) { int a[470] = {172}; a[n] = a[n] + 1; return a[0] + a[n] + a[469]; }
int f173(int n) { int a[470] = {173}; a[n] = a[n] + 1; return a[0] + a[n] + a[469]; }
int f174(int n) { int a[470] = {174}; a[n] = a[n] + 1; return a[0] + a[n] + a[469]; }
int f175(int n) { int a[470] = {175}; a[n] = a[n] + 1; return a[0] + a[n] + a[469]; }
int f176(int n) { int a[470] = {176}; a[n] = a[n] + 1; return a[0] + a[n] + a[469]; }
int f177(int n) { int a[470] = {177}; a[n] = a[n] + 1; return a[0] + a[n] + a[469]; }
int f178(int n) { int a[470] = {178}; a[n] = a[n] + 1; return a[0] + a[n] + a[469]; }
int f179(int n) { int a[470] = {179}; a[n] = a[n] + 1; return a[0] + a[n] + a[469]; }
int f180(int n) { int a[470] = {180}; a[n] = a[n] + 1; return a[0] + a[n] + a[469]; }
int f181(int n) { int a[470] = {181}; a[n] = a[n] + 1; return a[0] + a[n] + a[469]; }
int f182(int n) { int a[470] = {182}; a[n] = a[n] + 1; return a[0] + a[n] + a[469]; }
int f183(int n) { int a[470] = {183}; a[n] = a[n] + 1; return a[0] + a[n] + a[469]; }
int f184(int n) { int a[470] = {184}; a[n] = a[n] + 1; return a[0] + a[n] + a[469]; }
int f185(int n) { int a[470] = {185}; a[n] = a[n] + 1; return a[0] + a[n] + a[469]; }
int f186(int n) { int a[470] = {186}; a[n] = a[n] + 1; return a[0] + a[n] + a[469]; }
int f187(int n) { int a[470] = {187}; a[n] = a[n] + 1; return a[0] + a[n] + a[469]; }
int f188(int n) { int a[470] = {188}; a[n] = a[n] + 1; return a[0] + a[n] + a[469]; }
int f189(int n) { int a[470] = {189}; a[n] = a[n] + 1; return a[0] + a[n] + a[469]; }
int f190(int n) { int a[470] = {190}; a[n] = a[n] + 1; return a[0] + a[n] + a[469]; }
int f191(int n) { int a[470] = {191}; a[n] = a[n] + 1; return a[0] + a[n] + a[469]; }
int f192(int n) { int a[470] = {192}; a[n] = a[n] + 1; return a[0] + a[n] + a[469]; }
int f193(int n) { int a[470] = {193}; a[n] = a[n] + 1; return a[0] + a[n] + a[469]; }
int f194(int n) { int a[470] = {194}; a[n] = a[n] + 1; return a[0] + a[n] + a[469]; }
int f195(int n) { int a[470] = {195}; a[n] = a[n] + 1; return a[0] + a[n] + a[469]; }
int f196(int n) { int a[470] = {196}; a[n] = a[n] + 1; return a[0] + a[n] + a[469]; }
int f197(int n) { int a[470] = {197}; a[n] = a[n] + 1; return a[0] + a[n] + a[469]; }
int f198(int n) { int a[470] = {198}; a[n] = a[n] + 1; return a[0] + a[n] + a[469]; }
int f199(int n) { int a[470] = {199}; a[n] = a[n] + 1; return a[0] + a[n] + a[469]; }
int f200(int n) { int a[470] = {200}; a[n] = a[n] + 1; return a[0] + a[n] + a[469]; }
int f201(int n) { int a[470] = {201}; a[n] = a[n] + 1; return a[0] + a[n] + a[469]; }
int f202(int n) { int a[470] = {202}; a[n] = a[n] + 1; return a[0] + a[n] + a[469]; }
int f203(int n) { int a[470] = {203}; a[n] = a[n] + 1; return a[0] + a[n] + a[469]; }
int f204(int n) { int a[470] = {204}; a[n] = a[n] + 1; return a[0] + a[n] + a[469]; }
int f205(int n) { int a[470] = {205}; a[n] = a[n] + 1; return a[0] + a[n] + a[469]; }
int f206(int n) { int a[470] = {206}; a[n] = a[n] + 1; return a[0] + a[n] + a[469]; }
int f207(int n) { int a[470] = {207}; a[n] = a[n] + 1; return a[0] + a[n] + a[469]; }
int f208(int n) { int a[470] = {208}; a[n] = a[n] + 1; return a[0] + a[n] + a[469]; }
int f209(int n) { int a[470] = {209}; a[n] = a[n] + 1; return a[0] + a[n] + a[469]; }
int f210(int n) { int a[470] = {210}; a[n] = a[n] + 1; return a[0] + a[n] + a[469]; }
int f211(int n) { int a[470] = {211}; a[n] = a[n] + 1; return a[0] + a[n] + a[469]; }
int f212(int n) { int a[470] = {212}; a[n] = a[n] + 1; return a[0] + a[n] + a[469]; }
int f213(int n) { int a[470] = {213}; a[n] = a[n] + 1; return a[0] + a[n] + a[469]; }
int f214(int n) { int a[470] = {214}; a[n] = a[n] + 1; return a[0] + a[n] + a[469]; }
int f215(int n) { int a[470] = {215}; a[n] = a[n] + 1; return a[0] + a[n] + a[469]; }
int f216(int n) { int a[470] = {216}; a[n] = a[n] + 1; return a[0] + a[n] + a[469]; }
int f217(int n) { int a[470] = {217}; a[n] = a[n] + 1; return a[0] + a[n] + a[469]; }
int f218(int n) { int a[470] = {218}; a[n] = a[n] + 1; return a[0] + a[n] + a[469]; }
int f219(int n) { int a[470] = {219}; a[n] = a[n] + 1; return a[0] + a[n] + a[469]; }
int f220(int n) { int a[470] = {220}; a[n] = a[n] + 1; return a[0] + a[n] + a[469]; }
int f221(int n) { int a[470] = {221}; a[n] = a[n] + 1; return a[0] + a[n] + a[469]; }
int f222(int n) { int a[470] = {222}; a[n] = a[n] + 1; return a[0] + a[n] + a[469]; }
int f223(int n) { int a[470] = {223}; a[n] = a[n] + 1; return a[0] + a[n] + a[469]; }
int f224(int n) { int a[470] = {224}; a[n] = a[n] + 1; return a[0] + a[n] + a[469]; }
int f225(int n) { int a[470] = {225}; a[n] = a[n] + 1; return a[0] + a[n] + a[469]; }
int f226(int n) { int a[470] = {226}; a[n] = a[n] + 1; return a[0] + a[n] + a[469]; }
int f227(int n) { int a[470] = {227}; a[n] = a[n] + 1; return a[0] + a[n] + a[469]; }
int f228(int n) { int a[470] = {228}; a[n] = a[n] + 1; return a[0] + a[n] + a[469]; }
int f229(int n) { int a[470] = {229}; a[n] = a[n] + 1; return a[0] + a[n] + a[469]; }
int f230(int n) { int a[470] = {230}; a[n] = a[n] + 1; return a[0] + a[n] + a[469]; }
int f231(int n) { int a[470] = {231}; a[n] = a[n] + 1; return a[0] + a[n] + a[469]; }
int f232(int n) { int a[470] = {232}; a[n] = a[n] + 1; return a[0] + a[n] + a[469]; }
int f233(int n) { int a[470] = {233}; a[n] = a[n] + 1; return a[0] + a[n] + a[469]; }
int f234(int n) { int a[470] = {234}; a[n] = a[n] + 1; return a[0] + a[n] + a[469]; }
int f235(int n) { int a[470] = {235}; a[n] = a[n] + 1; return a[0] + a[n] + a[469]; }
int f236(int n) { int a[470] = {236}; a[n] = a[n] + 1; return a[0] + a[n] + a[469]; }
int f237(int n) { int a[470] = {237}; a[n] = a[n] + 1; return a[0] + a[n] + a[469]; }
int f238(int n) { int a[470] = {238}; a[n] = a[n] + 1; return a[0] + a[n] + a[469]; }
int f239(int n) { int a[470] = {239}; a[n] = a[n] + 1; return a[0] + a[n] + a[469]; }
int f240(int n) { int a[470] = {240}; a[n] = a[n] + 1; return a[0] + a[n] + a[469]; }
int f241(int n) { int a[470] = {241}; a[n] = a[n] + 1; return a[0] + a[n] + a[469]; }
int f242(int n) { int a[470] = {242}; a[n] = a[n] + 1; return a[0] + a[n] + a[469]; }
int f243(int n) { int a[470] = {243}; a[n] = a[n] + 1; return a[0] + a[n] + a[469]; }
int f244(int n) { int a[470] = {244}; a[n] = a[n] + 1; return a[0] + a[n] + a[469]; }
int f245(int n) { int a[470] = {245}; a[n] = a[n] + 1; return a[0] + a[n] + a[469]; }
int f246(int n) { int a[470] = {246}; a[n] = a[n] + 1; return a[0] + a[n] + a[469]; }
int f247(int n) { int a[470] = {247}; a[n] = a[n] + 1; return a[0] + a[n] + a[469]; }
int f248(int n) { int a[470] = {248}; a[n] = a[n] + 1; return a[0] + a[n] + a[469]; }
int f249(int n) { int a[470] = {249}; a[n] = a[n] + 1; return a[0] + a[n] + a[469]; }
int f250(int n) { int a[470] = {250}; a[n] = a[n] + 1; return a[0] + a[n] + a[469]; }
int f251(int n) { int a[470] = {251}; a[n] = a[n] + 1; return a[0] + a[n] + a[469]; }
int f252(int n) { int a[470] = {252}; a[n] = a[n] + 1; return a[0] + a[n] + a[469]; }
int f253(int n) { int a[470] = {253}; a[n] = a[n] + 1; return a[0] + a[n] + a[469]; }
int f254(int n) { int a[470] = {254}; a[n] = a[n] + 1; return a[0] + a[n] + a[469]; }
int f255(int n) { int a[470] = {255}; a[n] = a[n] + 1; return a[0] + a[n] + a[469]; }
int f256(int n) { int a[470] = {256}; a[n] = a[n] + 1; return a[0] + a[n] + a[469]; }
int f257(int n) { int a[470] = {257}; a[n] = a[n] + 1; return a[0] + a[n] + a[469]; }
int f258(int n) { int a[470] = {258}; a[n] = a[n] + 1; return a[0] + a[n] + a[469]; }
int f259(int n) { int a[470] = {259}; a[n] = a[n] + 1; return a[0] + a[n] + a[469]; }
int f260(int n) { int a[470] = {260}; a[n] = a[n] + 1; return a[0] + a[n] + a[469]; }
int f261(int n) { int a[470] = {261}; a[n] = a[n] + 1; return a[0] + a[n] + a[469]; }
int f262(int n) { int a[470] = {262}; a[n] = a[n] + 1; return a[0] + a[n] + a[469]; }
int f263(int n) { int a[470] = {263}; a[n] = a[n] + 1; return a[0] + a[n] + a[469]; }
int f264(int n) { int a[470] = {264}; a[n] = a[n] + 1; return a[0] + a[n] + a[469]; }
int f265(int n) { int a[470] = {265}; a[n] = a[n] + 1; return a[0] + a[n] + a[469]; }
int f266(int n) { int a[470] = {266}; a[n] = a[n] + 1; return a[0] + a[n] + a[469]; }
int f267(int n) { int a[470] = {267}; a[n] = a[n] + 1; return a[0] + a[n] + a[469]; }
int f268(int n) { int a[470] = {268}; a[n] = a[n] + 1; return a[0] + a[n] + a[469]; }
int f269(int n) { int a[470] = {269}; a[n] = a[n] + 1; return a[0] + a[n] + a[469]; }
int f270(int n) { int a[470] = {270}; a[n] = a[n] + 1; return a[0] + a[n] + a[469]; }
int f271(int n) { int a[470] = {271}; a[n] = a[n] + 1; return a[0] + a[n] + a[469]; }
int f272(int n) { int a[470] = {272}; a[n] = a[n] + 1; return a[0] + a[n] + a[469]; }
int f273(int n) { int a[470] = {273}; a[n] = a[n] + 1; return a[0] + a[n] + a[469]; }
int f274(int n) { int a[470] = {274}; a[n] = a[n] + 1; return a[0] + a[n] + a[469]; }
int f275(int n) { int a[470] = {275}; a[n] = a[n] + 1; return a[0] + a[n] + a[469]; }
int f276(int n) { int a[470] = {276}; a[n] = a[n] + 1; return a[0] + a[n] + a[469]; }
int f277(int n) { int a[470] = {277}; a[n] = a[n] + 1; return a[0] + a[n] + a[469]; }
int f278(int n) { int a[470] = {278}; a[n] = a[n] + 1; return a[0] + a[n] + a[469]; }
int f279(int n) { int a[470] = {279}; a[n] = a[n] + 1; return a[0] + a[n] + a[469]; }
int f280(int n) { int a[470] = {280}; a[n] = a[n] + 1; return a[0] + a[n] + a[469]; }
int f281(int n) { int a[470] = {281}; a[n] = a[n] + 1; return a[0] + a[n] + a[469]; }
int f282(int n) { int a[470] = {282}; a[n] = a[n] + 1; return a[0] + a[n] + a[469]; }
int f283(int n) { int a[470] = {283}; a[n] = a[n] + 1; return a[0] + a[n] + a[469]; }
int f284(int n) { int a[470] = {284}; a[n] = a[n] + 1; return a[0] + a[n] + a[469]; }
int f285(int n) { int a[470] = {285}; a[n] = a[n] + 1; return a[0] + a[n] + a[469]; }
int f286(int n) { int a[470] = {286}; a[n] = a[n] + 1; return a[0] + a[n] + a[469]; }
int f287(int n) { int a[470] = {287}; a[n] = a[n] + 1; return a[0] + a[n] + a[469]; }
int f288(int n) { int a[470] = {288}; a[n] = a[n] + 1; return a[0] + a[n] + a[469]; }
int f289(int n) { int a[470] = {289}; a[n] = a[n] + 1; return a[0] + a[n] + a[469]; }
int f290(int n) { int a[470] = {290}; a[n] = a[n] + 1; return a[0] + a[n] + a[469]; }
int f291(int n) { int a[470] = {291}; a[n] = a[n] + 1; return a[0] + a[n] + a[469]; }
int f292(int n) { int a[470] = {292}; a[n] = a[n] + 1; return a[0] + a[n] + a[469]; }
int f293(int n) { int a[470] = {293}; a[n] = a[n] + 1; return a[0] + a[n] + a[469]; }
int f294(int n) { int a[470] = {294}; a[n] = a[n] + 1; return a[0] + a[n] + a[469]; }
int f295(int n) { int a[470] = {295}; a[n] = a[n] + 1; return a[0] + a[n] + a[469]; }
int f296(int n) { int a[470] = {296}; a[n] = a[n] + 1; return a[0] + a[n] + a[469]; }
int f297(int n) { int a[470] = {297}; a[n] = a[n] + 1; return a[0] + a[n] + a[469]; }
int f298(int n) { int a[470] = {298}; a[n] = a[n] + 1; return a[0] + a[n] + a[469]; }
int f299(int n) { int a[470] = {299}; a[n] = a[n] + 1; return a[0] + a[n] + a[469]; }
int main(void) {
    int sum = 0;
    sum += f0(1); sum += f1(2); sum += f2(3); sum += f3(4); sum += f4(5); sum += f5(6); sum += f6(7); sum += f7(8); sum += f8(9); sum += f9(10);
    sum += f10(11); sum += f11(12); sum += f12(13); sum += f13(14); sum += f14(15); sum += f15(16); sum += f16(17); sum += f17(18); sum += f18(19); sum += f19(20);
    sum += f20(21); sum += f21(22); sum += f22(23); sum += f23(24); sum += f24(25); sum += f25(26); sum += f26(27); sum += f27(28); sum += f28(29); sum += f29(30);
    sum += f30(31); sum += f31(32); sum += f32(33); sum += f33(34); sum += f34(35); sum += f35(36); sum += f36(37); sum += f37(38); sum += f38(39); sum += f39(40);
    sum += f40(41); sum += f41(42); sum += f42(43); sum += f43(44); sum += f44(45); sum += f45(46); sum += f46(47); sum += f47(48); sum += f48(49); sum += f49(50);
    sum += f50(51); sum += f51(52); sum += f52(53); sum += f53(54); sum += f54(55); sum += f55(56); sum += f56(57); sum += f57(58); sum += f58(59); sum += f59(60);
    sum += f60(61); sum += f61(62); sum += f62(63); sum += f63(64); sum += f64(65); sum += f65(66); sum += f66(67); sum += f67(68); sum += f68(69); sum += f69(70);
    sum += f70(71); sum += f71(72); sum += f72(73); sum += f73(74); sum += f74(75); sum += f75(76); sum += f76(77); sum += f77(78); sum += f78(79); sum += f79(80);
    sum += f80(81); sum += f81(82); sum += f82(83); sum += f83(84); sum += f84(85); sum += f85(86); sum += f86(87); sum += f87(88); sum += f88(89); sum += f89(90);
    sum += f90(91); sum += f91(92); sum += f92(93); sum += f93(94); sum += f94(95); sum += f95(96); sum += f96(97); sum += f97(98); sum += f98(99); sum += f99(100);
    sum += f100(101); sum += f101(102); sum += f102(103); sum += f103(104); sum += f104(105); sum += f105(106); sum += f106(107); sum += f107(108); sum += f108(109); sum += f109(110);
    sum += f110(111); sum += f111(112); sum += f112(113); sum += f113(114); sum += f114(115); sum += f115(116); sum += f116(117); sum += f117(118); sum += f118(119); sum += f119(120);
    sum += f120(121); sum += f121(122); sum += f122(123); sum += f123(124); sum += f124(125); sum += f125(126); sum += f126(127); sum += f127(128); sum += f128(129); sum += f129(130);
    sum += f130(131); sum += f131(132); sum += f132(133); sum += f133(134); sum += f134(135); sum += f135(136); sum += f136(137); sum += f137(138); sum += f138(139); sum += f139(140);
    sum += f140(141); sum += f141(142); sum += f142(143); sum += f143(144); sum += f144(145); sum += f145(146); sum += f146(147); sum += f147(148); sum += f148(149); sum += f149(150);
    sum += f150(151); sum += f151(152); sum += f152(153); sum += f153(154); sum += f154(155); sum += f155(156); sum += f156(157); sum += f157(158); sum += f158(159); sum += f159(160);
    sum += f160(161); sum += f161(162); sum += f162(163); sum += f163(164); sum += f164(165); sum += f165(166); sum += f166(167); sum += f167(168); sum += f168(169); sum += f169(170);
    sum += f170(171); sum += f171(172); sum += f172(173); sum += f173(174); sum += f174(175); sum += f175(176); sum += f176(177); sum += f177(178); sum += f178(179); sum += f179(180);
    sum += f180(181); sum += f181(182); sum += f182(183); sum += f183(184); sum += f184(185); sum += f185(186); sum += f186(187); sum += f187(188); sum += f188(189); sum += f189(190);
    sum += f190(191); sum += f191(192); sum += f192(193); sum += f193(194); sum += f194(195); sum += f195(196); sum += f196(197); sum += f197(198); sum += f198(199); sum += f199(200);
    sum += f200(201); sum += f201(202); sum += f202(203); sum += f203(204); sum += f204(205); sum += f205(206); sum += f206(207); sum += f207(208); sum += f208(209); sum += f209(210);
    sum += f210(211); sum += f211(212); sum += f212(213); sum += f213(214); sum += f214(215); sum += f215(216); sum += f216(217); sum += f217(218); sum += f218(219); sum += f219(220);
    sum += f220(221); sum += f221(222); sum += f222(223); sum += f223(224); sum += f224(225); sum += f225(226); sum += f226(227); sum += f227(228); sum += f228(229); sum += f229(230);
    sum += f230(231); sum += f231(232); sum += f232(233); sum += f233(234); sum += f234(235); sum += f235(236); sum += f236(237); sum += f237(238); sum += f238(239); sum += f239(240);
    sum += f240(241); sum += f241(242); sum += f242(243); sum += f243(244); sum += f244(245); sum += f245(246); sum += f246(247); sum += f247(248); sum += f248(249); sum += f249(250);
    sum += f250(251); sum += f251(252); sum += f252(253); sum += f253(254); sum += f254(255); sum += f255(256); sum += f256(257); sum += f257(258); sum += f258(259); sum += f259(260);
    sum += f260(261); sum += f261(262); sum += f262(263); sum += f263(264); sum += f264(265); sum += f265(266); sum += f266(267); sum += f267(268); sum += f268(269); sum += f269(270);
    sum += f270(271); sum += f271(272); sum += f272(273); sum += f273(274); sum += f274(275); sum += f275(276); sum += f276(277); sum += f277(278); sum += f278(279); sum += f279(280);
    sum += f280(281); sum += f281(282); sum += f282(283); sum += f283(284); sum += f284(285); sum += f285(286); sum += f286(287); sum += f287(288); sum += f288(289); sum += f289(290);
    sum += f290(291); sum += f291(292); sum += f292(293); sum += f293(294); sum += f294(295); sum += f295(296); sum += f296(297); sum += f297(298); sum += f298(299); sum += f299(300);
    while (sum > 0) { putchar('0' + sum % 10); sum /= 10; }
    putchar('\n');
    return 0;
}
