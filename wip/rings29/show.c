#include <stdint.h>
#include <stdio.h>
#include <string.h>
uint64_t sheet_rings(const uint8_t*,size_t,uint32_t,uint32_t,uint32_t,uint8_t*,size_t);
int main(int c,char**v){for(int k=1;k<c;k++){FILE*f=fopen(v[k],"rb");static uint8_t b[200000],o[100000];size_t n=fread(b,1,sizeof b,f);fclose(f);
 uint64_t a=sheet_rings(b,n,0,0,1,o,sizeof o);printf("%s %lu:%lu",v[k],a/256,a%256);if(a%256==0){uint32_t r,m;memcpy(&r,o+5,4);size_t at=9;for(;r--;){memcpy(&m,o+at+5,4);at+=9;printf("\n  ");for(;m--;at+=16){double x,y;memcpy(&x,o+at,8);memcpy(&y,o+at+8,8);printf("(%g,%g)",x,y);}}}printf("\n");}}
