#include <stdint.h>
#include <stdio.h>
#include <stdlib.h>
#include <time.h>
uint64_t sheet_rings(const uint8_t*,size_t,uint32_t,uint32_t,uint32_t,uint8_t*,size_t);
uint64_t sheet_boundary_by(const uint8_t*,size_t,uint32_t,uint32_t,uint32_t,uint8_t*,size_t);
uint64_t sheet_owners_by(const uint8_t*,size_t,uint32_t,uint32_t,uint8_t*,size_t);
static double now(void){struct timespec t;clock_gettime(CLOCK_MONOTONIC,&t);return t.tv_sec*1e3+t.tv_nsec*1e-6;}
int main(int c,char**v){for(int k=1;k<c;k++){FILE*f=fopen(v[k],"rb");static uint8_t b[200000],o[100000];size_t n=fread(b,1,sizeof b,f);fclose(f);
 uint64_t a=0;double m[3]={1e9,1e9,1e9};for(int i=0;i<60;i++){double t=now();a=sheet_rings(b,n,0,0,1,o,sizeof o);double d=now()-t;if(d<m[0])m[0]=d;
 t=now();uint64_t x=sheet_boundary_by(b,n,0,0,1,o,sizeof o);d=now()-t;if(d<m[1])m[1]=d;if(i==0)printf("boundary %lu:%lu ",x/256,x%256);
 t=now();sheet_owners_by(b,n,0,0,o,sizeof o);d=now()-t;if(d<m[2])m[2]=d;}
 printf("%s %zu bytes: code %lu item %lu; rings %.3f ms boundary %.3f owners %.3f\n",v[k],n,a%256,a/256,m[0],m[1],m[2]);}}
