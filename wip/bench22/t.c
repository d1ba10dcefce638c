#include <stdio.h>
#include <stdlib.h>
#include <stdint.h>
#include <string.h>
#include <time.h>
uint64_t sheet_owner_sets(const uint8_t*,size_t,uint8_t*,size_t);
static double now(){struct timespec t;clock_gettime(CLOCK_PROCESS_CPUTIME_ID,&t);return t.tv_sec*1e6+t.tv_nsec/1e3;}
int main(int c,char**v){static uint8_t b[300000],o[9000];
 for(int i=1;i<c;i++){FILE*f=fopen(v[i],"rb");size_t n=fread(b,1,300000,f);fclose(f);double best=1e18,start=now();uint64_t r=0;
  for(int k=0;k<2000&&(k<3||now()-start<3e5);k++){double a=now();r=sheet_owner_sets(b,n,o,9000);double d=now()-a;if(d<best)best=d;}
  uint64_t h=1469598103934665603ull;for(int j=0;j<8192;j++)h=(h^o[j])*1099511628211ull;
  printf("%-20s %12.1f us  code %3u item %5llu  %016llx\n",v[i],best,(unsigned)(r%256),(unsigned long long)(r/256),(unsigned long long)h);memset(o,0,9000);}
}
