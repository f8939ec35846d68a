#include <dlfcn.h>
#include <cstdio>
#include <cstring>
#include <random>
#include "corpora.h"
using R = qalithonda_numbers (*)(const uint8_t *, size_t, uint32_t *, size_t);
int main(int c,char**v){ void*a=dlopen(v[1],RTLD_NOW|RTLD_LOCAL),*b=dlopen(v[2],RTLD_NOW|RTLD_LOCAL); int rounds=atoi(v[3]); std::mt19937 g(atoi(v[4])); size_t bad=0,ok=0,ref=0;
 for(auto&k:text_kinds()){ if(k.format==&MAILBOX) continue; const char*f=k.format==&UTF7?"qalithonda_utf7_read":"qalithonda_jp2_read"; R fa=(R)dlsym(a,f),fb=(R)dlsym(b,f); Corpus co=make_corpus(k,text_sizes()[4],g()); auto&src=co.pieces[0];
  for(int i=0;i<rounds;i++){ size_t lim=(size_t[]){60,300,1200,5000,20000,60000}[g()%6]; size_t from=g()%(src.size()-1), len=std::min<size_t>(g()%lim,src.size()-from); if(g()%2) from=0, len=std::min(len,src.size());
   std::vector<uint8_t> t(src.begin()+from,src.begin()+from+len); int m=g()%4; if(t.size()) for(int q=0;q<m;q++) t[g()%t.size()]=(uint8_t[]){27,78,13,10,43,45,0,128,255,92,65,(uint8_t)g()}[g()%12];
   size_t room=g()%3?t.size()+g()%8:g()%(t.size()+1); std::vector<uint32_t> x(room+4,0xABCD1234),y=x; auto ra=fa(t.data(),t.size(),x.data(),room), rb=fb(t.data(),t.size(),y.data(),room);
   if(ra.number!=rb.number||ra.place!=rb.place||x!=y){ bad++; printf("DIFF %s len %zu room %zu: %d %zu / %d %zu\n",k.name.c_str(),t.size(),room,(int)ra.number,(size_t)ra.place,(int)rb.number,(size_t)rb.place); if(bad>5) return 1; } (ra.number?ref:ok)++; } }
 printf("accepted %zu refused %zu different %zu\n",ok,ref,bad); }
