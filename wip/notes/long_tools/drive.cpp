#include <dlfcn.h>
#include <time.h>
#include <cstdio>
#include <cstring>
#include <cstdlib>
#include <functional>
#include <memory>
#include "corpora.h"
#include "peers.h"
using R = qalithonda_numbers (*)(const uint8_t *, size_t, uint32_t *, size_t);
static double now(){ timespec t; clock_gettime(CLOCK_THREAD_CPUTIME_ID,&t); return t.tv_sec+t.tv_nsec*1e-9; }
int main(int c,char**v){
  // drive KINDS SIZES RUNS so...
  std::string kinds=v[1], sizes=v[2]; int runs=atoi(v[3]);
  std::vector<void*> libs; for(int i=4;i<c;i++){ void*h=dlopen(v[i],RTLD_NOW|RTLD_LOCAL); if(!h){puts(dlerror());return 1;} libs.push_back(h);} 
  auto in=[](const std::string&l,const std::string&n){ return l=="all" || (","+l+",").find(","+n+",")!=std::string::npos; };
  for(auto&k:text_kinds()){ if(!in(kinds,k.name)) continue;
   if(k.format==&MAILBOX) continue;
   for(auto&s:text_sizes()){ if(!in(sizes,s.name)) continue;
    Corpus co=make_corpus(k,s,2152); size_t bytes=co.bytes();
    std::vector<std::function<void()>> ps;
    std::vector<std::shared_ptr<Cells>> outs;
    for(auto h:libs){ R f=(R)dlsym(h,k.format==&UTF7?"qalithonda_utf7_read":"qalithonda_jp2_read");
      auto out=std::make_shared<Cells>(bytes,0); outs.push_back(out);
      ps.push_back([=,&co]{ size_t at=0; for(auto&t:co.pieces){ auto a=f(t.data(),t.size(),&(*out)[at],out->size()-at); if(a.number){printf("refused %d %zu\n",(int)a.number,(size_t)a.place);exit(1);} at+=a.place; } }); }
    const char*ways[]={"WCHAR_T","UTF-16LE"};
    for(auto w:ways){ auto ic=std::make_shared<Iconv>(w,k.format->iconv); auto out=std::make_shared<Bytes>(4*bytes,0);
      ps.push_back([=,&co]{ size_t at=0; for(auto&t:co.pieces) at+=ic->convert(t.data(),t.size(),&(*out)[at],out->size()-at); }); }
    { auto ic=std::make_shared<Icu>(k.format->icu); auto out=std::make_shared<Units>(bytes,0);
      ps.push_back([=,&co]{ size_t at=0; for(auto&t:co.pieces) at+=ic->read(t.data(),t.size(),&(*out)[at],out->size()-at); }); }
    std::vector<double> best(ps.size(),1e9); std::vector<int> reps;
    for(auto&p:ps){ p(); double t=now(); p(); double d=now()-t; int r=int(0.004/d)+1; reps.push_back(r); }
    for(size_t i=1;i<libs.size();i++) if(*outs[i]!=*outs[0]) printf("DIFFERENT %s\n",v[4+i]);
    for(int q=0;q<runs;q++) for(size_t i=0;i<ps.size();i++){ double t=now(); for(int r=0;r<reps[i];r++) ps[i](); double d=(now()-t)/reps[i]; if(d<best[i]) best[i]=d; }
    double peer=1e9; for(size_t i=libs.size();i<ps.size();i++) peer=std::min(peer,best[i]);
    printf("%-17s %4s peer %5.0f |",k.name.c_str(),s.name.c_str(),bytes/peer/1e6);
    for(size_t i=0;i<libs.size();i++) printf(" %5.0f %4.2f |",bytes/best[i]/1e6,peer/best[i]);
    puts(""); fflush(stdout);
   }}
}
