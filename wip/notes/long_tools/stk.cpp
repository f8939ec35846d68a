#include <pthread.h>
#include <dlfcn.h>
#include <cstdio>
#include <cstring>
#include <cstdlib>
#include <cstdint>
#include <vector>
struct N{uint32_t number; size_t place;};
typedef struct {int64_t a; int64_t b;} R2;
typedef R2 (*R)(const uint8_t*,size_t,uint32_t*,size_t);
struct A{R f; const uint8_t*t; size_t n; uint32_t*o; size_t m;};
static void*run(void*p){A*a=(A*)p; if(a->f) a->f(a->t,a->n,a->o,a->m); return 0;}
static size_t used(A a){ size_t S=1<<20; char*s=(char*)aligned_alloc(4096,S); memset(s,0x5a,S); pthread_attr_t at; pthread_attr_init(&at); pthread_attr_setstack(&at,s,S); pthread_t t; pthread_create(&t,&at,run,&a); pthread_join(t,0); size_t i=0; while(i<S&&s[i]==0x5a) i++; free(s); return S-i; }
int main(int c,char**v){ void*h=dlopen(v[1],RTLD_NOW); const char*fs[]={"qalithonda_utf7_read","qalithonda_jp2_read"}; 
 for(int k=0;k<2;k++) for(int i=2+2*k;i<4+2*k&&i<c;i++){ FILE*f=fopen(v[i],"rb"); std::vector<uint8_t> t(1<<20); size_t n=fread(t.data(),1,t.size(),f); fclose(f); std::vector<uint32_t> o(1<<20); for(size_t m: {(size_t)200,n}){ A a{(R)dlsym(h,fs[k]),t.data(),m,o.data(),o.size()}; A z{0}; printf("%s %s %zu: %zu\n",fs[k],v[i],m,used(a)-used(z)); } } }
