#!/bin/bash
# mini.sh NAME : builds /tmp/lg/NAME/{utf7_whole,jp2_whole}/lib.rt (or the clone's where missing) -> /tmp/lg/NAME.so
set -e
N=$1; O=/tmp/lg/$N
KIT=$(cd "$(dirname "$(readlink -f "$(command -v rt)")")/.." && pwd)
K=$KIT/on/x86_64
W=$(mktemp -d)
C=/work/clones/long/crates
args=(--toolchain $W/tc /tmp/lg/probe/main.rt --crate-name probe --lib std=$KIT/libs/std/src/lib.rt)
for l in answer reading bits base64 utf7 utf7_read marks utf7_whole jp2 jp2_read jp2_whole host_numbers; do
  if [ -f $O/$l/lib.rt ]; then args+=(--lib $l=$O/$l/lib.rt); else args+=(--lib $l=$C/$l/src/lib.rt); fi
done
args+=(--lib qalithonda=/tmp/lg/q/lib.rt)
mkdir -p $W/tc/bin; ln -s $K/toolchain/bin/ld.lld $K/toolchain/bin/llvm-ar $W/tc/bin/; ln -s $KIT/toolchain/lib $W/tc/lib
cat > $W/tc/bin/clang <<E2
#!/bin/sh
case " \$* " in *" -O3 "*) cp module.bc $W/m.bc ;; esac
exec $K/toolchain/bin/clang "\$@"
E2
chmod +x $W/tc/bin/clang
$K/bin/rattle-cases "${args[@]}" > $W/log 2>&1 || { head -40 $W/log; }
[ -f $W/m.bc ] || { head -40 $W/log; exit 1; }
$K/toolchain/bin/clang --target=x86_64-unknown-linux-gnu -x ir $W/m.bc -S -emit-llvm -Xclang -disable-llvm-passes -O3 -o $W/m.ll
python3 /tmp/lg/wrapm.py $W/m.ll $W/w.ll 2>/dev/null
FL="--target=x86_64-unknown-linux-gnu -march=x86-64 -ffunction-sections -fdata-sections -mllvm -trap-unreachable -mllvm -no-trap-after-noreturn --no-default-config -Werror -c -x ir"
$K/toolchain/bin/clang $FL $W/w.ll -o $O.o -fPIC -O3 -Xclang -fmerge-functions -mllvm -mergefunc-use-aliases -Wno-override-module
gcc -shared -o $O.so $O.o -Wl,--gc-sections
rm -rf $W
