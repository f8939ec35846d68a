#!/bin/bash
# build.sh MAINDIR OUTDIR: the UNPROVED library of MAINDIR/crates (all three C crates in one object), for tests of bindings,
# examples and the test program only: OUTDIR/staticlib/libqalithonda.a, OUTDIR/shared/libqalithonda.so
set -e
M=$1; O=$2; H=$(cd "$(dirname "$0")" && pwd)
KIT=$(cd "$(dirname "$(readlink -f "$(command -v rt)")")/.." && pwd)
K=$KIT/on/x86_64
W=$(mktemp -d)
mkdir -p $O/staticlib $O/shared $W/probe $W/tc/bin
echo 'fn main() {
}' > $W/probe/main.rt
libs=$(sed -n 's/^\([a-z0-9_]*\):.*/\1/p' $M/crates.txt | sed '/^listing$/,$d')
args=(--toolchain $W/tc $W/probe/main.rt --crate-name probe --lib std=$KIT/libs/std/src/lib.rt)
for l in $libs; do [ -f $M/crates/$l/src/lib.rt ] && args+=(--lib $l=$M/crates/$l/src/lib.rt); done
ln -s $K/toolchain/bin/ld.lld $K/toolchain/bin/llvm-ar $W/tc/bin/; ln -s $KIT/toolchain/lib $W/tc/lib
cat > $W/tc/bin/clang <<E2
#!/bin/sh
case " \$* " in *" -O3 "*) cp module.bc $W/m.bc ;; esac
exec $K/toolchain/bin/clang "\$@"
E2
chmod +x $W/tc/bin/clang
$K/bin/rattle-cases "${args[@]}" > $O/log 2>&1 || { head -40 $O/log; }
[ -f $W/m.bc ] || { head -40 $O/log; exit 1; }
$K/toolchain/bin/clang --target=x86_64-unknown-linux-gnu -x ir $W/m.bc -S -emit-llvm -Xclang -disable-llvm-passes -O3 -o $W/m.ll
python3 $H/wrap.py $M $W/m.ll $W/w.ll
FL="--target=x86_64-unknown-linux-gnu -march=x86-64 -ffunction-sections -fdata-sections -mllvm -trap-unreachable -mllvm -no-trap-after-noreturn --no-default-config -Werror -c -x ir"
$K/toolchain/bin/clang $FL $W/w.ll -o $O/lib.o -fPIC -O3 -Xclang -fmerge-functions -mllvm -mergefunc-use-aliases -Wno-override-module
objcopy --keep-global-symbols=<(nm $O/lib.o | sed -n "s/.* T \(qalithonda_.*\)/\1/p") $O/lib.o
rm -f $O/staticlib/libqalithonda.a; ar rcs $O/staticlib/libqalithonda.a $O/lib.o
gcc -shared -o $O/shared/libqalithonda.so -Wl,-soname,libqalithonda.so $O/lib.o -Wl,--gc-sections
rm -rf $W
