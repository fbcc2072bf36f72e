#!/usr/bin/env bash
# Compiles for the libraries that are shipped, as the kit's clang does. A module of LLVM gets unwind tables first, so that
# profilers and debuggers find the callers of a loop, and for x86-64 the marks of CET: of a module clang takes no flag for
# these. Loops begin at blocks of 32 bytes and, for x86-64, no branch crosses one, since on some processors a short loop
# takes longer where it happens to lie otherwise.
#
#   c/clang.sh CLANG ARGUMENT..
set -eu
clang=$1
shift
flags=(-falign-loops=32)
arguments=("$@")
marks='!90001'
case " $* " in
*x86_64*)
    flags+=(-mbranches-within-32B-boundaries)
    marks='!90001, !90002, !90003'
    ;;
esac
case " $* " in
*' -x ir module.bc '*)
    target=$(printf '%s\n' "$@" | grep '^--target=')
    "$clang" "$target" --no-default-config -x ir module.bc -S -emit-llvm -Xclang -disable-llvm-passes -o marked.ll
    sed -E -i 's/^(attributes #[0-9]+ = \{.*nounwind) (.*")/\1 uwtable \2/' marked.ll
    cat >>marked.ll <<END
!llvm.module.flags = !{$marks}
!90001 = !{i32 7, !"uwtable", i32 2}
!90002 = !{i32 8, !"cf-protection-return", i32 1}
!90003 = !{i32 8, !"cf-protection-branch", i32 1}
END
    arguments=("${@/#module.bc/marked.ll}")
    ;;
esac
exec "$clang" "${flags[@]}" "${arguments[@]}"
