#!/usr/bin/env bash
# Builds the C header, the static and shared libraries, and the files for pkg-config in FOLDER.
#
#     bindings/build.sh FOLDER                proves the crates, and builds them
#     bindings/build.sh FOLDER --gate         uses the libraries that `rt ci` left in crates/*/out
#     bindings/build.sh FOLDER --from OTHER   uses the archives of the crates in the folder OTHER
#
# A library exports the functions of wurstdrape.h and nothing else, and imports functions of the C
# library alone; the status is 1 if that isn't so, and 2 if an argument is wrong.
set -euo pipefail
case "$#${2:-}" in
    1 | 2--gate | 3--from) [[ $1 == -* ]] || fits=yes ;;
esac
if [ -z "${fits-}" ]; then
    sed -n '2,9s/^# \?//p' "$0"
    [ "${1-}" = --help ] && exit || exit 2
fi
here=$(cd "$(dirname "$0")" && pwd)
top=$(dirname "$here")
kit=$(dirname "$(dirname "$(readlink -f "$(command -v rt)")")")
mkdir -p "$1"
folder=$(cd "$1" && pwd)
how=${2:-}
from=${3:-}

# A toolchain for smaller code. Its clang merges functions with the same code, such as the copies of
# a generic function for each lifetime, before it inlines any. Then it optimizes for size, but
# inlines as usual, except the functions that decode long lengths and that add lines of text.
toolchain=$(mktemp -d)
trap 'rm -rf "$toolchain"' EXIT
mkdir "$toolchain/bin"
ln -s "$kit/toolchain/lib" "$toolchain/"
ln -s "$kit"/toolchain/bin/* "$toolchain/bin/"
mv "$toolchain/bin/clang" "$toolchain/clang"
cat >"$toolchain/bin/clang" <<'END'
#!/usr/bin/env bash
set -e
clang=$(dirname "$0")/../clang
words=("${@/#module.bc/merged.ll}")
"$clang" "$1" -fPIC -O0 -Xclang -fmerge-functions -mllvm -mergefunc-use-aliases \
    -emit-llvm -S -x ir module.bc -o merged.ll
calls='der_core_octets::parse::long_length_of|cert_tool_lines::lines::Lines::'
sed -i -E "/^define .*@\"($calls)/ s/ (#[0-9]+) \{\$/ noinline \1 {/" merged.ll
exec "$clang" "${words[@]/#-O3/-O2}" -mllvm -force-attribute=optsize -mllvm -inline-threshold=225
END
chmod +x "$toolchain/bin/clang"

# Builds the archive of a crate from the libraries on its line of crates.txt.
build() {
    local crate=$1 libraries name words
    libraries=$(sed -n "s/^$crate staticlib: *//p" "$top/crates.txt")
    if [ "$how" != --gate ]; then
        for name in $libraries; do (cd "$top/crates/$name" && rt lib); done
    fi
    words=(--extern "std=$kit/rlibs/std.rlib" -L "dependency=$kit/rlibs")
    for name in $libraries; do
        words+=(--extern "$name=$top/crates/$name/out/rlib/$name.rlib")
    done
    for name in "$top"/crates/*/out/rlib; do words+=(-L "dependency=$name"); done
    mkdir -p "$top/crates/$crate/out"
    (cd "$top/crates/$crate" && "$kit/bin/rattle" build \
        --crate-name "$crate" src/lib.rt --crate-type staticlib "${words[@]}" \
        --antt-project "$kit/rattle/logic/antt-project.json" --logic-built "$kit/logic_built" \
        --links "$crate=" --jobs 2 --toolchain "$toolchain" -o "out/lib$crate.a")
}

version=$(sed -n 's/^## \([0-9][0-9.]*\).*/\1/p' "$top/CHANGELOG.md" | head -n 1)

# library NAME CRATE DESCRIPTION: builds the libraries and the file for pkg-config of a crate.
library() {
    local name=$1 crate=$2 what=$3 archive=$from/lib$2.a object=$folder/$1.o
    if [ "$how" != --from ]; then
        build "$crate"
        archive=$top/crates/$crate/out/lib$crate.a
    fi
    # One object, which exports only the calls. It has no section groups: a program that links both
    # libraries would keep those of one only.
    ld -r --force-group-allocation -o "$object" \
        --whole-archive "$archive" --no-whole-archive "$kit/c/liblibc_c.a"
    objcopy --wildcard --keep-global-symbol='wd_*' "$object"
    rm -f "$folder/lib$name.a"
    ar rcsD "$folder/lib$name.a" "$object"
    # The kit's linker merges functions with the same code, and equal constants.
    "${CC:-cc}" -shared -o "$folder/lib$name.so" "$object" -fuse-ld=lld -B"$kit/toolchain/bin" \
        -Wl,--icf=all -Wl,--ignore-data-address-equality -Wl,--gc-sections -Wl,-z,defs \
        -Wl,-soname,"lib$name.so" \
        -Wl,--version-script=<(echo '{ global: wd_*; local: *; };')
    rm "$object"
    strip --strip-unneeded "$folder/lib$name.so"
    cat >"$folder/$name.pc" <<END
prefix=$folder
libdir=\${prefix}
includedir=\${prefix}

Name: $name
Description: $what
Version: $version
Cflags: -I\${includedir}
Libs: -L\${libdir} -l$name
END
}
library wurstdrape cert_desk_c \
    "Decodes X.509 certificates, CRLs and CSRs; validates chains; formally verified"
library wurstdrape_issue cert_desk_issuing_c \
    "Issues X.509 certificates that are signed elsewhere; formally verified"
cp "$here/wurstdrape.h" "$folder/"

calls() { grep -o '\bwd_[a-z_]*(' "$here/wurstdrape.h" | tr -d '(' | sort; }
symbols() {
    local name
    for name in libwurstdrape.so libwurstdrape_issue.so; do nm -D "$1" "$folder/$name"; done |
        grep -v ' w ' | sed 's/.* //; s/@.*//' | sort
}
known='^(malloc|realloc|free|memcpy|memmove|memset|memcmp|bcmp|strlen|abort)$'
diff <(calls) <(symbols --defined-only) ||
    { echo "the libraries don't export the functions of wurstdrape.h"; exit 1; }
if symbols --undefined-only | grep -Ev "$known"; then
    echo "the libraries import these functions, which aren't the C library's"
    exit 1
fi
ls -l "$folder"
