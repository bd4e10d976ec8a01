#!/bin/sh
# module.sh: what rt hands to its clang for a static library: an LLVM module, and the words with it.
#
#     outside/module.sh NAME FOLDER      FOLDER/module.bc; FOLDER/words, one to a line; FOLDER/libNAME.a, the archive that
#                                        came of them; FOLDER/bin, the toolchain's programs
#
# rt proves the crate as ever, and writes crates/NAME/out/libNAME.a.
set -eu
[ $# -eq 2 ] || { sed -n '2,5s/^# \{0,1\}//p' "$0" >&2; exit 2; }
name=$1
mkdir -p "$2"
folder=$(cd "$2" && pwd)
cd "$(dirname "$0")/../crates/$name"
rt=$(readlink -f "$(command -v rt)")
kit=$(dirname "$(dirname "$rt")")
clang=$kit/toolchain/bin/clang

# the kit once more, made of links, with a clang that also keeps the module; rt finds its kit by where its own two files lie
shadow=$(mktemp -d)
trap 'rm -rf "$shadow"' EXIT
chmod 755 "$shadow"
mirror() { # FOLDER SKIP ..: links to all in a folder of the kit but these
    part=$1
    shift
    mkdir -p "$shadow/kit/$part"
    for entry in "$kit/$part"/*; do
        case " $* " in *" ${entry##*/} "*) ;; *) ln -s "$entry" "$shadow/kit/$part/${entry##*/}" ;; esac
    done
}
mirror . bin toolchain
mirror bin rt rtlib.py
cp "$kit/bin/rt" "$kit/bin/rtlib.py" "$shadow/kit/bin"
mirror toolchain bin
mirror toolchain/bin clang
cat >"$shadow/kit/toolchain/bin/clang" <<END
#!/bin/sh
for word in "\$@"; do
    case \$word in *.bc) cp "\$word" "$shadow/module.bc" && printf '%s\n' "\$@" >"$shadow/words" ;; esac
done
exec "$clang" "\$@"
END
chmod +x "$shadow/kit/toolchain/bin/clang"

# by LLVM, whatever the caller's environment prefers
env -u RT_BACKEND "$shadow/kit/bin/rt" lib >"$shadow/log" 2>&1 </dev/null || { cat "$shadow/log" >&2; exit 1; }
[ -f "$shadow/module.bc" ] || { cat "$shadow/log" >&2; echo 'module.sh: no module was compiled' >&2; exit 1; }
cp "$shadow/module.bc" "$shadow/words" "out/lib$name.a" "$folder"
ln -sfn "$kit/toolchain/bin" "$folder/bin"
