#!/usr/bin/env bash
# For an Arm machine: makes target/arm/kit, the kit with a compiler that writes archives for this processor in place of x86-64, from the same
# intermediate code, and prints its path. Comparisons and ratios can be had with it where no x86-64 machine is at hand; what is handed out is x86-64's.
#     RATTLE_HOME=$(bash tools/arm/kit.sh) CC=cc bash tools/calls/run.sh
set -eu
root=$(cd "$(dirname "$0")/../.." && pwd -P)
kit=$root/target/arm/kit
home=$(dirname "$(dirname "$(rt doc)")")
[ "$home" != "$kit" ] || { echo "$kit"; exit; }
machine=$(uname -m)
tools=$home/on/$machine/toolchain
[ "$machine" = aarch64 ] && [ -x "$tools/bin/clang" ] || { echo "arm: this machine is no Arm machine with a kit" >&2; exit 1; }
rm -rf "$kit"
mkdir -p "$kit/on/$machine/toolchain/bin"
for part in "$home"/*; do [ "${part##*/}" = on ] || ln -s "$part" "$kit/"; done
for part in "$home/on/$machine"/*; do [ "${part##*/}" = toolchain ] || ln -s "$part" "$kit/on/$machine/"; done
for part in "$tools"/*; do [ "${part##*/}" = bin ] || ln -s "$part" "$kit/on/$machine/toolchain/"; done
for tool in "$tools"/bin/*; do [ "${tool##*/}" = clang ] || ln -s "$tool" "$kit/on/$machine/toolchain/bin/"; done
cat >"$kit/on/$machine/toolchain/bin/clang" <<END
#!/usr/bin/env bash
words=()
for word in "\$@"; do
    case \$word in
    --target=x86_64-*) words+=(--target=aarch64-unknown-linux-gnu -Wno-override-module) ;;
    -march=x86-64) ;;
    *) words+=("\$word") ;;
    esac
done
exec "$tools/bin/clang" "\${words[@]}"
END
chmod +x "$kit/on/$machine/toolchain/bin/clang"
echo "$kit"
