# What the scripts of this folder share; they source it. Everything made goes to windows/out.
set -u
top="$(cd "$(dirname "${BASH_SOURCE[0]}")/.." && pwd)"
out="$top/windows/out"
seh="${SEH:-$top/seh}"
gcc=x86_64-w64-mingw32-gcc
objdump=x86_64-w64-mingw32-objdump
mkdir -p "$out"

die() {
  echo "$(basename "$0"): $*" >&2
  exit 70
}

# Refuses at once where a program is missing, with the Debian package that has it.
need() { command -v "$1" >/dev/null || die "$1 isn't in the path (Debian's package $2)"; }

# Runs a program under Wine, in a prefix of its own, without its debugger and its talk.
with_wine() {
  WINEPREFIX="$out/prefix" WINEDEBUG=-all WINEDLLOVERRIDES='winedbg.exe=d;mscoree=;mshtml=' \
    timeout 120 "$wine" "$@"
}

# Where Wine's program is: Debian's package wine64 has it in a folder that isn't in the path.
find_wine() {
  local it
  for it in wine64 wine /usr/lib/wine/wine64 /usr/lib/wine/wine; do
    command -v "$it" && return
  done
  return 1
}

# Says which Wine it is, after a first run that makes its prefix.
begin_wine() {
  wine=$(find_wine) || die "Wine isn't in the path, nor in /usr/lib/wine (Debian: wine64)"
  with_wine cmd /c exit >/dev/null 2>&1 || die "Wine doesn't run"
  "$wine" --version 2>/dev/null
}

# The text of a file; those that are written for cl.exe go through a preprocessor.
text() {
  case "$(basename "$1")" in
    msvc_*) cpp -P -nostdinc -I "$top/examples" -I "$top/examples/headers" "$1" ;;
    *) cat "$1" ;;
  esac
}

# Compiles a text from standard input to the image out/NAME.out.
compile() { "$seh" compile >"$out/$1.out" || die "$1 isn't compiled"; }

# The host's library, which the images import.
build_host() {
  "$gcc" -O2 -Wall -shared -nostdlib -o "$out/sehhost.dll" "$top/windows/sehhost.c" \
    "$top/windows/sehhost.def" -lkernel32 -lntdll -e DllMain || die "sehhost.dll isn't built"
}
