# shellcheck shell=bash disable=SC2034
# To be sourced by bash: sets the arrays TLX_CFLAGS and TLX_LIBS, with which a program in C is built against the library, and TLX_PARTS, which
# in place of TLX_LIBS has library/tlx.c as its source, so that a sanitizer sees it. With TLX_PREFIX set they name what tools/install put
# there, and hold in any folder. Else they name the tree: the library is built first, unless it is up to date.
if [ -n "${TLX_PREFIX:-}" ]; then
  TLX_PREFIX=$(cd "$TLX_PREFIX" && pwd) || return 70
  TLX_CFLAGS=("-I$TLX_PREFIX/include")
  TLX_LIBS=("$TLX_PREFIX/lib/libtlx.a")
  TLX_PARTS=("${TLX_LIBS[@]}")
else
  top=$(cd "$(dirname "${BASH_SOURCE[0]}")/.." && pwd)
  . "$top/tools/launch.sh"
  make_library
  TLX_CFLAGS=("-I$top/include")
  TLX_LIBS=("$top/library/out/libtlx.a")
  TLX_PARTS=("$top/library/tlx.c" "$top/crates/tl_c/out/libtl_c.a" "$(dirname "$(rt doc)")/c/liblibc_c.a")
fi
