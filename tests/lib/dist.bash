# Compares a program that was built of a tree's sources with the one in its dist/: compare_dist TREE PROGRAM. It fails where dist/SOURCES
# names these sources and the bytes differ, or has another digest of the program. Where it names other sources it says so. Without PROGRAM
# it compares no bytes; nor does it where another toolchain is here.
compare_dist() {
  local sources here kept=$1/dist/x86_64-linux/fusekeep built=${2-}
  sources=$("$1/dist/sources") || { echo "dist: FAILED, the sources have no digest"; return 1; }
  if [ -n "$built" ] && here=$(rt version 2>/dev/null) && [ "$here" != "$(<"$1/dist/TOOLCHAIN")" ]; then
    echo "dist: skipped, the toolchain here isn't the one of dist/TOOLCHAIN, so that the bytes may differ"
  elif [ "$sources" != "$(head -n 2 "$1/dist/SOURCES" 2>/dev/null)" ]; then
    echo "dist: dist/SOURCES names other sources; dist/update puts the program of these sources into dist/"
  elif [ -z "$built" ]; then
    echo "dist: dist/SOURCES names these sources; no program was built to be compared"
  elif ! [ -f "$built" ]; then
    echo "dist: FAILED, no program was built"
    return 1
  elif ! [ -x "$kept" ]; then
    echo "dist: FAILED, dist/x86_64-linux/fusekeep is missing or isn't executable"
    return 1
  elif ! cmp -s "$built" "$kept"; then
    echo "dist: FAILED, dist/x86_64-linux/fusekeep differs from the program that was built of the same sources"
    return 1
  elif [ "$(sed -n 3p "$1/dist/SOURCES")" != "program $(sha256sum <"$kept" | cut -d ' ' -f 1)" ]; then
    echo "dist: FAILED, dist/SOURCES names another program than dist/x86_64-linux/fusekeep"
    return 1
  else
    echo "dist: passed, dist/x86_64-linux/fusekeep is the program that was built, to the byte"
  fi
}
