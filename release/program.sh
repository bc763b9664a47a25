# release/program.sh: what ./exec_run, ./exec_upgrade, ./exec_serve, ./build and ./gate ask of the programs and of their sources. They
# read this file at the top of the repository; it is POSIX sh.
programs='exec_run exec_upgrade exec_serve'

# Has all that follows ask of one of these programs. With the words of its trial it answers an empty document as given here, but for
# bytes of 0. The question is a format of printf.
ask_of() {
  name=$1 out=crates/$1/out packed=release/$1.gz
  trial='1 1' question='{"version":1}\n'
  refusal='the document is refused (./virraupez explain tells why)'
  instead='`./virraupez run --reference DOCUMENT` runs the executor written apart in Python'
  case $1 in
  exec_run) answer='end 0' ;;
  exec_upgrade) trial='' answer='{"order":"kind","version":2}' instead='`./virraupez upgrade --reference DOCUMENT` is written apart in Python' ;;
  exec_serve)
    question='\000\000\000\000\000\000\000\015{"version":1}' answer=$(printf '\006end 0')
    refusal='memory for its words is refused'
    ;;
  esac
}

# The lines of crates.txt of the crates on which the program stands, its own first.
lines_of_crates() {
  awk -v root="$name" '
    { sub(/#.*/, ""); split($0, part, ":"); split(part[1], word, " "); line[word[1]] = $0; below[word[1]] = part[2] }
    END {
      found = 1; name[1] = root; is_found[root] = 1
      for (at = 1; at <= found; at++) {
        print line[name[at]]
        many = split(below[name[at]], it, " ")
        for (i = 1; i <= many; i++)
          if (it[i] in line && !is_found[it[i]]++) name[++found] = it[i]
      }
    }' crates.txt
}

# The sum of the standard input.
sum() {
  line=$(sha256sum) && echo "${line%% *}"
}

# The names of the crates on which the program stands, in a line.
names_of_crates() {
  echo $(lines_of_crates | sed 's/[ :].*//')
}

# The sum of all that decides the program's bytes but the toolchain: the contents and the names of the sources of its crates,
# their lines in crates.txt, and HANDLES.
sum_of_sources() {
  set --
  for crate in $(names_of_crates); do
    set -- "$@" "crates/$crate/src" "crates/$crate/specs" "crates/$crate/proofs"
  done
  {
    lines_of_crates
    cat HANDLES
    find "$@" -type f \( -name '*.rt' -o -name '*.antt' \) -print0 2>/dev/null | LC_ALL=C sort -z | xargs -0 sha256sum
  } | sum
}

# A fact of a file of facts, whose lines are a name and what it is. In release/about the program's name comes before both.
fact() {
  sed -n "s/^$2 //p" "$1" 2>/dev/null
}

# Whether the program is there, can be run, and has this sum. Its state is that of before it was read.
is_whole() {
  state=$(printf '%s\n' "$program" | list_states) summed=$1
  [ -x "$program" ] && [ "$(sum <"$program")" = "$summed" ]
}

# Whether the program of out/ is that of the sources with this sum, as what built it noted.
is_built() {
  program=$out/$name
  [ "$(fact "$out/built" sources)" = "$1" ] && is_whole "$(fact "$out/built" program)"
}

# Notes that the program of out/ was built from sources with this sum, by the toolchain that is here.
note_built() {
  {
    echo "sources $1"
    echo "program $(sum <"$out/$name")"
    echo "toolchain $(rt version)"
  } >"$out/built.new" && mv -f "$out/built.new" "$out/built"
}

# What is wrong with release/ beside sources with this sum: nothing if it has their program.
fault_of_release() {
  if [ "$(fact release/about "$name sources")" != "$1" ]; then
    echo 'release/ has the program of other sources'
  elif [ "$(fact release/about "$name packed")" != "$(sum <"$packed")" ]; then
    echo "$packed isn't the file that release/about names"
  elif [ "$(fact release/about "$name program")" != "$(gzip -dc "$packed" | sum)" ]; then
    echo "what $packed unpacks to isn't the program that release/about names"
  fi
} 2>/dev/null

# Compares a program that was built here from sources with this sum with that of release/, and says how it is. The status is 1
# if the same toolchain made other bytes of the same sources, and 2 if they can't be compared.
compare_with_release() {
  fault=$(fault_of_release "$2") here=$(rt version 2>/dev/null) there=$(fact release/about "$name toolchain")
  if ! [ -e "$1" ]; then
    echo "there is no program to compare with that of release/"
    return 1
  elif [ -n "$fault" ]; then
    echo "its bytes weren't compared: $fault (./build --release renews it)"
    return 2
  elif [ "$here" != "$there" ]; then
    echo "its bytes weren't compared: release/ was built with $there, and here is ${here:-none}"
    return 2
  elif gzip -dc "$packed" | cmp -s - "$1"; then
    echo "it is the program of release/, byte for byte"
  else
    echo "IT DIFFERS from the program of release/, which the same toolchain built from the same sources"
    return 1
  fi
}

# ---- which program is run

# The folder for what is unpacked or known if the repository can't be written: one a checkout. XDG_CACHE_HOME counts if it is
# an absolute path, as the XDG Base Directory Specification has it.
case ${XDG_CACHE_HOME-} in
/*) cache=$XDG_CACHE_HOME ;;
*) cache=${HOME-}/.cache ;;
esac
cache=$cache/virraupez$PWD

# Whether the cache is the user's, and nobody else may write there. What it says is believed, and what it has is run.
is_own_cache() {
  [ -O "$cache" ] && [ -z "$(find "$cache" -prune -perm /022)" ]
}

# Makes a folder for what is unpacked or known. Others enter no folder that is made for the cache.
make_room() {
  if [ "$1" != "$cache" ]; then
    mkdir -p "$1"
  elif (umask 077 && mkdir -p "$1"); then
    is_own_cache || { printf '%s\n' "$1 is another user's, or others may write there" >&2 && return 1; }
  else
    return 1
  fi
}

# Lists what the choice of a program rests on, be it there or not: the folders and files of the sources of these crates, and
# other files.
list_names() {
  for crate in "$@"; do
    set -- "$@" "crates/$crate/src" "crates/$crate/specs" "crates/$crate/proofs"
    shift
  done
  printf '%s\n' crates.txt HANDLES release/about "$packed" "$out/built" "$out/$name"
  find "$@" ! -name '.*' 2>/dev/null
}

# Lists the inodes, sizes and times of change of the folders and files that are named on standard input. A folder has another
# time if a file in it is new or gone.
list_states() {
  xargs -d '\n' stat -c '%i %s %.9Z' 2>/dev/null
}

# Whether nothing has changed since a program was chosen; then it is in $program. Its own name is the last of the names, and its
# states end in a line that names it, so that no list counts that was cut off.
is_known() {
  room=release/out
  [ -e "$room/$name.states" ] || { room=$cache && is_own_cache; } || return
  IFS= read -r program <"$room/$name.chosen" && [ -s "$program" ] && [ -x "$program" ] &&
    { list_states <"$room/$name.names"; printf '%s\n' "end $program"; } | cmp -s - "$room/$name.states"
} 2>/dev/null

# Keeps the choice, with the files as they were before it was made, unless one is new since they were listed.
keep() {
  [ "$(list_names $crates)" = "$names" ] || return
  for room in release/out "$cache"; do
    make_room "$room" && rm -f "$room/$name.states" && printf '%s\n' "$program" "$summed" >"$room/$name.chosen" &&
      printf '%s\n' "$names" "$program" >"$room/$name.names" &&
      printf '%s\n' "$states" "$state" "end $program" >"$room/$name.states.$$" &&
      mv -f "$room/$name.states.$$" "$room/$name.states" && return
  done
} 2>/dev/null

# What is wrong with an unpacked program that was chosen: nothing if it is as it was then, or that of release/ today.
fault_of_choice() {
  for room in release/out "$cache"; do
    { IFS= read -r program && read -r summed; } <"$room/$name.chosen" && [ "$program" = "$room/$name" ] || continue
    is_whole "$summed" || is_whole "$(fact release/about "$name program")" ||
      printf '%s\n' "$program has changed since it was unpacked, so ./$name will unpack it anew"
  done
} 2>/dev/null

tell() {
  printf '%s\n' "$name: $1" >&2
}

# Whether a file is the program of release/, and can be run.
is_shipped() {
  program=$1
  is_whole "$(fact release/about "$name program")"
}

# Whether a file answers an empty document as the program must.
is_answering() {
  [ "$(cd -- "${1%/*}" && printf "$question" | "./${1##*/}" $trial | tr -d '\000')" = "$answer" ]
}

# Unpacks the program of release/ into a folder. It is run after it was summed, and has its name after it is on the disk.
unpack() {
  new=$1/$name.$$
  if gzip -dc "$packed" >"$new" && chmod +x "$new" &&
    { is_shipped "$new" || { echo "it isn't the program that release/about names" >&2 && false; }; } &&
    is_answering "$new" && sync "$new"; then
    mv -f "$new" "$1/$name"
  else
    rm -f "$new"
    return 1
  fi
}

# Chooses the program of release/: the one that is unpacked, or one that it unpacks.
take_release() {
  for room in release/out "$cache"; do
    why=$(make_room "$room" 2>&1) || continue
    ! is_shipped "$room/$name" || return 0
    why=$(unpack "$room" 2>&1) && is_shipped "$room/$name" || continue
    tell "the program of release/ was proved elsewhere from these sources, with $(fact release/about "$name toolchain"); ./build proves it here and compares the bytes"
    return 0
  done
  tell "the program of release/ can't be unpacked and run: $(printf '%s\n' "$why" | tail -n 1)"
  return 1
}

# Chooses the program of the sources: that of out/, or else that of release/, or else one that it builds.
choose() {
  machine=$(uname -sm)
  if [ "$machine" != 'Linux x86_64' ]; then
    tell "the program is for Linux on x86-64, and this is $machine: $instead"
    return 1
  fi
  crates=$(names_of_crates)
  names=$(list_names $crates)
  states=$(printf '%s\n' "$names" | list_states)
  sources=$(sum_of_sources)
  if is_built "$sources"; then
    :
  elif fault=$(fault_of_release "$sources") && [ -z "$fault" ]; then
    take_release || return
  else
    tell "$fault, so ./build must prove and build one"
    ./build </dev/null || return
    states=$(printf '%s\n' "$names" | list_states)
    is_built "$(sum_of_sources)" || return
  fi
  keep || :
}

# ---- what starts a program

# Whether a word is a number from 1 to a greatest one, as the programs read it: one to four decimal digits.
is_number() {
  case $1 in
  '' | *[!0123456789]* | ?????*) return 1 ;;
  esac
  [ "$1" -ge 1 ] && [ "$1" -le "$2" ]
}

# Whether words are a number of workers and a quantum.
are_settings() {
  [ $# -eq 2 ] && is_number "$1" 64 && is_number "$2" 1024
}

# Becomes the program. The words --help and --version, and wrong words, are answered here, the latter as the program answers them,
# so that no program is needed for that. What calls this says in $usage what the words are and in $wrote what the program writes,
# has a function `describe` that tells more, and one `are_right` that judges the words.
launch() {
  if [ $# -eq 1 ]; then
    case $1 in
    --help) help && exit ;;
    --version) read -r version <VERSION && echo "$name (Virraupez) $version" && exit ;;
    esac
  fi
  if ! are_right "$@"; then
    echo "usage: $usage" >&2
    exit 2
  fi
  is_known || choose || exit 70
  cd -- "${program%/*}" || exit 70
  # The lines of a transcript fill a large block. The C library then asks the system for large pages, and gets its blocks from
  # one region that grows by 64 MiB and never shrinks: that saves the program most of its page faults. Small blocks that are
  # given back are joined with their neighbours, so that the lines take the memory in which the document was read.
  tunables=glibc.malloc.hugetlb=1:glibc.malloc.mmap_threshold=4294967296:glibc.malloc.top_pad=67108864
  tunables=$tunables:glibc.malloc.trim_threshold=4294967296:glibc.malloc.mxfast=0
  export GLIBC_TUNABLES="${GLIBC_TUNABLES:-$tunables}"
  exec "./$name" "$@"
}

help() {
  echo "usage: $usage"
  echo
  describe
  cat <<END

The status is 0 after $wrote, 1 if $refusal, 2 at wrong words,
3 if standard output failed, 4 if standard input did, and 70 if there is no program to run. docs/program.md says more.
END
}
