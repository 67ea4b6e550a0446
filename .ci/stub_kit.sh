# The kit by which `.ci/test_gate_script` tests the script `gate`, which it sources.

# Writes the stub of a kit into the folder $1. `rt` tries a program, `rattle` proves a crate, and `rattle-link` gives a program that
# prints its arguments and its input. Files beside them say how they act: `hangs` that a proof waits, `meets` that gate_rules and
# gate_tables each wait for the other to be begun, `fails` that gate_rules isn't proved, `forgets` that its proof ends well without a
# verdict, `hides` that it is proved with a reserve, and `breaks` that the program can't be linked. `crawls` says how many seconds the small
# proof takes, and `refuses` that it fails. What they do stands in `calls`, and `proved` has the crates in their order.
write_kit() {
    cat >"$1/rt" <<'STUB'
#!/usr/bin/env bash
bin=$(dirname "${BASH_SOURCE[0]}")
if [[ $1 == version ]]; then
    cat "$bin/version"
    exit
fi
echo "$*" >>"$bin/calls"
echo "in $PWD" >>"$bin/folders"
sed 's/^/tried /'
STUB
    cat >"$1/rattle" <<'STUB'
#!/usr/bin/env bash
set -euo pipefail
bin=$(cd "$(dirname "${BASH_SOURCE[0]}")" && pwd)
read -r line && echo "standard input isn't empty: $line"
if [[ $1 == check ]]; then
    echo "check $*" >>"$bin/checks"
    [[ ! -e $bin/crawls ]] || sleep "$(<"$bin/crawls")"
    [[ ! -e $bin/refuses ]] || exit 1
    echo "logic=proved functions=1 sum=0"
    exit
fi
echo "$*" >>"$bin/words"
sleep 300 &
name='' jobs='' to=''
while (($#)); do
    case $1 in
    --crate-name) name=$2 ;;
    --jobs) jobs=$2 ;;
    --extern) [[ $2 != */proved/* || -d ${2#*=} ]] || echo "$name is begun before ${2%%=*}" >>"$bin/wrong" ;;
    -o) to=$2 ;;
    esac
    shift
done
way=
(($(nice) == GATE_TEST_NICENESS)) || way=' nice'
echo "prove $name $jobs$way" >>"$bin/calls"
(cd ../.. && find . -type f ! -name '*.log' | LC_ALL=C sort >"$bin/files")
if [[ -e $bin/meets && $name =~ ^gate_(rules|tables)$ ]]; then
    for it in {1..80}; do
        (($(grep -cE '^prove gate_(rules|tables) ' "$bin/calls") < 2)) || break
        sleep 0.1
    done
    (($(grep -cE '^prove gate_(rules|tables) ' "$bin/calls") == 2)) || touch "$bin/missed"
fi
sleep 0.1
while [[ -e $bin/hangs ]]; do
    sleep 0.1
done
echo "fn $name::list::List::len: proved"
if [[ -e $bin/fails && $name == gate_rules ]]; then
    echo "logic=not-proved functions=1"
    exit 1
fi
if [[ -e $bin/forgets && $name == gate_rules ]]; then
    exit
fi
reserve=
[[ ! -e $bin/hides || $name != gate_rules ]] || reserve=' hides=1'
echo "logic=proved functions=1$reserve sum=0"
echo "$name" >>"$bin/proved"
if [[ $to == *.o ]]; then
    touch "$to"
else
    mkdir "$to"
fi
STUB
    cat >"$1/rattle-link" <<'STUB'
#!/usr/bin/env bash
set -euo pipefail
bin=$(dirname "${BASH_SOURCE[0]}")
echo link >>"$bin/calls"
if [[ -e $bin/breaks ]]; then
    echo "a library is missing"
    exit 1
fi
while [[ $1 != -o ]]; do
    shift
done
[[ -f $3 ]]
cat >"$2" <<'PROGRAM'
#!/usr/bin/env bash
case ${1-} in
fails) echo 'gate: Fake' >&2; exit 7 ;;
files) readlink /proc/$$/fd/* | grep -v '/out/gate_bot$' ;;
*) printf '<%s>' "$@"; echo; cat ;;
esac
PROGRAM
chmod +x "$2"
STUB
    chmod +x "$1"/{rt,rattle,rattle-link}
}
