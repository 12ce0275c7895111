#!/usr/bin/env bash
# A cell cannot be filled after the start, and a job cannot be opened before it: the check refuses such code, since `start`
# takes the head that `fill` works on and gives another. This shows it on a crate that uses a register rightly, which must
# pass, and on the same crate with one line of misuse, which must be refused for that line and for nothing else.
# Run from the repository's root: tests/misuse.sh
set -euo pipefail

scratch=$(mktemp -d)
trap 'rm -rf "$scratch"' EXIT

# The crates that a crate depends on, each after its own dependencies, and the crate itself; not libraries of the toolchain.
with_dependencies() {
    local dependency
    for dependency in $(sed -n "s/#.*//; s/^$1://p" crates.txt); do
        [ -d "crates/$dependency" ] && with_dependencies "$dependency"
    done
    echo "$1"
}

# Copies a crate without its must-fail edits and without what checks of it kept.
copy_crate() {
    mkdir "$scratch/crates/$1"
    local part
    for part in "crates/$1"/*; do
        case ${part##*/} in
        must-fail | out) ;;
        *) cp -r "$part" "$scratch/crates/$1/" ;;
        esac
    done
    sed -n "/^$1:/p" crates.txt >>"$scratch/crates.txt"
}

# Writes a crate that uses a register rightly but for two lines: one before the start, one after it.
write_crate() {
    mkdir -p "$scratch/crates/$1/src"
    echo "$1: terms choosers rules register jobs" >>"$scratch/crates.txt"
    cat >"$scratch/crates/$1/src/lib.rt" <<RATTLE
#![tactic(auto)]

use choosers::chooser::Chooser;
use jobs::opening::open;
use register::making::fill;
use register::making::start;
use rules::head::Filling;
use rules::sizes::Sizes;
use rules::tables::Tables;
use terms::numbers::CrewNumber;
use terms::refusals::Refusal;

pub fn use_register<C: Chooser>(sizes: Sizes, t: &mut Tables<'_, u64>, chooser: &mut C) -> Result<(), Refusal> {
    let mut head = Filling::new(sizes);
    fill(&mut head, t, 7)?;
    $2
    let Ok(mut started) = start(head, t) else {
        return Err(Refusal::NotFilled);
    };
    $3
    let _ = open(&mut started, t, chooser, CrewNumber(1));
    Ok(())
}
RATTLE
}

fail() {
    printf 'misuse.sh: %s\n' "$1" >&2
    cat "$scratch/log" >&2
    exit 1
}

check() {
    (cd "$scratch/crates/$1" && rt check) >"$scratch/log" 2>&1
}

# The check refuses the crate, and its only error is this one, at the line of misuse.
must_be_refused() {
    local crate=$1 misuse=$2 error=$3 line
    if check "$crate"; then
        fail "$crate: not refused"
    fi
    line=$(grep -nF "$misuse" "$scratch/crates/$crate/src/lib.rt" | cut -d: -f1)
    [ "$(grep -c 'error' "$scratch/log")" = 1 ] || fail "$crate: not refused by one error"
    grep -F "src/lib.rt:$line:" "$scratch/log" | grep -qF "$error" || fail "$crate: not refused at line $line by $error"
    echo "$crate: refused, $error"
}

mkdir "$scratch/crates"
for crate in $(with_dependencies jobs | awk '!seen[$0]++'); do
    copy_crate "$crate"
done

write_crate right_use '' ''
check right_use || fail 'right_use: not proved'
echo 'right_use: proved'

misuse='fill(&mut head, t, 8)?;'
write_crate fill_after_start '' "$misuse"
must_be_refused fill_after_start "$misuse" 'error[borrow-e0382]: borrow of moved value: `head`'

misuse='fill(&mut started, t, 8)?;'
write_crate fill_of_started '' "$misuse"
must_be_refused fill_of_started "$misuse" 'error[mismatched-types]: expected `&mut Filling`, found `&mut Started`'

misuse='open(&mut head, t, chooser, CrewNumber(1))?;'
write_crate open_before_start "$misuse" ''
must_be_refused open_before_start "$misuse" 'error[mismatched-types]: expected `&mut Started`, found `&mut Filling`'
