# shellcheck shell=bash disable=SC2034,SC2154
# What `prove` asks for and how it ends, by a kit that stands in for Rattle's: of a program and the two
# libraries below it, it proves all but some.

write_kit() {
    mkdir "$scratch/kit"
    printf '#!/bin/sh\n' >"$scratch/kit/rt"
    chmod +x "$scratch/kit/rt"
    cat >"$scratch/kit/rtlib.py" <<'END'
import os
import tempfile

KIT = os.path.dirname(__file__)


class Crate:
    is_static = False

    def __init__(self, folder, name, *below):
        self.name, self.folder, self.needs = name, f"{folder}/{name}", below
        self.is_program = name == "program"
        os.makedirs(f"{self.folder}/src")
        with open(f"{self.folder}/src/lib.rt", "w") as code:
            code.write("pub fn nothing() {}\n")

    def below(self):
        return self.needs

    def build_rlib(self, flags, anew):
        return self.prove(*flags[2:], f"anew={anew}")

    def build_and_run(self, flags, words, tests):
        return self.prove(*flags[2:], *words, f"tests={tests}")

    def prove(self, *words):
        print(*words, file=self.out)
        return 1 if self.name in os.environ["UNPROVED"].split() else 0


def crates_below(root):
    folder = tempfile.mkdtemp(dir=KIT)
    low = Crate(folder, "low")
    middle = Crate(folder, "middle", low)
    return [low, middle, Crate(folder, "program", low, middle)]


def lock(crates):
    return None


def guarded():
    return []
END
}

check_prove() {
    local unproved
    write_kit
    prove_by_kit "" program
    judge_lines "prove, if all is proved" 0 "${asked[@]}"
    for unproved in low middle program "middle program"; do
        prove_by_kit "$unproved" program
        case $unproved in
        low) judge_lines "prove, if low is not proved" 1 "${asked[@]:0:2}" ;;
        middle*) judge_lines "prove, if $unproved is not proved" 1 "${asked[@]:0:4}" ;;
        program) judge_lines "prove, if the program is not proved" 1 "${asked[@]}" ;;
        esac
    done
    prove_by_kit "" middle
    judge_lines "prove, of a library" 0 "${asked[@]:0:4}"
    prove_by_kit low --alone program
    judge_lines "prove --alone" 0 "${asked[@]:4}"
    prove_by_kit "" program progarm
    judge_refusal "prove, of a crate that is not there" "prove: no crate has the name progarm" 1
}

# What is asked of the kit for the program, lowest first.
asked=(
    "low: begins" "low: --statements anew=False"
    "middle: begins" "middle: --statements anew=False"
    "program: begins" "program: --version tests=False"
)

# Runs `prove` with a kit that does not prove these crates.
prove_by_kit() { # UNPROVED WORD..
    UNPROVED=$1 RT=$scratch/kit/rt launch_by "$root/prove" "${@:2}" >"$scratch/out" 2>"$scratch/err"
}
