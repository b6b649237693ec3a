#!/bin/sh
# An outside judge: can a tree and what the library makes of it differ in value? Written as SMT-LIB
# and asked of z3 and cvc5, which must say `unsat` of every one. What a solver does not find out in
# its time is counted as unknown. Both solvers are Debian packages, installed here if missing.
#
#   judge.sh [QUESTIONS] [SEED]
set -eu
cd "$(dirname "$0")"
missing=
for solver in z3 cvc5; do
    command -v $solver >/dev/null || missing="$missing $solver"
done
[ -z "$missing" ] || apt-get install -y --no-install-recommends $missing

questions=${1:-3000}
seed=${2:-1}
milliseconds=2000
folder=target/judge
mkdir -p $folder
cargo run --release --quiet -p compare -- --smt "$questions" --seed "$seed" > $folder/questions.smt2
# The last question is one that must be `sat`: a judge who never says no is none.
cat >> $folder/questions.smt2 <<'END'
(push 1)
(declare-const x (_ BitVec 8))
(assert (distinct x (bvadd x #x01)))
(check-sat)
(pop 1)
END

wrong=0
judge() {
    name=$1
    shift
    "$@" $folder/questions.smt2 > $folder/$name.out || true
    unsat=$(grep -c '^unsat' $folder/$name.out || true)
    sat=$(grep -c '^sat' $folder/$name.out || true)
    unknown=$(grep -c -e '^unknown' -e '^timeout' $folder/$name.out || true)
    echo "$name: $questions questions, $unsat unsat, $((sat - 1)) sat, $unknown unknown"
    [ "$sat" -eq 1 ] && [ $((unsat + unknown)) -eq "$questions" ] || wrong=1
}
judge z3 z3 -t:$milliseconds
judge cvc5 cvc5 --incremental --tlimit-per=$milliseconds
exit $wrong
