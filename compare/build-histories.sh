# Builds libfinder.a and the program `histories` beside it, whose path is then in $histories; read by histories.sh, year.sh, times.sh and profile.sh, in their folder. Where
# $program is `published`, it is that program with the Rust as published.
mkdir -p ../target
(cd ../crates/finder && rt lib --cpu=x86-64) > ../target/histories.log 2>&1 || { grep -E '^rt:|error|no proof' ../target/histories.log; exit 1; }
library=$(cd .. && pwd)/crates/finder/out
program=${program:-histories}
(cd rust && ./prepare.sh > /dev/null && LIBRARY=$library cargo build --release --offline -p "$program" --quiet)
histories=rust/target/release/$program
