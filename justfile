# Commands for contributors: `just` lists them. CONTRIBUTING.md explains them.
# With this setting `run` passes each argument on as it is, spaces included.
set positional-arguments

# list the commands
default:
    @just --list

# prove one crate, or with a second word one function of it
check crate function='':
    cd crates/{{crate}} && rt check {{ if function == '' { '' } else { '--only ' + function } }}

# run the tests of a crate without a proof
try crate:
    cd crates/{{crate}} && rt try --test

# prove and run the tests of a crate
test crate:
    cd crates/{{crate}} && rt test

# run one test that `just test` has built, by its full name; with no name, list the names
one crate name='--list':
    crates/{{crate}}/out/{{crate}}_tests {{name}}

# prove, build and run the program, with these arguments and a document on standard input
run *arguments:
    cd crates/spq && rt run -- "$@"

# format one crate
fmt crate:
    cd crates/{{crate}} && rt fmt

# check the mutants of a crate: those of the gate, then the others
mutants crate:
    tests/wrong_bodies.py --gate {{crate}}
    tests/wrong_bodies.py {{crate}}

# regenerate and check the pages
pages:
    tests/pages.py --write
    tests/words.py

# write out/API.md and out/CONTRACTS.md: each call of the main interface with its clauses, tests and mutants
api:
    tests/pages.py --out

# write out/MUTANTS.md: all mutants, crate by crate
mutant-tables:
    tests/pages.py --out

# run the commands that README and docs show with their output, and the queries of docs/USAGE.md, with the built program
tour program='crates/spq/out/spq':
    tests/tour.py {{program}}
    tests/usage.py {{program}}

# run the examples of tests/examples with the built program
examples program='crates/spq/out/spq':
    tests/examples.py {{program}}

# the whole gate
gate:
    .ci/run

# the tests that the gate leaves out, with the built program
extra:
    tests/hostile.py --size 5
    tests/parts.py

# the tests of errors with each allocation and each thread start failing in turn, and the built program, as the gate runs them
refusals program='crates/spq/out/spq':
    tests/refusals.sh
    tests/failures.py {{program}}

# compare loading with other programs
bench quads='100000':
    bench/compare.py --tables loading --quads {{quads}}

# measure loading, shapes of document, queries and memory with a built program, keep the figures in bench/results.json, and put them into the pages
measure program='crates/spq/out/spq':
    bench/compare.py --spq {{program}} --tables memory,loading,shapes,queries,growth --growth 100000,1000000,3000000 --runs 10 --budget 12 --write bench
    tests/pages.py --write

# measure the queries with other engines, and keep the figures
measure-engines oxigraph='oxigraph' program='crates/spq/out/spq':
    bench/compare.py --spq {{program}} --oxigraph {{oxigraph}} --tables engines --runs 5 --budget 30 --write bench
    tests/pages.py --write

# run the test suites of the W3C with the built program, fetching them from Debian's source package of rdflib first
w3c program='crates/spq/out/spq':
    tests/w3c.py out/w3c {{program}} --fetch

# make the files of a release in out/dist from a proved build: a tar archive, a Debian package, their sums, a note
package *program:
    ./package "$@"

# prove, build and install spq
install folder='~/.local/bin':
    ./install {{folder}}
