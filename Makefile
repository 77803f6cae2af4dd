# make                     proves and builds the program
# make try                 runs the program over examples/county, `show` and `audit`: without any proof, where it isn't proved yet
# make check               the merge gate: every proof, must-fail edit, test and stored run, from nothing
# make wrong-bodies        tries the edits that the gate leaves out, those of crates that serve the proofs above them
# make rows                plays the rows of tests/rows over the program, and over `bench`
# make certificates        builds and converts certificates, and compares with a plain reader
# make judge               plays drawn counties over the program, and judges each answer by a second opinion
# make full-size           asks for each answer once with a million chains
# make limits              does so, and says how long each answer took and in how much memory
# make memory              refuses each allocation of the program, and of `bench tree`, in its turn
# make devices             fails each read and each write of the program in its turn, and where strace is there counts how often files are read
# make examples            runs the commands of README.md, docs/commands.md, examples/README.md and docs/faults.md, and compares what they print
# make counties            runs the commands of docs/many-counties.md on a few counties
# make bench               measures the program on record files of 1,000 to 1,000,000 chains, checks of counties, maps
#                          decided and certificates built with none given, maps of long segments, searches in trees, and
#                          certificates written and read, and counts instructions where valgrind is there; with
#                          BESIDE=PROGRAM it counts and times that program's too; and lists of every fault
# make ways                counts the sweeps of each command, where valgrind is there: one of a map, that says all that is asked
# make speed               prints the tables of docs/speed.md, which has the rows of 100,000 and of 1,000,000 chains among these
# make geojson             reads what `export` and `audit --geojson` make by GDAL
# make pictures            reads what `draw` makes, and shows it by a browser where one is there
# make pages               looks at the manual page and the completions, which are made of the program's help, at what
#                          `--progress` shows, and at the program without its proof, and mends a broken county as docs/faults.md says
# make real-maps           fetches Debian's r-cran-maps, audits its maps, and prints the table of docs/real-maps.md, with what GEOS
#                          says of the same lines where python3-shapely is there
# make promises            makes out/promises.md, a page of each public call with its clauses and edits
# make install PREFIX=..   installs the program as PREFIX/bin/tigertopo, its manual page and its completions
# make uninstall PREFIX=.. takes these away
# make dist                makes in dist/ an archive and a Debian package of the program with its documents, and their sums
# make dist-check          makes them twice, compares their bytes, and installs, runs and removes the package
# make dist-anew           proves and builds the program in two clones from nothing, makes them in each, and compares their bytes

PREFIX = /usr/local
PROGRAM = crates/tigertopo/out/tigertopo

.PHONY: build try check wrong-bodies rows certificates judge full-size limits memory devices examples counties bench ways speed geojson pictures pages real-maps promises install uninstall dist dist-check dist-anew

build:
	python3 proving/prove.py

# That the program isn't proved yet is said once.
try:
	@./tigertopo show examples/county
	@TIGERTOPO_SAID=yes ./tigertopo audit examples/county

check:
	@python3 proving/gate.py

wrong-bodies:
	python3 proving/wrong_bodies.py

examples: build
	python3 examples/run.py

rows: build
	python3 proving/prove.py bench
	python3 tests/rows/rows.py

certificates: build
	python3 tests/formats/certificates.py

judge: build
	python3 tests/judge/judged.py --cases 20000
	python3 tests/judge/faced.py --cases 2000
	python3 tests/judge/parts.py --cases 4000
	python3 tests/judge/joined.py --cases 2000

full-size: build
	python3 tests/size/full_size.py

limits: build
	nice python3 tests/size/full_size.py --measure

memory: build
	python3 tests/injected/memory.py
	python3 proving/prove.py bench
	python3 tests/injected/tree_memory.py

devices: build
	python3 tests/injected/devices.py
	python3 tests/injected/readings.py

counties: build
	python3 tests/installed/counties.py

bench: build
	python3 proving/prove.py bench
	python3 bench/run.py
	python3 bench/instructions.py $(if $(BESIDE),--beside $(BESIDE))
	python3 bench/beside.py $(if $(BESIDE),--beside $(BESIDE))
	python3 bench/hostile.py --sweep $(if $(BESIDE),--beside $(BESIDE))
	python3 bench/faulty.py

ways: build
	python3 bench/ways.py

speed: build
	python3 proving/prove.py bench
	python3 bench/run.py --kinds county,comb,lines,star,squares,spiral --counties 100000 --decided 100000 --long 100000 --segments 2750000 --certificates 1000000
	python3 bench/instructions.py $(if $(BESIDE),--beside $(BESIDE))
	python3 bench/beside.py --counties 100000,1000000 $(if $(BESIDE),--beside $(BESIDE))
	python3 bench/hostile.py --sweep $(if $(BESIDE),--beside $(BESIDE))
	python3 bench/faulty.py

geojson: build
	python3 tests/formats/geojson.py

pictures: build
	python3 tests/formats/pictures.py

real-maps: build
	/usr/bin/python3 real-maps/run.py

pages: build
	python3 tests/installed/installed.py
	python3 tests/installed/progress.py
	python3 tests/installed/unproved.py
	python3 tests/pages/mended.py

promises:
	python3 proving/promises.py

SHARE = $(DESTDIR)$(PREFIX)/share

install: build
	python3 install/pages.py $(PROGRAM) install/out
	install -d $(DESTDIR)$(PREFIX)/bin $(SHARE)/man/man1 $(SHARE)/bash-completion/completions \
	    $(SHARE)/zsh/site-functions $(SHARE)/fish/vendor_completions.d
	install $(PROGRAM) $(DESTDIR)$(PREFIX)/bin/tigertopo
	install -m 644 install/out/tigertopo.1 $(SHARE)/man/man1/tigertopo.1
	install -m 644 install/out/tigertopo.bash $(SHARE)/bash-completion/completions/tigertopo
	install -m 644 install/out/_tigertopo $(SHARE)/zsh/site-functions/_tigertopo
	install -m 644 install/out/tigertopo.fish $(SHARE)/fish/vendor_completions.d/tigertopo.fish

dist: build
	rm -rf dist
	python3 install/dist.py $(PROGRAM) dist

dist-check: build
	python3 tests/installed/packaged.py

dist-anew:
	python3 tests/installed/anew.py

uninstall:
	rm -f $(DESTDIR)$(PREFIX)/bin/tigertopo $(SHARE)/man/man1/tigertopo.1 \
	    $(SHARE)/bash-completion/completions/tigertopo $(SHARE)/zsh/site-functions/_tigertopo \
	    $(SHARE)/fish/vendor_completions.d/tigertopo.fish
