# The toolchain's command `rt` proves, builds and tests; nothing else is needed, and nothing is fetched.
PREFIX ?= /usr/local
PROGRAM := crates/ladder/out/ladder
BUILT := bin/ladder
SOURCES := crates.txt $(shell find crates -path '*/out' -prune -o -type f -print)

.PHONY: all run try test stress mutants browser samples bench install install-files dist clean

all: bin/ladder

# Proves what changed, libraries side by side, and builds. `make JOBS=2` has two checks at once; a check takes up to 3 GB.
bin/ladder: $(SOURCES)
	python3 tools/libraries.py ladder $(if $(JOBS),--jobs $(JOBS))
	cd crates/ladder && rt run -- causes data/motor.ld Motor Start Stop
	mkdir -p bin
	cp $(PROGRAM) bin/ladder

# The stored example: which inputs switch the motor on.
run: bin/ladder
	cd crates/ladder/data && ../../../bin/ladder causes motor.ld Motor Start Stop

# The stored example by a program that is built without proof, for a first look; it takes one to two minutes.
try:
	@echo "This program is built without proof: nothing is proved yet."
	cd crates/ladder && rt try -- causes data/motor.ld Motor Start Stop
	@echo "Nothing is proved yet: make proves and builds the program."

# The gate, from nothing, and then the program that it built as a user runs it, and all that the documents show.
test:
	rt ci
	python3 tests/end_to_end.py $(PROGRAM)
	python3 tools/side_by_side.py \
	  "python3 tests/documents.py $(PROGRAM)" \
	  "python3 tests/pages.py" \
	  "python3 tests/rules.py $(PROGRAM)" \
	  "python3 tests/terminal.py $(PROGRAM)" \
	  "python3 tests/references.py" \
	  "python3 tests/lemmas.py" \
	  "python3 tests/definitions.py --check" \
	  "python3 tests/seconds.py --check" \
	  "python3 tests/mutants.py --where" \
	  "python3 tests/completions.py $(PROGRAM)" \
	  "python3 tests/editors.py" \
	  "python3 tests/distribution.py $(PROGRAM)" \
	  "python3 tests/waves.py $(PROGRAM)" \
	  "python3 tests/aliases.py $(PROGRAM)" \
	  "python3 tests/filling.py $(PROGRAM)" \
	  "python3 tests/assuming.py $(PROGRAM) 200" \
	  "python3 tests/reaching.py $(PROGRAM)" \
	  "python3 tests/differing.py $(PROGRAM) 600" \
	  "python3 tests/judging.py $(PROGRAM) 300" \
	  "python3 tests/judging_runs.py $(PROGRAM) 150" \
	  "python3 tests/importing.py $(PROGRAM) 200" \
	  "python3 tests/networks.py $(PROGRAM) 200" \
	  "python3 tests/statements.py $(PROGRAM) 200 200" \
	  "python3 tests/exporting.py $(PROGRAM) 200" \
	  "python3 tests/exporting.py $(PROGRAM) 200 1 --xml"
	python3 tests/growth.py $(PROGRAM)
	python3 tests/full.py $(PROGRAM)
	python3 tests/saving.py $(PROGRAM)
	python3 tests/progress.py $(PROGRAM)
	python3 tests/stress.py $(PROGRAM) --sample 1000
	python3 tests/wrong_bodies.py $(PROGRAM)

# Some 84,000 broken texts and requests in less and less memory, each answered as it must be.
stress: bin/ladder
	python3 tests/stress.py bin/ladder

# The mutants that the gate leaves out, of all crates (hours) or of those that are named: make mutants CRATES="text_causes cli_arguments".
mutants: bin/ladder
	python3 tests/mutants.py $(CRATES)

# Pages of HTML in a real browser, in light and dark; passed over where there is none.
browser: bin/ladder
	python3 tests/browser.py bin/ladder bin/pages

# The sample projects of LinuxCNC, imported, and four of them beside its engine; fetches a Debian package, and is passed over without it.
samples: bin/ladder
	python3 tests/samples.py bin/ladder --kept=bin/linuxcnc
	python3 tests/engine.py bin/ladder --kept=bin/linuxcnc

# Timings; they prove nothing and fail nothing.
bench: bin/ladder
	python3 bench/bench.py bin/ladder

install: bin/ladder
	@$(MAKE) --no-print-directory install-files BUILT=bin/ladder

# The same of a program that is there, without building it.
install-files:
	install -D -m 755 $(BUILT) $(DESTDIR)$(PREFIX)/bin/ladder
	install -D -m 644 man/ladder.1 $(DESTDIR)$(PREFIX)/share/man/man1/ladder.1
	install -D -m 644 completions/ladder.bash $(DESTDIR)$(PREFIX)/share/bash-completion/completions/ladder
	install -D -m 644 completions/_ladder $(DESTDIR)$(PREFIX)/share/zsh/site-functions/_ladder
	install -D -m 644 completions/ladder.fish $(DESTDIR)$(PREFIX)/share/fish/vendor_completions.d/ladder.fish
	for folder in ftdetect ftplugin syntax; do \
	  install -D -m 644 share/vim/vimfiles/$$folder/ladder.vim $(DESTDIR)$(PREFIX)/share/vim/vimfiles/$$folder/ladder.vim || exit 1; \
	done
	install -d $(DESTDIR)$(PREFIX)/share/ladder
	cp -R share/vscode $(DESTDIR)$(PREFIX)/share/ladder
	install -d $(DESTDIR)$(PREFIX)/share/doc/ladder
	install -m 644 README.md LICENSE $(DESTDIR)$(PREFIX)/share/doc/ladder
	cp -R docs examples $(DESTDIR)$(PREFIX)/share/doc/ladder

# One archive for all systems like this one, and a package of Debian, so that one person proves and others install. The program that is packed says by
# `--version` of which commit it is.
dist:
	python3 tools/stamp.py
	$(MAKE) bin/ladder; status=$$?; python3 tools/stamp.py --undo; exit $$status
	python3 tools/distribution.py bin/ladder bin

clean:
	rm -rf bin crates/*/out
