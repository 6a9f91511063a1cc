# `make` proves and builds the program, `make demo` audits a first network (before a build too), `make test` proves all crates and runs
# all tests, `make mutants` tries all mutants, `make install PREFIX=..` installs, `make deb` makes a Debian package.
PREFIX ?= /usr/local
PROGRAM = crates/ripaudit/out/ripaudit
SHARE = $(DESTDIR)$(PREFIX)/share
DOC = $(SHARE)/doc/ripaudit

# The tests of the built program. They run side by side, in any order.
SUITES = $(addprefix tests/,agreement command-line completions goldens growths limits live pages scripts/test)

.PHONY: all demo test gate suites mutants install uninstall deb clean $(SUITES)

all: $(PROGRAM)

demo:
	@sh examples/demo

# The first build proves the program and the libraries below it.
$(PROGRAM): crates.txt HANDLES $(shell find crates/*/src crates/*/specs crates/*/proofs -type f ! -path 'crates/*_tests/*')
	@sh packaging/build
	@touch $(PROGRAM)

test: gate
	@$(MAKE) --no-print-directory --keep-going --output-sync=target -j "$$(nproc)" suites

gate:
	sh tests/gate $(ANEW)

suites: $(SUITES)

$(SUITES):
	sh $@ $(PROGRAM)

mutants:
	tests/mutants

# The demo stays out of what is installed: it runs the program of the checkout.
install: $(PROGRAM)
	install -D $(PROGRAM) $(DESTDIR)$(PREFIX)/bin/ripaudit
	install -D -m 644 docs/ripaudit.1 $(SHARE)/man/man1/ripaudit.1
	install -d $(SHARE)/ripaudit
	install -m 755 share/causes share/plan-from-routers share/plan-to-dot share/routes-from-routers $(SHARE)/ripaudit
	install -m 644 share/*.awk share/routers.sh $(SHARE)/ripaudit
	install -D -m 644 completions/ripaudit.bash $(SHARE)/bash-completion/completions/ripaudit
	install -D -m 644 completions/_ripaudit $(SHARE)/zsh/site-functions/_ripaudit
	install -D -m 644 completions/ripaudit.fish $(SHARE)/fish/vendor_completions.d/ripaudit.fish
	install -d $(DOC)/docs
	install -m 644 README.md $(DOC)
	install -m 644 docs/*.md docs/lab.svg $(DOC)/docs
	rm -rf $(DOC)/examples
	cp -R examples $(DOC)
	rm $(DOC)/examples/demo
	chmod -R u=rwX,go=rX $(DOC)/examples

uninstall:
	rm -rf $(DESTDIR)$(PREFIX)/bin/ripaudit $(SHARE)/man/man1/ripaudit.1 $(SHARE)/ripaudit $(DOC)
	rm -f $(SHARE)/bash-completion/completions/ripaudit $(SHARE)/zsh/site-functions/_ripaudit
	rm -f $(SHARE)/fish/vendor_completions.d/ripaudit.fish

deb: $(PROGRAM)
	sh packaging/deb $(PROGRAM)

clean:
	rm -rf out crates/*/out
