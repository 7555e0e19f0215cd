# The programs. `make quick` builds evltool in two minutes, without the proofs; `make` proves all that stands below the programs first.
PROGRAMS := evltool vardozek
PREFIX ?= /usr/local
VERSION := $(shell sed -n 's/.*const VERSION: &str = "\([^"]*\)".*/\1/p' crates/evm_host/src/answering.rt)
SOURCES := crates.txt $(shell find crates -name out -prune -o -type f -not -path '*/must-fail/*' -not -path '*/wrong-bodies/*' -not -path '*/data/*' -print)
SHARE := $(DESTDIR)$(PREFIX)/share

.PHONY: all quick test install dist clean
all: $(PROGRAMS:%=bin/.proved-%)

bin/.proved-%: $(SOURCES)
	build/beside $* -- --help > /dev/null
	install -D crates/$*/out/$* bin/$*
	touch $@

# slow, as it checks each access of memory while it runs; enough for the tutorial
quick:
	build/quick evltool bin/evltool
	rm -f bin/.proved-evltool
	bin/evltool run < examples/first.script

# all proofs, wrong bodies, tests and programs
test:
	.ci/run

install: all
	for it in $(PROGRAMS); do install -D bin/$$it $(DESTDIR)$(PREFIX)/bin/$$it; done
	for it in docs/*.1; do install -D -m 644 $$it $(SHARE)/man/man1/$${it##*/}; done
	for it in completions/*.bash; do install -D -m 644 $$it $(SHARE)/bash-completion/completions/$$(basename $$it .bash); done
	for it in completions/_*; do install -D -m 644 $$it $(SHARE)/zsh/site-functions/$${it##*/}; done
	for it in completions/*.fish; do install -D -m 644 $$it $(SHARE)/fish/vendor_completions.d/$${it##*/}; done
	mkdir -p $(SHARE)/vardozek && cp -r kit $(SHARE)/vardozek/
	# the kit looks for the programs in ../bin, as here
	ln -sfn ../../bin $(SHARE)/vardozek/bin

# one tarball of what `make install` installs, named by version
dist: all
	rm -rf bin/dist && $(MAKE) install DESTDIR=$(CURDIR)/bin/dist PREFIX=/vardozek-$(VERSION)
	tar -C bin/dist -czf vardozek-$(VERSION).tar.gz vardozek-$(VERSION)

clean:
	rm -rf bin
