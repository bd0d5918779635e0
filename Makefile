# Proves, builds, checks and installs the program. Each target is a few lines over the commands of README.md.
#
#   make                        proves and builds the program, crates/qsys/out/qsys
#   make check                  the gate: proofs, tests, wrong bodies that have to be refused, examples and tables of decks
#   make install PREFIX=..      the program, its manual pages, the files for editors and shells, examples and documents, and the
#                               Python package where it is there, below PREFIX (/usr/local)
#   make uninstall PREFIX=..    takes away what `make install` put there
#   make deb                    a package for Debian of the same files, out/radwelio_VERSION_ARCHITECTURE.deb

PREFIX ?= /usr/local
PROGRAM ?= crates/qsys/out/qsys
root = $(DESTDIR)$(PREFIX)
share = $(root)/share
own = $(share)/radwelio
vim = ftdetect ftplugin indent syntax
modules = $(root)/lib/python3/dist-packages

.PHONY: all check install install-files uninstall deb

all:
	@tools/prove

check:
	bash .ci/run

install: all install-files

# What is installed, of a program that was built.
install-files:
	install -d $(root)/bin $(own)/examples $(own)/docs $(share)/man/man1 $(share)/man/man5
	install -d $(share)/emacs/site-lisp $(share)/bash-completion/completions
	install -m 755 $(PROGRAM) $(root)/bin/qsys
	install -m 644 examples/* $(own)/examples
	install -m 644 README.md docs/*.md $(own)/docs
	install -D -m 644 docs/pictures/*.svg -t $(own)/docs/pictures
	install -m 644 docs/man/qsys.1 $(share)/man/man1
	install -m 644 docs/man/qsys.5 $(share)/man/man5
	for part in $(vim); do install -D -m 644 editors/vim/$$part/qsys.vim -t $(share)/vim/vimfiles/$$part; done
	install -m 644 editors/emacs/qsys-mode.el $(share)/emacs/site-lisp
	install -m 644 completions/qsys $(share)/bash-completion/completions
	if [ -d python/radwelio ]; then cd python && find radwelio -name __pycache__ -prune -o -type f \
	  -exec install -D -m 644 {} $(abspath $(modules))/{} \;; fi

uninstall:
	rm -f $(root)/bin/qsys $(share)/man/man1/qsys.1 $(share)/man/man5/qsys.5
	for part in $(vim); do rm -f $(share)/vim/vimfiles/$$part/qsys.vim; done
	rm -f $(share)/emacs/site-lisp/qsys-mode.el $(share)/bash-completion/completions/qsys
	rm -rf $(own) $(modules)/radwelio

deb: all
	packaging/build-deb out
