# make install PREFIX=/usr/local DESTDIR=: the command with its programs, which are those of release/, its manual page and its
# completions. make uninstall takes them away. make wheel and make pyz leave a wheel and a file that Python runs in out/.
PREFIX ?= /usr/local
PYTHON ?= python3
ZSH ?= $(PREFIX)/share/zsh/site-functions
home = $(DESTDIR)$(PREFIX)/lib/virraupez
bin = $(DESTDIR)$(PREFIX)/bin
share = $(DESTDIR)$(PREFIX)/share
zsh = $(DESTDIR)$(ZSH)

all:

install:
	rm -rf '$(home)'
	install -d '$(home)/tools' '$(bin)' '$(share)/man/man1' '$(share)/doc/virraupez' '$(share)/bash-completion/completions' '$(zsh)'
	cp -R tools/virraupez '$(home)/tools/'
	find '$(home)' -name __pycache__ -prune -exec rm -r {} +
	$(PYTHON) -B release/furnish.py '$(home)/tools/virraupez/shipped'
	chmod -R u=rwX,go=rX '$(home)'
	install virraupez '$(home)'
	ln -sf ../lib/virraupez/virraupez '$(bin)/virraupez'
	$(PYTHON) -B virraupez completion bash >'$(share)/bash-completion/completions/virraupez'
	$(PYTHON) -B virraupez completion zsh >'$(zsh)/_virraupez'
	chmod 644 '$(share)/bash-completion/completions/virraupez' '$(zsh)/_virraupez'
	install -m 644 docs/virraupez.1 '$(share)/man/man1'
	install -m 644 release/NOTICES.md '$(share)/doc/virraupez'

# The command is faster with byte code, which users can't write here.
compile:
	$(PYTHON) -m compileall -q -d $(PREFIX)/lib/virraupez/tools/virraupez '$(home)/tools/virraupez'

uninstall:
	rm -rf '$(home)' '$(share)/doc/virraupez'
	rm -f '$(bin)/virraupez' '$(share)/man/man1/virraupez.1' '$(share)/bash-completion/completions/virraupez' '$(zsh)/_virraupez'

wheel:
	$(PYTHON) -m pip wheel --quiet --no-deps --no-build-isolation --wheel-dir out .

pyz: wheel
	$(PYTHON) release/pyz.py out/virraupez-$$(cat VERSION)-*.whl out/virraupez.pyz

.PHONY: all install compile uninstall wheel pyz
