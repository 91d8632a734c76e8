# `make install PREFIX=/usr/local`: see bin/install.
PREFIX ?= /usr/local
export PREFIX DESTDIR MACHINE FROM

.PHONY: install
install:
	@bin/install
