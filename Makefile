.PHONY: help example test bent

help:
	@echo "make example      the library's job on a ready example: proves and builds what it needs, about 5 minutes on two cores the first time"
	@echo "make test         every proof, every must-fail edit, every bend, every test: about 55 minutes on two cores"
	@echo "make bent         the bends alone: definitions changed together with their code, each refused by a theorem; about 31 minutes once every crate is proved"
	@echo "make install      headers, archive, pkg-config file, manual page, examples; takes PREFIX, LIBDIR, DESTDIR and others"
	@echo "make uninstall    takes them away again"
	@echo "README.md says what each of them needs."

example:
	@examples/run

test:
	@tests/run

bent:
	@tests/bent/run

include install.mk
