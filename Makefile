# make tool      the tool, tool/target/release/ruevault, and the library where it isn't there yet (needs rt and cargo)
# make library   the library again, crates/kern_ffi/out/libkern_ffi.a
# make check     the tests of the tool, the wrapper, the header and the examples in C (the proofs' gate is rt ci)
# make install   into PREFIX (/usr/local), below DESTDIR where one is given; make uninstall takes it out again
# make clean     what make tool and make check built, but not the library

PREFIX ?= /usr/local
DESTDIR ?=
CARGO ?= cargo
INSTALL ?= install

library := crates/kern_ffi/out/libkern_ffi.a
tool := tool/target/release/ruevault
version := $(shell sed -n 's/^version = "\(.*\)"/\1/p' tool/Cargo.toml)
root := $(DESTDIR)$(PREFIX)

.PHONY: tool library check install uninstall clean

tool: $(library)
	$(CARGO) build --release --offline --manifest-path tool/Cargo.toml

$(library):
	cd crates/kern_ffi && rt lib

library:
	cd crates/kern_ffi && rt lib

check: $(library)
	$(CARGO) test --release --offline --manifest-path tool/Cargo.toml

install: tool
	$(INSTALL) -d $(root)/bin $(root)/lib/pkgconfig $(root)/include $(root)/share/man/man1
	$(INSTALL) -d $(root)/share/bash-completion/completions $(root)/share/zsh/site-functions $(root)/share/fish/vendor_completions.d
	$(INSTALL) -m 755 $(tool) $(root)/bin/ruevault
	$(INSTALL) -m 644 $(library) $(root)/lib/libkern_ffi.a
	$(INSTALL) -m 644 include/kern.h include/kern_sheet.h $(root)/include
	sed -e 's|@PREFIX@|$(PREFIX)|' -e 's|@VERSION@|$(version)|' tool/ruevault.pc.in > $(root)/lib/pkgconfig/ruevault.pc
	$(INSTALL) -m 644 tool/man/ruevault.1 $(root)/share/man/man1/ruevault.1
	$(INSTALL) -m 644 tool/completions/ruevault.bash $(root)/share/bash-completion/completions/ruevault
	$(INSTALL) -m 644 tool/completions/_ruevault $(root)/share/zsh/site-functions/_ruevault
	$(INSTALL) -m 644 tool/completions/ruevault.fish $(root)/share/fish/vendor_completions.d/ruevault.fish

uninstall:
	rm -f $(root)/bin/ruevault $(root)/lib/libkern_ffi.a $(root)/include/kern.h $(root)/include/kern_sheet.h
	rm -f $(root)/lib/pkgconfig/ruevault.pc $(root)/share/man/man1/ruevault.1
	rm -f $(root)/share/bash-completion/completions/ruevault $(root)/share/zsh/site-functions/_ruevault
	rm -f $(root)/share/fish/vendor_completions.d/ruevault.fish

clean:
	$(CARGO) clean --offline --manifest-path tool/Cargo.toml
