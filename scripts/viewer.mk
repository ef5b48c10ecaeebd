# The viewer for terminals, which needs gdk-pixbuf. `make` builds it where that is installed.
#
#   make viewer            builds out/sixel-view
#   make install-viewer    copies it to DESTDIR/PREFIX, which is /usr/local by default
#   make uninstall-viewer  removes it, as make uninstall does
#
# It contains the library, so it runs without the shared one.

viewer_files = 755:out/sixel-view:bin/sixel-view 644:man/sixel-view.1:share/man/man1/sixel-view.1

all: $(shell pkg-config --exists gdk-pixbuf-2.0 2>&- && echo viewer)

viewer: out/sixel-view

install-viewer: viewer
	$(call copy,$(viewer_files))

uninstall: uninstall-viewer

uninstall-viewer:
	rm -f $(foreach file,$(viewer_files),"$(installed)/$(call part,3)")

.PHONY: viewer install-viewer uninstall-viewer

out/sixel-view: viewer/sixel-view.c out/libicysixel.a out/icysixel.h
	@pkg-config --exists gdk-pixbuf-2.0 || $(call stop,gdk-pixbuf is missing: install its -dev package)
	$(cc) -Iout $< out/libicysixel.a $(LDFLAGS) \
		$$(pkg-config --cflags --libs gdk-pixbuf-2.0) -o $@
