// A user of the library in Go.
package main

// #cgo pkg-config: icysixel
// #include <icysixel.h>
import "C"

func main() {
	var decoder C.icysixel
	if C.icysixel_new(&decoder) != C.ICYSIXEL_OK {
		panic("icysixel_new")
	}
	C.icysixel_free(&decoder)
}
