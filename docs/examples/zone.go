package main

// #cgo pkg-config: pzic
// #include <pzic_tree.h>
import "C"

import (
	"fmt"
	"os"
	"sync"
	"unsafe"
)

func main() {
	folder, name := C.CString(os.Args[1]), C.CString("Europe/Dublin")
	defer C.free(unsafe.Pointer(folder))
	defer C.free(unsafe.Pointer(name))

	var zone C.pzic_handle
	var reason C.uint32_t
	if C.pzic_tree_zone(folder, name, &zone, &reason) != C.PZIC_OK {
		os.Exit(1)
	}
	defer C.pzic_free(&zone)

	// Any number of goroutines may read one zone.
	var readers sync.WaitGroup
	offsets := make([]int, 4)
	for i := range offsets {
		readers.Add(1)
		go func(i int) {
			defer readers.Done()
			var state C.pzic_state
			if C.pzic_zone_at(&zone, C.int64_t(1700000000+i*10000000), &state) == C.PZIC_OK {
				offsets[i] = int(state.offset)
			}
		}(i)
	}
	readers.Wait()
	fmt.Println(offsets)

	var instant C.int64_t
	fmt.Println(C.pzic_zone_instant(&zone, C.PZIC_REJECT, 1729992600, &instant) == C.PZIC_FOLD)
}

/* Prints:
[0 0 3600 0]
true
*/
