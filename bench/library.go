// For `bench/library.sh`: asks Go for the UT offset of a zone at every tenth of the instants that
// `library.c` kept, random and sorted, and compares what it answers with the offsets kept beside
// them. Prints the nanoseconds for one instant, the best of five runs.
//
// usage: library ZONE FOLDER
package main

import (
	"encoding/binary"
	"fmt"
	"log"
	"math"
	"os"
	"time"
)

const (
	apart = 10
	runs  = 5
)

func read(path string) []byte {
	bytes, err := os.ReadFile(path)
	if err != nil {
		log.Fatal(err)
	}
	return bytes
}

func measure(zone *time.Location, folder, order string) {
	bytes := read(folder + "/" + order)
	wanted := read(folder + "/" + order + ".offsets")
	count := len(bytes) / 8 / apart
	instants := make([]int64, count)
	for i := range instants {
		instants[i] = int64(binary.LittleEndian.Uint64(bytes[8*apart*i:]))
	}
	offsets := make([]int, count)
	best := math.Inf(1)
	for run := 0; run < runs; run++ {
		start := time.Now()
		for i, t := range instants {
			_, offsets[i] = time.Unix(t, 0).In(zone).Zone()
		}
		best = math.Min(best, float64(time.Since(start).Nanoseconds())/float64(count))
	}
	for i, offset := range offsets {
		if int32(offset) != int32(binary.LittleEndian.Uint32(wanted[4*apart*i:])) {
			log.Fatal("library: other offsets by Go")
		}
	}
	fmt.Printf("one instant, %s: Go %.2f ns\n", order, best)
}

func main() {
	zone, err := time.LoadLocation(os.Args[1])
	if err != nil {
		log.Fatal(err)
	}
	measure(zone, os.Args[2], "random")
	measure(zone, os.Args[2], "sorted")
}
