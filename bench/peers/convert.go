// For `bench/convert.sh`: converts the column on standard input as `pzic convert` does, with Go's own
// package for time. The variable ZONEINFO names the tree of files. A field has no double quotes. Each
// worker converts a block of lines at a time, and the rows are written in the same order.
//
// usage: convert WORKERS
package main

import (
	"bufio"
	"bytes"
	"io"
	"log"
	"os"
	"runtime"
	"strconv"
	"time"
)

const blockSize = 1 << 20

// A block of whole lines, and where its rows go.
type block struct {
	lines []byte
	rows  chan []byte
}

// Reads standard input in blocks, and passes them on, and where their rows will be, in order.
func read(blocks chan<- block, order chan<- chan []byte) {
	in := bufio.NewReaderSize(os.Stdin, blockSize)
	for {
		lines := make([]byte, blockSize)
		count, err := io.ReadFull(in, lines)
		lines = lines[:count]
		if err == nil {
			// The rest of the last line.
			var rest []byte
			rest, err = in.ReadBytes('\n')
			lines = append(lines, rest...)
		}
		if err != nil && err != io.EOF && err != io.ErrUnexpectedEOF {
			log.Fatal(err)
		}
		rows := make(chan []byte, 1)
		order <- rows
		blocks <- block{lines, rows}
		if err != nil {
			break
		}
	}
	close(blocks)
	close(order)
}

// Appends the row of a line.
func push(text, line []byte, zones map[string]*time.Location) []byte {
	comma := bytes.IndexByte(line, ',')
	if comma < 0 {
		log.Fatal("RowFields")
	}
	zone, found := zones[string(line[:comma])]
	if !found {
		var err error
		name := string(line[:comma])
		if zone, err = time.LoadLocation(name); err != nil {
			log.Fatal(err)
		}
		zones[name] = zone
	}
	seconds, err := strconv.ParseInt(string(line[comma+1:]), 10, 64)
	if err != nil {
		log.Fatal(err)
	}
	local := time.Unix(seconds, 0).In(zone)
	flag := ",0,"
	if local.IsDST() {
		flag = ",1,"
	}
	abbreviation, _ := local.Zone()
	text = append(text, line...)
	text = local.AppendFormat(text, ",2006-01-02T15:04:05,-07:00:00")
	text = append(text, flag...)
	text = append(text, abbreviation...)
	return append(text, '\n')
}

func work(blocks <-chan block) {
	zones := map[string]*time.Location{}
	for block := range blocks {
		text := make([]byte, 0, 3*len(block.lines))
		lines := block.lines
		for len(lines) > 0 {
			line := lines
			end := bytes.IndexByte(lines, '\n')
			if end < 0 {
				lines = nil
			} else {
				line, lines = lines[:end], lines[end+1:]
			}
			text = push(text, line, zones)
		}
		block.rows <- text
	}
}

func main() {
	workers, err := strconv.Atoi(os.Args[1])
	if err != nil {
		log.Fatal(err)
	}
	runtime.GOMAXPROCS(workers)
	blocks := make(chan block)
	order := make(chan chan []byte, 2*workers)
	for i := 0; i < workers; i++ {
		go work(blocks)
	}
	go read(blocks, order)
	for rows := range order {
		if _, err := os.Stdout.Write(<-rows); err != nil {
			log.Fatal(err)
		}
	}
}
