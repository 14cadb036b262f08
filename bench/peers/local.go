// For `bench/local.sh`: tells the instants of the local times on standard input as `pzic convert --from
// local` does, with `time.Date`, which may take either instant of a fold. The variable ZONEINFO names the
// tree of files. A line is a name, a comma and a local time. Each worker has as many lines.
//
// usage: local WORKERS
package main

import (
	"bytes"
	"io"
	"log"
	"os"
	"runtime"
	"strconv"
	"time"
)

// Returns the number that some digits spell.
func number(digits []byte) int {
	n := 0
	for _, digit := range digits {
		n = 10*n + int(digit-'0')
	}
	return n
}

// Returns the instant of a local time `YYYY-MM-DDThh:mm:ss`.
func instant(local []byte, zone *time.Location) time.Time {
	return time.Date(number(local[:4]), time.Month(number(local[5:7])), number(local[8:10]),
		number(local[11:13]), number(local[14:16]), number(local[17:19]), 0, zone)
}

// Appends the row of a line.
func push(text, line []byte, zones map[string]*time.Location) []byte {
	comma := bytes.IndexByte(line, ',')
	zone, found := zones[string(line[:comma])]
	if !found {
		var err error
		name := string(line[:comma])
		if zone, err = time.LoadLocation(name); err != nil {
			log.Fatal(err)
		}
		zones[name] = zone
	}
	at := instant(line[comma+1:], zone)
	flag := ",0,"
	if at.IsDST() {
		flag = ",1,"
	}
	abbreviation, _ := at.Zone()
	text = append(text, line...)
	text = append(text, ',')
	text = strconv.AppendInt(text, at.Unix(), 10)
	text = at.AppendFormat(text, ",-07:00:00")
	text = append(text, flag...)
	text = append(text, abbreviation...)
	return append(text, '\n')
}

// Returns the rows of whole lines.
func work(lines []byte, rows chan<- []byte) {
	zones := map[string]*time.Location{}
	text := make([]byte, 0, 2*len(lines))
	for len(lines) > 0 {
		end := bytes.IndexByte(lines, '\n')
		text = push(text, lines[:end], zones)
		lines = lines[end+1:]
	}
	rows <- text
}

func main() {
	workers, err := strconv.Atoi(os.Args[1])
	if err != nil {
		log.Fatal(err)
	}
	runtime.GOMAXPROCS(workers)
	column, err := io.ReadAll(os.Stdin)
	if err != nil {
		log.Fatal(err)
	}
	parts := make([]chan []byte, workers)
	for i := range parts {
		end := len(column) / (workers - i)
		end += bytes.IndexByte(column[end:], '\n') + 1
		if i == workers-1 {
			end = len(column)
		}
		parts[i] = make(chan []byte, 1)
		go work(column[:end], parts[i])
		column = column[end:]
	}
	for _, rows := range parts {
		if _, err := os.Stdout.Write(<-rows); err != nil {
			log.Fatal(err)
		}
	}
}
