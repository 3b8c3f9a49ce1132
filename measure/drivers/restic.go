// Cuts a file in memory into chunks by restic's chunker, with the sizes of drivers/cuts.c, a line for each turn: how many chunks it made,
// and the seconds of processor time.
//
//	restic FILE TURNS
package main

import (
	"bytes"
	"fmt"
	"io"
	"os"
	"strconv"
	"syscall"

	"github.com/restic/chunker"
)

const (
	least       = 16 << 10
	averageBits = 16
	most        = 256 << 10
	polynomial  = chunker.Pol(0x3DA3358B4DC173)
)

// seconds is the processor time so far.
func seconds() float64 {
	var used syscall.Rusage
	if err := syscall.Getrusage(syscall.RUSAGE_SELF, &used); err != nil {
		panic(err)
	}
	of := func(t syscall.Timeval) float64 { return float64(t.Sec) + float64(t.Usec)/1e6 }
	return of(used.Utime) + of(used.Stime)
}

// chunks counts the chunks of the text, each of which is copied into the buffer.
func chunks(text, buffer []byte) int {
	cutter := chunker.NewWithBoundaries(bytes.NewReader(text), polynomial, least, most)
	cutter.SetAverageBits(averageBits)
	for count := 0; ; count++ {
		if _, err := cutter.Next(buffer); err == io.EOF {
			return count
		} else if err != nil {
			panic(err)
		}
	}
}

func main() {
	text, err := os.ReadFile(os.Args[1])
	if err != nil {
		panic(err)
	}
	turns, err := strconv.Atoi(os.Args[2])
	if err != nil {
		panic(err)
	}
	buffer := make([]byte, most)
	for turn := 0; turn < turns; turn++ {
		start := seconds()
		count := chunks(text, buffer)
		fmt.Printf("%d %.6f\n", count, seconds()-start)
	}
}
